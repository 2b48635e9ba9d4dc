//! Certificates: before a word of what was found is printed, the library itself judges that it is so. The antiscenario whose denials
//! are those of the rows at fault has a matching over the violating placement, by the positions walked to.
use crate::denial::{self, between_point, Choice};
use crate::found::{Fault, Finding, Walk};
use crate::sheet::{Row, Sheet};
use satskhubo_interface::answer::{judge, write, Answer, Failure, Judged, Written};

/// A denial chosen for each consequent.
type Choices = Vec<Choice>;

fn choices(walk: &Walk, faults: &[Fault]) -> Option<Choices> {
    faults.iter().map(|fault| walk.choice(fault.row, &fault.finding)).collect()
}

/// How many denials a consequent gives, up to a row or in all.
fn denials<'a>(rows: impl Iterator<Item = &'a Row>) -> u64 {
    rows.map(denial::count).sum()
}

/// Document 01: the number of the antiscenario with these denials, in mixed counting, the last consequent's moving fastest.
fn number(sheet: &Sheet, faults: &[Fault], choices: &[Choice]) -> Option<u64> {
    let mut number: u64 = 0;
    for (fault, choice) in faults.iter().zip(choices) {
        let before = sheet.rows.get(..fault.number as usize - 1)?;
        let own_before = denials(before.iter().filter(|row| row.section == fault.consequent));
        let own = own_before + u64::from(*choice == Choice::Second);
        number = number.checked_mul(denials(sheet.section(fault.consequent)))?.checked_add(own)?;
    }
    number.checked_add(1)
}

/// The antiscenario ends, in each consequent's section, with the denial of the row at fault.
fn denies(antiscenario: &Sheet, faults: &[Fault], choices: &[Choice]) -> bool {
    faults.iter().zip(choices).all(|(fault, &choice)| {
        let section: Vec<Row> = antiscenario.section(fault.consequent).copied().collect();
        let far = section.last().and_then(|denying| denial::far_end(antiscenario, fault.row, denying));
        far.is_some_and(|far| {
            let denial = denial::rows(fault.row, choice, far);
            !denial.is_empty() && section.ends_with(&denial)
        })
    })
}

/// The position of one of the antiscenario's points: walked to, or that of the line found between.
fn position(walk: &Walk, faults: &[Fault], row: &Row) -> Option<u32> {
    if row.section == 0 || row.p != between_point(row.section) {
        return walk.position(row.p);
    }
    let fault = faults.iter().find(|fault| fault.consequent == row.section)?;
    match fault.finding {
        Finding::Between(position) => Some(position),
        Finding::NoLine | Finding::Positions => None,
    }
}

fn uncertified(why: &str) -> Failure {
    Failure(format!("what was found could not be certified, so it is not printed: {why}"))
}

/// Nothing, or why the words cannot be certified.
pub fn certify(sheet_text: &[u8], log_text: &[u8], sheet: &Sheet, walk: &Walk, faults: &[Fault]) -> Answer<()> {
    let choices = choices(walk, faults).ok_or_else(|| uncertified("a point has no position"))?;
    let number = number(sheet, faults, &choices).ok_or_else(|| uncertified("the antiscenario has no number"))?;
    let antiscenario = match write(sheet_text, number)? {
        Written::Text(text) => Sheet::of(&text)?,
        Written::Refused(refusal) => return Err(uncertified(&format!("writing is refused {}", refusal.number()))),
    };
    if !denies(&antiscenario, faults, &choices) {
        return Err(uncertified(&format!("antiscenario {number} does not deny the rows at fault")));
    }
    let positions: Option<Vec<u32>> = antiscenario.introducing().map(|(_, row)| position(walk, faults, row)).collect();
    let positions = positions.ok_or_else(|| uncertified("a point has no position"))?;
    match judge(sheet_text, log_text, number, &positions)? {
        Judged::Met => Ok(()),
        Judged::NotMet => Err(uncertified(&format!("antiscenario {number} is not met there"))),
        Judged::Refused(refusal) => Err(uncertified(&format!("judging is refused {}", refusal.number()))),
    }
}
