//! Document 01: denials with what they bring, and antiscenarios by number; document 02, A1: with both halves of a set, and A8: the denials of a
//! missing point as short as the table has them.
use super::blunder::Blunder;
use super::far_end::far_end;
use super::rows::points;
use super::sheet::{is_end, kind::*, Row, Sheet, START};

/// The set of all events has it in both halves.
const TOP: u32 = 4_294_967_295;

/// Document 01: a denial; the introducing rows that it brings, then its own.
pub type Denial = Vec<Row>;

/// The points that a row needs: those it speaks of, without the one it introduces.
fn needs(row: &Row) -> Vec<u32> {
    match row.kind {
        POINT => vec![],
        NEXT | LAST => vec![row.q],
        EARLIER | LATER => vec![row.q, row.a],
        EVENT => vec![row.p],
        _ => vec![row.p, row.q],
    }
}

/// The introducing rows, within the section and in sheet order, of these points and of those that they need in turn.
fn brought(section: &[Row], wanted: &[u32]) -> Vec<Row> {
    let mut wanted = wanted.to_vec();
    loop {
        let in_turn: Vec<u32> =
            section.iter().filter(|row| row.introduces() && wanted.contains(&row.p)).flat_map(needs).collect();
        let fresh: Vec<u32> = in_turn.into_iter().filter(|point| !wanted.contains(point)).collect();
        if fresh.is_empty() {
            break;
        }
        wanted.extend(fresh);
    }
    section.iter().filter(|row| row.introduces() && wanted.contains(&row.p)).copied().collect()
}

fn brought_for(index: usize, section: &[Row], blunder: Blunder) -> Vec<Row> {
    match blunder {
        Blunder::BringsAll => brought(section, &points(section)),
        Blunder::BringsEarlier => brought(section, &points(&section[..index])),
        _ => brought(section, &needs(&section[index])),
    }
}

/// Point 10i + 9, which a denial of FREE introduces.
pub fn is_of_denial(point: u32) -> bool {
    point % 10 == 9 && !is_end(point)
}

/// The rows that deny FREE: an event of the set stands between.
fn free_denials(row: &Row) -> Vec<Vec<Row>> {
    let i = row.section;
    let r = 10 * i + 9;
    let point = Row::new(i, POINT, r, 0, row.a, row.b);
    let before = |x, y| Row::new(i, BEFORE, x, y, 0, 0);
    let (p, q) = (row.p, row.q);
    if !is_end(p) && !is_end(q) {
        return vec![vec![point, before(p, r), before(r, q)], vec![point, before(q, r), before(r, p)]];
    }
    if is_end(p) && is_end(q) {
        return vec![vec![point]];
    }
    let (end, s) = if is_end(p) { (p, q) } else { (q, p) };
    vec![vec![point, if end == START { before(r, s) } else { before(s, r) }]]
}

/// The row that denies NEXT or LAST: no event of the set stands between q and the far end.
fn missing(sheet: &Sheet, row: &Row) -> Row {
    let far = far_end(sheet, row);
    let (p, q) = if row.kind == NEXT { (row.q, far) } else { (far, row.q) };
    let b = match sheet.blunder {
        Blunder::UpperHalfLost if row.kind == NEXT => 0,
        Blunder::ShortUpperHalfLost if !is_end(far) => 0,
        _ => row.b,
    };
    Row::new(row.section, FREE, p, q, row.a, b)
}

/// The rows that each denial of a row has after those it brings.
fn denying_rows(sheet: &Sheet, row: &Row) -> Vec<Vec<Row>> {
    let (i, blunder) = (row.section, sheet.blunder);
    let instead = |kind| vec![vec![Row { kind, ..*row }]];
    match row.kind {
        NEXT | LAST => vec![vec![missing(sheet, row)]],
        EARLIER | LATER => vec![],
        BEFORE if blunder == Blunder::ReverseOnly => vec![vec![Row::new(i, BEFORE, row.q, row.p, 0, 0)]],
        BEFORE => vec![vec![Row::new(i, BEFORE, row.q, row.p, 0, 0)], vec![Row::new(i, SAME, row.p, row.q, 0, 0)]],
        APART => instead(SAME),
        SAME => instead(APART),
        WITHIN => instead(OUTSIDE),
        OUTSIDE => instead(WITHIN),
        EVENT if [Blunder::EventDeniedBelow32, Blunder::BeforeA1].contains(&blunder) => {
            vec![vec![Row { a: TOP - row.a, ..*row }]]
        }
        EVENT => vec![vec![Row { a: TOP - row.a, b: TOP - row.b, ..*row }]],
        FREE => free_denials(row),
        other => panic!("kind {other} in an accepted consequent"),
    }
}

/// Document 01: the denials of a consequent, rows in sheet order.
pub fn denials(sheet: &Sheet, section: u32) -> Vec<Denial> {
    let rows = sheet.section(section);
    let mut denials = Vec::new();
    for (index, row) in rows.iter().enumerate() {
        for rest in denying_rows(sheet, row) {
            let mut denial = brought_for(index, &rows, sheet.blunder);
            denial.extend(rest);
            denials.push(denial);
        }
    }
    denials
}

/// How many denials each consequent has.
pub fn denial_counts(sheet: &Sheet) -> Vec<u64> {
    sheet.denials.iter().map(|denials| denials.len() as u64).collect()
}

/// N, the product of the denials per consequent.
pub fn count(sheet: &Sheet) -> u64 {
    if sheet.k == 0 && sheet.blunder == Blunder::NoneWithoutConsequents {
        return 0;
    }
    let count = denial_counts(sheet).iter().product();
    match sheet.blunder {
        Blunder::CountIn32Bits => count % (1 << 32),
        _ => count,
    }
}

/// The choice of each consequent, of so many denials each: m − 1 in mixed counting, the last consequent's choice moving fastest.
pub fn choices(m: u64, counts: &[u64]) -> Vec<u64> {
    let mut rest = m - 1;
    let mut choices = Vec::new();
    // The last is taken off first.
    for count in counts.iter().rev() {
        choices.push(rest % count);
        rest /= count;
    }
    choices.reverse();
    choices
}

/// The number that has these choices.
pub fn number_of(choices: &[u64], counts: &[u64]) -> u64 {
    1 + choices.iter().zip(counts).fold(0, |before, (choice, count)| before * count + choice)
}

/// Document 01: antiscenario number m, of 1 to N.
pub fn antiscenario(sheet: &Sheet, m: u64) -> Vec<Row> {
    let chosen = sheet.denials.iter().zip(choices(m, &denial_counts(sheet)));
    let mut rows = sheet.section(0);
    rows.extend(chosen.flat_map(|(denials, choice)| &denials[choice as usize]));
    rows
}
