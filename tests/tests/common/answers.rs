//! What the C interface answers on a pair, after every operation was compared with the reference on it, or as plain Rust answers.
use super::counted;
use satskhubo_tests::compare::compare;
use satskhubo_tests::expected::VIOLATED;
use satskhubo_tests::generate::logs::log_of;
use satskhubo_tests::generate::Pair;
use satskhubo_tests::host::Host;
use satskhubo_tests::outcome::{Checked, Searched, Side, Table, GUARD};
use satskhubo_tests::plain::Plain;
use satskhubo_tests::reference::operations::MOST_POINTS;

/// The positions and the rows at fault.
pub type Violation = (Vec<u32>, Vec<u32>);

pub fn pair(sheet: &[u8], lines: &[(u32, u32)]) -> Pair {
    Pair { sheet: sheet.to_vec(), log: log_of(lines).text() }
}

/// The violation, or none if the sheet holds.
pub fn verdict(pair: &Pair) -> Option<Violation> {
    counted(compare(&Host, pair, 0, 8));
    let checked = Host.check(&pair.sheet, &pair.log);
    assert_eq!(Host.check_number(&pair.sheet, &pair.log), checked.answer);
    violation(&checked)
}

/// The same by the C interface and plain Rust alike, for logs that are too long for the reference.
pub fn verdict_of_both(pair: &Pair) -> Option<Violation> {
    let check = |side: &dyn Side| side.check(&pair.sheet, &pair.log);
    let checked = check(&Host);
    assert_eq!(checked, check(&Plain));
    violation(&checked)
}

/// What a check gave.
fn violation(checked: &Checked) -> Option<Violation> {
    match checked.answer {
        0 => None,
        VIOLATED => Some((
            checked.positions[GUARD..GUARD + checked.points as usize].to_vec(),
            checked.rows[GUARD..GUARD + checked.consequents as usize].to_vec(),
        )),
        refusal => panic!("refused with {refusal}"),
    }
}

/// The smallest matching of an antiscenario.
pub fn found(pair: &Pair, number: u64) -> Option<Vec<u32>> {
    matching(&Host.search(&pair.sheet, &pair.log, number, MOST_POINTS))
}

/// The same by the C interface and plain Rust alike.
pub fn found_by_both(pair: &Pair, number: u64) -> Option<Vec<u32>> {
    let search = |side: &dyn Side| side.search(&pair.sheet, &pair.log, number, MOST_POINTS);
    let searched = search(&Host);
    assert_eq!(searched, search(&Plain), "number {number}");
    matching(&searched)
}

/// What a search found.
fn matching(searched: &Searched) -> Option<Vec<u32>> {
    assert_eq!(searched.answer, 0);
    let positions = searched.places[GUARD..].iter().copied().take_while(|&position| position <= 4001);
    (searched.found == 1).then(|| positions.collect())
}

pub fn judged(pair: &Pair, number: u64, positions: &[u32]) -> bool {
    let judged = Host.judge(&pair.sheet, &pair.log, number, &Table::of(positions, 0));
    assert_eq!(judged.answer, 0);
    judged.met == 1
}

pub fn written(sheet: &[u8], number: u64) -> String {
    let written = Host.write(sheet, number, 3437);
    assert_eq!(written.answer, 0);
    String::from_utf8(written.buffer[GUARD..GUARD + written.length].to_vec()).expect("a text is ASCII")
}
