//! The theses' scenarios in examples/theses: N, verdict, placement, rows at fault and the number of violating placements.
mod common;
use common::{counted, tell, theses};
use satskhubo_tests::compare::compare;
use satskhubo_tests::expected::VIOLATED;
use satskhubo_tests::generate::Pair;
use satskhubo_tests::host::Host;
use satskhubo_tests::outcome::{Side, GUARD};
use satskhubo_tests::reference::blunder::Blunder;
use satskhubo_tests::reference::operations::{open, violating};
use std::path::PathBuf;

fn file(path: PathBuf) -> Vec<u8> {
    std::fs::read(&path)
        .unwrap_or_else(|error| panic!("the theses' scenarios belong in examples/theses: {}: {error}", path.display()))
}

/// One line of EXPECTED, as the C interface and the reference answer.
fn line_for(sheet_name: &str, log_name: &str, pair: &Pair) -> String {
    let count = Host.read_sheet(&pair.sheet).count;
    let checked = Host.check(&pair.sheet, &pair.log);
    let front = format!("{sheet_name:<6} {log_name:<11} {:<5}", format!("N={count}"));
    if checked.answer != VIOLATED {
        assert_eq!(checked.answer, 0);
        return format!("{front} holds");
    }
    let opened = open(&pair.sheet, &pair.log, Blunder::None);
    let many = violating(opened.sheet.as_ref().unwrap(), opened.log.as_ref().unwrap()).len();
    let positions: Vec<String> = checked.positions[GUARD..GUARD + checked.points as usize].iter().map(u32::to_string).collect();
    let comma = if positions.len() == 1 { "," } else { "" };
    let rows = &checked.rows[GUARD..GUARD + checked.consequents as usize];
    format!("{front} violated at ({}{comma}) rows {rows:?} (violating placements: {many})", positions.join(", "))
}

#[test]
fn scenarios_of_the_theses() {
    let expected = String::from_utf8(file(theses().join("EXPECTED"))).unwrap();
    let mut comparisons = 0;
    for line in expected.lines().filter(|line| !line.trim().is_empty()) {
        let mut words = line.split_whitespace();
        let (sheet_name, log_name) = (words.next().unwrap(), words.next().unwrap());
        let pair =
            Pair { sheet: file(theses().join("sheets").join(sheet_name)), log: file(theses().join("logs").join(log_name)) };
        let squeezed = |text: &str| text.split_whitespace().collect::<Vec<_>>().join(" ");
        assert_eq!(squeezed(&line_for(sheet_name, log_name, &pair)), squeezed(line));
        comparisons += 1 + counted(compare(&Host, &pair, 0, 20));
    }
    assert!(comparisons > 0, "EXPECTED has no line");
    tell("samples", comparisons);
}
