//! Document 02, A1: sheets and logs that were accepted before keep every answer, A9's WITHIN and A8's denials on both sides; where EVENT is denied, the
//! written text has the upper half too.
mod common;
use common::program::{SHEET, SUPPLIER, SUPPLIER_KEPT, SUPPLIER_LOG};
use common::{tell, top};
use satskhubo_tests::compare::Comparison;
use satskhubo_tests::generate::arguments::arguments_of;
use satskhubo_tests::generate::pairs::older_pair_of;
use satskhubo_tests::generate::{families, Pair};
use satskhubo_tests::host::Host;
use satskhubo_tests::outcome::{Side, Table, GUARD};
use satskhubo_tests::reference::blunder::Blunder;
use satskhubo_tests::reference::operations::{open, Opened, MOST_POINTS};
use std::fs;
use std::io::Write;

const ROOM: usize = 3437;

/// What was compared, and how it came out.
#[derive(Default)]
struct Seen {
    comparisons: u64,
    violated: u64,
    texts: u64,
    denials_of_event: u64,
}

/// Document 01 before A1.
fn before(pair: &Pair) -> Opened {
    let before = open(&pair.sheet, &pair.log, Blunder::BeforeA1);
    assert!(before.sheet.is_ok() && before.log.is_ok(), "accepted before");
    before
}

/// The rows of kind 12 in consequents, which in an antiscenario are denials of EVENT, with the upper half that they have now.
fn with_upper_halves(text: &[u8]) -> Vec<u8> {
    let (first, rows) = text.split_at(7);
    let mut now = first.to_vec();
    for row in rows.chunks(35) {
        let is_denial = &row[3..6] == b" 12" && &row[..3] != b"  0";
        now.extend(if is_denial { [&row[..23], b" 4294967295\n"].concat() } else { row.to_vec() });
    }
    now
}

/// The reading, the check, and of some numbers the search, placements judged, and the text.
fn keeps_its_answers(pair: &Pair, seed: u64, seen: &mut Seen) {
    let (sheet, log, before) = (&pair.sheet, &pair.log, before(pair));
    assert_eq!((Host.read_sheet(sheet), Host.read_log(log)), (before.sheet_read(), before.log_read()));
    let checked = before.checked();
    seen.violated += u64::from(checked.answer != 0);
    assert_eq!(Host.check_number(sheet, log), checked.answer);
    assert_eq!(Host.check(sheet, log), checked, "{}", String::from_utf8_lossy(sheet));
    assert_eq!(Host.show(sheet, log), before.shown());
    let table = arguments_of(seed, &before).table;
    for number in Comparison::new(&Host, pair, seed).numbers(8) {
        let searched = before.searched(number, MOST_POINTS);
        let matching = Table::of(&searched.places[GUARD..GUARD + before.size(number).map_or(0, |(_, points)| points)], 0);
        assert_eq!(Host.search(sheet, log, number, MOST_POINTS), searched);
        assert_eq!(Host.judge(sheet, log, number, &table), before.judged(number, &table));
        assert_eq!(Host.judge(sheet, log, number, &matching), before.judged(number, &matching));
        writes_the_new_denial(pair, number, &before, seen);
        seen.comparisons += 4;
    }
    seen.comparisons += 5;
}

fn writes_the_new_denial(pair: &Pair, number: u64, before: &Opened, seen: &mut Seen) {
    let now = Host.write(&pair.sheet, number, ROOM);
    let mut due = before.written(number, ROOM);
    if let Ok(text) = before.write(number, ROOM) {
        let changed = with_upper_halves(&text);
        seen.texts += 1;
        seen.denials_of_event += u64::from(changed != text);
        due.buffer[GUARD..GUARD + text.len()].copy_from_slice(&changed);
    }
    assert_eq!(now, due, "{}", String::from_utf8_lossy(&pair.sheet));
}

#[test]
fn random_sheets_keep_their_answers() {
    let mut seen = Seen::default();
    (0..4000).for_each(|seed| keeps_its_answers(&older_pair_of(seed), seed, &mut seen));
    let Seen { comparisons, violated, texts, denials_of_event } = seen;
    assert!(violated > 400 && violated < 3600 && denials_of_event > 400 && denials_of_event < texts / 2);
    writeln!(std::io::stderr(), "{violated} of 4000 violated; {denials_of_event} of {texts} texts deny EVENT").unwrap();
    tell("older boards: random", comparisons);
}

#[test]
fn a_part_of_the_families_keeps_its_answers() {
    let (logs, mut seen) = (families::logs(), Seen::default());
    let sheets: Vec<Vec<u8>> = families::small().into_iter().chain(families::large()).flat_map(|family| family.sheets).collect();
    for index in (0..sheets.len() * logs.len()).step_by(1999) {
        let pair = Pair { sheet: sheets[index / logs.len()].clone(), log: logs[index % logs.len()].text() };
        keeps_its_answers(&pair, index as u64, &mut seen);
    }
    assert!(seen.violated > 0 && seen.denials_of_event > 0);
    tell("older boards: families", seen.comparisons);
}

/// The sheets and logs that are there: S with its logs, the supplier's and the theses'.
#[test]
fn examples_keep_their_answers() {
    let file = |name: &str| fs::read(top().join(name)).unwrap();
    let mut pairs: Vec<Pair> = ["log", "log-kept", "log-fraction", "log-injection"]
        .map(|log| Pair { sheet: file(SHEET), log: file(&format!("examples/lockmass/{log}")) })
        .into();
    pairs.extend([SUPPLIER_LOG, SUPPLIER_KEPT].map(|log| Pair { sheet: file(SUPPLIER), log: file(log) }));
    for line in String::from_utf8(file("examples/theses/EXPECTED")).unwrap().lines() {
        if let [sheet, log, ..] = line.split_whitespace().collect::<Vec<_>>()[..] {
            let [sheet, log] =
                [("sheets", sheet), ("logs", log)].map(|(folder, name)| file(&format!("examples/theses/{folder}/{name}")));
            pairs.push(Pair { sheet, log });
        }
    }
    let mut seen = Seen::default();
    pairs.iter().for_each(|pair| keeps_its_answers(pair, 0, &mut seen));
    assert!(pairs.len() > 30 && seen.violated > 0);
    tell("older boards: examples", seen.comparisons);
}

/// Sheet S has no EVENT, so that nothing of it is written otherwise; the one that has it is.
#[test]
fn only_denials_of_event_are_written_otherwise() {
    let sheet = |event: &str| format!("  1  2\n  0  1  1  0          8          0\n{event}").into_bytes();
    let (event, log) = (sheet("  1 12  1  0          4          0\n"), b"    0          0          0\n".to_vec());
    let pair = Pair { sheet: event.clone(), log };
    assert_eq!(before(&pair).write(1, ROOM), Ok(sheet("  1 12  1  0 4294967291          0\n")));
    let now = Host.write(&event, 1, ROOM);
    assert_eq!(&now.buffer[GUARD..GUARD + now.length], sheet("  1 12  1  0 4294967291 4294967295\n"));
}
