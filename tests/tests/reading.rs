//! Every reading refusal, the order of any two, boundaries and sizes, and the shown line, through the C interface.
mod common;
use common::{counted, tell};
use satskhubo_tests::compare::{compare, Comparison, Mismatch};
use satskhubo_tests::generate::logs::{log_of, of_length};
use satskhubo_tests::generate::sheets::{self, sheet_s};
use satskhubo_tests::generate::targeted::faults::{faulty_log, faulty_sheet, PLACES};
use satskhubo_tests::generate::targeted::{self, Case};
use satskhubo_tests::generate::{damage, logs, Pair};
use satskhubo_tests::host::Host;
use satskhubo_tests::outcome::{SheetRead, Shown, Side};
use satskhubo_tests::random::Random;
use satskhubo_tests::reference::sheet::{self, Row};

fn good_log() -> Vec<u8> {
    log_of(&[(100, 2), (300, 3), (900, 3)]).text()
}

/// The written-down refusal and part, then every reading against the reference.
fn answers(case: &Case, of_log: bool) -> u64 {
    let pair = match of_log {
        true => Pair { sheet: sheet_s(), log: case.text.clone() },
        false => Pair { sheet: case.text.clone(), log: good_log() },
    };
    let shown = Host.show(&pair.sheet, &pair.log);
    let due =
        Shown { answer: case.answer, of_log: (of_log && case.answer != 0).into(), offset: case.offset, length: case.length };
    assert_eq!(shown, due, "{}", case.name);
    let alone = if of_log { Host.read_log(&case.text).answer } else { Host.read_sheet(&case.text).answer };
    assert_eq!(alone, case.answer, "{}", case.name);
    2 + readings(&pair)
}

fn readings(pair: &Pair) -> u64 {
    let mut comparison = Comparison::new(&Host, pair, 0);
    comparison.readings().and_then(|()| comparison.checks()).unwrap_or_else(|Mismatch(text)| panic!("{text}"));
    comparison.comparisons
}

#[test]
fn targeted_texts() {
    let sheets: u64 = targeted::sheets().iter().map(|case| answers(case, false)).sum();
    let logs: u64 = targeted::logs().iter().map(|case| answers(case, true)).sum();
    tell("reading: targeted", sheets + logs);
}

#[test]
fn every_reading_refusal_is_reached() {
    let mut reached: Vec<u32> = targeted::sheets().iter().chain(&targeted::logs()).map(|case| case.answer).collect();
    reached.sort();
    reached.dedup();
    let all: Vec<u32> = [0].into_iter().chain(1..=10).chain(21..=27).collect();
    assert_eq!(reached, all);
}

/// Document 02, A4: no N is refused, and each is what its factors multiply to.
#[test]
fn sheets_of_every_count() {
    let sheets = targeted::counted();
    for (sheet, count) in &sheets {
        assert_eq!(Host.read_sheet(sheet), SheetRead { answer: 0, count: *count });
    }
    tell("reading: counts", sheets.len() as u64);
}

#[test]
fn two_faults_in_both_orders() {
    let mut comparisons = 0;
    for (first, second) in PLACES.iter().flat_map(|x| PLACES.iter().map(move |y| (*x, *y))) {
        for (x, y) in (1..=10).flat_map(|x| (1..=10).map(move |y| (x, y))) {
            comparisons += answers(&faulty_sheet(&[(x, first), (y, second)]), false);
        }
        for (x, y) in (21..=27).flat_map(|x| (21..=27).map(move |y| (x, y))) {
            comparisons += answers(&faulty_log(&[(x, first), (y, second)]), true);
        }
    }
    tell("reading: two faults", comparisons);
}

#[test]
fn the_sheets_refusals_come_before_the_logs() {
    let mut comparisons = 0;
    for (x, y) in (1..=10).flat_map(|x| (21..=27).map(move |y| (x, y))) {
        let pair = Pair { sheet: faulty_sheet(&[(x, PLACES[0])]).text, log: faulty_log(&[(y, PLACES[1])]).text };
        assert_eq!(Host.check_number(&pair.sheet, &pair.log), x);
        comparisons += 1 + counted(compare(&Host, &pair, 0, 4));
    }
    tell("reading: sheet before log", comparisons);
}

#[test]
fn every_cut_of_a_text() {
    let (sheet, log) = (sheet_s(), good_log());
    let mut comparisons = 0;
    for length in 0..=sheet.len() {
        comparisons += readings(&Pair { sheet: sheet[..length].to_vec(), log: log.clone() });
    }
    for length in 0..=log.len() {
        comparisons += readings(&Pair { sheet: sheet.clone(), log: log[..length].to_vec() });
    }
    tell("reading: cuts", comparisons);
}

#[test]
fn every_byte_replaced() {
    let (sheet, log) = (sheet_s(), good_log());
    let mut comparisons = 0;
    for byte in *b" 0129\n\r\t-\xff" {
        for at in 0..sheet.len() {
            let mut damaged = sheet.clone();
            damaged[at] = byte;
            comparisons += readings(&Pair { sheet: damaged, log: log.clone() });
        }
        for at in 0..log.len() {
            let mut damaged = log.clone();
            damaged[at] = byte;
            comparisons += readings(&Pair { sheet: sheet.clone(), log: damaged });
        }
    }
    tell("reading: bytes", comparisons);
}

/// The first so many of 176 rows, every section full at the end.
fn sheet_of_rows(count: usize) -> Vec<u8> {
    let points = [1, 2].map(|p| Row::new(0, 1, p, 0, 8, 0));
    let mut rows = [&points[..], &[Row::new(0, 8, 1, 2, 0, 0); 30]].concat();
    rows.extend((1..=6).flat_map(|section| [Row::new(section, 7, 1, 2, 0, 0); 24]));
    sheet::text(6, &rows[..count])
}

#[test]
fn sheets_of_every_size() {
    let mut random = Random::new(33);
    let mut comparisons = 0;
    for count in 0..=176 {
        let mut sheet = sheet_of_rows(count);
        comparisons += readings(&Pair { sheet: sheet.clone(), log: good_log() });
        damage::damage(&mut random, &mut sheet, &damage::SHEET);
        comparisons += readings(&Pair { sheet, log: good_log() });
    }
    tell("reading: sheet sizes", comparisons);
}

#[test]
fn logs_of_many_sizes() {
    let mut random = Random::new(31);
    let mut comparisons = 0;
    for n in [0, 1, 2, 3, 9, 10, 99, 100, 999, 1000, 2047, 2048, 3999, 4000] {
        let mut log = of_length(&mut random, n).text();
        let pair = Pair { sheet: b"  0  0\n".to_vec(), log: log.clone() };
        comparisons += readings(&pair);
        damage::damage(&mut random, &mut log, &damage::LOG);
        comparisons += readings(&Pair { sheet: b"  0  0\n".to_vec(), log });
    }
    tell("reading: sizes", comparisons);
}

#[test]
fn random_damage() {
    let mut random = Random::new(32);
    let mut comparisons = 0;
    for _ in 0..6000 {
        let shape = if random.one_in(4) { &sheets::LARGE } else { &sheets::MIDDLE };
        let mut sheet = sheets::random(&mut random, shape);
        let mut log = logs::random(&mut random, 4).text();
        for _ in 0..random.from_to(1, 2) {
            if random.one_in(3) {
                damage::damage(&mut random, &mut log, &damage::LOG);
            } else {
                damage::damage(&mut random, &mut sheet, &damage::SHEET);
            }
        }
        let pair = Pair { sheet, log };
        let mut comparison = Comparison::new(&Host, &pair, 32);
        comparison.readings().unwrap_or_else(|Mismatch(text)| panic!("{text}"));
        comparisons += comparison.comparisons;
    }
    tell("reading: random damage", comparisons);
}
