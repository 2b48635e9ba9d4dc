//! Every antiscenario of many sheets, written into buffers that are short, exact and long.
mod common;
use common::tell;
use satskhubo_tests::compare::{Comparison, Mismatch};
use satskhubo_tests::generate::sheets::{self, largest, sheet_s};
use satskhubo_tests::generate::targeted::faults::{faulty_sheet, Place};
use satskhubo_tests::generate::targeted::with_denials;
use satskhubo_tests::generate::Pair;
use satskhubo_tests::host::Host;
use satskhubo_tests::outcome::{Side, GUARD};
use satskhubo_tests::random::Random;

fn writes_alike(sheet: Vec<u8>, most_numbers: u64) -> u64 {
    let pair = Pair { sheet, log: vec![] };
    let mut comparison = Comparison::new(&Host, &pair, 41);
    for number in comparison.numbers(most_numbers) {
        comparison.writing(number).unwrap_or_else(|Mismatch(text)| panic!("{text}"));
    }
    comparison.comparisons
}

#[test]
fn every_room_for_sheet_s() {
    let mut comparisons = 0;
    let pair = Pair { sheet: sheet_s(), log: vec![] };
    let comparison = Comparison::new(&Host, &pair, 0);
    for number in 0..=5 {
        for room in 0..=250 {
            assert_eq!(
                Host.write(&pair.sheet, number, room),
                comparison.opened.written(number, room),
                "number {number}, room {room}"
            );
            comparisons += 1;
        }
    }
    tell("writing: every room", comparisons);
}

#[test]
fn all_numbers_of_a_full_sheet() {
    tell("writing: 4,096 numbers", writes_alike(with_denials([4; 6]), 4096));
}

#[test]
fn refused_sheets_write_nothing() {
    let comparisons = writes_alike(b"  7  0\n".to_vec(), 3)
        + writes_alike(faulty_sheet(&[(10, Place::Late)]).text, 3)
        + writes_alike(vec![], 3);
    tell("writing: refused", comparisons);
}

#[test]
fn random_sheets() {
    let mut random = Random::new(42);
    let mut comparisons = 0;
    for round in 0..1500 {
        let shape = [&sheets::SMALL, &sheets::MIDDLE, &sheets::LARGE][round % 3];
        comparisons += writes_alike(sheets::random(&mut random, shape), 12);
    }
    tell("writing: random", comparisons);
}

#[test]
fn the_largest_antiscenario() {
    let sheet = largest();
    assert_eq!(Host.read_sheet(&sheet).count, 64);
    let written = Host.write(&sheet, 64, 3437);
    assert_eq!((written.answer, written.length), (0, 3437));
    assert_eq!(&written.buffer[GUARD..GUARD + 7], b"  6 98\n");
    tell("writing: largest", writes_alike(sheet, 64));
}

#[test]
fn antiscenarios_are_no_repeats() {
    let sheet = sheet_s();
    let mut texts: Vec<Vec<u8>> = (1..=4).map(|number| Host.write(&sheet, number, 3437).buffer).collect();
    texts.sort();
    texts.dedup();
    assert_eq!(texts.len(), 4);
}
