//! Document 02, A2: the search gives up the positions of a point that is not to blame, and answers as before: on 4,000 lines, where it would else take
//! hours, beside the reference on short logs and at random, and by the positions that it tries.
mod common;
use common::answers::found_by_both;
use common::{tallied, tell, tell_tally};
use satskhubo_tests::compare::{compare, compare_long, Tally};
use satskhubo_tests::generate::cases::{case_of, cases, Case};
use satskhubo_tests::generate::logs::{mixed, uniform};
use satskhubo_tests::generate::pairs::{independent_pair_of, pair_of};
use satskhubo_tests::generate::Pair;
use satskhubo_tests::host::Host;
use satskhubo_tests::plain::tried::Tried;
use satskhubo_tests::plain::{self, Plain};
use satskhubo_tests::reference::log::Log;
use satskhubo_tests::reference::operations::MOST_POINTS;

const LONG: u32 = 4000;
/// So many lines can be compared with the reference, which gives nothing up.
const SHORT: u32 = 15;
/// So many random pairs are searched with giving up and without, up to so many of their numbers, up to so many positions tried.
const PAIRS: u64 = 8000;
const MOST_NUMBERS: u64 = 64;
const MOST_TRIED: u64 = 10_000_000;
/// More than one in so many of those made for it has a number that is given up sooner.
const GIVEN_UP: u64 = 4;

fn case(word: &str) -> Case {
    case_of(word).expect("a case")
}

fn pair(word: &str, log: Log) -> Pair {
    Pair { sheet: case(word).sheet, log: log.text() }
}

/// What a number of a case matches on a log on which one line makes the place that is wanted.
struct Late {
    pair: Pair,
    number: u64,
    matching: Vec<u32>,
}

impl Late {
    fn new(word: &str, log: Log, number: u64, matching: &[u32]) -> Late {
        Late { pair: pair(word, log), number, matching: matching.to_vec() }
    }
}

/// A log with its last line so much later.
fn last_later(mut log: Log, ticks: u32) -> Log {
    let last = log.lines.last_mut().expect("a line");
    last.tick += ticks;
    log.close = last.tick;
    log
}

/// Scans, and an alarm in the middle.
fn alarmed(n: u32) -> Log {
    let mut log = uniform(n, 3);
    log.lines[n as usize / 2 - 1].event = 7;
    log
}

fn late(word: &str, n: u32) -> Option<Late> {
    let middle = n / 2;
    match word {
        "denied" => Some(Late::new(word, last_later(uniform(n, 3), 100_000), 1, &[1, n, 1, 1])),
        "denied-last" => Some(Late::new(word, last_later(uniform(n, 3), 100_000), 1, &[1, 1, 1, n])),
        "two-free" => Some(Late::new(word, alarmed(n), 1, &[middle + 1, 1, middle])),
        "three-free" => Some(Late::new(word, alarmed(n), 2, &[middle - 1, 1, middle + 1, middle + 1, middle])),
        "further-scans" => Some(Late::new(word, last_later(mixed(n), 500), 2, &[n, 2, 2, n - 1])),
        _ => None,
    }
}

/// On 4,000 lines, the numbers of a case that match nothing, and the one line that changes it.
fn gives_up(word: &str) {
    let Case { name, sheet, numbers, log, .. } = case(word);
    let (pair, late) = (Pair { sheet, log: log(LONG).text() }, late(word, LONG));
    for number in numbers.clone() {
        assert_eq!(found_by_both(&pair, number), None, "{name}, number {number}");
    }
    if let Some(Late { pair, number, matching }) = &late {
        assert_eq!(found_by_both(pair, *number).as_ref(), Some(matching), "{name}, late");
    }
    tell(&format!("giving up: {name}"), (numbers.count() + late.iter().len()) as u64);
}

#[test]
fn the_timed_case() {
    gives_up("timed");
}

#[test]
fn the_timed_case_on_points_3_and_4() {
    gives_up("timed-last");
}

#[test]
fn a_denial_on_points_1_and_2() {
    gives_up("denied");
}

#[test]
fn a_denial_on_points_3_and_4() {
    gives_up("denied-last");
}

#[test]
fn two_free_rows() {
    gives_up("two-free");
}

#[test]
fn three_free_rows() {
    gives_up("three-free");
}

#[test]
fn points_of_which_no_consequent_speaks() {
    gives_up("further-scans");
}

/// The lines begin with an injection, two scans, a correction and a scan. The denials of a consequent are, from 0: a scan after the injection and before
/// point 2; a scan after point 2 and before the injection; and both with a correction.
fn free_matching(number: u64) -> Option<Vec<u32>> {
    let choices: Vec<u64> = (0..6).rev().map(|section| (number - 1) / 4u64.pow(section) % 4).collect();
    let second = if choices.contains(&2) { 5 } else { 3 };
    let between = choices.iter().map(|choice| if *choice == 0 { 2 } else { 4 });
    choices.iter().all(|choice| choice % 2 == 0).then(|| [1, second].into_iter().chain(between).collect())
}

#[test]
fn free_rows_in_six_consequents() {
    let Case { sheet, numbers, log, .. } = case("all-free");
    let pair = Pair { sheet, log: log(LONG).text() };
    for number in numbers {
        assert_eq!(found_by_both(&pair, number), free_matching(number), "number {number}");
    }
    tell("giving up: FREE rows in six consequents", 4096);
}

/// The same cases whole, on logs so short that the reference can do without giving up.
#[test]
fn short_logs() {
    let mut tally = Tally::default();
    for Case { word, sheet, log, .. } in cases() {
        let late = late(word, SHORT).map(|Late { pair, number, matching }| {
            assert_eq!(found_by_both(&pair, number), Some(matching), "{word}, late");
            pair
        });
        for pair in [Pair { sheet, log: log(SHORT).text() }].into_iter().chain(late) {
            tally += tallied(compare_long(&Host, &pair, 0));
            tally += tallied(compare_long(&Plain, &pair, 0));
        }
    }
    tell_tally("giving up: short logs", tally);
}

#[test]
fn independent_consequents_at_random() {
    let tally: Tally = (0..2000).map(|seed| tallied(compare(&Host, &independent_pair_of(seed), seed, 8))).sum();
    assert_eq!(tally.whole, tally.pairs);
    tell_tally("giving up: random", tally);
}

/// The positions tried and what is found; none where they are too many.
fn tried<const GIVES_UP: bool>(pair: &Pair, number: u64, most: u64) -> Option<(u64, Option<Vec<u32>>)> {
    let (mut places, mut tried) = ([0; MOST_POINTS], Tried::<GIVES_UP>::up_to(most));
    let filled = plain::search_by(&pair.sheet, &pair.log, number, &mut places, &mut tried).expect("accepted");
    (!tried.is_over()).then(|| (tried.count, filled.map(|count| places[..count].to_vec())))
}

/// A few positions a line for each number; where a row speaks of two points that nothing narrows, one for each two lines.
#[test]
fn few_positions_are_tried() {
    for Case { name, word, sheet, numbers, log, .. } in cases() {
        let pair = Pair { sheet, log: log(LONG).text() };
        let a_line = if word.starts_with("denied") { u64::from(LONG) + 2 } else { 20 };
        for number in numbers {
            assert!(tried::<true>(&pair, number, a_line * u64::from(LONG)).is_some(), "{name}, number {number}");
        }
    }
}

/// Plain Rust finds the same with giving up and narrowing as without, and tries no more. Adds the numbers searched, and says whether one of them is
/// given up sooner.
fn tries_no_more(pair: &Pair, searches: &mut u64) -> bool {
    let count = plain::read_sheet(&pair.sheet).map_or(0, |sheet| sheet.count);
    let mut sooner = false;
    for number in 1..=count.min(MOST_NUMBERS) {
        let Some((before, expected)) = tried::<false>(pair, number, MOST_TRIED) else { continue };
        let (after, found) = tried::<true>(pair, number, MOST_TRIED).expect("no more than before");
        assert_eq!(found, expected, "number {number} in {pair:?}");
        assert!(after <= before, "number {number} in {pair:?}: {after} and {before} tried");
        sooner |= after < before;
        *searches += 1;
    }
    sooner
}

#[test]
fn no_more_is_tried_than_before() {
    let mut searches = 0;
    let sooner = (0..PAIRS).filter(|&seed| tries_no_more(&independent_pair_of(seed), &mut searches)).count() as u64;
    assert!(GIVEN_UP * sooner > PAIRS, "{sooner} of {PAIRS}");
    for pair in (0..PAIRS).map(pair_of).filter(|pair| plain::read_log(&pair.log).is_ok()) {
        tries_no_more(&pair, &mut searches);
    }
    tell(&format!("giving up: tried, sooner in {sooner} of {PAIRS} independent pairs"), searches);
}
