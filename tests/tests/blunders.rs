//! The checker can fail: each blunder of document 01, and each slip in what document 02 asks, put into a copy of the reference, is found within
//! a few pairs.
mod common;
use satskhubo_tests::compare::{compare, compare_once, Comparison, Mismatch};
use satskhubo_tests::expected::{Blundering, VIOLATED};
use satskhubo_tests::generate::arguments::order_of;
use satskhubo_tests::generate::chains::{chain_logs, chains};
use satskhubo_tests::generate::families::{self, Family};
use satskhubo_tests::generate::joined::joined;
use satskhubo_tests::generate::logs::log_of;
use satskhubo_tests::generate::pairs::{chained_pair_of, joined_pair_of, large_pair_of, pair_of, rearranged_pair_of};
use satskhubo_tests::generate::sheets::{sheet_of, sheet_s};
use satskhubo_tests::generate::targeted::all_before;
use satskhubo_tests::generate::Pair;
use satskhubo_tests::outcome::Table;
use satskhubo_tests::reference::blunder::{Blunder, IN_CONTRADICTIONS, IN_FAR_ENDS, IN_LIMITS, IN_REARRANGEMENTS, IN_RULINGS};
use satskhubo_tests::reference::log::Log;
use satskhubo_tests::reference::operations::open;
use satskhubo_tests::reference::sheet::{self, kind::*, Row, CLOSE, START};
use std::io::Write;

const MOST_PAIRS: u64 = 400;
/// The reference beside itself is slow, and only shows that the comparison does not invent a mismatch.
const PAIRS_WITHOUT: u64 = 60;

/// How many pairs were compared until the blunder showed, and how.
fn found_after(blunder: Blunder, most_pairs: u64, pair_of: fn(u64) -> Pair) -> Option<(u64, String)> {
    (0..most_pairs).find_map(|seed| match compare(&Blundering(blunder), &pair_of(seed), seed, 6) {
        Ok(_) => None,
        Err(Mismatch(text)) => Some((seed + 1, text)),
    })
}

fn is_found(blunder: Blunder) {
    is_found_in(blunder, pair_of);
}

fn is_found_in(blunder: Blunder, pair_of: fn(u64) -> Pair) {
    let Some((pairs, text)) = found_after(blunder, MOST_PAIRS, pair_of) else {
        panic!("{blunder:?} was not found in {MOST_PAIRS} pairs")
    };
    let first = text.lines().next().unwrap_or("").to_string();
    writeln!(std::io::stderr(), "{blunder:?} found at pair {pairs}: {first}").unwrap();
}

/// The blunders of document 01 that let a run be missed or invented.
const AGAINST_DEMAND_3: [Blunder; 5] =
    [Blunder::ReverseOnly, Blunder::DifferentLines, Blunder::EndsBetween, Blunder::BringsAll, Blunder::NoneWithoutConsequents];
/// Document 02, A1: the slips that do.
const IN_HALVES: [Blunder; 2] = [Blunder::EventDeniedBelow32, Blunder::UpperHalfLost];
/// Document 02, A9: the slips that short distances show; the first of them breaks demand 3 too.
const AT_LIMITS: [Blunder; 6] = [
    Blunder::OutsideAsBefore,
    Blunder::EqualTicksOnePosition,
    Blunder::AntecedentAsBefore,
    Blunder::LowerLimitPlain,
    Blunder::LessThanZero,
    Blunder::BeforeA9,
];

/// Document 02, A8: the slips that let a run be missed or invented.
const IN_CHAINS: [Blunder; 8] = [
    Blunder::NoOrder,
    Blunder::OrderOfConsequent,
    Blunder::OrderOfBoth,
    Blunder::LowestReached,
    Blunder::LastChainReversed,
    Blunder::LastOrderReversed,
    Blunder::OwnPointInOrder,
    Blunder::ShortUpperHalfLost,
];
/// Document 02, A8: the other slips keep demand 3, as another permitted end does; texts, judgements and searches show them.
fn in_texts_alone() -> impl Iterator<Item = Blunder> {
    IN_FAR_ENDS.into_iter().filter(|blunder| !IN_CHAINS.contains(blunder))
}

/// Document 02, A10: the slips that keep what is promised of any limit, so that only the numbers, one by one, show them.
const IN_NUMBERS_ALONE: [Blunder; 5] = [
    Blunder::StopsAtLimit,
    Blunder::AfterOneTooMany,
    Blunder::ReportedInAfter,
    Blunder::HoldsWithNoneAfter,
    Blunder::PassedOverUncounted,
];

/// Document 02, A6: the slips that say impossible of a number that has a matching, which breaks what is promised. The others say it of fewer numbers.
const IMPOSSIBLE_AND_FOUND: [Blunder; 12] = [
    Blunder::NextTurned,
    Blunder::LastTurned,
    Blunder::EarlierAsOrder,
    Blunder::LaterAsOrder,
    Blunder::FreeAsOrder,
    Blunder::WithinAsOrder,
    Blunder::ApartAsOrder,
    Blunder::FreeAsSet,
    Blunder::EventsBelow32,
    Blunder::WithoutSetImpossible,
    Blunder::EndsJoined,
    Blunder::AlwaysImpossible,
];

fn break_demand_3(name: &str, breaks: impl Fn(&mut Comparison<Blundering>) -> bool) {
    for blunder in AGAINST_DEMAND_3.into_iter().chain(IN_HALVES).chain([Blunder::OutsideAsBefore]) {
        let broken = |seed: &u64| breaks(&mut Comparison::new(&Blundering(blunder), &pair_of(*seed), *seed));
        let pairs = (0..4 * MOST_PAIRS).find(broken).unwrap_or_else(|| panic!("{blunder:?} keeps {name}")) + 1;
        writeln!(std::io::stderr(), "{blunder:?} breaks {name} at pair {pairs}").unwrap();
    }
}

#[test]
fn demand_3_finds_them() {
    break_demand_3("demand 3", |comparison| comparison.demand_3().is_err());
}

/// With no look at the reference.
#[test]
fn demand_3_alone_finds_them() {
    break_demand_3("demand 3 alone", |comparison| comparison.demand_3_alone().is_err());
}

/// With the reference blundering as the side does, so that no operation differs.
fn is_broken_where_both_blunder(comparison: &mut Comparison<Blundering>) -> bool {
    let Blundering(blunder) = *comparison.side;
    comparison.opened = open(&comparison.pair.sheet, &comparison.pair.log, blunder);
    comparison.demand_3().is_err()
}

#[test]
fn demand_3_finds_them_where_both_blunder() {
    break_demand_3("demand 3 of both", is_broken_where_both_blunder);
}

/// What demand 3 cannot find, so that only the table, text by text, does.
#[test]
fn demand_3_does_not_find_another_end() {
    for blunder in in_texts_alone() {
        for seed in 0..MOST_PAIRS {
            let (side, pair) = (Blundering(blunder), chained_pair_of(seed));
            let is_broken = is_broken_where_both_blunder(&mut Comparison::new(&side, &pair, seed));
            assert!(!is_broken, "{blunder:?} breaks demand 3 at pair {}", seed + 1);
        }
    }
}

/// Document 02, A10: from this side's answers alone, and the violating placements.
#[test]
fn the_promises_of_limits_find_them() {
    for blunder in IN_LIMITS {
        let breaks = |seed: &u64| Comparison::new(&Blundering(blunder), &pair_of(*seed), *seed).limits_alone().is_err();
        let pairs = (0..MOST_PAIRS).find(breaks).map(|seed| seed + 1);
        assert_eq!(pairs.is_none(), IN_NUMBERS_ALONE.contains(&blunder), "{blunder:?} breaks a promise at pair {pairs:?}");
        writeln!(std::io::stderr(), "{blunder:?} breaks a promise at pair {pairs:?}").unwrap();
    }
}

/// Document 02, A6: from this side's answers alone, its searches among them.
#[test]
fn demand_3_over_the_possible_numbers_finds_them() {
    for blunder in IMPOSSIBLE_AND_FOUND {
        let breaks = |seed: &u64| Comparison::new(&Blundering(blunder), &joined_pair_of(*seed), *seed).demand_3_alone().is_err();
        let pairs = (0..MOST_PAIRS).find(breaks).unwrap_or_else(|| panic!("{blunder:?} keeps demand 3")) + 1;
        writeln!(std::io::stderr(), "{blunder:?} breaks demand 3 over the possible numbers at pair {pairs}").unwrap();
    }
}

/// Document 02, A6: what demand 3 cannot find, since these say impossible of no number that is possible.
#[test]
fn the_other_slips_find_too_few_impossible() {
    let texts: Vec<Vec<u8>> = (0..MOST_PAIRS / 4).map(|seed| joined_pair_of(seed).sheet).collect();
    for blunder in IN_CONTRADICTIONS.into_iter().filter(|blunder| !IMPOSSIBLE_AND_FOUND.contains(blunder)) {
        for text in &texts {
            let (due, slipped) = (open(text, b"", Blunder::None), open(text, b"", blunder));
            let count = due.read_sheet().expect("a joined sheet is accepted");
            let is_more = |number: &u64| slipped.impossible(*number) == Ok(true) && due.impossible(*number) == Ok(false);
            assert_eq!((1..=count.min(30)).find(is_more), None, "{blunder:?}");
        }
    }
}

/// Every so-many-th pair of families that the gate compares whole is enough.
fn are_found_in(families: Vec<Family>, logs: &[Log], blunders: impl Iterator<Item = Blunder>) {
    let sheets: Vec<Vec<u8>> = families.into_iter().flat_map(|family| family.sheets).collect();
    let pair = |index: usize| Pair { sheet: sheets[index / logs.len()].clone(), log: logs[index % logs.len()].text() };
    for blunder in blunders {
        let mut indexes = (0..sheets.len() * logs.len()).step_by(31);
        let found = indexes.find(|&index| compare_once(&Blundering(blunder), &pair(index)).is_err());
        assert!(found.is_some(), "{blunder:?} is not found");
    }
}

#[test]
fn the_small_family_finds_them() {
    let blunders = AGAINST_DEMAND_3.into_iter().chain([Blunder::BringsEarlier]).chain(AT_LIMITS).chain(IN_LIMITS);
    are_found_in(families::small(), &families::logs(), blunders);
}

#[test]
fn the_families_of_newer_boards_find_them() {
    let read_otherwise = [Blunder::UpperHalfEmpty, Blunder::EventWithoutUpperHalf, Blunder::BeforeA1];
    are_found_in(families::boards(), &families::board_logs(), IN_HALVES.into_iter().chain(read_otherwise));
}

/// Document 02, A8.
#[test]
fn the_families_of_chains_find_them() {
    are_found_in(chains(), &chain_logs(), IN_FAR_ENDS.into_iter());
}

/// Document 02, A6: number by number; neither a FREE row of an antecedent nor a refused sheet is among them.
#[test]
fn the_joined_families_find_them() {
    let sheets: Vec<Vec<u8>> = joined().into_iter().flat_map(|family| family.sheets).collect();
    let needs_more = [Blunder::FreeAsOrder, Blunder::ZeroBeforeSheet];
    for blunder in IN_CONTRADICTIONS.into_iter().chain(IN_RULINGS).filter(|blunder| !needs_more.contains(blunder)) {
        let is_found = |sheet: &Vec<u8>| {
            let (side, pair) = (Blundering(blunder), Pair { sheet: sheet.clone(), log: vec![] });
            let mut comparison = Comparison::new(&side, &pair, 0);
            comparison.rulings(500).is_err()
        };
        assert!(sheets.iter().any(is_found), "{blunder:?} is not found");
    }
}

/// The larger families' chains have two antecedent points, one of the consequent, and sets of the lower half alone.
#[test]
fn the_larger_families_find_them() {
    let family = families::large().pop().into_iter().collect();
    let needs_more = [
        Blunder::LowestReachedOrLong,
        Blunder::OrderOfOneStep,
        Blunder::TwoSteps,
        Blunder::OwnPointInOrder,
        Blunder::ShortUpperHalfLost,
    ];
    let blunders = IN_FAR_ENDS.into_iter().filter(|blunder| !needs_more.contains(blunder));
    are_found_in(family, &families::logs(), blunders);
}

#[test]
fn without_a_blunder_nothing_is_found() {
    assert_eq!(found_after(Blunder::None, PAIRS_WITHOUT, pair_of), None);
    assert_eq!(found_after(Blunder::None, 6, large_pair_of), None);
    assert_eq!(found_after(Blunder::None, PAIRS_WITHOUT, chained_pair_of), None);
    assert_eq!(found_after(Blunder::None, PAIRS_WITHOUT, joined_pair_of), None);
}

#[test]
fn denying_before_only_by_the_reverse_order() {
    is_found(Blunder::ReverseOnly);
}

#[test]
fn treating_different_points_as_different_lines() {
    is_found(Blunder::DifferentLines);
}

#[test]
fn counting_the_ends_as_between() {
    is_found(Blunder::EndsBetween);
}

#[test]
fn bringing_points_that_a_denial_does_not_need() {
    is_found(Blunder::BringsAll);
    is_found(Blunder::BringsEarlier);
}

#[test]
fn taking_n_as_0_when_k_is_0() {
    is_found(Blunder::NoneWithoutConsequents);
}

/// Document 02, A4.
#[test]
fn counting_in_32_bits() {
    is_found_in(Blunder::CountIn32Bits, large_pair_of);
    is_found_in(Blunder::NumberIn32Bits, large_pair_of);
}

/// Document 02, A1.
#[test]
fn denying_event_in_the_lower_half_alone() {
    is_found(Blunder::EventDeniedBelow32);
    // A line with event 33 that should have 0: violated, and no pattern matches.
    let rows = [Row::of_set(0, POINT, 1, 0, 1 << 33), Row::of_set(1, EVENT, 1, 0, 1)];
    let (sheet, log) = (sheet::text(1, &rows), log_of(&[(1, 33)]).text());
    let searched = |blunder| open(&sheet, &log, blunder).search(1, 1);
    assert_eq!(open(&sheet, &log, Blunder::EventDeniedBelow32).checked().answer, VIOLATED);
    assert_eq!((searched(Blunder::EventDeniedBelow32), searched(Blunder::None)), (Ok(None), Ok(Some(vec![1]))));
    let pair = Pair { sheet, log };
    assert!(Comparison::new(&Blundering(Blunder::EventDeniedBelow32), &pair, 0).demand_3_alone().is_err());
}

#[test]
fn losing_the_upper_half_in_the_denial_of_next() {
    is_found(Blunder::UpperHalfLost);
}

#[test]
fn taking_a_set_of_the_upper_half_as_empty() {
    is_found(Blunder::UpperHalfEmpty);
}

#[test]
fn wanting_b_of_event_to_be_0() {
    is_found(Blunder::EventWithoutUpperHalf);
}

#[test]
fn accepting_event_64() {
    is_found(Blunder::Event64);
}

/// What document 01 said before A1 is no longer what is answered.
#[test]
fn staying_with_32_events() {
    is_found(Blunder::BeforeA1);
}

/// Document 02, A9: the blunder is found, and answers otherwise on one row over these ends: an antecedent that is met, and so violated, or not.
fn is_found_between(blunder: Blunder, [kind, a, b]: [u32; 3], [start, close]: [u32; 2]) {
    is_found(blunder);
    let pair = Pair {
        sheet: sheet::text(0, &[Row::new(0, kind, START, CLOSE, a, b)]),
        log: Log { start, close, lines: vec![], blunder: Blunder::None }.text(),
    };
    let checked = |blunder| open(&pair.sheet, &pair.log, blunder).checked().answer;
    assert_ne!(checked(blunder), checked(Blunder::None), "{blunder:?}");
}

/// At distance 500 neither WITHIN 0 500 nor OUTSIDE 0 500 is met: violated, and no pattern matches.
#[test]
fn leaving_outside_as_it_was() {
    is_found_between(Blunder::OutsideAsBefore, [OUTSIDE, 0, 500], [0, 500]);
    let example = Pair { sheet: sheet_s(), log: log_of(&[(100, 2), (300, 3), (600, 3)]).text() };
    let opened = |blunder| open(&example.sheet, &example.log, blunder);
    let blundering = opened(Blunder::OutsideAsBefore);
    assert_eq!((blundering.checked().answer, opened(Blunder::None).search(2, 2)), (VIOLATED, Ok(Some(vec![3, 1]))));
    assert!((1..=4).all(|number| blundering.search(number, 3) == Ok(None)));
    assert!(Comparison::new(&Blundering(Blunder::OutsideAsBefore), &example, 0).demand_3_alone().is_err());
}

#[test]
fn taking_equal_ticks_for_one_position() {
    is_found_between(Blunder::EqualTicksOnePosition, [WITHIN, 0, 0], [7, 7]);
}

/// d + 1 at 4,294,967,295, and d − 1 at 0.
#[test]
fn counting_distances_in_32_bits() {
    is_found_between(Blunder::DistanceIn32Bits, [WITHIN, 0, u32::MAX], [0, u32::MAX]);
    is_found_between(Blunder::LessThanZero, [WITHIN, 5, 10], [7, 7]);
}

#[test]
fn leaving_the_antecedent_as_it_was() {
    is_found_between(Blunder::AntecedentAsBefore, [WITHIN, 0, 500], [0, 500]);
}

#[test]
fn leaving_the_lower_limit_as_it_was() {
    is_found_between(Blunder::LowerLimitPlain, [WITHIN, 5, 10], [7, 12]);
}

/// What document 01 said before A9 is no longer what is answered.
#[test]
fn taking_ticks_as_exact() {
    is_found_between(Blunder::BeforeA9, [WITHIN, 0, 500], [0, 500]);
}

/// Document 02, A8: rows of kind, p and q, in the antecedent and in the consequent.
type Brief<'a> = &'a [(u32, u32, u32)];

/// A sheet of one consequent, with points 1, 2 and 3 of event 2 and missing ones of events 1 and 33.
fn chained(antecedent: Brief, consequent: Brief) -> Vec<u8> {
    let points = (1..=3).map(|p| Row::of_set(0, POINT, p, 0, 1 << 2));
    let rows = |section, rows: Brief| {
        let set = |kind| if kind == BEFORE { 0 } else { 1 << 1 | 1 << 33 };
        rows.iter().map(|&(kind, p, q)| Row::of_set(section, kind, p, q, set(kind))).collect::<Vec<_>>()
    };
    sheet::text(1, &points.chain(rows(0, antecedent)).chain(rows(1, consequent)).collect::<Vec<_>>())
}

/// The blunder is found among random pairs, and writes some denial of this sheet otherwise.
fn is_found_in_chains(blunder: Blunder, antecedent: Brief, consequent: Brief) {
    is_found_in(blunder, chained_pair_of);
    let text = chained(antecedent, consequent);
    let written = |blunder| {
        let opened = open(&text, b"", blunder);
        (1..=opened.read_sheet().unwrap()).map(|number| opened.write(number, 3437)).collect::<Vec<_>>()
    };
    assert_ne!(written(blunder), written(Blunder::None), "{blunder:?}");
}

/// So it is, and on these events no pattern matches where the sheet is violated, or one where it is not.
fn breaks_demand_3_in_chains(blunder: Blunder, antecedent: Brief, consequent: Brief, events: &[u32]) {
    assert!(IN_CHAINS.contains(&blunder));
    is_found_in_chains(blunder, antecedent, consequent);
    let lines: Vec<(u32, u32)> = (1..).zip(events.iter().copied()).collect();
    let pair = Pair { sheet: chained(antecedent, consequent), log: log_of(&lines).text() };
    for (blunder, is_due) in [(blunder, true), (Blunder::None, false)] {
        let is_broken = is_broken_where_both_blunder(&mut Comparison::new(&Blundering(blunder), &pair, 0));
        assert_eq!(is_broken, is_due, "{blunder:?}");
    }
}

/// Document 02's readings, on three lines of one event, point 1 on the last and 2 on the first: violated, and no pattern matches.
fn breaks_demand_3_at_3_1(blunder: Blunder, further: &[Row]) {
    let points = [1, 2].map(|p| Row::of_set(0, POINT, p, 0, 2));
    let consequent = [Row::of_set(1, NEXT, 11, 1, 2), Row::new(1, BEFORE, 11, 2, 0, 0)];
    let rows = [&points[..], &consequent, further].concat();
    let pair = Pair { sheet: sheet::text(1, &rows), log: log_of(&[(1, 1), (2, 1), (3, 1)]).text() };
    let matches_at_3_1 = |blunder| {
        let opened = open(&pair.sheet, &pair.log, blunder);
        let met = |number, at: &[u32]| opened.judged(number, &Table::of(at, 0)).met == 1;
        let with_11 = |number| (1..=3).any(|position| met(number, &[3, 1, position]));
        (1..=opened.read_sheet().unwrap()).any(|number| met(number, &[3, 1]) || with_11(number))
    };
    assert_eq!((matches_at_3_1(blunder), matches_at_3_1(Blunder::None)), (false, true), "{blunder:?}");
    assert!(is_broken_where_both_blunder(&mut Comparison::new(&Blundering(blunder), &pair, 0)), "{blunder:?}");
}

/// Document 000's section 5.1 as printed; z may then stand before q.
#[test]
fn asking_no_order_of_the_antecedent() {
    breaks_demand_3_in_chains(Blunder::NoOrder, &[], &[(NEXT, 11, 1), (BEFORE, 11, 2)], &[2, 33, 2]);
    breaks_demand_3_at_3_1(Blunder::NoOrder, &[]);
}

#[test]
fn taking_the_order_from_the_consequent() {
    let consequent = [(NEXT, 11, 1), (BEFORE, 11, 2), (BEFORE, 1, 11)];
    for blunder in [Blunder::OrderOfConsequent, Blunder::OrderOfBoth] {
        breaks_demand_3_in_chains(blunder, &[], &consequent, &[2, 1, 2]);
        breaks_demand_3_at_3_1(blunder, &[Row::new(1, BEFORE, 1, 11, 0, 0)]);
    }
}

#[test]
fn chains_of_rows_of_both_sections() {
    is_found_in_chains(Blunder::MixedChain, &[(BEFORE, 1, 3), (BEFORE, 2, 3)], &[(NEXT, 11, 1), (BEFORE, 11, 2)]);
}

#[test]
fn another_of_several_ends() {
    let (order, to_both) = ([(BEFORE, 1, 2), (BEFORE, 1, 3)], [(NEXT, 11, 1), (BEFORE, 11, 2), (BEFORE, 11, 3)]);
    is_found_in_chains(Blunder::HighestEnd, &order, &to_both);
    is_found_in_chains(Blunder::LowestReachedOrLong, &order[1..], &to_both);
    breaks_demand_3_in_chains(Blunder::LowestReached, &order[1..], &to_both, &[2, 33, 2, 2]);
}

#[test]
fn q_itself_as_the_end() {
    let to_q = [(NEXT, 11, 1), (BEFORE, 11, 1)];
    is_found_in_chains(Blunder::QToItself, &[], &to_q);
    is_found_in_chains(Blunder::QTaken, &[(BEFORE, 1, 2), (BEFORE, 2, 1)], &to_q);
}

#[test]
fn last_as_next() {
    let (order, turned) = ([(BEFORE, 1, 2)], [(BEFORE, 2, 1)]);
    breaks_demand_3_in_chains(Blunder::LastChainReversed, &order, &[(LAST, 11, 2), (BEFORE, 11, 1)], &[33, 2, 2]);
    breaks_demand_3_in_chains(Blunder::LastOrderReversed, &turned, &[(LAST, 11, 2), (BEFORE, 1, 11)], &[2, 33, 2]);
}

#[test]
fn chains_and_orders_cut_short() {
    let of_two = [(NEXT, 11, 1), (BEFORE, 2, 3), (BEFORE, 11, 2)];
    is_found_in_chains(Blunder::ChainOfOneStep, &[(BEFORE, 1, 3)], &of_two);
    is_found_in_chains(Blunder::OnePass, &[(BEFORE, 1, 3)], &of_two);
    is_found_in_chains(Blunder::OrderOfOneStep, &[(BEFORE, 1, 2), (BEFORE, 2, 3)], &[(NEXT, 11, 1), (BEFORE, 11, 3)]);
    let of_three = [(NEXT, 11, 1), (NEXT, 12, 11), (BEFORE, 11, 12), (BEFORE, 12, 2), (BEFORE, 2, 3)];
    is_found_in_chains(Blunder::TwoSteps, &[(BEFORE, 1, 3)], &of_three);
    let earlier = [(BEFORE, 2, 3), (NEXT, 11, 1), (BEFORE, 11, 2)];
    is_found_in_chains(Blunder::ChainOfLaterRows, &[(BEFORE, 1, 3)], &earlier);
}

#[test]
fn the_order_of_a_point_of_the_consequent_and_of_an_end() {
    let from_11 = [(NEXT, 11, 1), (NEXT, 12, 11), (BEFORE, 12, 2)];
    breaks_demand_3_in_chains(Blunder::OwnPointInOrder, &[], &from_11, &[2, 33, 2, 33]);
    is_found_in_chains(Blunder::EndsWantOrder, &[], &[(NEXT, 11, START), (BEFORE, 11, 1)]);
    is_found_in_chains(Blunder::EndsWantOrder, &[], &[(LAST, 11, CLOSE), (BEFORE, 1, 11)]);
}

#[test]
fn losing_the_upper_half_in_the_short_denial() {
    let to_2 = [(NEXT, 11, 1), (BEFORE, 11, 2)];
    breaks_demand_3_in_chains(Blunder::ShortUpperHalfLost, &[(BEFORE, 1, 2)], &to_2, &[2, 33, 2]);
}

/// What document 01 said before A8 is no longer what is written.
#[test]
fn staying_with_the_long_denial() {
    is_found(Blunder::BeforeA8);
    is_found_in_chains(Blunder::BeforeA8, &[(BEFORE, 1, 2)], &[(NEXT, 11, 1), (BEFORE, 11, 2)]);
}

/// Document 02, A10: the blunder is found among random pairs, and answers this limit otherwise on these events.
fn is_found_with(blunder: Blunder, sheet: &[u8], events: &[u32], limit: u64) {
    assert!(IN_LIMITS.contains(&blunder));
    is_found(blunder);
    let lines: Vec<(u32, u32)> = (1..).zip(events.iter().copied()).collect();
    let log = log_of(&lines).text();
    let limited = |blunder| open(sheet, &log, blunder).limited_check(limit);
    assert_ne!(limited(blunder), limited(Blunder::None), "{blunder:?}");
}

/// A scan, and no consequent, or one that is empty: each scan is violating, or none is.
fn scan(k: u32) -> Vec<u8> {
    sheet_of(k, &[[0, POINT, 1, 0, 1 << 3, 0]])
}

/// It may itself be violating: stopped, none looked at, one after.
#[test]
fn the_one_more_taken_as_looked_at() {
    for blunder in [Blunder::OneMoreCounted, Blunder::OneMoreInNumber, Blunder::AfterOneMore, Blunder::OneMoreLeftOut] {
        is_found_with(blunder, &scan(0), &[3], 0);
    }
}

#[test]
fn stopping_too_late_or_too_soon() {
    is_found_with(Blunder::HoldsAtLimit, &scan(0), &[3], 0);
    is_found_with(Blunder::StopsAtLimit, &scan(1), &[3], 1);
    is_found_with(Blunder::OneMoreLookedAt, &scan(0), &[3], 0);
    is_found_with(Blunder::OneLessLookedAt, &scan(0), &[3], 1);
}

#[test]
fn looking_on_behind_the_first_that_extends_nowhere() {
    is_found_with(Blunder::LooksOn, &scan(0), &[3, 3], 2);
}

#[test]
fn a_limit_of_0_or_of_more_than_32_bits() {
    is_found_with(Blunder::ZeroIsNoLimit, &scan(1), &[3], 0);
    is_found_with(Blunder::LimitIn32Bits, &scan(1), &[3, 3], (1 << 32) + 1);
}

#[test]
fn placements_after_miscounted() {
    is_found_with(Blunder::AfterOneTooFew, &scan(1), &[3, 2], 1);
    is_found_with(Blunder::AfterOneTooMany, &scan(1), &[3, 2], 1);
    is_found_with(Blunder::ReportedInAfter, &scan(0), &[3], 1);
    is_found_with(Blunder::HoldsWithNoneAfter, &scan(1), &[3, 2], 1);
}

#[test]
fn placements_after_none() {
    is_found_with(Blunder::NoneAfterNone, &scan(1), &[2], 1);
    is_found_with(Blunder::NoPointsNoPlacement, &sheet_of(0, &[]), &[3], 0);
    is_found_with(Blunder::NoLinesNoPlacement, &sheet_of(0, &[]), &[], 0);
}

/// The check without a limit looks at the first alone: a consequent that speaks of no point extends with every other, too.
#[test]
fn matchings_passed_over_not_counted() {
    is_found_with(Blunder::PassedOverUncounted, &scan(1), &[3, 3], 2);
}

/// Document 02, A6: the blunder is found among random pairs, and says otherwise whether these rows are impossible: those of an antecedent, whose number 1
/// they are, or of antecedent and one consequent, whose last number denies its last row last.
fn is_found_in_rows(blunder: Blunder, rows: &[Row]) {
    assert!(IN_CONTRADICTIONS.contains(&blunder));
    is_found_in(blunder, joined_pair_of);
    let text = sheet::text(rows.last().map_or(0, |row| row.section), rows);
    let last = |blunder| {
        let opened = open(&text, b"", blunder);
        opened.impossible(opened.read_sheet().expect("accepted"))
    };
    assert_eq!(last(blunder), last(Blunder::None).map(|impossible| !impossible), "{blunder:?}");
}

/// So many points of any event, and further rows of kind, p and q.
fn any_points(count: u32, further: Brief) -> Vec<Row> {
    let points = (1..=count).map(|p| Row::of_set(0, POINT, p, 0, u64::MAX));
    points.chain(further.iter().map(|&(kind, p, q)| Row::new(0, kind, p, q, 0, 0))).collect()
}

/// Two points, one of the consequent, and a last row, which is denied.
fn denied(introducing: Row, last: Row) -> Vec<Row> {
    [&any_points(2, &[])[..], &[introducing, last]].concat()
}

fn next(q: u32) -> Row {
    Row::of_set(1, NEXT, 11, q, u64::MAX)
}

fn last(q: u32) -> Row {
    Row::of_set(1, LAST, 11, q, u64::MAX)
}

fn own(kind: u32, p: u32, q: u32) -> Row {
    Row::new(1, kind, p, q, 0, 0)
}

#[test]
fn other_orders_read_as_lower_than() {
    // The denials of FREE have 1 and 11 about their own point: one way for NEXT, the other for LAST.
    is_found_in_rows(Blunder::NextTurned, &denied(next(1), Row::of_set(1, FREE, 1, 11, 2)));
    is_found_in_rows(Blunder::LastTurned, &denied(last(1), Row::of_set(1, FREE, 1, 11, 2)));
    is_found_in_rows(Blunder::EarlierAsOrder, &denied(Row::new(1, EARLIER, 11, 1, 2, 0), own(APART, 11, 1)));
    is_found_in_rows(Blunder::LaterAsOrder, &denied(Row::new(1, LATER, 11, 1, 2, 0), own(APART, 11, 1)));
    let free = [&any_points(2, &[(BEFORE, 1, 2)])[..], &[Row::of_set(0, FREE, 2, 1, 2)]].concat();
    is_found_in_rows(Blunder::FreeAsOrder, &free);
    let within = [&any_points(2, &[(BEFORE, 1, 2)])[..], &[Row::new(0, WITHIN, 2, 1, 0, 9)]].concat();
    is_found_in_rows(Blunder::WithinAsOrder, &within);
    is_found_in_rows(Blunder::ApartAsOrder, &any_points(2, &[(BEFORE, 1, 2), (APART, 2, 1)]));
}

#[test]
fn ways_back_not_found() {
    is_found_in_rows(Blunder::OrderOfBeforeAlone, &denied(next(1), own(BEFORE, 1, 11)));
    is_found_in_rows(Blunder::StepInsidePasses, &any_points(2, &[(SAME, 1, 2), (BEFORE, 1, 2)]));
    is_found_in_rows(Blunder::TwoStepsBack, &any_points(3, &[(BEFORE, 1, 2), (BEFORE, 2, 3), (BEFORE, 3, 1)]));
    is_found_in_rows(Blunder::DenialPointNotCounted, &denied(last(1), Row::of_set(1, FREE, 11, 1, 2)));
    is_found_in_rows(Blunder::LeadingBackPasses, &any_points(2, &[(BEFORE, 1, 2), (BEFORE, 2, 1)]));
}

#[test]
fn sets_miscounted() {
    let with_event = |set: u64, event: u64| vec![Row::of_set(0, POINT, 1, 0, set), Row::of_set(0, EVENT, 1, 0, event)];
    for blunder in [Blunder::EventNotCounted, Blunder::NoEventPasses] {
        is_found_in_rows(blunder, &with_event(1, 2));
    }
    is_found_in_rows(Blunder::EmptySetPasses, &with_event(1, 0));
    is_found_in_rows(Blunder::EventsBelow32, &with_event(1 << 33, 1 << 33));
    let by_two = [&with_event(0b011, 0b110)[..], &[Row::of_set(0, EVENT, 1, 0, 0b101)]].concat();
    is_found_in_rows(Blunder::SetsByTwo, &by_two);
    is_found_in_rows(Blunder::NextAndLastNotCounted, &denied(Row::of_set(1, NEXT, 11, 1, 2), Row::of_set(1, EVENT, 11, 0, 2)));
    let free = [&with_event(2, 2)[..], &[Row::of_set(0, FREE, 1, CLOSE, 4)]].concat();
    is_found_in_rows(Blunder::FreeAsSet, &free);
    is_found_in_rows(Blunder::WithoutSetImpossible, &denied(Row::new(1, EARLIER, 11, 1, 2, 0), own(SAME, 11, 1)));
}

#[test]
fn points_joined_otherwise() {
    let chain = any_points(3, &[(SAME, 1, 2), (SAME, 2, 3), (APART, 1, 3)]);
    is_found_in_rows(Blunder::JoinedWithoutChains, &chain);
    is_found_in_rows(Blunder::JoinedOneWay, &any_points(2, &[(SAME, 1, 2), (APART, 2, 1)]));
    is_found_in_rows(Blunder::JoinedInSection, &denied(last(1), own(APART, 11, 1)));
    let sets = [Row::of_set(0, POINT, 1, 0, 1), Row::of_set(0, POINT, 2, 0, 2), Row::new(0, SAME, 1, 2, 0, 0)];
    let (apart, order) = (any_points(2, &[(SAME, 1, 2), (APART, 1, 2)]), any_points(2, &[(SAME, 1, 2), (BEFORE, 1, 2)]));
    for (blunder, missed) in [
        (Blunder::JoinedInSetsAlone, [&apart, &order]),
        (Blunder::JoinedInApartAlone, [&sets.to_vec(), &order]),
        (Blunder::JoinedInOrderAlone, [&sets.to_vec(), &apart]),
    ] {
        missed.into_iter().for_each(|rows| is_found_in_rows(blunder, rows));
    }
    is_found_in_rows(Blunder::ApartPasses, &apart);
    // The start is below 12, which is one with 11, which is below the close.
    let ends = [Row::of_set(1, LAST, 11, CLOSE, u64::MAX), Row::of_set(1, NEXT, 12, START, u64::MAX), own(BEFORE, 11, 12)];
    is_found_in_rows(Blunder::EndsJoined, &ends);
}

#[test]
fn rows_not_looked_at() {
    is_found_in_rows(Blunder::AntecedentAlone, &denied(last(1), own(APART, 11, 1)));
    is_found_in_rows(Blunder::AlwaysPossible, &any_points(2, &[(BEFORE, 1, 2), (BEFORE, 2, 1)]));
    is_found_in_rows(Blunder::AlwaysImpossible, &any_points(2, &[(BEFORE, 1, 2)]));
}

/// Its numbers and what it writes; every slip of the rules is above.
#[test]
fn rulings_of_other_numbers() {
    IN_RULINGS.into_iter().for_each(is_found);
}

/// Document 02, A11: the first comparison of a pair with its sheet rearranged that shows a slip in the rearrangement, or a blunder of the side.
fn found_in_order(side: Blunder, slip: Blunder, pair: &Pair, seed: u64, order: &[u32]) -> Option<String> {
    let side = Blundering(side);
    let compared = Comparison::new(&side, pair, seed).rearranged_with(slip, order, 6);
    compared.err().map(|Mismatch(text)| text.lines().next().unwrap_or("").to_string())
}

/// The same for the pair and the order of a seed.
fn found_in_order_of(slip: Blunder, seed: u64) -> Option<String> {
    let pair = rearranged_pair_of(seed);
    let k = sheet::read(&pair.sheet, Blunder::None).expect("accepted").k;
    found_in_order(Blunder::None, slip, &pair, seed, &order_of(seed, k))
}

#[test]
fn rearrangements_at_random_find_them() {
    for slip in IN_REARRANGEMENTS {
        let found = (0..MOST_PAIRS).find_map(|seed| found_in_order_of(slip, seed).map(|what| (seed + 1, what)));
        let (pairs, what) = found.unwrap_or_else(|| panic!("{slip:?} was not found in {MOST_PAIRS} pairs"));
        writeln!(std::io::stderr(), "{slip:?} found at pair {pairs}: {what}").unwrap();
    }
    assert_eq!((0..PAIRS_WITHOUT).find_map(|seed| found_in_order_of(Blunder::None, seed)), None);
}

/// On a scan and a correction at these ticks and events, this order of these consequents shows the slip, and first in this comparison.
fn is_found_in_order(slip: Blunder, consequents: &[[u32; 6]], order: &[u32], lines: &[(u32, u32)], what: &str) {
    assert!(IN_REARRANGEMENTS.contains(&slip));
    let antecedent = [[0, POINT, 1, 0, 1 << 3, 0], [0, POINT, 2, 0, 1 << 2 | 1 << 3, 0]];
    let sheet = sheet_of(order.len() as u32, &[&antecedent[..], consequents].concat());
    let pair = Pair { sheet, log: log_of(lines).text() };
    let found = |slip| found_in_order(Blunder::None, slip, &pair, 0, order);
    assert!(found(slip).is_some_and(|text| text.starts_with(what)), "{slip:?}: {:?}", found(slip));
    assert_eq!(found(Blunder::None), None);
}

/// A scan alone, and consequents of one row, of two and of three, the last of which it breaks.
const SCAN_ALONE: [(u32, u32); 1] = [(15, 3)];
const ONE_TO_THREE: [[u32; 6]; 6] = [
    [1, EVENT, 1, 0, 1, 0],
    [2, EVENT, 1, 0, 8, 0],
    [2, EVENT, 1, 0, 1, 0],
    [3, EVENT, 2, 0, 8, 0],
    [3, EVENT, 2, 0, 12, 0],
    [3, EVENT, 1, 0, 1, 0],
];

#[test]
fn points_not_renumbered() {
    let last = [[1, LAST, 11, 1, 4, 0], [1, APART, 11, 1, 0, 0], [2, APART, 1, 2, 0, 0]];
    is_found_in_order(Blunder::PStays, &last, &[2, 1], &SCAN_ALONE, "N ");
    is_found_in_order(Blunder::AntecedentRenumbered, &last, &[2, 1], &SCAN_ALONE, "N ");
    is_found_in_order(Blunder::QStays, &[[1, LAST, 11, 1, 4, 0], [1, APART, 1, 11, 0, 0]], &[2, 1], &SCAN_ALONE, "N ");
    let earlier = [[1, LATER, 11, 1, 2, 0], [1, EARLIER, 12, 1, 11, 0]];
    is_found_in_order(Blunder::OtherPointStays, &earlier, &[2, 1], &SCAN_ALONE, "N ");
    let free = [[1, FREE, START, 1, 4, 0], [2, APART, 1, 2, 0, 0]];
    is_found_in_order(Blunder::SparePointStays, &free, &[2, 1], &SCAN_ALONE, "the text of number 1, now 1,");
}

/// The set {0, 1, 3} as {0, 2, 4}, and the limit 11 as 21.
#[test]
fn sets_and_limits_renumbered() {
    let (apart, verdict) = ([2, APART, 1, 2, 0, 0], "the verdict");
    let set = [[1, NEXT, 11, START, 11, 0], apart];
    is_found_in_order(Blunder::SetRenumbered, &set, &[2, 1], &SCAN_ALONE, verdict);
    let of_event = [[1, EVENT, 1, 0, 11, 0], apart];
    is_found_in_order(Blunder::SetRenumbered, &of_event, &[2, 1], &SCAN_ALONE, verdict);
    let lower = [[1, WITHIN, START, 1, 11, 40], apart];
    is_found_in_order(Blunder::LowerLimitRenumbered, &lower, &[2, 1], &SCAN_ALONE, verdict);
    let upper = [[1, WITHIN, START, 1, 0, 11], apart];
    is_found_in_order(Blunder::UpperLimitRenumbered, &upper, &[2, 1], &SCAN_ALONE, verdict);
}

#[test]
fn rows_at_fault_moved_otherwise() {
    for slip in [
        Blunder::FaultsStay,
        Blunder::FaultsKeepNumbers,
        Blunder::FaultsKeepPlaces,
        Blunder::FaultsByOldLengths,
        Blunder::InverseInFaults,
        Blunder::InverseInSheet,
    ] {
        is_found_in_order(slip, &ONE_TO_THREE, &[2, 3, 1], &SCAN_ALONE, "the check ");
    }
}

/// Numbers 1 to 6 have choices of 1, 2 and 3.
#[test]
fn numbers_moved_otherwise() {
    for slip in [Blunder::NumbersStay, Blunder::FirstChoiceFastest] {
        is_found_in_order(slip, &ONE_TO_THREE, &[3, 2, 1], &SCAN_ALONE, "the text of number 2, now");
    }
    is_found_in_order(Blunder::InverseInNumbers, &ONE_TO_THREE, &[3, 1, 2], &SCAN_ALONE, "the text of number 2, now");
    is_found_in_order(Blunder::NumbersByOldCounts, &ONE_TO_THREE, &[3, 2, 1], &SCAN_ALONE, "numbers, one to one,");
}

/// The last number has three points, each on a line of its own.
#[test]
fn parts_and_placements_moved_otherwise() {
    for slip in [Blunder::PartsStay, Blunder::PartsKeepSections, Blunder::InverseInParts] {
        is_found_in_order(slip, &ONE_TO_THREE, &[2, 3, 1], &SCAN_ALONE, "the text of number 1, now 1,");
    }
    let points = [
        [1, LAST, 11, 1, 4, 0],
        [1, SAME, 11, 1, 0, 0],
        [2, NEXT, 21, 1, 4, 0],
        [2, SAME, 21, 1, 0, 0],
        [3, NEXT, 31, START, 8, 0],
        [3, APART, 31, 1, 0, 0],
    ];
    for slip in [Blunder::PositionsStay, Blunder::InverseInPositions] {
        is_found_in_order(slip, &points, &[2, 3, 1], &[(1, 2), (2, 3), (3, 2)], "the search of number 8, now 8,");
    }
}

/// A side that takes numbers in 32 bits, by its own answers alone: another number becomes 1.
#[test]
fn another_order_finds_numbers_in_32_bits() {
    let pair = Pair { sheet: all_before(), log: log_of(&[(5, 3)]).text() };
    let found = |side| found_in_order(side, Blunder::None, &pair, 0, &[4, 6, 1, 5, 3, 2]);
    for side in [Blunder::NumberIn32Bits, Blunder::RuledNumberIn32Bits] {
        writeln!(std::io::stderr(), "{side:?} found in another order: {}", found(side).expect("found")).unwrap();
    }
    assert_eq!(found(Blunder::None), None);
}

/// On large sheets too, where demand 3 goes by placements.
#[test]
fn demand_3_finds_them_in_large_sheets() {
    for blunder in [
        Blunder::ReverseOnly,
        Blunder::EndsBetween,
        Blunder::BringsAll,
        Blunder::OutsideAsBefore,
        Blunder::NoOrder,
        Blunder::FreeAsSet,
    ] {
        let is_large = |seed: &u64| open(&large_pair_of(*seed).sheet, b"", Blunder::None).read_sheet().unwrap() > 4096;
        let breaks = |seed: &u64| Comparison::new(&Blundering(blunder), &large_pair_of(*seed), *seed).demand_3().is_err();
        let pairs = (0..4 * MOST_PAIRS).filter(is_large).find(breaks);
        let pairs = pairs.unwrap_or_else(|| panic!("{blunder:?} keeps demand 3 in large sheets")) + 1;
        writeln!(std::io::stderr(), "{blunder:?} breaks demand 3 in large sheets at pair {pairs}").unwrap();
    }
}
