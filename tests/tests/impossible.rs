//! Document 02, A6: whether no run can meet a number, through the C interface: each rule by itself next to what just passes, points joined across sections
//! and in chains, the largest sheets and patterns, lent memory, families whole, and that what is impossible matches no small log.
mod common;
use common::{tallied, tell, tell_tally, top};
use satskhubo_interface::lent;
use satskhubo_tests::compare::{compare, compare_once, Comparison, Mismatch, Tally};
use satskhubo_tests::expected::VIOLATED;
use satskhubo_tests::generate::chains::chains;
use satskhubo_tests::generate::families::{self, Family};
use satskhubo_tests::generate::joined::joined;
use satskhubo_tests::generate::pairs::{chained_pair_of, joined_pair_of, large_pair_of, pair_of};
use satskhubo_tests::generate::sheets::{largest, sheet_of, sheet_s};
use satskhubo_tests::generate::targeted::faults::{faulty_sheet, PLACES};
use satskhubo_tests::generate::targeted::{all_before, fullest};
use satskhubo_tests::generate::Pair;
use satskhubo_tests::host::Host;
use satskhubo_tests::outcome::{Ruled, Searched, Side, GUARD, PATTERN};
use satskhubo_tests::reference::antiscenario::antiscenario;
use satskhubo_tests::reference::blunder::Blunder;
use satskhubo_tests::reference::log::Log;
use satskhubo_tests::reference::operations::{smallest, MOST_POINTS};
use satskhubo_tests::reference::sheet::{self, kind::*, Row, Sheet, CLOSE, START};

/// 48^6.
const LARGEST: u64 = 12_230_590_464;

/// Numbers that are in no sheet here, the largest but one excepted.
const OUTSIDE_ALL: [u64; 3] = [0, (1 << 32) + 1, u64::MAX];

const FIRST: u64 = 1 << 1;
const SECOND: u64 = 1 << 2;
const THIRD: u64 = 1 << 3;
const ANY: u64 = u64::MAX;

fn set(section: u32, kind: u32, p: u32, q: u32, set: u64) -> Row {
    Row::of_set(section, kind, p, q, set)
}

fn two(section: u32, kind: u32, p: u32, q: u32) -> Row {
    Row::new(section, kind, p, q, 0, 0)
}

fn point(p: u32, events: u64) -> Row {
    set(0, POINT, p, 0, events)
}

/// The same set for each of so many points.
fn points(count: u32, events: u64) -> Vec<Row> {
    (1..=count).map(|p| point(p, events)).collect()
}

/// Every number, or of many some, and the nearest ones outside are answered as the reference has it; with the number of comparisons.
fn compared(sheet: &[u8], most: u64) -> u64 {
    let pair = Pair { sheet: sheet.to_vec(), log: vec![] };
    let mut comparison = Comparison::new(&Host, &pair, 0);
    comparison.rulings(most).unwrap_or_else(|Mismatch(text)| panic!("{text}"));
    comparison.comparisons
}

fn is_impossible(sheet: &[u8], number: u64) -> bool {
    let ruled = Host.impossible(sheet, number);
    assert!(ruled.answer == 0 && ruled.impossible <= 1, "{ruled:?}");
    ruled.impossible == 1
}

/// N, and the impossible ones of its numbers.
fn impossible_numbers(sheet: &[u8]) -> (u64, Vec<u64>) {
    let count = Host.read_sheet(sheet).count;
    (count, (1..=count).filter(|number| is_impossible(sheet, *number)).collect())
}

/// Of the sheet's numbers these are impossible, and no others.
fn are_impossible(k: u32, rows: &[Row], due: &[u64]) -> u64 {
    let text = sheet::text(k, rows);
    assert_eq!(impossible_numbers(&text).1, due, "{}", String::from_utf8_lossy(&text));
    compared(&text, 5000)
}

/// Rows of an antecedent, which is the only antiscenario of its sheet.
fn contradict(rows: &[Row]) -> u64 {
    are_impossible(0, rows, &[1])
}

fn pass(rows: &[Row]) -> u64 {
    are_impossible(0, rows, &[])
}

/// Each so many points of any event, with these rows.
fn with_points(count: u32, rows: &[Row]) -> Vec<Row> {
    [&points(count, ANY), rows].concat()
}

/// Document 01's example: number 4 wants an injection after the scan and before the correction that is before the scan.
#[test]
fn sheet_s_has_one() {
    assert_eq!(impossible_numbers(&sheet_s()), (4, vec![4]));
    tell("impossible: S", compared(&sheet_s(), 4));
}

/// The theses' sheets: N, and how many numbers are impossible.
#[test]
fn sheets_of_the_theses() {
    let due = [("auth", 12, 6), ("taut", 18, 14)];
    let mut comparisons = 0;
    for (name, count, impossible) in due {
        let text = std::fs::read(top().join("examples/theses/sheets").join(name)).expect("a sheet of the theses");
        let (all, numbers) = impossible_numbers(&text);
        assert_eq!((all, numbers.len()), (count, impossible), "{name}");
        comparisons += compared(&text, count);
    }
    tell("impossible: theses", comparisons);
}

/// The sets of one point: of POINT and EVENT rows, and of POINT rows of joined points; the same with one event in common.
#[test]
fn no_event_in_common() {
    let mut comparisons = contradict(&[point(1, FIRST), set(0, EVENT, 1, 0, SECOND)]);
    comparisons += pass(&[point(1, FIRST | THIRD), set(0, EVENT, 1, 0, SECOND | THIRD)]);
    comparisons += contradict(&[point(1, ANY), set(0, EVENT, 1, 0, FIRST), set(0, EVENT, 1, 0, SECOND)]);
    comparisons += pass(&[point(1, FIRST), point(2, SECOND), set(0, EVENT, 2, 0, SECOND)]);
    comparisons += contradict(&[point(1, FIRST), point(2, SECOND), two(0, SAME, 1, 2)]);
    comparisons += pass(&[point(1, FIRST), point(2, FIRST | SECOND), two(0, SAME, 1, 2)]);
    // Any two of them have one.
    let by_two = [FIRST | SECOND, SECOND | THIRD];
    let joined = |third| [point(1, by_two[0]), point(2, by_two[1]), two(0, SAME, 2, 1), set(0, EVENT, 1, 0, third)];
    comparisons += contradict(&joined(FIRST | THIRD)) + pass(&joined(SECOND));
    tell("impossible: no event in common", comparisons);
}

/// NEXT and LAST, whose points a denial brings, with the denial of EVENT.
#[test]
fn no_event_in_common_with_next_and_last() {
    let mut comparisons = 0;
    for (kind, end) in [(NEXT, START), (LAST, CLOSE)] {
        let with_event = |events| [set(1, kind, 11, end, FIRST | SECOND), set(1, EVENT, 11, 0, events)];
        comparisons += are_impossible(1, &with_event(FIRST | SECOND), &[2]);
        comparisons += are_impossible(1, &with_event(FIRST), &[]);
    }
    tell("impossible: sets of NEXT and LAST", comparisons);
}

/// A denial of EVENT with every event has none, and is impossible on any point; one of no event is met by all.
#[test]
fn event_without_events() {
    let mut comparisons = contradict(&[point(1, ANY), set(0, EVENT, 1, 0, 0)]);
    comparisons += are_impossible(1, &[point(1, ANY), set(1, EVENT, 1, 0, ANY)], &[1]);
    comparisons += are_impossible(1, &[point(1, ANY), set(1, EVENT, 1, 0, 0)], &[]);
    // Before A1 the denial of all of the lower half was empty.
    comparisons += are_impossible(1, &[point(1, ANY), set(1, EVENT, 1, 0, u32::MAX.into())], &[]);
    comparisons += are_impossible(1, &[point(1, FIRST), set(1, EVENT, 1, 0, u32::MAX.into())], &[1]);
    // On a point that has no other set.
    let earlier = |events| [point(1, ANY), point(2, ANY), Row::new(1, EARLIER, 11, 1, 2, 0), set(1, EVENT, 11, 0, events)];
    comparisons += are_impossible(1, &earlier(ANY), &[1]) + are_impossible(1, &earlier(0), &[]);
    tell("impossible: EVENT without events", comparisons);
}

/// Events of one half are not those 32 below or above.
#[test]
fn sets_of_the_upper_half() {
    let of = |first: u64, second: u64| [point(1, first), set(0, EVENT, 1, 0, second)];
    let mut comparisons = 0;
    for (low, high) in [(0, 32), (1, 33), (31, 63)] {
        let (low, high) = (1 << low, 1 << high);
        comparisons += contradict(&of(low, high)) + contradict(&of(high, low));
        comparisons += pass(&of(high, high)) + pass(&of(low | high, high)) + pass(&of(low, low | high));
        comparisons += contradict(&of(low | 1 << 40, high | 1 << 41));
    }
    comparisons += contradict(&of(1 << 62, 1 << 63)) + contradict(&of(u32::MAX.into(), u64::MAX << 32));
    tell("impossible: upper half", comparisons);
}

/// EARLIER and LATER have no set, nor has a point joined to nothing else.
#[test]
fn points_without_a_set() {
    let mut comparisons = 0;
    for kind in [EARLIER, LATER] {
        let introduced = [point(1, FIRST), point(2, SECOND), Row::new(1, kind, 11, 1, 2, 0)];
        let with = |row: Row| [&introduced[..], &[row]].concat();
        comparisons += are_impossible(1, &with(two(1, SAME, 11, 1)), &[]);
        comparisons += are_impossible(1, &with(two(1, APART, 11, 1)), &[]);
        comparisons += are_impossible(1, &with(set(1, EVENT, 11, 0, !THIRD)), &[]);
        // Joined to 1, the point has its set.
        let sets = [two(0, SAME, 1, 2), set(1, EVENT, 11, 0, !THIRD)];
        let same_sets = [point(1, FIRST), point(2, FIRST), sets[0], introduced[2], sets[1]];
        comparisons += are_impossible(1, &same_sets, &[]);
    }
    tell("impossible: points without a set", comparisons);
}

#[test]
fn apart_inside_one_point() {
    let joined = [two(0, SAME, 1, 2), two(0, SAME, 3, 2)];
    let mut comparisons = 0;
    for (p, q) in [(1, 2), (2, 1)] {
        let apart = two(0, APART, p, q);
        comparisons += contradict(&with_points(2, &[joined[0], apart])) + contradict(&with_points(2, &[apart, joined[0]]));
        comparisons += pass(&with_points(2, &[apart])) + pass(&with_points(3, &[joined[1], apart]));
    }
    for (p, q) in [(1, 3), (3, 1)] {
        let apart = two(0, APART, p, q);
        comparisons += contradict(&with_points(3, &[joined[0], joined[1], apart]));
        comparisons += pass(&with_points(3, &[joined[0], apart])) + pass(&with_points(3, &[joined[1], apart]));
    }
    tell("impossible: APART inside", comparisons);
}

/// Rows that lead back in one to four steps, and each without its last.
#[test]
fn from_a_point_back_to_itself() {
    let before = |p, q| two(0, BEFORE, p, q);
    let round = [before(1, 2), before(2, 3), before(3, 4), before(4, 1)];
    let mut comparisons = 0;
    for last in 1..=3 {
        let back = before(last + 1, 1);
        let there = with_points(4, &round[..last as usize]);
        comparisons += contradict(&[&there[..], &[back]].concat()) + pass(&there);
        let reversed: Vec<Row> = [back].into_iter().chain(round[..last as usize].iter().rev().copied()).collect();
        comparisons += contradict(&with_points(4, &reversed));
    }
    // Two ways to the same point lead not back.
    comparisons += pass(&with_points(4, &[before(1, 2), before(1, 3), before(2, 4), before(3, 4), before(1, 4)]));
    // A way back that some points only lead to.
    comparisons += contradict(&with_points(4, &[before(1, 2), before(2, 3), before(3, 4), before(4, 3)]));
    tell("impossible: back to itself", comparisons);
}

/// BEFORE inside a joined point is one step back; joined points lie on the way.
#[test]
fn back_through_joined_points() {
    let (before, same) = (|p, q| two(0, BEFORE, p, q), |p, q| two(0, SAME, p, q));
    let mut comparisons = contradict(&with_points(2, &[same(1, 2), before(1, 2)]));
    comparisons += contradict(&with_points(2, &[same(1, 2), before(2, 1)]));
    comparisons += contradict(&with_points(3, &[same(1, 2), same(3, 2), before(3, 1)]));
    comparisons += pass(&with_points(3, &[same(1, 2), before(3, 1)]));
    comparisons += contradict(&with_points(4, &[before(1, 2), same(3, 2), before(3, 4), same(1, 4)]));
    comparisons += pass(&with_points(4, &[before(1, 2), same(3, 2), before(3, 4)]));
    comparisons += pass(&with_points(4, &[before(1, 2), before(3, 4), same(1, 4)]));
    tell("impossible: back through joined points", comparisons);
}

/// p of NEXT is above q, p of LAST below it: the denials of BEFORE turned, of SAME and of APART.
#[test]
fn the_order_of_next_and_last() {
    let with = |kind, row: Row| [point(1, ANY), set(1, kind, 11, 1, ANY), row];
    let mut comparisons = 0;
    for (kind, lower, higher) in [(NEXT, 1, 11), (LAST, 11, 1)] {
        // Number 1 denies NEXT or LAST; 2 and 3 are BEFORE turned, and SAME.
        comparisons += are_impossible(1, &with(kind, two(1, BEFORE, lower, higher)), &[2, 3]);
        comparisons += are_impossible(1, &with(kind, two(1, BEFORE, higher, lower)), &[3]);
        comparisons += are_impossible(1, &with(kind, two(1, APART, 11, 1)), &[2]);
        comparisons += are_impossible(1, &with(kind, two(1, SAME, 1, 11)), &[]);
    }
    tell("impossible: order of NEXT and LAST", comparisons);
}

/// From the start and to the close all rows lead on: both are points, on no way back.
#[test]
fn the_start_and_the_close() {
    let introduced =
        [set(1, NEXT, 11, START, ANY), set(1, LAST, 12, CLOSE, ANY), set(1, NEXT, 13, 12, ANY), set(1, LAST, 14, 11, ANY)];
    let further =
        [two(1, BEFORE, 12, 11), two(1, APART, 11, 12), set(1, FREE, START, CLOSE, ANY), set(1, FREE, CLOSE, START, ANY)];
    let rows = [&introduced[..], &further, &[two(1, BEFORE, 13, 14), set(1, FREE, 13, CLOSE, ANY), set(1, FREE, START, 14, ANY)]]
        .concat();
    tell("impossible: start and close", are_impossible(1, &rows, &[]));
}

/// What no run can meet, but by none of the three rules: EARLIER, LATER, FREE, WITHIN and OUTSIDE play no part.
#[test]
fn rows_that_play_no_part() {
    let free = with_points(2, &[set(0, FREE, 1, 2, FIRST), set(0, EVENT, 1, 0, SECOND), set(0, FREE, 2, 1, SECOND)]);
    let mut comparisons = pass(&free);
    comparisons += pass(&with_points(2, &[Row::new(0, WITHIN, 1, 2, 0, 0), Row::new(0, WITHIN, 2, 1, 5, 9)]));
    comparisons += pass(&with_points(2, &[Row::new(0, WITHIN, 1, 2, 0, 9), Row::new(0, OUTSIDE, 2, 1, 0, 9)]));
    comparisons += pass(&with_points(2, &[two(0, SAME, 1, 2), Row::new(0, OUTSIDE, 2, 1, 0, 9)]));
    // Below the lower of two, above the higher; and on either, which some run meets.
    for kind in [EARLIER, LATER] {
        let introduced = with_points(2, &[Row::new(1, kind, 11, 1, 2, 0)]);
        for row in [two(1, BEFORE, 1, 11), two(1, BEFORE, 11, 1), two(1, APART, 11, 2), two(1, SAME, 2, 11)] {
            comparisons += are_impossible(1, &[&introduced[..], &[row]].concat(), &[]);
        }
    }
    tell("impossible: rows that play no part", comparisons);
}

/// Number 1 joins 1 to 3 and 3 to 2, by two consequents; 4 joins none.
#[test]
fn joined_across_sections() {
    let antecedent = |first, second| [point(1, first), point(2, second), point(3, ANY)];
    let consequents = [two(1, APART, 1, 3), set(1, EVENT, 3, 0, THIRD), two(2, APART, 3, 2), set(2, EVENT, 3, 0, THIRD)];
    let with = |rows: &[Row]| [rows, &consequents].concat();
    let mut comparisons = are_impossible(2, &with(&antecedent(FIRST, SECOND)), &[1]);
    comparisons += are_impossible(2, &with(&antecedent(FIRST, FIRST)), &[]);
    for row in [two(0, APART, 2, 1), two(0, BEFORE, 1, 2), two(0, BEFORE, 2, 1)] {
        comparisons += are_impossible(2, &with(&[&antecedent(FIRST, FIRST)[..], &[row]].concat()), &[1]);
    }
    // Two points that their own sections join to one of the antecedent: 1 is above 11, which is 3, and below 21, which is 3.
    let own = [set(1, LAST, 11, 1, FIRST), two(1, APART, 11, 3), set(2, NEXT, 21, 1, FIRST), two(2, APART, 3, 21)];
    comparisons += are_impossible(2, &[&points(3, FIRST)[..], &own].concat(), &[4]);
    tell("impossible: across sections", comparisons);
}

/// The rows of a denial's own point: after 1 and before 11, which is before 1.
#[test]
fn the_point_of_a_denial() {
    let free = |p, q| [point(1, ANY), set(1, LAST, 11, 1, ANY), set(1, FREE, p, q, FIRST)];
    let comparisons = are_impossible(1, &free(11, 1), &[3]) + are_impossible(1, &free(1, 11), &[2]);
    tell("impossible: the point of a denial", comparisons);
}

/// The number is refused, and what was lent stays.
fn is_refused(sheet: &[u8], number: u64) {
    assert_eq!(Host.impossible(sheet, number), Ruled { answer: 31, impossible: PATTERN }, "{number}");
}

/// Without consequents N is 1; with an empty one it is 0, and no number is in 1 to 0.
#[test]
fn few_numbers() {
    for rows in [&[][..], &[[0, POINT, 1, 0, 2, 0]]] {
        assert_eq!(impossible_numbers(&sheet_of(0, rows)), (1, vec![]));
        OUTSIDE_ALL.into_iter().chain([2]).for_each(|number| is_refused(&sheet_of(0, rows), number));
        for k in 1..=6 {
            OUTSIDE_ALL.into_iter().chain([1, 2]).for_each(|number| is_refused(&sheet_of(k, rows), number));
        }
    }
    tell("impossible: few numbers", 2 * (1 + 4 + 6 * 5));
}

/// Numbers of 48^6: all BEFORE 2 1, all SAME, and both.
#[test]
fn the_largest_count() {
    let sheet = all_before();
    let asked = [1, LARGEST, 2, LARGEST - 1, (1 << 32) + 1];
    assert_eq!(asked.map(|number| is_impossible(&sheet, number)), [false, false, true, true, true]);
    assert!(asked.into_iter().all(|number| is_impossible(&fullest(), number)));
    for sheet in [&sheet, &fullest()] {
        [0, LARGEST + 1, LARGEST + (1 << 32), u64::MAX].into_iter().for_each(|number| is_refused(sheet, number));
    }
    tell("impossible: 48^6", 18 + compared(&sheet, 200) + compared(&fullest(), 200));
}

/// Four antecedent points, and in each consequent eight that follow one of them, one after the other, and FREE up to the next of the four; consequents 5
/// and 6 do what the first does.
fn largest_way_back() -> Vec<Row> {
    let mut rows = points(4, ANY);
    rows.extend(vec![set(0, EVENT, 1, 0, ANY); 28]);
    for section in 1..=6 {
        let from = if section <= 4 { section } else { 1 };
        let ten = 10 * section;
        rows.push(set(section, NEXT, ten + 1, from, ANY));
        rows.extend((2..=8).map(|index| set(section, NEXT, ten + index, ten + index - 1, ANY)));
        rows.push(set(section, FREE, ten + 8, from % 4 + 1, ANY));
    }
    rows
}

/// 58 points and 98 rows: a way back of 40 steps, where the first of the two denials of FREE is chosen from 1 to 2 once, from 2 to 3, to 4 and to 1.
#[test]
fn the_largest_patterns() {
    assert_eq!(impossible_numbers(&largest()), (64, vec![]));
    let rows = largest_way_back();
    let text = sheet::text(6, &rows);
    let count = Host.read_sheet(&text).count;
    // Each consequent has eight denials of NEXT before the two of FREE.
    assert_eq!(count, 10_u64.pow(6));
    let number = |second: [bool; 6]| 1 + second.iter().fold(0, |number, second| 10 * number + 8 + u64::from(*second));
    let mut comparisons = compared(&largest(), 64) + compared(&text, 300);
    for choices in 0..64_u32 {
        let second: [bool; 6] = std::array::from_fn(|index| choices >> index & 1 == 1);
        let written = Host.write(&text, number(second), 3437);
        assert_eq!((written.answer, written.length), (0, 3437));
        let is_due = !second[1] && !second[2] && !second[3] && !(second[0] && second[4] && second[5]);
        assert_eq!(is_impossible(&text, number(second)), is_due, "{second:?}");
        comparisons += 2;
    }
    tell("impossible: largest patterns", comparisons);
}

/// Whatever stood there: 0 or 1 is written, or nothing.
#[test]
fn lent_memory() {
    let mut comparisons = 0;
    let mut leaves = |sheet: &[u8], number: u64, answer: u32, written: Option<u8>| {
        for before in [0, 1, 2, PATTERN, u8::MAX] {
            let mut impossible = before;
            let answered = lent::impossible(sheet, number, &mut impossible);
            assert_eq!((answered, impossible), (answer, written.unwrap_or(before)), "number {number}");
            comparisons += 1;
        }
    };
    (1..=4).for_each(|number| leaves(&sheet_s(), number, 0, Some(u8::from(number == 4))));
    [0, 5, (1 << 32) + 1, (1 << 32) + 4, u64::MAX].into_iter().for_each(|number| leaves(&sheet_s(), number, 31, None));
    for (refusal, place) in (1..=10).flat_map(|refusal| PLACES.map(|place| (refusal, place))) {
        let faulty = faulty_sheet(&[(refusal, place)]).text;
        [0, 1, u64::MAX].into_iter().for_each(|number| leaves(&faulty, number, refusal, None));
    }
    [0, 1].into_iter().for_each(|number| leaves(b"", number, 1, None));
    tell("impossible: lent memory", comparisons);
}

/// Every number of every sheet, the larger families' in part.
#[test]
fn every_family() {
    let whole = [families::small(), families::boards(), chains(), joined()].concat();
    let mut sheets: Vec<Vec<u8>> = whole.into_iter().flat_map(|family| family.sheets).collect();
    sheets.extend(families::large().into_iter().flat_map(|family| family.sheets).step_by(13));
    let comparisons = sheets.iter().map(|sheet| compared(sheet, 500)).sum();
    tell(&format!("impossible: every number of {} sheets of families", sheets.len()), comparisons);
}

fn read(text: &[u8]) -> Sheet {
    sheet::read(text, Blunder::None).expect("accepted")
}

/// The impossible numbers of some sheets, each with its sheet.
fn every_impossible(sheets: impl Iterator<Item = Vec<u8>>) -> Vec<(Sheet, u64)> {
    let with_sheet = |text: Vec<u8>| {
        let sheet = read(&text);
        impossible_numbers(&text).1.into_iter().map(|number| (sheet.clone(), number)).collect::<Vec<_>>()
    };
    sheets.flat_map(with_sheet).collect()
}

/// Of these impossible numbers, every so-many-th has a matching on none of the logs.
fn match_nothing(name: &str, impossible: &[(Sheet, u64)], stride: usize, logs: &[Log]) {
    let mut searches = 0;
    for (sheet, number) in impossible.iter().step_by(stride) {
        let rows = antiscenario(sheet, *number);
        for log in logs {
            assert_eq!(smallest(&rows, log), None, "number {number} on {log:?} of\n{sheet:?}");
            searches += 1;
        }
    }
    tell(&format!("impossible: no matching on {} logs, {name}, 1 in {stride} of {}", logs.len(), impossible.len()), searches);
}

fn of_families(families: Vec<Family>) -> Vec<(Sheet, u64)> {
    every_impossible(families.into_iter().flat_map(|family| family.sheets))
}

/// "An impossible pattern must match no accepted log at all": on every log of up to three lines over two events and two ticks.
#[test]
fn impossible_numbers_match_no_small_log() {
    match_nothing("small", &of_families(families::small()), 1, &families::logs());
    match_nothing("newer boards", &of_families(families::boards()), 1, &families::board_logs());
    match_nothing("joined", &of_families(joined()), 31, &families::board_logs());
    match_nothing("chains", &of_families(chains()), 61, &families::board_logs());
}

#[test]
fn impossible_numbers_at_random_match_no_small_log() {
    let accepted = |text: &Vec<u8>| sheet::read(text, Blunder::None).is_ok_and(|sheet| sheet.count <= 200);
    let random =
        |pair_of: fn(u64) -> Pair| every_impossible((4_000_000..4_000_300).map(|seed| pair_of(seed).sheet).filter(accepted));
    match_nothing("random", &random(pair_of), 11, &families::board_logs());
    match_nothing("random joined", &random(joined_pair_of), 11, &families::board_logs());
}

/// "demand 3 must still hold over those numbers alone", by the side's own answers: the smallest that the possible numbers find is what the check gives, and
/// the others find none.
fn holds_over_the_possible(pair: &Pair) -> u64 {
    let (count, impossible) = impossible_numbers(&pair.sheet);
    let finding = |number| Some(Host.search(&pair.sheet, &pair.log, number, MOST_POINTS)).filter(|searched| searched.found == 1);
    assert!(impossible.iter().all(|number| finding(*number).is_none()));
    let possible = (1..=count).filter(|number| !impossible.contains(number));
    let found: Vec<Searched> = possible.filter_map(finding).collect();
    let checked = Host.check(&pair.sheet, &pair.log);
    let cut = |lent: &[u32]| lent[GUARD..][..checked.points as usize].to_vec();
    let given = (checked.answer == VIOLATED).then(|| cut(&checked.positions));
    assert_eq!(found.is_empty(), given.is_none());
    assert_eq!(found.iter().map(|searched| cut(&searched.places)).min(), given);
    count + 1
}

#[test]
fn demand_3_over_the_possible_numbers_alone() {
    let is_accepted = |pair: &Pair| {
        let read = Host.read_sheet(&pair.sheet);
        read.answer == 0 && read.count <= 500 && Host.read_log(&pair.log).answer == 0
    };
    let pairs = |pair_of: fn(u64) -> Pair| (4_000_000..4_001_000).map(pair_of).filter(is_accepted);
    let comparisons = pairs(pair_of).chain(pairs(joined_pair_of)).map(|pair| holds_over_the_possible(&pair)).sum();
    tell("impossible: demand 3 over the possible numbers", comparisons);
}

/// Every operation and demand 3 on pairs made for these rules.
#[test]
fn joined_pairs() {
    let tally: Tally = (4_000_000..4_000_500).map(|seed| tallied(compare(&Host, &joined_pair_of(seed), seed, 6))).sum();
    tell_tally("impossible: joined pairs", tally);
    let (sheets, logs) = (joined().into_iter().flat_map(|family| family.sheets).collect::<Vec<_>>(), families::board_logs());
    let pair = |index: usize| Pair { sheet: sheets[index / logs.len()].clone(), log: logs[index % logs.len()].text() };
    let tally: Tally = (0..sheets.len() * logs.len()).step_by(307).map(|index| tallied(compare_once(&Host, &pair(index)))).sum();
    tell_tally("impossible: a part of the joined families", tally);
}

#[test]
fn random_sheets() {
    let rulings = |pair_of: fn(u64) -> Pair, sheets: u64| -> u64 {
        (4_000_000..4_000_000 + sheets).map(|seed| compared(&pair_of(seed).sheet, 60)).sum()
    };
    tell("impossible: random sheets", rulings(pair_of, 2000));
    tell("impossible: joined sheets", rulings(joined_pair_of, 2000));
    tell("impossible: large sheets", rulings(large_pair_of, 500));
    tell("impossible: chained sheets", rulings(chained_pair_of, 500));
}
