//! Document 02, A10: the check with a limit, through the C interface: limits next to each number that makes a difference, what is left in lent memory,
//! the largest logs, families with every limit, and random pairs.
mod common;
use common::answers::{pair, Violation};
use common::tell;
use satskhubo_tests::compare::{Comparison, Mismatch};
use satskhubo_tests::expected::{limited_check, HOLDS, STOPPED, VIOLATED};
use satskhubo_tests::generate::families;
use satskhubo_tests::generate::logs::{log_of, uniform};
use satskhubo_tests::generate::pairs::{
    chained_pair_of, independent_pair_of, large_pair_of, longer_rule_pair_of, pair_of, rule_pair_of,
};
use satskhubo_tests::generate::rules::{rule_of, scans_but_one};
use satskhubo_tests::generate::sheets::{sheet_of, sheet_s};
use satskhubo_tests::generate::targeted::faults::{faulty_log, faulty_sheet, PLACES};
use satskhubo_tests::generate::Pair;
use satskhubo_tests::host::Host;
use satskhubo_tests::outcome::{LimitedCheck, Side, GUARD};
use satskhubo_tests::plain::Plain;
use satskhubo_tests::reference::log::{Log, MOST_LINES};
use satskhubo_tests::reference::sheet::{kind::*, CLOSE, START};

/// The largest log has so many placements of two points, and of four.
const N_2: u64 = 16_000_000;
const N_4: u64 = 256_000_000_000_000;

/// A scan, one of another sort, and the set of both.
const SCAN: u32 = 3;
const OTHER: u32 = 4;
const EITHER: u32 = 1 << SCAN | 1 << OTHER;

/// Limits that nothing here reaches.
const NEVER_REACHED: [u64; 3] = [1 << 32, (1 << 32) + 1, u64::MAX];

#[derive(Clone, Debug, PartialEq, Eq)]
enum End {
    Holds,
    Violated(Violation),
    Stopped,
}

/// How the check ended, how many matchings it looked at, and how many placements come after.
type Answer = (End, u64, u64);

fn stopped(looked: u64, after: u64) -> Answer {
    (End::Stopped, looked, after)
}

fn holds(looked: u64, after: u64) -> Answer {
    (End::Holds, looked, after)
}

fn violated(placement: &[u32], rows: &[u32], looked: u64, after: u64) -> Answer {
    (End::Violated((placement.to_vec(), rows.to_vec())), looked, after)
}

fn answer(LimitedCheck { checked, looked, after }: &LimitedCheck) -> Answer {
    let front = |lent: &[u32], count: u32| lent[GUARD..GUARD + count as usize].to_vec();
    let end = match checked.answer {
        HOLDS => End::Holds,
        VIOLATED => End::Violated((front(&checked.positions, checked.points), front(&checked.rows, checked.consequents))),
        STOPPED => End::Stopped,
        refusal => panic!("refused with {refusal}"),
    };
    (end, *looked, *after)
}

fn counted<'a>(mut comparison: Comparison<'a, Host>, compare: fn(&mut Comparison<'a, Host>) -> Result<(), Mismatch>) -> u64 {
    compare(&mut comparison).unwrap_or_else(|Mismatch(text)| panic!("{text}"));
    comparison.comparisons
}

/// These limits are answered so, and each other one as the reference has it; with the number of comparisons.
fn answers(pair: &Pair, due: &[(u64, Answer)]) -> u64 {
    for (limit, due) in due {
        assert_eq!(answer(&Host.check_limited(&pair.sheet, &pair.log, *limit)), *due, "limit {limit} on {pair:?}");
    }
    due.len() as u64 + counted(Comparison::new(&Host, pair, 0), Comparison::every_limit)
}

/// By the C interface and by plain Rust alike, for logs that are too long for the reference.
fn both_answer(pair: &Pair, due: &[(u64, Answer)]) -> u64 {
    for (limit, due) in due {
        let answered = Host.check_limited(&pair.sheet, &pair.log, *limit);
        assert_eq!(answered, Plain.check_limited(&pair.sheet, &pair.log, *limit), "limit {limit}");
        assert_eq!(answer(&answered), *due, "limit {limit}");
    }
    2 * due.len() as u64
}

/// The same answer to limits up to the largest.
fn whatever_the_limit(from: u64, due: Answer) -> Vec<(u64, Answer)> {
    [from, from + 1].into_iter().chain(NEVER_REACHED).map(|limit| (limit, due.clone())).collect()
}

/// So many points with a set, further rows of the antecedent, and consequents.
fn points(count: u32, set: u32, antecedent: &[[u32; 6]], k: u32, consequents: &[[u32; 6]]) -> Vec<u8> {
    let points: Vec<[u32; 6]> = (1..=count).map(|p| [0, POINT, p, 0, set, 0]).collect();
    sheet_of(k, &[&points[..], antecedent, consequents].concat())
}

/// Point p has a scan, not one of the other sort.
fn is_scan(p: u32) -> [u32; 6] {
    [1, EVENT, p, 0, 1 << SCAN, 0]
}

fn before(p: u32, q: u32) -> [u32; 6] {
    [0, BEFORE, p, q, 0, 0]
}

/// Document 02's readings: the one more is violating, and is not looked at.
#[test]
fn none_looked_at_and_one_more() {
    let one_scan = pair(&points(1, 1 << SCAN, &[], 0, &[]), &[(7, SCAN)]);
    let due = whatever_the_limit(1, violated(&[1], &[], 1, 0));
    tell("limits: one more", answers(&one_scan, &[&[(0, stopped(0, 1))], &due[..]].concat()));
}

/// Document 01's examples: of the matchings 2 and 3, the second is violating, or none is.
#[test]
fn sheet_s_with_every_limit() {
    let late = pair(&sheet_s(), &[(100, 2), (300, 3), (900, 3)]);
    let due = [(0, stopped(0, 3)), (1, stopped(1, 1)), (2, violated(&[3], &[3], 2, 0)), (3, violated(&[3], &[3], 2, 0))];
    let mut comparisons = answers(&late, &due);
    let kept = pair(&sheet_s(), &[(100, 2), (300, 3), (599, 3)]);
    comparisons += answers(&kept, &[(0, stopped(0, 3)), (1, stopped(1, 1)), (2, holds(2, 0)), (3, holds(2, 0))]);
    comparisons += answers(&pair(&sheet_s(), &[]), &whatever_the_limit(0, holds(0, 0)));
    tell("limits: S", comparisons);
}

/// Without points there is one placement, the empty one, with and without lines; rows about the start and the close may be met or not.
#[test]
fn no_points() {
    let mut comparisons = 0;
    for lines in [&[][..], &[(1, 0)], &[(1, 0), (2, 0)]] {
        let met = [[0, WITHIN, START, CLOSE, 0, 10], [0, FREE, CLOSE, START, 1 << SCAN, 0]];
        let missed = [met[0], [0, OUTSIDE, START, CLOSE, 0, 10]];
        for antecedent in [&[][..], &met] {
            let consequents = antecedent.len() as u32 + 1;
            for (k, rows, due) in [
                (0, vec![], violated(&[], &[], 1, 0)),
                (1, vec![], holds(1, 0)),
                (1, vec![[1, FREE, START, CLOSE, 1 << SCAN, 0]], holds(1, 0)),
                (1, vec![[1, NEXT, 11, START, 1 << SCAN, 0]], violated(&[], &[consequents], 1, 0)),
            ] {
                let pair = pair(&points(0, 0, antecedent, k, &rows), lines);
                comparisons += answers(&pair, &[&[(0, stopped(0, 1))], &whatever_the_limit(1, due)[..]].concat());
            }
        }
        for k in [0, 1] {
            comparisons += answers(&pair(&points(0, 0, &missed, k, &[]), lines), &whatever_the_limit(0, holds(0, 1)));
        }
    }
    tell("limits: no points", comparisons);
}

#[test]
fn no_lines() {
    let pairs = (1..=4).flat_map(|count| [0, 1].map(|k| pair(&points(count, 1 << SCAN, &[], k, &[]), &[])));
    tell("limits: no lines", pairs.map(|pair| answers(&pair, &whatever_the_limit(0, holds(0, 0)))).sum());
}

#[test]
fn no_matchings() {
    let mut comparisons = 0;
    for (count, all) in [(1, 3), (2, 9), (3, 27), (4, 81)] {
        let lines = [(1, 0), (2, 1), (3, 2)];
        comparisons += answers(&pair(&points(count, 1 << SCAN, &[], 0, &[]), &lines), &whatever_the_limit(0, holds(0, all)));
    }
    let turned = points(2, 1 << SCAN, &[before(1, 2), before(2, 1)], 0, &[]);
    comparisons += answers(&pair(&turned, &[(1, SCAN), (2, SCAN)]), &whatever_the_limit(0, holds(0, 4)));
    tell("limits: no matchings", comparisons);
}

/// Placements that are no matchings come before, between and after.
#[test]
fn matchings_among_placements() {
    let in_order = pair(&points(2, 1 << SCAN, &[before(1, 2)], 1, &[]), &[(1, SCAN), (2, SCAN), (3, SCAN)]);
    let due = [(0, stopped(0, 9)), (1, stopped(1, 7)), (2, stopped(2, 6))];
    let comparisons = answers(&in_order, &[&due, &whatever_the_limit(3, holds(3, 3))[..]].concat());
    tell("limits: among placements", comparisons);
}

/// Of four points on three lines all 81 placements are matchings. The last line is a scan of the other sort: with a consequent about point 4 the third
/// of them is violating, with one about point 1 the 55th, though the check without a limit passes over the 26 that are as the first.
#[test]
fn four_points() {
    let lines = [(1, SCAN), (2, SCAN), (3, OTHER)];
    let about = |consequents: &[[u32; 6]]| pair(&points(4, EITHER, &[], 1, consequents), &lines);
    let up_to = |most: u64| (0..=most).map(|limit| (limit, stopped(limit, 81 - limit))).collect::<Vec<_>>();
    let mut comparisons = answers(&about(&[]), &[up_to(80), whatever_the_limit(81, holds(81, 0))].concat());
    let fourth = whatever_the_limit(3, violated(&[1, 1, 1, 3], &[5], 3, 78));
    comparisons += answers(&about(&[is_scan(4)]), &[up_to(2), fourth].concat());
    let first = whatever_the_limit(55, violated(&[3, 1, 1, 1], &[5], 55, 26));
    comparisons += answers(&about(&[is_scan(1)]), &[up_to(54), first].concat());
    tell("limits: four points", comparisons);
}

/// Nothing lent is written, and no limit changes the refusal.
fn is_refused(sheet: &[u8], log: &[u8], refusal: u32) -> u64 {
    let limits = [0, 1, 1 << 32, u64::MAX];
    for limit in limits {
        assert_eq!(Host.check_limited(sheet, log, limit), limited_check(Err(refusal)), "limit {limit}");
    }
    limits.len() as u64
}

#[test]
fn refusals() {
    let (sheet, log) = (points(1, 1 << SCAN, &[], 0, &[]), log_of(&[(7, SCAN)]).text());
    let mut comparisons = 0;
    for place in PLACES {
        for refusal in 1..=10 {
            let faulty = faulty_sheet(&[(refusal, place)]).text;
            comparisons += is_refused(&faulty, &log, refusal) + is_refused(&faulty, &faulty_log(&[(25, place)]).text, refusal);
        }
        comparisons += (21..=27).map(|refusal| is_refused(&sheet, &faulty_log(&[(refusal, place)]).text, refusal)).sum::<u64>();
    }
    tell("limits: refusals", comparisons + is_refused(b"", b"", 1) + is_refused(&sheet, b"", 21));
}

fn long(sheet: Vec<u8>, log: Log) -> Pair {
    assert_eq!(log.n(), MOST_LINES);
    Pair { sheet, log: log.text() }
}

/// Each line is a scan.
fn scans() -> Log {
    uniform(MOST_LINES, SCAN)
}

/// Up to 4,000^4 placements, all of them matchings: the first so many are looked at.
#[test]
fn every_point_on_the_largest_log() {
    let all = |count, k| long(points(count, 1 << SCAN, &[], k, &[]), scans());
    let mut comparisons = 0;
    for (count, placements) in [(1, 4000), (2, N_2), (3, 64_000_000_000), (4, N_4)] {
        let limits = [0, 1, 2, 3999, 4000, 4001, 1_000_000].into_iter().filter(|limit| *limit < placements);
        let due: Vec<(u64, Answer)> = limits.map(|limit| (limit, stopped(limit, placements - limit))).collect();
        comparisons += both_answer(&all(count, 1), &due);
        let due = whatever_the_limit(1, violated(&vec![1; count as usize], &[], 1, placements - 1));
        comparisons += both_answer(&all(count, 0), &[&[(0, stopped(0, placements))], &due[..]].concat());
    }
    tell("limits: every point on the largest log", comparisons);
}

/// The first of those in order is 1, 2, 3, 4, with 2 n^2 + .. placements before it; 3,996 on, point 4 is on the last line.
#[test]
fn four_points_in_order_on_the_largest_log() {
    let in_order = long(points(4, 1 << SCAN, &[before(1, 2), before(2, 3), before(3, 4)], 1, &[]), scans());
    let due = [
        (0, stopped(0, N_4)),
        // 3999 n^3 + 3998 n^2 + 3997 n + 3996.
        (1, stopped(1, 255_999_983_991_996)),
        (2, stopped(2, 255_999_983_991_995)),
        // 3999 n^3 + 3998 n^2 + 3997 n.
        (3997, stopped(3997, 255_999_983_988_000)),
        // At 1, 2, 4, 5: 3999 n^3 + 3998 n^2 + 3996 n + 3995.
        (3998, stopped(3998, 255_999_983_987_995)),
    ];
    tell("limits: four points in order on the largest log", both_answer(&in_order, &due));
}

/// One matching, the very last placement; none at all; and none where only the rows say so (document 02, A2).
#[test]
fn few_matchings_on_the_largest_log() {
    let last = |k| long(points(4, 1 << OTHER, &[], k, &[]), scans_but_one(MOST_LINES, MOST_LINES, OTHER));
    let stopped_at_0 = [(0, stopped(0, N_4))];
    let mut comparisons = both_answer(&last(1), &[&stopped_at_0, &whatever_the_limit(1, holds(1, 0))[..]].concat());
    let due = whatever_the_limit(1, violated(&[MOST_LINES; 4], &[], 1, 0));
    comparisons += both_answer(&last(0), &[&stopped_at_0, &due[..]].concat());
    let none = long(points(4, 1 << OTHER, &[], 0, &[]), scans());
    let timed = long(points(4, 1 << SCAN, &[before(1, 2), before(2, 1)], 0, &[]), scans());
    for pair in [none, timed] {
        comparisons += both_answer(&pair, &[(0, holds(0, N_4)), (u64::MAX, holds(0, N_4))]);
    }
    tell("limits: few matchings on the largest log", comparisons);
}

/// 4,000^2 matchings, and limits of as many and one less.
#[test]
fn two_points_on_the_largest_log() {
    let all = long(rule_of("standing-both").expect("a rule").sheet, scans());
    let due = [(N_2 - 1, stopped(N_2 - 1, 1)), (N_2, holds(N_2, 0)), (u64::MAX, holds(N_2, 0))];
    tell("limits: two points on the largest log", both_answer(&all, &due));
}

/// 3,999 + 3,998 + .. matchings, the last at 3,999 and 4,000, with the 4,000 placements of point 1 on the last line after it; the last but one at 3,998
/// and 4,000.
#[test]
fn two_points_in_order_on_the_largest_log() {
    let in_order = long(points(2, 1 << SCAN, &[before(1, 2)], 1, &[is_scan(2)]), scans());
    let due = [(7_997_999, stopped(7_997_999, 8000)), (7_998_000, holds(7_998_000, 4000))];
    tell("limits: two points in order on the largest log", both_answer(&in_order, &due));
}

/// The last line breaks a rule about point 1, behind 3,999 x 4,000 matchings that extend.
#[test]
fn violated_late_on_the_largest_log() {
    let late = long(points(2, EITHER, &[], 1, &[is_scan(1)]), scans_but_one(MOST_LINES, MOST_LINES, OTHER));
    let due = violated(&[MOST_LINES, 1], &[3], 15_996_001, 3999);
    let due = [(15_996_000, stopped(15_996_000, 4000)), (15_996_001, due.clone()), (15_996_002, due)];
    tell("limits: violated late on the largest log", both_answer(&late, &due));
}

/// Antecedents of up to four points with one event or two, in no order, in order, on one line or apart.
fn antecedents() -> Vec<(u32, Vec<[u32; 6]>)> {
    let mut all = Vec::new();
    for (count, set) in [(0, 0)].into_iter().chain((1..=4).flat_map(|count| [0b10, 0b11].map(|set| (count, set)))) {
        let points: Vec<[u32; 6]> = (1..=count).map(|p| [0, POINT, p, 0, set, 0]).collect();
        all.push((count, points.clone()));
        if count > 1 {
            let joined = [BEFORE, SAME, APART].map(|kind| [&points[..], &[[0, kind, 1, count, 0, 0]]].concat());
            all.extend(joined.map(|rows| (count, rows)));
        }
    }
    all
}

/// No consequent, an empty one, one about each point or about none, one about the first and the last, and two.
fn consequents(points: u32) -> Vec<(u32, Vec<[u32; 6]>)> {
    let about = |section, p| [section, EVENT, p, 0, 0b10, 0];
    let mut all =
        vec![(0, vec![]), (1, vec![]), (1, vec![[1, NEXT, 11, START, 0b10, 0]]), (1, vec![[1, LAST, 11, CLOSE, 0b01, 0]])];
    all.extend((1..=points).map(|p| (1, vec![about(1, p)])));
    if points > 1 {
        all.push((1, vec![[1, BEFORE, points, 1, 0, 0]]));
        all.push((2, vec![about(1, 1), about(2, points)]));
    }
    all
}

/// Every limit on every log of up to three lines, up to one more than the 81 matchings that four points have there.
#[test]
fn a_family_with_every_limit() {
    let with_consequents = |(points, antecedent): (u32, Vec<[u32; 6]>)| {
        let sheet = move |(k, rows): (u32, Vec<[u32; 6]>)| sheet_of(k, &[&antecedent[..], &rows].concat());
        consequents(points).into_iter().map(sheet)
    };
    let sheets: Vec<Vec<u8>> = antecedents().into_iter().flat_map(with_consequents).collect();
    let logs: Vec<Vec<u8>> = families::logs().iter().map(Log::text).collect();
    let mut comparisons = 0;
    for (sheet, log) in sheets.iter().flat_map(|sheet| logs.iter().map(move |log| (sheet, log))) {
        let pair = Pair { sheet: sheet.clone(), log: log.clone() };
        comparisons += counted(Comparison::new(&Host, &pair, 0), Comparison::every_limit);
    }
    tell(&format!("limits: a family, all {} sheets times all {} logs", sheets.len(), logs.len()), comparisons);
}

/// Every limit, and those of the seed, on pairs of these seeds.
fn at_random(name: &str, pair_of: fn(u64) -> Pair, pairs: u64) {
    let compare = |seed| {
        let pair = pair_of(seed);
        let every = counted(Comparison::new(&Host, &pair, seed), Comparison::every_limit);
        every + counted(Comparison::new(&Host, &pair, seed), Comparison::limits)
    };
    tell(&format!("limits: {name}"), (3_000_000..3_000_000 + pairs).map(compare).sum());
}

#[test]
fn random_pairs() {
    at_random("random pairs", pair_of, 3000);
    at_random("large sheets", large_pair_of, 500);
    at_random("chains", chained_pair_of, 1000);
}

/// Consequents that speak of few points, so that the check without a limit passes over many matchings.
#[test]
fn rules_at_random() {
    at_random("independent consequents", independent_pair_of, 1000);
    at_random("ordinary rules", rule_pair_of, 1000);
}

/// More placements than are counted one by one.
#[test]
fn longer_logs_at_random() {
    let compare = |seed| counted(Comparison::new(&Host, &longer_rule_pair_of(seed), seed), Comparison::limits);
    tell("limits: longer logs", (3_000_000..3_000_020).map(compare).sum());
}
