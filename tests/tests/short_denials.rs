//! Document 02, A8: the short denial of a missing point, through the C interface: each condition of the table by itself, families with every subset
//! of a few BEFORE rows, and what stays as it was.
mod common;
use common::answers::{found, judged, pair, verdict, written};
use common::{counted, tallied, tell, tell_tally, top};
use satskhubo_tests::compare::{compare, compare_once, Comparison, Tally};
use satskhubo_tests::generate::chains::{chain_logs, chains};
use satskhubo_tests::generate::pairs::{chained_pair_of, has_short_denial, large_pair_of, pair_of};
use satskhubo_tests::generate::Pair;
use satskhubo_tests::host::Host;
use satskhubo_tests::outcome::{Side, GUARD};
use satskhubo_tests::reference::blunder::Blunder;
use satskhubo_tests::reference::operations::{open, violating};
use satskhubo_tests::reference::sheet::{self, kind::*, CLOSE, START};
use std::fs;
use std::io::Write;

/// First line and rows, each section, kind, p, q, a and b.
fn sheet(k: u32, rows: &[[u32; 6]]) -> String {
    let mut text = format!("{k:3}{:3}\n", rows.len());
    for [section, kind, p, q, a, b] in rows {
        text += &format!("{section:3}{kind:3}{p:3}{q:3}{a:11}{b:11}\n");
    }
    text
}

/// The set of the points of the antecedent, events 3 and 2; and that of the others, events 2 and 33.
const LINES: [u32; 2] = [12, 0];
const MISSING: [u32; 2] = [4, 2];

/// Logs with the missing event nowhere, before, between and after two others, and twice.
const LOGS: [&[(u32, u32)]; 6] = [
    &[],
    &[(1, 3), (2, 3)],
    &[(1, 2), (2, 3), (3, 3)],
    &[(1, 3), (2, 33), (3, 3)],
    &[(1, 3), (2, 3), (3, 33)],
    &[(1, 2), (2, 3), (3, 2), (4, 3)],
];

/// A row of a consequent: its kind, p and q.
type Brief = (u32, u32, u32);

fn next(p: u32, q: u32) -> Brief {
    (NEXT, p, q)
}

fn before(p: u32, q: u32) -> Brief {
    (BEFORE, p, q)
}

/// So many antecedent points with these BEFORE rows, and a consequent. The denial of its point 11 or 12 is FREE of these two after the rows brought.
struct Case {
    points: u32,
    order: Vec<(u32, u32)>,
    consequent: Vec<Brief>,
    missing: u32,
    brought: Vec<Brief>,
    free: (u32, u32),
}

/// The denial of point 11, which brings nothing.
fn case(points: u32, order: &[(u32, u32)], consequent: &[Brief], free: (u32, u32)) -> Case {
    Case { points, order: order.to_vec(), consequent: consequent.to_vec(), missing: 11, brought: vec![], free }
}

fn written_out((kind, p, q): Brief) -> [u32; 6] {
    let [a, b] = match kind {
        BEFORE => [0, 0],
        EARLIER | LATER => [if q == 1 { 2 } else { 1 }, 0],
        _ => MISSING,
    };
    [1, kind, p, q, a, b]
}

/// The same with every order turned round.
fn turned((kind, p, q): Brief) -> Brief {
    let end = |point| match point {
        START => CLOSE,
        CLOSE => START,
        _ => point,
    };
    match kind {
        NEXT => (LAST, p, end(q)),
        BEFORE => (BEFORE, q, p),
        EARLIER => (LATER, p, q),
        _ => (EARLIER, p, q),
    }
}

impl Case {
    /// What is asked of NEXT, asked of LAST.
    fn mirrored(&self) -> Case {
        let end = |point| if point == START || point == CLOSE { CLOSE - point } else { point };
        Case {
            points: self.points,
            order: self.order.iter().map(|&(p, q)| (q, p)).collect(),
            consequent: self.consequent.iter().copied().map(turned).collect(),
            missing: self.missing,
            brought: self.brought.iter().copied().map(turned).collect(),
            free: (end(self.free.1), end(self.free.0)),
        }
    }

    fn with(&self, rows: impl Iterator<Item = [u32; 6]>) -> String {
        let points = (1..=self.points).map(|p| [0, POINT, p, 0, LINES[0], LINES[1]]);
        let order = self.order.iter().map(|&(p, q)| [0, BEFORE, p, q, 0, 0]);
        sheet(1, &points.chain(order).chain(rows).collect::<Vec<_>>())
    }

    fn sheet(&self) -> String {
        self.with(self.consequent.iter().copied().map(written_out))
    }

    /// BEFORE has two denials, EARLIER and LATER have none.
    fn number(&self) -> u64 {
        let earlier = self.consequent.iter().take_while(|row| row.1 != self.missing || row.0 == BEFORE);
        let denials = earlier.map(|row| match row.0 {
            BEFORE => 2,
            EARLIER | LATER => 0,
            _ => 1,
        });
        denials.sum::<u64>() + 1
    }

    fn denial(&self) -> String {
        let free = [1, FREE, self.free.0, self.free.1, MISSING[0], MISSING[1]];
        self.with(self.brought.iter().copied().map(written_out).chain([free]))
    }

    /// The text, and every operation on some logs beside the reference.
    fn holds(&self) -> u64 {
        let sheet = self.sheet();
        assert_eq!(written(sheet.as_bytes(), self.number()), self.denial(), "{sheet}");
        LOGS.iter().map(|lines| 1 + counted(compare(&Host, &pair(sheet.as_bytes(), lines), 0, 20))).sum()
    }
}

/// Each case, and its mirror with LAST.
fn hold(name: &str, cases: &[Case]) {
    tell(&format!("short denials: {name}"), cases.iter().map(|case| case.holds() + case.mirrored().holds()).sum());
}

/// The texts byte for byte.
#[test]
fn texts() {
    let points = "  0  1  1  0          8          0\n  0  1  2  0          8          0\n  0  6  1  2          0          0\n";
    let after = format!("  1  5\n{points}  1  2 11  1          0 2147483648\n  1  6 11  2          0          0\n");
    let last = format!("  1  5\n{points}  1  3 11  2          4          1\n  1  6  1 11          0          0\n");
    assert_eq!(written(after.as_bytes(), 1), format!("  1  4\n{points}  1  9  1  2          0 2147483648\n"));
    assert_eq!(written(last.as_bytes(), 1), format!("  1  4\n{points}  1  9  1  2          4          1\n"));
    let from_start =
        "  1  3\n  0  1  1  0          8          0\n  1  2 11  0          4          0\n  1  6 11  1          0          0\n";
    let from_close =
        "  1  3\n  0  1  1  0          8          0\n  1  3 11 99          4          0\n  1  6  1 11          0          0\n";
    assert_eq!(
        written(from_start.as_bytes(), 1),
        "  1  2\n  0  1  1  0          8          0\n  1  9  0  1          4          0\n"
    );
    assert_eq!(
        written(from_close.as_bytes(), 1),
        "  1  2\n  0  1  1  0          8          0\n  1  9  1 99          4          0\n"
    );
    // Without the antecedent's order.
    let points = "  0  1  1  0          8          0\n  0  1  2  0          8          0\n";
    let long = format!("  1  4\n{points}  1  2 11  1          0          1\n  1  6 11  2          0          0\n");
    let long_last = format!("  1  4\n{points}  1  3 11  2          4          0\n  1  6  1 11          0          0\n");
    assert_eq!(written(long.as_bytes(), 1), format!("  1  3\n{points}  1  9  1 99          0          1\n"));
    assert_eq!(written(long_last.as_bytes(), 1), format!("  1  3\n{points}  1  9  0  2          4          0\n"));
    tell("short denials: texts", 6);
}

#[test]
fn a_chain_of_the_consequents_rows() {
    let cases = [
        case(2, &[(1, 2)], &[next(11, 1), before(11, 2)], (1, 2)),
        case(2, &[(1, 2)], &[next(11, 1)], (1, 99)),
        case(2, &[(1, 2)], &[next(11, 1), before(2, 11)], (1, 99)),
        case(2, &[(1, 2)], &[next(11, 1), before(1, 11), before(1, 2)], (1, 99)),
        // A row between antecedent points counts where it is the consequent's, and not where it is the antecedent's.
        case(3, &[(1, 3)], &[next(11, 1), before(11, 2), before(2, 3)], (1, 3)),
        case(3, &[(1, 3), (2, 3)], &[next(11, 1), before(11, 2)], (1, 99)),
        case(4, &[(1, 4), (2, 3)], &[next(11, 1), before(11, 2), before(3, 4)], (1, 99)),
        case(4, &[(1, 4)], &[next(11, 1), before(11, 2), before(2, 3), before(3, 4)], (1, 4)),
        // Another point, which the denial does not bring.
        case(2, &[(1, 2)], &[next(11, 1), next(12, 0), before(11, 12), before(12, 2)], (1, 2)),
        case(2, &[(1, 2)], &[next(11, 1), (EARLIER, 12, 2), before(11, 12)], (1, 99)),
        case(2, &[(1, 2)], &[next(11, 1), (EARLIER, 12, 2), before(11, 12), before(12, 2)], (1, 2)),
    ];
    hold("chains", &cases);
}

#[test]
fn an_order_of_the_antecedents_rows() {
    let to_2 = [next(11, 1), before(11, 2)];
    let cases = [
        case(2, &[], &to_2, (1, 99)),
        case(2, &[(2, 1)], &to_2, (1, 99)),
        case(2, &[], &[next(11, 1), before(11, 2), before(1, 2)], (1, 99)),
        case(2, &[], &[before(1, 2), next(11, 1), before(11, 2)], (1, 99)),
        case(2, &[], &[next(11, 1), before(1, 11), before(11, 2)], (1, 99)),
        case(3, &[(1, 2), (2, 3)], &[next(11, 1), before(11, 3)], (1, 3)),
        case(3, &[(2, 3), (1, 2)], &[next(11, 1), before(11, 3)], (1, 3)),
        case(3, &[(1, 2)], &[next(11, 1), before(11, 3), before(2, 3)], (1, 99)),
        case(3, &[(2, 3)], &[next(11, 1), before(11, 3), before(1, 2)], (1, 99)),
        case(4, &[(3, 4), (2, 3), (1, 2)], &[next(11, 1), before(11, 4)], (1, 4)),
        case(4, &[(1, 2), (1, 3), (2, 3)], &[next(11, 1), before(11, 4)], (1, 99)),
    ];
    hold("orders", &cases);
}

#[test]
fn the_lowest_of_several() {
    let cases = [
        case(3, &[(1, 2), (1, 3)], &[next(11, 1), before(11, 3), before(11, 2)], (1, 2)),
        case(3, &[(1, 2), (2, 3)], &[next(11, 1), before(11, 3), before(3, 2)], (1, 2)),
        // The lowest number, though 1 stands after 3; and of those in order, though 1 is reached.
        case(3, &[(2, 3), (3, 1)], &[next(11, 2), before(11, 3), before(11, 1)], (2, 1)),
        case(3, &[(2, 3)], &[next(11, 2), before(11, 1), before(11, 3)], (2, 3)),
        case(4, &[(2, 3), (2, 4)], &[next(11, 2), before(11, 1), before(11, 4), before(11, 3)], (2, 3)),
        case(4, &[(1, 4)], &[next(11, 1), before(11, 2), before(11, 3), before(11, 4)], (1, 4)),
        case(2, &[], &[next(11, 0), before(11, 2), before(11, 1)], (0, 1)),
        case(4, &[], &[next(11, 0), before(11, 4), before(11, 3)], (0, 3)),
    ];
    hold("several", &cases);
}

#[test]
fn q_is_not_taken_and_a_chain_through_it_counts() {
    let cases = [
        case(2, &[(1, 2)], &[next(11, 1), before(11, 1)], (1, 99)),
        case(2, &[(1, 2)], &[next(11, 1), before(11, 1), before(1, 2)], (1, 2)),
        case(2, &[(1, 2)], &[next(11, 1), before(11, 1), before(11, 2)], (1, 2)),
        case(2, &[(2, 1)], &[next(11, 2), before(11, 2), before(2, 1)], (2, 1)),
        // The antecedent's rows lead from q back to q.
        case(2, &[(1, 2), (2, 1)], &[next(11, 1), before(11, 1)], (1, 99)),
        case(2, &[(1, 2), (2, 1)], &[next(11, 1), before(11, 1), before(11, 2)], (1, 2)),
        case(1, &[], &[next(11, 1), before(11, 1)], (1, 99)),
    ];
    hold("q itself", &cases);
}

#[test]
fn a_point_of_the_consequent_as_q() {
    let from_11 = |order: &[(u32, u32)], further: &[Brief]| Case {
        missing: 12,
        brought: vec![next(11, 1)],
        ..case(2, order, &[&[next(11, 1), next(12, 11)], further].concat(), (11, 99))
    };
    let cases = [
        from_11(&[(1, 2)], &[before(12, 2)]),
        from_11(&[(1, 2)], &[before(12, 2), before(11, 2)]),
        from_11(&[(1, 2)], &[before(11, 12), before(12, 2), before(1, 2)]),
        from_11(&[(1, 2)], &[before(12, 11), before(11, 2)]),
        // Of the same consequents, the denial of point 11.
        case(2, &[(1, 2)], &[next(11, 1), next(12, 11), before(12, 2), before(11, 2)], (1, 2)),
        case(2, &[(1, 2)], &[next(11, 1), next(12, 11), before(12, 2)], (1, 99)),
        case(2, &[(1, 2)], &[next(11, 1), next(12, 11), before(11, 12), before(12, 2)], (1, 2)),
    ];
    hold("a point of the consequent", &cases);
}

/// 0 of NEXT, 99 of LAST.
#[test]
fn an_end_as_q_wants_no_order() {
    let cases = [
        case(1, &[], &[next(11, 0), before(11, 1)], (0, 1)),
        case(1, &[], &[next(11, 0)], (0, 99)),
        case(1, &[], &[next(11, 0), before(1, 11)], (0, 99)),
        case(2, &[(2, 1)], &[next(11, 0), before(11, 2)], (0, 2)),
        case(2, &[(2, 1)], &[next(11, 0), before(11, 2), before(2, 1)], (0, 1)),
        Case { missing: 12, ..case(2, &[], &[next(11, 0), next(12, 0), before(12, 2), before(11, 1)], (0, 2)) },
    ];
    hold("ends", &cases);
}

#[test]
fn rows_anywhere_repeats_and_cycles() {
    let cases = [
        case(3, &[(1, 3)], &[before(2, 3), next(11, 1), before(11, 2)], (1, 3)),
        case(2, &[(1, 2)], &[next(11, 1), next(12, 0), before(12, 2), before(11, 12)], (1, 2)),
        case(2, &[(1, 2), (1, 2)], &[next(11, 1), before(11, 2), before(11, 2)], (1, 2)),
        case(2, &[(1, 2)], &[next(11, 1), next(12, 0), before(11, 12), before(12, 11), before(12, 2)], (1, 2)),
        case(2, &[(1, 2)], &[next(11, 1), next(12, 0), before(11, 12), before(12, 11)], (1, 99)),
        case(2, &[(1, 2)], &[next(11, 1), before(11, 2), before(2, 11)], (1, 2)),
        case(3, &[(1, 2), (2, 1), (2, 3)], &[next(11, 1), before(11, 3)], (1, 3)),
        case(3, &[(1, 2), (2, 1)], &[next(11, 1), before(11, 3)], (1, 99)),
    ];
    hold("anywhere", &cases);
}

/// Eight points of the consequent and four of the antecedent, in rows from the last step to the first.
#[test]
fn the_longest_chain() {
    let introducing = (11..=18).map(|p| if p == 11 { next(11, 1) } else { next(p, 0) });
    let steps = [before(2, 3), before(3, 4), before(18, 2)].into_iter().chain((11..=17).rev().map(|p| before(p, p + 1)));
    let rows: Vec<Brief> = introducing.chain(steps).collect();
    let order = [(1, 4)];
    let without = |row: Brief| rows.iter().copied().filter(|other| *other != row).collect::<Vec<_>>();
    let cases = [
        case(4, &order, &rows, (1, 4)),
        case(4, &order, &without(before(14, 15)), (1, 99)),
        case(4, &order, &without(before(3, 4)), (1, 99)),
    ];
    hold("the longest", &cases);
}

/// Rows of another consequent lead nowhere.
#[test]
fn another_consequents_rows() {
    let antecedent = [[0, 1, 1, 0, 8, 0], [0, 1, 2, 0, 8, 0], [0, 1, 3, 0, 8, 0], [0, 6, 1, 3, 0, 0]];
    let first = [[1, 2, 11, 1, 4, 0], [1, 6, 11, 2, 0, 0]];
    let second = [[2, 2, 21, 1, 4, 0], [2, 6, 21, 3, 0, 0], [2, 6, 2, 3, 0, 0]];
    let text = sheet(2, &[&antecedent[..], &first, &second].concat());
    let denial = sheet(2, &[&antecedent[..], &[[1, 9, 1, 99, 4, 0], [2, 9, 1, 3, 4, 0]]].concat());
    assert_eq!(written(text.as_bytes(), 1), denial);
    let comparisons = LOGS.iter().map(|lines| counted(compare(&Host, &pair(text.as_bytes(), lines), 0, 20))).sum();
    tell("short denials: another consequent", comparisons);
}

/// The far end comes before a line that the long denial would have met; what is found is the same placement as the check's.
#[test]
fn searches_and_judgements() {
    let antecedent = [[0, 1, 1, 0, 8, 0], [0, 1, 2, 0, 8, 0], [0, 6, 1, 2, 0, 0]];
    let after = sheet(1, &[&antecedent[..], &[[1, 2, 11, 1, 4, 0], [1, 6, 11, 2, 0, 0]]].concat());
    let last = sheet(1, &[&antecedent[..], &[[1, 3, 11, 2, 4, 0], [1, 6, 1, 11, 0, 0]]].concat());
    for (text, lines, at) in [(&after, [(1, 3), (2, 3), (3, 2)], [1, 2]), (&last, [(1, 2), (2, 3), (3, 3)], [2, 3])] {
        let broken = pair(text.as_bytes(), &lines);
        let long = open(&broken.sheet, &broken.log, Blunder::BeforeA8);
        assert_eq!((found(&broken, 1), long.search(1, 2)), (Some(at.to_vec()), Ok(None)));
        assert!(judged(&broken, 1, &at));
        assert_eq!(verdict(&broken), Some((at.to_vec(), vec![5])));
        let kept = pair(text.as_bytes(), &[(1, 3), (2, 2), (3, 3)]);
        assert_eq!((verdict(&kept), found(&kept, 1)), (None, None));
        assert!(!judged(&kept, 1, &[1, 3]));
    }
    tell("short denials: searches", 12);
}

/// Without the antecedent's order z may stand before q: there the placement stays violating, and the long denial matches.
#[test]
fn without_the_antecedents_order() {
    let points = [[0, 1, 1, 0, 2, 0], [0, 1, 2, 0, 2, 0]];
    let (missing, to_2) = ([1, 2, 11, 1, 2, 0], [1, 6, 11, 2, 0, 0]);
    let lines = [(1, 1), (2, 1), (3, 1)];
    for consequent in [&[missing, to_2][..], &[missing, to_2, [1, 6, 1, 11, 0, 0]], &[missing, [1, 6, 1, 11, 0, 0], to_2]] {
        let text = sheet(1, &[&points[..], consequent].concat());
        let denied = pair(text.as_bytes(), &lines);
        let opened = open(&denied.sheet, &denied.log, Blunder::None);
        assert!(violating(opened.sheet.as_ref().unwrap(), opened.log.as_ref().unwrap()).contains(&vec![3, 1]));
        assert_eq!(written(text.as_bytes(), 1), sheet(1, &[&points[..], &[[1, 9, 1, 99, 2, 0]]].concat()));
        assert!(judged(&denied, 1, &[3, 1]));
        assert!(verdict(&denied).is_some());
    }
    tell("short denials: without order", 12);
}

/// Document 000's scenario, for which section 5.1 as printed is not sound.
#[test]
fn the_theses_scenario() {
    let file = |name: &str| fs::read(top().join("examples/theses").join(name)).unwrap();
    for (log, at) in [("logs/opt51-ca", [2, 1]), ("logs/opt51-cba", [3, 1])] {
        let denied = Pair { sheet: file("sheets/opt51"), log: file(log) };
        let long = sheet(1, &[[0, 1, 1, 0, 2, 0], [0, 1, 2, 0, 8, 0], [1, 9, 1, 99, 4, 0]]);
        assert_eq!(written(&denied.sheet, 1), long);
        assert_eq!((verdict(&denied), found(&denied, 1)), (Some((at.to_vec(), vec![3])), Some(at.to_vec())));
        assert!(judged(&denied, 1, &at));
    }
    tell("short denials: document 000", 8);
}

/// Every sheet of the families with a handful of logs: every text, search and check, and demand 3.
#[test]
fn the_families_of_chains_whole() {
    let logs: Vec<Vec<u8>> = chain_logs().iter().map(|log| log.text()).collect();
    for family in chains() {
        let read = |text: &&Vec<u8>| has_short_denial(&sheet::read(text, Blunder::None).expect("a family's sheet is accepted"));
        let (all, short) = (family.sheets.len(), family.sheets.iter().filter(read).count());
        assert!(short > all / 8 && short < all / 2, "{}: {short} of {all}", family.name);
        let pairs = family.sheets.iter().flat_map(|sheet| logs.iter().map(|log| Pair { sheet: sheet.clone(), log: log.clone() }));
        let tally: Tally = pairs.map(|pair| tallied(compare_once(&Host, &pair))).sum();
        assert_eq!(tally.whole, (all * logs.len()) as u64, "{}", family.name);
        tell_tally(
            &format!("short denials: {}, {short} of {all} sheets have one, times all {} logs", family.name, logs.len()),
            tally,
        );
    }
}

#[test]
fn chained_pairs_at_random() {
    let tally: Tally = (0..3000).map(|seed| tallied(compare(&Host, &chained_pair_of(seed), seed, 8))).sum();
    assert_eq!(tally.whole, tally.pairs);
    tell_tally("short denials: random chains", tally);
}

const ROOM: usize = 3437;

/// A row as it was before, or a FREE row of a consequent that had an end for its antecedent point.
fn is_shortened(now: &[u8], before: &[u8]) -> bool {
    let is_point = |point: &[u8]| (b"  1"..=b"  4").contains(&&point.try_into().expect("three columns"));
    let (start, close) = (b"  0", b" 99");
    let [p, q] = [6..9, 9..12];
    let after = before[q.clone()] == close[..] && is_point(&now[q.clone()]) && now[p.clone()] == before[p.clone()];
    let last = before[p.clone()] == start[..] && is_point(&now[p]) && now[q.clone()] == before[q];
    &now[3..6] == b"  9" && &now[..3] != b"  0" && now[..6] == before[..6] && now[12..] == before[12..] && (after || last)
}

/// How many rows of a number's text are shorter denials than before; all others are the same, and as many.
fn shortened(pair: &Pair, number: u64) -> u64 {
    let now = Host.write(&pair.sheet, number, ROOM);
    let before = open(&pair.sheet, &pair.log, Blunder::BeforeA8).written(number, ROOM);
    assert_eq!((now.answer, now.length), (before.answer, before.length));
    if now.answer != 0 {
        return 0;
    }
    let [now, before] = [now.buffer, before.buffer].map(|buffer| buffer[GUARD..GUARD + now.length].to_vec());
    assert_eq!(now[..7], before[..7]);
    let rows = now[7..].chunks(35).zip(before[7..].chunks(35));
    let moved: Vec<(&[u8], &[u8])> = rows.filter(|(now, before)| now != before).collect();
    let sheet = String::from_utf8_lossy(&pair.sheet);
    moved.iter().for_each(|(now, before)| assert!(is_shortened(now, before), "number {number}\n{sheet}"));
    moved.len() as u64
}

/// The reading, the check with placement and rows at fault, the line and the texts' lengths, with document 01 as it was before A8.
fn stays(pair: &Pair, seed: u64) -> (u64, u64) {
    let (sheet, log) = (&pair.sheet, &pair.log);
    let before = open(sheet, log, Blunder::BeforeA8);
    assert_eq!((Host.read_sheet(sheet), Host.read_log(log)), (before.sheet_read(), before.log_read()));
    assert_eq!(Host.check(sheet, log), before.checked(), "{}", String::from_utf8_lossy(sheet));
    assert_eq!(Host.check_number(sheet, log), before.checked().answer);
    assert_eq!(Host.show(sheet, log), before.shown());
    let numbers = Comparison::new(&Host, pair, seed).numbers(8);
    let moved = numbers.iter().map(|&number| shortened(pair, number)).sum();
    (5 + numbers.len() as u64, moved)
}

#[test]
fn verdicts_placements_and_rows_at_fault_stay() {
    let (mut comparisons, mut moved) = (0, 0);
    for (pair_of, pairs) in [(chained_pair_of as fn(u64) -> Pair, 3000), (pair_of, 3000), (large_pair_of, 500)] {
        for seed in 70_000..70_000 + pairs {
            let (compared, shorter) = stays(&pair_of(seed), seed);
            (comparisons, moved) = (comparisons + compared, moved + shorter);
        }
    }
    assert!(moved > 2000, "{moved} denials are shorter");
    writeln!(std::io::stderr(), "{moved} denials are shorter than before").unwrap();
    tell("short denials: what stays", comparisons);
}
