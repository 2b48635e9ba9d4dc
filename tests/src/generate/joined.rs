//! Document 02, A6: sheets whose antiscenarios contradict themselves, or nearly: points joined by SAME rows, in chains and across sections, APART rows
//! inside them, ways from a point back to itself through them, and sets of both halves with few events in common. At random, and families.
use super::families::Family;
use crate::random::Random;
use crate::reference::sheet::{kind::*, Row, CLOSE, START};

/// Sets of the events of `families::board_logs`, one in either half.
const LOWER: u64 = 1 << 1;
const UPPER: u64 = 1 << 33;
const BOTH: u64 = LOWER | UPPER;
const OTHER: u64 = 1 << 2;

/// Sets of some of the events that random logs have; from the fourth on, any two have one in common, and three need not.
const SETS: [u64; 7] = [LOWER, UPPER, OTHER, BOTH, LOWER | OTHER, UPPER | OTHER, u64::MAX];

fn pair(random: &mut Random, points: &[u32]) -> (u32, u32) {
    let first = random.below(points.len());
    let second = (first + 1 + random.below(points.len() - 1)) % points.len();
    (points[first], points[second])
}

/// A row of kinds 6 to 12 over two points or more, seldom one that plays no part. Where denied, EVENT has few events, or none.
fn contradicting_row(random: &mut Random, section: u32, points: &[u32]) -> Row {
    let (p, q) = pair(random, points);
    let set = random.pick(&SETS);
    match random.below(16) {
        0..=4 => Row::new(section, if section == 0 { SAME } else { APART }, p, q, 0, 0),
        5 | 6 => Row::new(section, if section == 0 { APART } else { SAME }, p, q, 0, 0),
        7..=10 => Row::new(section, BEFORE, p, q, 0, 0),
        11 | 12 => Row::of_set(section, EVENT, p, 0, if section == 0 { set } else { !set }),
        13 => Row::of_set(section, EVENT, p, 0, if random.one_in(2) { 0 } else { !set }),
        14 => Row::of_set(section, FREE, p, q, set),
        _ => Row::new(section, random.pick(&[WITHIN, OUTSIDE]), p, q, 0, random.from_to(1, 9)),
    }
}

/// A row of kinds 2 to 5 that introduces p.
fn introducing_row(random: &mut Random, section: u32, p: u32, points: &[u32]) -> Row {
    let (kind, set) = (random.from_to(NEXT, LATER), random.pick(&SETS));
    let (q, other) = pair(random, points);
    match kind {
        EARLIER | LATER => Row::new(section, kind, p, q, other, 0),
        _ if random.one_in(4) => Row::of_set(section, kind, p, if kind == NEXT { START } else { CLOSE }, set),
        _ => Row::of_set(section, kind, p, q, set),
    }
}

/// One point or two; now and then one from the start and one from the close.
fn introducing_rows(random: &mut Random, section: u32, antecedent: &[u32]) -> Vec<Row> {
    let (first, second) = (10 * section + 1, 10 * section + 2);
    if random.one_in(6) {
        let of_ends = [(first, NEXT, START), (second, LAST, CLOSE)];
        return of_ends.map(|(p, kind, end)| Row::of_set(section, kind, p, end, random.pick(&SETS))).into();
    }
    let mut rows = vec![introducing_row(random, section, first, antecedent)];
    if random.one_in(2) {
        rows.push(introducing_row(random, section, second, &[antecedent, &[first]].concat()));
    }
    rows
}

/// Points, and rows that mostly speak of the last of them.
fn consequent(random: &mut Random, section: u32, antecedent: &[u32]) -> Vec<Row> {
    let mut rows = introducing_rows(random, section, antecedent);
    let points: Vec<u32> = antecedent.iter().copied().chain(rows.iter().map(|row| row.p)).collect();
    for _ in 0..random.from_to(1, 3) {
        let last = points.len() - 2;
        let spoken_of = if random.one_in(2) { &points[..] } else { &points[last..] };
        rows.push(contradicting_row(random, section, spoken_of));
    }
    rows
}

/// SAME rows from one of these points to the next, each either way about.
fn chain(random: &mut Random, points: &[u32]) -> Vec<Row> {
    let mut links: Vec<Row> = points.windows(2).map(|next| two(0, SAME, next[0], next[1])).collect();
    links.iter_mut().filter(|_| random.one_in(2)).for_each(|row| (row.p, row.q) = (row.q, row.p));
    links.rotate_left(random.below(points.len() - 1));
    links
}

/// The number of consequents and the rows of a random sheet, which is accepted.
pub fn random_rows(random: &mut Random) -> (u32, Vec<Row>) {
    let points: Vec<u32> = (1..=random.from_to(2, 4)).collect();
    let mut rows: Vec<Row> = points.iter().map(|&p| Row::of_set(0, POINT, p, 0, random.pick(&SETS[3..]))).collect();
    if random.one_in(3) {
        rows.extend(chain(random, &points));
    }
    rows.extend((0..random.from_to(0, 2)).map(|_| contradicting_row(random, 0, &points)));
    let k = random.from_to(0, 3);
    for section in 1..=k {
        rows.extend(consequent(random, section, &points));
    }
    (k, rows)
}

/// Every subset of these rows, in this order.
fn subsets(rows: &[Row]) -> Vec<Vec<Row>> {
    let mut all = vec![vec![]];
    for row in rows {
        let with = all.iter().map(|rows: &Vec<Row>| [&rows[..], &[*row]].concat()).collect::<Vec<_>>();
        all.extend(with);
    }
    all
}

fn two(section: u32, kind: u32, p: u32, q: u32) -> Row {
    Row::new(section, kind, p, q, 0, 0)
}

fn points(sets: &[u64]) -> Vec<Row> {
    (1..).zip(sets).map(|(p, &set)| Row::of_set(0, POINT, p, 0, set)).collect()
}

/// Four points, any two of which have an event in common, with every subset of rows that join them, set them apart and order them, and of sets.
fn on_four_points() -> Vec<Vec<Row>> {
    let between = [
        two(0, SAME, 1, 2),
        two(0, SAME, 3, 2),
        two(0, SAME, 3, 4),
        two(0, APART, 3, 1),
        two(0, BEFORE, 1, 2),
        two(0, BEFORE, 2, 3),
        two(0, BEFORE, 4, 1),
    ];
    let sets = [Row::of_set(0, EVENT, 1, 0, LOWER), Row::of_set(0, EVENT, 3, 0, UPPER), Row::of_set(0, EVENT, 2, 0, 0)];
    let with_points = |rows: Vec<Row>| [points(&[BOTH, u64::MAX, UPPER | OTHER, LOWER | OTHER]), rows].concat();
    subsets(&[&between[..], &sets].concat()).into_iter().map(with_points).collect()
}

/// Two points, without and with a row between them.
fn antecedents() -> Vec<Vec<Row>> {
    let bare = points(&[BOTH, LOWER]);
    let between = [BEFORE, APART, SAME].map(|kind| [&bare[..], &[two(0, kind, 1, 2)]].concat());
    [vec![bare], between.to_vec()].concat()
}

/// A point introduced in each way, and after it one row with each denial that joins, sets apart, orders or has a set, and one that plays no part.
fn consequents(section: u32) -> Vec<Vec<Row>> {
    let p = 10 * section + 1;
    let introducing = [
        Row::of_set(section, NEXT, p, 1, UPPER),
        Row::of_set(section, LAST, p, 2, LOWER),
        Row::of_set(section, NEXT, p, START, BOTH),
        Row::of_set(section, LAST, p, CLOSE, BOTH),
        Row::new(section, EARLIER, p, 1, 2, 0),
        Row::new(section, LATER, p, 2, 1, 0),
    ];
    let rows = [
        two(section, APART, p, 1),
        two(section, APART, 2, p),
        two(section, APART, 1, 2),
        two(section, SAME, 1, p),
        two(section, SAME, 2, 1),
        two(section, BEFORE, p, 2),
        two(section, BEFORE, 1, p),
        Row::of_set(section, EVENT, p, 0, !UPPER),
        Row::of_set(section, EVENT, 1, 0, u64::MAX),
        Row::of_set(section, FREE, 1, p, UPPER),
        Row::new(section, OUTSIDE, p, 2, 0, 3),
    ];
    introducing.map(|row| [&[row], &rows[..]].concat()).into()
}

fn with_consequents(before: &[Vec<Row>], section: u32) -> Vec<Vec<Row>> {
    let further = consequents(section);
    before.iter().flat_map(|rows| further.iter().map(move |more| [&rows[..], more].concat())).collect()
}

/// The families: their antiscenarios go through every denial of each consequent.
pub fn joined() -> Vec<Family> {
    let one = with_consequents(&antecedents(), 1);
    vec![
        Family::new("joined: four points", 0, &on_four_points()),
        Family::new("joined: one consequent", 1, &one),
        Family::new("joined: across two consequents", 2, &with_consequents(&one, 2)),
    ]
}
