//! Sheets that are accepted: random ones with every kind in every section that permits it, and those of document 01.
use crate::generate::logs::EVENTS;
use crate::random::Random;
use crate::reference::log::Log;
use crate::reference::sheet::{self, is_end, kind::*, Row, CLOSE, MOST_ANTECEDENT_ROWS, MOST_CONSEQUENT_ROWS, START};

/// How large a random sheet may become.
pub struct Shape {
    pub antecedent_points: u32,
    pub antecedent_rows: u32,
    pub fewest_consequents: u32,
    pub consequents: u32,
    pub consequent_points: u32,
    pub consequent_rows: u32,
    /// None for sheets some of whose consequents are empty.
    pub fewest_rows: Option<u32>,
    /// Of twelve rows of kinds 6 to 12 so many are BEFORE rows as chains have them.
    pub leading: usize,
    /// Each consequent speaks of few of the antecedent's points, and half of its rows of kinds 6 to 12 are FREE.
    pub independent: bool,
    /// The antecedent has two points or more, and most of its rows of kinds 6 to 12 leave a point few places: FREE, WITHIN and EVENT.
    pub narrowing: bool,
}

pub const SMALL: Shape = Shape {
    antecedent_points: 2,
    antecedent_rows: 1,
    fewest_consequents: 0,
    consequents: 2,
    consequent_points: 2,
    consequent_rows: 2,
    fewest_rows: None,
    leading: 1,
    independent: false,
    narrowing: false,
};
pub const MIDDLE: Shape = Shape {
    antecedent_points: 3,
    antecedent_rows: 3,
    fewest_consequents: 0,
    consequents: 3,
    consequent_points: 3,
    consequent_rows: 3,
    fewest_rows: None,
    leading: 1,
    independent: false,
    narrowing: false,
};
pub const LARGE: Shape = Shape {
    antecedent_points: 4,
    antecedent_rows: 8,
    fewest_consequents: 0,
    consequents: 6,
    consequent_points: 8,
    consequent_rows: 4,
    fewest_rows: None,
    leading: 1,
    independent: false,
    narrowing: false,
};

/// Sheets whose antiscenarios place at most two points freely, for logs of thousands of lines.
pub const NARROW: Shape = Shape {
    antecedent_points: 1,
    antecedent_rows: 1,
    fewest_consequents: 1,
    consequents: 1,
    consequent_points: 3,
    consequent_rows: 2,
    fewest_rows: None,
    leading: 1,
    independent: false,
    narrowing: false,
};

/// Sheets whose antiscenarios place at most three points freely, for logs of hundreds of lines.
pub const TWO_POINTS: Shape = Shape { antecedent_points: 2, antecedent_rows: 2, ..NARROW };
pub const TWO_CONSEQUENTS: Shape = Shape { consequents: 2, consequent_points: 2, ..NARROW };

/// Sheets with far more than 4,096 antiscenarios.
pub const MANY: Shape = Shape {
    antecedent_points: 2,
    antecedent_rows: 1,
    fewest_consequents: 4,
    consequents: 6,
    consequent_points: 4,
    consequent_rows: 20,
    fewest_rows: Some(12),
    leading: 1,
    independent: false,
    narrowing: false,
};

/// Sheets of up to six consequents with so few rows that a log often meets them.
pub const FEW_ROWS: Shape = Shape {
    antecedent_points: 2,
    antecedent_rows: 2,
    fewest_consequents: 3,
    consequents: 6,
    consequent_points: 1,
    consequent_rows: 2,
    fewest_rows: Some(1),
    leading: 1,
    independent: false,
    narrowing: false,
};

/// Document 02, A8: sheets with little but points and BEFORE rows between them.
pub const CHAINS: Shape = Shape {
    antecedent_points: 4,
    antecedent_rows: 4,
    fewest_consequents: 1,
    consequents: 2,
    consequent_points: 3,
    consequent_rows: 5,
    fewest_rows: Some(2),
    leading: 10,
    independent: false,
    narrowing: false,
};

/// Document 02, A2: sheets whose antiscenarios place points of several consequents freely, where one consequent has no place for its own because of
/// few of the points before them.
pub const INDEPENDENT: Shape = Shape {
    antecedent_points: 4,
    antecedent_rows: 1,
    fewest_consequents: 2,
    consequents: 4,
    consequent_points: 2,
    consequent_rows: 2,
    fewest_rows: Some(1),
    leading: 1,
    independent: true,
    narrowing: false,
};

/// Ordinary rules: two to four points that narrow each other's places, and consequents that each speak of few of them.
pub const RULES: Shape = Shape {
    antecedent_points: 4,
    antecedent_rows: 3,
    fewest_consequents: 1,
    consequents: 3,
    consequent_points: 2,
    consequent_rows: 2,
    fewest_rows: None,
    leading: 2,
    independent: true,
    narrowing: true,
};

/// The same for logs of more than one word of 64 lines.
pub const TWO_POINT_RULES: Shape = Shape { antecedent_points: 2, consequents: 2, consequent_points: 1, ..RULES };

/// The text of a sheet whose rows are given by their fields.
pub fn sheet_of(k: u32, rows: &[[u32; 6]]) -> Vec<u8> {
    let rows: Vec<Row> = rows.iter().map(|f| Row::new(f[0], f[1], f[2], f[3], f[4], f[5])).collect();
    sheet::text(k, &rows)
}

/// Sheet S of document 01.
pub fn sheet_s() -> Vec<u8> {
    let rows = [
        Row::new(0, POINT, 1, 0, 8, 0),
        Row::new(1, LAST, 11, 1, 4, 0),
        Row::new(1, WITHIN, 11, 1, 0, 500),
        Row::new(1, FREE, 11, 1, 2, 0),
    ];
    sheet::text(1, &rows)
}

/// Four antecedent points, and in each consequent eight points that the last row needs all, denied by FREE: 58 points, 98 rows.
/// Number 1 matches an injection between two scans.
pub fn largest() -> Vec<u8> {
    let mut rows: Vec<Row> = (1..=4).map(|p| Row::new(0, POINT, p, 0, 8, 0)).collect();
    rows.extend(vec![Row::new(0, BEFORE, 1, 2, 0, 0); 28]);
    for section in 1..=6 {
        let ten = 10 * section;
        rows.push(Row::new(section, EARLIER, ten + 1, 1, 2, 0));
        rows.extend((2..=8).map(|index| Row::new(section, EARLIER, ten + index, ten + index - 1, 1, 0)));
        rows.push(Row::new(section, FREE, ten + 8, 2, 2, 0));
    }
    sheet::text(6, &rows)
}

fn bit(event: u32) -> u64 {
    1 << event
}

/// All events of one half.
const HALVES: [u64; 2] = [u32::MAX as u64, (u32::MAX as u64) << 32];

/// A set that is not empty: one event, two, all but one, all, all of one half, any of one half, or any.
fn set(random: &mut Random) -> u64 {
    match random.below(12) {
        0..=3 => bit(random.pick(&EVENTS)),
        4..=6 => bit(random.pick(&EVENTS)) | bit(random.pick(&EVENTS)),
        7 => !bit(random.pick(&EVENTS)),
        8 => u64::MAX,
        9 => random.pick(&HALVES),
        10 => u64::from(random.from_to(1, u32::MAX)) << random.pick(&[0, 32]),
        _ => random.next().max(1),
    }
}

/// Limits about the distances of random logs: the short ones, and those near the longest.
fn limits(random: &mut Random) -> (u32, u32) {
    match random.below(12) {
        0 => (0, u32::MAX),
        1 => (random.from_to(0, 3), u32::MAX - random.from_to(0, 3)),
        2 => {
            let low = u32::MAX - random.from_to(0, 4);
            (low, random.from_to(low, u32::MAX))
        }
        3 | 4 => {
            let both = random.from_to(0, 4);
            (both, both)
        }
        _ => {
            let low = random.from_to(0, 3);
            (low, low + random.from_to(0, 5))
        }
    }
}

/// Limits at one of a log's distances or next to it, so that a millisecond decides what they say there.
pub fn limits_at(random: &mut Random, log: &Log) -> (u32, u32) {
    let [x, y] = [0, 1].map(|_| random.from_to(0, log.n() + 1));
    let distance = log.distance(x, y);
    let low = if random.one_in(2) { 0 } else { distance.saturating_sub(random.from_to(0, 2)) };
    let high = if random.one_in(4) { u32::MAX } else { distance.saturating_add(random.from_to(0, 2)) };
    (low, high)
}

/// Two different ones of these points.
fn two_of(random: &mut Random, points: &[u32]) -> (u32, u32) {
    let first = random.below(points.len());
    let second = (first + 1 + random.below(points.len() - 1)) % points.len();
    (points[first], points[second])
}

/// None, one or two of these points, mostly one.
fn few_of(random: &mut Random, points: &[u32]) -> Vec<u32> {
    match (points.len(), random.below(6)) {
        (0, _) | (_, 0) => vec![],
        (2.., 1) => <[u32; 2]>::from(two_of(random, points)).to_vec(),
        _ => vec![random.pick(points)],
    }
}

fn with_ends(ordinary: &[u32]) -> Vec<u32> {
    [ordinary, &[START, CLOSE]].concat()
}

/// A row of kinds 6 to 12 over the ordinary points known, most often WITHIN or OUTSIDE.
fn demanding_row(random: &mut Random, section: u32, ordinary: &[u32]) -> Row {
    let wanted = if random.one_in(4) { random.from_to(WITHIN, OUTSIDE) } else { random.from_to(BEFORE, EVENT) };
    let possible = match ordinary.len() {
        0 => wanted.clamp(FREE, OUTSIDE),
        1 => wanted.max(FREE),
        _ => wanted,
    };
    let between_lines = ordinary.len() > 1 && random.one_in(2);
    let any_two = if between_lines { two_of(random, ordinary) } else { two_of(random, &with_ends(ordinary)) };
    match possible {
        BEFORE | APART | SAME => {
            let (p, q) = two_of(random, ordinary);
            Row::new(section, possible, p, q, 0, 0)
        }
        FREE => Row::of_set(section, FREE, any_two.0, any_two.1, set(random)),
        EVENT => {
            let any_set = if random.one_in(5) { 0 } else { set(random) };
            Row::of_set(section, EVENT, random.pick(ordinary), 0, any_set)
        }
        _ => {
            let (a, b) = limits(random);
            Row::new(section, possible, any_two.0, any_two.1, a, b)
        }
    }
}

/// A row of kinds 2 to 5 that introduces p.
fn introducing_row(random: &mut Random, section: u32, p: u32, ordinary: &[u32]) -> Row {
    let wanted = random.from_to(NEXT, LATER);
    if wanted >= EARLIER && ordinary.len() >= 2 {
        let (q, a) = two_of(random, ordinary);
        return Row::new(section, wanted, p, q, a, 0);
    }
    // NEXT may use the start and LAST the close; the other end of each is refused.
    let (kind, end) = if wanted % 2 == 0 { (NEXT, START) } else { (LAST, CLOSE) };
    let q = if ordinary.is_empty() || random.one_in(4) { end } else { random.pick(ordinary) };
    Row::of_set(section, kind, p, q, set(random))
}

/// A BEFORE row of two antecedent points, mostly the lower number first, so that few antecedents contradict themselves, and often the next one.
fn ordering_row(random: &mut Random, points: &[u32]) -> Row {
    let (p, q) = two_of(random, points);
    let (p, q) = match random.below(6) {
        0 => (p, q),
        1..=3 => (p.min(q), p.min(q) + 1),
        _ => (p.min(q), p.max(q)),
    };
    Row::new(0, BEFORE, p, q, 0, 0)
}

/// A BEFORE row from the point of a NEXT row or to that of a LAST row, mostly with an antecedent point on the other side of q, which few sheets
/// contradict; or between any two points.
fn leading_row(random: &mut Random, section: u32, rows: &[Row], known: &[u32]) -> Row {
    let introducing: Vec<Row> = rows.iter().filter(|row| [NEXT, LAST].contains(&row.kind)).copied().collect();
    if introducing.is_empty() || random.one_in(4) {
        let (p, q) = two_of(random, known);
        return Row::new(section, BEFORE, p, q, 0, 0);
    }
    let missing = random.pick(&introducing);
    let others: Vec<u32> = known.iter().copied().filter(|&point| point != missing.p).collect();
    let is_beyond = |z: u32| z < 10 && if missing.kind == NEXT { z > missing.q } else { z < missing.q };
    let beyond: Vec<u32> = others.iter().copied().filter(|&z| is_beyond(z)).collect();
    let any = beyond.is_empty() || random.one_in(3);
    let other = random.pick(if any { &others } else { &beyond });
    let (p, q) = if missing.kind == NEXT { (missing.p, other) } else { (other, missing.p) };
    Row::new(section, BEFORE, p, q, 0, 0)
}

/// FREE or WITHIN between two points, now and then one of them an end, or EVENT: with sets and limits that rule out some places and not all.
fn narrowing_row(random: &mut Random, known: &[u32]) -> Row {
    let with_end = known.len() < 2 || random.one_in(4);
    let (p, q) = if with_end { two_of(random, &with_ends(known)) } else { two_of(random, known) };
    match random.pick(&[FREE, WITHIN, EVENT]) {
        FREE => Row::of_set(0, FREE, p, q, bit(random.pick(&EVENTS))),
        EVENT => Row::of_set(0, EVENT, random.pick(known), 0, !bit(random.pick(&EVENTS))),
        kind => {
            let low = if random.one_in(2) { 0 } else { random.from_to(1, 3) };
            Row::new(0, kind, p, q, low, low + random.from_to(1, 9))
        }
    }
}

fn antecedent_row(random: &mut Random, shape: &Shape, known: &[u32]) -> Row {
    if shape.narrowing && !random.one_in(3) {
        return narrowing_row(random, known);
    }
    match known.len() > 1 && random.below(12) < shape.leading {
        true => ordering_row(random, known),
        false => demanding_row(random, 0, known),
    }
}

fn antecedent(random: &mut Random, shape: &Shape) -> Vec<Row> {
    let mut rows = Vec::new();
    let points = match shape.narrowing {
        true => random.from_to(2, shape.antecedent_points),
        false if random.one_in(12) => 0,
        false => random.from_to(1, shape.antecedent_points),
    };
    let mut known: Vec<u32> = Vec::new();
    for p in 1..=points {
        rows.push(Row::of_set(0, POINT, p, 0, set(random)));
        known.push(p);
        if random.one_in(3) && shape.antecedent_rows > 0 {
            rows.push(antecedent_row(random, shape, &known));
        }
    }
    for _ in 0..random.from_to(0, shape.antecedent_rows) {
        rows.push(antecedent_row(random, shape, &known));
    }
    rows
}

fn consequent_row(random: &mut Random, shape: &Shape, section: u32, rows: &[Row], known: &[u32]) -> Row {
    if shape.independent && random.one_in(2) {
        let (p, q) = two_of(random, &with_ends(known));
        return Row::of_set(section, FREE, p, q, set(random));
    }
    match known.len() > 1 && random.below(12) < shape.leading {
        true => leading_row(random, section, rows, known),
        false => demanding_row(random, section, known),
    }
}

fn consequent(random: &mut Random, shape: &Shape, section: u32, antecedent_points: &[u32]) -> Vec<Row> {
    let mut rows = Vec::new();
    if shape.fewest_rows.is_none() && random.one_in(10) {
        return rows;
    }
    let mut known = antecedent_points.to_vec();
    let mut introduced = 0;
    let length = random.from_to(shape.fewest_rows.unwrap_or(1), shape.consequent_points + shape.consequent_rows);
    let mut demands = 0;
    for _ in 0..length {
        if introduced < shape.consequent_points && (random.one_in(2) || demands == shape.consequent_rows) {
            introduced += 1;
            let p = 10 * section + introduced;
            rows.push(introducing_row(random, section, p, &known));
            known.push(p);
        } else if demands < shape.consequent_rows {
            demands += 1;
            let row = consequent_row(random, shape, section, &rows, &known);
            rows.push(row);
        }
    }
    rows
}

/// The rows with one more at the end of a section, if it is not full.
fn put_last(rows: &mut Vec<Row>, row: Row) {
    let most = if row.section == 0 { MOST_ANTECEDENT_ROWS } else { MOST_CONSEQUENT_ROWS };
    if rows.iter().filter(|other| other.section == row.section).count() < most {
        let end = rows.iter().filter(|other| other.section <= row.section).count();
        rows.insert(end, row);
    }
}

/// Document 02, A8: puts in a BEFORE row from the point of a NEXT row to one of the antecedent, and mostly the antecedent's order that makes its
/// denial short; for LAST the other way about.
fn put_chain(random: &mut Random, rows: &mut Vec<Row>) {
    let points = sheet::introduced(rows, 0);
    let is_fit = |row: &&Row| [NEXT, LAST].contains(&row.kind) && (is_end(row.q) || points.contains(&row.q));
    let missing: Vec<Row> = rows.iter().filter(is_fit).copied().collect();
    if missing.is_empty() || points.is_empty() {
        return;
    }
    let (row, z) = (random.pick(&missing), random.pick(&points));
    let to_z = |section, point| match row.kind {
        NEXT => Row::new(section, BEFORE, point, z, 0, 0),
        _ => Row::new(section, BEFORE, z, point, 0, 0),
    };
    put_last(rows, to_z(row.section, row.p));
    if !is_end(row.q) && row.q != z && !random.one_in(4) {
        put_last(rows, to_z(0, row.q));
    }
}

/// A random sheet, which is accepted.
pub fn random(random: &mut Random, shape: &Shape) -> Vec<u8> {
    let (k, rows) = random_rows(random, shape);
    sheet::text(k, &rows)
}

pub fn random_rows(random: &mut Random, shape: &Shape) -> (u32, Vec<Row>) {
    let k = random.from_to(shape.fewest_consequents, shape.consequents);
    let mut rows = antecedent(random, shape);
    let points = sheet::introduced(&rows, 0);
    for section in 1..=k {
        let spoken_of = if shape.independent { few_of(random, &points) } else { points.clone() };
        rows.extend(consequent(random, shape, section, &spoken_of));
    }
    if random.one_in(2) {
        put_chain(random, &mut rows);
    }
    (k, rows)
}

/// The rows with those of kinds 6 to 12 in the consequents written over and over, until each consequent is full: the same matchings extend, and
/// there are many more antiscenarios.
pub fn filled(random: &mut Random, rows: &[Row]) -> Vec<Row> {
    let mut filled = Vec::new();
    for section in rows.chunk_by(|row, next| row.section == next.section) {
        let mut section = section.to_vec();
        let demands = |section: &[Row]| -> Vec<usize> {
            (0..section.len()).filter(|&index| section[index].section > 0 && !section[index].introduces()).collect()
        };
        while section.len() < MOST_CONSEQUENT_ROWS && !demands(&section).is_empty() {
            let index = random.pick(&demands(&section));
            section.insert(index, section[index]);
        }
        filled.extend(section);
    }
    filled
}

/// Six consequents: one of the sheet's, and else full ones of rows with two denials each over the antecedent's points, where there are two.
pub fn widened(random: &mut Random, k: u32, rows: &[Row]) -> (u32, Vec<Row>) {
    let points = sheet::introduced(rows, 0);
    if k == 0 || points.len() < 2 {
        return (k, rows.to_vec());
    }
    let kept = random.from_to(1, k);
    let mut widened: Vec<Row> = rows.iter().filter(|row| row.section == 0).copied().collect();
    for section in 1..=6 {
        if section == kept {
            widened.extend(rows.iter().filter(|row| row.section == kept));
            continue;
        }
        for _ in 0..MOST_CONSEQUENT_ROWS {
            let (p, q) = two_of(random, &points);
            let (kind, set) = if random.one_in(2) { (BEFORE, 0) } else { (FREE, set(random)) };
            widened.push(Row::of_set(section, kind, p, q, set));
        }
    }
    (6, widened)
}
