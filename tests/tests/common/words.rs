//! What the program must say of a row, a point and a line, by document 01's tables.
use satskhubo_tests::reference::log::Log;
use satskhubo_tests::reference::operations::every_matching;
use satskhubo_tests::reference::rows::{points, Placement};
use satskhubo_tests::reference::sheet::{kind::*, Row, Sheet, CLOSE, START};

pub const KINDS: [&str; 13] =
    ["", "POINT", "NEXT", "LAST", "EARLIER", "LATER", "BEFORE", "APART", "SAME", "FREE", "WITHIN", "OUTSIDE", "EVENT"];

/// Three or more in a row are said by the first and the last.
fn listed(events: &[u32]) -> String {
    let mut parts: Vec<String> = Vec::new();
    let mut rest = events;
    while let Some(&first) = rest.first() {
        let row = rest.iter().zip(first..).take_while(|(event, due)| **event == *due).count();
        match row {
            0..=2 => parts.push(first.to_string()),
            _ => parts.push(format!("{first} to {}", rest[row - 1])),
        }
        rest = &rest[if row < 3 { 1 } else { row }..];
    }
    parts.join(", ")
}

/// The events of a set and the others.
fn parted(set: u64) -> (Vec<u32>, Vec<u32>) {
    (0..64).partition(|event| set & (1 << event) != 0)
}

pub fn some_of(set: u64) -> String {
    let (some, others) = parted(set);
    match (some.len(), others.len()) {
        (0, _) => "no event".into(),
        (1, _) => format!("event {}", listed(&some)),
        (64, _) => "any event".into(),
        (33.., _) => format!("any event but {}", listed(&others)),
        _ => format!("one of the events {}", listed(&some)),
    }
}

fn none_of(set: u64) -> String {
    let (some, others) = parted(set);
    match some.len() {
        1 => format!("event {} does not occur", listed(&some)),
        64 => "no event occurs".into(),
        33.. => format!("no event but {} occurs", listed(&others)),
        _ => format!("none of the events {} occurs", listed(&some)),
    }
}

pub fn point(point: u32) -> String {
    match point {
        START => "the start".into(),
        CLOSE => "the close".into(),
        _ => format!("point {point}"),
    }
}

pub fn line(position: u32) -> String {
    format!("line {position} of the log, line {} of the file", position + 1)
}

/// What a row asks.
pub fn asked(row: &Row) -> String {
    let (p, q, a, b) = (point(row.p), point(row.q), row.a, row.b);
    match row.kind {
        POINT | EVENT => format!("{p} has {}", some_of(row.set())),
        NEXT => format!("{p} is the next line after {q} with {}", some_of(row.set())),
        LAST => format!("{p} is the last line before {q} with {}", some_of(row.set())),
        EARLIER => format!("{p} is the earlier of {q} and {}", point(a)),
        LATER => format!("{p} is the later of {q} and {}", point(a)),
        BEFORE => format!("{p} stands before {q}"),
        APART => format!("{p} and {q} are different lines"),
        SAME => format!("{p} and {q} are the same line"),
        FREE => format!("{} between {p} and {q}", none_of(row.set())),
        WITHIN => format!("{p} and {q} are surely {a} to {b} ms apart"),
        OUTSIDE => format!("{p} and {q} are not surely {a} to {b} ms apart"),
        other => panic!("kind {other}"),
    }
}

/// Document 02, A9: whether ticks that differ by d keep the upper limit, and the lower one.
fn keeps(d: u64, a: u32, b: u32) -> (bool, bool) {
    (d < u64::from(b), if d == 0 { a == 0 } else { d > u64::from(a) })
}

/// No distance keeps both, not even the lowest that keeps the lower one.
fn is_beyond_ticks(a: u32, b: u32) -> bool {
    [0, u64::from(a), u64::from(a) + 1].iter().all(|&d| keeps(d, a, b) != (true, true))
}

fn beyond_ticks(a: u32, b: u32) -> String {
    format!("as the clock drops fractions, no two ticks are surely {a} to {b} ms apart")
}

/// What is said of a distance that does not keep the limits.
fn missed(d: u64, a: u32, b: u32) -> String {
    let must = |bound: &str, limit: u32, tick: u64| {
        format!("as the clock drops fractions, they must differ by {bound} {tick} for {bound} {limit} ms to be sure")
    };
    match keeps(d, a, b) {
        _ if is_beyond_ticks(a, b) => beyond_ticks(a, b),
        (false, _) => must("at most", b, u64::from(b) - 1),
        (true, false) => must("at least", a, u64::from(a) + 1),
        (true, true) => panic!("{d} keeps {a} to {b}"),
    }
}

/// The remark on a row of this number, where there is one.
pub fn remark(number: usize, row: &Row) -> Option<String> {
    let Row { p, q, a, b, .. } = *row;
    if ![WITHIN, OUTSIDE].contains(&row.kind) || !is_beyond_ticks(a, b) {
        return None;
    }
    let may_be_one_line = ![p, q].iter().any(|point| [START, CLOSE].contains(point));
    let said = match (row.kind == WITHIN, a == 0 && may_be_one_line) {
        (true, true) => "can be met on one line only",
        (true, false) => "can never be met",
        (false, true) => "is always met on two lines",
        (false, false) => "is always met",
    };
    Some(format!("row {number}, {}, {said}: {}", KINDS[row.kind as usize], beyond_ticks(a, b)))
}

/// What a check says on standard error of a sheet that is accepted.
pub fn remarks(sheet_name: &str, rows: &[Row]) -> String {
    let line = |(number, row)| {
        Some(format!("satskhubo: remark: {sheet_name}, line {} of the file: {}\n", number + 1, remark(number, row)?))
    };
    (1..).zip(rows).filter_map(line).collect()
}

/// Where the points of a consequent stand before its row at fault: the one matching of antecedent and these rows over the placement.
fn before_fault(sheet: &Sheet, log: &Log, placement: &[u32], fault: usize) -> Placement {
    let section = sheet.rows[fault - 1].section;
    let own = |row: &&Row| row.section == 0 || row.section == section;
    let rows: Vec<Row> = sheet.rows[..fault - 1].iter().filter(own).copied().collect();
    let over: Vec<Vec<u32>> = every_matching(&rows, log).into_iter().filter(|matching| matching.starts_with(placement)).collect();
    assert_eq!(over.len(), 1, "the rows before a row at fault are met in one way");
    Placement::of(log, &points(&rows), &over[0])
}

/// What stands there instead of what the row at fault asks.
pub fn found(sheet: &Sheet, log: &Log, placement: &[u32], fault: usize) -> String {
    let at = before_fault(sheet, log, placement, fault);
    let row = &sheet.rows[fault - 1];
    let (p, q) = (at.position(row.p), at.position(row.q));
    let place = |number: u32| {
        let position = at.position(number);
        match number {
            START | CLOSE => format!("{} is at tick {}", point(number), log.tick(position)),
            _ => format!("{} is at {}, tick {}", point(number), line(position), log.tick(position)),
        }
    };
    let event = |position: u32| log.lines[position as usize - 1].event;
    match row.kind {
        NEXT => format!("after {} there is no such line", point(row.q)),
        LAST => format!("before {} there is no such line", point(row.q)),
        EVENT => format!("{} has event {}", line(p), event(p)),
        FREE => {
            let between = (p.min(q) + 1..p.max(q)).find(|position| log.event_in(*position, row.set())).expect("a line between");
            format!("{}, tick {}, has event {}", line(between), log.tick(between), event(between))
        }
        WITHIN | OUTSIDE => {
            let d = log.tick(p).abs_diff(log.tick(q)).into();
            let distance = match row.kind {
                _ if p == q => "they are one line, exactly 0 ms apart".into(),
                WITHIN => format!("they differ by {d}; {}", missed(d, row.a, row.b)),
                _ => format!("they differ by {d}"),
            };
            format!("{}; {}; {distance}", place(row.p), place(row.q))
        }
        _ => format!("{}; {}", place(row.p), place(row.q)),
    }
}
