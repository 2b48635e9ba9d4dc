//! What FREE, WITHIN and EVENT leave a point of the antecedent, to the very line at either end: the check finds the first of these lines from any
//! other on, beside a look at every line.
mod common;
use common::answers::verdict_of_both;
use common::tell;
use satskhubo_tests::generate::logs::log_of;
use satskhubo_tests::generate::Pair;
use satskhubo_tests::random::Random;
use satskhubo_tests::reference::log::Log;
use satskhubo_tests::reference::rows::{meets, Placement};
use satskhubo_tests::reference::sheet::{self, kind::*, Row, CLOSE, START};

/// So many logs of each length.
const LENGTHS: [(u32, u32); 5] = [(7, 300), (12, 300), (65, 200), (130, 200), (4000, 40)];

/// The event of the line where point 1 stands, of most others, of some, and of one that a consequent wants behind point 2.
const FIRST: u32 = 9;
const USUAL: u32 = 3;
const RARE: [u32; 2] = [5, 33];
const BEHIND: u32 = 10;

const ANY: u64 = u64::MAX;
const SETS: [u64; 5] = [ANY, 1 << USUAL, 1 << RARE[0], 1 << RARE[1], 1 << RARE[0] | 1 << RARE[1]];

/// Point 1 stands at the only line with its event; rows leave point 2, which they introduce, some lines.
struct Narrowed {
    log: Log,
    first: u32,
    rows: Vec<Row>,
}

impl Narrowed {
    fn new(random: &mut Random, mut lines: Vec<(u32, u32)>, set: u64) -> Narrowed {
        let first = random.below(lines.len());
        lines[first].1 = FIRST;
        Narrowed { log: log_of(&lines), first: first as u32 + 1, rows: vec![Row::of_set(0, POINT, 2, 0, set)] }
    }

    /// Mostly one within a few of point 1.
    fn line(&self, random: &mut Random) -> u32 {
        let n = self.log.n();
        match random.one_in(3) {
            true => random.from_to(1, n),
            false => random.from_to(self.first.saturating_sub(4).max(1), (self.first + 4).min(n)),
        }
    }

    /// The lines that all rows leave.
    fn left(&self) -> Vec<u32> {
        let is_left = |line: &u32| {
            let placement = Placement::of(&self.log, &[1, 2], &[self.first, *line]);
            self.rows.iter().all(|row| meets(row, &placement, &self.log))
        };
        (1..=self.log.n()).filter(is_left).collect()
    }

    /// What the check gives point 2 with this consequent.
    fn found(&self, log: &Log, consequent: Row) -> Option<u32> {
        let rows = [&[Row::of_set(0, POINT, 1, 0, 1 << FIRST)], &self.rows[..], &[consequent]].concat();
        let pair = Pair { sheet: sheet::text(1, &rows), log: log.text() };
        verdict_of_both(&pair).map(|(placement, _)| placement[1])
    }

    /// The first line that is left, from each on that is at an end of them or beside it; with a consequent that takes the lines before.
    fn is_found(&self, takes_before: impl Fn(u32) -> (Log, Row)) -> u64 {
        let left = self.left();
        let ends = left.first().into_iter().chain(left.last()).flat_map(|&end| end - 1..=end + 1);
        let from: Vec<u32> = ends.filter(|line| (1..=self.log.n()).contains(line) && *line != self.first).collect();
        for &line in &from {
            let (log, consequent) = takes_before(line);
            let first = left.iter().copied().find(|&other| other >= line);
            assert_eq!(self.found(&log, consequent), first, "from {line} on, {:?} on {log:?}", self.rows);
        }
        from.len() as u64
    }
}

/// FREE and EVENT on lines of different ticks, by which the consequent takes those before one.
fn by_events(random: &mut Random, n: u32) -> u64 {
    let set = random.pick(&[ANY, ANY, 1 << USUAL, 1 << USUAL | 1 << RARE[0]]);
    let mut narrowed = Narrowed::new(random, (1..=n).map(|line| (10 * line, USUAL)).collect(), set);
    for event in [RARE[0], RARE[0], RARE[1]] {
        let line = narrowed.line(random);
        if line != narrowed.first {
            narrowed.log.lines[line as usize - 1].event = event;
        }
    }
    for _ in 0..random.from_to(1, 2) {
        let (p, q) = random.pick(&[(1, 2), (1, 2), (2, 1), (2, 1), (START, 2), (2, CLOSE)]);
        narrowed.rows.push(Row::of_set(0, FREE, p, q, random.pick(&SETS[2..])));
    }
    if random.one_in(3) {
        narrowed.rows.push(Row::of_set(0, EVENT, 2, 0, random.pick(&SETS)));
    }
    narrowed.is_found(|line| (narrowed.log.clone(), Row::new(1, WITHIN, START, 2, 0, 10 * line)))
}

/// WITHIN on lines of which some have equal ticks. The consequent takes those before one by its event.
fn by_ticks(random: &mut Random, n: u32) -> u64 {
    let mut tick = random.from_to(0, 5);
    let mut step = |random: &mut Random| {
        tick += random.pick(&[0, 0, 1, 2, 7]);
        (tick, USUAL)
    };
    let lines = (1..=n).map(|_| step(random)).collect();
    let mut narrowed = Narrowed::new(random, lines, ANY);
    narrowed.log.close += random.from_to(0, 3);
    for _ in 0..random.from_to(1, 2) {
        let (p, q, from) = random.pick(&[(1, 2, narrowed.first), (2, 1, narrowed.first), (START, 2, 0), (2, CLOSE, n + 1)]);
        let d = narrowed.log.distance(from, narrowed.line(random));
        let a = random.pick(&[0, 0, d.saturating_sub(1), d, d / 2]);
        narrowed.rows.push(Row::new(0, WITHIN, p, q, a, d + random.from_to(0, 2)));
    }
    narrowed.is_found(|line| {
        let mut log = narrowed.log.clone();
        log.lines[line as usize - 1].event = BEHIND;
        (log, Row::of_set(1, NEXT, 11, 2, 1 << BEHIND))
    })
}

fn to_the_very_line(name: &str, on_one_log: fn(&mut Random, u32) -> u64) {
    let mut comparisons = 0;
    for (n, logs) in LENGTHS {
        let mut random = Random::new(n.into());
        comparisons += (0..logs).map(|_| on_one_log(&mut random, n)).sum::<u64>();
    }
    tell(&format!("narrowing: {name}"), comparisons);
}

#[test]
fn free_and_event() {
    to_the_very_line("FREE and EVENT", by_events);
}

#[test]
fn within() {
    to_the_very_line("WITHIN", by_ticks);
}
