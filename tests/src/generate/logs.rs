//! Logs that are accepted: random ones with equal ticks, no lines and ends apart, and those of document 01.
use crate::random::Random;
use crate::reference::blunder::Blunder;
use crate::reference::log::{Line, Log};

/// The events that random logs and sets have in common: mostly three, two of them 32 apart, now and then the first or the last of either half.
pub const EVENTS: [u32; 13] = [1, 1, 1, 2, 2, 2, 33, 33, 33, 0, 31, 32, 63];

/// Lines of (tick, event) that start at 0 and close at the last tick, as in document 01's examples.
pub fn log_of(lines: &[(u32, u32)]) -> Log {
    let lines: Vec<Line> = lines.iter().map(|&(tick, event)| Line { tick, event }).collect();
    Log { start: 0, close: lines.last().map_or(0, |line| line.tick), lines, blunder: Blunder::None }
}

fn step(random: &mut Random, tick: u32) -> u32 {
    let further = match random.below(12) {
        0..=3 => 0,
        4..=10 => random.from_to(1, 3),
        _ => random.from_to(50, 500),
    };
    tick.saturating_add(further)
}

/// The last ticks that there are.
fn latest(random: &mut Random, tick: u32) -> u32 {
    tick.max(u32::MAX - random.from_to(0, 1))
}

fn first_tick(random: &mut Random) -> u32 {
    match random.below(10) {
        0..=6 => 0,
        7 => random.from_to(1, 9),
        8 => u32::MAX - random.from_to(0, 20),
        _ => random.from_to(0, u32::MAX),
    }
}

/// A log of up to so many lines.
pub fn random(random: &mut Random, most: u32) -> Log {
    let n = if random.one_in(8) { 0 } else { random.from_to(1, most) };
    of_length(random, n)
}

/// A log of exactly so many lines.
pub fn of_length(random: &mut Random, n: u32) -> Log {
    let kinds = random.from_to(1, 4) as usize;
    let events: Vec<u32> = (0..kinds).map(|_| random.pick(&EVENTS)).collect();
    with_events(random, n, &events)
}

/// A log of exactly so many lines, of which all but a few have the same event.
pub fn with_rare_events(random: &mut Random, n: u32) -> Log {
    let mut events = vec![random.pick(&EVENTS); 300];
    events.extend([1, 2, 3].map(|_| random.pick(&EVENTS)));
    with_events(random, n, &events)
}

/// A log of exactly so many lines with the same event, but for up to three lines at the borders of words of 64 lines.
pub fn with_events_at_borders(random: &mut Random, n: u32) -> Log {
    let usual = random.pick(&EVENTS);
    let mut log = with_events(random, n, &[usual]);
    let borders: Vec<u32> = [1, 62, 63, 64, 65, 126, 127, 128, 129, n].into_iter().filter(|&line| line <= n).collect();
    for _ in 0..random.from_to(1, 3) {
        log.lines[random.pick(&borders) as usize - 1].event = random.pick(&EVENTS);
    }
    log
}

/// Now and then one of the lines comes as late as ticks can tell.
fn with_events(random: &mut Random, n: u32, events: &[u32]) -> Log {
    let start = first_tick(random);
    let late = if random.one_in(10) { random.from_to(1, n.max(1)) } else { n + 1 };
    let mut tick = start;
    let mut lines = Vec::new();
    for line in 1..=n {
        tick = if line == late { latest(random, tick) } else { step(random, tick) };
        lines.push(Line { tick, event: random.pick(events) });
    }
    let close = if random.one_in(9) { latest(random, tick) } else { step(random, tick) };
    Log { start, close, lines, blunder: Blunder::None }
}

/// Lines of one event, 10 ticks apart.
pub fn uniform(n: u32, event: u32) -> Log {
    log_of(&(1..=n).map(|line| (10 * line, event)).collect::<Vec<_>>())
}

/// Corrections and scans in turn, so that sheet S holds.
pub fn mixed(n: u32) -> Log {
    let events = [2, 3, 3, 2, 3];
    let lines: Vec<(u32, u32)> = (0..n).map(|line| (10 * line, events[(line % 5) as usize])).collect();
    log_of(&lines)
}
