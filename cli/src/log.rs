//! The ticks and events of a log that the library accepted.
use crate::columns::{accepted, lines, LINE, LOG_FIRST};
use satskhubo_interface::answer::{Answer, Failure};

pub struct Line {
    pub tick: u32,
    pub event: u32,
}

pub struct Log {
    start: u32,
    close: u32,
    pub lines: Vec<Line>,
}

impl Log {
    pub fn of(text: &[u8]) -> Answer<Log> {
        let [count, start, close] = accepted(text, &LOG_FIRST)?;
        let line_of = |line| accepted(line, &LINE).map(|[tick, event]| Line { tick, event });
        let lines: Vec<Line> = lines(text, &LOG_FIRST, &LINE).map(line_of).collect::<Answer<_>>()?;
        match lines.len() == count as usize {
            true => Ok(Log { start, close, lines }),
            false => Err(Failure(format!("an accepted log says {count} lines and has {}", lines.len()))),
        }
    }

    /// Document 01: n + 1, the position of the close.
    pub fn close_position(&self) -> u32 {
        self.lines.len() as u32 + 1
    }

    /// The line at a position; none at the start, at the close and outside.
    pub fn line(&self, position: u32) -> Option<&Line> {
        self.lines.get((position as usize).checked_sub(1)?)
    }

    /// The same at a position that the library gave.
    pub fn line_at(&self, position: u32) -> Answer<&Line> {
        self.line(position).ok_or_else(|| Failure(format!("position {position} is no line of the log")))
    }

    pub fn tick(&self, position: u32) -> Option<u32> {
        if position == 0 {
            return Some(self.start);
        }
        if position == self.close_position() {
            return Some(self.close);
        }
        self.line(position).map(|line| line.tick)
    }

    pub fn has_event_of(&self, position: u32, set: u64) -> bool {
        self.line(position).is_some_and(|line| is_in(line.event, set))
    }
}

/// Document 01: a set of events is the sum of 2^e over its events.
pub fn is_in(event: u32, set: u64) -> bool {
    event < u64::BITS && set >> event & 1 == 1
}
