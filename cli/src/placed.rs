//! Positions with the lines, ticks and events that stand there, in words and in JSON.
use crate::events::Events;
use crate::json::{numbers, Object};
use crate::log::{Line, Log};
use crate::words::{file_line, line};
use satskhubo_interface::answer::Answer;

/// A position, and its line.
pub struct Placed<'a> {
    position: u32,
    line: &'a Line,
}

pub fn placed<'a>(log: &'a Log, positions: &[u32]) -> Answer<Vec<Placed<'a>>> {
    positions.iter().map(|&position| Ok(Placed { position, line: log.line_at(position)? })).collect()
}

impl Placed<'_> {
    pub fn words(&self, events: &Events) -> String {
        format!("{}, tick {}, {}", line(self.position), self.line.tick, events.event(self.line.event))
    }
}

/// The positions, lines of the file, ticks and events.
pub fn in_object(object: Object, placed: &[Placed]) -> Object {
    let object = object.raw("positions", &numbers(placed.iter().map(|placed| placed.position)));
    let object = object.raw("lines", &numbers(placed.iter().map(|placed| file_line(placed.position))));
    let object = object.raw("ticks", &numbers(placed.iter().map(|placed| placed.line.tick)));
    object.raw("events", &numbers(placed.iter().map(|placed| placed.line.event)))
}
