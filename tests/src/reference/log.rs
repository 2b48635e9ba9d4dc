//! Document 01: a log, and its reading with refusals 21 to 27; document 02, A1: with events up to 63.
use super::blunder::Blunder;
use super::columns::{read_line, spell_line};
use super::refusal::{Fault, Part, Refusal};

pub const MOST_LINES: u32 = 4000;
pub const LAST_EVENT: u32 = 63;
pub const FIRST_LINE: usize = 28;
pub const LINE: usize = 15;
const FIRST_WIDTHS: [usize; 3] = [5, 11, 11];
const LINE_WIDTHS: [usize; 2] = [11, 3];

#[derive(Clone, Copy, Debug, PartialEq, Eq)]
pub struct Line {
    pub tick: u32,
    pub event: u32,
}

#[derive(Clone, Debug, PartialEq, Eq)]
pub struct Log {
    pub start: u32,
    pub close: u32,
    pub lines: Vec<Line>,
    pub blunder: Blunder,
}

impl Log {
    pub fn n(&self) -> u32 {
        self.lines.len() as u32
    }

    /// Position 0 has the start tick, position n + 1 the close tick.
    pub fn tick(&self, position: u32) -> u32 {
        match position {
            0 => self.start,
            _ if position == self.n() + 1 => self.close,
            _ => self.lines[position as usize - 1].tick,
        }
    }

    /// The distance of two positions' ticks, without sign.
    pub fn distance(&self, x: u32, y: u32) -> u32 {
        self.tick(x).abs_diff(self.tick(y))
    }

    /// The event at a position is in the set; start and close have no event.
    pub fn event_in(&self, position: u32, set: u64) -> bool {
        // No set has event 64, which a blunder lets in.
        let Some(index) = position.checked_sub(1) else { return false };
        self.lines.get(index as usize).is_some_and(|line| line.event <= LAST_EVENT && set >> line.event & 1 == 1)
    }

    pub fn text(&self) -> Vec<u8> {
        let mut text = spell_line(&[self.n(), self.start, self.close], &FIRST_WIDTHS);
        for line in &self.lines {
            text.extend(spell_line(&[line.tick, line.event], &LINE_WIDTHS));
        }
        text
    }
}

fn first_line_fault(refusal: Refusal, text: &[u8]) -> Fault {
    Fault { refusal, part: Part { of_log: true, offset: 0, length: text.len().min(FIRST_LINE) } }
}

fn line_fault(refusal: Refusal, offset: usize) -> Fault {
    Fault { refusal, part: Part { of_log: true, offset, length: LINE } }
}

pub fn read(text: &[u8], blunder: Blunder) -> Result<Log, Fault> {
    let first = text.get(..FIRST_LINE).and_then(|line| read_line(line, &FIRST_WIDTHS));
    let Some(first) = first else { return Err(first_line_fault(Refusal::LogFirstLine, text)) };
    let (n, start, close) = (first[0], first[1], first[2]);
    if n > MOST_LINES {
        return Err(first_line_fault(Refusal::LineCount, text));
    }
    if text.len() != FIRST_LINE + LINE * n as usize {
        return Err(first_line_fault(Refusal::LogLength, text));
    }
    let mut log = Log { start, close, lines: Vec::new(), blunder };
    for (index, line) in text[FIRST_LINE..].chunks(LINE).enumerate() {
        let before = log.tick(index as u32);
        let line = read_one(line, before, blunder).map_err(|refusal| line_fault(refusal, FIRST_LINE + LINE * index))?;
        log.lines.push(line);
    }
    // tick(n) is the last line's tick, or the start's without lines.
    if close < log.tick(n) {
        return Err(first_line_fault(Refusal::Close, text));
    }
    Ok(log)
}

fn last_event(blunder: Blunder) -> u32 {
    match blunder {
        Blunder::BeforeA1 => 31,
        Blunder::Event64 => 64,
        _ => LAST_EVENT,
    }
}

fn read_one(line: &[u8], tick_before: u32, blunder: Blunder) -> Result<Line, Refusal> {
    let Some(fields) = read_line(line, &LINE_WIDTHS) else { return Err(Refusal::LineMalformed) };
    let (tick, event) = (fields[0], fields[1]);
    if event > last_event(blunder) {
        return Err(Refusal::Event);
    }
    if tick < tick_before {
        return Err(Refusal::Tick);
    }
    Ok(Line { tick, event })
}
