//! What each operation answers and what all memory lent to it holds afterwards.
use crate::reference::operations::MOST_POINTS;

/// Lent memory is filled with this before a call, and stands between as many guards.
pub const PATTERN: u8 = 0xa5;
pub const PATTERN_WORD: u32 = 0xa5a5_a5a5;
pub const PATTERN_SIZE: usize = 0xa5a5_a5a5_a5a5_a5a5;
pub const PATTERN_COUNT: u64 = 0xa5a5_a5a5_a5a5_a5a5;
pub const GUARD: usize = 4;

/// Document 01: a row has 35 bytes, and no line more.
const MOST_LINE: usize = 35;

#[derive(Debug, PartialEq, Eq)]
pub struct LogRead {
    pub answer: u32,
    pub lines: u32,
}

#[derive(Debug, PartialEq, Eq)]
pub struct SheetRead {
    pub answer: u32,
    pub count: u64,
}

/// A placement table as lent: every entry, and the number said to be filled.
#[derive(Clone, Debug)]
pub struct Table {
    pub positions: [u32; MOST_POINTS],
    pub count: usize,
}

impl Table {
    /// The positions at the front and junk past them.
    pub fn of(positions: &[u32], junk: u32) -> Table {
        let mut table = [junk; MOST_POINTS];
        table[..positions.len()].copy_from_slice(positions);
        Table { positions: table, count: positions.len() }
    }
}

#[derive(Debug, PartialEq, Eq)]
pub struct Judged {
    pub answer: u32,
    pub met: u8,
}

#[derive(Debug, PartialEq, Eq)]
pub struct Written {
    pub answer: u32,
    pub buffer: Vec<u8>,
    pub length: usize,
}

/// Document 02, A6.
#[derive(Debug, PartialEq, Eq)]
pub struct Ruled {
    pub answer: u32,
    pub impossible: u8,
}

#[derive(Debug, PartialEq, Eq)]
pub struct Searched {
    pub answer: u32,
    pub places: Vec<u32>,
    pub found: u8,
}

#[derive(Debug, PartialEq, Eq)]
pub struct Checked {
    pub answer: u32,
    pub positions: Vec<u32>,
    pub points: u32,
    pub rows: Vec<u32>,
    pub consequents: u32,
}

/// Document 02, A10: what is lent to the check, and two numbers more.
#[derive(Debug, PartialEq, Eq)]
pub struct LimitedCheck {
    pub checked: Checked,
    pub looked: u64,
    pub after: u64,
}

#[derive(Debug, PartialEq, Eq)]
pub struct Shown {
    pub answer: u32,
    pub of_log: u8,
    pub offset: usize,
    pub length: usize,
}

/// The line itself, at the front of lent memory.
#[derive(Debug, PartialEq, Eq)]
pub struct LineShown {
    pub answer: u32,
    pub line: Vec<u8>,
    pub length: usize,
}

impl Shown {
    /// The bytes that it names.
    pub fn line(&self, sheet: &[u8], log: &[u8]) -> LineShown {
        let text = if self.of_log == 1 { log } else { sheet };
        let mut line = guarded(MOST_LINE, PATTERN);
        line[GUARD..GUARD + self.length].copy_from_slice(&text[self.offset..self.offset + self.length]);
        LineShown { answer: self.answer, line, length: self.length }
    }
}

#[derive(Debug, PartialEq, Eq)]
pub struct FieldRead {
    pub answer: u32,
    pub value: u32,
}

#[derive(Debug, PartialEq, Eq)]
pub struct FieldWritten {
    pub answer: u32,
    pub buffer: Vec<u8>,
}

/// So many units of patterned memory with guards before and after.
pub fn guarded<T: Copy>(length: usize, pattern: T) -> Vec<T> {
    vec![pattern; length + 2 * GUARD]
}

/// The operations of the C interface, by whoever carries them out.
pub trait Side {
    fn check_number(&self, sheet: &[u8], log: &[u8]) -> u32;
    fn read_log(&self, log: &[u8]) -> LogRead;
    fn read_sheet(&self, sheet: &[u8]) -> SheetRead;
    fn judge(&self, sheet: &[u8], log: &[u8], number: u64, table: &Table) -> Judged;
    fn write(&self, sheet: &[u8], number: u64, room: usize) -> Written;
    fn impossible(&self, sheet: &[u8], number: u64) -> Ruled;
    fn search(&self, sheet: &[u8], log: &[u8], number: u64, places: usize) -> Searched;
    fn check(&self, sheet: &[u8], log: &[u8]) -> Checked;
    fn check_limited(&self, sheet: &[u8], log: &[u8], limit: u64) -> LimitedCheck;
    fn show(&self, sheet: &[u8], log: &[u8]) -> Shown;
    /// The line itself: what `show` names, unless the side hands it out too.
    fn line(&self, sheet: &[u8], log: &[u8]) -> LineShown {
        self.show(sheet, log).line(sheet, log)
    }
}
