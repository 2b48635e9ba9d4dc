//! The refusals of document 01 by number, and the part of a text that each is about.

#[derive(Clone, Copy, Debug, PartialEq, Eq, PartialOrd, Ord)]
#[repr(u32)]
pub enum Refusal {
    SheetFirstLine = 1,
    SheetCounts = 2,
    SheetLength = 3,
    RowMalformed = 4,
    Section = 5,
    Kind = 6,
    PointP = 7,
    PointQ = 8,
    Fields = 9,
    SectionTooLong = 10,
    LogFirstLine = 21,
    LineCount = 22,
    LogLength = 23,
    LineMalformed = 24,
    Event = 25,
    Tick = 26,
    Close = 27,
    Number = 31,
    Buffer = 32,
    Places = 33,
    Positions = 34,
}

impl Refusal {
    pub fn number(self) -> u32 {
        self as u32
    }
}

/// Document 01: a part of the sheet or of the log.
#[derive(Clone, Copy, Debug, PartialEq, Eq)]
pub struct Part {
    pub of_log: bool,
    pub offset: usize,
    pub length: usize,
}

/// A reading's refusal and the part that "show the line" hands back for it.
#[derive(Clone, Copy, Debug, PartialEq, Eq)]
pub struct Fault {
    pub refusal: Refusal,
    pub part: Part,
}
