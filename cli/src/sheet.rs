//! The rows of a sheet, or of a written antiscenario, that the library accepted.
use crate::columns::{accepted, lines, ROW, SHEET_FIRST};
use satskhubo_interface::answer::{Answer, Failure};

pub const START: u32 = 0;
pub const CLOSE: u32 = 99;

/// The start or the close, which are no lines.
pub fn is_end(point: u32) -> bool {
    point == START || point == CLOSE
}

/// Document 01: kinds of row.
#[derive(Clone, Copy, Debug, PartialEq, Eq)]
#[repr(u32)]
pub enum Kind {
    Point = 1,
    Next = 2,
    Last = 3,
    Earlier = 4,
    Later = 5,
    Before = 6,
    Apart = 7,
    Same = 8,
    Free = 9,
    Within = 10,
    Outside = 11,
    Event = 12,
}

pub const KINDS: [(Kind, &str); 12] = [
    (Kind::Point, "POINT"),
    (Kind::Next, "NEXT"),
    (Kind::Last, "LAST"),
    (Kind::Earlier, "EARLIER"),
    (Kind::Later, "LATER"),
    (Kind::Before, "BEFORE"),
    (Kind::Apart, "APART"),
    (Kind::Same, "SAME"),
    (Kind::Free, "FREE"),
    (Kind::Within, "WITHIN"),
    (Kind::Outside, "OUTSIDE"),
    (Kind::Event, "EVENT"),
];

impl Kind {
    pub fn of(number: u32) -> Option<Kind> {
        KINDS.iter().map(|&(kind, _)| kind).find(|&kind| kind as u32 == number)
    }

    pub fn name(self) -> &'static str {
        KINDS[self as usize - 1].1
    }

    pub fn introduces(self) -> bool {
        (self as u32) <= Kind::Later as u32
    }
}

#[derive(Clone, Copy, Debug, PartialEq, Eq)]
pub struct Row {
    pub section: u32,
    pub kind: Kind,
    pub p: u32,
    pub q: u32,
    pub a: u32,
    pub b: u32,
}

impl Row {
    /// None where the kind is unknown.
    pub fn of([section, kind, p, q, a, b]: [u32; 6]) -> Option<Row> {
        Kind::of(kind).map(|kind| Row { section, kind, p, q, a, b })
    }

    /// Document 02, A1: in kinds 1, 2, 3, 9 and 12 the set of events is a + 2^32 b.
    pub fn set(&self) -> u64 {
        u64::from(self.b) << u32::BITS | u64::from(self.a)
    }
}

pub struct Sheet {
    /// Document 01: k, the number of consequents.
    pub consequents: u32,
    pub rows: Vec<Row>,
}

impl Sheet {
    pub fn of(text: &[u8]) -> Answer<Sheet> {
        let [consequents, count] = accepted(text, &SHEET_FIRST)?;
        let rows: Vec<Row> = lines(text, &SHEET_FIRST, &ROW).map(row_of).collect::<Answer<_>>()?;
        match rows.len() == count as usize {
            true => Ok(Sheet { consequents, rows }),
            false => Err(Failure(format!("an accepted text says {count} rows and has {}", rows.len()))),
        }
    }

    /// A row by its number, from 1.
    pub fn row(&self, number: u32) -> Answer<&Row> {
        let row = (number as usize).checked_sub(1).and_then(|index| self.rows.get(index));
        row.ok_or_else(|| Failure(format!("row {number} is asked for, and the sheet has {}", self.rows.len())))
    }

    pub fn section(&self, section: u32) -> impl Iterator<Item = &Row> {
        self.rows.iter().filter(move |row| row.section == section)
    }

    /// The rows that introduce points, each with its number from 1.
    pub fn introducing(&self) -> impl Iterator<Item = (usize, &Row)> {
        let numbered = self.rows.iter().enumerate().map(|(index, row)| (index + 1, row));
        numbered.filter(|(_, row)| row.kind.introduces())
    }
}

fn row_of(line: &[u8]) -> Answer<Row> {
    let fields = accepted(line, &ROW)?;
    Row::of(fields).ok_or_else(|| Failure(format!("an accepted row has kind {}", fields[1])))
}
