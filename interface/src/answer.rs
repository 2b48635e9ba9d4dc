//! The library's answers in types. Its numbers are taken apart here and nowhere else; one that it cannot give is a failure.
use crate::{lent, Placement, MOST_ANTECEDENT_POINTS, MOST_CONSEQUENTS, MOST_LINE, MOST_POINTS, MOST_TEXT};
use std::fmt::{Display, Formatter};
use std::ops::Range;

const DONE: u32 = 0;
const MALFORMED: u32 = 1;
const VIOLATED: u32 = 100;
const STOPPED: u32 = 102;

/// Document 01's refusals, without 11, which document 02, A4, takes back.
#[derive(Clone, Copy, Debug, PartialEq, Eq)]
#[repr(u32)]
pub enum Refusal {
    SheetFirstLine = 1,
    SheetCounts = 2,
    SheetLength = 3,
    RowMalformed = 4,
    Section = 5,
    Kind = 6,
    PointP = 7,
    PointQ = 8,
    Fields = 9,
    SectionTooLong = 10,
    LogFirstLine = 21,
    LineCount = 22,
    LogLength = 23,
    LineMalformed = 24,
    Event = 25,
    Tick = 26,
    Close = 27,
    Number = 31,
    Buffer = 32,
    Places = 33,
    Positions = 34,
}

/// Every refusal, in the order of their numbers.
pub const REFUSALS: [Refusal; 21] = [
    Refusal::SheetFirstLine,
    Refusal::SheetCounts,
    Refusal::SheetLength,
    Refusal::RowMalformed,
    Refusal::Section,
    Refusal::Kind,
    Refusal::PointP,
    Refusal::PointQ,
    Refusal::Fields,
    Refusal::SectionTooLong,
    Refusal::LogFirstLine,
    Refusal::LineCount,
    Refusal::LogLength,
    Refusal::LineMalformed,
    Refusal::Event,
    Refusal::Tick,
    Refusal::Close,
    Refusal::Number,
    Refusal::Buffer,
    Refusal::Places,
    Refusal::Positions,
];

impl Refusal {
    pub fn number(self) -> u32 {
        self as u32
    }
}

/// What the library cannot answer by its header, or what cannot be made of its answer.
#[derive(Clone, Debug, PartialEq, Eq)]
pub struct Failure(pub String);

impl Display for Failure {
    fn fmt(&self, to: &mut Formatter) -> std::fmt::Result {
        to.write_str(&self.0)
    }
}

pub type Answer<T> = Result<T, Failure>;

#[derive(Clone, Debug, PartialEq, Eq)]
pub enum Verdict {
    Holds,
    /// The smallest violating placement of the antecedent's points, and each consequent's row at fault.
    Violated {
        placement: Vec<u32>,
        rows: Vec<u32>,
    },
    Refused(Refusal),
}

/// Document 02, A10: what the check with a limit answers.
#[derive(Clone, Debug, PartialEq, Eq)]
pub enum LimitedVerdict {
    Holds(Looked),
    Violated {
        placement: Vec<u32>,
        rows: Vec<u32>,
        looked: Looked,
    },
    /// As many matchings as the limit were looked at, all of them extend, and there is one more: neither holds nor violated.
    Stopped(Looked),
    Refused(Refusal),
}

/// How far the check with a limit has come.
#[derive(Clone, Copy, Debug, PartialEq, Eq)]
pub struct Looked {
    /// How many of the antecedent's matchings were looked at.
    pub matchings: u64,
    /// How many placements of the antecedent's points, met or not, come after the last of them; all, where none was looked at.
    pub placements_after: u64,
}

#[derive(Clone, Debug, PartialEq, Eq)]
pub enum SheetRead {
    /// Document 01: N, the number of antiscenarios.
    Count(u64),
    Refused(Refusal),
}

#[derive(Clone, Debug, PartialEq, Eq)]
pub enum LogRead {
    /// Document 01: n, the number of lines.
    Lines(u32),
    Refused(Refusal),
}

#[derive(Clone, Debug, PartialEq, Eq)]
pub enum Judged {
    Met,
    NotMet,
    Refused(Refusal),
}

#[derive(Clone, Debug, PartialEq, Eq)]
pub enum Written {
    Text(Vec<u8>),
    Refused(Refusal),
}

/// Document 02, A6: whether the rows of an antiscenario contradict each other.
#[derive(Clone, Debug, PartialEq, Eq)]
pub enum Ruled {
    /// No run can meet it.
    Impossible,
    /// None of the three rules tells that no run can meet it.
    Possible,
    Refused(Refusal),
}

#[derive(Clone, Debug, PartialEq, Eq)]
pub enum Searched {
    /// The smallest matching, in order of introduction.
    Found(Vec<u32>),
    None,
    Refused(Refusal),
}

#[derive(Clone, Debug, PartialEq, Eq)]
pub enum Shown {
    NothingRefused,
    /// Document 01: the line that the check's refusal is about, a part of the sheet or of the log: its place and its bytes.
    Line {
        refusal: Refusal,
        of_log: bool,
        part: Range<usize>,
        bytes: Vec<u8>,
    },
}

fn refusal(call: &str, number: u32) -> Answer<Refusal> {
    let known = REFUSALS.into_iter().find(|refusal| refusal.number() == number);
    known.ok_or_else(|| Failure(format!("{call} answered {number}, which is none of its answers")))
}

/// A byte that was lent for a bool.
fn yes_or_no(call: &str, byte: u8) -> Answer<bool> {
    match byte {
        0 => Ok(false),
        1 => Ok(true),
        other => Err(Failure(format!("{call} left {other} where true or false is due"))),
    }
}

/// So many of the numbers that were lent.
fn front(call: &str, lent: &[u32], count: u32) -> Answer<Vec<u32>> {
    let written = lent.get(..count as usize).map(<[u32]>::to_vec);
    written.ok_or_else(|| Failure(format!("{call} says {count} numbers where {} were lent", lent.len())))
}

pub fn check(sheet: &[u8], log: &[u8]) -> Answer<Verdict> {
    const CALL: &str = "satskhubo_check";
    let (mut positions, mut rows) = ([0; MOST_ANTECEDENT_POINTS], [0; MOST_CONSEQUENTS]);
    let (mut points, mut consequents) = (u32::MAX, u32::MAX);
    match lent::check(sheet, log, &mut positions, &mut points, &mut rows, &mut consequents) {
        DONE => Ok(Verdict::Holds),
        VIOLATED => {
            let (placement, rows) = (front(CALL, &positions, points)?, front(CALL, &rows, consequents)?);
            Ok(Verdict::Violated { placement, rows })
        }
        number => Ok(Verdict::Refused(refusal(CALL, number)?)),
    }
}

pub fn check_limited(sheet: &[u8], log: &[u8], limit: u64) -> Answer<LimitedVerdict> {
    const CALL: &str = "satskhubo_check_limited";
    let (mut positions, mut rows) = ([0; MOST_ANTECEDENT_POINTS], [0; MOST_CONSEQUENTS]);
    let (mut points, mut consequents) = (u32::MAX, u32::MAX);
    let (mut matchings, mut placements_after) = (u64::MAX, u64::MAX);
    let lent = lent::Limited {
        positions: &mut positions,
        points: &mut points,
        rows: &mut rows,
        consequents: &mut consequents,
        looked: &mut matchings,
        after: &mut placements_after,
    };
    let number = lent::check_limited(sheet, log, limit, lent);
    let looked = Looked { matchings, placements_after };
    match number {
        DONE => Ok(LimitedVerdict::Holds(looked)),
        VIOLATED => {
            let (placement, rows) = (front(CALL, &positions, points)?, front(CALL, &rows, consequents)?);
            Ok(LimitedVerdict::Violated { placement, rows, looked })
        }
        STOPPED => Ok(LimitedVerdict::Stopped(looked)),
        number => Ok(LimitedVerdict::Refused(refusal(CALL, number)?)),
    }
}

pub fn read_sheet(sheet: &[u8]) -> Answer<SheetRead> {
    let mut count = u64::MAX;
    match lent::read_sheet(sheet, &mut count) {
        DONE => Ok(SheetRead::Count(count)),
        number => Ok(SheetRead::Refused(refusal("satskhubo_read_sheet", number)?)),
    }
}

pub fn read_log(log: &[u8]) -> Answer<LogRead> {
    let mut lines = u32::MAX;
    match lent::read_log(log, &mut lines) {
        DONE => Ok(LogRead::Lines(lines)),
        number => Ok(LogRead::Refused(refusal("satskhubo_read_log", number)?)),
    }
}

/// More positions than any antiscenario has points are not handed over: the library has room for no more.
pub fn judge(sheet: &[u8], log: &[u8], number: u64, positions: &[u32]) -> Answer<Judged> {
    const CALL: &str = "satskhubo_judge";
    let mut placement = Placement { positions: [0; MOST_POINTS], count: positions.len() };
    let Some(places) = placement.positions.get_mut(..positions.len()) else {
        return Err(Failure(format!("{} positions are more than any antiscenario has", positions.len())));
    };
    places.copy_from_slice(positions);
    let mut met = u8::MAX;
    match lent::judge(sheet, log, number, placement, &mut met) {
        DONE if yes_or_no(CALL, met)? => Ok(Judged::Met),
        DONE => Ok(Judged::NotMet),
        refused => Ok(Judged::Refused(refusal(CALL, refused)?)),
    }
}

pub fn write(sheet: &[u8], number: u64) -> Answer<Written> {
    const CALL: &str = "satskhubo_write";
    let mut buffer = vec![0; MOST_TEXT];
    let mut length = usize::MAX;
    match lent::write(sheet, number, &mut buffer, &mut length) {
        DONE if length <= buffer.len() => {
            buffer.truncate(length);
            Ok(Written::Text(buffer))
        }
        DONE => Err(Failure(format!("{CALL} says {length} bytes where {MOST_TEXT} were lent"))),
        refused => Ok(Written::Refused(refusal(CALL, refused)?)),
    }
}

pub fn impossible(sheet: &[u8], number: u64) -> Answer<Ruled> {
    const CALL: &str = "satskhubo_impossible";
    let mut is_impossible = u8::MAX;
    match lent::impossible(sheet, number, &mut is_impossible) {
        DONE if yes_or_no(CALL, is_impossible)? => Ok(Ruled::Impossible),
        DONE => Ok(Ruled::Possible),
        refused => Ok(Ruled::Refused(refusal(CALL, refused)?)),
    }
}

pub fn search(sheet: &[u8], log: &[u8], number: u64) -> Answer<Searched> {
    const CALL: &str = "satskhubo_search";
    // No position is 0, so the first 0 that stays is behind the last of them.
    let mut places = [0; MOST_POINTS];
    let mut found = u8::MAX;
    match lent::search(sheet, log, number, &mut places, &mut found) {
        DONE if yes_or_no(CALL, found)? => {
            Ok(Searched::Found(places.into_iter().take_while(|&position| position != 0).collect()))
        }
        DONE => Ok(Searched::None),
        refused => Ok(Searched::Refused(refusal(CALL, refused)?)),
    }
}

pub fn show(sheet: &[u8], log: &[u8]) -> Answer<Shown> {
    const CALL: &str = "satskhubo_show";
    let (mut of_log, mut offset, mut length) = (u8::MAX, usize::MAX, usize::MAX);
    let refused = match lent::show(sheet, log, &mut of_log, &mut offset, &mut length) {
        DONE => return Ok(Shown::NothingRefused),
        refused => refusal(CALL, refused)?,
    };
    let of_log = yes_or_no(CALL, of_log)?;
    let text = if of_log { log } else { sheet };
    let Some(end) = offset.checked_add(length).filter(|&end| end <= text.len()) else {
        return Err(Failure(format!("{CALL} shows {length} bytes from {offset} on, where there are {}", text.len())));
    };
    let bytes = line(sheet, log, refused)?;
    Ok(Shown::Line { refusal: refused, of_log, part: offset..end, bytes })
}

/// The bytes of the line that a refusal is about.
fn line(sheet: &[u8], log: &[u8], expected: Refusal) -> Answer<Vec<u8>> {
    const CALL: &str = "satskhubo_line";
    let (mut room, mut length) = ([0; MOST_LINE], usize::MAX);
    let number = lent::line(sheet, log, &mut room, &mut length);
    if number != expected.number() {
        return Err(Failure(format!("{CALL} answered {number}, where {} is refused", expected.number())));
    }
    let written = room.get(..length).map(<[u8]>::to_vec);
    written.ok_or_else(|| Failure(format!("{CALL} says {length} bytes where {MOST_LINE} were lent")))
}

/// The number in the first `width` bytes; none where they are not well formed, or fewer.
pub fn read_field(text: &[u8], width: usize) -> Answer<Option<u32>> {
    let mut value = u32::MAX;
    match lent::read_field(text, width, &mut value) {
        DONE => Ok(Some(value)),
        MALFORMED => Ok(None),
        number => Err(Failure(format!("satskhubo_read_field answered {number}, which is none of its answers"))),
    }
}
