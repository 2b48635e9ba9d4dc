//! Document 01: a sheet, and its reading with refusals 1 to 10; document 02, A1: with sets in two halves, and A4: however many antiscenarios it
//! has.
use super::antiscenario::{self, Denial};
use super::blunder::Blunder;
use super::columns::{read_line, spell_line};
use super::refusal::{Fault, Part, Refusal};

pub const MOST_CONSEQUENTS: u32 = 6;
pub const MOST_ROWS: u32 = 176;
pub const MOST_ANTECEDENT_ROWS: usize = 32;
pub const MOST_CONSEQUENT_ROWS: usize = 24;
pub const MOST_ANTECEDENT_POINTS: usize = 4;
pub const MOST_CONSEQUENT_POINTS: usize = 8;
pub const FIRST_LINE: usize = 7;
pub const ROW: usize = 35;
const FIRST_WIDTHS: [usize; 2] = [3, 3];
const ROW_WIDTHS: [usize; 6] = [3, 3, 3, 3, 11, 11];

/// The points that are always known.
pub const START: u32 = 0;
pub const CLOSE: u32 = 99;

/// The kinds of row.
pub mod kind {
    pub const POINT: u32 = 1;
    pub const NEXT: u32 = 2;
    pub const LAST: u32 = 3;
    pub const EARLIER: u32 = 4;
    pub const LATER: u32 = 5;
    pub const BEFORE: u32 = 6;
    pub const APART: u32 = 7;
    pub const SAME: u32 = 8;
    pub const FREE: u32 = 9;
    pub const WITHIN: u32 = 10;
    pub const OUTSIDE: u32 = 11;
    pub const EVENT: u32 = 12;
}
use kind::*;

#[derive(Clone, Copy, Debug, PartialEq, Eq, Hash)]
pub struct Row {
    pub section: u32,
    pub kind: u32,
    pub p: u32,
    pub q: u32,
    pub a: u32,
    pub b: u32,
}

impl Row {
    pub fn new(section: u32, kind: u32, p: u32, q: u32, a: u32, b: u32) -> Row {
        Row { section, kind, p, q, a, b }
    }

    /// A row whose set is given in one number.
    pub fn of_set(section: u32, kind: u32, p: u32, q: u32, set: u64) -> Row {
        Row::new(section, kind, p, q, (set % (1 << 32)) as u32, (set / (1 << 32)) as u32)
    }

    /// Document 02, A1: the set of a row of kinds 1, 2, 3, 9 and 12.
    pub fn set(&self) -> u64 {
        u64::from(self.a) + (1 << 32) * u64::from(self.b)
    }

    pub fn introduces(&self) -> bool {
        [POINT, NEXT, LAST, EARLIER, LATER].contains(&self.kind)
    }

    /// The row of a line, if it is well formed.
    fn read(line: &[u8]) -> Option<Row> {
        let f = read_line(line, &ROW_WIDTHS)?;
        Some(Row::new(f[0], f[1], f[2], f[3], f[4], f[5]))
    }

    pub fn text(&self) -> Vec<u8> {
        spell_line(&[self.section, self.kind, self.p, self.q, self.a, self.b], &ROW_WIDTHS)
    }
}

#[derive(Clone, Debug, PartialEq, Eq)]
pub struct Sheet {
    pub k: u32,
    pub rows: Vec<Row>,
    /// The denials of consequents 1 to k.
    pub denials: Vec<Vec<Denial>>,
    /// N, the number of antiscenarios, at most 48^6.
    pub count: u64,
    pub blunder: Blunder,
}

impl Sheet {
    pub fn section(&self, section: u32) -> Vec<Row> {
        self.rows.iter().filter(|row| row.section == section).copied().collect()
    }
}

/// First line and rows, as sheets and antiscenarios are written.
pub fn text(k: u32, rows: &[Row]) -> Vec<u8> {
    let mut text = spell_line(&[k, rows.len() as u32], &FIRST_WIDTHS);
    for row in rows {
        text.extend(row.text());
    }
    text
}

/// The rows of a sheet's text, or of an antiscenario's, by the columns; each is well formed.
pub fn rows_of(text: &[u8]) -> Vec<Row> {
    text[FIRST_LINE..].chunks(ROW).map(|line| Row::read(line).expect("a row is well formed")).collect()
}

/// The points that rows of a section introduce, in order of introduction.
pub fn introduced(rows: &[Row], section: u32) -> Vec<u32> {
    rows.iter().filter(|row| row.section == section && row.introduces()).map(|row| row.p).collect()
}

pub fn is_end(point: u32) -> bool {
    point == START || point == CLOSE
}

/// An ordinary point known to a row of this section that comes after these rows.
fn known_ordinary(before: &[Row], section: u32, point: u32) -> bool {
    introduced(before, 0).contains(&point) || introduced(before, section).contains(&point)
}

fn known(before: &[Row], section: u32, point: u32) -> bool {
    is_end(point) || known_ordinary(before, section, point)
}

/// The number due for the next point of a section; none is due past a section's last.
fn due(before: &[Row], section: u32) -> Option<u32> {
    let count = introduced(before, section).len();
    let most = if section == 0 { MOST_ANTECEDENT_POINTS } else { MOST_CONSEQUENT_POINTS };
    (count < most).then_some(10 * section + count as u32 + 1)
}

fn kind_fits(row: &Row) -> bool {
    match row.kind {
        POINT => row.section == 0,
        NEXT | LAST | EARLIER | LATER => row.section > 0,
        BEFORE | APART | SAME | FREE | WITHIN | OUTSIDE | EVENT => true,
        _ => false,
    }
}

fn p_fits(row: &Row, before: &[Row]) -> bool {
    match row.kind {
        POINT | NEXT | LAST | EARLIER | LATER => due(before, row.section) == Some(row.p),
        FREE | WITHIN | OUTSIDE => known(before, row.section, row.p),
        _ => known_ordinary(before, row.section, row.p),
    }
}

fn q_fits(row: &Row, before: &[Row]) -> bool {
    let ordinary = |point| known_ordinary(before, row.section, point);
    match row.kind {
        NEXT => known(before, row.section, row.q) && row.q != CLOSE,
        LAST => known(before, row.section, row.q) && row.q != START,
        EARLIER | LATER => ordinary(row.q) && ordinary(row.a) && row.q != row.a,
        BEFORE | APART | SAME => ordinary(row.q) && row.q != row.p,
        FREE | WITHIN | OUTSIDE => known(before, row.section, row.q) && row.q != row.p,
        _ => true,
    }
}

/// A set is empty when both halves are 0.
fn has_event(row: &Row, blunder: Blunder) -> bool {
    match blunder {
        Blunder::UpperHalfEmpty => row.a != 0,
        Blunder::BeforeA1 => row.a != 0 && row.b == 0,
        _ => row.a != 0 || row.b != 0,
    }
}

/// The set of EVENT may be empty.
fn is_set_of_event(row: &Row, blunder: Blunder) -> bool {
    row.b == 0 || ![Blunder::EventWithoutUpperHalf, Blunder::BeforeA1].contains(&blunder)
}

/// Unused fields are 0, sets are not empty, limits are in order.
fn fields_fit(row: &Row, blunder: Blunder) -> bool {
    match row.kind {
        POINT => row.q == 0 && has_event(row, blunder),
        NEXT | LAST | FREE => has_event(row, blunder),
        EARLIER | LATER => row.b == 0,
        BEFORE | APART | SAME => row.a == 0 && row.b == 0,
        WITHIN | OUTSIDE => row.a <= row.b,
        _ => row.q == 0 && is_set_of_event(row, blunder),
    }
}

fn section_fits(row: &Row, before: &[Row]) -> bool {
    let earlier = before.iter().filter(|other| other.section == row.section).count();
    earlier < if row.section == 0 { MOST_ANTECEDENT_ROWS } else { MOST_CONSEQUENT_ROWS }
}

/// Refusals 4 to 10 for the row that comes after these rows.
fn read_row(line: &[u8], k: u32, before: &[Row], blunder: Blunder) -> Result<Row, Refusal> {
    let Some(row) = Row::read(line) else { return Err(Refusal::RowMalformed) };
    let preceding = before.last().map_or(0, |row| row.section);
    let tries = [
        (row.section <= k && row.section >= preceding, Refusal::Section),
        (kind_fits(&row), Refusal::Kind),
        (p_fits(&row, before), Refusal::PointP),
        (q_fits(&row, before), Refusal::PointQ),
        (fields_fit(&row, blunder), Refusal::Fields),
        (section_fits(&row, before), Refusal::SectionTooLong),
    ];
    match tries.iter().find(|(fits, _)| !fits) {
        Some(&(_, refusal)) => Err(refusal),
        None => Ok(row),
    }
}

fn first_line_fault(refusal: Refusal, text: &[u8]) -> Fault {
    Fault { refusal, part: Part { of_log: false, offset: 0, length: text.len().min(FIRST_LINE) } }
}

pub fn read(text: &[u8], blunder: Blunder) -> Result<Sheet, Fault> {
    let first = text.get(..FIRST_LINE).and_then(|line| read_line(line, &FIRST_WIDTHS));
    let Some(first) = first else { return Err(first_line_fault(Refusal::SheetFirstLine, text)) };
    let (k, row_count) = (first[0], first[1]);
    if k > MOST_CONSEQUENTS || row_count > MOST_ROWS {
        return Err(first_line_fault(Refusal::SheetCounts, text));
    }
    if text.len() != FIRST_LINE + ROW * row_count as usize {
        return Err(first_line_fault(Refusal::SheetLength, text));
    }
    let mut rows = Vec::new();
    for (index, line) in text[FIRST_LINE..].chunks(ROW).enumerate() {
        let part = Part { of_log: false, offset: FIRST_LINE + ROW * index, length: ROW };
        rows.push(read_row(line, k, &rows, blunder).map_err(|refusal| Fault { refusal, part })?);
    }
    let mut sheet = Sheet { k, rows, denials: Vec::new(), count: 0, blunder };
    sheet.denials = (1..=k).map(|section| antiscenario::denials(&sheet, section)).collect();
    sheet.count = antiscenario::count(&sheet);
    Ok(sheet)
}
