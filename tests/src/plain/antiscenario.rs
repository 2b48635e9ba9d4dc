//! Antiscenario m put together in an array, and written.
use super::columns::write;
use super::sheet::{is_end, Row, Sheet};

pub const MOST_ROWS: usize = 98;

pub struct Antiscenario {
    pub k: usize,
    pub rows: [Row; MOST_ROWS],
    pub row_count: usize,
    pub point_count: usize,
}

/// The points that a row speaks of, without the one it introduces.
pub fn needed(row: &Row) -> u128 {
    match row.kind {
        1 => 0,
        2 | 3 => 1 << row.q,
        4 | 5 => 1 << row.q | 1 << row.a,
        12 => 1 << row.p,
        _ => 1 << row.p | 1 << row.q,
    }
}

/// The antecedent's points, in a set of points.
pub const ANTECEDENT: u128 = 0b11110;

/// The points that BEFORE rows lead to from a point, in one or more steps; backwards, those that they lead from.
fn reached(rows: &[Row], from: u8, backwards: bool) -> u128 {
    let mut reached: u128 = 0;
    loop {
        let before = reached;
        for row in rows.iter().filter(|row| row.kind == 6) {
            let (x, y) = if backwards { (row.q, row.p) } else { (row.p, row.q) };
            if x == from || reached >> x & 1 == 1 {
                reached |= 1 << y;
            }
        }
        if reached == before {
            return reached;
        }
    }
}

/// Document 02, A8: the far end of the denial of NEXT or LAST, beside q.
fn far_end(antecedent: &[Row], consequent: &[Row], row: &Row) -> u8 {
    let backwards = row.kind == 3;
    let in_order = if is_end(row.q) { ANTECEDENT } else { ANTECEDENT & reached(antecedent, row.q, backwards) };
    match in_order & reached(consequent, row.p, backwards) & !(1 << row.q) {
        0 if backwards => 0,
        0 => 99,
        ends => ends.trailing_zeros() as u8,
    }
}

impl Antiscenario {
    pub fn new(sheet: &Sheet, number: u64) -> Antiscenario {
        let mut choices = [0; 7];
        let mut rest = number - 1;
        for section in (1..=sheet.k).rev() {
            choices[section] = rest % sheet.denials[section];
            rest /= sheet.denials[section];
        }
        let mut antiscenario = Antiscenario { k: sheet.k, rows: [Row::default(); MOST_ROWS], row_count: 0, point_count: 0 };
        for row in sheet.section(0) {
            antiscenario.push(*row);
        }
        for section in 1..=sheet.k {
            antiscenario.deny(sheet.section(0), sheet.section(section), choices[section]);
        }
        antiscenario
    }

    fn push(&mut self, row: Row) {
        self.rows[self.row_count] = row;
        self.row_count += 1;
        self.point_count += usize::from(row.kind <= 5);
    }

    fn deny(&mut self, antecedent: &[Row], section: &[Row], mut choice: u64) {
        let mut denied = 0;
        while choice >= section[denied].denials() {
            choice -= section[denied].denials();
            denied += 1;
        }
        let row = section[denied];
        self.bring(&section[..denied], needed(&row));
        match row.kind {
            2 => self.push(Row { kind: 9, p: row.q, q: far_end(antecedent, section, &row), ..row }),
            3 => self.push(Row { kind: 9, p: far_end(antecedent, section, &row), ..row }),
            _ => self.push_denial(row, choice == 1),
        }
    }

    /// One pass backwards finds the points needed in turn: a row needs only earlier ones.
    fn bring(&mut self, earlier: &[Row], mut wanted: u128) {
        for row in earlier.iter().rev() {
            if row.kind <= 5 && wanted >> row.p & 1 == 1 {
                wanted |= needed(row);
            }
        }
        for row in earlier {
            if row.kind <= 5 && wanted >> row.p & 1 == 1 {
                self.push(*row);
            }
        }
    }

    /// The denial of a row of kinds 6 to 12.
    fn push_denial(&mut self, row: Row, second: bool) {
        let as_kind = |kind| Row { kind, ..row };
        match row.kind {
            6 if second => self.push(as_kind(8)),
            6 => self.push(Row { p: row.q, q: row.p, ..row }),
            7 => self.push(as_kind(8)),
            8 => self.push(as_kind(7)),
            10 => self.push(as_kind(11)),
            11 => self.push(as_kind(10)),
            12 => self.push(Row { a: !row.a, b: !row.b, ..row }),
            _ => self.push_between(row, second),
        }
    }

    fn push_between(&mut self, row: Row, second: bool) {
        let r = 10 * row.section + 9;
        let before = |p, q| Row { section: row.section, kind: 6, p, q, a: 0, b: 0 };
        self.push(Row { section: row.section, kind: 1, p: r, q: 0, a: row.a, b: row.b });
        let (low, high) = if second { (row.q, row.p) } else { (row.p, row.q) };
        match (is_end(low), is_end(high)) {
            (true, true) => {}
            (false, false) => {
                self.push(before(low, r));
                self.push(before(r, high));
            }
            (true, false) if low == 0 => self.push(before(r, high)),
            (true, false) => self.push(before(high, r)),
            (false, true) if high == 0 => self.push(before(r, low)),
            (false, true) => self.push(before(low, r)),
        }
    }

    pub fn rows(&self) -> &[Row] {
        &self.rows[..self.row_count]
    }

    /// The text's length, if the buffer is long enough.
    pub fn write(&self, buffer: &mut [u8]) -> Option<usize> {
        let length = 7 + 35 * self.row_count;
        let text = buffer.get_mut(..length)?;
        write::<3>(text, self.k as u32);
        write::<3>(&mut text[3..], self.row_count as u32);
        text[6] = b'\n';
        for (row, line) in self.rows().iter().zip(text[7..].chunks_exact_mut(35)) {
            row.write(line);
        }
        Some(length)
    }
}
