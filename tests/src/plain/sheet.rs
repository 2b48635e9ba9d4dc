//! A sheet read into an array in one pass.
use super::columns::{read, write};
use super::Refused;

pub const MOST_ROWS: usize = 176;
const FIRST_LINE: usize = 7;
const ROW: usize = 35;
const CLOSE: u32 = 99;
/// The start and the close in a set of points.
const ENDS: u128 = 1 | 1 << CLOSE;

#[derive(Clone, Copy, Default)]
pub struct Row {
    pub section: u8,
    pub kind: u8,
    pub p: u8,
    pub q: u8,
    pub a: u32,
    pub b: u32,
}

impl Row {
    #[inline]
    pub fn set(&self) -> u64 {
        u64::from(self.b) << 32 | u64::from(self.a)
    }

    #[inline]
    pub fn write(&self, line: &mut [u8]) {
        write::<3>(line, self.section.into());
        write::<3>(&mut line[3..], self.kind.into());
        write::<3>(&mut line[6..], self.p.into());
        write::<3>(&mut line[9..], self.q.into());
        write::<11>(&mut line[12..], self.a);
        write::<11>(&mut line[23..], self.b);
        line[34] = b'\n';
    }

    pub fn denials(&self) -> u64 {
        match self.kind {
            4 | 5 => 0,
            6 => 2,
            9 if !is_end(self.p) && !is_end(self.q) => 2,
            _ => 1,
        }
    }
}

#[inline]
pub fn is_end(point: u8) -> bool {
    point == 0 || u32::from(point) == CLOSE
}

pub struct Sheet {
    pub k: usize,
    pub rows: [Row; MOST_ROWS],
    /// Where each section begins; the one after the last consequent is the row count.
    pub begins: [usize; 8],
    pub denials: [u64; 7],
    pub count: u64,
}

fn first_line(text: &[u8]) -> Option<(u32, u32)> {
    let line = text.get(..FIRST_LINE)?;
    if line[6] != b'\n' {
        return None;
    }
    Some((read::<3>(line)?, read::<3>(&line[3..])?))
}

#[inline]
fn fields(line: &[u8]) -> Option<[u32; 6]> {
    if line[34] != b'\n' {
        return None;
    }
    Some([
        read::<3>(line)?,
        read::<3>(&line[3..])?,
        read::<3>(&line[6..])?,
        read::<3>(&line[9..])?,
        read::<11>(&line[12..])?,
        read::<11>(&line[23..])?,
    ])
}

/// Points known while a sheet is read.
struct Known {
    antecedent: u128,
    own: u128,
    introduced: u32,
    section: u32,
    section_rows: u32,
}

#[inline]
fn among(points: u128, point: u32) -> bool {
    point < 128 && points >> point & 1 == 1
}

impl Known {
    fn enter(&mut self, section: u32) {
        if section != self.section {
            *self = Known { antecedent: self.antecedent, own: 0, introduced: 0, section, section_rows: 0 };
        }
    }

    fn introduce(&mut self, point: u32) {
        self.introduced += 1;
        self.own |= 1 << point;
        if self.section == 0 {
            self.antecedent = self.own;
        }
    }

    #[inline]
    fn p_fits(&self, section: u32, kind: u32, p: u32) -> bool {
        let most = if section == 0 { 4 } else { 8 };
        match kind {
            1..=5 => self.introduced < most && p == 10 * section + self.introduced + 1,
            9..=11 => among(self.antecedent | self.own | ENDS, p),
            _ => among(self.antecedent | self.own, p),
        }
    }

    #[inline]
    fn q_fits(&self, kind: u32, p: u32, q: u32, a: u32) -> bool {
        let ordinary = self.antecedent | self.own;
        let known = ordinary | ENDS;
        match kind {
            2 => among(known, q) && q != CLOSE,
            3 => among(known, q) && q != 0,
            4 | 5 => among(ordinary, q) && among(ordinary, a) && q != a,
            6..=8 => among(ordinary, q) && q != p,
            9..=11 => among(known, q) && q != p,
            _ => true,
        }
    }

    /// Refusals 6 to 10.
    #[inline]
    fn refusal(&self, [section, kind, p, q, a, b]: [u32; 6]) -> Option<u32> {
        let most_rows = if section == 0 { 32 } else { 24 };
        match () {
            _ if !kind_fits(section, kind) => Some(6),
            _ if !self.p_fits(section, kind, p) => Some(7),
            _ if !self.q_fits(kind, p, q, a) => Some(8),
            _ if !fields_fit(kind, q, a, b) => Some(9),
            _ if self.section_rows == most_rows => Some(10),
            _ => None,
        }
    }
}

#[inline]
fn kind_fits(section: u32, kind: u32) -> bool {
    match kind {
        1 => section == 0,
        2..=5 => section > 0,
        6..=12 => true,
        _ => false,
    }
}

#[inline]
fn fields_fit(kind: u32, q: u32, a: u32, b: u32) -> bool {
    match kind {
        1 => q == 0 && a | b != 0,
        2 | 3 | 9 => a | b != 0,
        4 | 5 => b == 0,
        6..=8 => a | b == 0,
        10 | 11 => a <= b,
        _ => q == 0,
    }
}

impl Sheet {
    pub fn read(text: &[u8]) -> Result<Sheet, Refused> {
        let first = |refusal| (refusal, 0, text.len().min(FIRST_LINE));
        let (k, row_count) = first_line(text).ok_or(first(1))?;
        if k > 6 || row_count as usize > MOST_ROWS {
            return Err(first(2));
        }
        if text.len() != FIRST_LINE + ROW * row_count as usize {
            return Err(first(3));
        }
        let mut sheet = Sheet { k: k as usize, rows: [Row::default(); MOST_ROWS], begins: [0; 8], denials: [0; 7], count: 1 };
        let mut known = Known { antecedent: 0, own: 0, introduced: 0, section: 0, section_rows: 0 };
        for (index, line) in text[FIRST_LINE..].chunks_exact(ROW).enumerate() {
            let refused = |refusal| (refusal, FIRST_LINE + ROW * index, ROW);
            let fields = fields(line).ok_or(refused(4))?;
            let [section, kind, p, q, a, b] = fields;
            if section > k || section < known.section {
                return Err(refused(5));
            }
            known.enter(section);
            if let Some(refusal) = known.refusal(fields) {
                return Err(refused(refusal));
            }
            known.section_rows += 1;
            if kind <= 5 {
                known.introduce(p);
            }
            let row = Row { section: section as u8, kind: kind as u8, p: p as u8, q: q as u8, a, b };
            sheet.rows[index] = row;
            sheet.begins[section as usize + 1] = index + 1;
            sheet.denials[section as usize] += row.denials();
        }
        for section in 1..8 {
            sheet.begins[section] = sheet.begins[section].max(sheet.begins[section - 1]);
        }
        sheet.count = sheet.denials[1..=k as usize].iter().product();
        Ok(sheet)
    }

    #[inline]
    pub fn section(&self, section: usize) -> &[Row] {
        &self.rows[self.begins[section]..self.begins[section + 1]]
    }

    pub fn antecedent_points(&self) -> usize {
        self.section(0).iter().filter(|row| row.kind == 1).count()
    }
}
