//! The outcomes that the reference expects, lent memory included, and the reference with a blunder as a side of its own.
use crate::outcome::*;
use crate::reference::blunder::Blunder;
use crate::reference::limited::Limited;
use crate::reference::operations::{open, Opened, Verdict};
use crate::reference::refusal::Refusal;

pub const HOLDS: u32 = 0;
pub const VIOLATED: u32 = 100;
/// Document 02, A10.
pub const STOPPED: u32 = 102;

impl Opened {
    pub fn log_read(&self) -> LogRead {
        match self.read_log() {
            Ok(lines) => LogRead { answer: 0, lines },
            Err(refusal) => LogRead { answer: refusal.number(), lines: PATTERN_WORD },
        }
    }

    pub fn sheet_read(&self) -> SheetRead {
        match self.read_sheet() {
            Ok(count) => SheetRead { answer: 0, count },
            Err(refusal) => SheetRead { answer: refusal.number(), count: PATTERN_COUNT },
        }
    }

    pub fn judged(&self, number: u64, table: &Table) -> Judged {
        match self.judge(number, &table.positions, table.count) {
            Ok(met) => Judged { answer: 0, met: met.into() },
            Err(refusal) => Judged { answer: refusal.number(), met: PATTERN },
        }
    }

    pub fn written(&self, number: u64, room: usize) -> Written {
        written(self.write(number, room).map_err(|refusal| refusal.number()), room)
    }

    pub fn ruled(&self, number: u64) -> Ruled {
        match self.impossible(number) {
            Ok(impossible) => Ruled { answer: 0, impossible: impossible.into() },
            Err(refusal) => Ruled { answer: refusal.number(), impossible: PATTERN },
        }
    }

    pub fn searched(&self, number: u64, places: usize) -> Searched {
        searched(self.search(number, places).map_err(|refusal| refusal.number()), places)
    }

    pub fn checked(&self) -> Checked {
        checked(self.check().map_err(|refusal| refusal.number()))
    }

    pub fn limited_check(&self, limit: u64) -> LimitedCheck {
        limited_check(self.check_limited(limit).map_err(|refusal| refusal.number()))
    }

    pub fn shown(&self) -> Shown {
        let (answer, part) = self.show();
        Shown { answer, of_log: part.of_log.into(), offset: part.offset, length: part.length }
    }
}

pub fn written(result: Result<Vec<u8>, u32>, room: usize) -> Written {
    let mut buffer = guarded(room, PATTERN);
    match result {
        Ok(text) => {
            buffer[GUARD..GUARD + text.len()].copy_from_slice(&text);
            Written { answer: 0, buffer, length: text.len() }
        }
        Err(refusal) => Written { answer: refusal, buffer, length: PATTERN_SIZE },
    }
}

pub fn searched(result: Result<Option<Vec<u32>>, u32>, places: usize) -> Searched {
    let mut lent = guarded(places, PATTERN_WORD);
    match result {
        Ok(Some(positions)) => {
            lent[GUARD..GUARD + positions.len()].copy_from_slice(&positions);
            Searched { answer: 0, places: lent, found: 1 }
        }
        Ok(None) => Searched { answer: 0, places: lent, found: 0 },
        Err(refusal) => Searched { answer: refusal, places: lent, found: PATTERN },
    }
}

pub fn checked(result: Result<Verdict, u32>) -> Checked {
    let mut positions = guarded(4, PATTERN_WORD);
    let mut rows_lent = guarded(6, PATTERN_WORD);
    let (answer, points, consequents) = match result {
        Ok(Verdict::Holds) => (HOLDS, PATTERN_WORD, PATTERN_WORD),
        Err(refusal) => (refusal, PATTERN_WORD, PATTERN_WORD),
        Ok(Verdict::Violated { placement, rows }) => {
            positions[GUARD..GUARD + placement.len()].copy_from_slice(&placement);
            rows_lent[GUARD..GUARD + rows.len()].copy_from_slice(&rows);
            (VIOLATED, placement.len() as u32, rows.len() as u32)
        }
    };
    Checked { answer, positions, points, rows: rows_lent, consequents }
}

/// Stopped, nothing is written of what the check writes.
pub fn limited_check(result: Result<Limited, u32>) -> LimitedCheck {
    match result {
        Ok(Limited { verdict, looked, after }) => LimitedCheck { checked: checked(verdict.ok_or(STOPPED)), looked, after },
        Err(refusal) => LimitedCheck { checked: checked(Err(refusal)), looked: PATTERN_COUNT, after: PATTERN_COUNT },
    }
}

/// The reference with a blunder put in, as a side to be found out.
pub struct Blundering(pub Blunder);

impl Side for Blundering {
    fn check_number(&self, sheet: &[u8], log: &[u8]) -> u32 {
        self.check(sheet, log).answer
    }
    fn read_log(&self, log: &[u8]) -> LogRead {
        open(b"", log, self.0).log_read()
    }
    fn read_sheet(&self, sheet: &[u8]) -> SheetRead {
        open(sheet, b"", self.0).sheet_read()
    }
    fn judge(&self, sheet: &[u8], log: &[u8], number: u64, table: &Table) -> Judged {
        open(sheet, log, self.0).judged(number, table)
    }
    fn write(&self, sheet: &[u8], number: u64, room: usize) -> Written {
        open(sheet, b"", self.0).written(number, room)
    }
    fn impossible(&self, sheet: &[u8], number: u64) -> Ruled {
        let ruled = open(sheet, b"", self.0).ruled(number);
        match self.0 {
            Blunder::ZeroBeforeSheet if number == 0 => Ruled { answer: Refusal::Number.number(), ..ruled },
            Blunder::WrittenThoughRefused if ruled.answer != 0 => Ruled { impossible: 0, ..ruled },
            Blunder::PossibleUnwritten if ruled.impossible == 0 => Ruled { impossible: PATTERN, ..ruled },
            _ => ruled,
        }
    }
    fn search(&self, sheet: &[u8], log: &[u8], number: u64, places: usize) -> Searched {
        open(sheet, log, self.0).searched(number, places)
    }
    fn check(&self, sheet: &[u8], log: &[u8]) -> Checked {
        open(sheet, log, self.0).checked()
    }
    fn check_limited(&self, sheet: &[u8], log: &[u8], limit: u64) -> LimitedCheck {
        open(sheet, log, self.0).limited_check(limit)
    }
    fn show(&self, sheet: &[u8], log: &[u8]) -> Shown {
        open(sheet, log, self.0).shown()
    }
}
