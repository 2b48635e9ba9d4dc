//! The C interface as the bench host calls it, behind wrappers that lend patterned memory and give all of it back.
use crate::outcome::*;
use satskhubo_interface::lent::{self, Limited};
use satskhubo_interface::{Placement, MOST_ANTECEDENT_POINTS, MOST_CONSEQUENTS, MOST_LINE};

/// The proved code, called as the bench host calls it.
pub struct Host;

/// What stands between the guards.
fn lent_part<T>(guarded: &mut [T]) -> &mut [T] {
    let end = guarded.len() - GUARD;
    &mut guarded[GUARD..end]
}

fn lent_array<T, const COUNT: usize>(guarded: &mut [T]) -> &mut [T; COUNT] {
    lent_part(guarded).try_into().expect("as many as were guarded")
}

impl Side for Host {
    fn check_number(&self, sheet: &[u8], log: &[u8]) -> u32 {
        lent::check_number(sheet, log)
    }

    fn read_log(&self, log: &[u8]) -> LogRead {
        let mut lines = PATTERN_WORD;
        let answer = lent::read_log(log, &mut lines);
        LogRead { answer, lines }
    }

    fn read_sheet(&self, sheet: &[u8]) -> SheetRead {
        let mut count = PATTERN_COUNT;
        let answer = lent::read_sheet(sheet, &mut count);
        SheetRead { answer, count }
    }

    fn judge(&self, sheet: &[u8], log: &[u8], number: u64, table: &Table) -> Judged {
        let placement = Placement { positions: table.positions, count: table.count };
        // A byte, not a bool: the pattern is no bool and must stay when refused.
        let mut met = PATTERN;
        let answer = lent::judge(sheet, log, number, placement, &mut met);
        Judged { answer, met }
    }

    fn write(&self, sheet: &[u8], number: u64, room: usize) -> Written {
        let mut buffer = guarded(room, PATTERN);
        let mut length = PATTERN_SIZE;
        let answer = lent::write(sheet, number, lent_part(&mut buffer), &mut length);
        Written { answer, buffer, length }
    }

    fn impossible(&self, sheet: &[u8], number: u64) -> Ruled {
        let mut impossible = PATTERN;
        let answer = lent::impossible(sheet, number, &mut impossible);
        Ruled { answer, impossible }
    }

    fn search(&self, sheet: &[u8], log: &[u8], number: u64, places: usize) -> Searched {
        let mut lent = guarded(places, PATTERN_WORD);
        let mut found = PATTERN;
        let answer = lent::search(sheet, log, number, lent_part(&mut lent), &mut found);
        Searched { answer, places: lent, found }
    }

    fn check(&self, sheet: &[u8], log: &[u8]) -> Checked {
        let mut positions = guarded(MOST_ANTECEDENT_POINTS, PATTERN_WORD);
        let mut rows = guarded(MOST_CONSEQUENTS, PATTERN_WORD);
        let (mut points, mut consequents) = (PATTERN_WORD, PATTERN_WORD);
        let (front, rows_front) = (lent_array(&mut positions), lent_array(&mut rows));
        let answer = lent::check(sheet, log, front, &mut points, rows_front, &mut consequents);
        Checked { answer, positions, points, rows, consequents }
    }

    fn check_limited(&self, sheet: &[u8], log: &[u8], limit: u64) -> LimitedCheck {
        let mut positions = guarded(MOST_ANTECEDENT_POINTS, PATTERN_WORD);
        let mut rows = guarded(MOST_CONSEQUENTS, PATTERN_WORD);
        let (mut points, mut consequents) = (PATTERN_WORD, PATTERN_WORD);
        let (mut looked, mut after) = (PATTERN_COUNT, PATTERN_COUNT);
        let lent = Limited {
            positions: lent_array(&mut positions),
            points: &mut points,
            rows: lent_array(&mut rows),
            consequents: &mut consequents,
            looked: &mut looked,
            after: &mut after,
        };
        let answer = lent::check_limited(sheet, log, limit, lent);
        LimitedCheck { checked: Checked { answer, positions, points, rows, consequents }, looked, after }
    }

    fn show(&self, sheet: &[u8], log: &[u8]) -> Shown {
        let mut of_log = PATTERN;
        let (mut offset, mut length) = (PATTERN_SIZE, PATTERN_SIZE);
        let answer = lent::show(sheet, log, &mut of_log, &mut offset, &mut length);
        Shown { answer, of_log, offset, length }
    }

    fn line(&self, sheet: &[u8], log: &[u8]) -> LineShown {
        let mut line = guarded(MOST_LINE, PATTERN);
        let mut length = PATTERN_SIZE;
        let answer = lent::line(sheet, log, lent_array(&mut line), &mut length);
        LineShown { answer, line, length }
    }
}

impl Host {
    pub fn read_field(&self, text: &[u8], width: usize) -> FieldRead {
        let mut value = PATTERN_WORD;
        let answer = lent::read_field(text, width, &mut value);
        FieldRead { answer, value }
    }

    pub fn write_field(&self, room: usize, at: usize, width: usize, value: u32) -> FieldWritten {
        let mut buffer = guarded(room, PATTERN);
        let answer = lent::write_field(lent_part(&mut buffer), at, width, value);
        FieldWritten { answer, buffer }
    }

    /// The search alone, in memory the caller keeps, for the benchmarks.
    pub fn search_into(&self, sheet: &[u8], log: &[u8], number: u64, places: &mut [u32]) -> (u32, bool) {
        let mut found = 0;
        let answer = lent::search(sheet, log, number, places, &mut found);
        (answer, found == 1)
    }

    /// The writer alone, in memory the caller keeps, for the benchmarks.
    pub fn write_into(&self, sheet: &[u8], number: u64, buffer: &mut [u8]) -> (u32, usize) {
        let mut length = 0;
        let answer = lent::write(sheet, number, buffer, &mut length);
        (answer, length)
    }
}
