//! The calls of the C interface, made safe: each lends the caller's memory for the time of the call and gives the bare number.
//! What C has as a bool is lent as a byte, so that any pattern may stand there before.
use crate::*;

pub fn check_number(sheet: &[u8], log: &[u8]) -> u32 {
    unsafe { crate::check(sheet.as_ptr(), sheet.len(), log.as_ptr(), log.len()) }
}

pub fn read_log(log: &[u8], lines: &mut u32) -> u32 {
    unsafe { satskhubo_read_log(log.as_ptr(), log.len(), lines) }
}

pub fn read_sheet(sheet: &[u8], count: &mut u64) -> u32 {
    unsafe { satskhubo_read_sheet(sheet.as_ptr(), sheet.len(), count) }
}

pub fn judge(sheet: &[u8], log: &[u8], number: u64, placement: Placement, met: &mut u8) -> u32 {
    let met = (met as *mut u8).cast::<bool>();
    unsafe { satskhubo_judge(sheet.as_ptr(), sheet.len(), log.as_ptr(), log.len(), number, placement, met) }
}

pub fn write(sheet: &[u8], number: u64, buffer: &mut [u8], length: &mut usize) -> u32 {
    unsafe { satskhubo_write(sheet.as_ptr(), sheet.len(), number, buffer.as_mut_ptr(), buffer.len(), length) }
}

pub fn impossible(sheet: &[u8], number: u64, impossible: &mut u8) -> u32 {
    let impossible = (impossible as *mut u8).cast::<bool>();
    unsafe { satskhubo_impossible(sheet.as_ptr(), sheet.len(), number, impossible) }
}

pub fn search(sheet: &[u8], log: &[u8], number: u64, places: &mut [u32], found: &mut u8) -> u32 {
    let found = (found as *mut u8).cast::<bool>();
    let (front, room) = (places.as_mut_ptr(), places.len());
    unsafe { satskhubo_search(sheet.as_ptr(), sheet.len(), log.as_ptr(), log.len(), number, front, room, found) }
}

pub fn check(
    sheet: &[u8],
    log: &[u8],
    positions: &mut [u32; MOST_ANTECEDENT_POINTS],
    points: &mut u32,
    rows: &mut [u32; MOST_CONSEQUENTS],
    consequents: &mut u32,
) -> u32 {
    let (positions, rows) = (positions.as_mut_ptr(), rows.as_mut_ptr());
    unsafe { satskhubo_check(sheet.as_ptr(), sheet.len(), log.as_ptr(), log.len(), positions, points, rows, consequents) }
}

/// What is lent to the check with a limit.
pub struct Limited<'a> {
    pub positions: &'a mut [u32; MOST_ANTECEDENT_POINTS],
    pub points: &'a mut u32,
    pub rows: &'a mut [u32; MOST_CONSEQUENTS],
    pub consequents: &'a mut u32,
    pub looked: &'a mut u64,
    pub after: &'a mut u64,
}

pub fn check_limited(sheet: &[u8], log: &[u8], limit: u64, lent: Limited) -> u32 {
    let Limited { positions, points, rows, consequents, looked, after } = lent;
    let (positions, rows) = (positions.as_mut_ptr(), rows.as_mut_ptr());
    let (text, length, lines, size) = (sheet.as_ptr(), sheet.len(), log.as_ptr(), log.len());
    unsafe { satskhubo_check_limited(text, length, lines, size, limit, positions, points, rows, consequents, looked, after) }
}

pub fn show(sheet: &[u8], log: &[u8], of_log: &mut u8, offset: &mut usize, length: &mut usize) -> u32 {
    let of_log = (of_log as *mut u8).cast::<bool>();
    unsafe { satskhubo_show(sheet.as_ptr(), sheet.len(), log.as_ptr(), log.len(), of_log, offset, length) }
}

pub fn line(sheet: &[u8], log: &[u8], line: &mut [u8; MOST_LINE], length: &mut usize) -> u32 {
    unsafe { satskhubo_line(sheet.as_ptr(), sheet.len(), log.as_ptr(), log.len(), line.as_mut_ptr(), length) }
}

pub fn read_field(text: &[u8], width: usize, value: &mut u32) -> u32 {
    unsafe { satskhubo_read_field(text.as_ptr(), text.len(), width, value) }
}

pub fn write_field(buffer: &mut [u8], at: usize, width: usize, value: u32) -> u32 {
    unsafe { satskhubo_write_field(buffer.as_mut_ptr(), buffer.len(), at, width, value) }
}
