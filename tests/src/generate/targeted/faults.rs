//! Texts with several faults at once, and the one that document 01 refuses first.
use super::{log_first, log_line, sheet_first, sheet_of, sheet_row, Case, LINE, LOG_FIRST, ROW, SHEET_FIRST};
use crate::generate::logs::log_of;

/// Where a fault of a row or a line is put.
#[derive(Clone, Copy, Debug, PartialEq, Eq)]
pub enum Place {
    Early,
    Late,
}

pub const PLACES: [Place; 2] = [Place::Early, Place::Late];

/// A refusal that comes before every row or line, at one, or after all.
#[derive(Clone, Copy, PartialEq, Eq, PartialOrd, Ord)]
enum Turn {
    First(u32),
    At(usize, u32),
    Last(u32),
}

const EARLY_ROW: usize = 10;

/// A sheet with these faults, each (refusal, place), and the refusal and part due.
pub fn faulty_sheet(faults: &[(u32, Place)]) -> Case {
    let has = |refusal, place| faults.contains(&(refusal, place));
    let too_long = |place| usize::from(has(10, place));
    let same = |section| [section, 8, 1, 2, 0, 0];
    let mut rows = vec![[0, 1, 1, 0, 8, 0], [0, 1, 2, 0, 8, 0]];
    rows.extend(vec![same(0); 30 + too_long(Place::Early)]);
    rows.extend(vec![same(1); 2]);
    let late_begin = rows.len();
    rows.extend(vec![same(2); 24 + too_long(Place::Late)]);
    rows.extend(vec![same(3); 4]);
    let mut text = sheet_of(3, &rows);
    let mut turns = Vec::new();
    for &(refusal, place) in faults {
        let row = match (refusal, place) {
            (10, Place::Early) => 32,
            (10, Place::Late) => late_begin + 24,
            (_, Place::Early) => EARLY_ROW,
            (_, Place::Late) => late_begin + 3,
        };
        put_sheet_fault(&mut text, refusal, SHEET_FIRST + ROW * row);
        turns.push(match refusal {
            1..=3 => Turn::First(refusal),
            _ => Turn::At(row, refusal),
        });
    }
    let name = format!("sheet with {faults:?}");
    match turns.into_iter().min().expect("a fault") {
        Turn::First(refusal) | Turn::Last(refusal) => sheet_first(&name, text, refusal),
        Turn::At(row, refusal) => sheet_row(&name, text, refusal, row + 1),
    }
}

fn put_sheet_fault(text: &mut Vec<u8>, refusal: u32, row: usize) {
    match refusal {
        1 => text[6] = b' ',
        2 => text[..3].copy_from_slice(b"  7"),
        3 => text.push(b'\n'),
        4 => text[row + 34] = b' ',
        5 => text[row..row + 3].copy_from_slice(b"  9"),
        6 => text[row + 3..row + 6].copy_from_slice(b" 13"),
        7 => text[row + 6..row + 9].copy_from_slice(b" 98"),
        8 => text[row + 9..row + 12].copy_from_slice(b" 97"),
        9 => text[row + 33] = b'1',
        _ => {}
    }
}

/// A log with these faults, each (refusal, place), and the refusal and part due.
pub fn faulty_log(faults: &[(u32, Place)]) -> Case {
    let mut log = log_of(&[(10, 1), (20, 2), (30, 3), (40, 1), (50, 2), (60, 3)]);
    log.start = 5;
    let mut text = log.text();
    let mut turns = Vec::new();
    for &(refusal, place) in faults {
        let line = if place == Place::Early { 1 } else { 4 };
        put_log_fault(&mut text, refusal, LOG_FIRST + LINE * line);
        turns.push(match refusal {
            21..=23 => Turn::First(refusal),
            27 => Turn::Last(refusal),
            _ => Turn::At(line, refusal),
        });
    }
    let name = format!("log with {faults:?}");
    match turns.into_iter().min().expect("a fault") {
        Turn::First(refusal) | Turn::Last(refusal) => log_first(&name, text, refusal),
        Turn::At(line, refusal) => log_line(&name, text, refusal, line + 1),
    }
}

fn put_log_fault(text: &mut Vec<u8>, refusal: u32, line: usize) {
    match refusal {
        21 => text[27] = b' ',
        22 => text[..5].copy_from_slice(b" 4001"),
        23 => text.push(b'\n'),
        24 => text[line + 14] = b' ',
        25 => text[line + 11..line + 14].copy_from_slice(b" 64"),
        26 => text[line..line + 11].copy_from_slice(b"          1"),
        _ => text[16..27].copy_from_slice(b"          7"),
    }
}
