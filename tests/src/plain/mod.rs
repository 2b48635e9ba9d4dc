//! The operations as a Rust programmer would write them by hand for speed: the yardstick of the benchmarks, nothing else.
pub mod antiscenario;
pub mod check;
pub mod columns;
pub mod impossible;
pub mod log;
pub mod maps;
pub mod search;
pub mod sheet;
pub mod tried;

use crate::outcome::*;
use antiscenario::Antiscenario;
use check::{Ending, Limited, Violation};
use log::Log;
use search::{Positions, Visitor, ENDED};
use sheet::Sheet;

const NUMBER: u32 = 31;
const BUFFER: u32 = 32;
const PLACES: u32 = 33;
const POSITIONS: u32 = 34;
const HOLDS: u32 = 0;
const VIOLATED: u32 = 100;
const STOPPED: u32 = 102;

/// A refusal's number and the offset and length of the line that it is about.
pub type Refused = (u32, usize, usize);

fn numbered(sheet: &Sheet, number: u64) -> Result<Antiscenario, u32> {
    if number < 1 || number > sheet.count {
        return Err(NUMBER);
    }
    Ok(Antiscenario::new(sheet, number))
}

pub fn read_log(text: &[u8]) -> Result<Log, u32> {
    Log::read(text).map_err(|(refusal, ..)| refusal)
}

pub fn read_sheet(text: &[u8]) -> Result<Sheet, u32> {
    Sheet::read(text).map_err(|(refusal, ..)| refusal)
}

/// With two points or more in the antecedent, lines of a set are asked for again and again.
fn draw_maps(sheet: &Sheet, log: &mut Log) {
    if sheet.antecedent_points() > 1 {
        log.draw_maps();
    }
}

pub fn write(sheet: &[u8], number: u64, buffer: &mut [u8]) -> Result<usize, u32> {
    let antiscenario = numbered(&read_sheet(sheet)?, number)?;
    antiscenario.write(buffer).ok_or(BUFFER)
}

pub fn impossible(sheet: &[u8], number: u64) -> Result<bool, u32> {
    Ok(impossible::is_impossible(numbered(&read_sheet(sheet)?, number)?.rows()))
}

/// How many places were filled, or none.
pub fn search(sheet: &[u8], log: &[u8], number: u64, places: &mut [u32]) -> Result<Option<usize>, u32> {
    search_by(sheet, log, number, places, &mut |_: &mut Positions| ENDED)
}

/// The same by a visitor that ends at the first matching.
pub fn search_by(
    sheet: &[u8],
    log: &[u8],
    number: u64,
    places: &mut [u32],
    visitor: &mut impl Visitor,
) -> Result<Option<usize>, u32> {
    let (sheet, mut log) = (read_sheet(sheet)?, read_log(log)?);
    let antiscenario = numbered(&sheet, number)?;
    if places.len() < antiscenario.point_count {
        return Err(PLACES);
    }
    draw_maps(&sheet, &mut log);
    Ok(search::smallest(&antiscenario, &log, places, visitor))
}

pub fn judge(sheet: &[u8], log: &[u8], number: u64, positions: &[u32], count: usize) -> Result<bool, u32> {
    let (sheet, log) = (read_sheet(sheet)?, read_log(log)?);
    let antiscenario = numbered(&sheet, number)?;
    if antiscenario.point_count != count {
        return Err(POSITIONS);
    }
    Ok(search::is_matching(&antiscenario, &log, &positions[..count]))
}

pub fn check(sheet: &[u8], log: &[u8]) -> Result<Option<Violation>, u32> {
    let (sheet, mut log) = (read_sheet(sheet)?, read_log(log)?);
    draw_maps(&sheet, &mut log);
    Ok(check::check(&sheet, &log))
}

pub fn check_limited(sheet: &[u8], log: &[u8], limit: u64) -> Result<Limited, u32> {
    let (sheet, mut log) = (read_sheet(sheet)?, read_log(log)?);
    draw_maps(&sheet, &mut log);
    Ok(check::check_limited(&sheet, &log, limit))
}

/// What the check writes: a violation, or nothing with this answer.
fn checked(result: Result<Violation, u32>) -> Checked {
    let mut positions = guarded(4, PATTERN_WORD);
    let mut rows = guarded(6, PATTERN_WORD);
    let (answer, points, consequents) = match result {
        Err(answer) => (answer, PATTERN_WORD, PATTERN_WORD),
        Ok(found) => {
            positions[GUARD..GUARD + found.points].copy_from_slice(&found.positions[..found.points]);
            rows[GUARD..GUARD + found.consequents].copy_from_slice(&found.rows[..found.consequents]);
            (VIOLATED, found.points as u32, found.consequents as u32)
        }
    };
    Checked { answer, positions, points, rows, consequents }
}

/// Plain Rust behind the C interface's operations, to be compared with the reference like the proved code.
pub struct Plain;

impl Side for Plain {
    fn check_number(&self, sheet: &[u8], log: &[u8]) -> u32 {
        check(sheet, log).map_or_else(|refusal| refusal, |violation| violation.map_or(HOLDS, |_| VIOLATED))
    }

    fn read_log(&self, text: &[u8]) -> LogRead {
        match read_log(text) {
            Ok(log) => LogRead { answer: 0, lines: log.n },
            Err(answer) => LogRead { answer, lines: PATTERN_WORD },
        }
    }

    fn read_sheet(&self, text: &[u8]) -> SheetRead {
        match read_sheet(text) {
            Ok(sheet) => SheetRead { answer: 0, count: sheet.count },
            Err(answer) => SheetRead { answer, count: PATTERN_COUNT },
        }
    }

    fn judge(&self, sheet: &[u8], log: &[u8], number: u64, table: &Table) -> Judged {
        match judge(sheet, log, number, &table.positions, table.count) {
            Ok(met) => Judged { answer: 0, met: met.into() },
            Err(answer) => Judged { answer, met: PATTERN },
        }
    }

    fn write(&self, sheet: &[u8], number: u64, room: usize) -> Written {
        let mut buffer = guarded(room, PATTERN);
        match write(sheet, number, &mut buffer[GUARD..GUARD + room]) {
            Ok(length) => Written { answer: 0, buffer, length },
            Err(answer) => Written { answer, buffer, length: PATTERN_SIZE },
        }
    }

    fn impossible(&self, sheet: &[u8], number: u64) -> Ruled {
        match impossible(sheet, number) {
            Ok(impossible) => Ruled { answer: 0, impossible: impossible.into() },
            Err(answer) => Ruled { answer, impossible: PATTERN },
        }
    }

    fn search(&self, sheet: &[u8], log: &[u8], number: u64, places: usize) -> Searched {
        let mut lent = guarded(places, PATTERN_WORD);
        match search(sheet, log, number, &mut lent[GUARD..GUARD + places]) {
            Ok(found) => Searched { answer: 0, places: lent, found: found.is_some().into() },
            Err(answer) => Searched { answer, places: lent, found: PATTERN },
        }
    }

    fn check(&self, sheet: &[u8], log: &[u8]) -> Checked {
        checked(check(sheet, log).and_then(|violation| violation.ok_or(HOLDS)))
    }

    fn check_limited(&self, sheet: &[u8], log: &[u8], limit: u64) -> LimitedCheck {
        match check_limited(sheet, log, limit) {
            Err(refusal) => LimitedCheck { checked: checked(Err(refusal)), looked: PATTERN_COUNT, after: PATTERN_COUNT },
            Ok(Limited { ending, looked, after }) => {
                let violation = match ending {
                    Ending::Holds => Err(HOLDS),
                    Ending::Violated(violation) => Ok(violation),
                    Ending::Stopped => Err(STOPPED),
                };
                LimitedCheck { checked: checked(violation), looked, after }
            }
        }
    }

    fn show(&self, sheet: &[u8], log: &[u8]) -> Shown {
        let shown = |(answer, offset, length): Refused, of_log: u8| Shown { answer, of_log, offset, length };
        match (Sheet::read(sheet), Log::read(log)) {
            (Err(refused), _) => shown(refused, 0),
            (_, Err(refused)) => shown(refused, 1),
            _ => shown((0, 0, 0), 0),
        }
    }
}
