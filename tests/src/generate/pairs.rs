//! The pair of a seed.
use super::{damage, joined, logs, rearranged, sheets, Pair};
use crate::random::Random;
use crate::reference::blunder::Blunder;
use crate::reference::far_end::far_end;
use crate::reference::log::Log;
use crate::reference::operations::{verdict, Verdict};
use crate::reference::sheet::{self, is_end, kind::*, Row, Sheet};
use crate::reference::weeded;

const MOST_TRIES: usize = 40;

/// What a sheet is wanted to say of the log: most that are made at random say nothing of it.
#[derive(Clone, Copy)]
enum Wanted {
    Anything,
    AntecedentMatched,
    HoldsByConsequents,
    /// Document 02, A8.
    ShortDenial,
    /// By a matching of the antecedent that is not its smallest.
    ViolatedLater,
}

fn any_wanted(random: &mut Random) -> Wanted {
    match random.below(7) {
        0 => Wanted::Anything,
        1..=3 => Wanted::AntecedentMatched,
        4 | 5 => Wanted::HoldsByConsequents,
        _ => Wanted::ShortDenial,
    }
}

/// A denial of NEXT or LAST that ends at an antecedent point.
pub fn has_short_denial(sheet: &Sheet) -> bool {
    let mut missing = sheet.rows.iter().filter(|row| [NEXT, LAST].contains(&row.kind));
    missing.any(|row| !is_end(far_end(sheet, row)))
}

fn is_as_wanted(wanted: Wanted, sheet: &Sheet, log: &Log) -> bool {
    let matched = || weeded::smallest(&sheet.section(0), log).is_some();
    match wanted {
        Wanted::Anything => true,
        Wanted::AntecedentMatched => sheet.count > 0 && matched(),
        Wanted::HoldsByConsequents => sheet.count > 0 && matched() && verdict(sheet, log) == Verdict::Holds,
        Wanted::ShortDenial => sheet.count > 0 && has_short_denial(sheet) && matched(),
        Wanted::ViolatedLater => sheet.count > 0 && is_violated_later(sheet, log),
    }
}

/// The antecedent's smallest matching extends to a consequent, and another one to none.
pub fn is_violated_later(sheet: &Sheet, log: &Log) -> bool {
    match verdict(sheet, log) {
        Verdict::Holds => false,
        Verdict::Violated { placement, .. } => weeded::smallest(&sheet.section(0), log) != Some(placement),
    }
}

/// A row of POINT whose set has the event of some line.
fn with_a_place(random: &mut Random, row: &Row, log: &Log) -> Row {
    let line = log.lines[random.below(log.lines.len())];
    Row::of_set(row.section, POINT, row.p, 0, row.set() | 1 << line.event)
}

/// A random sheet, half of its limits at distances of the log.
fn sheet_at_limits(random: &mut Random, shape: &sheets::Shape, log: &Log) -> Vec<u8> {
    let (k, mut rows) = sheets::random_rows(random, shape);
    for row in rows.iter_mut().filter(|row| [WITHIN, OUTSIDE].contains(&row.kind)) {
        if random.one_in(2) {
            (row.a, row.b) = sheets::limits_at(random, log);
        }
    }
    if shape.narrowing {
        rows.iter_mut().filter(|row| row.kind == POINT).for_each(|row| *row = with_a_place(random, row, log));
    }
    sheet::text(k, &rows)
}

/// The first of some random sheets that is as wanted, or else the last.
fn first_wanted(random: &mut Random, wanted: Wanted, log: &Log, sheet: impl Fn(&mut Random) -> Vec<u8>) -> Vec<u8> {
    let mut text = sheet(random);
    for _ in 0..MOST_TRIES {
        if sheet::read(&text, Blunder::None).is_ok_and(|sheet| is_as_wanted(wanted, &sheet, log)) {
            break;
        }
        text = sheet(random);
    }
    text
}

fn sheet_for(random: &mut Random, shape: &sheets::Shape, wanted: Wanted, log: &Log) -> Vec<u8> {
    first_wanted(random, wanted, log, |random| sheet_at_limits(random, shape, log))
}

/// An accepted sheet, mostly small, and a log.
fn accepted(random: &mut Random) -> (Vec<u8>, Log) {
    let (shape, most_lines) = match random.below(10) {
        0..=5 => (&sheets::SMALL, 3),
        6..=8 => (&sheets::MIDDLE, 5),
        _ => (&sheets::LARGE, 6),
    };
    let wanted = any_wanted(random);
    let log = logs::random(random, most_lines);
    (sheet_for(random, shape, wanted, &log), log)
}

/// Mostly small and accepted, some larger, some with a long section, some at an edge, some damaged.
pub fn pair_of(seed: u64) -> Pair {
    let mut random = Random::new(seed);
    let (mut sheet, log) = accepted(&mut random);
    let mut log = log.text();
    if random.one_in(40) {
        damage::repeat_row(&mut random, &mut sheet);
    }
    if random.one_in(12) {
        damage::edge(&mut random, &mut sheet, &damage::SHEET);
    }
    if random.one_in(12) {
        damage::edge(&mut random, &mut log, &damage::LOG);
    }
    if random.one_in(6) {
        damaged(&mut random, &mut sheet, &damage::SHEET);
    }
    if random.one_in(8) {
        damaged(&mut random, &mut log, &damage::LOG);
    }
    Pair { sheet, log }
}

/// Document 02, A1: an accepted sheet and a log of an older board, with events and sets of the lower half alone.
pub fn older_pair_of(seed: u64) -> Pair {
    let mut random = Random::new(seed);
    let (text, mut log) = accepted(&mut random);
    let Sheet { k, rows, .. } = sheet::read(&text, Blunder::None).expect("a random sheet is accepted");
    let older = |row: &Row| match row.kind {
        POINT | NEXT | LAST | FREE | EVENT => Row { a: row.a | row.b, b: 0, ..*row },
        _ => *row,
    };
    log.lines.iter_mut().for_each(|line| line.event %= 32);
    Pair { sheet: sheet::text(k, &rows.iter().map(older).collect::<Vec<_>>()), log: log.text() }
}

/// An accepted sheet that mostly has far more than 4,096 antiscenarios, and a short log: rows at random, which a log seldom meets, or the rows of
/// a smaller sheet over and over.
pub fn large_pair_of(seed: u64) -> Pair {
    let mut random = Random::new(seed);
    let wanted = any_wanted(&mut random);
    let log = logs::random(&mut random, 5);
    if random.one_in(3) {
        return Pair { sheet: sheet_for(&mut random, &sheets::MANY, wanted, &log), log: log.text() };
    }
    let shape = random.pick(&[&sheets::FEW_ROWS, &sheets::MIDDLE, &sheets::LARGE]);
    let smaller = sheet_for(&mut random, shape, wanted, &log);
    let Sheet { k, rows, .. } = sheet::read(&smaller, Blunder::None).expect("a random sheet is accepted");
    let rows = sheets::filled(&mut random, &rows);
    let (k, rows) = if random.one_in(3) { sheets::widened(&mut random, k, &rows) } else { (k, rows) };
    Pair { sheet: sheet::text(k, &rows), log: log.text() }
}

/// Document 02, A8: an accepted sheet with chains of BEFORE rows, and a short log.
pub fn chained_pair_of(seed: u64) -> Pair {
    let mut random = Random::new(seed);
    let wanted = if random.one_in(2) { Wanted::ShortDenial } else { any_wanted(&mut random) };
    let log = logs::random(&mut random, 6);
    Pair { sheet: sheet_for(&mut random, &sheets::CHAINS, wanted, &log), log: log.text() }
}

/// Document 02, A6: an accepted sheet with points joined, set apart and ordered, half of them such that the log has a matching of the antecedent.
pub fn joined_pair_of(seed: u64) -> Pair {
    let mut random = Random::new(seed);
    let log = logs::random(&mut random, 4);
    let wanted = random.pick(&[Wanted::Anything, Wanted::AntecedentMatched]);
    let rows = (0..MOST_TRIES).map(|_| joined::random_rows(&mut random));
    let mut sheets = rows.map(|(k, rows)| sheet::text(k, &rows));
    let is_wanted = |text: &Vec<u8>| sheet::read(text, Blunder::None).is_ok_and(|sheet| is_as_wanted(wanted, &sheet, &log));
    let first = sheets.next().expect("a sheet");
    let sheet = [first.clone()].into_iter().chain(sheets).find(is_wanted).unwrap_or(first);
    Pair { sheet, log: log.text() }
}

/// Document 02, A11: an accepted sheet of several consequents, whose sets and limits are often numbers of points, and a short log.
pub fn rearranged_pair_of(seed: u64) -> Pair {
    let mut random = Random::new(seed);
    let log = rearranged::random_log(&mut random, 4);
    let wanted = match random.below(6) {
        0 => Wanted::Anything,
        1 | 2 => Wanted::AntecedentMatched,
        3 => Wanted::ShortDenial,
        _ => Wanted::ViolatedLater,
    };
    Pair { sheet: first_wanted(&mut random, wanted, &log, rearranged::random_sheet), log: log.text() }
}

/// Document 02, A2: an accepted sheet whose consequents each speak of few of the antecedent's points, and a short log.
pub fn independent_pair_of(seed: u64) -> Pair {
    let mut random = Random::new(seed);
    let log = logs::random(&mut random, 6);
    Pair { sheet: sheet_for(&mut random, &sheets::INDEPENDENT, Wanted::AntecedentMatched, &log), log: log.text() }
}

/// An accepted sheet of an ordinary rule, and a short log that mostly does not keep it, which the first matching does not show.
pub fn rule_pair_of(seed: u64) -> Pair {
    let mut random = Random::new(seed);
    let n = random.from_to(2, 7);
    let log = logs::of_length(&mut random, n);
    let wanted = match random.below(6) {
        0 => Wanted::AntecedentMatched,
        1 | 2 => Wanted::HoldsByConsequents,
        _ => Wanted::ViolatedLater,
    };
    Pair { sheet: sheet_for(&mut random, &sheets::RULES, wanted, &log), log: log.text() }
}

/// The same with a log of one word of 64 lines or two.
pub fn longer_rule_pair_of(seed: u64) -> Pair {
    let mut random = Random::new(seed);
    let n = random.pick(&[62, 63, 64, 65, 66, 126, 127, 128, 129, 130]);
    let log = logs::with_events_at_borders(&mut random, n);
    Pair { sheet: sheet_for(&mut random, &sheets::TWO_POINT_RULES, Wanted::AntecedentMatched, &log), log: log.text() }
}

/// An accepted sheet of few antiscenarios, and a log of hundreds or thousands of lines.
pub fn long_pair_of(seed: u64) -> Pair {
    let mut random = Random::new(seed);
    let (shape, most_lines) = match random.below(4) {
        0 => (&sheets::TWO_POINTS, 600),
        1 => (&sheets::TWO_CONSEQUENTS, 600),
        _ => (&sheets::NARROW, 4000),
    };
    let n = if random.one_in(4) { most_lines } else { random.from_to(500, most_lines) };
    let log = if random.one_in(2) { logs::of_length(&mut random, n) } else { logs::with_rare_events(&mut random, n) };
    let wanted = any_wanted(&mut random);
    Pair { sheet: sheet_for(&mut random, shape, wanted, &log), log: log.text() }
}

fn damaged(random: &mut Random, text: &mut Vec<u8>, columns: &damage::Columns) {
    for _ in 0..random.from_to(1, 3) {
        damage::damage(random, text, columns);
    }
}
