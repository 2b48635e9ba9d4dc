//! Document 02, A2: searches that take long unless what cannot help is given up, on logs of any length.
use super::logs::{mixed, uniform};
use super::sheets::{sheet_of, sheet_s};
use crate::reference::blunder::Blunder;
use crate::reference::log::Log;
use crate::reference::sheet::{self, kind::*, Row, CLOSE, START};
use std::ops::RangeInclusive;

/// Sets of one event; that of alarms is in no log here.
const INJECTION: u32 = 1 << 1;
const CORRECTION: u32 = 1 << 2;
const SCAN: u32 = 1 << 3;
const ALARM: u32 = 1 << 7;

/// Ticks further apart than any two lines here.
const FAR: u32 = 100_000;

/// Some numbers of a sheet, and logs on which most of them match nothing.
pub struct Case {
    /// As tables have it, and as a command line has it.
    pub name: &'static str,
    pub word: &'static str,
    pub sheet: Vec<u8>,
    pub numbers: RangeInclusive<u64>,
    pub log: fn(u32) -> Log,
}

/// So many scans in the antecedent, and further rows.
fn scans_and(points: u32, k: u32, rows: &[[u32; 6]]) -> Vec<u8> {
    let scans: Vec<[u32; 6]> = (1..=points).map(|p| [0, POINT, p, 0, SCAN, 0]).collect();
    sheet_of(k, &[&scans[..], rows].concat())
}

/// Document 02's timed case has points 1 and 2.
fn timed(p: u32, q: u32) -> Vec<u8> {
    scans_and(4, 0, &[[0, BEFORE, p, q, 0, 0], [0, BEFORE, q, p, 0, 0]])
}

/// The denial, OUTSIDE, speaks of two antecedent points alone.
fn denied(p: u32, q: u32) -> Vec<u8> {
    scans_and(4, 1, &[[1, WITHIN, p, q, 0, FAR]])
}

/// No scan comes before a scan, or else no alarm.
fn two_free() -> Vec<u8> {
    scans_and(1, 2, &[[1, FREE, START, 1, SCAN, 0], [2, FREE, START, 1, ALARM, 0]])
}

/// No scan comes before a scan, or none after it, or else no alarm up to the next: number 2 denies that.
fn three_free() -> Vec<u8> {
    let alarm = [[3, NEXT, 31, 1, SCAN, 0], [3, FREE, 1, 31, ALARM, 0]];
    scans_and(1, 3, &[&[[1, FREE, START, 1, SCAN, 0], [2, FREE, 1, CLOSE, SCAN, 0]], &alarm[..]].concat())
}

/// Sheet S with points 2 and 3, of which its consequent does not speak.
fn further_scans() -> Vec<u8> {
    let s = sheet::read(&sheet_s(), Blunder::None).expect("S is accepted");
    let further = [2, 3].map(|p| Row::new(0, POINT, p, 0, SCAN, 0));
    sheet::text(1, &[&s.section(0)[..], &further, &s.section(1)].concat())
}

/// An injection and a scan after it, and six consequents of four denials each. Those by an event after the scan and before the injection have no
/// place: 2^6 of the 4^6 numbers have none of these.
fn all_free() -> Vec<u8> {
    let antecedent = [[0, POINT, 1, 0, INJECTION, 0], [0, POINT, 2, 0, SCAN, 0], [0, BEFORE, 1, 2, 0, 0]];
    let consequents = (1..=6).flat_map(|section| [SCAN, CORRECTION].map(|set| [section, FREE, 1, 2, set, 0]));
    sheet_of(6, &antecedent.into_iter().chain(consequents).collect::<Vec<_>>())
}

fn scans(n: u32) -> Log {
    uniform(n, 3)
}

/// Corrections and scans behind one injection.
fn injected(n: u32) -> Log {
    let mut log = mixed(n);
    log.lines[0].event = 1;
    log
}

pub fn cases() -> Vec<Case> {
    let case = |name, word, sheet, numbers, log| Case { name, word, sheet, numbers, log };
    vec![
        case("timed case: none", "timed", timed(1, 2), 1..=1, scans),
        case("timed case on points 3 and 4", "timed-last", timed(3, 4), 1..=1, scans),
        case("denied on points 1 and 2", "denied", denied(1, 2), 1..=1, scans),
        case("denied on points 3 and 4", "denied-last", denied(3, 4), 1..=1, scans),
        case("two FREE, one without a place", "two-free", two_free(), 1..=1, scans),
        case("three FREE, one without a place", "three-free", three_free(), 2..=2, scans),
        case("S and two further scans", "further-scans", further_scans(), 1..=4, mixed),
        case("FREE rows, all of N = 4,096", "all-free", all_free(), 1..=4096, injected),
    ]
}

/// The case of this word.
pub fn case_of(word: &str) -> Option<Case> {
    cases().into_iter().find(|case| case.word == word)
}
