//! Ordinary rules, about two or three scans, on logs of any length: with NEXT, LAST or FREE, whose line or event is far away or
//! nowhere; with a consequent that speaks of some of the scans alone; and with antecedents that leave a scan few places.
use super::logs::{log_of, uniform};
use super::sheets::sheet_of;
use crate::reference::log::Log;
use crate::reference::sheet::kind::*;

/// Sets of one event.
const INJECTION: u32 = 1 << 1;
const CORRECTION: u32 = 1 << 2;
const SCAN: u32 = 1 << 3;

/// Half a second, in ticks.
const SOON: u32 = 500;

pub struct Rule {
    /// As tables have it, and as a command line has it.
    pub name: &'static str,
    pub word: &'static str,
    pub sheet: Vec<u8>,
    pub log: fn(u32) -> Log,
    /// Whether the logs keep it.
    pub holds: bool,
    /// So many numbers, from 1 on, of which the search is measured beside the check; none of them matches.
    pub searched: u64,
}

/// So many scans, further rows of the antecedent, and one consequent.
fn scans(points: u32, antecedent: &[[u32; 6]], consequent: &[[u32; 6]]) -> Vec<u8> {
    let scans: Vec<[u32; 6]> = (1..=points).map(|p| [0, POINT, p, 0, SCAN, 0]).collect();
    sheet_of(1, &[&scans[..], antecedent, consequent].concat())
}

/// The point has a scan: what the antecedent says already, so that the consequent extends everywhere.
fn is_scan(point: u32) -> [u32; 6] {
    [1, EVENT, point, 0, SCAN, 0]
}

/// Scan p comes before scan q.
fn in_order(p: u32, q: u32) -> [u32; 6] {
    [0, BEFORE, p, q, 0, 0]
}

/// No correction between two scans, in the antecedent.
fn uncorrected(consequent: [u32; 6]) -> Vec<u8> {
    scans(2, &[in_order(1, 2), [0, FREE, 1, 2, CORRECTION, 0]], &[consequent])
}

/// Three scans, each soon after the one before.
fn soon_after_each_other() -> Vec<u8> {
    let soon = |p, q| [0, WITHIN, p, q, 0, SOON];
    scans(3, &[in_order(1, 2), in_order(2, 3), soon(1, 2), soon(2, 3)], &[is_scan(3)])
}

fn all_scans(n: u32) -> Log {
    uniform(n, 3)
}

/// Scans, but for one line, if there is such a line.
pub fn scans_but_one(n: u32, line: u32, event: u32) -> Log {
    log_of(&(1..=n).map(|at| (10 * at, if at == line { event } else { 3 })).collect::<Vec<_>>())
}

fn correction_first(n: u32) -> Log {
    scans_but_one(n, 1, 2)
}

fn correction_in_the_middle(n: u32) -> Log {
    scans_but_one(n, n / 2, 2)
}

fn correction_last(n: u32) -> Log {
    scans_but_one(n, n, 2)
}

/// Two points with set 8 and a consequent NEXT 11 after 1, which the last scan breaks; and the same with a consequent that speaks of both
/// points, so that each of n^2 matchings is looked at.
pub fn standing_measures() -> [Rule; 2] {
    let rule =
        |name, word, consequent, holds| Rule { name, word, sheet: scans(2, &[], consequent), log: all_scans, holds, searched: 0 };
    [
        rule("standing measure", "standing", &[[1, NEXT, 11, 1, SCAN, 0]], false),
        rule("second standing measure", "standing-both", &[[1, LATER, 11, 1, 2, 0], is_scan(11)], true),
    ]
}

pub fn rules() -> Vec<Rule> {
    let rule = |name, word, sheet, log| Rule { name, word, sheet, log, holds: true, searched: 0 };
    let searched = |rule| Rule { searched: 2, ..rule };
    let (one, two) = ([in_order(1, 2)], [in_order(1, 2), in_order(2, 3)]);
    let free = [[1, FREE, 1, 2, INJECTION, 0]];
    let next = [[1, NEXT, 11, 1, CORRECTION, 0]];
    let last = |q| scans(2, &[], &[[1, LAST, 11, q, CORRECTION, 0]]);
    vec![
        searched(rule("FREE 1 2", "free", scans(2, &[], &free), all_scans)),
        searched(rule("FREE 1 2 in order", "free-in-order", scans(2, &one, &free), all_scans)),
        rule("NEXT 11 after 1, far", "next", scans(2, &[], &next), correction_last),
        rule("LAST 11 before 1, far", "last", last(1), correction_first),
        rule("LAST 11 before 2, far", "last-of-2", last(2), correction_first),
        rule("three in order, about 1", "three", scans(3, &two, &[is_scan(1)]), all_scans),
        rule("FREE antecedent, about 1", "uncorrected", uncorrected(is_scan(1)), correction_in_the_middle),
        rule("FREE antecedent, about 2", "uncorrected-2", uncorrected(is_scan(2)), correction_in_the_middle),
        rule("three WITHIN 0 500", "soon", soon_after_each_other(), all_scans),
    ]
}

/// The rule of this word.
pub fn rule_of(word: &str) -> Option<Rule> {
    rules().into_iter().chain(standing_measures()).find(|rule| rule.word == word)
}
