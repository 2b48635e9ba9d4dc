//! Ordinary rules, about two or three scans: on 4,000 lines, where they would take seconds or minutes unless lines of a set are found by maps,
//! matchings that agree are skipped and places are narrowed; beside the reference on short logs; and at random.
mod common;
use common::answers::{found_by_both, verdict_of_both, Violation};
use common::{tallied, tell, tell_tally};
use satskhubo_tests::compare::{compare, compare_findings, compare_once, Tally};
use satskhubo_tests::generate::logs::log_of;
use satskhubo_tests::generate::pairs::rule_pair_of;
use satskhubo_tests::generate::rules::{rule_of, rules, scans_but_one, standing_measures, Rule};
use satskhubo_tests::generate::sheets::sheet_of;
use satskhubo_tests::generate::Pair;
use satskhubo_tests::host::Host;
use satskhubo_tests::plain;
use satskhubo_tests::reference::blunder::Blunder;
use satskhubo_tests::reference::log::Log;
use satskhubo_tests::reference::sheet::{self, kind::*, Row, Sheet, START};

const LONG: u32 = 4000;
/// So many lines can be compared with the reference.
const SHORT: [u32; 7] = [1, 2, 3, 4, 5, 8, 15];
/// The ticks between two lines: as in the long logs, and so that the fourth line after one is just not surely within 500.
const STEPS: [u32; 2] = [10, 125];
/// A scan of another sort, which points may have and consequents do not take for a scan.
const OTHER: u32 = 4;

fn rule(word: &str) -> Rule {
    rule_of(word).expect("a rule")
}

/// The rule whose points may have scans of either sort.
fn of_either_sort(sheet: &[u8]) -> Vec<u8> {
    let Sheet { k, rows, .. } = sheet::read(sheet, Blunder::None).expect("a rule is accepted");
    let either = |row: &Row| if row.kind == POINT { Row { a: row.a | 1 << OTHER, ..*row } } else { *row };
    sheet::text(k, &rows.iter().map(either).collect::<Vec<_>>())
}

/// A log with another event in this line.
fn with(mut log: Log, line: u32, event: u32) -> Log {
    log.lines[line as usize - 1].event = event;
    log
}

/// The first scan just before the only correction, and scans behind it.
fn scan_before_correction(n: u32, correction: u32) -> Log {
    let event = |line| if line == correction { 2 } else { 3 * u32::from(line + 1 >= correction) };
    log_of(&(1..=n).map(|line| (10 * line, event(line))).collect::<Vec<_>>())
}

/// Scans up to a line, and corrections behind it.
fn scans_up_to(n: u32, line: u32) -> Log {
    log_of(&(1..=n).map(|at| (10 * at, if at <= line { 3 } else { 2 })).collect::<Vec<_>>())
}

/// What a rule says of a log: the violation, and what its numbers match, from 1 on; those that are not here match nothing.
struct Case {
    log: Log,
    violation: Option<Violation>,
    found: Vec<Vec<u32>>,
}

impl Case {
    fn kept(log: Log) -> Case {
        Case { log, violation: None, found: vec![] }
    }

    /// By a row, at a placement, which is what number 1 matches.
    fn broken(log: Log, row: u32, placement: &[u32]) -> Case {
        Case { log, violation: Some((placement.to_vec(), vec![row])), found: vec![placement.to_vec()] }
    }

    fn finding(self, found: &[[u32; 3]]) -> Case {
        Case { found: found.iter().map(|positions| positions.to_vec()).collect(), ..self }
    }

    /// By the C interface and by plain Rust alike; with the number of answers.
    fn is_answered(&self, word: &str) -> u64 {
        let either = self.log.lines.iter().any(|line| line.event == OTHER);
        let sheet = if either { of_either_sort(&rule(word).sheet) } else { rule(word).sheet };
        let count = plain::read_sheet(&sheet).expect("a rule is accepted").count;
        let pair = Pair { sheet, log: self.log.text() };
        assert_eq!(verdict_of_both(&pair), self.violation, "{word}");
        for number in 1..=count {
            let found = self.found.get(number as usize - 1).cloned();
            assert_eq!(found_by_both(&pair, number), found, "{word}, number {number}");
        }
        1 + count
    }
}

/// One line breaks the rule, with the scans before it or right behind it.
fn broken(word: &str, n: u32, line: u32) -> Case {
    let (middle, log) = (n / 2, (rule(word).log)(n));
    match word {
        "free" => {
            let found = [[1, line, line - 1], [line, 1, line - 1]];
            Case::broken(with(log, line - 1, 1), 3, &[1, line]).finding(&found)
        }
        "free-in-order" => Case::broken(with(log, line - 1, 1), 4, &[1, line]).finding(&[[1, line, line - 1]]),
        "next" => Case::broken(scans_but_one(n, line - 1, 2), 3, &[line, 1]),
        "last" | "last-of-2" => Case::broken(scan_before_correction(n, line), 3, &[line - 1, line - 1]),
        "three" => Case::broken(with(log, line - 2, OTHER), 6, &[line - 2, line - 1, line]),
        "uncorrected" => Case::broken(with(log, line - 1, OTHER), 5, &[line - 1, line]),
        "uncorrected-2" => Case::broken(with(log, line, OTHER), 5, &[if line > middle { middle + 1 } else { 1 }, line]),
        // 49 lines on, the ticks differ by 490, and 50 on by 500, which is not surely within 500.
        "soon" => Case::broken(with(log, line, OTHER), 8, &[line - 98, line - 49, line]),
        "standing" => Case::broken(scans_up_to(n, line), 3, &[line, 1]),
        "standing-both" => Case::broken(with(log, line, OTHER), 4, &[1, line]).finding(&[[1, line, line]]),
        _ => panic!("{word} is no rule"),
    }
}

/// One line would break the rule if it stood one line further on or back.
fn just_kept(word: &str, n: u32) -> Vec<Case> {
    let (middle, log) = (n / 2, || (rule(word).log)(n));
    let (event, lines) = match word {
        "free" | "free-in-order" => (1, [1, n]),
        "three" => (OTHER, [n - 1, n]),
        "uncorrected" => (OTHER, [middle - 1, n]),
        "uncorrected-2" => (OTHER, [middle + 1, 1]),
        "soon" => (OTHER, [1, 2]),
        _ => return vec![],
    };
    lines.map(|line| Case::kept(with(log(), line, event))).into()
}

/// On 4,000 lines: the logs that keep it, and a line that breaks it at the very end, or just before the middle.
fn answers(word: &str) {
    let Rule { name, log, holds, .. } = rule(word);
    let mut cases = just_kept(word, LONG / 4);
    cases.extend(holds.then(|| Case::kept(log(LONG))));
    cases.extend([LONG, LONG / 2 - 1].map(|line| broken(word, LONG, line)));
    tell(&format!("ordinary rules: {name}"), cases.iter().map(|case| case.is_answered(word)).sum());
}

#[test]
fn free_between_two_scans() {
    answers("free");
}

#[test]
fn free_between_two_scans_in_order() {
    answers("free-in-order");
}

#[test]
fn next_after_the_first_scan() {
    answers("next");
}

#[test]
fn last_before_the_first_scan() {
    answers("last");
}

#[test]
fn last_before_the_second_scan() {
    answers("last-of-2");
}

#[test]
fn three_scans_in_order_and_the_first() {
    answers("three");
}

#[test]
fn two_scans_without_a_correction_and_the_first() {
    answers("uncorrected");
}

#[test]
fn two_scans_without_a_correction_and_the_second() {
    answers("uncorrected-2");
}

#[test]
fn three_scans_soon_after_each_other() {
    answers("soon");
}

#[test]
fn the_standing_measures() {
    answers("standing");
    answers("standing-both");
}

/// Two scans of either sort, and two consequents, in either order. The one about point 2 extends but where that is the last line, which the one
/// about point 1 does not take.
#[test]
fn the_first_or_the_second_consequent() {
    let log = with((rule("free").log)(LONG), LONG, OTHER);
    let points = [1, 2].map(|p| [0, POINT, p, 0, 1 << 3 | 1 << OTHER, 0]);
    for (p, q) in [(1, 2), (2, 1)] {
        let about = |section, p| [section, EVENT, p, 0, if p == 1 { 1 << OTHER } else { 1 << 3 }, 0];
        let sheet = sheet_of(2, &[&points[..], &[about(1, p), about(2, q)]].concat());
        let pair = Pair { sheet, log: log.text() };
        assert_eq!(verdict_of_both(&pair), Some((vec![1, LONG], vec![3, 4])));
        assert_eq!(found_by_both(&pair, 1), Some(vec![1, LONG]));
    }
    tell("ordinary rules: two consequents", 4);
}

/// Four scans, and a consequent that speaks of none of them: n^4 matchings are skipped at once.
#[test]
fn a_consequent_about_no_point() {
    let log = (rule("free").log)(LONG);
    let points: Vec<[u32; 6]> = (1..=4).map(|p| [0, POINT, p, 0, 1 << 3, 0]).collect();
    for (event, violation) in [(3, None), (2, Some((vec![1; 4], vec![5])))] {
        let sheet = sheet_of(1, &[&points[..], &[[1, NEXT, 11, START, 1 << event, 0]]].concat());
        assert_eq!(verdict_of_both(&Pair { sheet, log: log.text() }), violation);
    }
    tell("ordinary rules: a consequent about no point", 2);
}

/// A rule's log with ticks so far apart, and each with another event in one of its lines.
fn short_logs_of(log: fn(u32) -> Log, n: u32, step: u32) -> Vec<Log> {
    let mut log = log(n);
    (1..).zip(&mut log.lines).for_each(|(line, of)| of.tick = step * line);
    log.close = step * n;
    let others = (1..=n).flat_map(|line| [0, 1, 2, OTHER].map(|event| with(log.clone(), line, event)));
    others.chain([log.clone()]).collect()
}

#[test]
fn short_logs() {
    let mut tally = Tally::default();
    for Rule { sheet, log, .. } in rules().into_iter().chain(standing_measures()) {
        for (n, step) in SHORT.into_iter().flat_map(|n| STEPS.map(|step| (n, step))) {
            for log in short_logs_of(log, n, step) {
                tally += tallied(compare_once(&Host, &Pair { sheet: of_either_sort(&sheet), log: log.text() }));
            }
        }
    }
    tell_tally("ordinary rules: short logs", tally);
}

#[test]
fn at_random() {
    let tally: Tally = (0..1000).map(|seed| tallied(compare(&Host, &rule_pair_of(seed), seed, 6))).sum();
    assert_eq!(tally.whole, tally.pairs);
    tell_tally("ordinary rules: random", tally);
}

/// More of them, by their check and their searches alone.
#[test]
fn more_at_random() {
    let pairs = (10_000..12_500).map(|seed| tallied(compare_findings(&Host, &rule_pair_of(seed), seed, 6)));
    tell("ordinary rules: more at random", pairs.sum::<Tally>().comparisons);
}
