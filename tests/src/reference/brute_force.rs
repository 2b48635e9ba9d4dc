//! The reference's faster ways against brute force, which tries every placement.
use super::antiscenario::antiscenario;
use super::blunder::Blunder;
use super::cut::CutDown;
use super::impossible::Pattern;
use super::limited::{all_placements, placements_after, Course};
use super::log::Log;
use super::operations::{smallest_by_brute_force, verdict, violating, Verdict};
use super::rows::{matchings, placement_count, placements, points};
use super::sheet::{self, Row, Sheet};
use super::weeded;
use crate::generate::pairs::has_short_denial;
use crate::generate::{logs, sheets};
use crate::random::Random;
use std::collections::BTreeSet;

const MOST_PLACEMENTS: u64 = 4000;

/// Random sheets and logs whose placements, of the antecedent with a consequent and of each of the first antiscenarios, can all be tried.
fn few_placements(seed: u64, pairs: usize) -> Vec<(Sheet, Log)> {
    let mut random = Random::new(seed);
    let mut all = Vec::new();
    while all.len() < pairs {
        let shape = random.pick(&[&sheets::SMALL, &sheets::MIDDLE, &sheets::CHAINS]);
        let sheet_text = sheets::random(&mut random, shape);
        let most_lines = random.pick(&[6, 6, 60]);
        let log = logs::random(&mut random, most_lines);
        let Ok(sheet) = sheet::read(&sheet_text, Blunder::None) else { continue };
        let few = |rows: &[Row]| placement_count(&log, points(rows).len(), MOST_PLACEMENTS) < MOST_PLACEMENTS;
        let consequents = (1..=sheet.k).all(|section| few(&[sheet.section(0), sheet.section(section)].concat()));
        if consequents && first_antiscenarios(&sheet).iter().all(|rows| few(rows)) {
            all.push((sheet, log));
        }
    }
    all
}

fn first_antiscenarios(sheet: &Sheet) -> Vec<Vec<Row>> {
    (1..=sheet.count.min(6)).map(|m| antiscenario(sheet, m)).collect()
}

#[test]
fn weeding_finds_what_brute_force_finds() {
    for (sheet, log) in few_placements(11, 3000) {
        for rows in first_antiscenarios(&sheet) {
            let mut weeded = Vec::new();
            weeded::visit(&rows, &log, &mut |positions| {
                weeded.push(positions.to_vec());
                false
            });
            assert_eq!(weeded, matchings(&rows, &log));
            assert_eq!(weeded::smallest(&rows, &log), smallest_by_brute_force(&rows, &log));
        }
    }
}

#[test]
fn consequents_by_themselves_cut_down_as_brute_force_does() {
    for (sheet, log) in few_placements(12, 3000) {
        let mut cut_down = CutDown::new(&sheet, &log);
        assert_eq!(cut_down.fronts, matchings(&sheet.section(0), &log));
        for rows in first_antiscenarios(&sheet) {
            let by_section = cut_down.by_section(&rows);
            assert_eq!(by_section, cut_down.written_out(&rows));
        }
    }
}

/// What is said of every N by placements is what going through the numbers says, where there are few.
#[test]
fn fronts_are_reached_by_the_numbers_that_brute_force_finds() {
    for (sheet, log) in few_placements(14, 2000).into_iter().filter(|(sheet, _)| sheet.count <= 60) {
        let mut cut_down = CutDown::new(&sheet, &log);
        let all: Vec<Vec<bool>> = (1..=sheet.count).map(|m| cut_down.of(&antiscenario(&sheet, m))).collect();
        let lowest = |front: usize| all.iter().position(|cut| cut[front]).map(|index| index as u64 + 1);
        let due: Vec<Option<u64>> = (0..cut_down.fronts.len()).map(lowest).collect();
        assert_eq!(cut_down.reaching(&sheet), due);
    }
}

/// Demand 3 of the reference alone, every placement tried: its matchings, cut down, are the violating placements.
#[test]
fn antiscenarios_are_cut_down_to_the_violating_placements() {
    let few = |(sheet, _): &(Sheet, Log)| (1..=60).contains(&sheet.count);
    let (mut all, mut short) = (0, 0);
    for (sheet, log) in few_placements(15, 3000).into_iter().filter(few) {
        let kept = points(&sheet.section(0)).len();
        let numbers = (1..=sheet.count).map(|m| antiscenario(&sheet, m));
        let rows: Vec<Vec<Row>> = numbers.filter(|rows| placement_count(&log, points(rows).len(), 10_000) < 10_000).collect();
        if rows.len() as u64 == sheet.count {
            let found = rows.iter().flat_map(|rows| matchings(rows, &log));
            let cut: BTreeSet<Vec<u32>> = found.map(|positions| positions[..kept].to_vec()).collect();
            assert_eq!(cut.into_iter().collect::<Vec<_>>(), violating(&sheet, &log));
            (all, short) = (all + 1, short + u64::from(has_short_denial(&sheet)));
        }
    }
    assert!(10 * short > all && all > 1000, "{short} of {all}");
}

/// The first row of a consequent up to which no matching has this front, numbered over the whole sheet.
fn row_at_fault(sheet: &Sheet, log: &Log, section: u32, front: &[u32]) -> Option<u32> {
    let antecedent = sheet.section(0);
    let before = sheet.rows.iter().filter(|row| row.section < section).count();
    let rows = sheet.section(section);
    let extends =
        |count| matchings(&[&antecedent, &rows[..count]].concat(), log).iter().any(|matching| matching.starts_with(front));
    (1..=rows.len()).find(|&count| !extends(count)).map(|count| (before + count) as u32)
}

#[test]
fn verdicts_are_those_of_brute_force() {
    for (sheet, log) in few_placements(13, 1500) {
        let violated = |front: Vec<u32>| {
            let rows: Option<Vec<u32>> = (1..=sheet.k).map(|section| row_at_fault(&sheet, &log, section, &front)).collect();
            Some(Verdict::Violated { rows: rows?, placement: front })
        };
        let all: Vec<Verdict> = matchings(&sheet.section(0), &log).into_iter().filter_map(violated).collect();
        assert_eq!(violating(&sheet, &log).len(), all.len());
        assert_eq!(verdict(&sheet, &log), all.into_iter().next().unwrap_or(Verdict::Holds));
    }
}

/// Document 02, A10: those after one, and all of them, n^0 among them.
#[test]
fn placements_are_as_many_as_are_counted() {
    for (n, count) in (0..=6).flat_map(|n| (0..=4).map(move |count| (n, count))) {
        let all = placements(&logs::uniform(n, 3), count);
        assert_eq!(all_placements(n, count), all.len() as u64);
        for (index, placement) in all.iter().enumerate() {
            let after = all.iter().filter(|other| *other > placement).count();
            assert_eq!((placements_after(n, placement), after), (after as u64, all.len() - index - 1));
        }
    }
}

/// Document 02, A10: with every limit, by the matchings and the violating ones that brute force finds.
#[test]
fn limits_are_those_of_brute_force() {
    for (sheet, log) in few_placements(16, 1000) {
        let (course, all) = (Course::new(&sheet, &log), placements(&log, points(&sheet.section(0)).len()));
        let matchings = matchings(&sheet.section(0), &log);
        let is_violating = |front: &Vec<u32>| (1..=sheet.k).all(|section| row_at_fault(&sheet, &log, section, front).is_some());
        let first_violating = matchings.iter().position(is_violating);
        for limit in (0..=matchings.len() + 1).chain([usize::MAX]) {
            let violated = first_violating.filter(|index| *index < limit);
            let looked = violated.map_or(matchings.len().min(limit), |index| index + 1);
            let due = match violated {
                None if matchings.len() > limit => None,
                _ => Some(violated.map_or(Verdict::Holds, |_| verdict(&sheet, &log))),
            };
            let after = all.iter().filter(|placement| looked == 0 || **placement > matchings[looked - 1]).count();
            let limited = course.check(limit as u64);
            assert_eq!((limited.verdict, limited.looked, limited.after), (due, looked as u64, after as u64));
        }
    }
}

/// Document 02, A6: every placement of what is impossible is tried, and none is a matching; often enough a set, an APART row or an order says so.
#[test]
fn impossible_antiscenarios_have_no_matching() {
    let mut impossible = [0; 3];
    for (sheet, log) in few_placements(17, 3000) {
        for rows in first_antiscenarios(&sheet) {
            let pattern = Pattern::new(&rows);
            assert!(!pattern.is_impossible() || matchings(&rows, &log).is_empty());
            let rules = [pattern.has_no_event(), pattern.is_apart_from_itself(), pattern.leads_back()];
            impossible.iter_mut().zip(rules).for_each(|(count, rule)| *count += u64::from(rule));
        }
    }
    assert!(impossible.iter().all(|count| *count > 50), "{impossible:?}");
}
