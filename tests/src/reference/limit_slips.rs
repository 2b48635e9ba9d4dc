//! Document 02, A10: slips in the check with a limit, each put on what its definition gives.
use super::blunder::Blunder;
use super::limited::{Course, Limited};
use super::log::Log;
use super::operations::{Front, Verdict};
use super::rows::{points, Placement};
use super::sheet::{kind::*, Row, Sheet};
use super::weeded::Plan;

/// The check with a limit, with the slip that the sheet was read with, if it is one of these.
pub fn check(sheet: &Sheet, log: &Log, course: &Course, limit: u64) -> Limited {
    match sheet.blunder {
        Blunder::ZeroIsNoLimit if limit == 0 => course.check(u64::MAX),
        Blunder::LimitIn32Bits => course.check(limit % (1 << 32)),
        Blunder::OneLessLookedAt => course.check(limit.saturating_sub(1)),
        Blunder::OneMoreLookedAt => course.check(limit.saturating_add(1)),
        Blunder::PassedOverUncounted => {
            let fronts = not_passed_over(sheet, log, &course.fronts);
            Course { fronts, ..course.clone() }.check(limit)
        }
        slip => slipped(slip, course, limit),
    }
}

/// With one of the answers wrong.
fn slipped(slip: Blunder, course: &Course, limit: u64) -> Limited {
    let due = course.check(limit);
    let one_more = due.looked + 1;
    let after = |looked: u64| course.after(looked as usize);
    let (holds, is_violated) = (due.verdict == Some(Verdict::Holds), matches!(due.verdict, Some(Verdict::Violated { .. })));
    let stopped = due.verdict.is_none();
    match slip {
        Blunder::OneMoreCounted if stopped => Limited { looked: one_more, after: after(one_more), ..due },
        Blunder::OneMoreInNumber if stopped => Limited { looked: one_more, ..due },
        Blunder::AfterOneMore if stopped => Limited { after: after(one_more), ..due },
        Blunder::OneMoreLeftOut if stopped => Limited { after: due.after - 1, ..due },
        Blunder::HoldsAtLimit if stopped => Limited { verdict: Some(Verdict::Holds), ..due },
        Blunder::StopsAtLimit if holds && due.looked == limit => Limited { verdict: None, ..due },
        Blunder::LooksOn if is_violated => {
            let looked = limit.min(course.fronts.len() as u64);
            Limited { looked, after: after(looked), ..due }
        }
        Blunder::ReportedInAfter if is_violated => Limited { after: due.after + 1, ..due },
        Blunder::HoldsWithNoneAfter if holds => Limited { after: 0, ..due },
        Blunder::AfterOneTooFew => Limited { after: due.after.saturating_sub(1), ..due },
        Blunder::AfterOneTooMany => Limited { after: due.after + 1, ..due },
        Blunder::NoneAfterNone if due.looked == 0 => Limited { after: 0, ..due },
        Blunder::NoPointsNoPlacement if due.looked == 0 && course.points == 0 => Limited { after: 0, ..due },
        Blunder::NoLinesNoPlacement if due.looked == 0 && course.lines == 0 => Limited { after: 0, ..due },
        _ => due,
    }
}

/// The fronts that the check without a limit looks at: behind one with which a consequent extends, not those that place the points alike of which
/// this consequent speaks.
fn not_passed_over(sheet: &Sheet, log: &Log, fronts: &[Front]) -> Vec<Front> {
    let mut alike: Option<&[u32]> = None;
    let mut looked_at = Vec::new();
    for front in fronts {
        if alike.is_some_and(|alike| front.placement.starts_with(alike)) {
            continue;
        }
        alike = spoken_of(sheet, log, &front.placement).map(|points| &front.placement[..points]);
        looked_at.push(front.clone());
    }
    looked_at
}

/// How many of the antecedent's points, in order, are all of which the first consequent speaks that extends.
fn spoken_of(sheet: &Sheet, log: &Log, front: &[u32]) -> Option<usize> {
    let placed = Placement::of(log, &points(&sheet.section(0)), front);
    let rows = (1..=sheet.k).map(|section| sheet.section(section)).find(|rows| Plan::new(rows, log).has_matching(&placed))?;
    let points_of = |row: &Row| [row.p, row.q, if [EARLIER, LATER].contains(&row.kind) { row.a } else { 0 }];
    let spoken_of = rows.iter().flat_map(points_of).filter(|point| *point < 10);
    Some(spoken_of.max().unwrap_or(0) as usize)
}
