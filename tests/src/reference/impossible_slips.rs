//! Document 02, A6: slips in what is said of a number, each put on what the rules look at, on the rules, or on the number.
use super::antiscenario::is_of_denial;
use super::blunder::Blunder;
use super::impossible::{both_ways, joined_by, lower_of, Pattern};
use super::refusal::Refusal;
use super::rows::points;
use super::sheet::{kind::*, Row, Sheet, CLOSE, START};

/// The number that is looked at, with the slip that the sheet was read with, if it is one of these.
pub fn number(sheet: &Sheet, number: u64) -> Result<u64, Refusal> {
    match sheet.blunder {
        Blunder::LastNumberRefused if number == sheet.count => Err(Refusal::Number),
        Blunder::ZeroAccepted if number == 0 => Ok(1),
        Blunder::RuledNumberIn32Bits => Ok(number % (1 << 32)),
        _ => Ok(number),
    }
}

/// Whether the rows are impossible, with that slip.
pub fn is_impossible(slip: Blunder, rows: &[Row]) -> bool {
    let due = Pattern::new(rows);
    match slip {
        Blunder::AlwaysPossible => false,
        Blunder::AlwaysImpossible => true,
        Blunder::AntecedentAlone => {
            let antecedent: Vec<Row> = rows.iter().filter(|row| row.section == 0).copied().collect();
            Pattern::new(&antecedent).is_impossible()
        }
        Blunder::WithoutSetImpossible => due.is_impossible() || has_point_without_set(rows, &due),
        Blunder::JoinedInSetsAlone => due.has_no_event() || unjoined(rows).is_impossible(),
        Blunder::JoinedInApartAlone => due.is_apart_from_itself() || unjoined(rows).is_impossible(),
        Blunder::JoinedInOrderAlone => due.leads_back() || unjoined(rows).is_impossible(),
        Blunder::SetsByTwo => two_have_no_event(&due) || due.is_apart_from_itself() || due.leads_back(),
        Blunder::NoEventPasses => due.is_apart_from_itself() || due.leads_back(),
        Blunder::ApartPasses => due.has_no_event() || due.leads_back(),
        Blunder::LeadingBackPasses => due.has_no_event() || due.is_apart_from_itself(),
        Blunder::TwoStepsBack => due.has_no_event() || due.is_apart_from_itself() || leads_back_in_two(&due),
        slip => joined_otherwise(slip, rows, with_other_rows(slip, rows, due)).is_impossible(),
    }
}

/// No point is one with another.
fn unjoined(rows: &[Row]) -> Pattern {
    Pattern { joined: joined_by(rows, &[]), ..Pattern::new(rows) }
}

fn has_point_without_set(rows: &[Row], pattern: &Pattern) -> bool {
    points(rows).iter().any(|point| !pattern.sets.iter().any(|(other, _)| pattern.joined[point].contains(other)))
}

fn two_have_no_event(pattern: &Pattern) -> bool {
    let of_two = |x: &(u32, u64), y: &(u32, u64)| Pattern { sets: vec![*x, *y], ..pattern.clone() }.has_no_event();
    pattern.sets.iter().any(|x| pattern.sets.iter().any(|y| of_two(x, y)))
}

/// In one step, or in two.
fn leads_back_in_two(pattern: &Pattern) -> bool {
    let is_one = |x: u32, y: u32| pattern.joined[&x].contains(&y);
    pattern.lower.iter().any(|(lower, higher)| {
        is_one(*higher, *lower) || pattern.lower.iter().any(|(next, last)| is_one(*higher, *next) && is_one(*last, *lower))
    })
}

/// With SAME rows joining otherwise.
fn joined_otherwise(slip: Blunder, rows: &[Row], due: Pattern) -> Pattern {
    let steps = both_ways(rows);
    let of_same = |row: &&Row| row.kind == SAME;
    let joined = match slip {
        Blunder::JoinedOneWay => joined_by(rows, &rows.iter().filter(of_same).map(|row| (row.p, row.q)).collect::<Vec<_>>()),
        Blunder::JoinedWithoutChains => {
            let direct = |point: u32| steps.iter().filter(move |(x, _)| *x == point).map(|(_, y)| *y);
            due.joined.keys().map(|&point| (point, [point].into_iter().chain(direct(point)).collect())).collect()
        }
        Blunder::JoinedInSection => {
            let in_section = |point: u32, section: u32| point / 10 == section;
            let rows_inside = |row: &&Row| of_same(row) && in_section(row.p, row.section) && in_section(row.q, row.section);
            joined_by(rows, &both_ways(&rows.iter().filter(rows_inside).copied().collect::<Vec<_>>()))
        }
        Blunder::EndsJoined => joined_by(rows, &[&steps[..], &[(START, CLOSE), (CLOSE, START)]].concat()),
        _ => return due,
    };
    Pattern { joined, ..due }
}

/// The two points that come first and second, for each row of this kind.
fn of_kind(rows: &[Row], kind: u32, order: impl Fn(&Row) -> Vec<(u32, u32)>) -> Vec<(u32, u32)> {
    rows.iter().filter(|row| row.kind == kind).flat_map(order).collect()
}

/// With rows of this kind turned about.
fn turned(rows: &[Row], kind: u32) -> Vec<(u32, u32)> {
    let order = |row: &Row| lower_of(row).map(|(lower, higher)| if row.kind == kind { (higher, lower) } else { (lower, higher) });
    rows.iter().filter_map(order).collect()
}

/// With other rows counted as sets or as order, or some not.
fn with_other_rows(slip: Blunder, rows: &[Row], mut due: Pattern) -> Pattern {
    let without = |left_out: &dyn Fn(&Row) -> bool| {
        let kept: Vec<Row> = rows.iter().filter(|row| !left_out(row)).copied().collect();
        Pattern::new(&kept).sets
    };
    let as_order = |kind| of_kind(rows, kind, |row| vec![(row.p, row.q)]);
    match slip {
        Blunder::NextTurned => due.lower = turned(rows, NEXT),
        Blunder::LastTurned => due.lower = turned(rows, LAST),
        Blunder::EarlierAsOrder => due.lower.extend(of_kind(rows, EARLIER, |row| vec![(row.p, row.q), (row.p, row.a)])),
        Blunder::LaterAsOrder => due.lower.extend(of_kind(rows, LATER, |row| vec![(row.q, row.p), (row.a, row.p)])),
        Blunder::FreeAsOrder => due.lower.extend(as_order(FREE)),
        Blunder::WithinAsOrder => due.lower.extend(as_order(WITHIN)),
        Blunder::ApartAsOrder => due.lower.extend(as_order(APART)),
        Blunder::StepInsidePasses => due.lower.retain(|(lower, higher)| !due.joined[higher].contains(lower)),
        Blunder::OrderOfBeforeAlone => due.lower = as_order(BEFORE),
        Blunder::FreeAsSet => {
            let of_free = rows.iter().filter(|row| row.kind == FREE);
            due.sets.extend(of_free.flat_map(|row| [(row.p, row.set()), (row.q, row.set())]));
        }
        Blunder::EventNotCounted => due.sets = without(&|row| row.kind == EVENT),
        Blunder::DenialPointNotCounted => due.lower.retain(|(lower, higher)| !is_of_denial(*lower) && !is_of_denial(*higher)),
        Blunder::NextAndLastNotCounted => due.sets = without(&|row| [NEXT, LAST].contains(&row.kind)),
        Blunder::EmptySetPasses => due.sets.retain(|(_, set)| *set != 0),
        Blunder::EventsBelow32 => due.sets.iter_mut().for_each(|(_, set)| *set %= 1 << 32),
        _ => {}
    }
    due
}
