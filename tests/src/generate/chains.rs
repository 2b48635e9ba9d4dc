//! Document 02, A8: families with BEFORE rows between the antecedent's points and those that a consequent introduces, every subset of a few, and a
//! handful of logs for them.
use super::families::Family;
use super::logs::log_of;
use crate::reference::log::Log;
use crate::reference::sheet::{kind::*, Row, CLOSE, START};

/// The antecedent's points have any event of the logs, those of the larger families among them, and the others some, in either half.
const ANY: u64 = 1 | SOME;
const SOME: u64 = 1 << 1 | 1 << 33;

/// The event that may be missing nowhere, twice, between others, after them, before them, and before the last two of four.
pub fn chain_logs() -> Vec<Log> {
    let events: [&[u32]; 6] = [&[], &[33, 1], &[0, 33, 0], &[0, 0, 33], &[33, 0, 0], &[0, 1, 0, 0]];
    events.map(|events| log_of(&(1..).zip(events.iter().copied()).collect::<Vec<_>>())).into()
}

fn before(section: u32, (p, q): (u32, u32)) -> Row {
    Row::new(section, BEFORE, p, q, 0, 0)
}

/// Every subset of the BEFORE rows of these pairs, in this order.
fn subsets(section: u32, pairs: &[(u32, u32)]) -> Vec<Vec<Row>> {
    let mut all = vec![vec![]];
    for &pair in pairs {
        let with = all.iter().map(|rows| [&rows[..], &[before(section, pair)]].concat()).collect::<Vec<_>>();
        all.extend(with);
    }
    all
}

/// So many points, with every subset of these orders.
fn antecedents(points: u32, orders: &[(u32, u32)]) -> Vec<Vec<Row>> {
    let introducing: Vec<Row> = (1..=points).map(|p| Row::of_set(0, POINT, p, 0, ANY)).collect();
    subsets(0, orders).iter().map(|rows| [&introducing[..], rows].concat()).collect()
}

/// NEXT and LAST from each of the antecedent's points, and from the end that each permits.
fn missing(points: u32) -> Vec<Vec<Row>> {
    let from = |kind, end| (1..=points).chain([end]).map(move |q| vec![Row::of_set(1, kind, 11, q, SOME)]);
    from(NEXT, START).chain(from(LAST, CLOSE)).collect()
}

/// Each of the one sort of rows with each of the other after it.
fn joined(first: &[Vec<Row>], second: &[Vec<Row>]) -> Vec<Vec<Row>> {
    first.iter().flat_map(|rows| second.iter().map(move |more| [&rows[..], more].concat())).collect()
}

/// A second point, from the first or from two of the antecedent.
fn second_points() -> Vec<Vec<Row>> {
    let rows = [Row::of_set(1, NEXT, 12, 11, ANY), Row::of_set(1, LAST, 12, 11, ANY), Row::new(1, LATER, 12, 1, 2, 0)];
    rows.map(|row| vec![row]).into()
}

/// Two antecedent points in every order, and every BEFORE row between the three, one of them written before the missing point's row.
fn on_two_points() -> Vec<Vec<Row>> {
    let introduced = joined(&subsets(1, &[(1, 2)]), &missing(2));
    let consequents = joined(&introduced, &subsets(1, &[(2, 1), (11, 1), (11, 2), (1, 11), (2, 11)]));
    joined(&antecedents(2, &[(1, 2), (2, 1)]), &consequents)
}

/// The same with sets of the lower half alone, as the larger families have them.
pub fn on_two_points_below_32() -> Vec<Vec<Row>> {
    on_two_points().into_iter().map(|rows| rows.into_iter().map(|row| Row { b: 0, ..row }).collect()).collect()
}

/// Three antecedent points, so that several may be the far end and an order may have two steps.
fn on_three_points() -> Vec<Vec<Row>> {
    let (to_each, from_each) = ([(11, 1), (11, 2), (11, 3)], [(1, 11), (2, 11), (3, 11)]);
    let (after, last): (Vec<Vec<Row>>, Vec<Vec<Row>>) = missing(3).into_iter().partition(|rows| rows[0].kind == NEXT);
    let introduced = [joined(&after, &subsets(1, &to_each)), joined(&last, &subsets(1, &from_each))].concat();
    let further = joined(&subsets(1, &[(2, 3)]), &joined(&introduced, &subsets(1, &[(3, 1)])));
    joined(&antecedents(3, &[(2, 3), (1, 2), (2, 1)]), &further)
}

/// Two points of the consequent, so that a chain may have three steps, through q too, and q may be a point of the consequent.
fn through_another_point() -> Vec<Vec<Row>> {
    let introduced = joined(&joined(&subsets(1, &[(1, 2)]), &missing(2)), &second_points());
    let consequents = joined(&introduced, &subsets(1, &[(12, 2), (12, 1), (11, 12), (12, 11), (1, 12)]));
    joined(&antecedents(2, &[(1, 2)]), &consequents)
}

/// The families, compared whole each time.
pub fn chains() -> Vec<Family> {
    vec![
        Family::new("chains: two points and a missing one", 1, &on_two_points()),
        Family::new("chains: three points and a missing one", 1, &on_three_points()),
        Family::new("chains: through another point", 1, &through_another_point()),
    ]
}
