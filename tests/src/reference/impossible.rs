//! Document 02, A6: whether no run can meet an antiscenario, by three rules and no other, over its rows alone.
use super::rows::points;
use super::sheet::{kind::*, Row, CLOSE, START};
use std::collections::BTreeMap;

/// Events are 0 to 63.
const EVENTS: u32 = 64;

/// What the rules look at.
#[derive(Clone, Debug)]
pub struct Pattern {
    /// Every point, with those that it is one with, itself among them.
    pub joined: BTreeMap<u32, Vec<u32>>,
    /// The set of each POINT, NEXT, LAST and EVENT row, with the row's point.
    pub sets: Vec<(u32, u64)>,
    /// The two points of each APART row.
    pub apart: Vec<(u32, u32)>,
    /// "BEFORE, NEXT and LAST rows, read as "lower than"": the lower point and the higher.
    pub lower: Vec<(u32, u32)>,
}

/// "the sets of its POINT, NEXT, LAST and EVENT rows".
fn set_of(row: &Row) -> Option<(u32, u64)> {
    [POINT, NEXT, LAST, EVENT].contains(&row.kind).then(|| (row.p, row.set()))
}

fn apart_of(row: &Row) -> Option<(u32, u32)> {
    (row.kind == APART).then_some((row.p, row.q))
}

/// NEXT places p after q, LAST before it.
pub fn lower_of(row: &Row) -> Option<(u32, u32)> {
    match row.kind {
        BEFORE | LAST => Some((row.p, row.q)),
        NEXT => Some((row.q, row.p)),
        _ => None,
    }
}

/// The two points of each SAME row, either way about.
pub fn both_ways(rows: &[Row]) -> Vec<(u32, u32)> {
    rows.iter().filter(|row| row.kind == SAME).flat_map(|row| [(row.p, row.q), (row.q, row.p)]).collect()
}

/// The start, the close, and the points that the rows introduce.
fn every_point(rows: &[Row]) -> Vec<u32> {
    [vec![START], points(rows), vec![CLOSE]].concat()
}

/// Adds a point and what these steps lead to from it.
fn flood(steps: &[(u32, u32)], from: u32, reached: &mut Vec<u32>) {
    if reached.contains(&from) {
        return;
    }
    reached.push(from);
    steps.iter().filter(|(x, _)| *x == from).for_each(|(_, y)| flood(steps, *y, reached));
}

/// "Points joined by SAME rows count as one": each point with what these steps lead to from it.
pub fn joined_by(rows: &[Row], steps: &[(u32, u32)]) -> BTreeMap<u32, Vec<u32>> {
    let one_with = |point| {
        let mut reached = Vec::new();
        flood(steps, point, &mut reached);
        (point, reached)
    };
    every_point(rows).into_iter().map(one_with).collect()
}

fn has_event(set: u64, event: u32) -> bool {
    set >> event & 1 == 1
}

impl Pattern {
    pub fn new(rows: &[Row]) -> Pattern {
        Pattern {
            joined: joined_by(rows, &both_ways(rows)),
            sets: rows.iter().filter_map(set_of).collect(),
            apart: rows.iter().filter_map(apart_of).collect(),
            lower: rows.iter().filter_map(lower_of).collect(),
        }
    }

    /// "in no case but these three".
    pub fn is_impossible(&self) -> bool {
        self.has_no_event() || self.is_apart_from_itself() || self.leads_back()
    }

    /// "It is impossible when the sets of its POINT, NEXT, LAST and EVENT rows for one such point have no event in common (a point with no such row
    /// passes)."
    pub fn has_no_event(&self) -> bool {
        self.joined.values().any(|one| {
            let sets: Vec<u64> = self.sets.iter().filter(|(point, _)| one.contains(point)).map(|(_, set)| *set).collect();
            let is_common = |event: u32| sets.iter().all(|set| has_event(*set, event));
            !sets.is_empty() && !(0..EVENTS).any(is_common)
        })
    }

    /// "It is impossible when an APART row lies inside one such point."
    pub fn is_apart_from_itself(&self) -> bool {
        self.apart.iter().any(|(p, q)| self.joined[p].contains(q))
    }

    /// "It is impossible when BEFORE, NEXT and LAST rows, read as "lower than", lead from a point back to itself".
    pub fn leads_back(&self) -> bool {
        self.joined.keys().any(|point| self.is_above(*point, *point, &mut Vec::new()))
    }

    /// One or more steps up from here lead to the point, by ways through points not seen yet.
    fn is_above(&self, here: u32, point: u32, seen: &mut Vec<u32>) -> bool {
        let steps = self.lower.iter().filter(|(lower, _)| self.joined[&here].contains(lower));
        for (_, higher) in steps {
            if self.joined[higher].contains(&point) {
                return true;
            }
            if !seen.contains(higher) {
                seen.push(*higher);
                if self.is_above(*higher, point, seen) {
                    return true;
                }
            }
        }
        false
    }
}
