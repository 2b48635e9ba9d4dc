//! Document 02, A6: rows of an antiscenario that contradict each other, so that no run can meet it. The library says whether there are any; which they
//! are is looked for here, in the written text, and where the two disagree nothing is said.
use crate::sheet::{Kind, Row, Sheet, CLOSE};
use satskhubo_interface::answer::{Answer, Failure};
use std::collections::VecDeque;

/// A row with its number in the antiscenario, from 1.
#[derive(Clone, Copy, Debug, PartialEq, Eq)]
pub struct Numbered {
    pub number: usize,
    pub row: Row,
}

/// A row that leads from one point to another: to a higher one, or to one that it joins.
#[derive(Clone, Copy, Debug, PartialEq, Eq)]
pub struct Step {
    pub from: u32,
    pub to: u32,
    pub by: Numbered,
}

#[derive(Debug, PartialEq, Eq)]
pub enum Contradiction {
    /// Sets of one joined point with no event in common, and the SAME rows that join it.
    NoCommonEvent { sets: Vec<Numbered>, joins: Vec<Numbered> },
    /// An APART row, and the SAME rows that lead from its p to its q.
    ApartInside { apart: Numbered, joins: Vec<Numbered> },
    /// Steps from a point back to itself, of which the first is upwards.
    Circular { steps: Vec<Step> },
}

impl Contradiction {
    /// The rows that contradict each other.
    pub fn rows(&self) -> Vec<Numbered> {
        match self {
            Contradiction::NoCommonEvent { sets, joins } => [&sets[..], joins].concat(),
            Contradiction::ApartInside { apart, joins } => [&[*apart], &joins[..]].concat(),
            Contradiction::Circular { steps } => steps.iter().map(|step| step.by).collect(),
        }
    }
}

/// The contradiction of an antiscenario that is impossible by the library's answer, and none of another.
pub fn certified(number: u64, is_impossible: bool, antiscenario: &Sheet) -> Answer<Option<Contradiction>> {
    match (is_impossible, contradiction(antiscenario)) {
        (true, None) => Err(Failure(format!("antiscenario {number} is impossible by the library, and its rows do not show why"))),
        (false, Some(found)) => {
            let rows: Vec<String> = found.rows().iter().map(|row| row.number.to_string()).collect();
            let rows = rows.join(", ");
            Err(Failure(format!("antiscenario {number} is possible by the library, and its rows {rows} contradict each other")))
        }
        (_, found) => Ok(found),
    }
}

/// The shortest by the three rules, and of several the first.
fn contradiction(antiscenario: &Sheet) -> Option<Contradiction> {
    let rows: Vec<Numbered> = (1..).zip(&antiscenario.rows).map(|(number, &row)| Numbered { number, row }).collect();
    let (mut joined, mut lower) = (Steps::default(), Steps::default());
    rows.iter().for_each(|by| joined.add_joins(by));
    rows.iter().for_each(|by| lower.add_lower(by));
    let found = [no_common_event(&rows, &joined), apart_inside(&rows, &joined), circular(&lower, &joined)];
    found.into_iter().flatten().min_by_key(|found| found.rows().len())
}

/// The steps from each point.
struct Steps(Vec<Vec<Step>>);

impl Default for Steps {
    fn default() -> Steps {
        Steps(vec![Vec::new(); CLOSE as usize + 1])
    }
}

impl Steps {
    fn add(&mut self, from: u32, to: u32, by: &Numbered) {
        self.0[from as usize].push(Step { from, to, by: *by });
    }

    fn add_joins(&mut self, by: &Numbered) {
        if by.row.kind == Kind::Same {
            self.add(by.row.p, by.row.q, by);
            self.add(by.row.q, by.row.p, by);
        }
    }

    /// BEFORE, NEXT and LAST rows read as "lower than".
    fn add_lower(&mut self, by: &Numbered) {
        match by.row.kind {
            Kind::Before | Kind::Last => self.add(by.row.p, by.row.q, by),
            Kind::Next => self.add(by.row.q, by.row.p, by),
            _ => {}
        }
    }

    fn from(&self, point: u32) -> &[Step] {
        &self.0[point as usize]
    }

    fn each(&self) -> impl Iterator<Item = &Step> {
        self.0.iter().flatten()
    }
}

/// The points to which steps lead from one of them, in as few as can be.
struct Reached {
    from: u32,
    /// The last step to each point.
    last: Vec<Option<Step>>,
}

impl Reached {
    fn new(from: u32, kinds: &[&Steps]) -> Reached {
        let mut reached = Reached { from, last: vec![None; CLOSE as usize + 1] };
        let mut waiting = VecDeque::from([from]);
        while let Some(point) = waiting.pop_front() {
            for &step in kinds.iter().flat_map(|steps| steps.from(point)) {
                if !reached.has(step.to) {
                    reached.last[step.to as usize] = Some(step);
                    waiting.push_back(step.to);
                }
            }
        }
        reached
    }

    fn has(&self, point: u32) -> bool {
        point == self.from || self.last[point as usize].is_some()
    }

    /// None to a point that is not reached.
    fn steps_to(&self, point: u32) -> Option<Vec<Step>> {
        let (mut steps, mut point) = (Vec::new(), point);
        while point != self.from {
            let step = self.last[point as usize]?;
            steps.push(step);
            point = step.from;
        }
        steps.reverse();
        Some(steps)
    }
}

fn rows_of(steps: &[Step]) -> Vec<Numbered> {
    steps.iter().map(|step| step.by).collect()
}

fn have_no_common_event<'a>(sets: impl IntoIterator<Item = &'a Numbered>) -> bool {
    sets.into_iter().fold(u64::MAX, |common, set| common & set.row.set()) == 0
}

fn no_common_event(rows: &[Numbered], joined: &Steps) -> Option<Contradiction> {
    let has_set = |kind: Kind| matches!(kind, Kind::Point | Kind::Next | Kind::Last | Kind::Event);
    let sets: Vec<Numbered> = rows.iter().filter(|by| has_set(by.row.kind)).copied().collect();
    let found = sets.iter().filter_map(|first| of_one_point(first, &sets, joined));
    found.min_by_key(|found| found.rows().len())
}

/// Of the sets of the joined point that this one is of: it alone if it is empty, it and the nearest with which it has no event in common, or few.
fn of_one_point(first: &Numbered, sets: &[Numbered], joined: &Steps) -> Option<Contradiction> {
    let reached = Reached::new(first.row.p, &[joined]);
    let own: Vec<Numbered> = sets.iter().filter(|set| reached.has(set.row.p)).copied().collect();
    if !have_no_common_event(&own) {
        return None;
    }
    let others = own.iter().filter(|other| have_no_common_event([first, *other]));
    let nearest = others.min_by_key(|other| reached.steps_to(other.row.p).map_or(0, |steps| steps.len()));
    Some(match nearest {
        _ if first.row.set() == 0 => with_joins(vec![*first], joined),
        Some(other) => with_joins(vec![*first, *other], joined),
        None => with_joins(none_to_spare(own), joined),
    })
}

/// Of sets with no event in common so many that none of them can be left out.
fn none_to_spare(mut sets: Vec<Numbered>) -> Vec<Numbered> {
    for index in (0..sets.len()).rev() {
        let others = sets.iter().enumerate().filter(|(other, _)| *other != index);
        if have_no_common_event(others.map(|(_, set)| set)) {
            sets.remove(index);
        }
    }
    sets
}

/// The SAME rows that lead from the point of the first set to those of the others, each once.
fn with_joins(sets: Vec<Numbered>, joined: &Steps) -> Contradiction {
    let reached = Reached::new(sets[0].row.p, &[joined]);
    let steps: Vec<Step> = sets.iter().filter_map(|set| reached.steps_to(set.row.p)).flatten().collect();
    let mut joins = rows_of(&steps);
    joins.sort_by_key(|join| join.number);
    joins.dedup();
    Contradiction::NoCommonEvent { sets, joins }
}

fn apart_inside(rows: &[Numbered], joined: &Steps) -> Option<Contradiction> {
    let inside = |apart: &Numbered| {
        let steps = Reached::new(apart.row.p, &[joined]).steps_to(apart.row.q)?;
        Some(Contradiction::ApartInside { apart: *apart, joins: rows_of(&steps) })
    };
    let aparts = rows.iter().filter(|by| by.row.kind == Kind::Apart);
    aparts.filter_map(inside).min_by_key(|found| found.rows().len())
}

fn circular(lower: &Steps, joined: &Steps) -> Option<Contradiction> {
    let back = |first: &Step| {
        let rest = Reached::new(first.to, &[lower, joined]).steps_to(first.from)?;
        Some([&[*first], &rest[..]].concat())
    };
    let circles = lower.each().filter_map(back);
    let steps = circles.min_by_key(|steps| (steps.len(), steps[0].by.number))?;
    Some(Contradiction::Circular { steps })
}

#[cfg(test)]
mod tests {
    use super::{certified, Contradiction};
    use crate::sheet::{Row, Sheet};

    /// Rows by kind, p, q, a and b.
    fn antiscenario(rows: &[[u32; 5]]) -> Sheet {
        let row = |&[kind, p, q, a, b]: &[u32; 5]| Row::of([0, kind, p, q, a, b]).unwrap();
        Sheet { consequents: 0, rows: rows.iter().map(row).collect() }
    }

    fn numbers(found: &Contradiction) -> Vec<usize> {
        found.rows().iter().map(|row| row.number).collect()
    }

    const CIRCLE: [[u32; 5]; 4] = [[1, 1, 0, 8, 0], [1, 2, 0, 8, 0], [6, 1, 2, 0, 0], [6, 2, 1, 0, 0]];

    #[test]
    fn library_and_rows_must_agree() {
        let (circle, line) = (antiscenario(&CIRCLE), antiscenario(&CIRCLE[..3]));
        assert_eq!(numbers(&certified(7, true, &circle).unwrap().unwrap()), [3, 4]);
        assert_eq!(certified(7, false, &line), Ok(None));
        let unshown = certified(7, true, &line).unwrap_err().to_string();
        assert_eq!(unshown, "antiscenario 7 is impossible by the library, and its rows do not show why");
        let untold = certified(7, false, &circle).unwrap_err().to_string();
        assert_eq!(untold, "antiscenario 7 is possible by the library, and its rows 3, 4 contradict each other");
    }

    /// Of several contradictions the one with the fewest rows, and of these the one by the first rule.
    #[test]
    fn the_shortest_is_taken() {
        let found = |rows: &[[u32; 5]]| numbers(&certified(1, true, &antiscenario(rows)).unwrap().unwrap());
        let point = |p| [1, p, 0, 8, 0];
        let three = [point(1), point(2), point(3), [6, 1, 2, 0, 0], [6, 2, 3, 0, 0], [6, 3, 1, 0, 0]];
        assert_eq!(found(&three), [4, 5, 6]);
        assert_eq!(found(&[&three[..], &[[6, 3, 2, 0, 0]]].concat()), [5, 7]);
        assert_eq!(found(&[&three[..], &[[12, 3, 0, 4, 0]]].concat()), [3, 7]);
        assert_eq!(found(&[&three[..], &[[12, 3, 0, 4, 0], [12, 2, 0, 0, 0]]].concat()), [8]);
        assert_eq!(found(&[&three[..], &[[8, 1, 2, 0, 0], [7, 2, 1, 0, 0]]].concat()), [8, 7]);
    }
}
