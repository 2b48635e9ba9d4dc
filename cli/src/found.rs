//! What stands in a log instead of what a row asks. The points of a consequent are walked to from the violating placement; that the
//! walk is right is for `certificate` to ask the library.
use crate::denial::Choice;
use crate::events::Events;
use crate::log::Log;
use crate::remark::{no_two_ticks, reach, Reach, FRACTIONS};
use crate::sheet::{Kind, Row, Sheet, CLOSE, START};
use crate::words::{line, point};
use std::collections::BTreeMap;

/// Positions of the points known so far.
pub struct Walk<'a> {
    log: &'a Log,
    positions: BTreeMap<u32, u32>,
}

/// The row at fault of a consequent, and what was found.
pub struct Fault<'a> {
    pub consequent: u32,
    pub number: u32,
    pub row: &'a Row,
    pub finding: Finding,
}

pub enum Finding {
    /// NEXT, LAST: there is no such line.
    NoLine,
    /// FREE: the line between.
    Between(u32),
    /// Every other kind speaks of the positions of its points alone.
    Positions,
}

impl<'a> Walk<'a> {
    /// From the antecedent's points; none where the placement does not have one position for each.
    pub fn new(log: &'a Log, sheet: &Sheet, placement: &[u32]) -> Option<Walk<'a>> {
        let points: Vec<u32> = sheet.section(0).filter(|row| row.kind == Kind::Point).map(|row| row.p).collect();
        if points.len() != placement.len() {
            return None;
        }
        let mut positions: BTreeMap<u32, u32> = points.into_iter().zip(placement.iter().copied()).collect();
        positions.insert(START, 0);
        positions.insert(CLOSE, log.close_position());
        Some(Walk { log, positions })
    }

    pub fn position(&self, point: u32) -> Option<u32> {
        self.positions.get(&point).copied()
    }

    /// Places the points of a consequent before its row at fault, and says what stands there.
    pub fn finding(&mut self, sheet: &Sheet, number: u32) -> Option<Finding> {
        let (row, before) = sheet.rows.get(..number as usize)?.split_last()?;
        for earlier in before.iter().filter(|earlier| earlier.section == row.section) {
            self.place(earlier)?;
        }
        match row.kind {
            Kind::Next => self.next(row).is_none().then_some(Finding::NoLine),
            Kind::Last => self.last(row).is_none().then_some(Finding::NoLine),
            Kind::Free => self.between(row).map(Finding::Between),
            _ => Some(Finding::Positions),
        }
    }

    /// The position of the point that a row introduces, where it introduces one.
    fn place(&mut self, row: &Row) -> Option<()> {
        let position = match row.kind {
            Kind::Next => self.next(row)?,
            Kind::Last => self.last(row)?,
            Kind::Earlier => self.position(row.q)?.min(self.position(row.a)?),
            Kind::Later => self.position(row.q)?.max(self.position(row.a)?),
            _ => return Some(()),
        };
        self.positions.insert(row.p, position);
        Some(())
    }

    fn next(&self, row: &Row) -> Option<u32> {
        let mut after = self.position(row.q)? + 1..self.log.close_position();
        after.find(|&position| self.log.has_event_of(position, row.set()))
    }

    fn last(&self, row: &Row) -> Option<u32> {
        let before = 1..self.position(row.q)?;
        before.rev().find(|&position| self.log.has_event_of(position, row.set()))
    }

    fn between(&self, row: &Row) -> Option<u32> {
        let (p, q) = (self.position(row.p)?, self.position(row.q)?);
        let mut inside = p.min(q) + 1..p.max(q);
        inside.find(|&position| self.log.has_event_of(position, row.set()))
    }

    /// Which of the row's denials is what was found.
    pub fn choice(&self, row: &Row, finding: &Finding) -> Option<Choice> {
        let (p, q) = (self.position(row.p), self.position(row.q));
        let is_second = match (row.kind, finding) {
            (Kind::Before, _) => p? == q?,
            (Kind::Free, Finding::Between(_)) if crate::denial::count(row) == 2 => q? < p?,
            _ => false,
        };
        Some(if is_second { Choice::Second } else { Choice::First })
    }

    /// Where a point stands: a line, or the tick of the start or the close.
    fn place_of(&self, number: u32) -> Option<String> {
        let position = self.position(number)?;
        let tick = self.log.tick(position)?;
        match number {
            START | CLOSE => Some(format!("{} is at tick {tick}", point(number))),
            _ => Some(format!("{} is at {}, tick {tick}", point(number), line(position))),
        }
    }

    /// How far apart the points of WITHIN or OUTSIDE are.
    fn distance(&self, row: &Row) -> Option<String> {
        let (p, q) = (self.position(row.p)?, self.position(row.q)?);
        if p == q {
            return Some("they are one line, exactly 0 ms apart".to_string());
        }
        let distance = self.log.tick(p)?.abs_diff(self.log.tick(q)?);
        let missed = if row.kind == Kind::Within { format!("; {}", missed(row, distance)) } else { String::new() };
        Some(format!("they differ by {distance}{missed}"))
    }

    /// The finding in words.
    pub fn words(&self, row: &Row, finding: &Finding, events: &Events) -> Option<String> {
        let (p, q) = (row.p, row.q);
        match (row.kind, finding) {
            (_, Finding::Between(position)) => {
                let found = self.log.line(*position)?;
                Some(format!("{}, tick {}, has {}", line(*position), found.tick, events.event(found.event)))
            }
            (Kind::Next, _) => Some(format!("after {} there is no such line", point(q))),
            (Kind::Last, _) => Some(format!("before {} there is no such line", point(q))),
            (Kind::Event, _) => {
                let position = self.position(p)?;
                Some(format!("{} has {}", line(position), events.event(self.log.line(position)?.event)))
            }
            (Kind::Within | Kind::Outside, _) => {
                let (p, q) = (self.place_of(p)?, self.place_of(q)?);
                Some(format!("{p}; {q}; {}", self.distance(row)?))
            }
            _ => Some(format!("{}; {}", self.place_of(p)?, self.place_of(q)?)),
        }
    }
}

/// The limit of WITHIN that ticks so far apart miss, with the millisecond that the fractions may take.
fn missed(row: &Row, distance: u32) -> String {
    let Row { a, b, .. } = *row;
    match reach(row) {
        Reach::OneLine | Reach::Nowhere => no_two_ticks(row),
        Reach::TwoTicks if distance >= b => {
            format!("{FRACTIONS}, they must differ by at most {} for at most {b} ms to be sure", b - 1)
        }
        Reach::TwoTicks => format!("{FRACTIONS}, they must differ by at least {} for at least {a} ms to be sure", a + 1),
    }
}
