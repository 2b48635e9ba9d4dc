//! Compares every operation of one side with the reference on one pair of a sheet and a log.
mod demand_3;
mod impossible;
mod limits;
mod rearranged;
mod tally;

use crate::expected::searched;
use crate::generate::arguments::arguments_of;
use crate::generate::Pair;
use crate::outcome::*;
use crate::random::Random;
use crate::reference::antiscenario::antiscenario;
use crate::reference::blunder::Blunder;
use crate::reference::log::Log;
use crate::reference::operations::{open, Opened, MOST_POINTS};
use crate::reference::rows::{is_matching, placement_count, placements, points};
use crate::reference::sheet::Row;
pub use rearranged::compare_rearranged;
use std::fmt::{Debug, Display};
pub use tally::Tally;

/// So many placements of a pair's antiscenarios are all judged, of at most so many antiscenarios.
const MOST_JUDGED: u64 = 400;

/// Up to so many numbers of a sheet are all gone through; of more, a sample.
const MOST_EACH: u64 = 4096;
const SAMPLE: u64 = 12;

/// What differed, with all that is needed to see it again.
#[derive(Debug)]
pub struct Mismatch(pub String);

/// One pair under comparison.
pub struct Comparison<'a, S: Side> {
    pub side: &'a S,
    pub pair: &'a Pair,
    pub opened: Opened,
    pub seed: u64,
    pub random: Random,
    pub comparisons: u64,
}

type Compared = Result<(), Mismatch>;

impl<'a, S: Side> Comparison<'a, S> {
    pub fn new(side: &'a S, pair: &'a Pair, seed: u64) -> Comparison<'a, S> {
        let opened = open(&pair.sheet, &pair.log, Blunder::None);
        Comparison { side, pair, opened, seed, random: Random::new(seed), comparisons: 0 }
    }

    pub fn same<T: PartialEq + Debug>(&mut self, what: impl Display, answered: T, expected: T) -> Compared {
        self.comparisons += 1;
        if answered == expected {
            return Ok(());
        }
        Err(Mismatch(format!(
            "{what}\nseed {}\nsheet:\n{}\nlog:\n{}\nanswered {answered:?}\nexpected {expected:?}",
            self.seed,
            String::from_utf8_lossy(&self.pair.sheet),
            String::from_utf8_lossy(&self.pair.log),
        )))
    }

    pub fn readings(&mut self) -> Compared {
        let (sheet, log) = (&self.pair.sheet, &self.pair.log);
        self.same("read log", self.side.read_log(log), self.opened.log_read())?;
        self.same("read sheet", self.side.read_sheet(sheet), self.opened.sheet_read())?;
        let shown = self.opened.shown();
        self.same("line", self.side.line(sheet, log), shown.line(sheet, log))?;
        self.same("show", self.side.show(sheet, log), shown)
    }

    pub fn checks(&mut self) -> Compared {
        let (sheet, log) = (&self.pair.sheet, &self.pair.log);
        let expected = self.opened.checked();
        self.same("check in one number", self.side.check_number(sheet, log), expected.answer)?;
        self.same("check", self.side.check(sheet, log), expected)
    }

    /// Every number if there are few, else the first two, the last two and a sample; and the nearest ones outside.
    pub fn numbers(&mut self, most: u64) -> Vec<u64> {
        let count = self.opened.read_sheet().unwrap_or(0);
        let mut numbers = vec![0, count + 1, (1 << 32) + 1, u64::MAX];
        if count <= most {
            numbers.extend(1..=count);
        } else {
            numbers.extend([1, 2, count - 1, count]);
            numbers.extend((4..most).map(|_| self.random.next() % count + 1));
        }
        numbers
    }

    fn write_in(&mut self, number: u64, room: usize) -> Compared {
        let answered = self.side.write(&self.pair.sheet, number, room);
        self.same(format_args!("write number {number} in {room} bytes"), answered, self.opened.written(number, room))
    }

    pub fn writing(&mut self, number: u64) -> Compared {
        let length = self.text_length(number);
        let longer = length + 1 + self.random.below(60);
        [0, length - 1, length, length + 1, longer].into_iter().try_for_each(|room| self.write_in(number, room))
    }

    /// Of the number's text, or a first line's where there is none.
    fn text_length(&self, number: u64) -> usize {
        self.opened.size(number).map_or(7, |(length, _)| length)
    }

    fn point_count(&self, number: u64) -> usize {
        self.opened.size(number).map_or(1, |(_, points)| points)
    }

    fn search_in(&mut self, number: u64, places: usize) -> Compared {
        let answered = self.side.search(&self.pair.sheet, &self.pair.log, number, places);
        self.same(format_args!("search number {number} in {places} places"), answered, self.opened.searched(number, places))
    }

    /// Gives the smallest matching, for the judge.
    pub fn searching(&mut self, number: u64) -> Result<Option<Vec<u32>>, Mismatch> {
        let count = self.point_count(number);
        self.search_in(number, count.saturating_sub(1))?;
        let result = self.opened.search(number, count).map_err(|refusal| refusal.number());
        for places in [count, count + 1, MOST_POINTS] {
            let answered = self.side.search(&self.pair.sheet, &self.pair.log, number, places);
            let expected = searched(result.clone(), places);
            self.same(format_args!("search number {number} in {places} places"), answered, expected)?;
        }
        Ok(result.unwrap_or(None))
    }

    pub fn judge_one(&mut self, number: u64, table: &Table) -> Compared {
        let answered = self.side.judge(&self.pair.sheet, &self.pair.log, number, table);
        let expected = self.opened.judged(number, table);
        let what = format_args!("judge number {number} at {:?}, {} of them", table.positions, table.count);
        self.same(what, answered, expected)
    }

    /// The matching found, or else any placement; near misses of it; wrong counts; junk past the count.
    pub fn judging(&mut self, number: u64, matching: Option<Vec<u32>>) -> Compared {
        let count = self.point_count(number);
        let n = self.opened.read_log().unwrap_or(0);
        let positions = matching.unwrap_or_else(|| (0..count).map(|_| self.random.from_to(0, n + 1)).collect());
        let junk = self.random.pick(&[0, 1, n, n + 1, u32::MAX]);
        let table = Table::of(&positions, junk);
        self.judge_one(number, &table)?;
        for wrong in [0, count.wrapping_sub(1), count + 1, MOST_POINTS, MOST_POINTS + 1, (1 << 32) + count, usize::MAX] {
            self.judge_one(number, &Table { count: wrong, ..table.clone() })?;
        }
        let moved: Vec<usize> =
            if count <= 4 { (0..count).collect() } else { (0..4).map(|_| self.random.below(count)).collect() };
        for index in moved {
            let position = positions[index];
            for other in [position.wrapping_sub(1), position.wrapping_add(1), 0, n, n + 1, n + 2, position ^ 1 << 16, u32::MAX] {
                let mut missed = table.clone();
                missed.positions[index] = other;
                self.judge_one(number, &missed)?;
            }
        }
        Ok(())
    }

    /// Every placement of the antiscenarios judged, from number 1 on, as long as they are few.
    fn judging_all(&mut self) -> Compared {
        let (Ok(sheet), Ok(log)) = (&self.opened.sheet, &self.opened.log) else { return Ok(()) };
        let (sheet, log) = (sheet.clone(), log.clone());
        let mut left = MOST_JUDGED;
        for number in 1..=sheet.count.min(MOST_JUDGED) {
            let rows = antiscenario(&sheet, number);
            let count = placement_count(&log, points(&rows).len(), MOST_JUDGED + 1);
            if count > left {
                break;
            }
            left -= count;
            self.judge_placements(number, &rows, &log)?;
        }
        Ok(())
    }

    fn judge_placements(&mut self, number: u64, rows: &[Row], log: &Log) -> Compared {
        for positions in placements(log, points(rows).len()) {
            let answered = self.side.judge(&self.pair.sheet, &self.pair.log, number, &Table::of(&positions, 1));
            let expected = Judged { answer: 0, met: is_matching(rows, log, &positions).into() };
            self.same(format_args!("judge number {number} at {positions:?}"), answered, expected)?;
        }
        Ok(())
    }

    /// The arguments of the seed.
    fn at_random(&mut self) -> Compared {
        let arguments = arguments_of(self.seed, &self.opened);
        self.write_in(arguments.number, arguments.room)?;
        self.ruling(arguments.number)?;
        self.search_in(arguments.number, arguments.places)?;
        self.judge_one(arguments.number, &arguments.table)
    }

    /// Every operation, for up to so many of the numbers.
    pub fn every_operation(&mut self, most_numbers: u64) -> Compared {
        self.readings()?;
        self.checks()?;
        self.limits()?;
        self.at_random()?;
        for number in self.numbers(most_numbers) {
            self.writing(number)?;
            self.ruling(number)?;
            let matching = self.searching(number)?;
            self.judging(number, matching)?;
        }
        self.judging_all()
    }

    /// Each number and the nearest ones outside, or of many a sample.
    fn each_number(&mut self) -> Vec<u64> {
        match self.opened.read_sheet().unwrap_or(0) {
            count if count <= MOST_EACH => (0..=count + 1).collect(),
            _ => self.numbers(SAMPLE),
        }
    }

    /// Every operation once for each number and the nearest ones outside, in memory of the right size.
    pub fn each_operation_once(&mut self) -> Compared {
        self.readings()?;
        self.checks()?;
        self.limits()?;
        for number in self.each_number() {
            let points = self.point_count(number);
            self.write_in(number, self.text_length(number))?;
            self.ruling(number)?;
            self.search_in(number, points)?;
            self.judge_one(number, &Table::of(&vec![1; points], 1))?;
        }
        self.judging_all()
    }

    /// After the operations: demand 3, and the texts are as they were.
    fn tallied(mut self, before: &Pair) -> Result<Tally, Mismatch> {
        let whole = self.demand_3()?;
        self.same("the texts lent", (&self.pair.sheet, &self.pair.log), (&before.sheet, &before.log))?;
        Ok(Tally { pairs: 1, comparisons: self.comparisons, refused: (!whole).into(), whole: whole.into() })
    }
}

/// Compares everything on one pair, for up to so many of the numbers.
pub fn compare<S: Side>(side: &S, pair: &Pair, seed: u64, most_numbers: u64) -> Result<Tally, Mismatch> {
    let before = pair.clone();
    let mut comparison = Comparison::new(side, pair, seed);
    comparison.every_operation(most_numbers)?;
    comparison.tallied(&before)
}

/// Compares the checks and the searches alone, for up to so many of the numbers: where the rest would take longer than they do.
pub fn compare_findings<S: Side>(side: &S, pair: &Pair, seed: u64, most_numbers: u64) -> Result<Tally, Mismatch> {
    let mut comparison = Comparison::new(side, pair, seed);
    comparison.checks()?;
    comparison.limits()?;
    for number in comparison.numbers(most_numbers) {
        comparison.searching(number)?;
    }
    Ok(Tally { pairs: 1, comparisons: comparison.comparisons, ..Tally::default() })
}

/// Compares every operation on one pair, each number once: for families compared whole.
pub fn compare_once<S: Side>(side: &S, pair: &Pair) -> Result<Tally, Mismatch> {
    let before = pair.clone();
    let mut comparison = Comparison::new(side, pair, 0);
    comparison.each_operation_once()?;
    comparison.tallied(&before)
}

/// Compares every operation on one pair, each number once and near misses of its matching: for long logs.
pub fn compare_long<S: Side>(side: &S, pair: &Pair, seed: u64) -> Result<Tally, Mismatch> {
    let before = pair.clone();
    let mut comparison = Comparison::new(side, pair, seed);
    comparison.each_operation_once()?;
    for number in comparison.each_number() {
        let matching = comparison.opened.search(number, MOST_POINTS).unwrap_or(None);
        comparison.judging(number, matching)?;
    }
    comparison.tallied(&before)
}
