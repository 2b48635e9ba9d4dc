//! Document 02, A11: this side on a pair, and on the same with the sheet's consequents rearranged: what it answers to the second is what it answers to the
//! first, moved.
use super::{Compared, Comparison, Mismatch, MOST_EACH};
use crate::expected::{searched, written, VIOLATED};
use crate::generate::arguments::{limits_of, matched_numbers_of, order_of};
use crate::generate::Pair;
use crate::outcome::*;
use crate::reference::blunder::Blunder;
use crate::reference::operations::{open, MOST_POINTS};
use crate::reference::rearranged::Rearrangement;
use crate::reference::rearranged_slips::Rearranging;
use crate::reference::rows::{placement_count, placements, points};
use crate::reference::sheet::{self, Row};
use std::fmt::{Debug, Display};

/// The longest text of an antiscenario: 98 rows.
const MOST_TEXT: usize = 3437;

/// Up to so many placements of an antiscenario are all judged; of more, so many at random.
const FEW_PLACEMENTS: u64 = 27;
const SOME_PLACEMENTS: usize = 6;

/// From so many placements of the antecedent's points on, the violating ones are not gone through.
const MOST_GONE_THROUGH: u64 = 3000;

/// A comparison of one pair, and the pair's sheet rearranged.
struct Rearranged<'c, 'a, S: Side> {
    comparison: &'c mut Comparison<'a, S>,
    rearranging: Rearranging,
    sheet: Vec<u8>,
}

impl<S: Side> Comparison<'_, S> {
    /// Everything on one rearrangement, for up to so many of the numbers and a few that match; of a refused sheet nothing is asked.
    pub fn rearranged(&mut self, order: &[u32], most_numbers: u64) -> Compared {
        self.rearranged_with(Blunder::None, order, most_numbers)
    }

    /// The same with a slip in the rearrangement.
    pub fn rearranged_with(&mut self, slip: Blunder, order: &[u32], most_numbers: u64) -> Compared {
        let Ok(sheet) = &self.opened.sheet else { return Ok(()) };
        let rearranging = Rearranging { due: Rearrangement::new(sheet, order), slip };
        let sheet = rearranging.sheet(&self.pair.sheet);
        let mut numbers = self.numbers(most_numbers);
        numbers.extend(matched_numbers_of(self.seed, &self.opened));
        let mut rearranged = Rearranged { comparison: self, rearranging, sheet };
        rearranged.readings()?;
        rearranged.checks()?;
        rearranged.limits()?;
        rearranged.violating()?;
        numbers.into_iter().try_for_each(|number| rearranged.number(number))
    }
}

impl<S: Side> Rearranged<'_, '_, S> {
    /// What is answered to the rearranged sheet, beside what is due.
    fn alike<T: PartialEq + Debug>(&mut self, what: impl Display, answered: T, due: T) -> Compared {
        self.comparison.same(format_args!("{what} in order {:?}", self.rearranging.due.order), answered, due)
    }

    /// What the side answers to the rearranged sheet, and to the sheet.
    fn both<T>(&self, ask: impl Fn(&S, &[u8], &[u8]) -> T) -> (T, T) {
        let Comparison { side, pair: Pair { sheet, log }, .. } = &*self.comparison;
        (ask(side, &self.sheet, log), ask(side, sheet, log))
    }

    /// The rearranged sheet is accepted with the same N, rearranging it back gives the sheet, and the numbers correspond one to one.
    fn readings(&mut self) -> Compared {
        let (answered, read) = self.both(|side, sheet, _| side.read_sheet(sheet));
        let count = read.count;
        self.alike("N", answered, read)?;
        let back = self.rearranging.back().sheet(&self.sheet);
        let sheet = &self.comparison.pair.sheet;
        self.alike("the sheet, rearranged back", &back, sheet)?;
        if count > MOST_EACH {
            return Ok(());
        }
        let mut numbers: Vec<u64> = (1..=count).map(|number| self.rearranging.number(number)).collect();
        numbers.sort();
        self.alike("numbers, one to one,", numbers, (1..=count).collect())
    }

    /// The same verdict and placement, and the rows at fault moved.
    fn checks(&mut self) -> Compared {
        let (answered, due) = self.both(|side, sheet, log| side.check_number(sheet, log));
        self.alike("the verdict", answered, due)?;
        let (answered, checked) = self.both(|side, sheet, log| side.check(sheet, log));
        let due = self.moved(checked);
        self.alike("the check", answered, due)
    }

    /// The same outcome and numbers with a limit.
    fn limits(&mut self) -> Compared {
        for limit in limits_of(self.comparison.seed, &self.comparison.opened) {
            let (answered, limited) = self.both(|side, sheet, log| side.check_limited(sheet, log, limit));
            let due = LimitedCheck { checked: self.moved(limited.checked), ..limited };
            self.alike(format_args!("the check with limit {limit}"), answered, due)?;
        }
        Ok(())
    }

    fn moved(&self, mut checked: Checked) -> Checked {
        if checked.answer == VIOLATED {
            let rows = &mut checked.rows[GUARD..GUARD + checked.consequents as usize];
            let moved = self.rearranging.rows_at_fault(rows);
            rows.copy_from_slice(&moved);
        }
        checked
    }

    /// "the set of violating placements", by its definition, is the same, and the check gives its smallest.
    fn violating(&mut self) -> Compared {
        let Comparison { opened, pair, .. } = &self.comparison;
        let (Ok(sheet), Ok(log)) = (&opened.sheet, &opened.log) else { return Ok(()) };
        if placement_count(log, points(&sheet.section(0)).len(), MOST_GONE_THROUGH) == MOST_GONE_THROUGH {
            return Ok(());
        }
        let (answered, due) = (open(&self.sheet, &pair.log, Blunder::None).violating(), opened.violating());
        let smallest = due.iter().flatten().next().cloned();
        self.alike("the violating placements", answered, due)?;
        let (checked, _) = self.both(|side, sheet, log| side.check(sheet, log));
        let placement = || checked.positions[GUARD..GUARD + checked.points as usize].to_vec();
        self.alike("the smallest violating placement", (checked.answer == VIOLATED).then(placement), smallest)
    }

    /// A number, and what it becomes.
    fn number(&mut self, number: u64) -> Compared {
        let Some(rows) = self.text(number)? else { return Ok(()) };
        let matching = self.search(number, &rows)?;
        self.judgements(number, &rows, matching)
    }

    /// The text moved, byte for byte, and impossible alike; gives the rows, if the number is not refused.
    fn text(&mut self, number: u64) -> Result<Option<Vec<Row>>, Mismatch> {
        let becomes = self.rearranging.number(number);
        let Comparison { side, pair: Pair { sheet, .. }, .. } = &*self.comparison;
        let (ruled, due) = (side.impossible(&self.sheet, becomes), side.impossible(sheet, number));
        let (answered, first) = (side.write(&self.sheet, becomes, MOST_TEXT), side.write(sheet, number, MOST_TEXT));
        let text = (first.answer == 0).then(|| first.buffer[GUARD..GUARD + first.length].to_vec());
        let moved = text.as_ref().map(|text| self.rearranging.antiscenario(text)).ok_or(first.answer);
        self.alike(format_args!("the text of number {number}, now {becomes},"), answered, written(moved, MOST_TEXT))?;
        self.alike(format_args!("whether number {number}, now {becomes}, is impossible"), ruled, due)?;
        Ok(text.map(|text| sheet::rows_of(&text)))
    }

    /// Found or none alike, and what is found moved; gives what is found for the sheet.
    fn search(&mut self, number: u64, rows: &[Row]) -> Result<Option<Vec<u32>>, Mismatch> {
        let becomes = self.rearranging.number(number);
        let Comparison { side, pair: Pair { sheet, log }, .. } = &*self.comparison;
        let answered = side.search(&self.sheet, log, becomes, MOST_POINTS);
        let first = side.search(sheet, log, number, MOST_POINTS);
        let matching = (first.found == 1).then(|| first.places[GUARD..GUARD + points(rows).len()].to_vec());
        let moved = matching.as_ref().map(|matching| self.rearranging.positions(rows, matching));
        let due = searched(if first.answer == 0 { Ok(moved) } else { Err(first.answer) }, MOST_POINTS);
        self.alike(format_args!("the search of number {number}, now {becomes},"), answered, due)?;
        Ok(matching)
    }

    /// The matching found, every placement if they are few, and else some at random and near misses of the matching.
    fn judgements(&mut self, number: u64, rows: &[Row], matching: Option<Vec<u32>>) -> Compared {
        let Ok(log) = &self.comparison.opened.log else { return Ok(()) };
        let (n, count) = (log.n(), points(rows).len());
        if placement_count(log, count, FEW_PLACEMENTS + 1) <= FEW_PLACEMENTS {
            return placements(log, count).iter().try_for_each(|positions| self.judgement(number, rows, positions));
        }
        let random = &mut self.comparison.random;
        let mut tried: Vec<Vec<u32>> =
            (0..SOME_PLACEMENTS).map(|_| (0..count).map(|_| random.from_to(0, n + 1)).collect()).collect();
        if let Some(matching) = matching {
            let mut missed = matching.clone();
            missed[random.below(count)] = random.from_to(0, n + 1);
            tried.extend([matching, missed]);
        }
        tried.iter().try_for_each(|positions| self.judgement(number, rows, positions))
    }

    fn judgement(&mut self, number: u64, rows: &[Row], positions: &[u32]) -> Compared {
        let becomes = self.rearranging.number(number);
        let moved = self.rearranging.positions(rows, positions);
        let Comparison { side, pair: Pair { sheet, log }, .. } = &*self.comparison;
        let answered = side.judge(&self.sheet, log, becomes, &Table::of(&moved, 1));
        let due = side.judge(sheet, log, number, &Table::of(positions, 1));
        self.alike(format_args!("the judgement of number {number}, now {becomes}, at {positions:?}"), answered, due)
    }
}

/// Compares one pair with the seed's rearrangement of its sheet, for up to so many of the numbers; gives the number of comparisons.
pub fn compare_rearranged<S: Side>(side: &S, pair: &Pair, seed: u64, most_numbers: u64) -> Result<u64, Mismatch> {
    let mut comparison = Comparison::new(side, pair, seed);
    let k = comparison.opened.sheet.as_ref().map_or(0, |sheet| sheet.k);
    comparison.rearranged(&order_of(seed, k), most_numbers)?;
    Ok(comparison.comparisons)
}
