//! Demand 3 on one pair: by the reference and the side's searches and check, or by the side's own answers alone; over all numbers, and over those
//! alone that the side says are possible (document 02, A6).
use super::{Compared, Comparison, Mismatch, MOST_EACH, SAMPLE};
use crate::expected::VIOLATED;
use crate::outcome::{Side, GUARD};
use crate::reference::antiscenario::antiscenario;
use crate::reference::cut::CutDown;
use crate::reference::log::Log;
use crate::reference::operations::MOST_POINTS;
use crate::reference::rows::points;
use crate::reference::sheet::Sheet;

impl<S: Side> Comparison<'_, S> {
    /// Demand 3, whole: the violating placements are what the matchings of numbers 1 to N are cut down to, and the side's check holds if there is
    /// none, and else gives the smallest. False where sheet or log is refused.
    pub fn demand_3(&mut self) -> Result<bool, Mismatch> {
        let (Ok(sheet), Ok(log)) = (&self.opened.sheet, &self.opened.log) else { return Ok(false) };
        let (sheet, log) = (sheet.clone(), log.clone());
        let cut = self.cut_down(&sheet, &log)?;
        let (smallest, given) = (cut.first().cloned(), self.given());
        self.same("demand 3: violating placements", Ok(cut), self.opened.violating())?;
        self.same("demand 3: the check's placement", given, smallest)?;
        Ok(true)
    }

    /// What the matchings of all numbers are cut down to, of which the side's search finds the smallest of each number's.
    fn cut_down(&mut self, sheet: &Sheet, log: &Log) -> Result<Vec<Vec<u32>>, Mismatch> {
        let mut cut_down = CutDown::new(sheet, log);
        let reached = match sheet.count <= MOST_EACH {
            true => self.by_numbers(sheet, &mut cut_down)?,
            false => self.by_placements(sheet, &mut cut_down)?,
        };
        Ok(cut_down.fronts.into_iter().zip(reached).filter_map(|(front, reached)| reached.then_some(front)).collect())
    }

    /// The fronts that some number's matchings are cut down to, number by number.
    fn by_numbers(&mut self, sheet: &Sheet, cut_down: &mut CutDown) -> Result<Vec<bool>, Mismatch> {
        let mut reached = vec![false; cut_down.fronts.len()];
        for number in 1..=sheet.count {
            let cut = self.search_of(sheet, cut_down, number)?;
            reached.iter_mut().zip(cut).for_each(|(reached, is_cut)| *reached |= is_cut);
        }
        Ok(reached)
    }

    /// The same, placement by placement, for any N: the number by which a front is reached is searched for some of them, and so is a sample.
    fn by_placements(&mut self, sheet: &Sheet, cut_down: &mut CutDown) -> Result<Vec<bool>, Mismatch> {
        let numbers = cut_down.reaching(sheet);
        let reaching = numbers.iter().flatten().copied().take(SAMPLE as usize).collect::<Vec<u64>>();
        let sample = self.numbers(SAMPLE).into_iter().filter(|number| (1..=sheet.count).contains(number));
        for number in reaching.into_iter().chain(sample.collect::<Vec<u64>>()) {
            let cut = self.search_of(sheet, cut_down, number)?;
            let inside = cut.iter().zip(&numbers).all(|(is_cut, reaching)| !is_cut || reaching.is_some());
            self.same(format_args!("demand 3: number {number} is cut down to what is reached"), inside, true)?;
        }
        for (index, number) in numbers.iter().enumerate() {
            let Some(number) = *number else { continue };
            let by_it = cut_down.of(&antiscenario(sheet, number))[index] && !self.is_impossible(number);
            self.same(format_args!("demand 3: number {number} reaches a front"), by_it, true)?;
        }
        Ok(numbers.iter().map(Option::is_some).collect())
    }

    /// The fronts that a number's matchings are cut down to, of which the side's search finds the smallest.
    fn search_of(&mut self, sheet: &Sheet, cut_down: &mut CutDown, number: u64) -> Result<Vec<bool>, Mismatch> {
        let cut = cut_down.of(&antiscenario(sheet, number));
        let smallest = cut.iter().position(|&is_cut| is_cut).map(|index| cut_down.fronts[index].clone());
        let searched = self.found(number);
        self.same(format_args!("demand 3: the search of number {number}"), &searched, &(0, smallest))?;
        self.impossible_is_not_found(number, &searched.1)?;
        Ok(cut)
    }

    /// Demand 3 from this side's own answers: the smallest that its searches of all its numbers find, none of them impossible, is what its check
    /// gives. Of many numbers a sample, which finds nothing smaller.
    pub fn demand_3_alone(&mut self) -> Compared {
        if self.opened.sheet.is_err() || self.opened.log.is_err() {
            return Ok(());
        }
        let (count, given) = (self.side.read_sheet(&self.pair.sheet).count, self.given());
        if count <= MOST_EACH {
            let smallest = self.smallest_found(count)?;
            return self.same("demand 3: the check and the searches of this side", given, smallest);
        }
        for number in self.numbers(SAMPLE) {
            let found = self.found(number).1;
            self.impossible_is_not_found(number, &found)?;
            let is_due = found.is_none() || given.is_some() && found >= given;
            self.same(format_args!("demand 3: the check and the search of number {number} of this side"), is_due, true)?;
        }
        Ok(())
    }

    /// The smallest that the side's searches of numbers 1 to so many find, of which none is impossible.
    fn smallest_found(&mut self, count: u64) -> Result<Option<Vec<u32>>, Mismatch> {
        let mut smallest: Option<Vec<u32>> = None;
        for number in 1..=count {
            let found = self.found(number).1;
            self.impossible_is_not_found(number, &found)?;
            smallest = smallest.into_iter().chain(found).min();
        }
        Ok(smallest)
    }

    fn antecedent_points(&self) -> usize {
        self.opened.sheet.as_ref().map_or(0, |sheet| points(&sheet.section(0)).len())
    }

    /// The answer of the side's search of a number, and what it found, cut down.
    fn found(&self, number: u64) -> (u32, Option<Vec<u32>>) {
        let searched = self.side.search(&self.pair.sheet, &self.pair.log, number, MOST_POINTS);
        let cut = || searched.places[GUARD..GUARD + self.antecedent_points()].to_vec();
        (searched.answer, (searched.found == 1).then(cut))
    }

    /// The placement that the side's check gives, if violated.
    fn given(&self) -> Option<Vec<u32>> {
        let checked = self.side.check(&self.pair.sheet, &self.pair.log);
        (checked.answer == VIOLATED).then(|| checked.positions[GUARD..GUARD + self.antecedent_points()].to_vec())
    }
}
