//! Document 02, A6: whether a number is impossible: with the reference, and by what is promised of this side's answers alone.
use super::{Compared, Comparison};
use crate::outcome::{Ruled, Side};

impl<S: Side> Comparison<'_, S> {
    pub fn ruling(&mut self, number: u64) -> Compared {
        let answered = self.side.impossible(&self.pair.sheet, number);
        self.same(format_args!("whether number {number} is impossible"), answered, self.opened.ruled(number))
    }

    /// Every number if there are few, else some, and the nearest ones outside.
    pub fn rulings(&mut self, most: u64) -> Compared {
        self.numbers(most).into_iter().try_for_each(|number| self.ruling(number))
    }

    pub fn is_impossible(&self, number: u64) -> bool {
        self.side.impossible(&self.pair.sheet, number) == Ruled { answer: 0, impossible: 1 }
    }

    /// "An impossible pattern must match no accepted log at all": such a number's search finds none, so that the others alone find what all find, and
    /// demand 3 holds over them.
    pub fn impossible_is_not_found(&mut self, number: u64, found: &Option<Vec<u32>>) -> Compared {
        if found.is_none() {
            return Ok(());
        }
        self.same(format_args!("demand 3: number {number} is found, and impossible"), self.is_impossible(number), false)
    }
}
