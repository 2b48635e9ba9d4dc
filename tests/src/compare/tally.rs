//! How much was compared.
use std::fmt::{Display, Formatter, Result};
use std::iter::Sum;
use std::ops::{Add, AddAssign};

#[derive(Clone, Copy, Debug, Default, PartialEq, Eq)]
pub struct Tally {
    pub pairs: u64,
    pub comparisons: u64,
    /// Pairs whose sheet or log is refused, of which demand 3 says nothing.
    pub refused: u64,
    /// Pairs on which demand 3 was asserted whole.
    pub whole: u64,
}

impl Add for Tally {
    type Output = Tally;

    fn add(self, other: Tally) -> Tally {
        Tally {
            pairs: self.pairs + other.pairs,
            comparisons: self.comparisons + other.comparisons,
            refused: self.refused + other.refused,
            whole: self.whole + other.whole,
        }
    }
}

impl AddAssign for Tally {
    fn add_assign(&mut self, other: Tally) {
        *self = *self + other;
    }
}

impl Sum for Tally {
    fn sum<I: Iterator<Item = Tally>>(tallies: I) -> Tally {
        tallies.fold(Tally::default(), Tally::add)
    }
}

impl Display for Tally {
    fn fmt(&self, f: &mut Formatter) -> Result {
        let Tally { pairs, refused, whole, .. } = self;
        write!(f, "demand 3 asserted whole on {whole} of {pairs} pairs, {refused} refused")
    }
}
