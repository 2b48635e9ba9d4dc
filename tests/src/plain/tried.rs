//! Document 02, A2: how many positions searches try, as they are now or as they were before.
use super::search::{Blame, Positions, Visitor, ENDED};

/// Counts up to a bound, at which it ends the search as if it had found a matching.
pub struct Tried<const GIVES_UP: bool> {
    pub count: u64,
    most: u64,
}

impl<const GIVES_UP: bool> Tried<GIVES_UP> {
    pub fn up_to(most: u64) -> Tried<GIVES_UP> {
        Tried { count: 0, most }
    }

    pub fn is_over(&self) -> bool {
        self.count > self.most
    }
}

impl<const GIVES_UP: bool> Visitor for Tried<GIVES_UP> {
    const GIVES_UP: bool = GIVES_UP;

    #[inline]
    fn tries(&mut self) -> bool {
        self.count += 1;
        self.is_over()
    }

    #[inline]
    fn sees(&mut self, _: &mut Positions) -> Blame {
        ENDED
    }
}
