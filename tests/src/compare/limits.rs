//! Document 02, A10: the check with each of some limits on one pair: with the reference, and by what is promised of this side's answers alone.
use super::{Compared, Comparison};
use crate::expected::{HOLDS, STOPPED, VIOLATED};
use crate::generate::arguments::limits_of;
use crate::outcome::{Checked, LimitedCheck, Side};

/// A limit, and what the side answers to it.
type Answered = (u64, LimitedCheck);

impl<S: Side> Comparison<'_, S> {
    /// The limits of the seed.
    pub fn limits(&mut self) -> Compared {
        self.limited_to(limits_of(self.seed, &self.opened))
    }

    /// Every limit that makes a difference, and the largest.
    pub fn every_limit(&mut self) -> Compared {
        let count = self.opened.fronts().map_or(0, |fronts| fronts.len() as u64);
        self.limited_to((0..=count + 1).chain([u64::MAX]).collect())
    }

    /// These limits, which are in order.
    fn limited_to(&mut self, limits: Vec<u64>) -> Compared {
        let answers = self.answers(limits);
        for (limit, answered) in &answers {
            let expected = self.opened.limited_check(*limit);
            self.same(format_args!("check with limit {limit}"), answered, &expected)?;
        }
        self.keeps_promises(&answers)
    }

    /// What is promised of the check with a limit, with no look at the reference's.
    pub fn limits_alone(&mut self) -> Compared {
        let answers = self.answers(limits_of(self.seed, &self.opened));
        self.keeps_promises(&answers)
    }

    fn answers(&self, limits: Vec<u64>) -> Vec<Answered> {
        limits.into_iter().map(|limit| (limit, self.side.check_limited(&self.pair.sheet, &self.pair.log, limit))).collect()
    }

    fn keeps_promises(&mut self, answers: &[Answered]) -> Compared {
        let without_limit = self.side.check(&self.pair.sheet, &self.pair.log);
        let violating = self.opened.violating().map_or(0, |violating| violating.len() as u64);
        for answered in answers {
            self.agrees_unless_stopped(answered, &without_limit)?;
            self.leaves_room(answered, violating)?;
        }
        answers.windows(2).try_for_each(|next| self.takes_nothing_back(&next[0], &next[1]))
    }

    /// "Unless it stops, it agrees with the patterns as before": it is the check. It stops at the limit, and at the largest never.
    fn agrees_unless_stopped(&mut self, (limit, answered): &Answered, without_limit: &Checked) -> Compared {
        if answered.checked.answer != STOPPED {
            return self.same(format_args!("limit {limit}: the check without one"), &answered.checked, without_limit);
        }
        let is_at_limit = answered.looked == *limit && *limit < u64::MAX;
        self.same(format_args!("limit {limit}: stopped after {}", answered.looked), is_at_limit, true)
    }

    /// No more are looked at than the limit says; "of the n^p placements of the p antecedent points, at most that many, besides the one reported, can
    /// be violating".
    fn leaves_room(&mut self, (limit, answered): &Answered, violating: u64) -> Compared {
        let LimitedCheck { looked, after, .. } = *answered;
        let reported = match answered.checked.answer {
            HOLDS | STOPPED => 0,
            VIOLATED => 1,
            _ => return Ok(()),
        };
        self.same(format_args!("limit {limit}: {looked} looked at"), looked <= *limit, true)?;
        let what = format_args!("limit {limit}: {violating} violating, {reported} reported and {after} after");
        self.same(what, violating <= after.saturating_add(reported), true)
    }

    /// "A larger L never takes back holds or violated", nor anything else of that answer.
    fn takes_nothing_back(&mut self, (limit, answered): &Answered, (larger, further): &Answered) -> Compared {
        if answered.checked.answer == STOPPED {
            return Ok(());
        }
        self.same(format_args!("limit {larger} beside limit {limit}"), further, answered)
    }
}
