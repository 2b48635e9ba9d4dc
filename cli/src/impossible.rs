//! Document 02, A6: which antiscenarios no run can meet, by the library, and how many of those asked for.
use crate::numbered::{Numbers, MOST_UNASKED};
use crate::opened::Opened;
use satskhubo_interface::answer::{impossible, Answer, Failure, Ruled};
use std::sync::OnceLock;

pub fn is_impossible(opened: &Opened, number: u64) -> Answer<bool> {
    match impossible(&opened.input.bytes, number)? {
        Ruled::Impossible => Ok(true),
        Ruled::Possible => Ok(false),
        Ruled::Refused(refusal) => {
            Err(Failure(format!("whether antiscenario {number} is impossible is refused {}", refusal.number())))
        }
    }
}

/// The library's answers on the numbers asked for. Where these are few, each answer is asked for once and kept, however many logs there are.
pub struct Impossible {
    numbers: Numbers,
    kept: Vec<OnceLock<Answer<bool>>>,
}

impl Impossible {
    pub fn new(numbers: Numbers) -> Impossible {
        let kept = if numbers.total() > MOST_UNASKED { 0 } else { numbers.total() };
        Impossible { numbers, kept: (0..kept).map(|_| OnceLock::new()).collect() }
    }

    pub fn has(&self, opened: &Opened, number: u64) -> Answer<bool> {
        self.kept_or(number, || is_impossible(opened, number))
    }

    fn kept_or(&self, number: u64, ask: impl FnOnce() -> Answer<bool>) -> Answer<bool> {
        match self.kept.get((number - self.numbers.first) as usize) {
            Some(answer) => answer.get_or_init(ask).clone(),
            None => ask(),
        }
    }

    /// How many of the numbers no run can meet, where all answers can be kept; else none are asked for.
    pub fn count_few(&self, opened: &Opened) -> Answer<u64> {
        let few = self.numbers.each().take(self.kept.len());
        few.map(|number| self.has(opened, number).map(u64::from)).sum()
    }
}

/// Behind what was found: so many were not searched.
pub fn passed_over(impossible: u64) -> String {
    match impossible {
        0 => String::new(),
        1 => "; 1 that no run can meet was passed over".to_string(),
        _ => format!("; {impossible} that no run can meet were passed over"),
    }
}

/// Behind that none of so many is found.
pub fn of_them(impossible: u64, total: u64) -> String {
    match impossible {
        0 => String::new(),
        1 if total == 1 => "; no run can meet it".to_string(),
        _ if impossible == total => "; no run can meet any of them".to_string(),
        _ => format!("; {impossible} of them no run can meet"),
    }
}

#[cfg(test)]
mod tests {
    use super::{Impossible, MOST_UNASKED};
    use crate::numbered::Numbers;
    use satskhubo_interface::answer::{Answer, Failure};
    use std::cell::Cell;

    /// How often the library is asked in three rounds over some of the numbers, from a first one on.
    fn asked(first: u64, total: u64, answer: &Answer<bool>) -> u64 {
        let impossible = Impossible::new(Numbers { first, last: first + total - 1, are_all: false });
        let asked = Cell::new(0);
        for number in (first..first + 10).cycle().take(30) {
            let ask = || {
                asked.set(asked.get() + 1);
                answer.clone()
            };
            assert_eq!(impossible.kept_or(number, ask), *answer);
        }
        asked.get()
    }

    /// A failure is kept too, and never taken for an answer.
    #[test]
    fn few_numbers_are_asked_for_once() {
        for answer in [Ok(true), Ok(false), Err(Failure("refused".to_string()))] {
            assert_eq!(asked(1, MOST_UNASKED, &answer), 10);
            assert_eq!(asked(12_230_586_369, MOST_UNASKED, &answer), 10);
            assert_eq!(asked(1, MOST_UNASKED + 1, &answer), 30);
        }
    }
}
