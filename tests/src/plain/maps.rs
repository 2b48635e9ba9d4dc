//! Where events stand, a map each: the line of a set that is next to a position is found in a few steps, however far away it is.

const EVENTS: usize = 64;
/// The words of a map, 64 positions each, and behind them one word that says which of them are not empty.
const WORDS: usize = 63;
const SUMMARY: usize = WORDS;

pub struct Maps {
    by_event: Box<[[u64; WORDS + 1]; EVENTS]>,
    /// The events that the log has.
    present: u64,
}

#[inline]
fn events_of(mut set: u64) -> impl Iterator<Item = usize> {
    std::iter::from_fn(move || {
        let event = set.trailing_zeros() as usize;
        set &= set.wrapping_sub(1);
        (event < EVENTS).then_some(event)
    })
}

impl Maps {
    /// Of the events at positions 1 and on.
    pub fn new(events: &[u8]) -> Maps {
        let mut by_event: Box<[[u64; WORDS + 1]; EVENTS]> = vec![[0; WORDS + 1]; EVENTS].try_into().expect("a map an event");
        let mut present = 0;
        for (position, &event) in (1..).zip(events) {
            by_event[event as usize][position / 64] |= 1 << (position % 64);
            present |= 1 << event;
        }
        for event in events_of(present) {
            let map = &mut by_event[event];
            map[SUMMARY] = (0..WORDS).filter(|&word| map[word] != 0).fold(0, |summary, word| summary | 1 << word);
        }
        Maps { by_event, present }
    }

    /// A word of the map that the events of a set have together.
    #[inline]
    fn union(&self, set: u64, word: u32) -> u64 {
        events_of(set).fold(0, |union, event| union | self.by_event[event][word as usize])
    }

    /// The first position after one with an event of the set.
    pub fn next(&self, after: u32, set: u64) -> Option<u32> {
        let (set, from) = (set & self.present, after + 1);
        let word = from / 64;
        let rest = self.union(set, word) >> (from % 64);
        if rest != 0 {
            return Some(from + rest.trailing_zeros());
        }
        let further = self.union(set, SUMMARY as u32) >> word >> 1;
        if further == 0 {
            return None;
        }
        let word = word + 1 + further.trailing_zeros();
        Some(64 * word + self.union(set, word).trailing_zeros())
    }

    /// The last position before one with an event of the set.
    pub fn last(&self, before: u32, set: u64) -> Option<u32> {
        let below = |bit: u32| (1 << bit) - 1;
        let (set, word) = (set & self.present, before / 64);
        let rest = self.union(set, word) & below(before % 64);
        if rest != 0 {
            return Some(64 * word + rest.ilog2());
        }
        let further = self.union(set, SUMMARY as u32) & below(word);
        if further == 0 {
            return None;
        }
        let word = further.ilog2();
        Some(64 * word + self.union(set, word).ilog2())
    }
}
