//! Sheets and logs for the tests: random, enumerated, damaged at random, and damaged for each refusal.
pub mod arguments;
pub mod cases;
pub mod chains;
pub mod damage;
pub mod families;
pub mod joined;
pub mod logs;
pub mod pairs;
pub mod rearranged;
pub mod rules;
pub mod sheets;
pub mod targeted;

/// A sheet and a log, as texts.
#[derive(Clone, Debug)]
pub struct Pair {
    pub sheet: Vec<u8>,
    pub log: Vec<u8>,
}
