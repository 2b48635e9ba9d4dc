//! Document 01 by its definitions and by brute force; shares nothing with the proved code.
pub mod antiscenario;
pub mod blunder;
pub mod columns;
pub mod cut;
pub mod far_end;
pub mod impossible;
mod impossible_slips;
mod limit_slips;
pub mod limited;
pub mod log;
pub mod operations;
pub mod rearranged;
pub mod rearranged_slips;
pub mod refusal;
pub mod rows;
pub mod sheet;
pub mod weeded;

#[cfg(test)]
mod brute_force;
#[cfg(test)]
mod examples;
#[cfg(test)]
mod targets;
