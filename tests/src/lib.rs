//! The independent checker of document 01 and the comparison of every operation of the C interface with it.
pub mod compare;
pub mod expected;
pub mod generate;
pub mod host;
pub mod json;
pub mod outcome;
pub mod plain;
pub mod random;
pub mod reference;
