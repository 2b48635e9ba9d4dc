//! Texts made for each refusal and each boundary, with the refusal and the line that document 01 gives for them.
pub mod faults;
mod logs;
mod sheets;

use crate::generate::sheets::sheet_of;
pub use logs::logs;
pub use sheets::{all_before, counted, fullest, sheets, with_denials};

/// A text and what its reading must give: 0 when accepted, else the refusal and the part that it is about.
pub struct Case {
    pub name: String,
    pub text: Vec<u8>,
    pub answer: u32,
    pub offset: usize,
    pub length: usize,
}

const SHEET_FIRST: usize = 7;
const ROW: usize = 35;
const LOG_FIRST: usize = 28;
const LINE: usize = 15;

type Fields = [u32; 6];

fn replaced(text: &[u8], at: usize, bytes: &[u8]) -> Vec<u8> {
    let mut text = text.to_vec();
    text[at..at + bytes.len()].copy_from_slice(bytes);
    text
}

fn sheet_first(name: &str, text: Vec<u8>, answer: u32) -> Case {
    let length = if answer == 0 { 0 } else { text.len().min(SHEET_FIRST) };
    Case { name: name.into(), text, answer, offset: 0, length }
}

/// Refused at a row, numbered from 1.
fn sheet_row(name: &str, text: Vec<u8>, answer: u32, row: usize) -> Case {
    Case { name: name.into(), text, answer, offset: SHEET_FIRST + ROW * (row - 1), length: ROW }
}

fn log_first(name: &str, text: Vec<u8>, answer: u32) -> Case {
    let length = if answer == 0 { 0 } else { text.len().min(LOG_FIRST) };
    Case { name: name.into(), text, answer, offset: 0, length }
}

fn log_line(name: &str, text: Vec<u8>, answer: u32, line: usize) -> Case {
    Case { name: name.into(), text, answer, offset: LOG_FIRST + LINE * (line - 1), length: LINE }
}
