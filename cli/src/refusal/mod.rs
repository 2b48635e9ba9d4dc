//! A refusal in words. The library's number decides; what is said of the text only adds to it, and where nothing can be said the
//! rule stands alone.
mod fields;
mod lengths;
mod lines;
mod rows;
mod rules;

use crate::columns::{length, LINE, LOG_FIRST, ROW, SHEET_FIRST};
use crate::input::Input;
use crate::json::Object;
use crate::names::columns;
use satskhubo_interface::answer::{show, Answer, Failure, Refusal, Shown};
use std::ops::Range;

/// A refusal of the check, and the part of a text that it is about.
pub struct Refused<'a> {
    refusal: Refusal,
    of_log: bool,
    part: Range<usize>,
    /// The bytes of that part, as the library hands them back.
    line: Vec<u8>,
    text: &'a Input,
}

impl<'a> Refused<'a> {
    pub fn of_sheet(sheet: &'a Input, refusal: Refusal) -> Answer<Refused<'a>> {
        shown(refusal, show(&sheet.bytes, &[])?, sheet, sheet)
    }

    pub fn of_both(sheet: &'a Input, log: &'a Input, refusal: Refusal) -> Answer<Refused<'a>> {
        shown(refusal, show(&sheet.bytes, &log.bytes)?, sheet, log)
    }

    pub fn number(&self) -> u32 {
        self.refusal.number()
    }

    /// The row or the line that the refusal is about, from 0; none where it is the whole text or its first line.
    fn index(&self) -> Option<usize> {
        match self.refusal {
            Refusal::RowMalformed
            | Refusal::Section
            | Refusal::Kind
            | Refusal::PointP
            | Refusal::PointQ
            | Refusal::Fields
            | Refusal::SectionTooLong => Some(self.part.start.checked_sub(length(&SHEET_FIRST))? / length(&ROW)),
            Refusal::LineMalformed | Refusal::Event | Refusal::Tick => {
                Some(self.part.start.checked_sub(length(&LOG_FIRST))? / length(&LINE))
            }
            Refusal::SheetFirstLine
            | Refusal::SheetCounts
            | Refusal::SheetLength
            | Refusal::LogFirstLine
            | Refusal::LineCount
            | Refusal::LogLength
            | Refusal::Close
            | Refusal::Number
            | Refusal::Buffer
            | Refusal::Places
            | Refusal::Positions => None,
        }
    }

    fn file_line(&self) -> usize {
        self.index().map_or(1, |index| index + 2)
    }

    /// What is wrong and what was expected, a sentence a line.
    fn sentences(&self) -> Vec<String> {
        let bytes = &self.text.bytes;
        let said = match (self.refusal, self.index().unwrap_or(0)) {
            (Refusal::SheetFirstLine, _) => fields::sheet_first_line(bytes),
            (Refusal::SheetCounts, _) => fields::sheet_counts(bytes),
            (Refusal::SheetLength, _) => lengths::of_sheet(self.text),
            (Refusal::RowMalformed, _) => fields::row(&self.line),
            (Refusal::Section, index) => rows::section(bytes, index),
            (Refusal::Kind, index) => rows::kind(bytes, index),
            (Refusal::PointP, index) => rows::point_p(bytes, index),
            (Refusal::PointQ, index) => rows::point_q(bytes, index),
            (Refusal::Fields, index) => rows::fields(bytes, index),
            (Refusal::SectionTooLong, index) => rows::too_long(bytes, index),
            (Refusal::LogFirstLine, _) => fields::log_first_line(bytes),
            (Refusal::LineCount, _) => fields::line_count(bytes),
            (Refusal::LogLength, _) => lengths::of_log(self.text),
            (Refusal::LineMalformed, _) => fields::line(&self.line),
            (Refusal::Event, index) => lines::event(bytes, index),
            (Refusal::Tick, index) => lines::tick(bytes, index),
            (Refusal::Close, _) => lines::close(bytes),
            (Refusal::Number | Refusal::Buffer | Refusal::Places | Refusal::Positions, _) => Ok(Vec::new()),
        };
        let mut sentences = said.unwrap_or_default();
        if sentences.is_empty() {
            sentences.push(rules::rule(self.refusal).to_string());
        }
        if self.text.is_cut {
            sentences.push("the file has more than 1,048,576 bytes, more than any that is accepted".to_string());
        }
        sentences
    }

    /// The refusal with the line and what is wrong with it, for one log.
    pub fn whole(&self) -> String {
        let noun = if self.of_log { "log" } else { "sheet" };
        let place = match (self.index(), self.of_log) {
            (None, _) => String::new(),
            (Some(index), true) => format!(", line {} of the log, line {} of the file", index + 1, self.file_line()),
            (Some(index), false) => format!(", row {}, line {} of the file", index + 1, self.file_line()),
        };
        let mut said = format!("refused {}: the {noun} {}{place}\n", self.number(), self.text.name.words());
        let shown = self.line.strip_suffix(b"\n").unwrap_or(&self.line);
        if !shown.is_empty() {
            said.push_str(&format!("  [{}]\n", columns(shown)));
        }
        for sentence in self.sentences() {
            said.push_str(&format!("  {sentence}\n"));
        }
        said
    }

    /// The refusal of one of several logs.
    pub fn one_line(&self) -> String {
        let place = self.index().map_or(String::new(), |index| format!(", line {}", index + 1));
        format!("{}: refused {}{place}: {}\n", self.text.name.words(), self.number(), self.sentences().join("; "))
    }

    pub fn in_object(&self, object: Object) -> Object {
        let object = object.text("of", if self.of_log { "log" } else { "sheet" });
        object.number("line", self.file_line()).text("words", &self.sentences().join("; "))
    }
}

/// The line of a refusal; what the library shows is of the same refusal.
fn shown<'a>(expected: Refusal, shown: Shown, sheet: &'a Input, log: &'a Input) -> Answer<Refused<'a>> {
    match shown {
        Shown::Line { refusal, of_log, part, bytes } if refusal == expected => {
            Ok(Refused { refusal, of_log, part, line: bytes, text: if of_log { log } else { sheet } })
        }
        Shown::Line { refusal, .. } => {
            Err(Failure(format!("refused {}, and the line of refusal {} is shown", expected.number(), refusal.number())))
        }
        Shown::NothingRefused => Err(Failure(format!("refused {}, and no line is shown", expected.number()))),
    }
}

/// The refusal of an antiscenario's number.
pub fn number_refused(number: u64, count: u64) -> String {
    match count {
        0 => format!("{number} is not the number of an antiscenario: this sheet has none"),
        _ => format!("{number} is not in 1 to {count}, the numbers of this sheet's antiscenarios"),
    }
}
