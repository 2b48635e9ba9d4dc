//! A violation: for each consequent its row at fault, what the row asks, and, where the library certifies it, what was found.
use crate::certificate::certify;
use crate::events::Events;
use crate::found::{Fault, Walk};
use crate::json::{array, Object};
use crate::log::Log;
use crate::opened::Opened;
use crate::sheet::Sheet;
use crate::words::asks;
use satskhubo_interface::answer::{Answer, Failure};

pub struct AtFault {
    consequent: u32,
    number: u32,
    kind: &'static str,
    asked: String,
    found: Option<String>,
}

pub struct Violation {
    pub rows: Vec<AtFault>,
    /// Why nothing is said of what was found.
    pub uncertified: Option<Failure>,
}

pub fn violation(opened: &Opened, log_text: &[u8], log: &Log, placement: &[u32], rows: &[u32]) -> Answer<Violation> {
    let (sheet, events) = (&opened.sheet, &opened.events);
    if rows.len() != sheet.consequents as usize {
        return Err(Failure(format!("{} rows at fault where there are {} consequents", rows.len(), sheet.consequents)));
    }
    let (found, uncertified) = match certified(opened, log_text, log, placement, rows) {
        Ok(found) => (found.into_iter().map(Some).collect(), None),
        Err(failure) => (vec![None; rows.len()], Some(failure)),
    };
    let at_fault = |((consequent, &number), found)| at_fault(sheet, events, consequent, number, found);
    let rows = (1..).zip(rows).zip(found).map(at_fault).collect::<Answer<_>>()?;
    Ok(Violation { rows, uncertified })
}

fn at_fault(sheet: &Sheet, events: &Events, consequent: u32, number: u32, found: Option<String>) -> Answer<AtFault> {
    let row = sheet.row(number)?;
    Ok(AtFault { consequent, number, kind: row.kind.name(), asked: asks(row, events), found })
}

/// What was found for each consequent, after the library has judged that it is so.
fn certified(opened: &Opened, log_text: &[u8], log: &Log, placement: &[u32], rows: &[u32]) -> Answer<Vec<String>> {
    let lost = || Failure("what was found could not be certified: a point has no position".to_string());
    let sheet = &opened.sheet;
    let mut walk = Walk::new(log, sheet, placement).ok_or_else(lost)?;
    let mut faults = Vec::new();
    for (consequent, &number) in (1..).zip(rows) {
        let finding = walk.finding(sheet, number).ok_or_else(lost)?;
        faults.push(Fault { consequent, number, row: sheet.row(number)?, finding });
    }
    certify(&opened.input.bytes, log_text, sheet, &walk, &faults)?;
    let words = |fault: &Fault| walk.words(fault.row, &fault.finding, &opened.events).ok_or_else(lost);
    faults.iter().map(words).collect()
}

impl AtFault {
    pub fn words(&self) -> String {
        let AtFault { consequent, number, kind, asked, .. } = self;
        let found = self.found.as_ref().map_or(String::new(), |found| format!("    found: {found}\n"));
        format!("  consequent {consequent} cannot be met: row {number}, {kind}\n    asked: {asked}\n{found}")
    }

    fn object(&self) -> String {
        let object = Object::new().number("consequent", self.consequent).number("row", self.number);
        object.text("kind", self.kind).text("asked", &self.asked).optional("found", self.found.as_deref()).end()
    }
}

pub fn rows_in_object(object: Object, rows: &[AtFault]) -> Object {
    object.raw("rows", &array(rows.iter().map(AtFault::object)))
}
