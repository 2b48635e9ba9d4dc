//! The sheet that a command is about, read and accepted, with the names of events.
use crate::arguments::{Asked, Command, Form};
use crate::events::Events;
use crate::input::{read, Identity, Input};
use crate::json::Object;
use crate::names::Name;
use crate::output::{complain, Output};
use crate::placed::in_object;
use crate::refusal::Refused;
use crate::sheet::Sheet;
use crate::violation::rows_in_object;
use satskhubo_interface::answer::{read_sheet, Answer, Refusal, SheetRead};

pub struct Opened {
    pub input: Input,
    pub sheet: Sheet,
    /// Document 01: N, the number of antiscenarios.
    pub count: u64,
    pub events: Events,
}

impl Opened {
    /// The files that are no logs.
    pub fn left_out(&self) -> Vec<Identity> {
        self.input.identity.into_iter().chain(self.events.identity).collect()
    }
}

/// None where the sheet is not read or refused, which is then said.
pub fn open(asked: &Asked, output: &mut Output) -> Option<Opened> {
    let (input, events) = match read_both(asked) {
        Ok(both) => both,
        Err(sentence) => {
            complain(&sentence);
            return None;
        }
    };
    match accepted(input, events, asked, output) {
        Ok(opened) => opened,
        Err(failure) => {
            complain(&failure.to_string());
            None
        }
    }
}

fn read_both(asked: &Asked) -> Result<(Input, Events), String> {
    let sheet = read(&asked.sheet)?;
    let events = Events::of(asked.events.as_ref(), &sheet)?;
    Ok((sheet, events))
}

fn accepted(input: Input, events: Events, asked: &Asked, output: &mut Output) -> Answer<Option<Opened>> {
    match read_sheet(&input.bytes)? {
        SheetRead::Count(count) => Ok(Some(Opened { sheet: Sheet::of(&input.bytes)?, input, count, events })),
        SheetRead::Refused(refusal) => {
            output.say(&sheet_refused(&input, refusal, asked)?);
            Ok(None)
        }
    }
}

/// A refused sheet is said once, however many logs there are.
fn sheet_refused(input: &Input, refusal: Refusal, asked: &Asked) -> Answer<String> {
    let refused = Refused::of_sheet(input, refusal)?;
    Ok(match (asked.form, asked.command) {
        (Form::Words, _) => refused.whole(),
        (Form::Plain, command) => refused_columns(command, refusal),
        (Form::Json, _) => {
            let file = if let [log] = &asked.logs[..] { Some(log) } else { None };
            refused_object(file, &input.name, &refused)
        }
    })
}

/// Document 01's columns have a verdict behind the refusal, which is then 0.
pub fn refused_columns(command: Command, refusal: Refusal) -> String {
    match command {
        Command::Check => format!("{:>3}{:>3}\n", refusal.number(), 0),
        Command::Antiscenarios | Command::Search | Command::Explain => format!("{:>3}\n", refusal.number()),
    }
}

/// The log's name, or null, and the sheet's.
pub fn named(file: Option<&Name>, sheet: &Name) -> Object {
    let object = match file {
        Some(file) => file.in_object(Object::new(), "file"),
        None => Object::new().raw("file", "null"),
    };
    sheet.in_object(object, "sheet")
}

pub fn refused_object(file: Option<&Name>, sheet: &Name, refused: &Refused) -> String {
    let object = named(file, sheet).text("verdict", "refused").number("refusal", refused.number());
    refused.in_object(no_facts(object)).end() + "\n"
}

/// The facts of a verdict, where there is none.
pub fn no_facts(object: Object) -> Object {
    rows_in_object(in_object(object, &[]), &[])
}
