//! Which antiscenarios are asked for, and the text of each.
use crate::arguments::{Asked, Command, Form};
use crate::json::Object;
use crate::opened::Opened;
use crate::output::Output;
use crate::refusal::number_refused;
use satskhubo_interface::answer::{write, Answer, Failure, Refusal, Written};

/// Where no numbers are given, so many antiscenarios are listed, and so many have a line each in columns and in JSON.
pub const MOST_UNASKED: u64 = 4096;

/// The numbers asked for, from the first to the last, none of which is ever kept in a list: there may be 48^6.
#[derive(Clone, Copy)]
pub struct Numbers {
    pub first: u64,
    pub last: u64,
    /// None were given, so that 1 to N are meant.
    pub are_all: bool,
}

impl Numbers {
    pub fn total(&self) -> u64 {
        self.last.saturating_add(1).saturating_sub(self.first)
    }

    pub fn each(&self) -> impl Iterator<Item = u64> {
        self.first..=self.last
    }

    /// More than are listed where none are given.
    pub fn are_too_many(&self) -> bool {
        self.are_all && self.total() > MOST_UNASKED
    }

    /// As many of them as are listed.
    pub fn listed(&self) -> Numbers {
        match self.are_too_many() {
            true => Numbers { last: MOST_UNASKED, ..*self },
            false => *self,
        }
    }
}

/// The numbers asked for. None where the library refuses the first or the last, which is then said.
pub fn numbers(asked: &Asked, opened: &Opened, output: &mut Output) -> Answer<Option<Numbers>> {
    let Some(range) = &asked.numbers else { return Ok(Some(Numbers { first: 1, last: opened.count, are_all: true })) };
    let (first, last) = (*range.start(), *range.end());
    for number in [first, last] {
        match write(&opened.input.bytes, number)? {
            Written::Text(_) => {}
            Written::Refused(refusal @ Refusal::Number) => {
                output.say(&refused(asked.form, opened, refusal, &number_refused(number, opened.count)));
                return Ok(None);
            }
            Written::Refused(refusal) => return Err(unexpected(number, refusal)),
        }
    }
    Ok(Some(Numbers { first, last, are_all: false }))
}

fn refused(form: Form, opened: &Opened, refusal: Refusal, sentence: &str) -> String {
    match form {
        Form::Words => format!("refused {}: {sentence}\n", refusal.number()),
        Form::Plain => format!("{:>3}\n", refusal.number()),
        Form::Json => {
            let object = opened.input.name.in_object(Object::new(), "sheet");
            object.text("verdict", "refused").number("refusal", refusal.number()).text("words", sentence).end() + "\n"
        }
    }
}

fn unexpected(number: u64, refusal: Refusal) -> Failure {
    Failure(format!("antiscenario {number} of an accepted sheet is refused {}", refusal.number()))
}

/// How some of the numbers are asked for.
pub fn how_to_ask(asked: &Asked) -> String {
    let sheet = asked.sheet.words();
    match asked.command {
        Command::Search => "--number NUMBER or --number FIRST-LAST asks for some of them".to_string(),
        _ => format!("satskhubo antiscenarios {sheet} NUMBER or FIRST-LAST asks for others"),
    }
}

/// Columns and objects are for other programs, to which an answer is whole or none.
pub fn too_many(asked: &Asked, opened: &Opened) -> String {
    let (form, count) = (if asked.form == Form::Json { "--json" } else { "--plain" }, opened.count);
    let verdict = match asked.command {
        Command::Search => format!(", and satskhubo check {form} for the verdict, which is violated exactly if one is found"),
        _ => String::new(),
    };
    format!("the sheet has {count} antiscenarios, too many for {form} at once: {}{verdict}", how_to_ask(asked))
}

/// The text of an antiscenario whose number is in 1 to N.
pub fn text(opened: &Opened, number: u64) -> Answer<Vec<u8>> {
    match write(&opened.input.bytes, number)? {
        Written::Text(text) => Ok(text),
        Written::Refused(refusal) => Err(unexpected(number, refusal)),
    }
}
