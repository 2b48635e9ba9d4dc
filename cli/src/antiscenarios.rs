//! satskhubo antiscenarios: the patterns of every way to break a sheet's rule, or some of them, and which of these no run can meet.
use crate::arguments::{Asked, Form};
use crate::contradiction::{certified, Contradiction};
use crate::events::Events;
use crate::impossible::is_impossible;
use crate::json::{array, Object};
use crate::numbered::{how_to_ask, numbers, text, too_many, Numbers};
use crate::opened::{open, Opened};
use crate::output::{complain, Output, FAILED};
use crate::sheet::{Row, Sheet};
use crate::why;
use crate::words::asks;
use satskhubo_interface::answer::Answer;

pub fn run(asked: &Asked, output: &mut Output) -> i32 {
    let Some(opened) = open(asked, output) else { return FAILED };
    match say_all(asked, &opened, output) {
        Ok(status) => status,
        Err(failure) => {
            output.flush();
            complain(&failure.to_string());
            FAILED
        }
    }
}

fn say_all(asked: &Asked, opened: &Opened, output: &mut Output) -> Answer<i32> {
    let Some(numbers) = numbers(asked, opened, output)? else { return Ok(FAILED) };
    if asked.form != Form::Words && numbers.are_too_many() {
        complain(&too_many(asked, opened));
        return Ok(FAILED);
    }
    let mut impossible = 0;
    for number in numbers.listed().each() {
        let text = text(opened, number)?;
        if asked.form == Form::Plain && !asked.possible {
            output.say_bytes(&text);
            continue;
        }
        let antiscenario = Antiscenario::of(opened, number, &text)?;
        impossible += u64::from(antiscenario.why.is_some());
        if antiscenario.why.is_some() && asked.possible {
            continue;
        }
        match asked.form {
            Form::Plain => output.say_bytes(&text),
            Form::Words => output.say(&antiscenario.in_words(opened)),
            Form::Json => output.say(&antiscenario.object(opened, &text)),
        }
    }
    if asked.form == Form::Words {
        output.say(&last_lines(asked, opened, &numbers, impossible));
    }
    Ok(0)
}

struct Antiscenario {
    number: u64,
    rows: Vec<Row>,
    /// Where no run can meet it.
    why: Option<Contradiction>,
}

impl Antiscenario {
    fn of(opened: &Opened, number: u64, text: &[u8]) -> Answer<Antiscenario> {
        let antiscenario = Sheet::of(text)?;
        let why = certified(number, is_impossible(opened, number)?, &antiscenario)?;
        Ok(Antiscenario { number, rows: antiscenario.rows, why })
    }

    fn in_words(&self, opened: &Opened) -> String {
        let marked = if self.why.is_some() { ", which no run can meet" } else { "" };
        let mut said = format!("antiscenario {} of {}{marked}\n", self.number, opened.count);
        for row in &self.rows {
            said.push_str(&format!("  {:<8} {}\n", row.kind.name(), asks(row, &opened.events)));
        }
        if let Some(why) = &self.why {
            said.push_str(&format!("  impossible: {}\n", why::in_words(why, &opened.events)));
        }
        said
    }

    fn object(&self, opened: &Opened, text: &[u8]) -> String {
        let rows = array(self.rows.iter().map(|row| row_in_object(Object::new(), row, &opened.events).end()));
        let object = Object::new().number("number", self.number).number("of", opened.count).raw("rows", &rows);
        let object = object.text("text", &String::from_utf8_lossy(text)).flag("impossible", self.why.is_some());
        let object = match &self.why {
            Some(why) => object.raw("why", &why::in_object(why, &opened.events)),
            None => object,
        };
        object.end() + "\n"
    }
}

/// A row by its fields and in words, behind what the object has already.
pub fn row_in_object(object: Object, row: &Row, events: &Events) -> Object {
    let object = object.number("section", row.section).text("kind", row.kind.name()).number("p", row.p).number("q", row.q);
    object.number("a", row.a).number("b", row.b).text("words", &asks(row, events))
}

/// How many no run can meet or are left out, and how to ask for those that were not gone through.
fn last_lines(asked: &Asked, opened: &Opened, numbers: &Numbers, impossible: u64) -> String {
    if opened.count == 0 {
        return "the sheet has no antiscenarios: it holds on every log that is accepted\n".to_string();
    }
    let said = match asked.possible {
        true => left_out(numbers, impossible),
        false => contradictory(numbers.listed().total(), impossible),
    };
    match numbers.are_too_many() {
        true => said + &others(asked, opened, numbers.listed().total()),
        false => said,
    }
}

fn contradictory(listed: u64, impossible: u64) -> String {
    match (listed, impossible) {
        (1, _) | (_, 0) => String::new(),
        (_, 1) => format!("no run can meet 1 of these {listed} antiscenarios; --possible leaves it out\n"),
        _ if impossible == listed => format!("no run can meet any of these {listed} antiscenarios; --possible leaves them out\n"),
        _ => format!("no run can meet {impossible} of these {listed} antiscenarios; --possible leaves them out\n"),
    }
}

/// With --possible.
fn left_out(numbers: &Numbers, impossible: u64) -> String {
    let listed = numbers.listed();
    let (first, last, total) = (listed.first, listed.last, listed.total());
    let of = match (numbers.are_too_many(), numbers.are_all) {
        (true, _) => format!("the first {total} antiscenarios"),
        (false, true) => format!("the {total} antiscenarios"),
        (false, false) => format!("the antiscenarios {first} to {last}"),
    };
    match impossible {
        0 if total == 1 => String::new(),
        1 if total == 1 => format!("antiscenario {first} is left out, since no run can meet it\n"),
        0 => format!("none of {of} is left out\n"),
        1 => format!("1 of {of} is left out, since no run can meet it\n"),
        _ if impossible == total => format!("all of {of} are left out, since no run can meet them\n"),
        _ => format!("{impossible} of {of} are left out, since no run can meet them\n"),
    }
}

/// Where there are more than are gone through.
fn others(asked: &Asked, opened: &Opened, gone_through: u64) -> String {
    let (count, how_to_ask) = (opened.count, how_to_ask(asked));
    match asked.possible {
        true => format!("the first {gone_through} of {count} antiscenarios were gone through; {how_to_ask}\n"),
        false => format!("{gone_through} of {count} antiscenarios are listed; {how_to_ask}\n"),
    }
}
