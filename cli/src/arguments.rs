//! What the command line asks for: a command, its options and its names, or a sentence that says what is wrong with it.
use crate::names::{printable, Name};
use crate::nearest::nearest;
use crate::number::{number, range};
use std::ffi::{OsStr, OsString};
use std::ops::RangeInclusive;
use std::os::unix::ffi::OsStrExt;

#[derive(Clone, Copy, Debug, PartialEq, Eq)]
pub enum Command {
    Check,
    Antiscenarios,
    Search,
    Explain,
}

const COMMANDS: [(&str, Command); 4] = [
    ("check", Command::Check),
    ("antiscenarios", Command::Antiscenarios),
    ("search", Command::Search),
    ("explain", Command::Explain),
];

const OPTIONS: [&str; 8] = ["--plain", "--json", "--events", "--number", "--limit", "--possible", "--help", "--version"];

#[derive(Clone, Copy, Debug, PartialEq, Eq)]
pub enum Form {
    Words,
    Plain,
    Json,
}

/// A command to carry out.
#[derive(Debug)]
pub struct Asked {
    pub command: Command,
    pub form: Form,
    pub events: Option<Name>,
    /// The antiscenarios asked for; none for all.
    pub numbers: Option<RangeInclusive<u64>>,
    /// How many of the antecedent's matchings the check looks at, at most; none for all.
    pub limit: Option<u64>,
    /// Antiscenarios that no run can meet are left out.
    pub possible: bool,
    pub sheet: Name,
    pub logs: Vec<Name>,
}

#[derive(Debug)]
pub enum Request {
    Help(Option<Command>),
    Version,
    Carry(Asked),
}

/// The words behind the command, sorted into options and names.
#[derive(Default)]
struct Sorted {
    plain: bool,
    json: bool,
    possible: bool,
    events: Option<OsString>,
    number: Option<OsString>,
    limit: Option<OsString>,
    names: Vec<OsString>,
    request: Option<Request>,
}

pub fn request(words: &[OsString]) -> Result<Request, String> {
    let Some(first) = words.first() else {
        return Err("a command is missing: check, antiscenarios, search or explain".to_string());
    };
    if first == "--help" {
        return Ok(Request::Help(None));
    }
    if first == "--version" {
        return Ok(Request::Version);
    }
    let command = command_of(first)?;
    let sorted = sorted(command, &words[1..])?;
    match sorted.request {
        Some(request) => Ok(request),
        None => settled(command, sorted).map(Request::Carry),
    }
}

fn command_of(word: &OsStr) -> Result<Command, String> {
    let text = word.to_string_lossy();
    if let Some((_, command)) = COMMANDS.iter().find(|(name, _)| *name == text) {
        return Ok(*command);
    }
    let shown = printable(word.as_bytes());
    if OPTIONS.contains(&text.as_ref()) {
        return Err(format!("{shown} stands behind the command: check, antiscenarios, search or explain"));
    }
    if text.starts_with('-') {
        return Err(format!("there is no option {shown}; the nearest is {}", nearest(&text, &OPTIONS)));
    }
    let names = COMMANDS.map(|(name, _)| name);
    Err(format!("there is no command {shown}; the nearest is {}", nearest(&text, &names)))
}

/// An option's name, and its value where one stands behind `=`.
fn split(word: &OsStr) -> (&OsStr, Option<&OsStr>) {
    let bytes = word.as_bytes();
    match bytes.iter().position(|&byte| byte == b'=') {
        Some(at) => (OsStr::from_bytes(&bytes[..at]), Some(OsStr::from_bytes(&bytes[at + 1..]))),
        None => (word, None),
    }
}

fn sorted(command: Command, words: &[OsString]) -> Result<Sorted, String> {
    let mut sorted = Sorted::default();
    let mut words = words.iter();
    while let Some(word) = words.next() {
        let is_name = word == "-" || !word.as_bytes().starts_with(b"-");
        if word == "--" {
            sorted.names.extend(words.by_ref().cloned());
        } else if is_name {
            sorted.names.push(word.clone());
        } else {
            sorted.option(command, word, &mut words)?;
        }
    }
    Ok(sorted)
}

impl Sorted {
    fn option<'a>(
        &mut self,
        command: Command,
        word: &'a OsStr,
        rest: &mut impl Iterator<Item = &'a OsString>,
    ) -> Result<(), String> {
        let (name, value) = split(word);
        let shown = printable(name.as_bytes());
        let name = name.to_string_lossy();
        match name.as_ref() {
            "--events" => return keep(&mut self.events, &name, value.or_else(|| rest.next().map(OsString::as_os_str))),
            "--number" => return keep(&mut self.number, &name, value.or_else(|| rest.next().map(OsString::as_os_str))),
            "--limit" => return keep(&mut self.limit, &name, value.or_else(|| rest.next().map(OsString::as_os_str))),
            "--plain" => self.plain = true,
            "--json" => self.json = true,
            "--possible" => self.possible = true,
            "--help" => self.request = Some(Request::Help(Some(command))),
            "--version" => self.request = Some(Request::Version),
            negative if negative[1..].bytes().all(|byte| byte.is_ascii_digit()) => {
                return Err(format!("{shown} is neither an option nor a number; numbers are decimal digits and nothing else"));
            }
            unknown => {
                let nearest = nearest(unknown, &OPTIONS);
                return Err(format!(
                    "there is no option {shown}; the nearest is {nearest} (names that begin with a dash stand behind --)"
                ));
            }
        }
        match value {
            Some(_) => Err(format!("{shown} takes no value")),
            None => Ok(()),
        }
    }
}

fn keep(place: &mut Option<OsString>, option: &str, value: Option<&OsStr>) -> Result<(), String> {
    let Some(value) = value else {
        return Err(format!("{option} needs a value behind it"));
    };
    if place.is_some() {
        return Err(format!("{option} is given twice"));
    }
    *place = Some(value.to_os_string());
    Ok(())
}

fn form_of(command: Command, sorted: &Sorted) -> Result<Form, String> {
    match (sorted.plain, sorted.json) {
        (true, true) => Err("--plain and --json exclude each other".to_string()),
        (true, false) if command == Command::Explain => Err("--plain is not for explain".to_string()),
        (true, false) => Ok(Form::Plain),
        (false, true) => Ok(Form::Json),
        (false, false) => Ok(Form::Words),
    }
}

/// The number of an antiscenario, or FIRST-LAST, by the option or behind the sheet.
fn numbers_of(
    command: Command,
    by_option: Option<OsString>,
    names: &mut Vec<OsString>,
) -> Result<Option<RangeInclusive<u64>>, String> {
    let by_name = if command == Command::Antiscenarios { names.pop() } else { None };
    match (command, by_option, by_name) {
        (Command::Check | Command::Explain, Some(_), _) => Err("--number is for search and antiscenarios".to_string()),
        (_, Some(_), Some(_)) => Err("the number is given twice".to_string()),
        (_, Some(text), None) | (_, None, Some(text)) => range(&text).map(Some),
        (_, None, None) => Ok(None),
    }
}

/// Document 02, A10: no command but check has a limit.
fn limit_of(command: Command, by_option: Option<OsString>) -> Result<Option<u64>, String> {
    match (command, by_option) {
        (_, None) => Ok(None),
        (Command::Check, Some(text)) => number(&text).map(Some).map_err(|sentence| format!("--limit: {sentence}")),
        (Command::Antiscenarios | Command::Search | Command::Explain, Some(_)) => Err("--limit is for check".to_string()),
    }
}

fn settled(command: Command, sorted: Sorted) -> Result<Asked, String> {
    let form = form_of(command, &sorted)?;
    let limit = limit_of(command, sorted.limit)?;
    if sorted.possible && command != Command::Antiscenarios {
        return Err("--possible is for antiscenarios".to_string());
    }
    let mut names = sorted.names.into_iter();
    let Some(sheet) = names.next() else {
        return Err("a sheet is missing".to_string());
    };
    let mut rest: Vec<OsString> = names.collect();
    let (least, most) = match command {
        Command::Check | Command::Search => (1, usize::MAX),
        Command::Antiscenarios => (0, 1),
        Command::Explain => (0, 0),
    };
    if rest.len() < least {
        return Err("a log is missing".to_string());
    }
    if rest.len() > most {
        return Err(format!("{} is one name too many", printable(rest[most].as_bytes())));
    }
    let numbers = numbers_of(command, sorted.number, &mut rest)?;
    let asked = Asked {
        command,
        form,
        events: sorted.events.map(|name| Name::new(&name)),
        numbers,
        limit,
        possible: sorted.possible,
        sheet: Name::new(&sheet),
        logs: rest.iter().map(|name| Name::new(name)).collect(),
    };
    standard_input_once(&asked)?;
    Ok(asked)
}

fn standard_input_once(asked: &Asked) -> Result<(), String> {
    if asked.events.as_ref().is_some_and(Name::is_standard_input) {
        return Err("the names of events cannot come from standard input".to_string());
    }
    let names = std::iter::once(&asked.sheet).chain(&asked.logs);
    match names.filter(|name| name.is_standard_input()).count() {
        0 | 1 => Ok(()),
        _ => Err("- is given twice: standard input can be read once".to_string()),
    }
}
