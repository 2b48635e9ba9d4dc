//! Events by number and, where a file gives them, by name; and sets of events in words.
use crate::input::{read, Identity, Input};
use crate::names::{printable, Name};
use crate::number::number;
use std::collections::BTreeMap;
use std::ffi::OsStr;
use std::fs::{metadata, Metadata};
use std::os::unix::ffi::OsStrExt;
use std::os::unix::fs::MetadataExt;

/// Document 02, A1: events are 0 to 63.
pub const LAST_EVENT: u32 = 63;
/// The file that is looked for beside the sheet.
const BESIDE: &str = "events";

#[derive(Default)]
pub struct Events {
    names: BTreeMap<u32, String>,
    /// The file in use.
    pub identity: Option<Identity>,
}

/// A set as people say it.
enum Set {
    Empty,
    One(u32),
    Several(Vec<u32>),
    AllBut(Vec<u32>),
    All,
}

fn set_of(set: u64) -> Set {
    let (inside, outside): (Vec<u32>, Vec<u32>) = (0..u64::BITS).partition(|&event| crate::log::is_in(event, set));
    match inside[..] {
        [] => Set::Empty,
        [event] => Set::One(event),
        _ if outside.is_empty() => Set::All,
        _ if outside.len() < inside.len() => Set::AllBut(outside),
        _ => Set::Several(inside),
    }
}

impl Events {
    fn named(&self, event: u32) -> String {
        match self.names.get(&event) {
            Some(name) => format!("{event} ({name})"),
            None => event.to_string(),
        }
    }

    /// Events in ascending order, each with its name; from three on, those in a row that have none are said by the first and the last.
    fn list(&self, events: &[u32]) -> String {
        let has_name = |event: &u32| self.names.contains_key(event);
        let is_joined = |one: &u32, next: &u32| one + 1 == *next && !has_name(one) && !has_name(next);
        let said = |run: &[u32]| match *run {
            [first, _, .., last] => format!("{first} to {last}"),
            _ => run.iter().map(|&event| self.named(event)).collect::<Vec<String>>().join(", "),
        };
        events.chunk_by(is_joined).map(said).collect::<Vec<String>>().join(", ")
    }

    pub fn event(&self, event: u32) -> String {
        format!("event {}", self.named(event))
    }

    /// What a point that is in the set has.
    pub fn set(&self, set: u64) -> String {
        match set_of(set) {
            Set::Empty => "no event".to_string(),
            Set::One(event) => self.event(event),
            Set::Several(events) => format!("one of the events {}", self.list(&events)),
            Set::AllBut(events) => format!("any event but {}", self.list(&events)),
            Set::All => "any event".to_string(),
        }
    }

    /// That nothing of the set occurs.
    pub fn free_of(&self, set: u64) -> String {
        match set_of(set) {
            Set::Empty => "no event of the empty set occurs".to_string(),
            Set::One(event) => format!("{} does not occur", self.event(event)),
            Set::Several(events) => format!("none of the events {} occurs", self.list(&events)),
            Set::AllBut(events) => format!("no event but {} occurs", self.list(&events)),
            Set::All => "no event occurs".to_string(),
        }
    }

    /// On how many lines events of the set stand.
    pub fn lines_with(&self, count: usize, set: u64) -> String {
        match count {
            0 => format!("no line has {}", self.set(set)),
            1 => format!("1 line has {}", self.set(set)),
            _ => format!("{count} lines have {}", self.set(set)),
        }
    }

    /// The names in the file asked for, or in the one beside the sheet where there is one, and where it is not the sheet.
    pub fn of(asked: Option<&Name>, sheet: &Input) -> Result<Events, String> {
        if let Some(name) = asked {
            return Events::read(&read(name)?);
        }
        let beside = sheet.name.path().with_file_name(BESIDE);
        let is_another = |found: Metadata| found.is_file() && sheet.identity != Some((found.dev(), found.ino()));
        if sheet.name.is_standard_input() || !metadata(&beside).is_ok_and(is_another) {
            return Ok(Events::default());
        }
        let found = read(&Name::of_path(beside)).and_then(|file| Events::read(&file));
        found.map_err(|sentence| {
            format!("{sentence} (the file stands beside the sheet; --events names another, and --events /dev/null none)")
        })
    }

    fn read(file: &Input) -> Result<Events, String> {
        let mut events = Events { identity: file.identity, ..Events::default() };
        if file.is_cut {
            return Err(format!("{} is too long for names of events", file.name.words()));
        }
        for (index, line) in file.bytes.split(|&byte| byte == b'\n').enumerate() {
            let wrong = |sentence| format!("{}, line {}: {sentence}", file.name.words(), index + 1);
            events.add(line.trim_ascii()).map_err(wrong)?;
        }
        Ok(events)
    }

    /// A line of the file: a number, blanks and a name; or nothing, or a comment.
    fn add(&mut self, line: &[u8]) -> Result<(), String> {
        if line.is_empty() || line.starts_with(b"#") {
            return Ok(());
        }
        let blank = line.iter().position(u8::is_ascii_whitespace).unwrap_or(line.len());
        let (event, name) = (number(OsStr::from_bytes(&line[..blank]))?, line[blank..].trim_ascii());
        let Some(event) = u32::try_from(event).ok().filter(|&event| event <= LAST_EVENT) else {
            return Err(format!("event {event} is over {LAST_EVENT}"));
        };
        if name.is_empty() {
            return Err(format!("a name is missing behind event {event}"));
        }
        match self.names.insert(event, printable(name)) {
            None => Ok(()),
            Some(_) => Err(format!("event {event} is given twice")),
        }
    }
}

#[cfg(test)]
mod tests {
    use super::Events;

    fn said(events: &Events, set: u64) -> (String, String) {
        (events.set(set), events.free_of(set))
    }

    fn pair(one: &str, other: &str) -> (String, String) {
        (one.to_string(), other.to_string())
    }

    #[test]
    fn sets_in_words() {
        let mut events = Events::default();
        assert_eq!(said(&events, 8), pair("event 3", "event 3 does not occur"));
        assert_eq!(said(&events, 24), pair("one of the events 3, 4", "none of the events 3, 4 occurs"));
        assert_eq!(said(&events, u64::MAX), pair("any event", "no event occurs"));
        assert_eq!(said(&events, u64::MAX - 8), pair("any event but 3", "no event but 3 occurs"));
        for last in [31, 32, 63] {
            assert_eq!(events.set(1 << last), format!("event {last}"));
        }
        assert_eq!(events.set(0), "no event");
        events.add(b"3 \t lock mass").unwrap();
        assert_eq!(events.set(24), "one of the events 3 (lock mass), 4");
        events.add(b"63 last").unwrap();
        assert_eq!(events.set(1 << 63), "event 63 (last)");
        for line in ["3 again", "64 far", "4", "x y", "04 x", "-1 x"] {
            assert!(events.add(line.as_bytes()).is_err(), "{line}");
        }
    }

    #[test]
    fn events_in_a_row() {
        let mut events = Events::default();
        let (lower, upper) = (u64::from(u32::MAX), u64::MAX << 32);
        assert_eq!(said(&events, lower), pair("one of the events 0 to 31", "none of the events 0 to 31 occurs"));
        assert_eq!(said(&events, upper), pair("one of the events 32 to 63", "none of the events 32 to 63 occurs"));
        assert_eq!(events.set(lower | 1 << 40), "any event but 32 to 39, 41 to 63");
        assert_eq!(events.set(0b1101_1011), "one of the events 0, 1, 3, 4, 6, 7");
        assert_eq!(events.set(0b1110_1110), "one of the events 1 to 3, 5 to 7");
        // A name is said, and parts its row.
        events.add(b"40 source warm").unwrap();
        assert_eq!(events.set(upper), "one of the events 32 to 39, 40 (source warm), 41 to 63");
        events.add(b"42 source cold").unwrap();
        assert_eq!(events.set(0b1_1111 << 39), "one of the events 39, 40 (source warm), 41, 42 (source cold), 43");
        assert_eq!(events.set(!(0b1_1111 << 39)), "any event but 39, 40 (source warm), 41, 42 (source cold), 43");
    }
}
