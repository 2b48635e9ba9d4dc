//! satskhubo check: a verdict on each log.
use crate::arguments::{Asked, Command, Form};
use crate::input::{read, Input};
use crate::json::{array, Object};
use crate::limit::{all_looked_at, looked_in_columns, looked_in_object, so_far, up_to_this, HOW_TO_GO_ON};
use crate::log::{is_in, Log};
use crate::logs::{Listed, Logs};
use crate::names::Name;
use crate::opened::{named, no_facts, open, refused_columns, refused_object, Opened};
use crate::order::in_order;
use crate::output::{complain, Output, FAILED};
use crate::placed::{in_object, placed};
use crate::progress::Progress;
use crate::refusal::Refused;
use crate::remark::remark;
use crate::reply::{Reply, Reporter, Standing, Tally};
use crate::sheet::{Kind, Row};
use crate::violation::{rows_in_object, violation, Violation};
use crate::words::{file_line, line};
use satskhubo_interface::answer::{check, check_limited, Answer, Failure, LimitedVerdict, Looked, Refusal, Verdict};

/// The verdict in columns: document 01's, and one more for a check that stopped.
const HELD: u32 = 0;
const VIOLATED: u32 = 1;
const STOPPED: u32 = 2;

pub fn run(asked: &Asked, output: &mut Output) -> i32 {
    let Some(opened) = open(asked, output) else { return FAILED };
    say_remarks(&opened);
    let logs = Logs::of(&asked.logs, &opened.left_out());
    let task = Task { opened, form: asked.form, is_one: logs.is_one(), limit: asked.limit };
    let progress = Progress::new(logs.listed.len() as u64, "logs");
    let mut reporter = Reporter { output, progress: &progress, tally: Tally::default() };
    let work = |index: u64| {
        let reply = task.reply(&logs.listed[index as usize]);
        progress.step();
        reply
    };
    in_order(logs.listed.len() as u64, work, &mut reporter);
    let Reporter { tally, .. } = reporter;
    progress.end();
    if asked.form == Form::Words && !task.is_one {
        output.say(&logs.counted(&summary(&tally, asked.limit)));
    }
    tally.status(logs.listed.len())
}

/// A remark is no answer: it is said once for the sheet, in every form, on standard error.
fn say_remarks(opened: &Opened) {
    for (number, row) in (1..).zip(&opened.sheet.rows) {
        if let Some(remark) = remark(number, row) {
            complain(&format!("remark: {}, line {} of the file: {remark}", opened.input.name.words(), file_line(number)));
        }
    }
}

/// Without a limit no check stops.
fn summary(tally: &Tally, limit: Option<u64>) -> String {
    let Tally { clear, found, stopped, refused, not_read, .. } = tally;
    let stopped = limit.map_or(String::new(), |_| format!(", {stopped} stopped"));
    format!("{clear} hold, {found} violated{stopped}, {refused} refused, {not_read} not read{}", tally.failures())
}

struct Task {
    opened: Opened,
    form: Form,
    is_one: bool,
    limit: Option<u64>,
}

/// What a check found where the sheet is violated, and with a limit how far it has come.
struct Findings {
    placement: Vec<u32>,
    rows: Vec<u32>,
    looked: Option<Looked>,
}

impl Task {
    fn reply(&self, listed: &Listed) -> Reply {
        let (name, read) = match listed {
            Listed::Log(name) => (name, read(name)),
            Listed::Unreadable(name, sentence) => (name, Err(sentence.clone())),
        };
        let log = match read {
            Ok(log) => log,
            Err(sentence) => return unreadable(&self.opened, self.form, name, sentence),
        };
        self.answer(&log).unwrap_or_else(|failure| failed(&self.opened, self.form, name, failure))
    }

    fn answer(&self, log: &Input) -> Answer<Reply> {
        let sheet = &self.opened.input.bytes;
        match self.limit {
            None => self.without_limit(log, check(sheet, &log.bytes)?),
            Some(limit) => self.with_limit(log, check_limited(sheet, &log.bytes, limit)?),
        }
    }

    fn without_limit(&self, log: &Input, verdict: Verdict) -> Answer<Reply> {
        match verdict {
            Verdict::Holds => self.holds(log, None),
            Verdict::Violated { placement, rows } => self.violated(log, &Findings { placement, rows, looked: None }),
            Verdict::Refused(refusal) => refused(&self.opened, Command::Check, self.form, self.is_one, log, refusal),
        }
    }

    fn with_limit(&self, log: &Input, verdict: LimitedVerdict) -> Answer<Reply> {
        match verdict {
            LimitedVerdict::Holds(looked) => self.holds(log, Some(looked)),
            LimitedVerdict::Violated { placement, rows, looked } => {
                self.violated(log, &Findings { placement, rows, looked: Some(looked) })
            }
            LimitedVerdict::Stopped(looked) => Ok(self.stopped(&log.name, looked)),
            LimitedVerdict::Refused(refusal) => refused(&self.opened, Command::Check, self.form, self.is_one, log, refusal),
        }
    }

    /// Neither holds nor violated.
    fn stopped(&self, name: &Name, looked: Looked) -> Reply {
        let (log, sheet, points) = (name.words(), self.opened.input.name.words(), self.points().count());
        let text = match self.form {
            Form::Plain => first_line(STOPPED, Some(looked)),
            Form::Words if self.is_one => {
                let so_far = so_far(looked, &format!("the antecedent of {sheet}"), points);
                format!("stopped: {log} {so_far}\n  {HOW_TO_GO_ON}\n")
            }
            Form::Words => format!("{log}: stopped {}\n", so_far(looked, "the antecedent", points)),
            Form::Json => looked_in_object(no_facts(self.base(name, "stopped")), Some(looked)).end() + "\n",
        };
        Reply::new(Standing::Stopped(looked), text)
    }

    fn holds(&self, input: &Input, looked: Option<Looked>) -> Answer<Reply> {
        let (name, sheet) = (input.name.words(), self.opened.input.name.words());
        let facts = |log: &Log| self.events_in_words(log) + &all_looked_at(looked);
        let text = match self.form {
            Form::Plain => first_line(HELD, looked),
            Form::Words if self.is_one => {
                format!("holds: {name} keeps the rule of {sheet}{}\n", facts(&Log::of(&input.bytes)?))
            }
            Form::Words => format!("{name}: holds{}\n", facts(&Log::of(&input.bytes)?)),
            Form::Json => self.holds_object(&input.name, &Log::of(&input.bytes)?, looked),
        };
        Ok(Reply::new(Standing::Clear, text))
    }

    /// The rows of the antecedent's points.
    fn points(&self) -> impl Iterator<Item = &Row> {
        self.opened.sheet.section(0).filter(|row| row.kind == Kind::Point)
    }

    /// Each with the number of lines that have its events.
    fn antecedent<'a>(&'a self, log: &'a Log) -> impl Iterator<Item = (&'a Row, usize)> {
        self.points().map(|row| (row, log.lines.iter().filter(|line| is_in(line.event, row.set())).count()))
    }

    /// On how many lines the antecedent's events stand, so that a sheet that holds on nothing is seen.
    fn events_in_words(&self, log: &Log) -> String {
        let points: Vec<(&Row, usize)> = self.antecedent(log).collect();
        let lines_with = |row: &Row, lines| self.opened.events.lines_with(lines, row.set());
        match points[..] {
            [] => String::new(),
            [(row, lines)] => format!("; {}", lines_with(row, lines)),
            _ => {
                let each = points.iter().map(|&(row, lines)| format!("{} (point {})", lines_with(row, lines), row.p));
                format!("; {}", each.collect::<Vec<String>>().join(", "))
            }
        }
    }

    fn base(&self, name: &Name, verdict: &str) -> Object {
        named(Some(name), &self.opened.input.name).text("verdict", verdict).raw("refusal", "null")
    }

    fn holds_object(&self, name: &Name, log: &Log, looked: Option<Looked>) -> String {
        let point = |(row, lines): (&Row, usize)| {
            let object = Object::new().number("point", row.p).number("set", row.set()).number("a", row.a).number("b", row.b);
            object.number("lines", lines).end()
        };
        let object = no_facts(self.base(name, "holds")).raw("antecedent", &array(self.antecedent(log).map(point)));
        looked_in_object(object, looked).end() + "\n"
    }

    fn violated(&self, input: &Input, findings: &Findings) -> Answer<Reply> {
        let (text, uncertified) = match self.form {
            Form::Plain => (findings.plain(), None),
            Form::Words if !self.is_one => (findings.line(&input.name), None),
            Form::Words | Form::Json => self.violated_whole(input, findings)?,
        };
        let mut reply = Reply::new(Standing::Found, text);
        if let Some(sentence) = uncertified {
            reply.is_incomplete = true;
            reply.complaints.push(format!("{}: {sentence}", input.name.words()));
        }
        Ok(reply)
    }

    fn violated_whole(&self, input: &Input, findings: &Findings) -> Answer<(String, Option<String>)> {
        let Findings { placement, rows, looked } = findings;
        let log = Log::of(&input.bytes)?;
        let violation = violation(&self.opened, &input.bytes, &log, placement, rows)?;
        let text = match self.form {
            Form::Json => {
                let object = in_object(self.base(&input.name, "violated"), &placed(&log, placement)?);
                looked_in_object(rows_in_object(object, &violation.rows), *looked).end() + "\n"
            }
            Form::Words | Form::Plain => self.violated_words(input, &log, findings, &violation)?,
        };
        Ok((text, violation.uncertified.map(|failure| failure.to_string())))
    }

    fn violated_words(&self, input: &Input, log: &Log, findings: &Findings, violation: &Violation) -> Answer<String> {
        let Opened { input: sheet, events, .. } = &self.opened;
        let mut text = format!("violated: {} breaks the rule of {}\n", input.name.words(), sheet.name.words());
        for (point, placed) in (1..).zip(placed(log, &findings.placement)?) {
            text.push_str(&format!("  point {point} is at {}\n", placed.words(events)));
        }
        if let Some(looked) = findings.how_far() {
            text.push_str(&format!("  {looked}\n"));
        }
        if violation.rows.is_empty() {
            text.push_str("  the sheet has no consequent that could be met\n");
        }
        violation.rows.iter().for_each(|row| text.push_str(&row.words()));
        Ok(text)
    }
}

impl Findings {
    /// Document 01's columns.
    fn plain(&self) -> String {
        let positions: String = self.placement.iter().map(|position| format!("{position:>5}")).collect();
        let rows: String = self.rows.iter().map(|row| format!("{row:>4}")).collect();
        format!("{}{positions}\n{rows}\n", first_line(VIOLATED, self.looked))
    }

    /// One of several logs.
    fn line(&self, name: &Name) -> String {
        let lines: Vec<String> = self.placement.iter().map(|&position| line(position)).collect();
        let place = if lines.is_empty() { String::new() } else { format!(" at {}", lines.join("; ")) };
        let looked = self.how_far().map_or(String::new(), |looked| format!("; {looked}"));
        format!("{}: violated{place}{looked}\n", name.words())
    }

    fn how_far(&self) -> Option<String> {
        self.looked.map(|looked| up_to_this(looked, self.placement.len()))
    }
}

/// Refusal and verdict, and with a limit how far the check has come, in columns.
fn first_line(verdict: u32, looked: Option<Looked>) -> String {
    format!("{:>3}{verdict:>3}{}\n", 0, looked_in_columns(looked))
}

/// A log that is refused, in check and in search.
pub fn refused(opened: &Opened, command: Command, form: Form, is_one: bool, log: &Input, refusal: Refusal) -> Answer<Reply> {
    let refused = Refused::of_both(&opened.input, log, refusal)?;
    let text = match form {
        Form::Words if is_one => refused.whole(),
        Form::Words => refused.one_line(),
        Form::Plain => refused_columns(command, refusal),
        Form::Json => refused_object(Some(&log.name), &opened.input.name, &refused),
    };
    Ok(Reply::new(Standing::Refused, text))
}

/// A log that cannot be read, in check and in search.
pub fn unreadable(opened: &Opened, form: Form, name: &Name, sentence: String) -> Reply {
    Reply::complaint(Standing::NotRead, without_verdict(opened, form, name, "unreadable", &sentence), sentence)
}

/// A log on which the program failed, in check and in search.
pub fn failed(opened: &Opened, form: Form, name: &Name, failure: Failure) -> Reply {
    let text = without_verdict(opened, form, name, "failed", &failure.0);
    Reply::complaint(Standing::Failed, text, format!("{}: {failure}", name.words()))
}

/// In JSON each log has an object; in words and in columns only an answer stands on standard output.
fn without_verdict(opened: &Opened, form: Form, name: &Name, verdict: &str, error: &str) -> String {
    match form {
        Form::Words | Form::Plain => String::new(),
        Form::Json => {
            let object = named(Some(name), &opened.input.name).text("verdict", verdict).raw("refusal", "null");
            no_facts(object).text("error", error).end() + "\n"
        }
    }
}
