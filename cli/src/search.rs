//! satskhubo search: where the antiscenarios of a sheet are found in each log.
use crate::arguments::{Asked, Command, Form};
use crate::check::{failed, refused, unreadable};
use crate::impossible::{of_them, passed_over, Impossible};
use crate::input::{read, Input};
use crate::json::{numbers as json_numbers, Object};
use crate::log::Log;
use crate::logs::{Listed, Logs};
use crate::names::Name;
use crate::numbered::{numbers, text, too_many, Numbers, MOST_UNASKED};
use crate::opened::{named, open, Opened};
use crate::order::{in_order, Taker};
use crate::output::{complain, Output, FAILED};
use crate::placed::{in_object, placed};
use crate::progress::Progress;
use crate::reply::{Reply, Reporter, Standing, Tally};
use crate::sheet::{Row, Sheet};
use crate::words::{count, point};
use satskhubo_interface::answer::{check, read_log, search, Answer, Failure, LogRead, Searched, Verdict};

pub fn run(asked: &Asked, output: &mut Output) -> i32 {
    let Some(opened) = open(asked, output) else { return FAILED };
    let numbers = match numbers(asked, &opened, output) {
        Ok(Some(numbers)) => numbers,
        Ok(None) => return FAILED,
        Err(failure) => {
            complain(&failure.to_string());
            return FAILED;
        }
    };
    if asked.form != Form::Words && numbers.are_too_many() {
        complain(&too_many(asked, &opened));
        return FAILED;
    }
    let logs = Logs::of(&asked.logs, &opened.left_out());
    let task = Task { opened, form: asked.form, is_one: logs.is_one(), numbers, impossible: Impossible::new(numbers) };
    match logs.listed.len() == 1 || numbers.total() > MOST_UNASKED {
        true => task.run_in_turn(&logs, output),
        false => task.run_at_once(&logs, output),
    }
}

struct Task {
    opened: Opened,
    form: Form,
    is_one: bool,
    numbers: Numbers,
    impossible: Impossible,
}

/// A log to search in, read and accepted.
struct Readied {
    input: Input,
    log: Log,
}

/// What is said of one number.
struct Part {
    text: String,
    outcome: Outcome,
}

enum Outcome {
    /// The smallest matching.
    Found(Vec<u32>),
    NotFound,
    /// No run can meet it, which is proved, so that it is not searched.
    Impossible,
}

/// How many numbers came out so.
#[derive(Clone, Copy, Default)]
struct Counts {
    found: u64,
    impossible: u64,
}

impl Counts {
    fn add(&mut self, outcome: &Outcome) {
        match outcome {
            Outcome::Found(_) => self.found += 1,
            Outcome::NotFound => {}
            Outcome::Impossible => self.impossible += 1,
        }
    }
}

impl Task {
    fn failed(&self, name: &Name, failure: Failure) -> Reply {
        failed(&self.opened, self.form, name, failure)
    }

    fn readied(&self, listed: &Listed) -> Result<Readied, Reply> {
        let (name, read) = match listed {
            Listed::Log(name) => (name, read(name)),
            Listed::Unreadable(name, sentence) => (name, Err(sentence.clone())),
        };
        let input = read.map_err(|sentence| unreadable(&self.opened, self.form, name, with_hint(name, sentence)))?;
        let accepted = read_log(&input.bytes).and_then(|answer| match answer {
            LogRead::Lines(_) => Log::of(&input.bytes).map(Ok),
            LogRead::Refused(refusal) => refused(&self.opened, Command::Search, self.form, self.is_one, &input, refusal).map(Err),
        });
        let log = accepted.map_err(|failure| self.failed(name, failure))??;
        Ok(Readied { input, log })
    }

    /// One log after the other, the numbers of each on all cores.
    fn run_in_turn(&self, logs: &Logs, output: &mut Output) -> i32 {
        let mut tally = Tally::default();
        for listed in &logs.listed {
            let progress = Progress::new(self.numbers.total(), "numbers");
            let reply = self.reply_in_parts(listed, output, &progress);
            let mut reporter = Reporter { output: &mut *output, progress: &progress, tally };
            reporter.take(reply);
            reporter.wait();
            tally = reporter.tally;
            progress.end();
        }
        self.end(logs, &tally, output)
    }

    /// Says the parts as they come; the reply is what stands behind them.
    fn reply_in_parts(&self, listed: &Listed, output: &mut Output, progress: &Progress) -> Reply {
        let readied = match self.readied(listed) {
            Ok(readied) => readied,
            Err(reply) => return reply,
        };
        match self.are_none(&readied) {
            Ok(false) => {}
            Ok(true) => {
                let counts = self.say_none(&readied, &mut |text| output.say(text));
                return self.ended(&readied, counts);
            }
            Err(failure) => return self.failed(&readied.input.name, failure),
        }
        let mut parts = Parts { output, progress, gone_through: 0, counts: Counts::default(), failure: None };
        let work = |index| {
            let part = self.part(&readied, self.numbers.first + index);
            progress.step();
            part
        };
        in_order(self.numbers.total(), work, &mut parts);
        let counts = parts.end(self.numbers.total()).and_then(|counts| self.some_are_found(counts));
        self.ended(&readied, counts)
    }

    /// Several logs, on all cores: the numbers of each one after the other.
    fn run_at_once(&self, logs: &Logs, output: &mut Output) -> i32 {
        let progress = Progress::new(logs.listed.len() as u64, "logs");
        let mut reporter = Reporter { output, progress: &progress, tally: Tally::default() };
        let work = |index: u64| {
            let readied = self.readied(&logs.listed[index as usize]);
            let reply = readied.map_or_else(|reply| reply, |readied| self.reply(&readied));
            progress.step();
            reply
        };
        in_order(logs.listed.len() as u64, work, &mut reporter);
        let Reporter { tally, .. } = reporter;
        progress.end();
        self.end(logs, &tally, output)
    }

    /// The summary of several logs, or of a folder, and the exit status.
    fn end(&self, logs: &Logs, tally: &Tally, output: &mut Output) -> i32 {
        if self.form == Form::Words && !self.is_one {
            output.say(&logs.counted(&summary(tally)));
        }
        tally.status(logs.listed.len())
    }

    fn reply(&self, readied: &Readied) -> Reply {
        let mut said = String::new();
        let counts = self.say_parts(readied, &mut said);
        let reply = self.ended(readied, counts);
        Reply { text: said + &reply.text, ..reply }
    }

    fn say_parts(&self, readied: &Readied, said: &mut String) -> Answer<Counts> {
        if self.are_none(readied)? {
            return self.say_none(readied, &mut |text| said.push_str(text));
        }
        let mut counts = Counts::default();
        for number in self.numbers.each() {
            let part = self.part(readied, number)?;
            said.push_str(&part.text);
            counts.add(&part.outcome);
        }
        self.some_are_found(counts)
    }

    /// Demand 3: where the check has said that the sheet is violated, one of all antiscenarios is found, and it was not passed over.
    fn some_are_found(&self, counts: Counts) -> Answer<Counts> {
        match self.numbers.are_all && self.numbers.total() > 1 && counts.found == 0 {
            true => Err(Failure("the check says that the rule is broken, and no antiscenario is found".to_string())),
            false => Ok(counts),
        }
    }

    /// Demand 3: where the sheet holds, none of its antiscenarios has a matching. One number is searched sooner than the check is made.
    fn are_none(&self, readied: &Readied) -> Answer<bool> {
        if self.numbers.total() == 1 {
            return Ok(false);
        }
        match check(&self.opened.input.bytes, &readied.input.bytes)? {
            Verdict::Holds => Ok(true),
            Verdict::Violated { .. } => Ok(false),
            Verdict::Refused(refusal) => Err(Failure(format!("the check of an accepted log is refused {}", refusal.number()))),
        }
    }

    /// What is said of each number where none is found; in words nothing, and those that no run can meet are counted where they are few.
    fn say_none(&self, readied: &Readied, say: &mut impl FnMut(&str)) -> Answer<Counts> {
        if self.form == Form::Words {
            return Ok(Counts { found: 0, impossible: self.impossible.count_few(&self.opened)? });
        }
        for number in self.numbers.each() {
            let outcome = self.unsearched(number)?;
            say(&self.said(readied, number, &outcome)?);
        }
        Ok(Counts::default())
    }

    /// Where none is found. Columns do not tell which of them no run can meet.
    fn unsearched(&self, number: u64) -> Answer<Outcome> {
        match self.form == Form::Json && self.impossible.has(&self.opened, number)? {
            true => Ok(Outcome::Impossible),
            false => Ok(Outcome::NotFound),
        }
    }

    /// The reply behind the last number, where so many came out so.
    fn ended(&self, readied: &Readied, counts: Answer<Counts>) -> Reply {
        match counts {
            Err(failure) => self.failed(&readied.input.name, failure),
            Ok(counts) => {
                let standing = if counts.found > 0 { Standing::Found } else { Standing::Clear };
                Reply::new(standing, self.last_line(readied, counts))
            }
        }
    }

    fn last_line(&self, readied: &Readied, Counts { found, impossible }: Counts) -> String {
        let Numbers { first, last, are_all } = self.numbers;
        let (total, log) = (self.numbers.total(), readied.input.name.words());
        let (of_them, passed_over) = (of_them(impossible, total), passed_over(impossible));
        match (self.form, are_all) {
            (Form::Plain | Form::Json, _) => String::new(),
            (Form::Words, true) if found == 0 => {
                format!("none of the {} is found in {log}{of_them}\n", count(total, "antiscenario"))
            }
            (Form::Words, true) => format!("{found} of {total} antiscenarios found in {log}{passed_over}\n"),
            (Form::Words, false) if found == 0 && first == last && impossible == 1 => {
                format!("antiscenario {first} is not found in {log}: no run can meet it\n")
            }
            (Form::Words, false) if found == 0 && first == last => format!("antiscenario {first} is not found in {log}\n"),
            (Form::Words, false) if first == last => String::new(),
            (Form::Words, false) if found == 0 => {
                format!("none of the antiscenarios {first} to {last} is found in {log}{of_them}\n")
            }
            (Form::Words, false) => format!("{found} of the antiscenarios {first} to {last} found in {log}{passed_over}\n"),
        }
    }

    fn part(&self, readied: &Readied, number: u64) -> Answer<Part> {
        let outcome = self.outcome(readied, number)?;
        Ok(Part { text: self.said(readied, number, &outcome)?, outcome })
    }

    fn outcome(&self, readied: &Readied, number: u64) -> Answer<Outcome> {
        if self.impossible.has(&self.opened, number)? {
            return Ok(Outcome::Impossible);
        }
        match search(&self.opened.input.bytes, &readied.input.bytes, number)? {
            Searched::Found(positions) => Ok(Outcome::Found(positions)),
            Searched::None => Ok(Outcome::NotFound),
            Searched::Refused(refusal) => {
                Err(Failure(format!("searching antiscenario {number} is refused {}", refusal.number())))
            }
        }
    }

    fn said(&self, readied: &Readied, number: u64, outcome: &Outcome) -> Answer<String> {
        let matching = match outcome {
            Outcome::Found(positions) => Some(&positions[..]),
            Outcome::NotFound | Outcome::Impossible => None,
        };
        match self.form {
            Form::Plain => Ok(plain(number, matching)),
            Form::Words => self.in_words(readied, number, matching),
            Form::Json => {
                let object = self.object(readied, number, matching)?;
                Ok(object.flag("impossible", matches!(outcome, Outcome::Impossible)).end() + "\n")
            }
        }
    }

    /// The rows that introduce the antiscenario's points, one for each position.
    fn introducing(&self, number: u64, positions: &[u32]) -> Answer<Vec<(usize, Row)>> {
        let antiscenario = Sheet::of(&text(&self.opened, number)?)?;
        let rows: Vec<(usize, Row)> = antiscenario.introducing().map(|(number, row)| (number, *row)).collect();
        match rows.len() == positions.len() {
            true => Ok(rows),
            false => Err(Failure(format!("antiscenario {number}: {} positions for {} points", positions.len(), rows.len()))),
        }
    }

    fn in_words(&self, readied: &Readied, number: u64, matching: Option<&[u32]>) -> Answer<String> {
        let Some(positions) = matching else { return Ok(String::new()) };
        let mut said = format!("antiscenario {number} is found in {}\n", readied.input.name.words());
        let rows = self.introducing(number, positions)?;
        for ((number, row), placed) in rows.iter().zip(placed(&readied.log, positions)?) {
            let (point, kind, place) = (point(row.p), row.kind.name(), placed.words(&self.opened.events));
            said.push_str(&format!("  {point} (row {number}, {kind}): {place}\n"));
        }
        Ok(said)
    }

    fn object(&self, readied: &Readied, number: u64, matching: Option<&[u32]>) -> Answer<Object> {
        let positions = matching.unwrap_or_default();
        let points = match matching {
            Some(positions) => self.introducing(number, positions)?,
            None => Vec::new(),
        };
        let object = named(Some(&readied.input.name), &self.opened.input.name).number("number", number);
        let object = object.flag("found", matching.is_some());
        let object = object.raw("points", &json_numbers(points.iter().map(|(_, row)| row.p)));
        Ok(in_object(object, &placed(&readied.log, positions)?))
    }
}

/// A number in the place of a log was once the antiscenario's.
fn with_hint(name: &Name, sentence: String) -> String {
    match name.words().bytes().all(|byte| byte.is_ascii_digit() || byte == b'-') {
        true => format!("{sentence} (the number of an antiscenario stands behind --number)"),
        false => sentence,
    }
}

/// Refusal, number, found and positions, in columns.
fn plain(number: u64, matching: Option<&[u32]>) -> String {
    let positions: String = matching.unwrap_or_default().iter().map(|position| format!("{position:>5}")).collect();
    format!("{:>3}{number:>11}{:>3}{positions}\n", 0, u32::from(matching.is_some()))
}

fn summary(tally: &Tally) -> String {
    let Tally { clear, found, refused, not_read, .. } = tally;
    format!("found in {found}, nothing in {clear}, {refused} refused, {not_read} not read{}", tally.failures())
}

/// Says the parts of one log as they come.
struct Parts<'a> {
    output: &'a mut Output,
    progress: &'a Progress,
    gone_through: u64,
    counts: Counts,
    /// The first.
    failure: Option<Failure>,
}

impl Parts<'_> {
    /// Of so many numbers.
    fn end(self, total: u64) -> Answer<Counts> {
        match self.failure {
            Some(failure) => Err(failure),
            None if self.gone_through != total => {
                Err(Failure(format!("{} of {total} numbers were gone through", self.gone_through)))
            }
            None => Ok(self.counts),
        }
    }
}

impl Taker<Answer<Part>> for Parts<'_> {
    /// What is found is written at once, so that it stands there when the search is ended.
    fn take(&mut self, part: Answer<Part>) {
        match part {
            Ok(Part { text, outcome }) => {
                if !text.is_empty() {
                    self.progress.wipe();
                    self.output.say(&text);
                }
                if matches!(outcome, Outcome::Found(_)) {
                    self.output.flush();
                }
                self.gone_through += 1;
                self.counts.add(&outcome);
            }
            Err(failure) => {
                self.failure.get_or_insert(failure);
            }
        }
    }

    fn wait(&mut self) {
        self.output.flush();
    }
}
