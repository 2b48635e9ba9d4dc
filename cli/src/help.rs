//! What the program says of itself.
use crate::arguments::Command;

pub const HELP: &str = "\
satskhubo: does a run log keep the rule of a sheet? The answers come from the proved library.

    satskhubo check SHEET LOG.. [--limit L]      a verdict on each log
    satskhubo antiscenarios SHEET [NUMBER]       the patterns of every way to break the rule, or one of them
    satskhubo search SHEET LOG.. [--number M]    where they are found, or where one of them is
    satskhubo explain SHEET                      the sheet, row by row, in words
    satskhubo COMMAND --help
    satskhubo --version

SHEET and LOG are files; - is standard input. A LOG may be a folder: all files below it.
Options stand behind the command:
    --plain          numbers in columns
    --json           JSON, one object a line
    --events FILE    names of events 0 to 63, a line each: 3 scan (else the file `events` beside the sheet, if there is one)
    --number M       of the antiscenario; FIRST-LAST for some of them
    --possible       antiscenarios without those that no run can meet
    --limit L        the check looks at L matchings of the antecedent, at most, and says that it stopped if there are more
    --               ends the options, for names that begin with a dash
Exit status: 0 all hold, or nothing is found; 1 some are violated, or found; 2 something is refused, not read or failed;
3 a check stopped at its limit.
";

const CHECK: &str = "\
satskhubo check SHEET LOG.. [--limit L] [--plain | --json] [--events FILE]

One log: the verdict with the lines of the antecedent's points, and for each consequent the row that cannot be met,
what it asks and what was found. Several logs, or a folder: a line each and a summary.
--plain: refusal (3 columns), verdict (3; 1 violated); when violated a line of positions (5 each), and one of rows (4 each).
--json: an object a log: file, sheet, verdict (holds, violated, refused, unreadable), refusal, positions, lines, ticks, events,
rows (consequent, row, kind, asked, found); of a log that holds, antecedent (point, set, a, b, lines), where the set is
a + 2^32 b; of, line and words of a refusal; error.
A row with limits that no two ticks keep, since the clock drops fractions, is remarked on once, on standard error.
--limit L, 0 to 18,446,744,073,709,551,615: the matchings of the antecedent are looked at from the smallest on, and no more than L
of them. If none of these breaks the rule and there is one more, the answer is stopped, which is neither holds nor violated.
The answer also says how many were looked at and, unless the log holds, how many placements of the antecedent's points, matchings
or not, come after the last of them (all, if there was none). --plain has 2 for stopped, and both numbers behind every verdict
(16 columns each); --json has the verdict stopped, and both behind the rest: looked, after.
Exit status: 0 all hold; 1 some are violated; 2 something is refused, not read or failed; 3 some are stopped. 2 goes before 3,
and 3 before 1.
";

const ANTISCENARIOS: &str = "\
satskhubo antiscenarios SHEET [NUMBER | FIRST-LAST] [--possible] [--plain | --json] [--events FILE]

The antiscenarios of the sheet, or the one of that number, or those from FIRST to LAST: the antecedent, and for each consequent
one way in which it fails. A sheet has up to 12,230,590,464. Without numbers 4,096 are listed, and then how many there are.
One that no run can meet is marked, with the rows of it that contradict each other: the sets of one line have no event in common,
two points are different lines and the same line, or a point would stand before itself. One that is not marked may still be in no
log, for other reasons.
--possible: those that no run can meet are left out, and the others keep their numbers.
--plain: the texts as document 01 has them, one after the other. --json: an object each: number, of, rows, text, impossible; where
that is true also why: rule (no-common-event, apart-inside, circular), rows (their numbers in this antiscenario, from 1), words.
Both give all or, where there are over 4,096 and no numbers are given, none.
Exit status: 0 done; 2 refused, not read or failed.
";

const SEARCH: &str = "\
satskhubo search SHEET LOG.. [--number M | --number FIRST-LAST] [--plain | --json] [--events FILE]

Where the antiscenarios are found in each log, or the one of that number, or those from FIRST to LAST: a line for each of its
points, with the row of the antiscenario that introduces the point. The check is asked first: where it says that the log keeps
the rule, none is found, which is proved, and none is searched. Else they are searched in order, and each that is found is
written at once, so that Ctrl-C leaves what was found until then. Those that no run can meet are passed over, since it is proved that
they are in no log, and are counted in the last line of each log.
--plain: a line a number: refusal (3 columns), number (11), found (3), positions (5 each). --json: an object a number: file,
sheet, number, found, points, positions, lines, ticks, events, impossible. Where there are over 4,096 both need numbers.
Exit status: 0 nothing is found; 1 something is found; 2 something is refused, not read or failed.
";

const EXPLAIN: &str = "\
satskhubo explain SHEET [--json] [--events FILE]

The sheet in words: how many consequents, rows and antiscenarios it has, and each row by its section, with a remark where no two
ticks keep its limits.
--json: an object: sheet, consequents, antiscenarios, rows (row, section, kind, p, q, a, b, words, remark).
Exit status: 0 done; 2 refused, not read or failed.
";

pub fn help(command: Option<Command>) -> &'static str {
    match command {
        None => HELP,
        Some(Command::Check) => CHECK,
        Some(Command::Antiscenarios) => ANTISCENARIOS,
        Some(Command::Search) => SEARCH,
        Some(Command::Explain) => EXPLAIN,
    }
}

/// The version, and the commit and the kit that build.rs saw.
pub fn version() -> String {
    let number = concat!(env!("CARGO_PKG_VERSION_MAJOR"), ".", env!("CARGO_PKG_VERSION_MINOR"));
    format!("satskhubo {number} (commit {}, {})\n", env!("SATSKHUBO_COMMIT"), env!("SATSKHUBO_KIT"))
}
