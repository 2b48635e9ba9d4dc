//! What the program says to people: verdicts, refusals and antiscenarios in words, each with its exit status.
mod common;
use common::program::{file, run, run_on, INJECTION, KEPT, LOG, SHEET};
use common::words::line;
use common::{scratch, tell, top};
use satskhubo_tests::generate::logs::log_of;
use satskhubo_tests::generate::targeted::{self, Case};
use satskhubo_tests::json;
use satskhubo_tests::reference::sheet::{self, kind::*, Row};
use std::fs;

const LARGEST: u32 = u32::MAX;

/// Sheet, rows as (section, kind, p, q, a, b), and a log on standard input.
fn checked(k: u32, rows: &[[u32; 6]], lines: &[(u32, u32)]) -> (i32, String) {
    let name = format!("words-{:?}", std::thread::current().id()).replace(['(', ')'], "");
    let sheet = file(&scratch(&name), "sheet", &sheet_of(k, rows));
    let (status, text) = run_on(&["check", &sheet, "-"], &log_of(lines).text()).answer();
    (status, text.replace(&sheet, "SHEET"))
}

#[test]
fn a_violation() {
    let due = "violated: examples/lockmass/log breaks the rule of examples/lockmass/sheet
  point 1 is at line 3 of the log, line 4 of the file, tick 900, event 3
  consequent 1 cannot be met: row 3, WITHIN
    asked: point 11 and point 1 are surely 0 to 500 ms apart
    found: point 11 is at line 1 of the log, line 2 of the file, tick 100; point 1 is at line 3 of the log, line 4 of the file, tick 900; they differ by 800; as the clock drops fractions, they must differ by at most 499 for at most 500 ms to be sure
";
    assert_eq!(run(&["check", SHEET, LOG]).answer(), (1, due.to_string()));
    let due = "violated: examples/lockmass/log-injection breaks the rule of examples/lockmass/sheet
  point 1 is at line 3 of the log, line 4 of the file, tick 300, event 3
  consequent 1 cannot be met: row 4, FREE
    asked: event 1 does not occur between point 11 and point 1
    found: line 2 of the log, line 3 of the file, tick 200, has event 1
";
    assert_eq!(run(&["check", SHEET, INJECTION]).answer(), (1, due.to_string()));
}

#[test]
fn a_log_that_holds_says_where_the_antecedent_is() {
    let kept = "holds: examples/lockmass/log-kept keeps the rule of examples/lockmass/sheet; 2 lines have event 3\n";
    assert_eq!(run(&["check", SHEET, KEPT]).answer(), (0, kept.to_string()));
    let holds = |rows: &[[u32; 6]], lines: &[(u32, u32)]| {
        let (status, text) = checked(1, rows, lines);
        assert_eq!(status, 0, "{text}");
        text.strip_prefix("holds: standard input keeps the rule of SHEET").unwrap().to_string()
    };
    // A mistyped set is seen.
    assert_eq!(holds(&[[0, POINT, 1, 0, 16, 0], [1, EVENT, 1, 0, 0, 0]], &[(1, 3), (2, 3)]), "; no line has event 4\n");
    assert_eq!(holds(&[[0, POINT, 1, 0, 8, 0], [1, EVENT, 1, 0, 8, 0]], &[(1, 3), (2, 2)]), "; 1 line has event 3\n");
    let two = [[0, POINT, 1, 0, 8, 0], [0, POINT, 2, 0, 16, 0], [1, APART, 1, 2, 0, 0]];
    assert_eq!(holds(&two, &[(1, 3), (2, 3)]), "; 2 lines have event 3 (point 1), no line has event 4 (point 2)\n");
    assert_eq!(holds(&[[1, FREE, 0, 99, 8, 0]], &[(1, 2)]), "\n");
}

/// Every event of the set, since one of them is enough to break the row.
#[test]
fn free_of_several_events() {
    let found = |set: u64, words: &str| {
        let (status, text) = checked(1, &[[1, FREE, 0, 99, set as u32, (set >> 32) as u32]], &[(7, 3)]);
        let due = format!("    asked: {words} between the start and the close\n    found: {}, tick 7, has event 3\n", line(1));
        assert!(status == 1 && text.ends_with(&due), "{text}");
    };
    found(8, "event 3 does not occur");
    found(24, "none of the events 3, 4 occurs");
    found(8 + (1 << 63), "none of the events 3, 63 occurs");
    found(LARGEST.into(), "none of the events 0 to 31 occurs");
    found(u64::MAX, "no event occurs");
    found(u64::MAX - 16, "no event but 4 occurs");
}

#[test]
fn no_points_and_no_consequents() {
    let (status, text) = checked(0, &[], &[(1, 3)]);
    assert!(status == 1 && text.starts_with("violated: standard input breaks the rule of SHEET\n"), "{text}");
    assert!(text.contains("no consequent") && text.lines().count() == 2, "{text}");
    let sheet = file(&scratch("words-bare"), "sheet", b"  0  0\n");
    assert_eq!(run(&["check", "--plain", &sheet, KEPT]).answer(), (1, "  0  1\n\n\n".to_string()));
}

/// Ticks have all of their digits, up to the last.
#[test]
fn ticks_up_to_the_largest() {
    let within = [[0, POINT, 1, 0, 8, 0], [1, LAST, 11, 1, 4, 0], [1, WITHIN, 11, 1, 0, LARGEST - 2]];
    let (status, text) = checked(1, &within, &[(0, 2), (LARGEST, 3)]);
    assert_eq!(status, 1);
    for due in [
        "point 1 is at line 2 of the log, line 3 of the file, tick 4294967295, event 3\n",
        "asked: point 11 and point 1 are surely 0 to 4294967293 ms apart\n",
        "they differ by 4294967295; ",
        "at most 4294967292 for at most 4294967293 ms to be sure\n",
    ] {
        assert!(text.contains(due), "{text}");
    }
    let close = [[1, OUTSIDE, 0, 99, LARGEST - 2, LARGEST]];
    let (status, text) = checked(1, &close, &[(LARGEST - 1, 31)]);
    assert!(status == 1 && text.contains("the close is at tick 4294967294; they differ by 4294967294\n"), "{text}");
    let name = file(&scratch("words-ticks"), "log", &log_of(&[(2_147_483_647, 2), (2_147_483_648, 3), (LARGEST, 3)]).text());
    let (_, text) = run(&["search", SHEET, &name]).answer();
    assert!(text.contains("tick 4294967295, event 3") && text.contains("tick 2147483647, event 2"), "{text}");
    let object = &json::lines(&run(&["check", "--json", SHEET, &name]).answer().1)[0];
    assert_eq!(object.get("ticks").numbers(), [LARGEST]);
}

fn sheet_of(k: u32, rows: &[[u32; 6]]) -> Vec<u8> {
    let rows: Vec<Row> = rows.iter().map(|f| Row::new(f[0], f[1], f[2], f[3], f[4], f[5])).collect();
    sheet::text(k, &rows)
}

/// A full antecedent of two scans, and consequents of eight points and four rows, of which the last is not met: 104 rows, N = 4,096.
fn rows_of_104() -> Vec<[u32; 6]> {
    let mut rows = vec![[0, POINT, 1, 0, 8, 0], [0, POINT, 2, 0, 8, 0]];
    rows.extend([[0, EVENT, 1, 0, 8, 0]; 30]);
    for section in 1..=6 {
        rows.extend((1..=8).map(|point| [section, EARLIER, 10 * section + point, 1, 2, 0]));
        rows.extend([[section, EVENT, 10 * section + 8, 0, 8, 0]; 3]);
        rows.push([section, EVENT, 10 * section + 8, 0, 4, 0]);
    }
    rows
}

/// Row counts of three digits touch the number before them.
#[test]
fn sheets_of_a_hundred_rows() {
    let folder = scratch("words-rows");
    let rows = rows_of_104();
    assert_eq!(rows.len(), 104);
    let (status, text) = checked(6, &rows, &[(1, 3)]);
    assert_eq!((status, text.lines().count()), (1, 3 + 6 * 3), "{text}");
    for (consequent, row) in [(1, 44), (2, 56), (3, 68), (4, 80), (5, 92), (6, 104)] {
        let fault =
            format!("  consequent {consequent} cannot be met: row {row}, EVENT\n    asked: point {consequent}8 has event 2\n");
        assert!(text.contains(&format!("{fault}    found: {} has event 3\n", line(1))), "{text}");
    }
    let sheet = file(&folder, "sheet", &sheet_of(6, &rows));
    let log = file(&folder, "log", &log_of(&[(1, 3)]).text());
    let plain = "  0  1\n    1    1\n  44  56  68  80  92 104\n";
    assert_eq!(run(&["check", "--plain", &sheet, &log]).answer(), (1, plain.to_string()));
    let (status, text) = run(&["explain", &sheet]).answer();
    assert!(status == 0 && text.contains("row 104  EVENT") && text.matches("  row ").count() == 104, "{text}");
    // A hundred rows: the last consequent has introducing rows alone, which are met.
    let hundred = file(&folder, "hundred", &sheet_of(6, &rows[..100]));
    let (status, text) = run(&["check", &hundred, &log]).answer();
    assert!(status == 0 && text.starts_with("holds: ") && text.lines().count() == 1, "{text}");
}

/// 176 rows are accepted, and 177 are not read.
#[test]
fn sheets_of_176_rows() {
    let folder = scratch("words-full");
    let mut full = vec![[0, POINT, 1, 0, 8, 0]];
    full.extend([[0, EVENT, 1, 0, 8, 0]; 31]);
    full.extend((1..=6).flat_map(|section| [[section, EVENT, 1, 0, 8, 0]; 24]));
    let name = file(&folder, "full", &sheet_of(6, &full));
    let (status, text) = run(&["check", &name, LOG]).answer();
    assert!(status == 0 && text.starts_with("holds: ") && text.lines().count() == 1, "{text}");
    let (status, text) = run(&["explain", &name]).answer();
    assert!(status == 0 && text.contains("176 rows, N = 191102976 antiscenarios\n"), "{text}");
    full.push([6, EVENT, 1, 0, 8, 0]);
    let name = file(&folder, "over", &sheet_of(6, &full));
    let (status, text) = run(&["check", &name, LOG]).answer();
    assert!(status == 2 && text.starts_with("refused 2: ") && text.contains("177 rows") && text.contains("176"), "{text}");
}

/// Printable bytes as they are, others by number; the line feed at the end is left out.
fn in_brackets(bytes: &[u8]) -> String {
    let shown = bytes.strip_suffix(b"\n").unwrap_or(bytes).iter();
    let text: String = shown
        .map(|byte| if (32..127).contains(byte) { char::from(*byte).to_string() } else { format!("\\x{byte:02x}") })
        .collect();
    if text.is_empty() {
        String::new()
    } else {
        format!("  [{text}]\n")
    }
}

/// The refusal of a case: its number, its place, the bytes, and at least a sentence.
fn refused_in_words(case: &Case, of_log: bool, name: &str, said: (i32, String)) {
    let (status, text) = said;
    let index = if of_log {
        case.offset.checked_sub(28).map(|offset| offset / 15)
    } else {
        case.offset.checked_sub(7).map(|offset| offset / 35)
    };
    let place = match (index, of_log) {
        (None, _) => String::new(),
        (Some(index), true) => format!(", {}", line(index as u32 + 1)),
        (Some(index), false) => format!(", row {}, line {} of the file", index + 1, index + 2),
    };
    let noun = if of_log { "log" } else { "sheet" };
    let due = format!(
        "refused {}: the {noun} {name}{place}\n{}",
        case.answer,
        in_brackets(&case.text[case.offset..case.offset + case.length])
    );
    assert_eq!(status, 2, "{}: {text}", case.name);
    let words = text.strip_prefix(&due).unwrap_or_else(|| panic!("{}\ndue:\n{due}\nsaid:\n{text}", case.name));
    assert!(words.starts_with("  ") && words.trim().len() > 10 && words.ends_with('\n'), "{}: {text}", case.name);
}

#[test]
fn every_refusal_of_a_sheet() {
    let folder = scratch("words-sheets");
    let cases: Vec<Case> = targeted::sheets().into_iter().filter(|case| case.answer != 0).collect();
    for case in &cases {
        let name = file(&folder, "sheet", &case.text);
        refused_in_words(case, false, &name, run(&["check", &name, LOG]).answer());
        for words in [&["explain", &name][..], &["antiscenarios", &name], &["search", &name, LOG]] {
            refused_in_words(case, false, &name, run(words).answer());
        }
        assert_eq!(run(&["antiscenarios", "--plain", &name]).answer(), (2, format!("{:3}\n", case.answer)));
    }
    tell("program: refused sheets", 5 * cases.len() as u64);
}

#[test]
fn every_refusal_of_a_log() {
    let folder = scratch("words-logs");
    let cases: Vec<Case> = targeted::logs().into_iter().filter(|case| case.answer != 0).collect();
    for case in &cases {
        let name = file(&folder, "log", &case.text);
        refused_in_words(case, true, &name, run(&["check", SHEET, &name]).answer());
        refused_in_words(case, true, &name, run(&["search", SHEET, &name]).answer());
    }
    tell("program: refused logs", 2 * cases.len() as u64);
}

/// What people do to files: line ends, tabs, marks, blank lines, and one for the other.
#[test]
fn common_mishaps_are_named() {
    let folder = scratch("mishaps");
    let (sheet, log) = (fs::read_to_string(top().join(SHEET)).unwrap(), fs::read_to_string(top().join(LOG)).unwrap());
    let first_kept = |text: &str| text.replacen('\n', "@", 1).replace('\n', "\r\n").replace('@', "\n");
    let damaged = |text: &str| -> [(String, &str); 7] {
        [
            (text.replace('\n', "\r\n"), "CR LF"),
            (first_kept(text), "CR LF"),
            (text.replace("  1", "\t1").replace("  3", "\t3"), "tab"),
            (format!("\u{feff}{text}"), "byte order mark"),
            (format!("{text}\n"), "blank"),
            (text.trim_end().to_string(), "no line feed"),
            (text[..text.len() - 4].to_string(), "due"),
        ]
    };
    for (text, due) in damaged(&sheet) {
        let name = file(&folder, "sheet", text.as_bytes());
        let (status, said) = run(&["check", &name, LOG]).answer();
        assert!(status == 2 && said.contains(due), "{due}: {said}");
    }
    for (text, due) in damaged(&log) {
        let name = file(&folder, "log", text.as_bytes());
        let (status, said) = run(&["check", SHEET, &name]).answer();
        assert!(status == 2 && said.contains(due), "{due}: {said}");
    }
    let (status, said) = run(&["check", LOG, SHEET]).answer();
    assert!(status == 2 && said.starts_with("refused 1: ") && said.contains("wrong order"), "{said}");
    let (status, said) = run(&["check", SHEET, SHEET]).answer();
    assert!(status == 2 && said.starts_with("refused 21: ") && said.contains("wrong order"), "{said}");
}

#[test]
fn a_refusal_of_one_of_several_logs_is_one_line() {
    let folder = scratch("one-line");
    let damaged = file(&folder, "damaged", b"    2          0        300\n        100  2\n        3O0  3\n");
    let (status, text) = run(&["check", SHEET, LOG, &damaged, KEPT]).answer();
    let lines: Vec<&str> = text.lines().collect();
    assert_eq!((status, lines.len()), (2, 4), "{text}");
    assert_eq!(lines[0], "examples/lockmass/log: violated at line 3 of the log, line 4 of the file");
    assert!(
        lines[1].starts_with(&format!("{damaged}: refused 24, line 2: the tick (columns 1 to 11) is `        3O0`")),
        "{text}"
    );
    assert_eq!(lines[2], "examples/lockmass/log-kept: holds; 2 lines have event 3");
    assert_eq!(lines[3], "3 logs: 1 hold, 1 violated, 1 refused, 0 not read");
}

#[test]
fn antiscenarios_and_searches() {
    let third = "antiscenario 3 of 4
  POINT    point 1 has event 3
  LAST     point 11 is the last line before point 1 with event 2
  POINT    point 19 has event 1
  BEFORE   point 11 stands before point 19
  BEFORE   point 19 stands before point 1
";
    assert_eq!(run(&["antiscenarios", SHEET, "3"]).answer(), (0, third.to_string()));
    let (status, all) = run(&["antiscenarios", SHEET]).answer();
    assert!(status == 0 && all.matches("antiscenario ").count() == 4 && all.contains(third), "{all}");
    let found = "antiscenario 2 is found in examples/lockmass/log
  point 1 (row 1, POINT): line 3 of the log, line 4 of the file, tick 900, event 3
  point 11 (row 2, LAST): line 1 of the log, line 2 of the file, tick 100, event 2
1 of 4 antiscenarios found in examples/lockmass/log; 1 that no run can meet was passed over
";
    assert_eq!(run(&["search", SHEET, LOG]).answer(), (1, found.to_string()));
    let (status, none) = run(&["search", SHEET, KEPT]).answer();
    let due = "none of the 4 antiscenarios is found in examples/lockmass/log-kept; 1 of them no run can meet\n";
    assert_eq!((status, none.as_str()), (0, due));
}
