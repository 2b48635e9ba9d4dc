//! The check with a limit (document 02, A10): each answer in words, in columns and in JSON with its exit status, and that without a limit
//! nothing of it is said.
mod common;
use common::program::{command, file, opened, run, run_on, Said, BOARD, BOARD_KEPT, INJECTION, KEPT, LOG, REMARK, SHEET};
use common::{scratch, tell, top};
use satskhubo_tests::generate::logs::{self, log_of, uniform};
use satskhubo_tests::generate::{damage, sheets, targeted};
use satskhubo_tests::json::{self, Json};
use satskhubo_tests::random::Random;
use satskhubo_tests::reference::blunder::Blunder;
use satskhubo_tests::reference::operations::{every_matching, violating, Opened, Verdict};
use satskhubo_tests::reference::rows::{placements, points};
use satskhubo_tests::reference::sheet::{self, kind::*, Row};
use std::fs::{self, File};

const LARGEST: &str = "18446744073709551615";
const GO_ON: &str =
    "  this is neither holds nor violated; a larger --limit goes further, and without --limit the check goes to the end\n";

fn sheet_of(k: u32, rows: &[[u32; 6]]) -> Vec<u8> {
    let rows: Vec<Row> = rows.iter().map(|f| Row::new(f[0], f[1], f[2], f[3], f[4], f[5])).collect();
    sheet::text(k, &rows)
}

/// A sheet, rows as (section, kind, p, q, a, b), and a log on standard input, with a limit.
fn limited(folder: &str, k: u32, rows: &[[u32; 6]], lines: &[(u32, u32)], limit: &str) -> [(i32, String); 3] {
    let sheet = file(&scratch(folder), "sheet", &sheet_of(k, rows));
    ["--events=/dev/null", "--plain", "--json"].map(|form| {
        let said = run_on(&["check", form, "--limit", limit, &sheet, "-"], &log_of(lines).text());
        let (status, text) = said.answer();
        (status, text.replace(&sheet, "SHEET"))
    })
}

/// The same answer in all forms: words whole; verdict, looked and after in columns and in JSON.
fn says(said: [(i32, String); 3], status: i32, words: &str, verdict: &str, looked: u64, after: u64) {
    let [in_words, plain, object] = said;
    assert_eq!(in_words, (status, words.to_string()));
    let number = ["holds", "violated", "stopped"].iter().position(|known| *known == verdict).unwrap();
    let first_line = plain.1.lines().next().unwrap();
    assert_eq!((plain.0, first_line), (status, format!("  0{number:3}{looked:16}{after:16}").as_str()));
    assert_eq!(object.0, status);
    let object = &json::lines(&object.1)[0];
    let numbers = (object.get("looked").number(), object.get("after").number());
    assert_eq!((object.get("verdict").text(), numbers), (verdict, (looked, after)));
    assert_eq!(object.get("refusal"), &Json::Null);
}

#[test]
fn one_log_in_words() {
    let words = |limit: &str, log: &str| run(&["check", "--limit", limit, SHEET, log]).answer();
    let stopped = "stopped: examples/lockmass/log after the first matching of the antecedent of examples/lockmass/sheet, which is in order; there is at least one more, and 1 placement of point 1 comes after it\n";
    assert_eq!(words("1", LOG), (3, stopped.to_string() + GO_ON));
    let stopped = "stopped: examples/lockmass/log before the first matching of the antecedent of examples/lockmass/sheet, since the limit is 0; there is at least one, and 3 placements of point 1 are left\n";
    assert_eq!(words("0", LOG), (3, stopped.to_string() + GO_ON));
    assert_eq!(words("0", KEPT), (3, stopped.replace(LOG, KEPT) + GO_ON));
    let violated = "violated: examples/lockmass/log breaks the rule of examples/lockmass/sheet
  point 1 is at line 3 of the log, line 4 of the file, tick 900, event 3
  2 matchings of the antecedent were looked at, this one last; no placement of point 1 comes after it
  consequent 1 cannot be met: row 3, WITHIN
    asked: point 11 and point 1 are surely 0 to 500 ms apart
    found: point 11 is at line 1 of the log, line 2 of the file, tick 100; point 1 is at line 3 of the log, line 4 of the file, tick 900; they differ by 800; as the clock drops fractions, they must differ by at most 499 for at most 500 ms to be sure
";
    let first = "violated: examples/lockmass/log-injection breaks the rule of examples/lockmass/sheet
  point 1 is at line 3 of the log, line 4 of the file, tick 300, event 3
  1 matching of the antecedent was looked at, this one; no placement of point 1 comes after it
  consequent 1 cannot be met: row 4, FREE
";
    let holds = "holds: examples/lockmass/log-kept keeps the rule of examples/lockmass/sheet; 2 lines have event 3; the antecedent has 2 matchings, all looked at\n";
    for limit in ["2", "3", "4294967296", LARGEST] {
        assert_eq!(words(limit, LOG), (1, violated.to_string()));
        assert_eq!(words(limit, KEPT), (0, holds.to_string()));
        let (status, text) = words(limit, INJECTION);
        assert!(status == 1 && text.starts_with(first), "{text}");
    }
}

#[test]
fn one_log_in_columns() {
    let plain = |limit: &str, log: &str| run(&["check", "--plain", "--limit", limit, SHEET, log]).answer();
    assert_eq!(plain("0", LOG), (3, "  0  2               0               3\n".to_string()));
    assert_eq!(plain("1", LOG), (3, "  0  2               1               1\n".to_string()));
    assert_eq!(plain("1", KEPT), (3, "  0  2               1               1\n".to_string()));
    for limit in ["2", "3", LARGEST] {
        assert_eq!(plain(limit, LOG), (1, "  0  1               2               0\n    3\n   3\n".to_string()));
        assert_eq!(plain(limit, KEPT), (0, "  0  0               2               0\n".to_string()));
    }
}

/// Behind everything that an object has without a limit, in the same order.
#[test]
fn one_log_in_json() {
    let object = |limit: &str, log: &str| run(&["check", "--json", "--limit", limit, SHEET, log]).answer();
    let without = |log: &str| run(&["check", "--json", SHEET, log]).answer();
    let with = |(status, text): (i32, String), looked, after| {
        let whole = text.strip_suffix("}\n").unwrap();
        (status, format!("{whole},\"looked\":{looked},\"after\":{after}}}\n"))
    };
    assert_eq!(object("2", LOG), with(without(LOG), 2, 0));
    assert_eq!(object("2", KEPT), with(without(KEPT), 2, 0));
    assert_eq!(object(LARGEST, INJECTION), with(without(INJECTION), 1, 0));
    let front =
        "{\"file\":\"examples/lockmass/log\",\"sheet\":\"examples/lockmass/sheet\",\"verdict\":\"stopped\",\"refusal\":null,";
    let none = "\"positions\":[],\"lines\":[],\"ticks\":[],\"events\":[],\"rows\":[]";
    assert_eq!(object("1", LOG), (3, format!("{front}{none},\"looked\":1,\"after\":1}}\n")));
    assert_eq!(object("0", LOG), (3, format!("{front}{none},\"looked\":0,\"after\":3}}\n")));
}

/// What is refused or not read is said as ever, and never "stopped", whatever the limit.
#[test]
fn refusals_are_as_they_were() {
    let folder = scratch("limit-refused");
    let mut cases: Vec<[String; 2]> = Vec::new();
    for case in targeted::sheets().iter().filter(|case| case.answer != 0) {
        cases.push([file(&folder, &format!("sheet-{}", cases.len()), &case.text), LOG.to_string()]);
    }
    for case in targeted::logs().iter().filter(|case| case.answer != 0) {
        cases.push([SHEET.to_string(), file(&folder, &format!("log-{}", cases.len()), &case.text)]);
    }
    cases.push([SHEET.to_string(), "no-such-log".to_string()]);
    cases.push(["no-such-sheet".to_string(), LOG.to_string()]);
    for [sheet, log] in &cases {
        for form in [&[][..], &["--plain"], &["--json"]] {
            let due = run(&[&["check", sheet, log], form].concat());
            assert_eq!(due.status, 2);
            for limit in ["0", LARGEST] {
                assert_eq!(run(&[&["check", "--limit", limit, sheet, log], form].concat()), due);
            }
        }
    }
    tell("program: refusals with a limit", 6 * cases.len() as u64);
}

/// What was never answered comes before what was found: 2 before 3 before 1 before 0.
#[test]
fn exit_statuses_of_several_logs() {
    let single = file(&scratch("limit-statuses"), "single", &log_of(&[(100, 2), (300, 3)]).text());
    let refused = "examples/refused/log-24";
    let held = run(&["check", "--limit", "1", SHEET, &single]).answer();
    let words = format!(
        "holds: {single} keeps the rule of {SHEET}; 1 line has event 3; the antecedent has 1 matching, which was looked at\n"
    );
    assert_eq!(held, (0, words));
    let cases: [(&[&str], i32, &str); 9] = [
        (&[&single, &single], 0, "2 logs: 2 hold, 0 violated, 0 stopped, 0 refused, 0 not read\n"),
        (&[&single, INJECTION], 1, "2 logs: 1 hold, 1 violated, 0 stopped, 0 refused, 0 not read\n"),
        (&[&single, KEPT], 3, "2 logs: 1 hold, 0 violated, 1 stopped, 0 refused, 0 not read\n"),
        (&[INJECTION, KEPT], 3, "2 logs: 0 hold, 1 violated, 1 stopped, 0 refused, 0 not read\n"),
        (&[LOG, INJECTION, KEPT, &single], 3, "4 logs: 1 hold, 1 violated, 2 stopped, 0 refused, 0 not read\n"),
        (&[&single, refused], 2, "2 logs: 1 hold, 0 violated, 0 stopped, 1 refused, 0 not read\n"),
        (&[KEPT, refused], 2, "2 logs: 0 hold, 0 violated, 1 stopped, 1 refused, 0 not read\n"),
        (&[KEPT, "no-such-log"], 2, "2 logs: 0 hold, 0 violated, 1 stopped, 0 refused, 1 not read\n"),
        (&[INJECTION, KEPT, refused, &single], 2, "4 logs: 1 hold, 1 violated, 1 stopped, 1 refused, 0 not read\n"),
    ];
    for (logs, status, summary) in cases {
        let said = run(&[&["check", "--limit", "1", SHEET], logs].concat());
        assert_eq!(said.status, status, "{said:?}");
        assert!(said.out.ends_with(summary) && said.out.lines().count() > 1, "{said:?}");
        for form in ["--plain", "--json"] {
            assert_eq!(run(&[&["check", "--limit=1", form, SHEET], logs].concat()).status, status, "{logs:?}");
        }
    }
}

#[test]
fn several_logs_have_a_line_each() {
    let lines = "examples/lockmass/log: stopped after the first matching of the antecedent, which is in order; there is at least one more, and 1 placement of point 1 comes after it
examples/lockmass/log-injection: violated at line 3 of the log, line 4 of the file; 1 matching of the antecedent was looked at, this one; no placement of point 1 comes after it
2 logs: 0 hold, 1 violated, 1 stopped, 0 refused, 0 not read
";
    assert_eq!(run(&["check", "--limit", "1", SHEET, LOG, INJECTION]).answer(), (3, lines.to_string()));
    let lines = "examples/lockmass/log: stopped before the first matching of the antecedent, since the limit is 0; there is at least one, and 3 placements of point 1 are left
examples/lockmass/log: stopped before the first matching of the antecedent, since the limit is 0; there is at least one, and 3 placements of point 1 are left
2 logs: 0 hold, 0 violated, 2 stopped, 0 refused, 0 not read
";
    assert_eq!(run(&["check", "--limit", "0", SHEET, LOG, LOG]).answer(), (3, lines.to_string()));
    let lines = "examples/lockmass/log-kept: holds; 2 lines have event 3; the antecedent has 2 matchings, all looked at
examples/lockmass/log: violated at line 3 of the log, line 4 of the file; 2 matchings of the antecedent were looked at, this one last; no placement of point 1 comes after it
2 logs: 1 hold, 1 violated, 0 stopped, 0 refused, 0 not read
";
    assert_eq!(run(&["check", "--limit", "2", SHEET, KEPT, LOG]).answer(), (1, lines.to_string()));
    // A folder with one log.
    let folder = scratch("limit-folder");
    let log = file(&folder, "log", &fs::read(top().join(KEPT)).unwrap());
    let (status, text) = run(&["check", "--limit", "1", SHEET, &folder.display().to_string()]).answer();
    assert!(status == 3 && text.starts_with(&format!("{log}: stopped after the first matching ")), "{text}");
    assert!(text.ends_with("\n1 log: 0 hold, 0 violated, 1 stopped, 0 refused, 0 not read\n"), "{text}");
}

/// Two points of three scans have nine matchings; each is in order.
#[test]
fn around_the_count() {
    let rows = [[0, POINT, 1, 0, 8, 0], [0, POINT, 2, 0, 8, 0], [1, EVENT, 1, 0, 8, 0]];
    let said = |limit: &str| limited("limit-count", 1, &rows, &[(1, 3), (2, 3), (3, 3), (4, 2)], limit);
    let stopped = |words: &str| format!("stopped: standard input {words}\n{GO_ON}");
    let none = "before the first matching of the antecedent of SHEET, since the limit is 0; there is at least one, and 16 placements of points 1 and 2 are left";
    says(said("0"), 3, &stopped(none), "stopped", 0, 16);
    let first = "after the first matching of the antecedent of SHEET, which is in order; there is at least one more, and 15 placements of points 1 and 2 come after it";
    says(said("1"), 3, &stopped(first), "stopped", 1, 15);
    let eight = "after the first 8 matchings of the antecedent of SHEET, all of them in order; there is at least one more, and 6 placements of points 1 and 2 come after the last one looked at";
    says(said("8"), 3, &stopped(eight), "stopped", 8, 6);
    let holds = "holds: standard input keeps the rule of SHEET; 3 lines have event 3 (point 1), 3 lines have event 3 (point 2); the antecedent has 9 matchings, all looked at\n";
    for limit in ["9", "10", LARGEST] {
        says(said(limit), 0, holds, "holds", 9, 5);
    }
}

/// The matching after the limit is not looked at, though it is the one that breaks the rule.
#[test]
fn a_violation_is_found_at_its_number_and_not_before() {
    let rows = [[0, POINT, 1, 0, 8, 0], [0, POINT, 2, 0, 8, 0], [1, BEFORE, 1, 2, 0, 0], [2, SAME, 1, 2, 0, 0]];
    let said = |limit: &str| limited("limit-violation", 2, &rows, &[(1, 3), (2, 3), (3, 3)], limit);
    let stopped = "stopped: standard input after the first 3 matchings of the antecedent of SHEET, all of them in order; there is at least one more, and 6 placements of points 1 and 2 come after the last one looked at\n";
    says(said("3"), 3, &format!("{stopped}{GO_ON}"), "stopped", 3, 6);
    let violated = "violated: standard input breaks the rule of SHEET
  point 1 is at line 2 of the log, line 3 of the file, tick 2, event 3
  point 2 is at line 1 of the log, line 2 of the file, tick 1, event 3
  4 matchings of the antecedent were looked at, this one last; 5 placements of points 1 and 2 come after it
  consequent 1 cannot be met: row 3, BEFORE
    asked: point 1 stands before point 2
    found: point 1 is at line 2 of the log, line 3 of the file, tick 2; point 2 is at line 1 of the log, line 2 of the file, tick 1
  consequent 2 cannot be met: row 4, SAME
    asked: point 1 and point 2 are the same line
    found: point 1 is at line 2 of the log, line 3 of the file, tick 2; point 2 is at line 1 of the log, line 2 of the file, tick 1
";
    for limit in ["4", "5", "9", LARGEST] {
        says(said(limit), 1, violated, "violated", 4, 5);
    }
    let [_, plain, _] = said("4");
    assert_eq!(plain.1, "  0  1               4               5\n    2    1\n   3   4\n");
}

#[test]
fn no_matching_no_lines_and_no_points() {
    let point = [[0, POINT, 1, 0, 8, 0], [1, EVENT, 1, 0, 0, 0]];
    let none = "holds: standard input keeps the rule of SHEET; no line has event 3; the antecedent has no matching\n";
    for limit in ["0", "1", LARGEST] {
        // Nothing was looked at: all placements come after it, and without lines there is none.
        says(limited("limit-none", 1, &point, &[(1, 2), (2, 2)], limit), 0, none, "holds", 0, 2);
        says(limited("limit-none", 1, &point, &[], limit), 0, none, "holds", 0, 0);
    }
    // The empty placement, the only one, also without lines.
    let before = "stopped: standard input before the first matching of the antecedent of SHEET, since the limit is 0; there is at least one, and 1 placement is left\n";
    let holds = "holds: standard input keeps the rule of SHEET; the antecedent has 1 matching, which was looked at\n";
    for lines in [&[][..], &[(1, 2)]] {
        let free = [[1, FREE, 0, 99, 8, 0]];
        says(limited("limit-bare", 1, &free, lines, "0"), 3, &format!("{before}{GO_ON}"), "stopped", 0, 1);
        says(limited("limit-bare", 1, &free, lines, "1"), 0, holds, "holds", 1, 0);
        says(limited("limit-bare", 1, &free, lines, LARGEST), 0, holds, "holds", 1, 0);
    }
    // An antecedent without points that is not met has no matching; its one placement was not looked at.
    let unmet = [[0, FREE, 0, 99, 4, 0], [1, FREE, 0, 99, 4, 0]];
    let none = "holds: standard input keeps the rule of SHEET; the antecedent has no matching\n";
    says(limited("limit-unmet", 1, &unmet, &[(1, 2)], "0"), 0, none, "holds", 0, 1);
    says(limited("limit-unmet", 1, &unmet, &[(1, 2)], "5"), 0, none, "holds", 0, 1);
}

/// Every matching is violating, so that no check stops after the first.
#[test]
fn no_consequents() {
    let rows = [[0, POINT, 1, 0, 8, 0]];
    let before = "stopped: standard input before the first matching of the antecedent of SHEET, since the limit is 0; there is at least one, and 1 placement of point 1 is left\n";
    says(limited("limit-k0", 0, &rows, &[(1, 3)], "0"), 3, &format!("{before}{GO_ON}"), "stopped", 0, 1);
    let violated = "violated: standard input breaks the rule of SHEET
  point 1 is at line 1 of the log, line 2 of the file, tick 1, event 3
  1 matching of the antecedent was looked at, this one; 2 placements of point 1 come after it
  the sheet has no consequent that could be met
";
    says(limited("limit-k0", 0, &rows, &[(1, 3), (2, 3), (3, 3)], "1"), 1, violated, "violated", 1, 2);
    says(limited("limit-k0", 0, &rows, &[(1, 3), (2, 3), (3, 3)], LARGEST), 1, violated, "violated", 1, 2);
    let bare = "violated: standard input breaks the rule of SHEET
  1 matching of the antecedent was looked at, this one; no placement comes after it
  the sheet has no consequent that could be met
";
    let [words, plain, object] = limited("limit-k0", 0, &[], &[], "1");
    assert_eq!(plain.1, "  0  1               1               0\n\n\n");
    says([words, plain, object], 1, bare, "violated", 1, 0);
}

/// A four-point rule on 4,000 lines, which without a limit would take years; numbers have commas in words, and fit their columns.
#[test]
fn the_longest_rule_on_the_longest_log() {
    let folder = scratch("limit-long");
    let mut rows: Vec<[u32; 6]> = (1..=4).map(|p| [0, POINT, p, 0, u32::MAX, 0]).collect();
    rows.push([1, EVENT, 1, 0, u32::MAX, 0]);
    let sheet = file(&folder, "sheet", &sheet_of(1, &rows));
    let log = file(&folder, "log", &uniform(4000, 2).text());
    let (status, text) = run(&["check", "--limit", "12345", &sheet, &log]).answer();
    let stopped = format!("stopped: {log} after the first 12,345 matchings of the antecedent of {sheet}, all of them in order; there is at least one more, and 255,999,999,987,655 placements of points 1 to 4 come after the last one looked at\n");
    assert_eq!((status, text), (3, stopped + GO_ON));
    let plain = run(&["check", "--plain", "--limit", "0", &sheet, &log]).answer();
    assert_eq!(plain, (3, "  0  2               0 256000000000000\n".to_string()));
    let (status, object) = run(&["check", "--json", "--limit", "1000", &sheet, &log]).answer();
    let object = &json::lines(&object)[0];
    assert_eq!((status, object.get("looked").number(), object.get("after").number()), (3, 1000, 255_999_999_999_000));
    // Three points.
    rows.remove(3);
    let sheet = file(&folder, "sheet", &sheet_of(1, &rows));
    let (status, text) = run(&["check", "--limit", "4001", &sheet, &log]).answer();
    let due = "all of them in order; there is at least one more, and 63,999,995,999 placements of points 1 to 3 come after";
    assert!(status == 3 && text.contains("after the first 4,001 matchings ") && text.contains(due), "{text}");
}

#[test]
fn a_limit_is_taken_whole_or_not_at_all() {
    let wrong = [
        ("", "blank"),
        (" ", "blank"),
        ("ten", "`ten` is not a number"),
        ("1e6", "`1e6` is not a number"),
        ("0x1", "`0x1` is not a number"),
        ("-1", "`-1` is not a number"),
        ("+1", "`+1` is not a number"),
        ("1.0", "`1.0` is not a number"),
        ("1,000", "`1,000` is not a number"),
        ("1-2", "`1-2` is not a number"),
        (" 1", "` 1` is not a number"),
        ("1 ", "`1 ` is not a number"),
        ("١", "is not a number"),
        ("00", "leading zero"),
        ("01", "leading zero"),
        ("18446744073709551616", "`18446744073709551616` is too large: numbers are at most 18446744073709551615"),
        ("99999999999999999999999999", "too large"),
    ];
    for (limit, due) in wrong {
        let joined = format!("--limit={limit}");
        for words in [&["check", "--limit", limit, SHEET, LOG][..], &["check", SHEET, LOG, &joined], &["check", &joined]] {
            let complaint = run(words).complaint();
            assert!(complaint.starts_with("satskhubo: --limit: ") && complaint.contains(due), "{words:?}: {complaint}");
        }
    }
    let complaint = run(&["check", SHEET, LOG, "--limit"]).complaint();
    assert!(complaint.contains("--limit needs a value"), "{complaint}");
    // The sheet stands where the limit is due.
    let complaint = run(&["check", "--limit", SHEET, LOG]).complaint();
    assert!(complaint.contains("--limit: `examples/lockmass/sheet` is not a number"), "{complaint}");
    for twice in [&["--limit", "1", "--limit", "1"][..], &["--limit=1", "--limit=2"], &["--limit=", "--limit=2"]] {
        let complaint = run(&[&["check", SHEET, LOG], twice].concat()).complaint();
        assert!(complaint.contains("--limit is given twice"), "{complaint}");
    }
    assert!(run(&["check", "--limt", "1", SHEET, LOG]).complaint().contains("the nearest is --limit"));
    assert!(run(&["--limit", "1", "check", SHEET, LOG]).complaint().contains("--limit stands behind the command"));
    let due = run(&["check", "--plain", "--limit", "1", SHEET, LOG]).answer();
    let places: [&[&str]; 4] = [
        &["check", "--limit=1", "--plain", SHEET, LOG],
        &["check", SHEET, "--limit", "1", LOG, "--plain"],
        &["check", "--plain", SHEET, LOG, "--limit", "1"],
        &["check", SHEET, LOG, "--plain", "--limit=1"],
    ];
    for words in places {
        assert_eq!(run(words).answer(), due, "{words:?}");
    }
    // Behind two dashes it is a name.
    let said = run(&["check", "--plain", "--", SHEET, LOG, "--limit=1"]);
    assert!(said.status == 2 && said.out == "  0  1\n    3\n   3\n" && said.err.contains("--limit=1"), "{said:?}");
}

#[test]
fn no_other_command_has_a_limit() {
    for limit in [&["--limit", "1"][..], &["--limit=0"], &["--limit", "ten"]] {
        for words in [&["search", SHEET, LOG][..], &["search", SHEET, LOG, "--number", "2"], &["antiscenarios", SHEET]] {
            assert!(run(&[words, limit].concat()).complaint().contains("--limit is for check"), "{words:?}");
        }
        assert!(run(&[&["explain", SHEET], limit].concat()).complaint().contains("--limit is for check"));
    }
}

#[test]
fn the_help_says_it() {
    let due = [
        (&["--help"][..], ["check SHEET LOG.. [--limit L] ", "\n    --limit L  ", "\n3 a check stopped at its limit.\n"]),
        (
            &["check", "--help"],
            ["check SHEET LOG.. [--limit L] ", "\n--limit L, 0 to 18,446,744,073,709,551,615: ", "; 3 some are stopped."],
        ),
    ];
    for (words, parts) in due {
        let (status, text) = run(words).answer();
        assert!(status == 0 && parts.iter().all(|part| text.contains(part)), "{text}");
    }
    for command in ["search", "antiscenarios", "explain"] {
        assert!(!run(&[command, "--help"]).answer().1.contains("--limit"), "{command}");
    }
}

/// Without a limit every answer is what it was, in every form: nothing of stopping, looking or placements.
#[test]
fn without_a_limit_nothing_is_said_of_it() {
    let logs =
        [&[LOG][..], &[KEPT], &[INJECTION], &[LOG, KEPT, INJECTION], &["examples/lockmass"], &["examples/refused/log-24", LOG]];
    for logs in logs {
        for form in [&[][..], &["--plain"], &["--json"]] {
            let said = run(&[&["check", SHEET], logs, form].concat());
            assert!([0, 1, 2].contains(&said.status), "{said:?}");
            for word in ["stopped", "looked", "after\"", "after it", "matching", "placement", "limit"] {
                assert!(!said.out.contains(word) && !said.err.contains(word), "{word}: {said:?}");
            }
        }
    }
    let plain = run(&["check", "--plain", SHEET, LOG, KEPT]).answer();
    assert_eq!(plain, (1, "  0  1\n    3\n   3\n  0  0\n".to_string()));
    let summary = run(&["check", SHEET, KEPT, KEPT]).answer().1;
    assert!(summary.ends_with("\n2 logs: 2 hold, 0 violated, 0 refused, 0 not read\n"), "{summary}");
    let holds = "holds: examples/lockmass/log-kept keeps the rule of examples/lockmass/sheet; 2 lines have event 3\n";
    assert_eq!(run(&["check", SHEET, KEPT]).answer(), (0, holds.to_string()));
    // With a limit, a line more in a violation, and all others as they are.
    let (_, without) = run(&["check", SHEET, LOG]).answer();
    let (_, with) = run(&["check", "--limit", "2", SHEET, LOG]).answer();
    let others: String = with.split_inclusive('\n').filter(|line| !line.contains("looked at")).collect();
    assert_eq!(others, without);
}

#[test]
fn remarks_and_names_of_events_are_as_they_were() {
    let due = run(&["check", REMARK, KEPT]);
    assert!(due.err.contains("remark: "), "{due:?}");
    let said = run(&["check", "--limit", "0", REMARK, KEPT]);
    assert_eq!((said.status, said.err), (3, due.err));
    let (status, text) = run(&["check", "--limit", "2", BOARD, BOARD_KEPT]).answer();
    let due = "; 2 lines have event 3 (scan); the antecedent has 2 matchings, all looked at\n";
    assert!(status == 0 && text.ends_with(due), "{text}");
}

/// An answer that cannot be written is an error, and not 3.
#[test]
fn an_answer_that_is_lost() {
    for form in [&[][..], &["--plain"], &["--json"]] {
        let full = File::options().write(true).open("/dev/full").unwrap();
        let words = [&["check", "--limit", "0", SHEET, LOG], form].concat();
        let said: Said = command(&words).stdout(full).output().unwrap().into();
        assert!(said.complaint().contains("standard output"), "{words:?}");
    }
}

/// Document 02, A10, by its sentences: the verdict's number, how many matchings are looked at, and the placements after the last.
fn due(opened: &Opened, limit: u64) -> (u32, u64, u64) {
    let (sheet, log) = (opened.sheet.as_ref().unwrap(), opened.log.as_ref().unwrap());
    let antecedent = sheet.section(0);
    let (matchings, violating) = (every_matching(&antecedent, log), violating(sheet, log));
    let looked_at = &matchings[..matchings.len().min(limit.try_into().unwrap_or(usize::MAX))];
    let (verdict, looked) = match looked_at.iter().position(|matching| violating.contains(matching)) {
        Some(index) => (1, index + 1),
        None if looked_at.len() == matchings.len() => (0, matchings.len()),
        None => (2, looked_at.len()),
    };
    let all = placements(log, points(&antecedent).len());
    let after = match looked.checked_sub(1) {
        Some(last) => all.iter().filter(|placement| **placement > matchings[last]).count(),
        None => all.len(),
    };
    (verdict, looked as u64, after as u64)
}

/// The columns and the exit status that are due for one log.
fn due_columns(opened: &Opened, limit: u64) -> (i32, String) {
    if let Err(refusal) = opened.check() {
        return (2, format!("{:3}  0\n", refusal.number()));
    }
    let (verdict, looked, after) = due(opened, limit);
    let first_line = format!("  0{verdict:3}{looked:16}{after:16}\n");
    match (verdict, opened.check()) {
        (0, _) => (0, first_line),
        (1, Ok(Verdict::Violated { placement, rows })) => {
            let positions: String = placement.iter().map(|position| format!("{position:5}")).collect();
            let rows: String = rows.iter().map(|row| format!("{row:4}")).collect();
            (1, format!("{first_line}{positions}\n{rows}\n"))
        }
        (2, _) => (3, first_line),
        other => panic!("{other:?}"),
    }
}

/// 2 before 3 before 1 before 0.
fn worst(statuses: &[i32]) -> i32 {
    [2, 3, 1].into_iter().find(|status| statuses.contains(status)).unwrap_or(0)
}

/// Random sheets and logs, short enough that the definition can be gone through: columns, JSON and exit status.
#[test]
fn as_the_reference_says() {
    let (folder, mut random) = (scratch("limit-random"), Random::new(2010));
    let mut reached = [0; 4];
    for round in 0..60 {
        let shape = if round % 3 == 0 { &sheets::MIDDLE } else { &sheets::SMALL };
        let mut text = sheets::random(&mut random, shape);
        while sheet::read(&text, Blunder::None).is_err() {
            text = sheets::random(&mut random, shape);
        }
        let sheet = file(&folder, "sheet", &text);
        let (mut names, mut pairs) = (Vec::new(), Vec::new());
        for index in 0..12 {
            let mut log = logs::random(&mut random, 4).text();
            if random.one_in(12) {
                damage::damage(&mut random, &mut log, &damage::LOG);
            }
            names.push(file(&folder, &format!("log-{index}"), &log));
            pairs.push(opened(&text, &log));
        }
        for limit in [0, 1, 2, 3, 7, 1 << 32, u64::MAX] {
            let dues: Vec<(i32, String)> = pairs.iter().map(|opened| due_columns(opened, limit)).collect();
            let words = |form: &str| ["check", form, "--limit", &limit.to_string(), &sheet].map(String::from).to_vec();
            let said = run(&[words("--plain"), names.clone()].concat());
            let status = worst(&dues.iter().map(|(status, _)| *status).collect::<Vec<i32>>());
            let columns: String = dues.iter().map(|(_, columns)| columns.as_str()).collect();
            assert_eq!((said.status, said.out), (status, columns), "round {round}, limit {limit}");
            let said = run(&[words("--json"), names.clone()].concat());
            assert_eq!(said.status, status, "round {round}, limit {limit}");
            for (object, (opened, (status, _))) in json::lines(&said.out).iter().zip(pairs.iter().zip(&dues)) {
                reached[*status as usize] += 1;
                has_how_far(object, opened, limit);
            }
        }
    }
    assert!(reached.iter().all(|times| *times > 100), "{reached:?}");
    tell("program: checks with a limit", 2 * reached.iter().sum::<u64>());
}

fn has_how_far(object: &Json, opened: &Opened, limit: u64) {
    if opened.check().is_err() {
        assert_eq!((object.get("verdict").text(), object.find("looked"), object.find("after")), ("refused", None, None));
        return;
    }
    let (verdict, looked, after) = due(opened, limit);
    let said = (object.get("looked").number(), object.get("after").number());
    assert_eq!((object.get("verdict").text(), said), (["holds", "violated", "stopped"][verdict as usize], (looked, after)));
}
