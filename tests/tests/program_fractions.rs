//! Document 02, A9: what the program says of limits in milliseconds, since the clock drops the fraction: distances at the edge of a limit, points
//! on one line, and remarks on limits that no two ticks keep.
mod common;
use common::program::{command, file, opened, plain_check, run, run_on, Said, FRACTION, KEPT, LOG, SHEET};
use common::words::line;
use common::{scratch, tell, top};
use satskhubo_tests::generate::logs::log_of;
use satskhubo_tests::json::{self, Json};
use satskhubo_tests::reference::sheet::{self, kind::*, Row, CLOSE, START};
use std::path::Path;

const LARGEST: u32 = u32::MAX;
const NEVER: &str = "as the clock drops fractions, no two ticks are surely";

/// Point 1 is a scan, point 11 the correction before it, and the row is about both.
fn two_lines(kind: u32, a: u32, b: u32) -> Vec<Row> {
    vec![Row::new(0, POINT, 1, 0, 8, 0), Row::new(1, LAST, 11, 1, 4, 0), Row::new(1, kind, 11, 1, a, b)]
}

/// Points 1 and 2 are scans, which may be one, and the row is about both.
fn two_scans(kind: u32, a: u32, b: u32) -> Vec<Row> {
    vec![Row::new(0, POINT, 1, 0, 8, 0), Row::new(0, POINT, 2, 0, 8, 0), Row::new(1, kind, 1, 2, a, b)]
}

/// A correction, and a scan so much later.
fn apart(distance: u32) -> Vec<u8> {
    log_of(&[(0, 2), (distance, 3)]).text()
}

/// The program on a sheet of one consequent, a log on standard input.
fn checked(folder: &Path, rows: &[Row], log: &[u8]) -> Said {
    run_on(&["check", &file(folder, "sheet", &sheet::text(1, rows)), "-"], log)
}

fn holds(folder: &Path, rows: &[Row], log: &[u8]) {
    let said = checked(folder, rows, log);
    assert!(said.status == 0 && said.out.starts_with("holds: "), "{rows:?} {said:?}");
}

/// The last row is at fault, and what was found ends with these words.
fn violated(folder: &Path, rows: &[Row], log: &[u8], words: &str) {
    let said = checked(folder, rows, log);
    assert!(said.status == 1 && said.out.starts_with("violated: "), "{rows:?} {said:?}");
    assert!(said.out.contains(&format!(" cannot be met: row {}, ", rows.len())), "{rows:?} {said:?}");
    assert!(said.out.ends_with(&format!("; {words}\n")), "{rows:?}: {words}\n{said:?}");
}

fn at_most(distance: u32, limit: u32) -> String {
    let highest = limit - 1;
    format!("they differ by {distance}; as the clock drops fractions, they must differ by at most {highest} for at most {limit} ms to be sure")
}

fn at_least(distance: u32, limit: u32) -> String {
    let lowest = limit + 1;
    format!("they differ by {distance}; as the clock drops fractions, they must differ by at least {lowest} for at least {limit} ms to be sure")
}

fn no_two_ticks(distance: u32, a: u32, b: u32) -> String {
    format!("they differ by {distance}; {NEVER} {a} to {b} ms apart")
}

/// Document 02: the example that ends at tick 600 is now violated at row 3; with 599 it holds.
#[test]
fn the_example_that_ends_at_600() {
    let due = format!(
        "violated: examples/lockmass/log-fraction breaks the rule of examples/lockmass/sheet
  point 1 is at line 3 of the log, line 4 of the file, tick 600, event 3
  consequent 1 cannot be met: row 3, WITHIN
    asked: point 11 and point 1 are surely 0 to 500 ms apart
    found: point 11 is at {}, tick 100; point 1 is at {}, tick 600; they differ by 500; as the clock drops fractions, they must differ by at most 499 for at most 500 ms to be sure
",
        line(1),
        line(3)
    );
    assert_eq!(run(&["check", SHEET, FRACTION]).answer(), (1, due));
    assert_eq!(run(&["check", "--plain", SHEET, FRACTION]).answer(), (1, "  0  1\n    3\n   3\n".into()));
    assert_eq!(run(&["check", "--plain", SHEET, KEPT]).answer(), (0, "  0  0\n".into()));
    let [fraction, kept] = [FRACTION, KEPT].map(|name| std::fs::read_to_string(top().join(name)).unwrap());
    assert_eq!(fraction.replace("600", "599"), kept);
    let (status, text) = run(&["search", SHEET, FRACTION]).answer();
    assert!(status == 1 && text.starts_with("antiscenario 2 is found in ") && text.contains("1 of 4 antiscenarios"), "{text}");
    let (_, text) = run(&["antiscenarios", SHEET, "2"]).answer();
    assert!(text.ends_with("  OUTSIDE  point 11 and point 1 are not surely 0 to 500 ms apart\n"), "{text}");
    let (_, text) = run(&["explain", SHEET]).answer();
    assert!(text.contains("  row   3  WITHIN   point 11 and point 1 are surely 0 to 500 ms apart\n  row   4 "), "{text}");
}

/// Distance d with at most b: d = b - 1 is the last that is sure, equal ticks on two lines among them.
#[test]
fn an_upper_limit() {
    let folder = scratch("fractions-upper");
    for b in [1, 2, 500, LARGEST - 1, LARGEST] {
        let rows = two_lines(WITHIN, 0, b);
        holds(&folder, &rows, &apart(0));
        holds(&folder, &rows, &apart(b - 1));
        for distance in [b, b.saturating_add(1), LARGEST] {
            violated(&folder, &rows, &apart(distance), &at_most(distance, b));
        }
    }
}

/// Distance d with at least a: d = a + 1 is the first that is sure; ticks of two lines may be equal.
#[test]
fn a_lower_limit() {
    let folder = scratch("fractions-lower");
    for (a, b) in [(1, 3), (1, LARGEST), (500, 502), (2000, 3_600_000), (LARGEST - 2, LARGEST)] {
        let rows = two_lines(WITHIN, a, b);
        holds(&folder, &rows, &apart(a + 1));
        holds(&folder, &rows, &apart(b - 1));
        for distance in [0, a - 1, a] {
            violated(&folder, &rows, &apart(distance), &at_least(distance, a));
        }
        violated(&folder, &rows, &apart(b), &at_most(b, b));
    }
}

/// Neither limit alone is said where no other distance would do.
#[test]
fn limits_that_no_two_ticks_keep() {
    let folder = scratch("fractions-never");
    let all = [(0, 0), (1, 1), (1, 2), (500, 500), (500, 501), (LARGEST - 1, LARGEST), (LARGEST, LARGEST)];
    for (a, b) in all {
        for distance in [0, 1, a - a.min(1), a, b, b.saturating_add(1), LARGEST] {
            violated(&folder, &two_lines(WITHIN, a, b), &apart(distance), &no_two_ticks(distance, a, b));
            holds(&folder, &two_lines(OUTSIDE, a, b), &apart(distance));
        }
    }
}

/// OUTSIDE is the opposite, and says the distance alone.
#[test]
fn outside() {
    let folder = scratch("fractions-outside");
    for (a, b) in [(0, 500), (2000, 5000), (0, 1), (0, LARGEST), (LARGEST - 2, LARGEST)] {
        let rows = two_lines(OUTSIDE, a, b);
        let lowest = if a == 0 { 0 } else { a + 1 };
        for distance in [lowest, b - 1] {
            violated(&folder, &rows, &apart(distance), &format!("they differ by {distance}"));
        }
        holds(&folder, &rows, &apart(b));
        if a > 0 {
            holds(&folder, &rows, &apart(a));
        }
    }
}

/// One line is exactly 0 ms from itself, whatever its fraction; two lines of one tick are not.
#[test]
fn one_line_and_equal_ticks() {
    let folder = scratch("fractions-one-line");
    let [one, equal] = [&[(7, 3)][..], &[(7, 3), (7, 3)]].map(|lines| log_of(lines).text());
    let exactly = "they are one line, exactly 0 ms apart";
    for b in [0, 1, LARGEST] {
        holds(&folder, &two_scans(WITHIN, 0, b), &one);
        violated(&folder, &two_scans(OUTSIDE, 0, b), &one, exactly);
    }
    for (a, b) in [(1, 1), (1, 2), (1, 3), (1, LARGEST), (LARGEST, LARGEST)] {
        violated(&folder, &two_scans(WITHIN, a, b), &one, exactly);
        holds(&folder, &two_scans(OUTSIDE, a, b), &one);
    }
    holds(&folder, &two_scans(WITHIN, 0, 1), &equal);
    violated(&folder, &two_scans(WITHIN, 0, 0), &equal, &no_two_ticks(0, 0, 0));
    // The lines themselves are named before the distance.
    let said = checked(&folder, &two_scans(WITHIN, 1, 5), &one);
    let place = |point| format!("point {point} is at {}, tick 7", line(1));
    assert!(said.out.ends_with(&format!("    found: {}; {}; {exactly}\n", place(1), place(2))), "{said:?}");
}

/// The start and the close are positions of their own, also where their ticks are those of a line, or of each other.
#[test]
fn the_start_and_the_close() {
    let folder = scratch("fractions-ends");
    let empty = b"    0          5          5\n";
    let found = "    found: the start is at tick 5; the close is at tick 5; ";
    for (p, q) in [(START, CLOSE), (CLOSE, START)] {
        holds(&folder, &[Row::new(1, WITHIN, p, q, 0, 1)], empty);
        holds(&folder, &[Row::new(1, OUTSIDE, p, q, 0, 0)], empty);
        violated(&folder, &[Row::new(1, WITHIN, p, q, 0, 0)], empty, &no_two_ticks(0, 0, 0));
    }
    let said = checked(&folder, &[Row::new(1, WITHIN, START, CLOSE, 0, 0)], empty);
    assert!(
        said.out.contains(found) && said.out.contains("asked: the start and the close are surely 0 to 0 ms apart\n"),
        "{said:?}"
    );
    let scan = |row| [Row::new(0, POINT, 1, 0, 8, 0), row];
    let log = log_of(&[(0, 3)]).text();
    for end in [START, CLOSE] {
        holds(&folder, &scan(Row::new(1, WITHIN, end, 1, 0, 1)), &log);
        violated(&folder, &scan(Row::new(1, WITHIN, 1, end, 0, 0)), &log, &no_two_ticks(0, 0, 0));
        violated(&folder, &scan(Row::new(1, WITHIN, end, 1, 1, 9)), &log, &at_least(0, 1));
        violated(&folder, &scan(Row::new(1, OUTSIDE, 1, end, 0, 1)), &log, "they differ by 0");
    }
    let late = log_of(&[(LARGEST, 3)]).text();
    violated(&folder, &scan(Row::new(1, WITHIN, START, 1, 0, LARGEST)), &late, &at_most(LARGEST, LARGEST));
}

/// What a remark says of its row, before the reason.
fn remarked(folder: &Path, row: Row) -> Option<String> {
    let rows = [Row::new(0, POINT, 1, 0, 8, 0), Row::new(0, POINT, 2, 0, 8, 0), row];
    let name = file(folder, "sheet", &sheet::text(1, &rows));
    let said = run(&["check", &name, LOG]);
    let object = json::lines(&run(&["explain", "--json", &name]).answer().1).remove(0);
    let rows = object.get("rows").list();
    assert_eq!((rows[0].get("remark"), rows[1].get("remark")), (&Json::Null, &Json::Null));
    if said.err.is_empty() {
        assert_eq!(rows[2].get("remark"), &Json::Null, "{row:?}");
        return None;
    }
    let remark = rows[2].get("remark").text();
    assert_eq!(said.err, format!("satskhubo: remark: {name}, line 4 of the file: {remark}\n"));
    let kind = if row.kind == WITHIN { "WITHIN" } else { "OUTSIDE" };
    let verdict = remark.strip_prefix(&format!("row 3, {kind}, ")).unwrap_or_else(|| panic!("{remark}"));
    let verdict = verdict.strip_suffix(&format!(": {NEVER} {} to {} ms apart", row.a, row.b));
    Some(verdict.unwrap_or_else(|| panic!("{remark}")).to_string())
}

#[test]
fn remarks_at_the_edges() {
    let folder = scratch("fractions-remarks");
    let kept = [(0, 1), (0, 500), (0, LARGEST), (1, 3), (500, 502), (1, LARGEST), (LARGEST - 2, LARGEST)];
    let never = [(1, 1), (1, 2), (500, 500), (500, 501), (LARGEST - 1, LARGEST - 1), (LARGEST - 1, LARGEST), (LARGEST, LARGEST)];
    for section in [0, 1] {
        let remark = |kind, p, q, (a, b)| remarked(&folder, Row::new(section, kind, p, q, a, b));
        for (p, q) in [(1, 2), (START, 1), (2, CLOSE), (START, CLOSE), (CLOSE, START)] {
            for limits in kept {
                assert_eq!((remark(WITHIN, p, q, limits), remark(OUTSIDE, p, q, limits)), (None, None), "{limits:?}");
            }
            for limits in never {
                assert_eq!(remark(WITHIN, p, q, limits).as_deref(), Some("can never be met"), "{limits:?}");
                assert_eq!(remark(OUTSIDE, p, q, limits).as_deref(), Some("is always met"), "{limits:?}");
            }
            // Points that may be one line, and those that never are.
            let may_be_one = (p, q) == (1, 2);
            let [within, outside] = [WITHIN, OUTSIDE].map(|kind| remark(kind, p, q, (0, 0)).unwrap());
            assert_eq!(within, if may_be_one { "can be met on one line only" } else { "can never be met" });
            assert_eq!(outside, if may_be_one { "is always met on two lines" } else { "is always met" });
        }
    }
}

/// Whether the antecedent's rows are met on some of the logs, by the library's verdict: without a consequent, a sheet holds where they are not.
fn is_met_on(folder: &Path, rows: &[Row], logs: &Path) -> bool {
    let name = file(folder, "sheet", &sheet::text(0, rows));
    match run(&["check", "--plain", &name, &logs.display().to_string()]).status {
        0 => false,
        1 => true,
        status => panic!("{status}: {rows:?}"),
    }
}

/// A remark says what the library finds: over all small limits, on two lines at all small distances, and on one line.
#[test]
fn remarks_are_true_of_the_verdicts() {
    let folder = scratch("fractions-true");
    let [two, one] = ["two", "one"].map(|name| scratch(&format!("fractions-true/{name}")));
    for distance in 0..=7 {
        file(&two, &format!("log-{distance}"), &log_of(&[(5, 3), (5 + distance, 4)]).text());
    }
    file(&one, "log", &log_of(&[(5, 3)]).text());
    let points = |second| [Row::new(0, POINT, 1, 0, 8, 0), Row::new(0, POINT, 2, 0, second, 0)];
    let mut comparisons = 0;
    for (a, b) in (0..=6).flat_map(|b| (0..=b).map(move |a| (a, b))) {
        let met = |kind, second, logs| {
            let row = Row::new(0, kind, 1, 2, a, b);
            is_met_on(&folder, &[&points(second)[..], &[row]].concat(), logs)
        };
        let [within, outside] = [WITHIN, OUTSIDE].map(|kind| remarked(&folder, Row::new(1, kind, 1, 2, a, b)));
        let said = match (met(WITHIN, 16, &two), met(WITHIN, 8, &one)) {
            (true, _) => (None, None),
            (false, true) => (Some("can be met on one line only"), Some("is always met on two lines")),
            (false, false) => (Some("can never be met"), Some("is always met")),
        };
        assert_eq!((within.as_deref(), outside.as_deref()), said, "{a} to {b}");
        assert!(met(OUTSIDE, 16, &two), "some distance is over {b}");
        assert_ne!(met(OUTSIDE, 8, &one), met(WITHIN, 8, &one), "{a} to {b}");
        comparisons += 6;
    }
    tell("program: remarks", comparisons);
}

/// Two rows with remarks, one of them in the antecedent, and some without.
fn remarkable() -> Vec<Row> {
    vec![
        Row::new(0, POINT, 1, 0, 8, 0),
        Row::new(0, OUTSIDE, 0, 1, 7, 8),
        Row::new(1, LAST, 11, 1, 4, 0),
        Row::new(1, WITHIN, 11, 1, 0, 500),
        Row::new(2, LAST, 21, 1, 4, 0),
        Row::new(2, WITHIN, 21, 1, 0, 0),
    ]
}

fn remarks_of(name: &str) -> String {
    let remark = |number: u32, said: &str| {
        format!("satskhubo: remark: {name}, line {} of the file: row {number}, {said} ms apart\n", number + 1)
    };
    remark(2, &format!("OUTSIDE, is always met: {NEVER} 7 to 8"))
        + &remark(6, &format!("WITHIN, can be met on one line only: {NEVER} 0 to 0"))
}

/// In every form, once for the sheet however many logs there are; the answer and the exit status are those of the verdicts.
#[test]
fn a_check_says_its_remarks_once() {
    let folder = scratch("fractions-once");
    let text = sheet::text(2, &remarkable());
    let name = file(&folder, "sheet", &text);
    let refused = file(&folder, "refused", b"no log");
    let logs = [(KEPT, 0), (LOG, 1), (refused.as_str(), 2)];
    for (log, status) in logs {
        let bytes = std::fs::read(top().join(log)).unwrap();
        let due = plain_check(&opened(&text, &bytes));
        assert_eq!(due.0, status);
        let plain = run(&["check", "--plain", &name, log]);
        assert_eq!(plain, Said { status, out: due.1, err: remarks_of(&name) });
        let words = run(&["check", &name, log]);
        let verdict = ["holds", "violated", "refused"][status as usize];
        assert_eq!((words.status, words.err), (status, remarks_of(&name)));
        assert!(words.out.starts_with(verdict) && !words.out.contains("remark"), "{}", words.out);
        let in_json = run(&["check", "--json", &name, log]);
        assert_eq!((in_json.status, in_json.err), (status, remarks_of(&name)));
        let objects = json::lines(&in_json.out);
        assert_eq!((objects.len(), objects[0].get("verdict").text()), (1, verdict));
        assert!(!in_json.out.contains("remark"), "{}", in_json.out);
    }
    let all = logs.map(|(log, _)| log);
    for form in [&[][..], &["--plain"], &["--json"]] {
        let said = run(&[&["check", &name][..], form, &all, &all].concat());
        assert_eq!((said.status, said.err), (2, remarks_of(&name)), "{form:?}");
    }
    let said = run(&["check", &name, "no-such-log"]);
    assert!(said.status == 2 && said.err.starts_with(&remarks_of(&name)) && said.err.contains("no-such-log"), "{said:?}");
    let said = run_on(&["check", "--plain", "-", KEPT], &text);
    assert_eq!(said, Said { status: 0, out: "  0  0\n".into(), err: remarks_of("standard input") });
    let said: Said =
        command(&["check", "--plain", &name, KEPT]).stderr(std::fs::File::create("/dev/full").unwrap()).output().unwrap().into();
    assert_eq!((said.status, said.out.as_str()), (0, "  0  0\n"));
}

/// Explanations have them among the answer; searches and antiscenarios, and sheets that are refused, have none.
#[test]
fn explain_says_its_remarks_below_the_rows() {
    let folder = scratch("fractions-explained");
    let name = file(&folder, "sheet", &sheet::text(2, &remarkable()));
    let (status, text) = run(&["explain", &name]).answer();
    let due = format!(
        "  row   2  OUTSIDE  the start and point 1 are not surely 7 to 8 ms apart
           remark:  row 2, OUTSIDE, is always met: {NEVER} 7 to 8 ms apart
  points: 1
section 1, consequent 1: it is in order if
  row   3  LAST     point 11 is the last line before point 1 with event 2
  row   4  WITHIN   point 11 and point 1 are surely 0 to 500 ms apart
  points: 11
section 2, consequent 2: it is in order if
  row   5  LAST     point 21 is the last line before point 1 with event 2
  row   6  WITHIN   point 21 and point 1 are surely 0 to 0 ms apart
           remark:  row 6, WITHIN, can be met on one line only: {NEVER} 0 to 0 ms apart
  points: 21
"
    );
    assert!(status == 0 && text.ends_with(&due), "{text}");
    let object = json::lines(&run(&["explain", "--json", &name]).answer().1).remove(0);
    let remarks: Vec<&Json> = object.get("rows").list().iter().map(|row| row.get("remark")).collect();
    let has = remarks.iter().map(|remark| **remark != Json::Null).collect::<Vec<bool>>();
    assert_eq!(has, [false, true, false, false, false, true]);
    assert_eq!(remarks[1].text(), format!("row 2, OUTSIDE, is always met: {NEVER} 7 to 8 ms apart"));
    for words in [
        &["search", &name, LOG][..],
        &["search", "--json", &name, LOG],
        &["antiscenarios", &name],
        &["antiscenarios", "--json", &name],
    ] {
        let (_, text) = run(words).answer();
        assert!(!text.contains("remark"), "{words:?}: {text}");
    }
    let text = sheet::text(2, &remarkable());
    let refused = file(&folder, "refused", &text[..text.len() - 1]);
    assert!(run(&["check", &refused, LOG]).answer().1.starts_with("refused 3: "));
}
