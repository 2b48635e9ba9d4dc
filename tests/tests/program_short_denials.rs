//! Document 02, A8: what the program says where the denial of a missing point is short: antiscenarios, searches, and what is found at a row at fault,
//! which the library certifies by that denial.
mod common;
use common::program::{file, run};
use common::scratch;
use common::words::line;
use satskhubo_tests::generate::logs::log_of;
use satskhubo_tests::json;
use satskhubo_tests::reference::sheet::{self, kind::*, Row};
use std::path::Path;

const SHEET: &str = "examples/between/sheet";
const LOG: &str = "examples/between/log";
const KEPT: &str = "examples/between/log-kept";

fn rows(rows: &[[u32; 6]]) -> Vec<u8> {
    let rows: Vec<Row> = rows.iter().map(|f| Row::new(f[0], f[1], f[2], f[3], f[4], f[5])).collect();
    sheet::text(1, &rows)
}

/// Points 1 and 2 in order or not, and a consequent.
fn of_two(is_ordered: bool, consequent: &[[u32; 6]]) -> Vec<u8> {
    let points = [[0, POINT, 1, 0, 2, 0], [0, POINT, 2, 0, 8, 0]];
    let order = [[0, BEFORE, 1, 2, 0, 0]];
    rows(&[&points[..], if is_ordered { &order } else { &[] }, consequent].concat())
}

/// Number 1 of a sheet, in words: its last row.
fn last_row(folder: &Path, sheet: &[u8]) -> String {
    let (status, text) = run(&["antiscenarios", &file(folder, "sheet", sheet), "1"]).answer();
    assert_eq!(status, 0, "{text}");
    text.lines().last().unwrap().trim().to_string()
}

#[test]
fn the_example() {
    let due = "antiscenario 1 of 3
  POINT    point 1 has event 1
  POINT    point 2 has event 3
  BEFORE   point 1 stands before point 2
  FREE     event 2 does not occur between point 1 and point 2
";
    assert_eq!(run(&["antiscenarios", SHEET, "1"]).answer(), (0, due.to_string()));
    let plain = "  1  4
  0  1  1  0          2          0
  0  1  2  0          8          0
  0  6  1  2          0          0
  1  9  1  2          4          0
";
    assert_eq!(run(&["antiscenarios", "--plain", SHEET, "1"]).answer(), (0, plain.to_string()));
    let (status, text) = run(&["antiscenarios", "--json", SHEET, "1"]).answer();
    let object = json::read(&text).unwrap();
    assert_eq!((status, object.get("text").text()), (0, plain));
    // A correction after the scan: the pattern of a missing one is found too, since it is missing before the scan.
    let (status, text) = run(&["search", SHEET, LOG]).answer();
    assert!(status == 1 && text.starts_with("antiscenario 1 is found in"), "{text}");
    let last = "2 of 3 antiscenarios found in examples/between/log; 1 that no run can meet was passed over\n";
    assert!(text.ends_with(last), "{text}");
    let found = format!("{}; point 2 is at {}", format!("point 11 is at {}, tick 300", line(3)), line(2));
    let (status, text) = run(&["check", SHEET, LOG]).answer();
    assert!(status == 1 && text.contains("row 5, BEFORE") && text.contains(&found), "{text}");
    assert_eq!(run(&["search", SHEET, KEPT]).answer().0, 0);
    assert_eq!(run(&["check", SHEET, KEPT]).answer().0, 0);
}

/// Without the antecedent's order the long denial stays; LAST the other way round.
#[test]
fn with_and_without_order() {
    let folder = scratch("short-denials-order");
    let next = [[1, NEXT, 11, 1, 4, 0], [1, BEFORE, 11, 2, 0, 0]];
    let last = [[1, LAST, 11, 2, 4, 0], [1, BEFORE, 1, 11, 0, 0]];
    let short = "FREE     event 2 does not occur between point 1 and point 2";
    assert_eq!(last_row(&folder, &of_two(true, &next)), short);
    assert_eq!(last_row(&folder, &of_two(true, &last)), short);
    assert_eq!(last_row(&folder, &of_two(false, &next)), "FREE     event 2 does not occur between point 1 and the close");
    assert_eq!(last_row(&folder, &of_two(false, &last)), "FREE     event 2 does not occur between the start and point 2");
}

/// A missing point at fault: the words speak of all lines after q, or before it, and the denial that certifies them is short.
#[test]
fn a_missing_point_at_fault() {
    let folder = scratch("short-denials-fault");
    let next = [[1, NEXT, 11, 1, 4, 0], [1, BEFORE, 11, 2, 0, 0]];
    let last = [[1, LAST, 11, 2, 4, 0], [1, BEFORE, 1, 11, 0, 0]];
    let from_start = [[1, NEXT, 11, 0, 4, 0], [1, BEFORE, 11, 2, 0, 0]];
    let to_close = [[1, LAST, 11, 99, 4, 0], [1, BEFORE, 1, 11, 0, 0]];
    let cases: [(&[[u32; 6]], &[(u32, u32)], &str); 6] = [
        (&next, &[(10, 1), (20, 3)], "after point 1 there is no such line"),
        (&next, &[(5, 2), (10, 1), (20, 3), (30, 1)], "after point 1 there is no such line"),
        (&last, &[(10, 1), (20, 3)], "before point 2 there is no such line"),
        (&last, &[(10, 1), (20, 3), (30, 2)], "before point 2 there is no such line"),
        (&from_start, &[(10, 1), (20, 3)], "after the start there is no such line"),
        (&to_close, &[(10, 1), (20, 3)], "before the close there is no such line"),
    ];
    for (consequent, lines, words) in cases {
        for is_ordered in [true, false] {
            let sheet = file(&folder, "sheet", &of_two(is_ordered, consequent));
            let log = file(&folder, "log", &log_of(lines).text());
            let said = run(&["check", &sheet, &log]);
            let (status, text) = said.answer();
            assert!(status == 1 && text.ends_with(&format!("    found: {words}\n")), "{text}");
        }
    }
}

/// Two consequents, both missing a point, one with a short denial and one with a long one.
#[test]
fn one_short_and_one_long() {
    let folder = scratch("short-denials-two");
    let antecedent = [[0, POINT, 1, 0, 2, 0], [0, POINT, 2, 0, 8, 0], [0, BEFORE, 1, 2, 0, 0]];
    let consequents = [[1, NEXT, 11, 1, 4, 0], [1, BEFORE, 11, 2, 0, 0], [2, NEXT, 21, 1, 16, 0], [2, BEFORE, 2, 21, 0, 0]];
    let all: Vec<Row> =
        [&antecedent[..], &consequents].concat().iter().map(|f| Row::new(f[0], f[1], f[2], f[3], f[4], f[5])).collect();
    let sheet = file(&folder, "sheet", &sheet::text(2, &all));
    let (_, text) = run(&["antiscenarios", "--plain", &sheet, "1"]).answer();
    assert!(text.ends_with("  1  9  1  2          4          0\n  2  9  1 99         16          0\n"), "{text}");
    let log = file(&folder, "log", &log_of(&[(10, 1), (20, 3)]).text());
    let (status, text) = run(&["check", &sheet, &log]).answer();
    assert_eq!((status, text.matches("    found: after point 1 there is no such line\n").count()), (1, 2), "{text}");
}
