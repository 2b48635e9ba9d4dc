//! Document 02, A1: what the program says of events and sets up to 63, with names and without, in words and in JSON.
mod common;
use common::program::{command, file, run, Said, BOARD, BOARD_KEPT, BOARD_LOG, KEPT, SHEET};
use common::scratch;
use common::words::line;
use satskhubo_tests::generate::logs::log_of;
use satskhubo_tests::json;
use satskhubo_tests::reference::sheet::{self, kind::*, Row};
use std::path::Path;

const LOWER: u64 = 0xffff_ffff;
const UPPER: u64 = LOWER << 32;

/// A point with this set in the antecedent.
fn point(set: u64) -> Row {
    Row::of_set(0, POINT, 1, 0, set)
}

/// The answer to a check of a sheet of one consequent, in a folder of its own.
fn checked(folder: &Path, rows: &[Row], lines: &[(u32, u32)]) -> (i32, String) {
    let sheet = file(folder, "sheet", &sheet::text(1, rows));
    let log = file(folder, "log", &log_of(lines).text());
    run(&["check", &sheet, &log]).answer()
}

fn explained(folder: &Path, rows: &[Row]) -> String {
    let (status, text) = run(&["explain", &file(folder, "sheet", &sheet::text(1, rows))]).answer();
    assert_eq!(status, 0, "{text}");
    text
}

#[test]
fn the_sheet_of_a_newer_board() {
    let due = "violated: examples/board/log breaks the rule of examples/board/sheet
  point 1 is at line 4 of the log, line 5 of the file, tick 9000, event 3 (scan)
  consequent 1 cannot be met: row 4, FREE
    asked: none of the events 7 (vent), 41 (source heater off) occurs between point 11 and point 1
    found: line 3 of the log, line 4 of the file, tick 6000, has event 41 (source heater off)
";
    assert_eq!(run(&["check", BOARD, BOARD_LOG]).answer(), (1, due.to_string()));
    assert_eq!(run(&["check", BOARD, BOARD_KEPT]).answer().0, 0);
    let (status, text) = run(&["antiscenarios", BOARD, "1"]).answer();
    let denial = "event 40 (source temperature reached) does not occur between the start and point 1\n";
    assert!(status == 0 && text.ends_with(denial), "{text}");
    let (status, text) = run(&["antiscenarios", "--plain", BOARD, "3"]).answer();
    let rows = "  1  3 11  1          0        256\n  1  1 19  0        128        512\n";
    assert!(status == 0 && text.contains(rows), "{text}");
    let (status, text) = run(&["search", BOARD, BOARD_LOG]).answer();
    let found = "point 19 (row 3, POINT): line 3 of the log, line 4 of the file, tick 6000, event 41 (source heater off)\n";
    assert!(status == 1 && text.contains(found) && text.contains("1 of 4 antiscenarios found"), "{text}");
}

/// What is found is certified by the library, which has both halves in its denials.
#[test]
fn rows_at_fault_of_both_halves() {
    let folder = scratch("boards-faults");
    for (event, below) in [(32, 0), (33, 1), (63, 31)] {
        let set = 1 << event;
        let violated = |row: Row, lines: &[(u32, u32)], asked: &str, found: &str| {
            let (status, text) = checked(&folder, &[point(8), row], lines);
            let due = format!("row 2, {asked}\n    found: {found}\n");
            assert!(status == 1 && text.ends_with(&due), "{due}{text}");
        };
        violated(
            Row::of_set(1, NEXT, 11, 1, set),
            &[(1, event), (2, 3), (3, below)],
            &format!("NEXT\n    asked: point 11 is the next line after point 1 with event {event}"),
            "after point 1 there is no such line",
        );
        violated(
            Row::of_set(1, LAST, 11, 1, set | 16),
            &[(1, below), (2, 3), (3, event)],
            &format!("LAST\n    asked: point 11 is the last line before point 1 with one of the events 4, {event}"),
            "before point 1 there is no such line",
        );
        violated(
            Row::of_set(1, FREE, 0, 1, set),
            &[(1, below), (2, event), (3, 3)],
            &format!("FREE\n    asked: event {event} does not occur between the start and point 1"),
            &format!("{}, tick 2, has event {event}", line(2)),
        );
        violated(
            Row::of_set(1, EVENT, 1, 0, set),
            &[(1, 3)],
            &format!("EVENT\n    asked: point 1 has event {event}"),
            &format!("{} has event 3", line(1)),
        );
    }
    let (status, text) = checked(&folder, &[point(1 << 33), Row::of_set(1, EVENT, 1, 0, 1)], &[(1, 33)]);
    assert!(
        status == 1 && text.ends_with(&format!("asked: point 1 has event 0\n    found: {} has event 33\n", line(1))),
        "{text}"
    );
    let holds = checked(&folder, &[point(UPPER), Row::of_set(1, EVENT, 1, 0, UPPER)], &[(1, 63), (2, 31), (3, 32)]);
    assert!(holds.0 == 0 && holds.1.ends_with("; 2 lines have one of the events 32 to 63\n"), "{holds:?}");
}

#[test]
fn sets_of_many_events() {
    let folder = scratch("boards-sets");
    let said = |set: u64| {
        let text = explained(&folder, &[point(set), Row::of_set(1, FREE, 0, 99, set)]);
        let after = |key: &str| text.split(key).nth(1).unwrap().lines().next().unwrap().to_string();
        (after("POINT    point 1 has "), after("FREE     ").replace(" between the start and the close", ""))
    };
    let all = [
        (LOWER, "one of the events 0 to 31", "none of the events 0 to 31 occurs"),
        (UPPER, "one of the events 32 to 63", "none of the events 32 to 63 occurs"),
        (LOWER | UPPER, "any event", "no event occurs"),
        (UPPER | 1, "any event but 1 to 31", "no event but 1 to 31 occurs"),
        (!(1 << 40), "any event but 40", "no event but 40 occurs"),
        (!(0b111 << 30), "any event but 30 to 32", "no event but 30 to 32 occurs"),
        (0b11 << 31, "one of the events 31, 32", "none of the events 31, 32 occurs"),
        (1 | 0b1011 << 60, "one of the events 0, 60, 61, 63", "none of the events 0, 60, 61, 63 occurs"),
    ];
    for (set, some, none) in all {
        assert_eq!(said(set), (some.to_string(), none.to_string()), "{set}");
    }
    // What denies EVENT is said by what it leaves out.
    let sheet = file(&folder, "event", &sheet::text(1, &[point(8), Row::of_set(1, EVENT, 1, 0, 1 << 40 | 4)]));
    let (_, text) = run(&["antiscenarios", &sheet]).answer();
    assert!(text.ends_with("  EVENT    point 1 has any event but 2, 40\n"), "{text}");
    let sheet = file(&folder, "event", &sheet::text(1, &[point(8), Row::of_set(1, EVENT, 1, 0, LOWER)]));
    let (_, text) = run(&["antiscenarios", &sheet]).answer();
    assert!(text.contains("\n  EVENT    point 1 has one of the events 32 to 63\n"), "{text}");
}

/// An event that has a name is said by itself.
#[test]
fn names_of_newer_events() {
    let folder = scratch("boards-names");
    file(&folder, "sheet", &sheet::text(1, &[point(UPPER), Row::of_set(1, EVENT, 1, 0, 1 << 40)]));
    file(&folder, "log", &log_of(&[(1, 63)]).text());
    let run = |words: &[&str]| -> Said { command(words).current_dir(&folder).output().unwrap().into() };
    file(&folder, "events", b"0 first\n40 source warm\n63 last\n");
    let text = run(&["explain", "sheet"]).answer().1;
    assert!(text.contains("point 1 has one of the events 32 to 39, 40 (source warm), 41 to 62, 63 (last)\n"), "{text}");
    let text = run(&["check", "sheet", "log"]).answer().1;
    assert!(text.contains("tick 1, event 63 (last)\n") && text.contains("asked: point 1 has event 40 (source warm)\n"), "{text}");
    file(&folder, "over", b"63 last\n64 over\n");
    let complaint = run(&["check", "--events", "over", "sheet", "log"]).complaint();
    assert!(complaint.contains("over, line 2: event 64 is over 63"), "{complaint}");
}

#[test]
fn refusals_of_sets_and_events() {
    let folder = scratch("boards-refused");
    let sheet = |row: &str| {
        file(
            &folder,
            "sheet",
            format!("  1  3\n  0  1  1  0          0        256\n  0  1  2  0          8          0\n{row}\n").as_bytes(),
        )
    };
    let refused = |row: &str, sentence: &str| {
        let (status, text) = run(&["explain", &sheet(row)]).answer();
        let due = format!("row 3, line 4 of the file\n  [{row}]\n  {sentence}\n");
        assert!(status == 2 && text.starts_with("refused 9: ") && text.ends_with(&due), "{due}{text}");
    };
    let empty = |kind: &str| format!("a and b are both 0, the empty set; kind {kind}, needs an event in it");
    refused("  0  1  3  0          0          0", &empty("1, POINT"));
    refused("  1  2 11  1          0          0", &empty("2, NEXT"));
    refused("  1  3 11  1          0          0", &empty("3, LAST"));
    refused("  1  9  1  2          0          0", &empty("9, FREE"));
    let unused = |field: &str, kind: &str| format!("{field}; kind {kind}, does not use it, so 0 is due");
    refused("  1  4 11  1          2          1", &unused("b is 1", "4, EARLIER"));
    refused("  1  5 11  1          2        256", &unused("b is 256", "5, LATER"));
    refused("  1  6  1  2          0 4294967295", &unused("b is 4294967295", "6, BEFORE"));
    refused("  1  7  1  2          0          1", &unused("b is 1", "7, APART"));
    refused("  1  8  1  2          0          1", &unused("b is 1", "8, SAME"));
    refused("  1 12  1  2          0        256", &unused("q is 2", "12, EVENT"));
    for event in [64, 99, 255, 999] {
        let log = file(&folder, "log", &log_of(&[(1, event)]).text());
        let (status, text) = run(&["check", SHEET, &log]).answer();
        let due = format!("the event (columns 12 to 14) is {event}; events are 0 to 63\n");
        assert!(status == 2 && text.starts_with("refused 25: ") && text.ends_with(&due), "{text}");
    }
    for event in [32, 63] {
        let log = file(&folder, "log", &log_of(&[(1, event)]).text());
        assert_eq!(run(&["check", "--plain", SHEET, &log]).answer(), (0, "  0  0\n".to_string()));
    }
}

#[test]
fn json_has_both_halves() {
    let folder = scratch("boards-json");
    let object = |words: &[&str]| json::lines(&run(words).answer().1).remove(0);
    let fields = |row: &json::Json| (row.get("a").number(), row.get("b").number());
    let explained = object(&["explain", "--json", BOARD]);
    let sets: Vec<(u64, u64)> = explained.get("rows").list().iter().map(fields).collect();
    assert_eq!(sets, [(8, 0), (0, 256), (2000, 3_600_000), (128, 512)]);
    let third = object(&["antiscenarios", "--json", BOARD, "3"]);
    let sets: Vec<(u64, u64)> = third.get("rows").list().iter().map(fields).collect();
    assert_eq!(sets, [(8, 0), (0, 256), (128, 512), (0, 0), (0, 0)]);
    let sheet = file(&folder, "sheet", &sheet::text(1, &[point(u64::MAX - 1), Row::of_set(1, EVENT, 1, 0, u64::MAX)]));
    let log = file(&folder, "log", &log_of(&[(1, 0), (2, 32), (3, 63)]).text());
    let antecedent = object(&["check", "--json", &sheet, &log]).get("antecedent").list()[0].clone();
    let numbers = ["point", "set", "a", "b", "lines"].map(|key| antecedent.get(key).number());
    assert_eq!(numbers, [1, u64::MAX - 1, 4_294_967_294, 4_294_967_295, 2]);
    let violated = object(&["check", "--json", BOARD, BOARD_LOG]);
    assert!(violated.get("rows").list()[0].get("found").text().ends_with("has event 41 (source heater off)"));
    let searched = object(&["search", "--json", BOARD, BOARD_LOG, "--number", "3"]);
    assert_eq!(searched.get("events").numbers(), [3, 40, 41]);
    // An older sheet has the set that it had.
    let antecedent = object(&["check", "--json", SHEET, KEPT]).get("antecedent").list()[0].clone();
    assert_eq!(["set", "a", "b"].map(|key| antecedent.get(key).number()), [8, 8, 0]);
}
