//! Antiscenarios that no run can meet (document 02, A6): their marks and reasons by each of the three rules, --possible, and searches that pass
//! them over, in words, in columns and in JSON; and that marks and reasons are right on random sheets.
mod common;
use common::program::{command, file, program, run, Said, INJECTION, KEPT, LOG, SHEET};
use common::words::KINDS;
use common::{scratch, tell, top};
use satskhubo_interface::answer::{impossible, read_sheet, search, write, Ruled, Searched, SheetRead, Written};
use satskhubo_tests::generate::logs::{self, log_of, uniform};
use satskhubo_tests::generate::sheets::{self, sheet_of};
use satskhubo_tests::generate::targeted::{self, all_before, fullest, with_denials};
use satskhubo_tests::json::{self, Json};
use satskhubo_tests::random::Random;
use satskhubo_tests::reference::antiscenario::antiscenario;
use satskhubo_tests::reference::blunder::Blunder;
use satskhubo_tests::reference::sheet::{self, kind::*, Row, CLOSE};
use std::fs;
use std::path::Path;
use std::process::Command;

const FOURTH: &str = "antiscenario 4 of 4, which no run can meet
  POINT    point 1 has event 3
  LAST     point 11 is the last line before point 1 with event 2
  POINT    point 19 has event 1
  BEFORE   point 1 stands before point 19
  BEFORE   point 19 stands before point 11
  impossible: point 11 would stand before itself, since it stands before point 1 (row 2, LAST), which stands before point 19 (row 4, BEFORE), which stands before point 11 (row 5, BEFORE)
";

/// The rules that rows break, by document 02 alone.
fn broken(rows: &[Row]) -> Vec<&'static str> {
    let mut joined: Vec<usize> = (0..=CLOSE as usize).collect();
    for row in rows.iter().filter(|row| row.kind == SAME) {
        let (kept, gone) = (joined[row.p as usize], joined[row.q as usize]);
        joined.iter_mut().filter(|point| **point == gone).for_each(|point| *point = kept);
    }
    let of = |point: u32| joined[point as usize];
    let mut common = vec![u64::MAX; joined.len()];
    for row in rows.iter().filter(|row| [POINT, NEXT, LAST, EVENT].contains(&row.kind)) {
        common[of(row.p)] &= row.set();
    }
    let lower = |row: &Row| match row.kind {
        BEFORE | LAST => Some((of(row.p), of(row.q))),
        NEXT => Some((of(row.q), of(row.p))),
        _ => None,
    };
    let rules = [
        ("no-common-event", common.contains(&0)),
        ("apart-inside", rows.iter().any(|row| row.kind == APART && of(row.p) == of(row.q))),
        ("circular", leads_back(rows.iter().filter_map(lower).collect())),
    ];
    rules.into_iter().filter(|(_, is_broken)| *is_broken).map(|(rule, _)| rule).collect()
}

/// Pairs whose higher point is no lower one of another pair are on no way back: without them, some are left.
fn leads_back(mut pairs: Vec<(usize, usize)>) -> bool {
    loop {
        let going_on: Vec<(usize, usize)> =
            pairs.iter().filter(|(_, high)| pairs.iter().any(|(low, _)| low == high)).copied().collect();
        if going_on.len() == pairs.len() {
            return !pairs.is_empty();
        }
        pairs = going_on;
    }
}

/// A row's number and kind, for each row that words cite: (row 2, LAST), (rows 3 and 4, SAME).
fn cited(words: &str) -> Vec<(u32, String)> {
    let groups = words.split(" (row").skip(1).map(|rest| rest.split(')').next().unwrap());
    let rows = groups.flat_map(|group| {
        let (numbers, kind) = group.rsplit_once(", ").unwrap();
        let numbers = numbers.trim_start_matches('s').replace(" and ", ", ");
        numbers.split(", ").map(|number| (number.trim().parse().unwrap(), kind.to_string())).collect::<Vec<_>>()
    });
    rows.collect()
}

/// The rows of an object of JSON, by their numbers.
fn rows_of(object: &Json) -> Vec<Row> {
    let kind_of = |name: &str| KINDS.iter().position(|kind| *kind == name).unwrap() as u32;
    let row = |row: &Json| {
        let [section, p, q, a, b] = ["section", "p", "q", "a", "b"].map(|name| row.get(name).number() as u32);
        Row::new(section, kind_of(row.get("kind").text()), p, q, a, b)
    };
    object.get("rows").list().iter().map(row).collect()
}

fn is_impossible(object: &Json) -> bool {
    *object.get("impossible") == Json::Bool(true)
}

/// The reason of an impossible one: its rows break the rule by themselves, none of them can be left out, and the words cite them all.
fn reason_holds(object: &Json) -> String {
    let (rows, why) = (rows_of(object), object.get("why"));
    let (rule, words, numbers) = (why.get("rule").text(), why.get("words").text(), why.get("rows").numbers());
    let chosen: Vec<Row> = numbers.iter().map(|number| rows[*number as usize - 1]).collect();
    assert_eq!(broken(&chosen), [rule], "{object:?}");
    for left_out in 0..chosen.len() {
        let rest: Vec<Row> = chosen.iter().enumerate().filter(|(index, _)| *index != left_out).map(|(_, row)| *row).collect();
        assert!(broken(&rest).is_empty(), "{left_out} can be left out: {object:?}");
    }
    let mut due: Vec<(u32, String)> =
        numbers.iter().zip(&chosen).map(|(number, row)| (*number, KINDS[row.kind as usize].to_string())).collect();
    let mut cited = cited(words);
    due.sort();
    cited.sort();
    assert_eq!(cited, due, "{words}");
    rule.to_string()
}

/// The only antiscenario of a sheet without consequents is its antecedent: rows as (kind, p, q, a, b).
fn antecedent(rows: &[[u32; 5]]) -> Vec<u8> {
    let rows: Vec<[u32; 6]> = rows.iter().map(|&[kind, p, q, a, b]| [0, kind, p, q, a, b]).collect();
    sheet_of(0, &rows)
}

/// So many points with scans, and these rows.
fn points(count: u32, rows: &[[u32; 5]]) -> Vec<u8> {
    let points: Vec<[u32; 5]> = (1..=count).map(|p| [POINT, p, 0, 8, 0]).collect();
    antecedent(&[&points[..], rows].concat())
}

/// The object of one antiscenario.
fn object(folder: &Path, sheet: &[u8], number: u64) -> Json {
    let name = file(folder, "sheet", sheet);
    let (status, text) = run(&["antiscenarios", "--json", &name, &number.to_string()]).answer();
    assert_eq!(status, 0);
    json::read(&text).unwrap()
}

/// One is marked in words and in JSON, for this reason.
fn is_marked(folder: &Path, sheet: &[u8], number: u64, rule: &str, rows: &[u32], words: &str) {
    let object = object(folder, sheet, number);
    assert!(is_impossible(&object), "{object:?}");
    let why = object.get("why");
    assert_eq!((why.get("rule").text(), why.get("rows").numbers().as_slice(), why.get("words").text()), (rule, rows, words));
    reason_holds(&object);
    let (_, text) = run(&["antiscenarios", &file(folder, "sheet", sheet), &number.to_string()]).answer();
    let head = format!("antiscenario {number} of {}, which no run can meet\n", object.get("of").number());
    assert!(text.starts_with(&head) && text.ends_with(&format!("\n  impossible: {words}\n")), "{text}");
    assert_eq!(text.lines().count(), rows_of(&object).len() + 2, "{text}");
}

/// One is not marked, in words and in JSON.
fn is_not_marked(folder: &Path, sheet: &[u8], number: u64) {
    let object = object(folder, sheet, number);
    assert!(!is_impossible(&object) && object.find("why").is_none(), "{object:?}");
    let (_, text) = run(&["antiscenarios", &file(folder, "sheet", sheet), &number.to_string()]).answer();
    assert!(text.starts_with(&format!("antiscenario {number} of {}\n", object.get("of").number())), "{text}");
    assert!(!text.contains("impossible") && !text.contains("no run"), "{text}");
}

#[test]
fn document_01s_sheet() {
    let (status, text) = run(&["antiscenarios", SHEET]).answer();
    let three: String = (1..=3).map(|number| run(&["antiscenarios", SHEET, &number.to_string()]).answer().1).collect();
    assert!(!three.contains("impossible") && !three.contains("no run"), "{three}");
    let last = "no run can meet 1 of these 4 antiscenarios; --possible leaves it out\n";
    assert_eq!((status, text), (0, format!("{three}{FOURTH}{last}")));
    // Of one there is no count.
    assert_eq!(run(&["antiscenarios", SHEET, "4"]).answer(), (0, FOURTH.to_string()));
    assert_eq!(run(&["antiscenarios", SHEET, "3-4"]).answer().1.matches("no run can meet").count(), 2);
    assert_eq!(run(&["antiscenarios", SHEET, "1-3"]).answer(), (0, three));
}

/// The numbers that no run can meet on the sheets of the theses.
#[test]
fn the_theses_sheets() {
    let due: [(&str, u64, &[u64]); 2] =
        [("auth", 12, &[3, 7, 9, 10, 11, 12]), ("taut", 18, &[3, 6, 7, 8, 9, 10, 11, 12, 13, 14, 15, 16, 17, 18])];
    for (name, count, numbers) in due {
        let sheet = format!("examples/theses/sheets/{name}");
        let objects = json::lines(&run(&["antiscenarios", "--json", &sheet]).answer().1);
        assert_eq!(objects.len() as u64, count);
        let marked = objects.iter().filter(|object| is_impossible(object));
        assert_eq!(marked.clone().map(|object| object.get("number").number()).collect::<Vec<u64>>(), numbers);
        let rules: Vec<String> = marked.map(reason_holds).collect();
        assert!(["no-common-event", "circular"].iter().all(|rule| rules.iter().any(|other| other == rule)), "{rules:?}");
        let (_, text) = run(&["antiscenarios", &sheet]).answer();
        let last = format!("no run can meet {} of these {count} antiscenarios; --possible leaves them out\n", numbers.len());
        assert!(text.ends_with(&last), "{text}");
        assert_eq!(text.matches(", which no run can meet\n").count(), numbers.len());
    }
}

#[test]
fn a_point_that_leads_back_to_itself() {
    let folder = scratch("impossible-circular");
    let marked = |sheet: &[u8], rows: &[u32], words: &str| is_marked(&folder, sheet, 1, "circular", rows, words);
    let two = [[BEFORE, 1, 2, 0, 0], [BEFORE, 2, 1, 0, 0]];
    let words = "point 1 would stand before itself, since it stands before point 2 (row 3, BEFORE), which stands before point 1 (row 4, BEFORE)";
    marked(&points(2, &two), &[3, 4], words);
    is_not_marked(&folder, &points(2, &two[..1]), 1);
    is_not_marked(&folder, &points(2, &[two[0], two[0]]), 1);
    // Two points are one line, either way round.
    let one_line = "point 1 would stand before itself, since it stands before point 2 (row 3, BEFORE), which is the same line as point 1 (row 4, SAME)";
    for same in [[SAME, 1, 2, 0, 0], [SAME, 2, 1, 0, 0]] {
        marked(&points(2, &[two[0], same]), &[3, 4], one_line);
    }
    let over_all = [[SAME, 4, 1, 0, 0], [BEFORE, 3, 4, 0, 0], [SAME, 2, 3, 0, 0], [BEFORE, 1, 2, 0, 0]];
    let words = "point 3 would stand before itself, since it stands before point 4 (row 6, BEFORE), which is the same line as point 1 (row 5, SAME), which stands before point 2 (row 8, BEFORE), which is the same line as point 3 (row 7, SAME)";
    marked(&points(4, &over_all), &[6, 5, 8, 7], words);
    for left_out in 0..4 {
        let rest: Vec<[u32; 5]> = (0..4).filter(|index| *index != left_out).map(|index| over_all[index]).collect();
        is_not_marked(&folder, &points(4, &rest), 1);
    }
    // The shortest way back.
    let three = [[BEFORE, 1, 2, 0, 0], [BEFORE, 2, 3, 0, 0], [BEFORE, 3, 1, 0, 0], [BEFORE, 3, 2, 0, 0]];
    let words = "point 2 would stand before itself, since it stands before point 3 (row 5, BEFORE), which stands before point 2 (row 7, BEFORE)";
    marked(&points(3, &three), &[5, 7], words);
}

/// NEXT p q has q before p, and LAST p q has p before q.
#[test]
fn next_and_last_have_an_order() {
    let folder = scratch("impossible-next");
    let next = sheet_of(1, &[[0, POINT, 1, 0, 8, 0], [1, NEXT, 11, 1, 4, 0], [1, FREE, 1, 11, 2, 0]]);
    is_not_marked(&folder, &next, 1);
    // That the injection is between is possible; that it is on the other side of both is not.
    is_not_marked(&folder, &next, 2);
    let words = "point 1 would stand before itself, since it stands before point 11 (row 2, NEXT), which stands before point 19 (row 4, BEFORE), which stands before point 1 (row 5, BEFORE)";
    is_marked(&folder, &next, 3, "circular", &[2, 4, 5], words);
    let last = sheet_of(1, &[[0, POINT, 1, 0, 8, 0], [1, LAST, 11, 1, 4, 0], [1, BEFORE, 1, 11, 0, 0]]);
    is_not_marked(&folder, &last, 2);
    let words = "point 11 would stand before itself, since it stands before point 1 (row 2, LAST), which is the same line as point 11 (row 3, SAME)";
    is_marked(&folder, &last, 3, "circular", &[2, 3], words);
    // The start and the close are on no way back.
    let ends = [[0, POINT, 1, 0, 8, 0], [1, NEXT, 11, 0, 8, 0], [1, LAST, 12, 99, 8, 0], [1, BEFORE, 11, 12, 0, 0]];
    (1..=4).for_each(|number| is_not_marked(&folder, &sheet_of(1, &ends), number));
}

#[test]
fn apart_and_yet_the_same_line() {
    let folder = scratch("impossible-apart");
    let marked = |sheet: &[u8], rows: &[u32], words: &str| is_marked(&folder, sheet, 1, "apart-inside", rows, words);
    for (apart, words) in [
        ([APART, 1, 2, 0, 0], "point 1 and point 2 would be different lines (row 4, APART) and the same line (row 3, SAME)"),
        ([APART, 2, 1, 0, 0], "point 2 and point 1 would be different lines (row 4, APART) and the same line (row 3, SAME)"),
    ] {
        marked(&points(2, &[[SAME, 1, 2, 0, 0], apart]), &[4, 3], words);
    }
    // Over other points, by the shortest chain.
    let chain = [[SAME, 1, 2, 0, 0], [SAME, 3, 2, 0, 0], [SAME, 3, 4, 0, 0], [APART, 4, 1, 0, 0], [APART, 1, 3, 0, 0]];
    let whole = "point 4 and point 1 would be different lines (row 8, APART) and the same line (rows 7, 6 and 5, SAME)";
    marked(&points(4, &chain[..4]), &[8, 7, 6, 5], whole);
    let shorter = "point 1 and point 3 would be different lines (row 9, APART) and the same line (rows 5 and 6, SAME)";
    marked(&points(4, &chain), &[9, 5, 6], shorter);
    is_not_marked(&folder, &points(4, &[chain[0], chain[2], chain[3], chain[4]]), 1);
    is_not_marked(&folder, &points(2, &[[APART, 1, 2, 0, 0], [APART, 2, 1, 0, 0]]), 1);
}

#[test]
fn sets_with_no_event_in_common() {
    let folder = scratch("impossible-sets");
    let marked = |sheet: &[u8], rows: &[u32], words: &str| is_marked(&folder, sheet, 1, "no-common-event", rows, words);
    let words = "no event fits point 1, which must have event 3 (row 1, POINT) and event 2 (row 2, EVENT)";
    marked(&points(1, &[[EVENT, 1, 0, 4, 0]]), &[1, 2], words);
    is_not_marked(&folder, &points(1, &[[EVENT, 1, 0, 12, 0]]), 1);
    // Events over 31, where the lower halves are alike, and where they are not.
    let upper = |a, b| antecedent(&[[POINT, 1, 0, 0, 256], [EVENT, 1, 0, a, b]]);
    let words = "no event fits point 1, which must have event 40 (row 1, POINT) and event 41 (row 2, EVENT)";
    marked(&upper(0, 512), &[1, 2], words);
    let words = "no event fits point 1, which must have event 40 (row 1, POINT) and event 8 (row 2, EVENT)";
    marked(&upper(256, 0), &[1, 2], words);
    is_not_marked(&folder, &upper(256, 256), 1);
    let last = antecedent(&[[POINT, 1, 0, 1 << 31, 1 << 31], [EVENT, 1, 0, 0, 1 << 31]]);
    is_not_marked(&folder, &last, 1);
    // The empty set, alone.
    let words = "no event fits point 1, which must have an event of the empty set (row 3, EVENT)";
    marked(&points(1, &[[EVENT, 1, 0, 4, 0], [EVENT, 1, 0, 0, 0]]), &[3], words);
    // Three sets, each two of which have an event in common.
    let three = antecedent(&[[POINT, 1, 0, 6, 0], [EVENT, 1, 0, 12, 0], [EVENT, 1, 0, 10, 0], [EVENT, 1, 0, 14, 0]]);
    let words = "no event fits point 1, which must have one of the events 1, 2 (row 1, POINT), one of the events 2, 3 (row 2, EVENT) and one of the events 1, 3 (row 3, EVENT)";
    marked(&three, &[1, 2, 3], words);
    // Points that are one line, over a third that has more events.
    let joined = |set: u32| {
        let rows = [[POINT, 1, 0, 8, 0], [POINT, 2, 0, 12, 0], [POINT, 3, 0, set, 0], [SAME, 1, 2, 0, 0], [SAME, 3, 2, 0, 0]];
        antecedent(&rows)
    };
    let words = "no event fits point 1 and point 3, which are the same line (rows 4 and 5, SAME): point 1 must have event 3 (row 1, POINT) and point 3 must have event 2 (row 3, POINT)";
    marked(&joined(4), &[1, 3, 4, 5], words);
    is_not_marked(&folder, &joined(12), 1);
    let apart = antecedent(&[[POINT, 1, 0, 8, 0], [POINT, 2, 0, 4, 0], [APART, 1, 2, 0, 0]]);
    is_not_marked(&folder, &apart, 1);
}

/// What contradicts itself by other rows is not marked: these are the three rules and no others.
#[test]
fn nothing_else_counts() {
    let folder = scratch("impossible-else");
    let scans = [[0, POINT, 1, 0, 8, 0], [0, POINT, 2, 0, 8, 0]];
    let with = |rows: &[[u32; 6]]| sheet_of(rows[rows.len() - 1][0], &[&scans[..], rows].concat());
    // Limits that exclude each other, and events that are forbidden where a point stands.
    is_not_marked(&folder, &points(2, &[[WITHIN, 1, 2, 0, 5], [OUTSIDE, 1, 2, 0, 5]]), 1);
    is_not_marked(&folder, &points(2, &[[WITHIN, 1, 2, 500, 500]]), 1);
    is_not_marked(&folder, &points(1, &[[FREE, 0, 99, 8, 0]]), 1);
    // FREE's set is none of its points'.
    is_not_marked(&folder, &points(2, &[[FREE, 1, 2, 4, 0], [FREE, 2, 1, 4, 0]]), 1);
    is_not_marked(&folder, &points(2, &[[FREE, 1, 2, u32::MAX, u32::MAX], [EVENT, 1, 0, 8, 0]]), 1);
    // An EARLIER point behind both of its points has no order by the rules, and no set.
    let earlier = with(&[[1, EARLIER, 11, 1, 2, 0], [1, BEFORE, 11, 1, 0, 0], [2, APART, 1, 2, 0, 0]]);
    is_not_marked(&folder, &earlier, 1);
    let later = with(&[[1, LATER, 11, 1, 2, 0], [1, SAME, 11, 1, 0, 0]]);
    is_not_marked(&folder, &later, 1);
    // A line that NEXT passes over.
    is_not_marked(&folder, &sheet_of(1, &[[0, POINT, 1, 0, 8, 0], [1, NEXT, 11, 1, 4, 0], [1, FREE, 1, 11, 4, 0]]), 2);
}

/// Denials of several consequents and rows of the antecedent contradict each other, with points of each.
#[test]
fn across_sections() {
    let folder = scratch("impossible-sections");
    let rows = [
        [0, POINT, 1, 0, 8, 0],
        [0, POINT, 2, 0, 8, 0],
        [0, SAME, 1, 2, 0, 0],
        [1, NEXT, 11, 1, 8, 0],
        [1, APART, 11, 2, 0, 0],
        [2, LAST, 21, 2, 8, 0],
        [2, BEFORE, 21, 2, 0, 0],
        [3, SAME, 1, 2, 0, 0],
    ];
    let sheet = sheet_of(3, &rows);
    // Consequent 3 is denied by APART 1 2 alone, within the antecedent's joined point.
    let words =
        |row: u32| format!("point 1 and point 2 would be different lines (row {row}, APART) and the same line (row 3, SAME)");
    for (number, row) in [(1, 6), (2, 7), (3, 7), (4, 7), (5, 8), (6, 8)] {
        is_marked(&folder, &sheet, number, "apart-inside", &[row, 3], &words(row));
    }
    let text = run(&["antiscenarios", &file(&folder, "sheet", &sheet)]).answer().1;
    assert!(text.ends_with("no run can meet any of these 6 antiscenarios; --possible leaves them out\n"), "{text}");
    // Without it, number 4 joins 11 to 2, which is 1, which is before 11.
    let sheet = sheet_of(2, &rows[..7]);
    let words = "point 1 would stand before itself, since it stands before point 11 (row 4, NEXT), which is the same line as point 2 (row 5, SAME), which is the same line as point 1 (row 3, SAME)";
    is_marked(&folder, &sheet, 4, "circular", &[4, 5, 3], words);
    // Number 2 has point 21 before point 2 and behind it, and number 1 nothing of the kind.
    let words = "point 21 would stand before itself, since it stands before point 2 (row 5, LAST), which stands before point 21 (row 6, BEFORE)";
    is_marked(&folder, &sheet, 2, "circular", &[5, 6], words);
    is_not_marked(&folder, &sheet, 1);
}

/// Every sentence has the names of events.
#[test]
fn names_of_events() {
    let folder = scratch("impossible-names");
    file(&folder, "sheet", &points(1, &[[EVENT, 1, 0, 4, 512]]));
    file(&folder, "events", b"2 correction\n3 scan\n41 source heater off\n");
    let said: Said = command(&["antiscenarios", "sheet"]).current_dir(&folder).output().unwrap().into();
    let words = "impossible: no event fits point 1, which must have event 3 (scan) (row 1, POINT) and one of the events 2 (correction), 41 (source heater off) (row 2, EVENT)\n";
    assert!(said.status == 0 && said.out.ends_with(words), "{said:?}");
}

/// --possible in every form leaves out what is marked, and nothing else of the others changes.
#[test]
fn the_possible_ones() {
    for sheet in [SHEET, "examples/theses/sheets/auth", "examples/theses/sheets/taut", "examples/theses/sheets/F2.2"] {
        let all = json::lines(&run(&["antiscenarios", "--json", sheet]).answer().1);
        let kept: Vec<String> =
            all.iter().filter(|object| !is_impossible(object)).map(|object| object.get("number").number().to_string()).collect();
        for form in ["--plain", "--json"] {
            let each: String = kept.iter().map(|number| run(&["antiscenarios", form, sheet, number]).answer().1).collect();
            assert_eq!(run(&["antiscenarios", "--possible", form, sheet]).answer(), (0, each), "{sheet}");
        }
        let each: String = kept.iter().map(|number| run(&["antiscenarios", sheet, number]).answer().1).collect();
        let last = match (all.len(), all.len() - kept.len()) {
            (all, 0) => format!("none of the {all} antiscenarios is left out\n"),
            (all, 1) => format!("1 of the {all} antiscenarios is left out, since no run can meet it\n"),
            (all, gone) => format!("{gone} of the {all} antiscenarios are left out, since no run can meet them\n"),
        };
        assert_eq!(run(&["antiscenarios", "--possible", sheet]).answer(), (0, each + &last), "{sheet}");
    }
}

#[test]
fn some_of_the_possible_ones() {
    let auth = "examples/theses/sheets/auth";
    let said = |numbers: &str| run(&["antiscenarios", "--possible", auth, numbers]).answer().1;
    assert!(said("1-2").ends_with("\nnone of the antiscenarios 1 to 2 is left out\n"));
    assert!(said("2-3").ends_with("\n1 of the antiscenarios 2 to 3 is left out, since no run can meet it\n"));
    assert!(said("8-11").ends_with("\n3 of the antiscenarios 8 to 11 are left out, since no run can meet them\n"));
    assert_eq!(said("8-11").matches("antiscenario ").count(), 1);
    assert_eq!(said("9-12"), "all of the antiscenarios 9 to 12 are left out, since no run can meet them\n");
    assert_eq!(said("9"), "antiscenario 9 is left out, since no run can meet it\n");
    assert_eq!(said("8"), run(&["antiscenarios", auth, "8"]).answer().1);
    assert_eq!(run(&["antiscenarios", "--possible", "--number", "9-12", auth]).answer(), (0, said("9-12")));
    for form in ["--plain", "--json"] {
        assert_eq!(run(&["antiscenarios", "--possible", form, auth, "9-12"]).answer(), (0, String::new()));
        assert_eq!(run(&["antiscenarios", form, auth, "--possible", "9"]).answer(), (0, String::new()));
    }
    // The only one of a sheet.
    let folder = scratch("impossible-only");
    let only = file(&folder, "sheet", &points(2, &[[BEFORE, 1, 2, 0, 0], [BEFORE, 2, 1, 0, 0]]));
    let words = "antiscenario 1 is left out, since no run can meet it\n";
    assert_eq!(run(&["antiscenarios", "--possible", &only]).answer(), (0, words.to_string()));
}

/// No antiscenario, and one without any row.
#[test]
fn none_and_an_empty_one() {
    let folder = scratch("impossible-none");
    let none = file(&folder, "none", &sheet_of(1, &[[0, POINT, 1, 0, 8, 0]]));
    let empty = file(&folder, "empty", &sheet_of(0, &[]));
    let held = "the sheet has no antiscenarios: it holds on every log that is accepted\n";
    let log = file(&folder, "log", &log_of(&[(1, 3)]).text());
    for words in [&["antiscenarios"][..], &["antiscenarios", "--possible"]] {
        assert_eq!(run(&[words, &[&none]].concat()).answer(), (0, held.to_string()));
        assert_eq!(run(&[words, &["--plain", &none]].concat()).answer(), (0, String::new()));
        assert_eq!(run(&[words, &["--json", &none]].concat()).answer(), (0, String::new()));
        assert_eq!(run(&[words, &["--plain", &empty]].concat()).answer(), (0, "  0  0\n".to_string()));
        assert_eq!(run(&[words, &[&empty]].concat()).answer(), (0, "antiscenario 1 of 1\n".to_string()));
    }
    let none_found = format!("none of the 0 antiscenarios is found in {log}\n");
    assert_eq!(run(&["search", &none, &log]).answer(), (0, none_found));
    let found = format!("antiscenario 1 is found in {log}\n1 of 1 antiscenarios found in {log}\n");
    assert_eq!(run(&["search", &empty, &log]).answer(), (1, found));
}

/// A sheet or a number that is refused is refused as ever.
#[test]
fn refusals_are_as_they_were() {
    let folder = scratch("impossible-refused");
    let mut refused = 0;
    for case in targeted::sheets().iter().filter(|case| case.answer != 0) {
        let sheet = file(&folder, "sheet", &case.text);
        for form in [&[][..], &["--plain"], &["--json"]] {
            let due = run(&[&["antiscenarios", &sheet], form].concat());
            assert_eq!(due.status, 2);
            assert_eq!(run(&[&["antiscenarios", "--possible", &sheet], form].concat()), due);
            refused += 1;
        }
    }
    for numbers in ["0", "5", "1-5", "0-4", "18446744073709551615"] {
        for form in [&[][..], &["--plain"], &["--json"]] {
            let due = run(&[&["antiscenarios", SHEET, numbers], form].concat());
            assert!(due.status == 2 && due.out.contains("31"), "{due:?}");
            assert_eq!(run(&[&["antiscenarios", "--possible", SHEET, numbers], form].concat()), due);
        }
    }
    tell("program: refusals with --possible", refused);
}

#[test]
fn where_possible_is_not_understood() {
    let cases: [(&[&str], &str); 7] = [
        (&["check", "--possible", SHEET, LOG], "--possible is for antiscenarios"),
        (&["search", SHEET, LOG, "--possible"], "--possible is for antiscenarios"),
        (&["explain", "--possible", SHEET], "--possible is for antiscenarios"),
        (&["antiscenarios", "--possible=4", SHEET], "--possible takes no value"),
        (&["antiscenarios", "--posible", SHEET], "the nearest is --possible"),
        (&["--possible", "antiscenarios", SHEET], "--possible stands behind the command"),
        (&["antiscenarios", "--possible"], "a sheet is missing"),
    ];
    for (words, due) in cases {
        let complaint = run(words).complaint();
        assert!(complaint.contains(due), "{words:?}: {complaint}");
    }
    let (_, help) = run(&["antiscenarios", "--help"]).answer();
    assert!(help.contains("--possible") && run(&["--help"]).answer().1.contains("--possible"), "{help}");
    assert_eq!(run(&["antiscenarios", "--possible", "--", SHEET, "4"]).answer().0, 0);
}

/// Document 01's columns are what they were.
#[test]
fn columns_are_document_01s() {
    for sheet in [SHEET, "examples/theses/sheets/auth", "examples/supplier/sheet"] {
        let text = fs::read(top().join(sheet)).unwrap();
        let read = sheet::read(&text, Blunder::None).unwrap();
        let due: String =
            (1..=12.min(read.count)).map(|m| String::from_utf8(sheet::text(read.k, &antiscenario(&read, m))).unwrap()).collect();
        assert_eq!(run(&["antiscenarios", "--plain", sheet, &format!("1-{}", 12.min(read.count))]).answer(), (0, due));
    }
}

/// S's rule with other corrections in each of six consequents: 4^5 x 5 antiscenarios.
fn many() -> Vec<u8> {
    let mut rows = vec![[0, POINT, 1, 0, 8, 0]];
    for i in 1..=6 {
        let p = 10 * i + 1;
        rows.extend([[i, LAST, p, 1, 4, 0], [i, WITHIN, p, 1, 0, 500], [i, FREE, p, 1, 2, 0]]);
    }
    rows.push([6, EVENT, 61, 0, 4, 0]);
    sheet_of(6, &rows)
}

/// Of more than 4,096 the first 4,096 are gone through, and no more.
#[test]
fn more_than_are_listed() {
    let folder = scratch("impossible-many");
    let text = many();
    let sheet = file(&folder, "sheet", &text);
    let read = sheet::read(&text, Blunder::None).unwrap();
    assert_eq!(read.count, 5120);
    let marked: Vec<u64> = (1..=4096).filter(|&m| !broken(&antiscenario(&read, m)).is_empty()).collect();
    assert!(marked.len() > 1000 && marked.len() < 4000, "{}", marked.len());
    let (status, listed) = run(&["antiscenarios", &sheet]).answer();
    let ask = format!("satskhubo antiscenarios {sheet} NUMBER or FIRST-LAST asks for others\n");
    let last = format!(
        "no run can meet {} of these 4096 antiscenarios; --possible leaves them out\n4096 of 5120 antiscenarios are listed; {ask}",
        marked.len()
    );
    assert!(status == 0 && listed.ends_with(&last), "{}", &listed[listed.len() - 400..]);
    let heads = |text: &str, mark: &str| -> Vec<u64> {
        let heads = text.lines().filter_map(|line| line.strip_prefix("antiscenario ")?.strip_suffix(mark));
        heads.map(|number| number.split(' ').next().unwrap().parse().unwrap()).collect()
    };
    assert_eq!(heads(&listed, " of 5120, which no run can meet"), marked);
    let (status, kept) = run(&["antiscenarios", "--possible", &sheet]).answer();
    let last = format!(
        "{} of the first 4096 antiscenarios are left out, since no run can meet them\nthe first 4096 of 5120 antiscenarios were gone through; {ask}",
        marked.len()
    );
    assert!(status == 0 && kept.ends_with(&last), "{}", &kept[kept.len() - 400..]);
    let possible: Vec<u64> = (1..=4096).filter(|m| !marked.contains(m)).collect();
    assert_eq!(heads(&kept, " of 5120"), possible);
    for form in ["--plain", "--json"] {
        let complaint = run(&["antiscenarios", "--possible", form, &sheet]).complaint();
        assert!(complaint.contains("5120 antiscenarios") && complaint.contains("FIRST-LAST"), "{complaint}");
    }
    let (_, rest) = run(&["antiscenarios", "--possible", "--plain", &sheet, "4097-5120"]).answer();
    let due = (4097..=5120).map(|m| antiscenario(&read, m)).filter(|rows| broken(rows).is_empty());
    assert_eq!(rest, due.map(|rows| String::from_utf8(sheet::text(6, &rows)).unwrap()).collect::<String>());
}

/// A run that must not go through billions of numbers, nor through all placements.
fn soon(words: &[&str]) -> Said {
    Command::new("timeout").arg("60").arg(program()).args(words).current_dir(top()).output().expect("it runs").into()
}

#[test]
fn twelve_billion_numbers() {
    let folder = scratch("impossible-billions");
    let full = file(&folder, "fullest", &fullest());
    let ask = format!("satskhubo antiscenarios {full} NUMBER or FIRST-LAST asks for others\n");
    let words = format!("all of the first 4096 antiscenarios are left out, since no run can meet them\nthe first 4096 of 12230590464 antiscenarios were gone through; {ask}");
    assert_eq!(soon(&["antiscenarios", "--possible", &full]).answer(), (0, words));
    let last = soon(&["antiscenarios", "--possible", &full, "12230590464"]).answer();
    assert_eq!(last, (0, "antiscenario 12230590464 is left out, since no run can meet it\n".to_string()));
    // The check says that none is found, and nobody is asked which of them no run can meet.
    let log = file(&folder, "log", &log_of(&[(5, 3), (6, 3)]).text());
    let none = format!("none of the 12230590464 antiscenarios is found in {log}\n");
    assert_eq!(soon(&["search", &full, &log]).answer(), (0, none));
    let some = format!("none of the antiscenarios 1 to 4096 is found in {log}; no run can meet any of them\n");
    assert_eq!(soon(&["search", &full, &log, "--number", "1-4096"]).answer(), (0, some));
    let more = format!("none of the antiscenarios 1 to 4097 is found in {log}\n");
    assert_eq!(soon(&["search", &full, &log, "--number", "1-4097"]).answer(), (0, more));
    // More than are kept, and searched: each is asked as it is gone through.
    let sheet = file(&folder, "sheet", &all_before());
    let single = file(&folder, "single", &log_of(&[(5, 3)]).text());
    let read = sheet::read(&all_before(), Blunder::None).unwrap();
    let marked = (1..=5000).filter(|&m| !broken(&antiscenario(&read, m)).is_empty()).count();
    let none = format!("none of the antiscenarios 1 to 5000 is found in {single}; {marked} of them no run can meet\n");
    assert_eq!(soon(&["search", &sheet, &single, "--number", "1-5000"]).answer(), (0, none));
}

#[test]
fn the_last_line_of_a_search() {
    let said = |log: &str, numbers: &[&str]| run(&[&["search", SHEET, log], numbers].concat()).answer();
    let (status, text) = said(LOG, &[]);
    let last = "\n1 of 4 antiscenarios found in examples/lockmass/log; 1 that no run can meet was passed over\n";
    assert!(status == 1 && text.ends_with(last), "{text}");
    let (status, text) = said(LOG, &["--number", "2-4"]);
    let last = "\n1 of the antiscenarios 2 to 4 found in examples/lockmass/log; 1 that no run can meet was passed over\n";
    assert!(status == 1 && text.ends_with(last), "{text}");
    let (status, text) = said(LOG, &["--number", "1-3"]);
    assert!(status == 1 && text.ends_with("\n1 of the antiscenarios 1 to 3 found in examples/lockmass/log\n"), "{text}");
    let none = "none of the 4 antiscenarios is found in examples/lockmass/log-kept; 1 of them no run can meet\n";
    assert_eq!(said(KEPT, &[]), (0, none.to_string()));
    for log in [LOG, KEPT] {
        let none = format!("none of the antiscenarios 3 to 4 is found in {log}; 1 of them no run can meet\n");
        assert_eq!(said(log, &["--number", "3-4"]), (0, none));
        let alone = format!("antiscenario 4 is not found in {log}: no run can meet it\n");
        assert_eq!(said(log, &["--number", "4"]), (0, alone));
        assert_eq!(said(log, &["--number", "3"]), (0, format!("antiscenario 3 is not found in {log}\n")));
    }
    let auth = "examples/theses/sheets/auth";
    let bad = "examples/theses/logs/auth-bad1";
    let (status, text) = run(&["search", auth, bad]).answer();
    let last = format!(" of 12 antiscenarios found in {bad}; 6 that no run can meet were passed over\n");
    assert!(status == 1 && text.ends_with(&last), "{text}");
    let all = format!("none of the antiscenarios 9 to 12 is found in {bad}; no run can meet any of them\n");
    assert_eq!(run(&["search", auth, bad, "--number", "9-12"]).answer(), (0, all));
    // The only one.
    let folder = scratch("impossible-search-only");
    let only = file(&folder, "sheet", &points(2, &[[BEFORE, 1, 2, 0, 0], [BEFORE, 2, 1, 0, 0]]));
    let none = format!("none of the 1 antiscenario is found in {LOG}; no run can meet it\n");
    assert_eq!(run(&["search", &only, LOG]).answer(), (0, none));
}

#[test]
fn several_logs_and_folders() {
    let alone = |log: &str| run(&["search", SHEET, log]).answer().1;
    let summary = "3 logs: found in 2, nothing in 1, 0 refused, 0 not read\n";
    let due = format!("{}{}{}{summary}", alone(LOG), alone(KEPT), alone(INJECTION));
    assert_eq!(due.matches("no run can meet").count(), 3);
    assert_eq!(run(&["search", SHEET, LOG, KEPT, INJECTION]).answer(), (1, due));
    let folder = scratch("impossible-folder");
    for (name, log) in [("a", LOG), ("b", KEPT)] {
        file(&folder, name, &fs::read(top().join(log)).unwrap());
    }
    file(&folder, "c", b"no log");
    let said = run(&["search", SHEET, &folder.display().to_string()]);
    let lines: Vec<&str> = said.out.lines().collect();
    assert!(said.status == 2 && lines[3].ends_with("/a; 1 that no run can meet was passed over"), "{said:?}");
    assert!(lines[4].ends_with("/b; 1 of them no run can meet") && lines[5].contains("refused 21"), "{said:?}");
    assert_eq!(*lines.last().unwrap(), "3 logs: found in 1, nothing in 1, 1 refused, 0 not read");
    let four = run(&["search", SHEET, LOG, KEPT, "--number", "4"]).answer();
    let each = |log| format!("antiscenario 4 is not found in {log}: no run can meet it\n");
    assert_eq!(four, (0, format!("{}{}2 logs: found in 0, nothing in 2, 0 refused, 0 not read\n", each(LOG), each(KEPT))));
}

/// Columns have a line for each number, as before; objects say which of them no run can meet.
#[test]
fn searches_in_columns_and_json() {
    let plain = |log: &str| run(&["search", "--plain", SHEET, log]).answer();
    let line = |number: u32, rest: &str| format!("  0{number:11}{rest}\n");
    let broken = [line(1, "  0"), line(2, "  1    3    1"), line(3, "  0"), line(4, "  0")].concat();
    assert_eq!(plain(LOG), (1, broken));
    assert_eq!(plain(KEPT), (0, (1..=4).map(|number| line(number, "  0")).collect()));
    assert_eq!(run(&["search", "--plain", SHEET, LOG, "--number", "4"]).answer(), (0, line(4, "  0")));
    for log in [LOG, KEPT, INJECTION] {
        let objects = json::lines(&run(&["search", "--json", SHEET, log]).answer().1);
        assert_eq!(objects.iter().map(is_impossible).collect::<Vec<bool>>(), [false, false, false, true], "{log}");
        assert_eq!(objects[3].get("found"), &Json::Bool(false));
        assert!(objects.iter().all(|object| object.find("why").is_none()));
    }
    let alone = run(&["search", "--json", SHEET, KEPT, "--number", "4"]).answer().1;
    let front = "{\"file\":\"examples/lockmass/log-kept\",\"sheet\":\"examples/lockmass/sheet\",\"number\":4,\"found\":false,";
    let none = "\"points\":[],\"positions\":[],\"lines\":[],\"ticks\":[],\"events\":[],\"impossible\":true}\n";
    assert_eq!(alone, format!("{front}{none}"));
}

/// Billions of placements meet all rows but the last two, which contradict each other: it is passed over, and not searched.
#[test]
fn what_no_run_can_meet_is_not_searched() {
    let folder = scratch("impossible-long");
    let sheet = file(&folder, "sheet", &points(4, &[[BEFORE, 3, 4, 0, 0], [BEFORE, 4, 3, 0, 0]]));
    let log = file(&folder, "log", &uniform(4000, 3).text());
    let alone = format!("antiscenario 1 is not found in {log}: no run can meet it\n");
    assert_eq!(soon(&["search", &sheet, &log, "--number", "1"]).answer(), (0, alone));
    let two = soon(&["search", "--plain", &sheet, &log, &log]).answer();
    assert_eq!(two, (0, "  0          1  0\n".repeat(2)));
}

fn count_of(sheet: &[u8]) -> u64 {
    match read_sheet(sheet).unwrap() {
        SheetRead::Count(count) => count,
        SheetRead::Refused(refusal) => panic!("{refusal:?}"),
    }
}

fn library_says_impossible(sheet: &[u8], number: u64) -> bool {
    match impossible(sheet, number).unwrap() {
        Ruled::Impossible => true,
        Ruled::Possible => false,
        Ruled::Refused(refusal) => panic!("{refusal:?}"),
    }
}

/// Up to 40 numbers of a sheet: marks are the library's, texts too, and reasons hold. Gives the rules of the reasons.
fn says_what_the_library_says(folder: &Path, sheet: &[u8]) -> Vec<String> {
    let most = count_of(sheet).min(40);
    let name = file(folder, "sheet", sheet);
    if most == 0 {
        return Vec::new();
    }
    let range = format!("1-{most}");
    let said = |words: &[&str]| run(&[&["antiscenarios", &name, &range], words].concat()).answer().1;
    let (objects, in_words) = (json::lines(&said(&["--json"])), said(&[]));
    assert_eq!(objects.len() as u64, most);
    let mut rules = Vec::new();
    let (mut plain, mut possible) = (String::new(), String::new());
    for (number, object) in (1..).zip(&objects) {
        let marked = library_says_impossible(sheet, number);
        assert_eq!((object.get("number").number(), is_impossible(object)), (number, marked), "{object:?}");
        let Written::Text(text) = write(sheet, number).unwrap() else { panic!("{number} is written") };
        assert_eq!(object.get("text").text().as_bytes(), text);
        let head =
            format!("antiscenario {number} of {}{}\n", count_of(sheet), if marked { ", which no run can meet" } else { "" });
        assert!(in_words.contains(&head), "{in_words}");
        plain.push_str(object.get("text").text());
        match marked {
            true => rules.push(reason_holds(object)),
            false => possible.push_str(object.get("text").text()),
        }
        assert_eq!(broken(&rows_of(object)).is_empty(), !marked, "{object:?}");
    }
    assert_eq!(in_words.matches("\n  impossible: ").count(), rules.len());
    assert_eq!((said(&["--plain"]), said(&["--plain", "--possible"])), (plain, possible));
    rules
}

#[test]
fn marks_and_reasons_on_random_sheets() {
    let folder = scratch("impossible-agreement");
    let mut random = Random::new(601);
    let mut rules: Vec<String> = Vec::new();
    for round in 0..320 {
        let shape = [&sheets::MIDDLE, &sheets::LARGE, &sheets::SMALL, &sheets::LARGE][round % 4];
        rules.extend(says_what_the_library_says(&folder, &sheets::random(&mut random, shape)));
    }
    for rule in ["no-common-event", "apart-inside", "circular"] {
        let count = rules.iter().filter(|other| *other == rule).count();
        assert!(count >= 20, "{rule}: {count}");
    }
    tell("program: reasons why no run can meet an antiscenario", rules.len() as u64);
}

/// Passing over changes no answer: each number comes out as the library's search says.
#[test]
fn searches_find_what_they_found() {
    let folder = scratch("impossible-searches");
    let mut random = Random::new(602);
    let (mut searched, mut passed_over) = (0, 0);
    for round in 0..160 {
        let sheet = sheets::random(&mut random, [&sheets::MIDDLE, &sheets::SMALL][round % 2]);
        let log = logs::random(&mut random, 6).text();
        let most = count_of(&sheet).min(40);
        if most == 0 {
            continue;
        }
        let (sheet_name, log_name) = (file(&folder, "sheet", &sheet), file(&folder, "log", &log));
        let said = run(&["search", "--json", &sheet_name, &log_name, "--number", &format!("1-{most}")]).answer().1;
        for (number, object) in (1..=most).zip(json::lines(&said)) {
            let marked = library_says_impossible(&sheet, number);
            let found = match search(&sheet, &log, number).unwrap() {
                Searched::Found(positions) => (Json::Bool(true), positions),
                Searched::None => (Json::Bool(false), Vec::new()),
                Searched::Refused(refusal) => panic!("{refusal:?}"),
            };
            assert_eq!((object.get("number").number(), is_impossible(&object)), (number, marked), "{object:?}");
            assert_eq!((object.get("found").clone(), object.get("positions").numbers()), found, "{object:?}");
            assert!(!marked || found.1.is_empty(), "{object:?}");
            (searched, passed_over) = (searched + 1, passed_over + u64::from(marked));
        }
        let words = run(&["search", &sheet_name, &log_name, "--number", &format!("1-{most}")]).answer().1;
        let here = (1..=most).filter(|&number| library_says_impossible(&sheet, number)).count();
        assert_eq!(words.contains("no run can meet"), here > 0, "{words}");
        assert!(here == 0 || here as u64 == most || words.contains(&format!("; {here} ")), "{words}");
    }
    assert!(passed_over > 100, "{passed_over} of {searched}");
    tell("program: searches that pass over what no run can meet", searched);
}

/// 4,096 numbers, none of which is impossible.
#[test]
fn nothing_is_said_where_there_are_none() {
    let folder = scratch("impossible-nothing");
    let sheet = file(&folder, "sheet", &with_denials([4; 6]));
    let log = file(&folder, "log", &log_of(&[(1, 3)]).text());
    let (status, text) = run(&["antiscenarios", &sheet]).answer();
    assert!(status == 0 && !text.contains("no run") && !text.contains("--possible"));
    let (status, text) = run(&["antiscenarios", "--possible", &sheet]).answer();
    assert!(status == 0 && text.ends_with("\nnone of the 4096 antiscenarios is left out\n"));
    let (status, text) = run(&["search", &sheet, &log]).answer();
    assert!(status == 1 && text.ends_with(&format!("\n4096 of 4096 antiscenarios found in {log}\n")));
}
