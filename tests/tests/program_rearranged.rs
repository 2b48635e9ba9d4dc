//! Document 02, A11: what the program says of two files that have the same rule with its alternatives in another order: verdict, line and exit status alike,
//! each row by its number in its own file, and the same patterns, moved.
mod common;
use common::program::{file, run};
use common::{scratch, tell};
use satskhubo_tests::generate::arguments::order_of;
use satskhubo_tests::generate::logs::log_of;
use satskhubo_tests::generate::pairs::rearranged_pair_of;
use satskhubo_tests::generate::rearranged::in_either_order;
use satskhubo_tests::json::{self, Json};
use satskhubo_tests::reference::blunder::Blunder;
use satskhubo_tests::reference::rearranged::Rearrangement;
use satskhubo_tests::reference::sheet;

/// Too far before, and too far after.
const TOO_FAR: [(u32, u32); 3] = [(100, 2), (900, 3), (1000, 2)];
const KEPT: [(u32, u32); 3] = [(100, 2), (900, 3), (915, 2)];

/// Two sheets and a log, as files.
struct Files {
    sheets: [String; 2],
    log: String,
}

impl Files {
    fn new(folder: &str, sheets: &[Vec<u8>; 2], log: &[u8]) -> Files {
        let folder = scratch(folder);
        let sheets = [("first", &sheets[0]), ("second", &sheets[1])].map(|(name, text)| file(&folder, name, text));
        Files { sheets, log: file(&folder, "log", log) }
    }

    fn in_either_order(folder: &str, lines: &[(u32, u32)]) -> Files {
        Files::new(folder, &in_either_order(), &log_of(lines).text())
    }

    /// Status and answer for each sheet, on the log if it is asked; remarks, which name rows, are on standard error.
    fn asked(&self, words: &[&str], on_log: bool) -> [(i32, String); 2] {
        self.sheets.each_ref().map(|sheet| {
            let names = [sheet.as_str(), &self.log];
            let said = run(&[words, &names[..1 + usize::from(on_log)]].concat());
            (said.status, said.out)
        })
    }
}

/// The texts of antiscenarios, each of which begins with a line of two numbers.
fn patterns(plain: &str) -> Vec<String> {
    let lines: Vec<&str> = plain.split_inclusive('\n').collect();
    lines.chunk_by(|_, next| next.len() > 7).map(<[&str]>::concat).collect()
}

fn rearranged(sheet: &[u8], order: &[u32]) -> Rearrangement {
    Rearrangement::new(&sheet::read(sheet, Blunder::None).expect("accepted"), order)
}

#[test]
fn a_violation_in_words() {
    let files = Files::in_either_order("rearranged-words", &TOO_FAR);
    let before = "are surely 0 to 500 ms apart
    found: POINT is at line 1 of the log, line 2 of the file, tick 100; point 1 is at line 2 of the log, line 3 of the file, tick 900; they differ by 800; as the clock drops fractions, they must differ by at most 499 for at most 500 ms to be sure
";
    let after = "are surely 0 to 21 ms apart
    found: point 1 is at line 2 of the log, line 3 of the file, tick 900; POINT is at line 3 of the log, line 4 of the file, tick 1000; they differ by 100; as the clock drops fractions, they must differ by at most 20 for at most 21 ms to be sure
";
    let violated = |sheet: &str, first: &str, second: &str| {
        let log = &files.log;
        let point = "  point 1 is at line 2 of the log, line 3 of the file, tick 900, event 3\n";
        (1, format!("violated: {log} breaks the rule of {sheet}\n{point}{first}{second}"))
    };
    let fault = |consequent: u32, row: u32, points: &str, words: &str| {
        let words = words.replace("POINT", &format!("point {consequent}1"));
        format!("  consequent {consequent} cannot be met: row {row}, WITHIN\n    asked: {points} {words}")
    };
    let due = [
        violated(&files.sheets[0], &fault(1, 3, "point 11 and point 1", before), &fault(2, 6, "point 1 and point 21", after)),
        violated(&files.sheets[1], &fault(1, 3, "point 1 and point 11", after), &fault(2, 5, "point 21 and point 1", before)),
    ];
    assert_eq!(files.asked(&["check"], true), due);
    let due = ["  0  1\n    2\n   3   6\n", "  0  1\n    2\n   3   5\n"].map(|plain| (1, plain.to_string()));
    assert_eq!(files.asked(&["check", "--plain"], true), due);
}

/// The row that is named is, in each file, that line below the first, and what it says is the same but for its section and points.
#[test]
fn rows_by_their_numbers_in_each_file() {
    let (sheets, files) = (in_either_order(), Files::in_either_order("rearranged-rows", &TOO_FAR));
    let named = files.asked(&["check", "--json"], true).map(|(_, text)| {
        let rows = json::lines(&text)[0].get("rows").list().to_vec();
        rows.iter().map(|row| row.get("row").number() as u32).collect::<Vec<u32>>()
    });
    assert_eq!(named, [vec![3, 6], vec![3, 5]]);
    let rows =
        |index: usize| named[index].iter().map(|row| sheet::rows_of(&sheets[index])[*row as usize - 1]).collect::<Vec<_>>();
    let said = |index: usize| rows(index).iter().map(|row| (row.kind, row.a, row.b)).collect::<Vec<_>>();
    assert_eq!(said(0), said(1).into_iter().rev().collect::<Vec<_>>());
    assert_eq!(rows(0).iter().map(|row| row.section).collect::<Vec<_>>(), [1, 2]);
}

#[test]
fn a_log_that_keeps_it() {
    let files = Files::in_either_order("rearranged-kept", &KEPT);
    let due =
        files.sheets.each_ref().map(|sheet| (0, format!("holds: {} keeps the rule of {sheet}; 1 line has event 3\n", files.log)));
    assert_eq!(files.asked(&["check"], true), due);
    assert_eq!(files.asked(&["search"], true).map(|(status, _)| status), [0, 0]);
}

/// Choices 1 to 4 and 1 to 2, in either order.
#[test]
fn the_same_patterns_moved() {
    let files = Files::in_either_order("rearranged-patterns", &TOO_FAR);
    let rearrangement = rearranged(&in_either_order()[0], &[2, 1]);
    let [first, second] = files.asked(&["antiscenarios", "--plain"], false).map(|(status, text)| {
        assert_eq!(status, 0);
        patterns(&text)
    });
    assert_eq!((first.len(), second.len()), (8, 8));
    for (text, number) in first.iter().zip([1, 5, 2, 6, 3, 7, 4, 8]) {
        assert_eq!(rearrangement.text(text.as_bytes()), second[number - 1].as_bytes(), "now number {number}");
    }
    let found = files.asked(&["search"], true).map(|(status, text)| (status, text.lines().next().unwrap().to_string()));
    let due = [4, 6].map(|number| (1, format!("antiscenario {number} is found in {}", files.log)));
    assert_eq!(found, due);
    tell("program: the same patterns moved", 8 + 2);
}

/// Verdict and positions alike, and the rows moved.
fn checks_alike(files: &Files, rearrangement: &Rearrangement) {
    let [first, second] = files.asked(&["check", "--json"], true);
    assert_eq!(first.0, second.0);
    let [first, second] = [first.1, second.1].map(|text| json::lines(&text).remove(0));
    assert_eq!(first.get("verdict"), second.get("verdict"));
    if first.get("verdict").text() == "violated" {
        assert_eq!(first.get("positions"), second.get("positions"));
        let rows = |object: &Json| object.get("rows").list().iter().map(|row| row.get("row").number() as u32).collect::<Vec<_>>();
        assert_eq!(rearrangement.rows_at_fault(&rows(&first)), rows(&second));
    }
}

/// Each pattern moved, and impossible or not alike; gives how many there are.
fn patterns_alike(files: &Files, rearrangement: &Rearrangement) -> u64 {
    let objects = files.asked(&["antiscenarios", "--json"], false).map(|(status, text)| {
        assert_eq!(status, 0);
        json::lines(&text)
    });
    assert_eq!(objects[0].len(), objects[1].len());
    for (number, object) in (1..).zip(&objects[0]) {
        let moved = &objects[1][rearrangement.number(number) as usize - 1];
        assert_eq!(rearrangement.text(object.get("text").text().as_bytes()), moved.get("text").text().as_bytes());
        assert_eq!(object.get("impossible"), moved.get("impossible"), "{object:?}");
    }
    objects[0].len() as u64
}

#[test]
fn random_sheets() {
    let mut comparisons = 0;
    for seed in 0..120 {
        let pair = rearranged_pair_of(seed);
        let first = sheet::read(&pair.sheet, Blunder::None).expect("accepted");
        let rearrangement = Rearrangement::new(&first, &order_of(seed, first.k));
        let files = Files::new("rearranged-random", &[pair.sheet.clone(), rearrangement.text(&pair.sheet)], &pair.log);
        checks_alike(&files, &rearrangement);
        comparisons += 1;
        if (1..=200).contains(&first.count) {
            comparisons += patterns_alike(&files, &rearrangement);
        }
    }
    tell("program: random sheets in another order", comparisons);
}
