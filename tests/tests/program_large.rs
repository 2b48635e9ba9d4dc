//! Document 02, A4: the program with sheets that have up to 48^6 antiscenarios: lists, ranges, searches that are answered at once, and searches
//! that are ended.
mod common;
use common::program::{command, file, program, run, Said, SUPPLIER, SUPPLIER_KEPT, SUPPLIER_LOG};
use common::{scratch, until};
use satskhubo_tests::generate::logs::log_of;
use satskhubo_tests::generate::sheets::sheet_s;
use satskhubo_tests::generate::targeted::{all_before, with_denials};
use std::fs::{self, File};
use std::os::unix::process::ExitStatusExt;
use std::path::Path;
use std::process::{Child, Command, Stdio};

/// 16^6 and 48^6.
const SUPPLIERS: u64 = 16_777_216;
const LARGEST: u64 = 12_230_590_464;
/// The lowest number of `all_before` that has SAME in each consequent, which two points on one line match.
const FIRST_SAME: u64 = 260_225_330;

/// A log of one scan, and the sheet of 48^6.
fn largest(folder: &Path) -> [String; 2] {
    [file(folder, "sheet", &all_before()), file(folder, "log", &log_of(&[(5, 3)]).text())]
}

#[test]
fn the_suppliers_sheet_in_words() {
    let (status, explained) = run(&["explain", SUPPLIER]).answer();
    assert!(
        status == 0 && explained.contains(&format!("6 consequents, 73 rows, N = {SUPPLIERS} antiscenarios\n")),
        "{explained}"
    );
    let (status, kept) = run(&["check", SUPPLIER, SUPPLIER_KEPT]).answer();
    assert!(status == 0 && kept.starts_with("holds: "), "{kept}");
    let (status, broken) = run(&["check", SUPPLIER, SUPPLIER_LOG]).answer();
    assert!(status == 1 && broken.starts_with("violated: ") && broken.matches(" cannot be met: row ").count() == 6, "{broken}");
    let (status, last) = run(&["antiscenarios", SUPPLIER, "16777216"]).answer();
    assert!(status == 0 && last.starts_with("antiscenario 16777216 of 16777216\n"), "{last}");
    let said = run(&["antiscenarios", SUPPLIER, "16777217"]);
    assert!(said.status == 2 && said.out.starts_with("refused 31: 16777217 is not in 1 to 16777216"), "{said:?}");
}

/// Up to 4,096 are listed, as before; of more the first 4,096, and how to ask for others.
#[test]
fn a_list_says_what_it_leaves_out() {
    let folder = scratch("large-lists");
    let most = file(&folder, "most", &with_denials([4; 6]));
    let (status, text) = run(&["antiscenarios", &most]).answer();
    assert_eq!((status, text.matches("antiscenario ").count(), text.contains("listed")), (0, 4096, false));
    let more = file(&folder, "more", &with_denials([4, 4, 4, 4, 4, 5]));
    let (status, text) = run(&["antiscenarios", &more]).answer();
    let last =
        format!("4096 of 5120 antiscenarios are listed; satskhubo antiscenarios {more} NUMBER or FIRST-LAST asks for others\n");
    assert_eq!((status, text.matches(" of 5120\n").count()), (0, 4096));
    assert!(text.ends_with(&last), "{}", &text[text.len() - 300..]);
    let (_, all) = run(&["antiscenarios", &more, "1-5120"]).answer();
    assert_eq!((all.matches(" of 5120\n").count(), all.contains("listed")), (5120, false));
    let (_, rest) = run(&["antiscenarios", &more, "4097-5120"]).answer();
    assert_eq!(text.trim_end_matches(&last).to_string() + &rest, all);
    assert_eq!(run(&["antiscenarios", &more, "--number", "4097-5120"]).answer().1, rest);
    // Other programs get all of it or nothing.
    for form in ["--plain", "--json"] {
        let complaint = run(&["antiscenarios", form, &more]).complaint();
        assert!(complaint.contains("5120 antiscenarios") && complaint.contains("FIRST-LAST"), "{complaint}");
        assert_eq!(run(&["antiscenarios", form, &most]).answer().0, 0);
    }
    let (_, plain) = run(&["antiscenarios", "--plain", &more, "5119-5120"]).answer();
    assert_eq!(plain.matches("  6  7\n").count(), 2, "{plain}");
}

/// The largest sheet: numbers are taken whole, and a search where the log keeps the rule is answered at once.
#[test]
fn twelve_billion_numbers() {
    let folder = scratch("large-largest");
    let [sheet, log] = largest(&folder);
    let number = LARGEST.to_string();
    let (status, text) = run(&["antiscenarios", &sheet, &number]).answer();
    assert!(status == 0 && text.starts_with("antiscenario 12230590464 of 12230590464\n"), "{text}");
    assert_eq!(text.matches("  SAME     point 1 and point 2 are the same line\n").count(), 6, "{text}");
    assert_eq!(
        run(&["search", "--plain", &sheet, &log, "--number", &number]).answer(),
        (1, "  012230590464  1    1    1\n".into())
    );
    for over in ["12230590465", "1-12230590465", "16525557760", "18446744073709551615"] {
        let said = run(&["search", &sheet, &log, "--number", over]);
        assert!(said.status == 2 && said.out.starts_with("refused 31: "), "{said:?}");
    }
    // 2^32 + 1 is itself and not 1.
    let (_, past) = run(&["antiscenarios", &sheet, "4294967297"]).answer();
    let (_, first) = run(&["antiscenarios", &sheet, "1"]).answer();
    assert!(past.starts_with("antiscenario 4294967297 of ") && past.contains("SAME") && !first.contains("SAME"), "{past}");
    let none = file(&folder, "none", &log_of(&[(5, 2)]).text());
    let said = format!("none of the 12230590464 antiscenarios is found in {none}\n");
    assert_eq!(soon(&["search", &sheet, &none]).answer(), (0, said.clone()));
    let summary = "2 logs: found in 0, nothing in 2, 0 refused, 0 not read\n";
    assert_eq!(soon(&["search", &sheet, &none, &none]).answer(), (0, format!("{said}{said}{summary}")));
    let range = soon(&["search", &sheet, &none, "--number", "7-12230590464"]).answer();
    assert_eq!(range, (0, format!("none of the antiscenarios 7 to 12230590464 is found in {none}\n")));
    for form in ["--plain", "--json"] {
        let complaint = run(&["search", form, &sheet, &none]).complaint();
        assert!(complaint.contains("12230590464 antiscenarios") && complaint.contains("--number FIRST-LAST"), "{complaint}");
    }
}

/// A range is searched from its first to its last number, in each log.
#[test]
fn ranges_are_searched_in_order() {
    let folder = scratch("large-ranges");
    let [sheet, log] = largest(&folder);
    let range = format!("{}-{}", FIRST_SAME - 3, FIRST_SAME + 3);
    let (status, text) = run(&["search", "--plain", &sheet, &log, "--number", &range]).answer();
    let line = |number: u64, found: bool| {
        let positions = if found { "    1    1" } else { "" };
        format!("  0{number:11}  {}{positions}\n", u32::from(found))
    };
    // The last consequent's choice moves fastest, and every other one is SAME.
    let due: String =
        (FIRST_SAME - 3..=FIRST_SAME + 3).map(|number| line(number, number == FIRST_SAME || number == FIRST_SAME + 2)).collect();
    assert_eq!((status, text), (1, due));
    let (status, text) = run(&["search", &sheet, &log, "--number", &range]).answer();
    let found = |number| format!("antiscenario {number} is found in {log}\n");
    assert!(status == 1 && text.starts_with(&found(FIRST_SAME)) && text.contains(&found(FIRST_SAME + 2)), "{text}");
    // The others have both SAME and BEFORE.
    let last = format!("2 of the antiscenarios {} to {} found in {log}", FIRST_SAME - 3, FIRST_SAME + 3);
    assert!(text.ends_with(&format!("{last}; 5 that no run can meet were passed over\n")), "{text}");
    let one = file(&folder, "s", &sheet_s());
    let (_, text) = run(&["search", &one, "examples/lockmass/log", "examples/lockmass/log-kept", "--number", "2-3"]).answer();
    assert!(text.contains("1 of the antiscenarios 2 to 3 found in examples/lockmass/log\n"), "{text}");
    assert!(text.contains("none of the antiscenarios 2 to 3 is found in examples/lockmass/log-kept\n"), "{text}");
}

/// A search at work, its answer written to a file. It is ended with its owner.
struct Search(Child);

impl Search {
    fn new(words: &[&str], answer: &Path) -> Search {
        let out = File::create(answer).unwrap();
        Search(command(words).stdout(out).stderr(Stdio::null()).spawn().unwrap())
    }

    fn interrupt(mut self) {
        assert!(Command::new("kill").args(["-s", "INT", &self.0.id().to_string()]).status().unwrap().success());
        assert_eq!(self.0.wait().unwrap().signal(), Some(2));
    }
}

impl Drop for Search {
    fn drop(&mut self) {
        let _ = self.0.kill();
        let _ = self.0.wait();
    }
}

/// A run that must not go through billions of numbers.
fn soon(words: &[&str]) -> Said {
    Command::new("timeout").arg("30").arg(program()).args(words).output().expect("it runs").into()
}

/// What is found stands there when the search is ended: one number of billions, long before the next.
#[test]
fn ctrl_c_leaves_what_was_found() {
    let folder = scratch("large-ended");
    let [sheet, log] = largest(&folder);
    // Behind this one the last five consequents begin again, and a hundred million numbers are not found.
    let last_same = 2 * 48u64.pow(5);
    let range = format!("{last_same}-{LARGEST}");
    let answer = folder.join("answer");
    let search = Search::new(&["search", &sheet, &log, "--number", &range], &answer);
    until("something is found", || fs::metadata(&answer).unwrap().len().gt(&0).then_some(()));
    search.interrupt();
    let text = fs::read_to_string(&answer).unwrap();
    let block = format!("antiscenario {last_same} is found in {log}\n");
    assert!(text.starts_with(&block) && text.lines().count() == 3 && text.ends_with('\n'), "{text}");
}

/// Without numbers, from the first on.
#[test]
fn a_whole_search_says_what_it_finds_at_once() {
    let folder = scratch("large-whole");
    let [sheet, _] = largest(&folder);
    let two = file(&folder, "two", &log_of(&[(5, 3), (6, 3)]).text());
    let answer = folder.join("answer");
    let search = Search::new(&["search", &sheet, &two], &answer);
    until("something is found", || fs::metadata(&answer).unwrap().len().gt(&2000).then_some(()));
    search.interrupt();
    let text = fs::read_to_string(&answer).unwrap();
    let found: Vec<&str> = text.lines().filter(|line| line.starts_with("antiscenario ")).collect();
    let due = [1, 3, 5, 7].map(|number| format!("antiscenario {number} is found in {two}"));
    assert_eq!(found[..4], due);
}

/// The peak of a process's memory, in KiB.
fn peak(process: u32) -> u64 {
    let status = fs::read_to_string(format!("/proc/{process}/status")).unwrap();
    let line = status.lines().find_map(|line| line.strip_prefix("VmHWM:")).unwrap();
    line.trim().trim_end_matches(" kB").parse().unwrap()
}

/// A hundred thousand numbers of billions are searched in no more memory than a few need.
#[test]
fn billions_need_little_memory() {
    let folder = scratch("large-memory");
    let [sheet, log] = largest(&folder);
    let answer = folder.join("answer");
    let search = Search::new(&["search", "--plain", &sheet, &log, "--number", &format!("1-{LARGEST}")], &answer);
    until("many are searched", || fs::metadata(&answer).unwrap().len().gt(&2_000_000).then_some(()));
    let memory = peak(search.0.id());
    search.interrupt();
    assert!(memory < 32 * 1024, "{memory} KiB");
    let text = fs::read_to_string(&answer).unwrap();
    assert!(text.lines().zip(1..).take(100_000).all(|(line, number)| line == format!("  0{number:11}  0")), "in order");
}

/// The supplier's log breaks the sheet, by few of the numbers.
#[test]
fn the_suppliers_log_is_searched() {
    let (status, none) = run(&["search", SUPPLIER, SUPPLIER_KEPT]).answer();
    assert_eq!((status, none), (0, format!("none of the {SUPPLIERS} antiscenarios is found in {SUPPLIER_KEPT}\n")));
    let numbers = ["1114000-1114113", "1114114-1120000"];
    let [hit, missed] = numbers.map(|numbers| run(&["search", SUPPLIER, SUPPLIER_LOG, "--number", numbers]).answer());
    let (_, alone) = run(&["search", SUPPLIER, SUPPLIER_LOG, "--number", "1114113"]).answer();
    assert!(
        alone.starts_with("antiscenario 1114113 is found in examples/supplier/log\n  point 1 (row 1, POINT): line 17 "),
        "{alone}"
    );
    let last = format!("1 of the antiscenarios 1114000 to 1114113 found in {SUPPLIER_LOG}");
    assert_eq!(hit, (1, format!("{alone}{last}; 52 that no run can meet were passed over\n")));
    let last = format!("none of the antiscenarios 1114114 to 1120000 is found in {SUPPLIER_LOG}");
    assert_eq!(missed, (0, format!("{last}; 3296 of them no run can meet\n")));
}
