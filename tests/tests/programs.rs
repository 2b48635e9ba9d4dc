//! Document 01's program, target/bin/satskhubo: its columns, and that the people's program gives the same with --plain.
mod common;
use common::program::{run, INJECTION, KEPT, LOG, SHEET, SUPPLIER};
use common::{said, scratch, top};
use std::process::Command;

fn program() -> Command {
    let mut program = Command::new(top().join("target/bin/satskhubo"));
    program.current_dir(top());
    program
}

#[test]
fn it_reads_the_files_of_its_folder() {
    let folder = scratch("a-run");
    for (name, from) in [("sheet", SHEET), ("log", LOG)] {
        std::fs::copy(top().join(from), folder.join(name)).expect("a file is copied");
    }
    let output = program().current_dir(&folder).output().expect("`sh build.sh --all` has built it");
    assert_eq!(said(&output), "  0  1\n    3\n   3\n");
}

#[test]
fn it_says_what_the_peoples_program_says() {
    let refused = |name: &str| format!("examples/refused/{name}");
    let sheets =
        [SHEET, LOG, SUPPLIER].map(String::from).into_iter().chain((1..=10).map(|number| refused(&format!("sheet-{number}"))));
    let logs: Vec<String> = [LOG, KEPT, INJECTION, SHEET]
        .map(String::from)
        .into_iter()
        .chain((21..=27).map(|number| refused(&format!("log-{number}"))))
        .collect();
    for sheet in sheets {
        for log in &logs {
            let output = program().args([&sheet, log]).output().expect("`sh build.sh --all` has built it");
            assert_eq!(said(&output), run(&["check", "--plain", &sheet, log]).answer().1, "{sheet} {log}");
        }
    }
}

#[test]
fn a_file_that_is_not_there() {
    for names in [["no-such-sheet", LOG], [SHEET, "no-such-log"]] {
        let output = program().args(names).output().expect("`sh build.sh --all` has built it");
        assert!(output.stdout.is_empty() && !output.stderr.is_empty(), "{names:?}");
    }
}

#[test]
fn what_it_cannot_do_it_says_on_standard_error_alone() {
    let long = "a".repeat(5000);
    let asked: [(&[&str], &str); 5] = [
        (&[SHEET, LOG, LOG], "usage: satskhubo [SHEET LOG]\n"),
        (&[SHEET], "argument: Invalid argument\n"),
        (&["no-such-sheet", LOG], "no-such-sheet: No such file or directory\n"),
        (&[SHEET, "examples"], "examples: Is a directory\n"),
        (&[&long, LOG], "argument: File name too long\n"),
    ];
    for (words, due) in asked {
        let output = program().args(words).output().expect("`sh build.sh --all` has built it");
        let heard = String::from_utf8_lossy(&output.stderr);
        assert_eq!((output.status.code(), said(&output).as_str(), heard.as_ref()), (Some(0), "", due));
    }
}
