//! How the program is asked: commands, options and numbers; files, folders, pipes and standard input; names of every kind.
mod common;
use common::program::{command, file, run, run_on, Said, INJECTION, KEPT, LOG, SHEET};
use common::{scratch, top};
use satskhubo_tests::json::{self, Json};
use std::ffi::OsStr;
use std::fs;
use std::os::unix::ffi::OsStrExt;
use std::os::unix::fs::symlink;
use std::process::Command;

fn bytes(name: &str) -> Vec<u8> {
    fs::read(top().join(name)).unwrap()
}

#[test]
fn what_is_wrong_with_a_command_line_is_said() {
    let wrong: [(&[&str], &str); 22] = [
        (&[], "command"),
        (&[""], "command"),
        (&["chekc", SHEET, LOG], "check"),
        (&["sarch", SHEET, LOG], "search"),
        (&["CHECK", SHEET, LOG], "check"),
        (&["check"], "sheet"),
        (&["check", SHEET], "log"),
        (&["check", "--plain", SHEET], "log"),
        (&["search", SHEET], "log"),
        (&["antiscenarios"], "sheet"),
        (&["antiscenarios", SHEET, "1", "2"], "2"),
        (&["explain", SHEET, LOG], LOG),
        (&["check", "--jsn", SHEET, LOG], "--json"),
        (&["check", SHEET, LOG, "--plian"], "--plain"),
        (&["check", "-j", SHEET, LOG], "-j"),
        (&["check", "--plain", "--json", SHEET, LOG], "--plain"),
        (&["check", "--json=yes", SHEET, LOG], "--json"),
        (&["check", "--number", "1", SHEET, LOG], "--number"),
        (&["check", SHEET, LOG, "--events"], "--events"),
        (&["search", SHEET, LOG, "--number"], "--number"),
        (&["search", "--number", "1", "--number", "2", SHEET, LOG], "--number"),
        (&["check", "-", "-"], "twice"),
    ];
    for (words, due) in wrong {
        let complaint = run(words).complaint();
        assert!(complaint.contains(due), "{words:?}: {complaint}");
    }
}

#[test]
fn options_stand_anywhere_until_two_dashes() {
    let plain = "  0  1\n    3\n   3\n";
    for words in [["check", "--plain", SHEET, LOG], ["check", SHEET, "--plain", LOG], ["check", SHEET, LOG, "--plain"]] {
        assert_eq!(run(&words).answer(), (1, plain.to_string()));
    }
    assert_eq!(run(&["check", "--plain", "--", SHEET, LOG]).answer(), (1, plain.to_string()));
    assert_eq!(run(&["check", SHEET, "--plain", "--", LOG]).answer(), (1, plain.to_string()));
    let said = run(&["check", "--", SHEET, LOG, "--plain"]);
    assert_eq!(said.status, 2);
    assert!(said.err.contains("--plain") && said.out.contains("violated"), "{said:?}");
    let found = run(&["search", "--plain", "--number=2", SHEET, LOG]).answer();
    assert_eq!(found, (1, "  0          2  1    3    1\n".to_string()));
    assert_eq!(run(&["search", SHEET, LOG, "--plain", "--number", "2"]).answer(), found);
}

#[test]
fn help_and_version() {
    for words in [
        &["--help"][..],
        &["check", "--help"],
        &["search", "--help"],
        &["antiscenarios", "--help"],
        &["explain", SHEET, "--help"],
    ] {
        let (status, text) = run(words).answer();
        assert_eq!(status, 0);
        assert!(text.contains("satskhubo") && text.contains("SHEET"), "{text}");
    }
    let (status, version) = run(&["--version"]).answer();
    assert!(
        status == 0 && version.starts_with("satskhubo ") && version.contains("commit ") && version.contains("logic "),
        "{version}"
    );
    let kit = Command::new("rt").arg("version").output().unwrap();
    assert!(version.contains(common::said(&kit).trim_end()), "{version}");
}

/// A number is taken whole or refused: one that is not in 1 to N with 31, anything else as no number.
#[test]
fn numbers_are_taken_whole() {
    let over = ["0", "5", "4294967297", "18446744073709551615", "0-1", "1-5", "2-4294967298", "5-6", "1-18446744073709551615"];
    let none = [
        "2-1",
        "1-",
        "-",
        "1--2",
        "1-2-3",
        "01-2",
        "1-02",
        "1 - 2",
        "1-18446744073709551616",
        "1-two",
        "1..2",
        "00",
        "02",
        "002",
        "18446744073709551616",
        "+1",
        "-1",
        "1.0",
        "1e0",
        " 1",
        "1 ",
        "",
        " ",
        "two",
        "0x1",
        "1\n",
        "99999999999999999999999999",
    ];
    for number in over.into_iter().chain(none) {
        let by_option = format!("--number={number}");
        let runs: [&[&str]; 5] = [
            &["antiscenarios", SHEET, "--", number],
            &["search", SHEET, LOG, "--number", number],
            &["search", "--plain", SHEET, LOG, &by_option],
            &["search", "--json", SHEET, LOG, &by_option],
            &["antiscenarios", "--plain", SHEET, "--", number],
        ];
        for words in runs {
            let said = run(words);
            assert_eq!(said.status, 2, "{words:?}: {said:?}");
            let all = format!("{}{}", said.out, said.err);
            assert!(!all.contains("found in") && !all.contains("\"found\":") && !all.is_empty(), "{words:?}: {said:?}");
            assert_eq!(all.contains("31"), over.contains(&number), "{words:?}: {said:?}");
        }
    }
    assert_eq!(run(&["search", SHEET, LOG, "--number", "2"]).status, 1);
    assert_eq!(run(&["search", SHEET, LOG, "--number", "1-2"]).status, 1);
    assert_eq!(run(&["search", SHEET, LOG, "--number", "3-4"]).status, 0);
    assert_eq!(run(&["search", SHEET, LOG, "--number", "1"]).status, 0);
}

/// A log that cannot be read is said and counted, and the others go on.
#[test]
fn a_log_that_is_not_there_stops_no_other() {
    let said = run(&["check", SHEET, LOG, "no-such-log", KEPT]);
    assert_eq!(said.status, 2);
    assert!(said.err.starts_with("satskhubo: ") && said.err.contains("no-such-log"), "{}", said.err);
    assert!(said.out.contains("violated") && said.out.contains("holds"), "{}", said.out);
    assert!(said.out.ends_with("3 logs: 1 hold, 1 violated, 0 refused, 1 not read\n"), "{}", said.out);
    let said = run(&["check", "--json", SHEET, LOG, "no-such-log", KEPT]);
    let verdicts: Vec<String> = json::lines(&said.out).iter().map(|object| object.get("verdict").text().to_string()).collect();
    assert_eq!((said.status, verdicts.join(" ").as_str()), (2, "violated unreadable holds"));
    let said = run(&["check", "--plain", SHEET, LOG, "no-such-log", KEPT]);
    assert_eq!((said.status, said.out.as_str()), (2, "  0  1\n    3\n   3\n  0  0\n"));
    assert!(!said.err.is_empty());
    let said = run(&["search", SHEET, "no-such-log", LOG]);
    assert!(said.status == 2 && said.out.contains("1 of 4 antiscenarios found") && said.err.contains("no-such-log"), "{said:?}");
}

#[test]
fn a_sheet_that_is_not_there_stops_all() {
    for words in [
        &["check", "no-such-sheet", LOG, KEPT][..],
        &["check", "--plain", "no-such-sheet", LOG],
        &["search", "no-such-sheet", LOG],
        &["explain", "no-such-sheet"],
        &["antiscenarios", "no-such-sheet", "1"],
    ] {
        let complaint = run(words).complaint();
        assert!(complaint.contains("no-such-sheet"), "{complaint}");
    }
    assert!(run(&["check", "examples", LOG]).complaint().contains("examples"));
}

#[test]
fn a_refused_sheet_is_said_once() {
    for form in ["--plain", "--json"] {
        let said = run(&["check", form, LOG, LOG, KEPT, INJECTION]);
        assert_eq!((said.status, said.out.lines().count()), (2, 1), "{said:?}");
    }
    let said = run(&["check", LOG, LOG, KEPT, INJECTION]);
    assert_eq!((said.status, said.out.matches("refused 1").count(), said.err.as_str()), (2, 1, ""), "{said:?}");
}

#[test]
fn standard_input_and_pipes() {
    let due = run(&["check", "--plain", SHEET, LOG]).answer();
    assert_eq!(run_on(&["check", "--plain", SHEET, "-"], &bytes(LOG)).answer(), due);
    assert_eq!(run_on(&["check", "--plain", "-", LOG], &bytes(SHEET)).answer(), due);
    assert_eq!(run_on(&["check", "--plain", SHEET, "/dev/stdin"], &bytes(LOG)).answer(), due);
    assert_eq!(run_on(&["check", "--plain", "/dev/stdin", LOG], &bytes(SHEET)).answer(), due);
    let shell = |text: &str| -> Said {
        let program = common::program::program();
        Command::new("bash").arg("-c").arg(text).arg("bash").arg(program).current_dir(top()).output().unwrap().into()
    };
    assert_eq!(shell(&format!("\"$1\" check --plain <(cat {SHEET}) <(cat {LOG})")).answer(), due);
    assert_eq!(shell(&format!("cat {LOG} | \"$1\" check --plain {SHEET} -")).answer(), due);
    assert_eq!(shell(&format!("\"$1\" check --plain {SHEET} - <{LOG}")).answer(), due);
    let pipe = scratch("pipes").join("a pipe");
    assert!(Command::new("mkfifo").arg(&pipe).status().unwrap().success());
    let writer = std::thread::spawn({
        let (pipe, text) = (pipe.clone(), bytes(LOG));
        move || fs::write(pipe, text).unwrap()
    });
    assert_eq!(run(&[OsStr::new("check"), OsStr::new("--plain"), OsStr::new(SHEET), pipe.as_os_str()]).answer(), due);
    writer.join().unwrap();
    let said = run_on(&["check", SHEET, "-", "no-such-log"], &bytes(LOG));
    assert!(said.status == 2 && said.out.contains("standard input: violated"), "{said:?}");
}

/// More than any text that is accepted is not read, and the answer does not depend on there being an end.
#[test]
fn an_endless_input_is_refused() {
    for (words, due) in
        [(["check", "--plain", SHEET, "/dev/zero"], " 21  0\n"), (["check", "--plain", "/dev/zero", LOG], "  1  0\n")]
    {
        assert_eq!(run(&words).answer(), (2, due.to_string()));
    }
    let text = [&bytes(LOG)[..], &vec![b'\n'; 3 << 20]].concat();
    let said = run_on(&["check", SHEET, "-"], &text);
    assert!(said.status == 2 && said.out.contains("refused 23") && said.out.contains("more than 1,048,576 bytes"), "{said:?}");
    let sheet = [&bytes(SHEET)[..], &vec![b' '; 3 << 20]].concat();
    let said = run_on(&["check", "-", LOG], &sheet);
    assert!(said.status == 2 && said.out.contains("refused 3:") && said.out.contains("more than 1,048,576 bytes"), "{said:?}");
}

/// A folder that goes when the test ends, also where it fails: `rt ci` takes no checkout with links in it.
struct Passing(std::path::PathBuf);

impl Drop for Passing {
    fn drop(&mut self) {
        let _ = fs::remove_dir_all(&self.0);
    }
}

#[test]
fn a_folder_is_all_files_below_it() {
    let folder = scratch("folder");
    let _passing = Passing(folder.clone());
    fs::create_dir_all(folder.join("b/deep")).unwrap();
    for (name, text) in [
        ("c", bytes(KEPT)),
        ("b/deep/z", bytes(INJECTION)),
        ("b/a", bytes(LOG)),
        ("a", bytes(KEPT)),
        ("sheet", bytes(SHEET)),
        ("events", b"3 scan\n".to_vec()),
    ] {
        file(&folder, name, &text);
    }
    // A folder is gone through once, by the first of its names; a link back ends.
    symlink("b", folder.join("d-linked-folder")).unwrap();
    symlink("..", folder.join("b/back")).unwrap();
    symlink("c", folder.join("linked")).unwrap();
    let elsewhere = scratch("folder-elsewhere");
    file(&elsewhere, "log", &bytes(LOG));
    symlink(&elsewhere, folder.join("e-linked-folder")).unwrap();
    let Said { status, out, .. } = command(&["check", "--json", "sheet", "."]).current_dir(&folder).output().unwrap().into();
    let named =
        |object: &Json| format!("{} {}", object.get("file").text().trim_start_matches("./"), object.get("verdict").text());
    let said: Vec<String> = json::lines(&out).iter().map(named).collect();
    // The sheet and the events in use are no logs.
    let expected = "a holds\nb/a violated\nb/deep/z violated\nc holds\ne-linked-folder/log violated\nlinked holds";
    assert_eq!((status, said.join("\n").as_str()), (1, expected));
    let said: Said = command(&["check", "sheet", ".", "."]).current_dir(&folder).output().unwrap().into();
    assert!(said.out.contains("12 logs: 6 hold, 6 violated, 0 refused, 0 not read"), "{said:?}");
    let empty = scratch("folder-empty");
    let said = run(&[OsStr::new("check"), OsStr::new(SHEET), empty.as_os_str(), OsStr::new(KEPT)]);
    assert!(said.status == 2 && said.err.contains("no log in ") && said.out.ends_with("1 not read\n"), "{said:?}");
}

/// Names with blanks, line feeds, leading dashes, and bytes that are no UTF-8.
#[test]
fn names_of_every_kind() {
    let folder = scratch("names");
    let names: [&[u8]; 8] =
        [b"a log", b"two\nlines", b"-dash", b"--plain", b"not\xffutf-8", b"*", b"\x1b[31mred", "räume".as_bytes()];
    for name in names {
        fs::write(folder.join(OsStr::from_bytes(name)), bytes(LOG)).unwrap();
    }
    fs::write(folder.join("- a sheet\n"), bytes(SHEET)).unwrap();
    let mut words: Vec<&OsStr> = ["check", "--json", "--", "- a sheet\n"].map(OsStr::new).to_vec();
    words.extend(names.map(OsStr::from_bytes));
    let said: Said = command(&words).current_dir(&folder).output().unwrap().into();
    let (status, out) = said.answer();
    let objects = json::lines(&out);
    assert_eq!((status, objects.len()), (1, names.len()));
    for (name, object) in names.iter().zip(&objects) {
        assert_eq!((object.get("verdict").text(), object.get("sheet").text()), ("violated", "- a sheet\n"));
        assert_eq!(object.get("file").text(), String::from_utf8_lossy(name));
        let as_bytes = object.find("file_bytes").map(Json::numbers);
        let due: Vec<u32> = name.iter().map(|byte| u32::from(*byte)).collect();
        assert_eq!(as_bytes, std::str::from_utf8(name).is_err().then_some(due));
    }
    words[1] = OsStr::new("--");
    words.remove(2);
    let said: Said = command(&words).current_dir(&folder).output().unwrap().into();
    let shown = ["a log", "two\\x0alines", "-dash", "--plain", "not\\xffutf-8", "*", "\\x1b[31mred", "räume"];
    let lines = shown.map(|name| format!("{name}: violated at line 3 of the log, line 4 of the file\n")).concat();
    assert_eq!(said.answer(), (1, lines + "8 logs: 0 hold, 8 violated, 0 refused, 0 not read\n"));
    // One log by itself, in words.
    for (name, shown) in names.iter().zip(shown) {
        let words = [OsStr::new("check"), OsStr::new("--"), OsStr::new("- a sheet\n"), OsStr::from_bytes(name)];
        let said: Said = command(&words).current_dir(&folder).output().unwrap().into();
        let (_, out) = said.answer();
        assert!(out.starts_with(&format!("violated: {shown} breaks the rule of - a sheet\\x0a\n")), "{out}");
    }
}

#[test]
fn names_of_events() {
    let folder = scratch("events");
    for (name, text) in [("sheet", bytes(SHEET)), ("log", bytes(INJECTION))] {
        file(&folder, name, &text);
    }
    let run = |words: &[&str]| -> Said { command(words).current_dir(&folder).output().unwrap().into() };
    let bare = run(&["check", "sheet", "log"]).answer().1;
    assert!(bare.contains("event 3") && !bare.contains("scan"), "{bare}");
    file(&folder, "events", b"# events\n1 injection\n\n  2\tlock mass\n3 scan\n");
    for words in [&["check", "sheet", "log"][..], &["antiscenarios", "sheet"], &["search", "sheet", "log"], &["explain", "sheet"]]
    {
        let named = run(words);
        assert!(named.out.contains("event 3 (scan)") && named.out.contains("(injection)"), "{words:?}: {named:?}");
    }
    assert!(run(&["check", "sheet", "log"]).out.contains("has event 1 (injection)"));
    file(&folder, "others", b"3 shot\n");
    let other = run(&["check", "--events", "others", "sheet", "log"]).answer().1;
    assert!(other.contains("event 3 (shot)") && !other.contains("injection"), "{other}");
    assert_eq!(run(&["check", "--events=others", "sheet", "log"]).answer().1, other);
    let wrong: [&[u8]; 9] = [
        b"64 far",
        b"3 a\n3 b",
        b"3",
        b"three scan",
        b"03 scan",
        b"-1 x",
        b"4294967299 x",
        b"18446744073709551619 x",
        b"3\xff x",
    ];
    for text in wrong {
        file(&folder, "wrong", text);
        let complaint = run(&["check", "--events", "wrong", "sheet", "log"]).complaint();
        assert!(complaint.contains("wrong") && complaint.contains("line "), "{complaint}");
    }
    assert!(run(&["check", "--events", "none", "sheet", "log"]).complaint().contains("none"));
    // JSON has the numbers alone in its lists, so that other programs need no names.
    let object = &json::lines(&run(&["check", "--json", "sheet", "log"]).out)[0];
    assert_eq!(object.get("events").numbers(), [3]);
}
