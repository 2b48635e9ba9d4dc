//! An answer that cannot be written, a run that is ended, and a place that cannot be written: exit status 2 with words, or the signal; nothing is
//! left behind and nothing is lost in silence.
mod common;
use common::program::{command, file, opened, plain_check, program, run, Said, KEPT, LOG, REMARK, SHEET};
use common::{as_nobody, scratch, until, Public};
use satskhubo_tests::generate::logs::uniform;
use satskhubo_tests::reference::sheet::{self, kind::*, Row};
use std::fs::{self, File};
use std::os::unix::fs::PermissionsExt;
use std::os::unix::process::ExitStatusExt;
use std::path::Path;
use std::process::{Command, Stdio};

/// Something that writes, for each command and form.
const RUNS: [&[&str]; 14] = [
    &["check", SHEET, LOG],
    &["check", SHEET, KEPT],
    &["check", "--plain", SHEET, KEPT],
    &["check", "--json", SHEET, LOG, KEPT],
    &["check", LOG, LOG],
    &["check", "--plain", REMARK, KEPT],
    &["search", SHEET, LOG],
    &["search", "--json", SHEET, KEPT],
    &["antiscenarios", SHEET],
    &["antiscenarios", "--plain", SHEET, "1"],
    &["explain", SHEET],
    &["check", "--help"],
    &["--help"],
    &["--version"],
];

#[test]
fn a_full_disk_is_an_error() {
    for words in RUNS {
        let full = File::options().write(true).open("/dev/full").unwrap();
        let said: Said = command(words).stdout(full).output().unwrap().into();
        assert!(said.complaint().contains("standard output"), "{words:?}");
    }
}

#[test]
fn a_reader_that_has_gone_is_an_error() {
    for words in RUNS {
        let (reader, writer) = std::io::pipe().unwrap();
        drop(reader);
        let said: Said = command(words).stdout(writer).output().unwrap().into();
        assert!(said.complaint().contains("standard output"), "{words:?}");
    }
}

/// The program with some descriptors closed.
fn closed(redirection: &str, words: &[&str]) -> Said {
    let mut shell = Command::new("sh");
    shell.args(["-c", &format!("exec \"$@\" {redirection}"), "sh"]).arg(program()).args(words).current_dir(common::top());
    shell.output().unwrap().into()
}

#[test]
fn a_closed_output_is_an_error() {
    for words in RUNS {
        assert!(closed(">&-", words).complaint().contains("standard output"), "{words:?}");
        assert_eq!(closed(">&- 2>&-", words).status, 2, "{words:?}");
        // A descriptor that can be read only takes no answer either.
        assert_eq!(closed("1</dev/null", words).status, 2, "{words:?}");
    }
}

#[test]
fn other_closed_descriptors() {
    for words in RUNS {
        let said = run(words);
        assert_eq!(closed("<&-", words), said, "{words:?}");
        assert_eq!((closed("2>&-", words).status, closed("2>&-", words).out), (said.status, said.out), "{words:?}");
    }
    assert!(closed("<&-", &["check", SHEET, "-"]).err.contains("standard input"));
    assert_eq!(closed("<&-", &["check", SHEET, "-"]).status, 2);
    assert_eq!(closed("2>&-", &["check", SHEET, "no-such-log"]).status, 2);
    assert_eq!(closed("2>/dev/full", &["check", SHEET, "no-such-log"]).status, 2);
}

/// Three points of any line, and a row of two of them that no line meets: as many trials as lines, to the third power.
fn endless(folder: &Path) -> [String; 2] {
    let mut rows: Vec<Row> = (1..=4).map(|p| Row::new(0, POINT, p, 0, u32::MAX, 0)).collect();
    rows.push(Row::new(0, OUTSIDE, 3, 4, 0, u32::MAX));
    [file(folder, "endless-sheet", &sheet::text(0, &rows)), file(folder, "long-log", &uniform(4000, 2).text())]
}

fn processor_ticks(process: u32) -> u64 {
    let stat = fs::read_to_string(format!("/proc/{process}/stat")).unwrap();
    let fields: Vec<&str> = stat.rsplit(')').next().unwrap().split_whitespace().collect();
    fields[11].parse().unwrap()
}

#[test]
fn ctrl_c_ends_it_and_leaves_nothing() {
    let folder = scratch("ended");
    let [sheet, log] = endless(&folder);
    for (task, signal, number) in [("search", "INT", 2), ("check", "INT", 2), ("search", "TERM", 15)] {
        let before = listing(&folder);
        let mut child = command(&[task, &sheet, &log, &log, &log]);
        child.current_dir(&folder).env("TMPDIR", &folder).stdout(Stdio::piped()).stderr(Stdio::piped());
        let mut child = child.spawn().unwrap();
        until("it is at work", || (processor_ticks(child.id()) >= 3).then_some(()));
        assert!(Command::new("kill").args(["-s", signal, &child.id().to_string()]).status().unwrap().success());
        let ended = (0..2000).any(|_| {
            std::thread::sleep(std::time::Duration::from_millis(5));
            child.try_wait().unwrap().is_some()
        });
        // By itself it would take years.
        child.kill().unwrap();
        let output = child.wait_with_output().unwrap();
        assert!(ended && output.status.signal() == Some(number), "{output:?}");
        assert_eq!((output.stdout.len(), output.stderr.len()), (0, 0), "{output:?}");
        assert_eq!(listing(&folder), before);
    }
}

fn listing(folder: &Path) -> Vec<std::ffi::OsString> {
    let mut names: Vec<_> = fs::read_dir(folder).unwrap().map(|entry| entry.unwrap().file_name()).collect();
    names.sort();
    names
}

#[test]
fn a_folder_that_cannot_be_written_and_no_temporary_one() {
    let room = Public::new("read-only");
    let (folder, copy) = (room.0.join("run"), room.0.join("satskhubo"));
    fs::create_dir(&folder).unwrap();
    fs::copy(program(), &copy).unwrap();
    for (name, from) in [("sheet", SHEET), ("log", LOG)] {
        fs::copy(common::top().join(from), folder.join(name)).unwrap();
        fs::set_permissions(folder.join(name), fs::Permissions::from_mode(0o444)).unwrap();
    }
    fs::set_permissions(&folder, fs::Permissions::from_mode(0o555)).unwrap();
    let due = plain_check(&opened(&fs::read(folder.join("sheet")).unwrap(), &fs::read(folder.join("log")).unwrap()));
    let mut command = as_nobody(&copy);
    let output =
        command.args(["check", "--plain", "sheet", "log"]).current_dir(&folder).env("TMPDIR", "/no/such/folder").output();
    fs::set_permissions(&folder, fs::Permissions::from_mode(0o755)).unwrap();
    assert_eq!(Said::from(output.unwrap()).answer(), due);
}
