//! The example host in C and a host in C++: compiled with every warning an error, linked with the archive, run on the examples,
//! under valgrind and with the stack that docs/HOSTS.md promises.
mod common;
use common::{largest_log, said, scratch, top};
use satskhubo_tests::generate::sheets::largest;
use std::path::{Path, PathBuf};
use std::process::{Command, Output};

fn archive() -> PathBuf {
    let folder = std::env::var("BENCH_ARCHIVE").map(PathBuf::from).unwrap_or_else(|_| top().join("target/staticlib"));
    folder.join("libbench.a")
}

/// Compiles a host into a file of its own and gives its path.
fn compiled(compiler: &str, standard: &str, source: &str, name: &str) -> PathBuf {
    let program = Path::new(env!("CARGO_TARGET_TMPDIR")).join(name);
    let compiled = Command::new(compiler)
        .args([standard, "-O1", "-g", "-Wall", "-Wextra", "-Wpedantic", "-Werror"])
        .arg(format!("-I{}", top().join("include").display()))
        .arg(top().join(source))
        .arg(archive())
        .arg("-o")
        .arg(&program)
        .output()
        .expect("the compiler runs");
    assert!(compiled.status.success(), "{}", String::from_utf8_lossy(&compiled.stderr));
    program
}

fn host(name: &str) -> PathBuf {
    compiled("gcc", "-std=c11", "examples/host/host.c", name)
}

fn run(command: &mut Command, sheet: &str, log: &str) -> Output {
    let examples = top().join("examples");
    command.arg(examples.join(sheet)).arg(examples.join(log)).output().expect("the host runs")
}

#[test]
fn says_what_it_finds() {
    let program = host("host");
    let violated = run(&mut Command::new(&program), "lockmass/sheet", "lockmass/log");
    assert_eq!(violated.status.code(), Some(1));
    let number_two = "antiscenario 2:\n  1  3\n  0  1  1  0          8          0\n  1  3 11  1          4          0\n  1 11 11  1          0        500\nfound at 3 1\n";
    // Document 02, A6: number 4 is impossible.
    let due = format!("violated at 3, rows at fault 3\n{number_two}impossible, not searched: 1\n");
    assert_eq!(said(&violated), due);
    let holds = run(&mut Command::new(&program), "lockmass/sheet", "lockmass/log-kept");
    assert_eq!((holds.status.code(), said(&holds).as_str()), (Some(0), "holds\n"));
    // Document 02, A9: a millisecond more.
    let fraction = run(&mut Command::new(&program), "lockmass/sheet", "lockmass/log-fraction");
    assert_eq!((fraction.status.code(), said(&fraction)), (Some(1), said(&violated)));
    let large = run(&mut Command::new(&program), "supplier/sheet", "supplier/log");
    let due = "violated at 17, rows at fault 3 15 26 38 50 62\nimpossible, not searched: 2368\nsearched: 1728 of 16777216 antiscenarios\n";
    assert_eq!((large.status.code(), said(&large).as_str()), (Some(1), due));
}

/// Document 02, A10: with a limit it may stop, and else says what it says without one.
#[test]
fn stops_at_its_limit() {
    let program = host("limited-host");
    let examples = top().join("examples/lockmass");
    let limited = |log: &str, limit: &str| {
        let names = [examples.join("sheet"), examples.join(log)];
        let output = Command::new(&program).args(names).arg(limit).output().expect("the host runs");
        (output.status.code(), said(&output))
    };
    let stopped = |looked, after| format!("stopped: matchings looked at {looked}, placements after them {after}\n");
    assert_eq!(limited("log", "0"), (Some(3), stopped(0, 3)));
    assert_eq!(limited("log", "1"), (Some(3), stopped(1, 1)));
    let violated = run(&mut Command::new(&program), "lockmass/sheet", "lockmass/log");
    assert_eq!(limited("log", "2"), (Some(1), said(&violated)));
    assert_eq!(limited("log-kept", "1"), (Some(3), stopped(1, 1)));
    assert_eq!(limited("log-kept", "18446744073709551615"), (Some(0), "holds\n".to_string()));
    for limit in ["", "-1", "+1", " 1", "1 ", "one", "18446744073709551616"] {
        assert_eq!(limited("log", limit), (Some(2), String::new()), "{limit}");
    }
}

#[test]
fn shows_the_line_that_is_refused() {
    let program = host("refusing-host");
    let refused = run(&mut Command::new(&program), "lockmass/log", "lockmass/log");
    assert_eq!(refused.status.code(), Some(2));
    assert_eq!(said(&refused), "refused 1:     3  \n");
}

#[test]
fn keeps_to_its_memory() {
    let program = host("watched-host");
    let mut valgrind = Command::new("valgrind");
    valgrind.args(["--quiet", "--error-exitcode=99"]).arg(&program);
    let watched = run(&mut valgrind, "lockmass/sheet", "lockmass/log");
    assert_eq!(watched.status.code(), Some(1), "{}", String::from_utf8_lossy(&watched.stderr));
}

#[test]
fn the_header_serves_c_plus_plus() {
    let program = compiled("g++", "-std=c++11", "tests/host.cpp", "host-in-c++");
    let output = run(&mut Command::new(&program), "lockmass/sheet", "lockmass/log");
    let due = "check 100\nread_log 0 3\nread_sheet 0 4\nsatskhubo_check 100 1 3 1 3\ncheck_limited 102 1 1\nwrite 0 112\nimpossible 0 1\nsearch 0 1 3 1\njudge 0 1\nshow 1 0 0 7\nwrite_field 0\nread_field 0 4294967295\n";
    assert_eq!((output.status.code(), said(&output).as_str()), (Some(0), due));
}

/// 128 KiB, as docs/HOSTS.md says; the largest log, and a sheet whose antiscenarios have 58 points.
#[test]
fn is_content_with_the_stack_promised() {
    let program = host("host-on-little-stack");
    let folder = scratch("little-stack");
    std::fs::write(folder.join("sheet"), largest()).unwrap();
    std::fs::write(folder.join("log"), largest_log()).unwrap();
    let limited = |sheet: &Path, log: &Path, limit: &[&str]| {
        let mut shell = Command::new("sh");
        shell.args(["-c", "ulimit -s 128 && exec \"$@\"", "sh"]).arg(&program).arg(sheet).arg(log).args(limit);
        shell.output().expect("sh runs")
    };
    let examples = top().join("examples/lockmass");
    for limit in [&[][..], &["18446744073709551615"]] {
        assert_eq!(said(&limited(&examples.join("sheet"), &examples.join("log-kept"), limit)), "holds\n");
        let output = limited(&folder.join("sheet"), &folder.join("log"), limit);
        assert_eq!(output.status.code(), Some(1), "{output:?}");
        let text = said(&output);
        assert!(text.starts_with("violated at 3998 4000 3998 3998, rows at fault 41 50 59 68 77 86\n"), "{text}");
    }
}
