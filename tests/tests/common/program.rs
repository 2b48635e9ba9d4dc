//! The program that people use, as ./satskhubo builds it; what it said; and what it must say by the reference.
use super::top;
use satskhubo_tests::reference::blunder::Blunder;
use satskhubo_tests::reference::operations::{open, Opened, Verdict};
use std::ffi::OsStr;
use std::io::Write;
use std::path::{Path, PathBuf};
use std::process::{Command, Output, Stdio};
use std::sync::OnceLock;

pub const SHEET: &str = "examples/lockmass/sheet";
pub const LOG: &str = "examples/lockmass/log";
pub const KEPT: &str = "examples/lockmass/log-kept";
pub const FRACTION: &str = "examples/lockmass/log-fraction";
pub const INJECTION: &str = "examples/lockmass/log-injection";
pub const REMARK: &str = "examples/remark/sheet";
pub const BOARD: &str = "examples/board/sheet";
pub const BOARD_LOG: &str = "examples/board/log";
pub const BOARD_KEPT: &str = "examples/board/log-kept";
pub const SUPPLIER: &str = "examples/supplier/sheet";
pub const SUPPLIER_LOG: &str = "examples/supplier/log";
pub const SUPPLIER_KEPT: &str = "examples/supplier/log-kept";

/// The program itself, built where it is missing or older than its sources.
pub fn program() -> &'static Path {
    static PROGRAM: OnceLock<PathBuf> = OnceLock::new();
    PROGRAM.get_or_init(|| {
        let built = Command::new(top().join("satskhubo")).arg("--version").output().expect("the launcher runs");
        assert!(built.status.success(), "{}", String::from_utf8_lossy(&built.stderr));
        top().join("cli/target/release/satskhubo")
    })
}

/// What a run of the program said, and how it ended.
#[derive(Debug, PartialEq, Eq)]
pub struct Said {
    pub status: i32,
    pub out: String,
    pub err: String,
}

impl From<Output> for Said {
    fn from(output: Output) -> Said {
        let text = |bytes| String::from_utf8(bytes).expect("the program speaks UTF-8");
        let status = output.status.code().unwrap_or_else(|| panic!("ended by a signal: {:?}", output.status));
        Said { status, out: text(output.stdout), err: text(output.stderr) }
    }
}

impl Said {
    /// The answer, from a run that had nothing to say on standard error.
    pub fn answer(self) -> (i32, String) {
        assert_eq!(self.err, "");
        (self.status, self.out)
    }

    /// The sentence on standard error, from a run that gave no answer.
    pub fn complaint(self) -> String {
        assert_eq!((self.status, self.out.as_str()), (2, ""), "{}", self.err);
        assert!(self.err.starts_with("satskhubo: ") && self.err.ends_with('\n'), "{:?}", self.err);
        assert!(!self.err.contains("panicked"), "{}", self.err);
        self.err
    }
}

pub fn command<W: AsRef<OsStr>>(words: &[W]) -> Command {
    let mut command = Command::new(program());
    command.args(words).current_dir(top()).stdin(Stdio::null());
    command
}

pub fn run<W: AsRef<OsStr>>(words: &[W]) -> Said {
    command(words).output().expect("the program runs").into()
}

/// A run with a text on its standard input.
pub fn run_on<W: AsRef<OsStr>>(words: &[W], input: &[u8]) -> Said {
    let mut child =
        command(words).stdin(Stdio::piped()).stdout(Stdio::piped()).stderr(Stdio::piped()).spawn().expect("the program starts");
    // It may end before it has read everything.
    let _ = child.stdin.take().unwrap().write_all(input);
    child.wait_with_output().unwrap().into()
}

pub fn opened(sheet: &[u8], log: &[u8]) -> Opened {
    open(sheet, log, Blunder::None)
}

fn columns(numbers: &[u32], width: usize) -> String {
    numbers.iter().map(|number| format!("{number:width$}")).collect::<String>() + "\n"
}

/// Document 01's columns for a check, and the exit status.
pub fn plain_check(opened: &Opened) -> (i32, String) {
    match opened.check() {
        Err(refusal) => (2, columns(&[refusal.number(), 0], 3)),
        Ok(Verdict::Holds) => (0, columns(&[0, 0], 3)),
        Ok(Verdict::Violated { placement, rows }) => (1, columns(&[0, 1], 3) + &columns(&placement, 5) + &columns(&rows, 4)),
    }
}

/// Writes a file and gives its name.
pub fn file(folder: &Path, name: &str, text: &[u8]) -> String {
    let path = folder.join(name);
    std::fs::write(&path, text).expect("a file is written");
    path.display().to_string()
}
