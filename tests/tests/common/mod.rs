//! What the tests share: a panic for a mismatch, and the count of comparisons told past the harness.
#![allow(dead_code)]
pub mod answers;
pub mod program;
pub mod words;

use satskhubo_tests::compare::{compare, Mismatch, Tally};
use satskhubo_tests::generate::logs::log_of;
use satskhubo_tests::generate::pairs::pair_of;
use satskhubo_tests::outcome::Side;
use std::io::Write;

/// Standard error itself, which the harness does not keep from the reader.
pub fn tell(test: &str, comparisons: u64) {
    writeln!(std::io::stderr(), "comparisons: {comparisons} ({test})").unwrap();
}

/// The same, with the pairs on which demand 3 was asserted.
pub fn tell_tally(test: &str, tally: Tally) {
    tell(&format!("{test}; {tally}"), tally.comparisons);
}

pub fn tallied(result: Result<Tally, Mismatch>) -> Tally {
    result.unwrap_or_else(|Mismatch(text)| panic!("{text}"))
}

pub fn counted(result: Result<Tally, Mismatch>) -> u64 {
    tallied(result).comparisons
}

pub fn random_pairs<S: Side>(side: &S, first_seed: u64, pairs: u64) -> Tally {
    (first_seed..first_seed + pairs).map(|seed| tallied(compare(side, &pair_of(seed), seed, 6))).sum()
}

/// The repository's top, where programs, examples and the script stand.
pub fn top() -> std::path::PathBuf {
    std::path::Path::new(env!("CARGO_MANIFEST_DIR")).parent().expect("the tests stand in the repository").to_path_buf()
}

/// The theses' scenarios; THESES names another copy of the folder.
pub fn theses() -> std::path::PathBuf {
    std::env::var("THESES").map_or_else(|_| top().join("examples/theses"), Into::into)
}

/// What a program wrote to its standard output.
pub fn said(output: &std::process::Output) -> String {
    String::from_utf8_lossy(&output.stdout).into_owned()
}

/// An empty folder of this name, below the tests' target folder.
pub fn scratch(name: &str) -> std::path::PathBuf {
    let folder = std::path::Path::new(env!("CARGO_TARGET_TMPDIR")).join(name);
    let _ = std::fs::remove_dir_all(&folder);
    std::fs::create_dir_all(&folder).expect("a folder is made");
    folder
}

/// Asks until there is an answer; what it waits for comes soon, or never.
pub fn until<T>(what: &str, mut ask: impl FnMut() -> Option<T>) -> T {
    for _ in 0..6000 {
        if let Some(answer) = ask() {
            return answer;
        }
        std::thread::sleep(std::time::Duration::from_millis(5));
    }
    panic!("waited in vain: {what}")
}

/// 4,000 lines, the last ones a scan, an injection and a scan: what number 1 of the largest sheet matches.
pub fn largest_log() -> Vec<u8> {
    let mut lines: Vec<(u32, u32)> = (1..=4000).map(|line| (line, 2)).collect();
    lines[3997..].copy_from_slice(&[(3998, 3), (3999, 1), (4000, 3)]);
    log_of(&lines).text()
}

/// An empty folder that every user can reach, wherever the repository is; it goes with its owner.
pub struct Public(pub std::path::PathBuf);

impl Public {
    pub fn new(name: &str) -> Public {
        let folder = std::path::PathBuf::from(format!("/tmp/satskhubo-{name}-{}", std::process::id()));
        std::fs::create_dir(&folder).expect("a folder is made");
        std::fs::set_permissions(&folder, std::os::unix::fs::PermissionsExt::from_mode(0o755)).expect("its mode is set");
        Public(folder)
    }
}

impl Drop for Public {
    fn drop(&mut self) {
        let _ = std::fs::remove_dir_all(&self.0);
    }
}

extern "C" {
    fn geteuid() -> u32;
}

/// The program as a user who may write nowhere that it matters: as nobody, where the tests are root's.
pub fn as_nobody(program: &std::path::Path) -> std::process::Command {
    if unsafe { geteuid() } != 0 {
        return std::process::Command::new(program);
    }
    let mut command = std::process::Command::new("setpriv");
    command.args(["--reuid=65534", "--regid=65534", "--clear-groups"]).arg(program);
    command
}
