//! Tells the program of which commit it was built and with which kit its library was proved.
use std::path::{Path, PathBuf};
use std::process::Command;

/// What a command prints, without the end of its line; none where there is no such command or it fails.
fn said(program: &str, words: &[&str], folder: &Path) -> Option<String> {
    let output = Command::new(program).args(words).current_dir(folder).output().ok()?;
    let text = String::from_utf8(output.stdout).ok()?;
    output.status.success().then(|| text.trim_end().to_string())
}

/// The commit of this repository, and not of one around it.
fn commit(top: &Path) -> Option<String> {
    let below_top = said("git", &["rev-parse", "--show-prefix"], top)?;
    if !below_top.is_empty() {
        return None;
    }
    let commit = said("git", &["rev-parse", "--short", "HEAD"], top)?;
    let changes = said("git", &["--no-optional-locks", "status", "--porcelain", "--untracked-files=no"], top)?;
    Some(if changes.is_empty() { commit } else { format!("{commit}, changed") })
}

/// The version is looked up again after a commit, a checkout, and a change of what the program is made of.
fn watch(top: &Path) {
    for file in ["HEAD", "logs/HEAD", "index"] {
        if let Some(path) = said("git", &["rev-parse", "--git-path", file], top) {
            println!("cargo:rerun-if-changed={}", top.join(path).display());
        }
    }
    for folder in ["cli/src", "cli/build.rs", "interface/src", "target/staticlib/libbench.a"] {
        println!("cargo:rerun-if-changed={}", top.join(folder).display());
    }
}

fn main() {
    let top = PathBuf::from(std::env::var("CARGO_MANIFEST_DIR").unwrap()).join("..");
    let commit = commit(&top).unwrap_or_else(|| "unknown".to_string());
    let kit = said("rt", &["version"], &top).unwrap_or_else(|| "kit unknown".to_string());
    println!("cargo:rustc-env=SATSKHUBO_COMMIT={commit}");
    println!("cargo:rustc-env=SATSKHUBO_KIT={}", kit.lines().next().unwrap_or("kit unknown"));
    watch(&top);
}
