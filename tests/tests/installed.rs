//! What install.sh puts below a folder is enough: the program, the header with the archive, and the man page, without the repository.
mod common;
use common::program::{program, run, KEPT, LOG, SHEET};
use common::{said, scratch, top};
use std::fs;
use std::process::Command;

#[test]
fn an_installed_program_needs_nothing_else() {
    program();
    let room = scratch("installed");
    let prefix = room.join("a prefix");
    let output = Command::new("sh").arg(top().join("install.sh")).arg(&prefix).output().unwrap();
    assert!(output.status.success(), "{output:?}");
    let put = ["bin/satskhubo", "include/satskhubo.h", "lib/libbench.a", "share/man/man1/satskhubo.1"];
    let named = put.map(|file| format!("{}\n", prefix.join(file).display())).concat();
    assert_eq!(said(&output), run(&["--version"]).answer().1 + &named);
    for (name, from) in [("sheet", SHEET), ("log", LOG), ("kept", KEPT)] {
        fs::copy(top().join(from), room.join(name)).unwrap();
    }
    // No environment, no repository below the working folder, and nothing of it opened.
    let run = |words: &[&str]| Command::new(prefix.join(put[0])).args(words).env_clear().current_dir(&room).output().unwrap();
    let checked = run(&["check", "--plain", "sheet", "log"]);
    assert_eq!((checked.status.code(), said(&checked).as_str()), (Some(1), "  0  1\n    3\n   3\n"));
    let libraries = said(&Command::new("ldd").arg(prefix.join(put[0])).output().unwrap());
    assert!(!libraries.contains(&top().display().to_string()) && !libraries.contains("not found"), "{libraries}");
    let host = Command::new("gcc")
        .args(["-Wall", "-Werror", "-I"])
        .arg(prefix.join("include"))
        .arg(top().join("examples/host/host.c"))
        .arg("-L")
        .arg(prefix.join("lib"))
        .args(["-lbench", "-o"])
        .arg(room.join("host"))
        .output()
        .unwrap();
    assert!(host.status.success(), "{}", String::from_utf8_lossy(&host.stderr));
    let host = Command::new(room.join("host")).args(["sheet", "kept"]).current_dir(&room).output().unwrap();
    assert_eq!(said(&host), "holds\n");
}
