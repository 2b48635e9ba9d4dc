//! ./satskhubo and build.sh in a small tree of their own, where `rt` and `cargo` are stand-ins that say when they are called.
mod common;
use common::{as_nobody, said, top, until, Public};
use std::ffi::OsStr;
use std::fs;
use std::os::unix::fs::{symlink, PermissionsExt};
use std::os::unix::process::{CommandExt, ExitStatusExt};
use std::path::{Path, PathBuf};
use std::process::{Child, Command, Output, Stdio};

/// rt: takes note of the call, leaves a temporary file, runs the file `meanwhile` if there is one, says what rt says, keeps something
/// beside the sources, and writes the archive.
const RT: &str = r#"#!/bin/sh
top=$PWD/../..
echo "rt $* in ${PWD##*/}" >>"$top/calls"
mktemp >/dev/null
cd "$top"
if [ -e meanwhile ]; then . ./meanwhile; fi
mkdir -p crates/columns/out crates/bench/out
echo kept >crates/columns/out/kept
echo 'rt: columns: begins with what a check kept elsewhere' >&2
echo 'crate columns: modules loaded=0 checked=33'
echo 'logic=proved functions=1 sum=1'
echo 'fn sheet::parse: proved'
echo 'crate sheet: modules loaded=0 checked=1'
echo 'logic=proved functions=2 sum=1'
echo archive >crates/bench/out/libbench.a
echo 'crate bench: modules loaded=0 checked=1'
echo 'logic=proved functions=3 target=here sum=1'
"#;

/// cargo: takes note, and writes a program that says its version, or its arguments, and ends with 7.
const CARGO: &str = r#"#!/bin/sh
echo "cargo $* ${BENCH_ARCHIVE-}${CARGO_TARGET_DIR-}" >>calls
mktemp >/dev/null
if [ -e meanwhile_cargo ]; then . ./meanwhile_cargo; fi
mkdir -p cli/target/release
printf '#!/bin/sh\nif [ "$*" = --version ]; then echo version; exit; fi\nfor word; do printf "[%%s]" "$word"; done\nexit 7\n' >cli/target/release/satskhubo
chmod +x cli/target/release/satskhubo
"#;

const PROGRESS: &str = "satskhubo: proving and building the library: this is done once, and takes a while
proved 1 of 3: columns
proved 2 of 3: sheet
proved 3 of 3: bench
satskhubo: building the program
";

const RT_CALL: &str = "rt lib in bench\n";
const CARGO_CALL: &str = "cargo build --release --offline --manifest-path cli/Cargo.toml --target-dir cli/target \n";

/// The tree goes with its owner, and stands outside the repository, where rt would take its crates for lost files.
struct Tree {
    room: Public,
    top: PathBuf,
    tools: PathBuf,
}

fn write(path: &Path, text: &str, mode: u32) {
    fs::create_dir_all(path.parent().unwrap()).unwrap();
    fs::write(path, text).unwrap();
    fs::set_permissions(path, fs::Permissions::from_mode(mode)).unwrap();
}

impl Tree {
    /// A tree with nothing built, in a folder with a blank and a line feed in its name.
    fn new(name: &str) -> Tree {
        let room = Public::new(name);
        let tree = Tree { top: room.0.join("a tree\n"), tools: room.0.join("tools"), room };
        for file in ["satskhubo", "build.sh", "install.sh", "include/satskhubo.h", "docs/satskhubo.1"] {
            write(&tree.path(file), &fs::read_to_string(top().join(file)).unwrap(), 0o755);
        }
        write(
            &tree.path("crates.txt"),
            "# crates\ncolumns:\nsheet: columns json\nother: sheet\nbench staticlib: columns sheet\n",
            0o644,
        );
        for file in [
            "crates/bench/src/lib.rt",
            "crates/columns/src/lib.rt",
            "crates/sheet/src/lib.rt",
            "crates/sheet/specs/Lib.antt",
            "cli/Cargo.toml",
            "cli/src/main.rs",
            "interface/src/lib.rs",
        ] {
            write(&tree.path(file), "source\n", 0o644);
        }
        write(&tree.tools.join("rt"), RT, 0o755);
        write(&tree.tools.join("cargo"), CARGO, 0o755);
        tree
    }

    fn built(name: &str) -> Tree {
        let tree = Tree::new(name);
        tree.run_and_expect(7);
        tree.calls();
        tree
    }

    fn path(&self, name: &str) -> PathBuf {
        self.top.join(name)
    }

    fn with_tools(&self, program: impl AsRef<OsStr>) -> Command {
        let mut command = Command::new(program);
        command.env("PATH", format!("{}:{}", self.tools.display(), std::env::var("PATH").unwrap())).stdin(Stdio::null());
        command
    }

    fn command(&self) -> Command {
        self.with_tools(self.path("satskhubo"))
    }

    fn install(&self, prefix: &str) -> Output {
        let mut command = self.with_tools("sh");
        command.arg(self.path("install.sh")).arg(prefix).current_dir(self.top.parent().unwrap());
        command.output().expect("install.sh runs")
    }

    fn run(&self) -> Output {
        self.command().output().expect("the launcher runs")
    }

    fn run_and_expect(&self, status: i32) -> String {
        let output = self.run();
        let heard = String::from_utf8_lossy(&output.stderr).into_owned();
        assert_eq!(output.status.code(), Some(status), "{heard}");
        heard
    }

    /// The calls of rt and cargo since the last time that was asked.
    fn calls(&self) -> String {
        let calls = fs::read_to_string(self.path("calls")).unwrap_or_default();
        let _ = fs::remove_file(self.path("calls"));
        calls
    }

    /// Has the stand-in for rt say its process number and wait until it is let go, with a child that ignores Ctrl-C.
    fn hold(&self) {
        let meanwhile =
            "sh -c 'trap \"\" INT; while [ -e meanwhile ] && [ ! -e go ]; do sleep 0.02; done' & echo $! >held; wait\n";
        write(&self.path("meanwhile"), meanwhile, 0o644);
    }

    /// A run in a group of its own, which Ctrl-C is sent to as by a terminal; what it says on standard error goes to a file.
    /// The tests may themselves ignore Ctrl-C (nohup, a job in the background); the run does not.
    fn start(&self, heard: &str) -> Child {
        let heard = fs::File::create(self.tools.join(heard)).unwrap();
        let mut command = self.with_tools("env");
        command.arg("--default-signal=INT,TERM,HUP").arg(self.path("satskhubo"));
        command.stdout(Stdio::piped()).stderr(heard).process_group(0).spawn().expect("the launcher starts")
    }

    fn heard(&self, heard: &str) -> String {
        fs::read_to_string(self.tools.join(heard)).unwrap()
    }

    fn held(&self) -> String {
        until("rt is called", || fs::read_to_string(self.path("held")).ok().filter(|text| text.ends_with('\n')))
    }

    fn files(&self) -> String {
        let list = Command::new("find").arg(".").args(["!", "-type", "d"]).current_dir(&self.top).output().unwrap();
        let mut files: Vec<String> = said(&list).lines().map(String::from).collect();
        files.sort();
        files.join("\n")
    }
}

fn shell(text: &str, folder: &Path) -> Output {
    Command::new("sh").arg("-c").arg(text).current_dir(folder).output().expect("sh runs")
}

#[test]
fn a_first_run_builds_and_hands_over() {
    let tree = Tree::new("launcher-first");
    let words = ["check", "--", "-a log", "two\nlines", "*", ""];
    let before = tree.files();
    let output =
        tree.command().args(words).env("BENCH_ARCHIVE", "/elsewhere").env("CARGO_TARGET_DIR", "/elsewhere").output().unwrap();
    assert_eq!(String::from_utf8_lossy(&output.stderr), PROGRESS);
    assert_eq!((output.status.code(), said(&output).as_str()), (Some(7), "[check][--][-a log][two\nlines][*][]"));
    assert_eq!(tree.calls(), format!("{RT_CALL}{CARGO_CALL}"));
    let files = tree.files();
    let made: Vec<&str> = files.lines().filter(|file| !before.lines().any(|old| old == *file)).collect();
    let due = [
        "./cli/target/program.built",
        "./cli/target/release/satskhubo",
        "./crates/bench/out/libbench.a",
        "./crates/columns/out/kept",
        "./target/archive.built",
        "./target/build.lock",
        "./target/build.log",
        "./target/staticlib/libbench.a",
    ];
    assert_eq!(made, due);
    assert!(fs::read_to_string(tree.path("target/build.log")).unwrap().contains("fn sheet::parse: proved\n"));
    let verdict = fs::read_to_string(tree.path("target/archive.built")).unwrap();
    assert_eq!(verdict.lines().next(), Some("logic=proved functions=3 target=here sum=1"));
}

#[test]
fn closed_descriptors_are_in_nobodys_way() {
    for closed in ["2>&-", "<&-", "<&- 2>&-", "2>/dev/full"] {
        let tree = Tree::new("launcher-closed");
        // Once to build, once more to hand over alone.
        for calls in [format!("{RT_CALL}{CARGO_CALL}"), String::new()] {
            let path = format!("{}:{}", tree.tools.display(), std::env::var("PATH").unwrap());
            let shell = Command::new("sh")
                .args(["-c", &format!("./satskhubo word {closed}")])
                .env("PATH", path)
                .current_dir(&tree.top)
                .output()
                .unwrap();
            assert_eq!((shell.status.code(), said(&shell).as_str()), (Some(7), "[word]"), "{closed}: {shell:?}");
            assert_eq!(tree.calls(), calls, "{closed}");
        }
    }
}

#[test]
fn what_is_up_to_date_is_not_built_again() {
    let tree = Tree::built("launcher-again");
    write(&tree.path("README.md"), "words\n", 0o644);
    // What rt keeps beside the sources is none of them.
    write(&tree.path("crates/sheet/out/kept"), "kept\n", 0o644);
    fs::remove_dir_all(tree.path("crates/columns/out")).unwrap();
    assert_eq!(tree.run_and_expect(7), "");
    assert_eq!(tree.calls(), "");
}

#[test]
fn older_than_its_sources_is_built_again() {
    let tree = Tree::built("launcher-stale");
    let both = format!("{RT_CALL}{CARGO_CALL}");
    let changes = [
        ("echo changed >crates/sheet/src/lib.rt", both.as_str()),
        ("echo new >crates/sheet/src/new.rt", &both),
        ("rm crates/sheet/src/new.rt", &both),
        ("mkdir crates/columns/specs", &both),
        ("rm -r crates/sheet/specs", &both),
        ("mkdir crates/more", &both),
        ("echo old >old; touch -t 200001010000 old; cp -p old crates/columns/src/lib.rt; rm old", &both),
        ("echo '# more' >>crates.txt", &both),
        ("rm target/staticlib/libbench.a", &both),
        ("echo changed >cli/src/main.rs", CARGO_CALL),
        ("rm cli/src/main.rs", CARGO_CALL),
        ("echo changed >interface/src/lib.rs", CARGO_CALL),
        ("echo other >target/staticlib/libbench.a", CARGO_CALL),
        ("rm cli/target/release/satskhubo", CARGO_CALL),
        ("rm -r cli/target", CARGO_CALL),
        ("rm -r target", &both),
    ];
    for (change, calls) in changes {
        assert!(shell(change, &tree.top).status.success(), "{change}");
        tree.run_and_expect(7);
        assert_eq!(tree.calls(), calls, "{change}");
        assert_eq!(tree.run_and_expect(7), "", "{change}");
        assert_eq!(tree.calls(), "", "{change}");
    }
}

#[test]
fn a_source_changed_during_the_build_is_built_the_next_time() {
    let tree = Tree::new("launcher-meanwhile");
    let change = |file: &str| format!("until [ -n \"$(find {file} -cnewer target/build.lock)\" ]; do touch {file}; done\n");
    write(&tree.path("meanwhile"), &change("crates/sheet/src/lib.rt"), 0o644);
    write(&tree.path("meanwhile_cargo"), &change("cli/src/main.rs"), 0o644);
    tree.run_and_expect(7);
    assert_eq!(tree.calls(), format!("{RT_CALL}{CARGO_CALL}"));
    for file in ["meanwhile", "meanwhile_cargo"] {
        fs::remove_file(tree.path(file)).unwrap();
    }
    tree.run_and_expect(7);
    assert_eq!(tree.calls(), format!("{RT_CALL}{CARGO_CALL}"));
    assert_eq!(tree.run_and_expect(7), "");
}

#[test]
fn a_build_that_fails_ends_with_2_and_says_where_its_log_is() {
    for (file, called, part) in [("meanwhile", RT_CALL, "the library"), ("meanwhile_cargo", CARGO_CALL, "the program")] {
        let tree = Tree::built("launcher-failed");
        write(&tree.path("crates/sheet/src/lib.rt"), "wrong\n", 0o644);
        write(&tree.path(file), "echo why; exit 1\n", 0o644);
        // The program of the last build must not speak for the new sources, now or later.
        for _ in 0..2 {
            let output = tree.run();
            let heard = String::from_utf8_lossy(&output.stderr).into_owned();
            assert_eq!((output.status.code(), said(&output).as_str()), (Some(2), ""), "{heard}");
            let log = tree.path("target/build.log");
            assert!(heard.ends_with(&format!("satskhubo: {part} was not built: see {}\n", log.display())), "{heard}");
            assert!(fs::read_to_string(log).unwrap().contains("why\n"));
            assert!(tree.calls().ends_with(called));
        }
        fs::remove_file(tree.path(file)).unwrap();
        tree.run_and_expect(7);
    }
}

#[test]
fn without_rt_or_cargo_it_says_where_they_come_from() {
    let tree = Tree::new("launcher-no-tools");
    for tool in ["sh", "readlink", "find", "awk", "mkdir", "touch", "rm", "cp", "mv", "flock", "setsid", "chmod", "mktemp"] {
        let found = said(&shell(&format!("command -v {tool}"), &tree.top));
        symlink(found.trim_end(), tree.tools.join(tool)).unwrap();
    }
    let run = || tree.command().env("PATH", &tree.tools).output().unwrap();
    for (tool, words) in [
        ("cargo", "cargo, which builds the program, is not on this machine"),
        ("rt", "It is part of the Rattle kit (/opt/rattle"),
    ] {
        fs::remove_file(tree.tools.join(tool)).unwrap();
        let _ = fs::remove_dir_all(tree.path("target"));
        let output = run();
        let heard = String::from_utf8_lossy(&output.stderr).into_owned();
        assert_eq!(output.status.code(), Some(2), "{heard}");
        assert!(heard.contains(words), "{heard}");
    }
}

#[test]
fn symlinks_lead_to_the_folder() {
    let tree = Tree::built("launcher-symlinks");
    let elsewhere = tree.room.0.join("elsewhere");
    fs::create_dir_all(elsewhere.join("a bin")).unwrap();
    symlink(tree.path("satskhubo"), elsewhere.join("absolute")).unwrap();
    symlink("../../a tree\n/satskhubo", elsewhere.join("a bin/relative one")).unwrap();
    symlink("a bin/relative one", elsewhere.join("chained")).unwrap();
    symlink("a bin", elsewhere.join("bin")).unwrap();
    symlink("../chained", elsewhere.join("a bin/satskhubo-in-path")).unwrap();
    for link in ["./absolute", "a bin/relative one", "./chained", "bin/relative one", "bin/satskhubo-in-path"] {
        let output = Command::new(link).arg("word").current_dir(&elsewhere).output().unwrap();
        assert_eq!((output.status.code(), said(&output).as_str()), (Some(7), "[word]"), "{link}");
    }
    let through_path = shell("PATH=\"$PWD/bin:$PATH\" satskhubo-in-path word; CDPATH=/ sh absolute two", &elsewhere);
    assert_eq!(said(&through_path), "[word][two]");
    assert_eq!(tree.calls(), "");
}

/// Whether the process is gone, or is not because nobody has asked for its status yet.
fn ended(process: &str) -> bool {
    fs::read_to_string(format!("/proc/{process}/stat")).map_or(true, |stat| stat.contains(") Z "))
}

#[test]
fn a_tree_that_cannot_be_written() {
    let tree = Tree::new("launcher-unwritable");
    let run_as_nobody = || {
        let path = tree.command().get_envs().find_map(|(name, value)| value.filter(|_| name == "PATH")).unwrap().to_os_string();
        as_nobody(&tree.path("satskhubo")).arg("word").env("PATH", path).output().unwrap()
    };
    let lock = |mode: &str| assert!(shell(&format!("chmod -R {mode} ."), &tree.top).status.success());
    tree.run_and_expect(7);
    // A change of mode is a change: built once more, so that nothing is newer. Other users can read.
    lock("a+rX");
    tree.run_and_expect(7);
    fs::set_permissions(&tree.top, fs::Permissions::from_mode(0o555)).unwrap();
    let output = run_as_nobody();
    assert_eq!((output.status.code(), said(&output).as_str()), (Some(7), "[word]"), "{output:?}");
    lock("a-w");
    let output = run_as_nobody();
    lock("u+w");
    let heard = String::from_utf8_lossy(&output.stderr).into_owned();
    assert_eq!((output.status.code(), said(&output).as_str()), (Some(2), ""), "{heard}");
    assert_eq!(heard, format!("satskhubo: the program must be built, and {} cannot be written\n", tree.top.display()));
}

#[test]
fn a_second_first_run_waits_for_the_first() {
    let tree = Tree::new("launcher-two");
    tree.hold();
    let runs = [tree.start("one"), tree.start("two")];
    tree.held();
    const WAITING: &str = "satskhubo: waiting for another build\n";
    until("one run waits", || ["one", "two"].iter().find(|run| tree.heard(run) == WAITING));
    write(&tree.path("go"), "", 0o644);
    let ended = runs.map(|run| run.wait_with_output().unwrap().status.code());
    assert_eq!(ended, [Some(7), Some(7)]);
    let mut heard = ["one", "two"].map(|run| tree.heard(run));
    heard.sort();
    assert_eq!(heard, [PROGRESS, WAITING]);
    assert_eq!(tree.calls(), format!("{RT_CALL}{CARGO_CALL}"));
}

#[test]
fn ctrl_c_ends_the_whole_build() {
    for (signal, number) in [("INT", 2), ("TERM", 15), ("HUP", 1)] {
        let tree = Tree::built("launcher-ended");
        let before = tree.files();
        write(&tree.path("crates/sheet/src/lib.rt"), "changed\n", 0o644);
        tree.hold();
        let run = tree.start("ended");
        let child = tree.held();
        assert!(shell(&format!("kill -s {signal} -- -{}", run.id()), &tree.top).status.success());
        let output = run.wait_with_output().unwrap();
        assert_eq!(output.status.signal(), Some(number), "{output:?}");
        until("what rt had started ends", || ended(child.trim_end()).then_some(()));
        until("the lock is free", || shell("flock -n target/build.lock true", &tree.top).status.success().then_some(()));
        assert_eq!(tree.heard("ended").lines().count(), 1, "nothing is said but that it is built: {}", tree.heard("ended"));
        for file in ["meanwhile", "held", "calls"] {
            fs::remove_file(tree.path(file)).unwrap();
        }
        // What says that the archive is built is gone, and nothing has come.
        assert_eq!(tree.files(), before.replace("./target/archive.built\n", ""));
        tree.run_and_expect(7);
        assert_eq!(tree.calls(), format!("{RT_CALL}{CARGO_CALL}"));
    }
}

#[test]
fn install_builds_and_puts_four_files() {
    let tree = Tree::new("install");
    let output = tree.install("a prefix");
    assert_eq!((output.status.code(), String::from_utf8_lossy(&output.stderr).as_ref()), (Some(0), PROGRESS));
    let put = ["bin/satskhubo", "include/satskhubo.h", "lib/libbench.a", "share/man/man1/satskhubo.1"];
    assert_eq!(said(&output), format!("version\n{}\n", put.map(|file| format!("a prefix/{file}")).join("\n")));
    let prefix = tree.top.parent().unwrap().join("a prefix");
    let there = said(&shell("find . ! -type d | LC_ALL=C sort", &prefix));
    assert_eq!(there, put.map(|file| format!("./{file}\n")).concat());
    for (file, from, mode) in [
        (put[0], "cli/target/release/satskhubo", 0o755),
        (put[1], "include/satskhubo.h", 0o644),
        (put[2], "target/staticlib/libbench.a", 0o644),
        (put[3], "docs/satskhubo.1", 0o644),
    ] {
        assert_eq!(fs::read(prefix.join(file)).unwrap(), fs::read(tree.path(from)).unwrap(), "{file}");
        assert_eq!(fs::metadata(prefix.join(file)).unwrap().permissions().mode() & 0o777, mode, "{file}");
    }
    // Over an older one, without building again.
    write(&prefix.join(put[0]), "older", 0o600);
    tree.calls();
    assert!(tree.install("a prefix").status.success());
    assert_eq!(fs::metadata(prefix.join(put[0])).unwrap().permissions().mode() & 0o777, 0o755);
    assert_eq!(tree.calls(), "");
}

#[test]
fn install_that_cannot_ends_with_2_and_words() {
    let tree = Tree::new("install-fails");
    write(&tree.tools.join("../taken/bin"), "a file", 0o644);
    for (prefix, words) in [("", "usage: "), ("--help", "usage: "), ("taken", "taken/bin cannot be made")] {
        let output = tree.install(prefix);
        let heard = String::from_utf8_lossy(&output.stderr).into_owned();
        assert_eq!(output.status.code(), Some(2), "{heard}");
        assert!(heard.contains("install.sh: ") && heard.contains(words), "{heard}");
    }
    write(&tree.path("crates/sheet/src/lib.rt"), "changed\n", 0o644);
    write(&tree.path("meanwhile"), "exit 1\n", 0o644);
    let output = tree.install("prefix");
    let heard = String::from_utf8_lossy(&output.stderr).into_owned();
    assert_eq!((output.status.code(), said(&output).as_str()), (Some(2), ""), "{heard}");
    assert!(heard.ends_with("install.sh: the program was not built, and nothing is installed\n"), "{heard}");
    assert!(!tree.top.parent().unwrap().join("prefix").exists());
}
