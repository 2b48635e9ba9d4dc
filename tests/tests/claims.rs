//! docs/CLAIMS.md names only what is there (must-fail edits, files of definitions and proofs and the names in them, functions, tests),
//! and it names every must-fail edit.
mod common;
use common::top;
use std::fs;

fn claims() -> String {
    fs::read_to_string(top().join("docs/CLAIMS.md")).expect("docs/CLAIMS.md is there")
}

fn names_in(folder: &str) -> Vec<String> {
    let entries = fs::read_dir(top().join(folder)).into_iter().flatten();
    entries.map(|entry| entry.unwrap().file_name().into_string().unwrap()).collect()
}

fn crates() -> Vec<String> {
    names_in("crates")
}

/// The words between backquotes.
fn quoted(text: &str) -> Vec<&str> {
    text.split('`').skip(1).step_by(2).collect()
}

/// Whether `CRATE/NAME` is an edit, `CRATE/specs/File.name` or `CRATE/proofs/File.name` a definition or theorem, or the path is there.
fn stands(word: &str) -> bool {
    let path = top().join("crates").join(word);
    if path.exists() || top().join(word).exists() {
        return true;
    }
    let parts: Vec<&str> = word.split('/').collect();
    match parts[..] {
        [name, edit] => top().join(format!("crates/{name}/must-fail/{edit}.edit")).exists(),
        [name, room, law] => {
            let (file, law) = law.split_once('.').unwrap_or((law, ""));
            fs::read_to_string(top().join(format!("crates/{name}/{room}/{file}.antt"))).is_ok_and(|text| text.contains(law))
        }
        _ => false,
    }
}

/// Whether a source declares a function, a type or a constant of this name.
fn declares(source: &str, name: &str) -> bool {
    let declared = |keyword: &str| {
        source
            .split(&format!("{keyword} {name}"))
            .skip(1)
            .any(|rest| !rest.starts_with(|c: char| c.is_alphanumeric() || c == '_'))
    };
    ["fn", "struct", "enum", "const"].into_iter().any(declared)
}

/// Whether `CRATE::NAME` is declared in the crate's sources.
fn is_declared(name: &str, declared: &str) -> bool {
    let folder = format!("crates/{name}/src");
    names_in(&folder).iter().any(|file| declares(&fs::read_to_string(top().join(&folder).join(file)).unwrap(), declared))
}

/// The tests of a table's row: bare words behind the last semicolon of its last cell.
fn tests_of(row: &str) -> Vec<&str> {
    let cell = row.trim_end().trim_end_matches('|').rsplit('|').next().unwrap_or("");
    let Some((_, behind)) = cell.rsplit_once(';') else { return Vec::new() };
    behind.split(',').map(|word| bare(word.trim())).collect::<Option<Vec<&str>>>().unwrap_or_default()
}

/// A word in backquotes that is nothing but a name.
fn bare(word: &str) -> Option<&str> {
    let name = word.strip_prefix('`')?.strip_suffix('`')?;
    name.chars().all(|c| c.is_lowercase() || c == '_').then_some(name)
}

#[test]
fn claims_name_what_is_there() {
    let (text, crates) = (claims(), crates());
    let rooms = ["crates", "tests", "docs", "include", "examples"];
    let named = |word: &&str| {
        let first = word.split_once('/').map(|(first, _)| first);
        first.is_some_and(|first| rooms.contains(&first) || crates.iter().any(|name| name == first))
    };
    let words: Vec<&str> = quoted(&text).into_iter().filter(named).filter(|word| *word != "tests/tests/NAME.rs").collect();
    assert!(words.len() > 50, "{} names", words.len());
    let missing: Vec<&str> = words.into_iter().filter(|word| !stands(word)).collect();
    assert!(missing.is_empty(), "docs/CLAIMS.md names what is not there: {missing:?}");
}

#[test]
fn claims_name_functions_that_are_declared() {
    let (text, crates) = (claims(), crates());
    let parted = quoted(&text).into_iter().filter_map(|word| word.split_once("::"));
    let functions: Vec<(&str, &str)> = parted.filter(|(first, _)| crates.iter().any(|name| name == first)).collect();
    assert!(functions.len() > 20, "{} functions", functions.len());
    let missing: Vec<&(&str, &str)> = functions.iter().filter(|(name, declared)| !is_declared(name, declared)).collect();
    assert!(missing.is_empty(), "docs/CLAIMS.md names functions that no source declares: {missing:?}");
}

#[test]
fn claims_name_tests_that_are_there() {
    let text = claims();
    let tests: Vec<&str> = text.lines().filter(|line| line.starts_with('|')).flat_map(tests_of).collect();
    assert!(tests.len() >= 8, "{tests:?}");
    let missing: Vec<&&str> = tests.iter().filter(|name| !top().join(format!("tests/tests/{name}.rs")).exists()).collect();
    assert!(missing.is_empty(), "docs/CLAIMS.md names tests that are not there: {missing:?}");
}

/// A file of definitions says in its first line whether it must be believed; CLAIMS lists those that must, with their lines.
#[test]
fn claims_list_what_must_be_believed() {
    let text = claims();
    let (mut files, mut lines) = (0, 0);
    for name in crates() {
        for file in names_in(&format!("crates/{name}/specs")).into_iter().filter(|file| file != "Lib.antt") {
            let path = format!("{name}/specs/{file}");
            let source = fs::read_to_string(top().join("crates").join(&path)).unwrap();
            let first = source.lines().next().unwrap_or("");
            if first.ends_with("Inner vocabulary.") {
                continue;
            }
            assert!(first.ends_with("What must be believed."), "{path}: {first}");
            let count = source.lines().count();
            assert!(text.contains(&format!("`{path}` {count}")), "docs/CLAIMS.md does not list {path} with {count} lines");
            (files, lines) = (files + 1, lines + count);
        }
    }
    assert!(text.contains(&format!("Together {files} files and {lines} lines.")), "{files} files, {lines} lines");
}

#[test]
fn claims_name_every_must_fail_edit() {
    let text = claims();
    let words = quoted(&text);
    let edits = crates().into_iter().flat_map(|name| {
        let edits = names_in(&format!("crates/{name}/must-fail"));
        edits.into_iter().filter_map(move |file| file.strip_suffix(".edit").map(|edit| format!("{name}/{edit}")))
    });
    let mut edits: Vec<String> = edits.collect();
    edits.sort();
    assert!(edits.len() > 40, "{} edits", edits.len());
    let missing: Vec<&String> = edits.iter().filter(|edit| !words.contains(&edit.as_str())).collect();
    assert!(missing.is_empty(), "docs/CLAIMS.md does not name these must-fail edits: {missing:?}");
}
