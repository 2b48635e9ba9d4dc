//! What the pages show is what the program says: every block that begins with `$ ./satskhubo`, and every refusal is among them.
mod common;
use common::program::run;
use common::top;
use std::fs;

/// Each command line of a page with the lines below it; standard error is what begins with the program's name.
fn shown(page: &str) -> Vec<(String, String)> {
    let text = fs::read_to_string(top().join(page)).unwrap();
    let mut blocks: Vec<(String, String)> = Vec::new();
    let mut inside = false;
    for line in text.lines() {
        let indented = line.strip_prefix("    ");
        match indented.map(|line| (line, line.strip_prefix("$ ./satskhubo "))) {
            Some((_, Some(words))) => blocks.push((words.to_string(), String::new())),
            Some((answer, None)) if inside => blocks.last_mut().unwrap().1 += &format!("{answer}\n"),
            _ => {}
        }
        inside = indented.is_some_and(|line| inside || line.starts_with("$ ./satskhubo "));
    }
    blocks
}

fn says_what_is_shown(page: &str) -> Vec<String> {
    let blocks = shown(page);
    for (words, answer) in &blocks {
        let said = run(&words.split(' ').collect::<Vec<_>>());
        let (err, out): (Vec<&str>, Vec<&str>) = answer.split_inclusive('\n').partition(|line| line.starts_with("satskhubo: "));
        assert_eq!((said.out, said.err), (out.concat(), err.concat()), "{page}: {words}");
    }
    blocks.into_iter().map(|(_, answer)| answer).collect()
}

#[test]
fn sheets_md_shows_what_the_program_says() {
    let answers = says_what_is_shown("docs/SHEETS.md");
    assert!(answers.len() > 20, "{} blocks", answers.len());
    for number in (1..=10).chain(21..=27).chain([31]) {
        let refusal = format!("refused {number}: ");
        assert!(answers.iter().any(|answer| answer.starts_with(&refusal)), "refusal {number} is not shown");
    }
}

#[test]
fn the_other_pages_show_what_the_program_says() {
    for page in ["README.md", "docs/HOSTS.md", "docs/CONTRIBUTING.md", "examples/README.md"] {
        says_what_is_shown(page);
    }
}

/// The man page and the help speak of the same commands and options.
#[test]
fn the_man_page_has_every_command_and_option() {
    let page = fs::read_to_string(top().join("docs/satskhubo.1")).unwrap();
    let (_, help) = run(&["--help"]).answer();
    let words = help.split(|c: char| c.is_whitespace() || c == ',' || c == ';');
    let options: Vec<&str> = words.filter(|word| word.starts_with("--") && word.len() > 2).collect();
    assert!(options.len() >= 5, "{help}");
    for option in options {
        let named = format!("Fl -{}", option.trim_start_matches("--"));
        assert!(page.contains(&named) || page.contains(&format!("| -{}", &option[1..])), "{option}");
    }
    for command in ["check", "search", "antiscenarios", "explain"] {
        assert!(page.contains(&format!(".Cm {command}\n")) && help.contains(&format!("satskhubo {command} ")), "{command}");
    }
    let formatted =
        std::process::Command::new("groff").args(["-mdoc", "-Tascii", "-ww", "docs/satskhubo.1"]).current_dir(top()).output();
    if let Ok(output) = formatted {
        assert!(output.status.success() && output.stderr.is_empty(), "{}", String::from_utf8_lossy(&output.stderr));
    }
}
