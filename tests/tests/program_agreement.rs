//! The program against the other checker, on random sheets and many logs at once: exit status, document 01's columns, and JSON with its words.
mod common;
use common::program::{file, opened, plain_check, run, Said};
use common::words::{asked, found, remark, remarks, KINDS};
use common::{scratch, tell};
use satskhubo_tests::generate::pairs::large_pair_of;
use satskhubo_tests::generate::sheets::{self, sheet_s};
use satskhubo_tests::generate::{damage, logs, targeted, Pair};
use satskhubo_tests::json::{self, Json};
use satskhubo_tests::random::Random;
use satskhubo_tests::reference::antiscenario::antiscenario;
use satskhubo_tests::reference::blunder::Blunder;
use satskhubo_tests::reference::log::{self, Log};
use satskhubo_tests::reference::operations::{Opened, Verdict, MOST_POINTS};
use satskhubo_tests::reference::rows::points;
use satskhubo_tests::reference::sheet::{self, kind::*, Row};
use std::ops::RangeInclusive;
use std::path::Path;

/// Logs by name, in the order of their names: random ones, some damaged, and those made for each refusal.
fn many_logs(folder: &Path, seed: u64, count: usize) -> Vec<(String, Vec<u8>)> {
    let mut random = Random::new(seed);
    let is_short = |text: &Vec<u8>| log::read(text, Blunder::None).map_or(true, |log| log.n() <= 6);
    let mut texts: Vec<Vec<u8>> = targeted::logs().into_iter().map(|case| case.text).filter(is_short).collect();
    texts.extend((0..count).map(|_| {
        let mut text = logs::random(&mut random, 5).text();
        if random.one_in(6) {
            damage::damage(&mut random, &mut text, &damage::LOG);
        }
        text
    }));
    let named = texts.into_iter().enumerate();
    named.map(|(index, text)| (file(folder, &format!("log-{index:05}"), &text), text)).collect()
}

fn random_sheet(random: &mut Random, round: usize) -> Vec<u8> {
    let shape = [&sheets::SMALL, &sheets::MIDDLE, &sheets::SMALL, &sheets::LARGE][round % 4];
    let mut text = sheets::random(random, shape);
    // Mostly sheets that are accepted and have points.
    while text.starts_with(b"  0") || (!random.one_in(10) && sheet::read(&text, Blunder::None).is_err()) {
        text = sheets::random(random, shape);
    }
    text
}

fn worst(statuses: impl Iterator<Item = i32>) -> i32 {
    statuses.max().unwrap_or(0)
}

/// Positions in an object: with their lines in the file, ticks and events.
fn has_positions(object: &Json, log: &Log, positions: &[u32]) {
    let lines: Vec<u32> = positions.iter().map(|position| position + 1).collect();
    let ticks: Vec<u32> = positions.iter().map(|position| log.tick(*position)).collect();
    let events: Vec<u32> = positions.iter().map(|position| log.lines[*position as usize - 1].event).collect();
    let said = ["positions", "lines", "ticks", "events"].map(|name| object.get(name).numbers());
    assert_eq!(said, [positions.to_vec(), lines, ticks, events], "{object:?}");
}

/// The object of one log, whose sheet is accepted. Gives the kinds of the rows at fault whose words were compared.
fn says_the_verdict(object: &Json, opened: &Opened, words_too: bool) -> Vec<u32> {
    let mut kinds = Vec::new();
    let verdict = object.get("verdict").text();
    match opened.check() {
        Err(refusal) => {
            assert_eq!((verdict, object.get("refusal").number()), ("refused", refusal.number().into()), "{object:?}");
            assert_eq!(object.get("of").text(), "log", "{object:?}");
        }
        Ok(Verdict::Holds) => assert_eq!((verdict, object.get("refusal")), ("holds", &Json::Null), "{object:?}"),
        Ok(Verdict::Violated { placement, rows }) => {
            let (sheet, log) = (opened.sheet.as_ref().unwrap(), opened.log.as_ref().unwrap());
            assert_eq!((verdict, object.get("refusal")), ("violated", &Json::Null), "{object:?}");
            has_positions(object, log, &placement);
            let said = object.get("rows").list();
            assert_eq!(said.len(), rows.len(), "{object:?}");
            for ((index, number), said) in rows.iter().enumerate().zip(said) {
                let row = &sheet.rows[*number as usize - 1];
                let numbers = (said.get("consequent").number(), said.get("row").number());
                assert_eq!(numbers, (index as u64 + 1, u64::from(*number)), "{object:?}");
                assert_eq!((said.get("kind").text(), said.get("asked").text()), (KINDS[row.kind as usize], asked(row).as_str()));
                if words_too {
                    assert_eq!(said.get("found").text(), found(sheet, log, &placement, *number as usize), "{object:?}");
                    kinds.push(row.kind);
                }
            }
        }
    }
    kinds
}

/// Every log against one sheet, in one run for the columns and one for JSON.
fn checks_alike(sheet_name: &str, sheet: &[u8], folder: &str, logs: &[(String, Vec<u8>)], words_too: bool) -> Vec<u32> {
    let all: Vec<Opened> = logs.iter().map(|(_, log)| opened(sheet, log)).collect();
    let due: Vec<(i32, String)> = all.iter().map(plain_check).collect();
    let status = worst(due.iter().map(|(status, _)| *status));
    let remarks = all[0].sheet.as_ref().map_or(String::new(), |sheet| remarks(sheet_name, &sheet.rows));
    let [plain, in_json] = ["--plain", "--json"].map(|form| {
        let said = run(&["check", form, sheet_name, folder]);
        assert_eq!(said.err, remarks);
        (said.status, said.out)
    });
    assert_eq!((plain.0, in_json.0), (status, status));
    let objects = json::lines(&in_json.1);
    if let Err(fault) = &all[0].sheet {
        // A refused sheet is said once.
        assert_eq!(plain.1, format!("{:3}{:3}\n", fault.refusal.number(), 0));
        assert_eq!(objects.len(), 1, "{}", in_json.1);
        assert_eq!((objects[0].get("of").text(), objects[0].get("refusal").number()), ("sheet", fault.refusal.number().into()));
        return Vec::new();
    }
    assert!(plain.1 == due.iter().map(|(_, text)| text.as_str()).collect::<String>(), "{}", plain.1);
    assert_eq!(objects.len(), logs.len());
    let each = logs.iter().zip(&all).zip(&objects);
    each.flat_map(|(((name, _), opened), object)| {
        assert_eq!((object.get("file").text(), object.get("sheet").text()), (name.as_str(), sheet_name));
        says_the_verdict(object, opened, words_too)
    })
    .collect()
}

#[test]
fn random_sheets_on_many_logs() {
    let folder = scratch("agreement");
    let logs_folder = scratch("agreement/logs");
    let logs = many_logs(&logs_folder, 71, 400);
    let mut random = Random::new(72);
    let mut kinds = Vec::new();
    const SHEETS: usize = 80;
    for round in 0..SHEETS {
        let text = random_sheet(&mut random, round);
        let name = file(&folder, "a-sheet", &text);
        kinds.extend(checks_alike(&name, &text, &logs_folder.display().to_string(), &logs, round % 4 != 3));
    }
    kinds.sort();
    kinds.dedup();
    assert_eq!(kinds, [NEXT, LAST, BEFORE, APART, SAME, FREE, WITHIN, OUTSIDE, EVENT], "rows at fault of every kind");
    tell("program: checks", (2 * SHEETS * logs.len()) as u64);
}

/// Thousands in one run, with long logs among them.
#[test]
fn thousands_of_logs_at_once() {
    let folder = scratch("thousands");
    let mut logs = many_logs(&folder, 73, 3000);
    for n in [500, 1000, 4000] {
        let text = logs::mixed(n).text();
        logs.push((file(&folder, &format!("log-of-{n:04}"), &text), text));
    }
    let sheet = sheet_s();
    let name = file(&scratch("thousands-sheet"), "sheet", &sheet);
    checks_alike(&name, &sheet, &folder.display().to_string(), &logs, true);
    tell("program: thousands", 2 * logs.len() as u64);
}

/// The object of one number searched in one log.
fn says_the_search(object: &Json, opened: &Opened, number: u64) -> bool {
    let (sheet, log) = (opened.sheet.as_ref().unwrap(), opened.log.as_ref().unwrap());
    assert_eq!(object.get("number").number(), number);
    let matching = opened.search(number, MOST_POINTS).unwrap();
    assert_eq!(object.get("found"), &Json::Bool(matching.is_some()), "{object:?}");
    if let Some(positions) = &matching {
        assert_eq!(object.get("points").numbers(), points(&antiscenario(sheet, number)), "{object:?}");
        has_positions(object, log, positions);
    }
    matching.is_some()
}

/// All numbers of a sheet, or those from the first to the last, searched in each log.
fn searches_alike(sheet_name: &str, sheet: &[u8], logs: &[(String, Vec<u8>)], some: Option<RangeInclusive<u64>>) -> u64 {
    let all: Vec<Opened> = logs.iter().map(|(_, log)| opened(sheet, log)).collect();
    let numbers = some.clone().unwrap_or(1..=all[0].read_sheet().unwrap());
    let by_option = format!("--number={}-{}", numbers.start(), numbers.end());
    let mut words = vec!["search", "--json", sheet_name];
    words.extend(some.map(|_| by_option.as_str()));
    words.extend(logs.iter().map(|(name, _)| name.as_str()));
    let in_json = run(&words).answer();
    words[1] = "--plain";
    let plain = run(&words).answer();
    let (objects, mut next, mut columns, mut status) = (json::lines(&in_json.1), 0, String::new(), 0);
    for ((name, _), opened) in logs.iter().zip(&all) {
        if let Err(refusal) = opened.read_log() {
            let object = &objects[next];
            assert_eq!((object.get("file").text(), object.get("refusal").number()), (name.as_str(), refusal.number().into()));
            (next, status) = (next + 1, 2);
            columns += &format!("{:3}\n", refusal.number());
            continue;
        }
        for number in numbers.clone() {
            assert_eq!(objects[next].get("file").text(), name);
            let hit = says_the_search(&objects[next], opened, number);
            (next, status) = (next + 1, status.max(hit.into()));
            let positions = opened.search(number, MOST_POINTS).unwrap().unwrap_or_default();
            columns += &format!("{:3}{number:11}{:3}", 0, i32::from(hit));
            columns += &(positions.iter().map(|position| format!("{position:5}")).collect::<String>() + "\n");
        }
    }
    assert_eq!((objects.len(), in_json.0, plain.0), (next, status, status));
    assert_eq!(plain.1, columns);
    next as u64
}

/// A row in an object, by its fields and in words.
fn has_row(said: &Json, row: &Row) {
    let numbers = ["section", "p", "q", "a", "b"].map(|name| said.get(name).number() as u32);
    assert_eq!(numbers, [row.section, row.p, row.q, row.a, row.b]);
    assert_eq!((said.get("kind").text(), said.get("words").text()), (KINDS[row.kind as usize], asked(row).as_str()));
}

fn writes_alike(sheet_name: &str, sheet: &[u8], some: Option<RangeInclusive<u64>>) -> u64 {
    let opened = opened(sheet, b"");
    let count = opened.read_sheet().unwrap();
    let numbers = some.clone().unwrap_or(1..=count);
    let by_name = format!("{}-{}", numbers.start(), numbers.end());
    let mut words = vec!["antiscenarios", "--plain", sheet_name];
    words.extend(some.map(|_| by_name.as_str()));
    let texts: Vec<Vec<u8>> = numbers.clone().map(|number| opened.write(number, 3437).unwrap()).collect();
    let (status, plain) = run(&words).answer();
    assert_eq!((status, plain.as_bytes()), (0, &texts.concat()[..]));
    words[1] = "--json";
    let (status, in_json) = run(&words).answer();
    let objects = json::lines(&in_json);
    assert_eq!((status, objects.len()), (0, texts.len()));
    for ((number, text), object) in numbers.zip(&texts).zip(&objects) {
        assert_eq!((object.get("number").number(), object.get("of").number()), (number, count));
        assert_eq!(object.get("text").text().as_bytes(), text);
        let rows = antiscenario(opened.sheet.as_ref().unwrap(), number);
        assert_eq!(object.get("rows").list().len(), rows.len());
        rows.iter().zip(object.get("rows").list()).for_each(|(row, said)| has_row(said, row));
    }
    texts.len() as u64
}

#[test]
fn searches_and_antiscenarios_of_random_sheets() {
    let folder = scratch("searches");
    let logs = many_logs(&scratch("searches/logs"), 74, 30);
    let mut random = Random::new(75);
    let mut comparisons = 0;
    for round in 0..40 {
        let text = random_sheet(&mut random, 4 * round + round % 2);
        if sheet::read(&text, Blunder::None).is_ok_and(|sheet| sheet.count <= 200) {
            let name = file(&folder, "sheet", &text);
            comparisons += searches_alike(&name, &text, &logs, None) + writes_alike(&name, &text, None);
        }
    }
    tell("program: searches and antiscenarios", comparisons);
}

/// The rows of a sheet explained, by their fields and in words, with their remarks.
fn explains_alike(sheet_name: &str, rows: &[Row]) {
    let object = json::lines(&run(&["explain", "--json", sheet_name]).answer().1).remove(0);
    assert_eq!(object.get("rows").list().len(), rows.len());
    for ((number, row), said) in (1..).zip(rows).zip(object.get("rows").list()) {
        has_row(said, row);
        assert_eq!(said.get("row").number(), number as u64);
        assert_eq!(said.get("remark"), &remark(number, row).map_or(Json::Null, Json::Text), "{said:?}");
    }
}

/// Document 02, A9: the remarks on each sheet, in its explanation and beside a verdict.
#[test]
fn remarks_on_random_sheets() {
    let folder = scratch("remarks");
    let mut random = Random::new(77);
    let (mut remarked, mut without) = (String::new(), 0);
    const SHEETS: usize = 500;
    for round in 0..SHEETS {
        let text = random_sheet(&mut random, round);
        let Ok(sheet) = sheet::read(&text, Blunder::None) else { continue };
        let log = logs::random(&mut random, 3).text();
        let (name, log_name) = (file(&folder, "sheet", &text), file(&folder, "log", &log));
        let (status, out) = plain_check(&opened(&text, &log));
        let err = remarks(&name, &sheet.rows);
        assert_eq!(run(&["check", "--plain", &name, &log_name]), Said { status, out, err: err.clone() });
        explains_alike(&name, &sheet.rows);
        without += u32::from(err.is_empty());
        remarked += &err;
    }
    for due in ["can be met on one line only: ", "can never be met: ", "is always met on two lines: ", "is always met: "] {
        assert!(remarked.contains(due), "no sheet has {due}");
    }
    assert!(without > 20, "{without} sheets without a remark");
    tell("program: remarks on random sheets", 2 * SHEETS as u64);
}

/// Document 02, A4: of more than 4,096 numbers, some; at the front, at the end, and anywhere between, past 32 bits too.
#[test]
fn ranges_of_large_sheets() {
    let folder = scratch("ranges");
    let mut random = Random::new(76);
    let (mut comparisons, mut most) = (0, 0);
    for seed in 0..120 {
        let Pair { sheet: text, log } = large_pair_of(seed);
        let count = sheet::read(&text, Blunder::None).unwrap().count;
        if count <= 4096 {
            continue;
        }
        most = most.max(count);
        let (name, logs) = (file(&folder, "sheet", &text), [(file(&folder, "log", &log), log)]);
        let first = [1, count - 9, random.next() % (count - 9) + 1][seed as usize % 3];
        let some = Some(first..=first + 9);
        comparisons += searches_alike(&name, &text, &logs, some.clone()) + writes_alike(&name, &text, some);
        let whole = run(&["search", &name, &logs[0].0, "--json"]).complaint();
        assert!(whole.contains(&format!("{count} antiscenarios")) && whole.contains("--number FIRST-LAST"), "{whole}");
    }
    assert!(comparisons > 400 && most > u64::from(u32::MAX), "{comparisons} comparisons, N up to {most}");
    tell("program: ranges of large sheets", comparisons);
}
