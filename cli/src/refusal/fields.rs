//! First lines, and fields that are no numbers: refusals 1, 2, 4, 21, 22 and 24.
use crate::columns::{self, LINE, LOG_FIRST, ROW, SHEET_FIRST};
use crate::names;
use satskhubo_interface::answer::{read_field, read_log, read_sheet, Answer, LogRead, SheetRead};

const SHEET_FIRST_NAMES: [&str; 2] = ["the number of consequents", "the row count"];
const LOG_FIRST_NAMES: [&str; 3] = ["the line count", "the start tick", "the close tick"];
const ROW_NAMES: [&str; 6] = ["the section", "the kind", "p", "q", "a", "b"];
const LINE_NAMES: [&str; 2] = ["the tick", "the event"];
const SWAPPED: &str = "were sheet and log given in the wrong order?";

pub fn sheet_first_line(text: &[u8]) -> Answer<Vec<String>> {
    let mut said = first_line(text, &SHEET_FIRST, &SHEET_FIRST_NAMES)?;
    if let LogRead::Lines(_) = read_log(text)? {
        said.push(format!("the file is a log that is accepted: {SWAPPED}"));
    } else if is_first_line(text, &LOG_FIRST)? {
        said.push(format!("the first line is that of a log: {SWAPPED}"));
    }
    Ok(said)
}

pub fn log_first_line(text: &[u8]) -> Answer<Vec<String>> {
    let mut said = first_line(text, &LOG_FIRST, &LOG_FIRST_NAMES)?;
    if let SheetRead::Count(_) = read_sheet(text)? {
        said.push(format!("the file is a sheet that is accepted: {SWAPPED}"));
    } else if is_first_line(text, &SHEET_FIRST)? {
        said.push(format!("the first line is that of a sheet: {SWAPPED}"));
    }
    Ok(said)
}

fn is_first_line<const COUNT: usize>(text: &[u8], widths: &[usize; COUNT]) -> Answer<bool> {
    let ends = text.get(columns::length(widths) - 1) == Some(&b'\n');
    Ok(ends && columns::fields(text, widths)?.is_some())
}

/// What is wrong with a first line: the file's encoding, its length, or a field.
fn first_line(text: &[u8], widths: &[usize], names: &[&str]) -> Answer<Vec<String>> {
    let due = columns::length(widths);
    let layout: Vec<String> = names.iter().zip(widths).map(|(name, width)| format!("{name} ({width} columns)")).collect();
    let layout = format!("{} and a line feed", layout.join(", "));
    let bad = match text {
        [] => format!("the file is empty; a first line of {due} bytes is due: {layout}"),
        [0xef, 0xbb, 0xbf, ..] => "the file begins with a byte order mark (BOM, \\xef\\xbb\\xbf), which must go".to_string(),
        [0xff, 0xfe, ..] | [0xfe, 0xff, ..] => "the file is UTF-16; one byte a character is due".to_string(),
        _ if text.len() < due => {
            format!("the file has {} bytes; its first line alone is {due}: {layout}", text.len())
        }
        _ => return wrong_field(text, widths, names),
    };
    Ok(vec![bad])
}

pub fn row(line: &[u8]) -> Answer<Vec<String>> {
    wrong_field(line, &ROW, &ROW_NAMES)
}

pub fn line(line: &[u8]) -> Answer<Vec<String>> {
    wrong_field(line, &LINE, &LINE_NAMES)
}

/// The first field that is no number, or else the line feed that is not there.
fn wrong_field(line: &[u8], widths: &[usize], names: &[&str]) -> Answer<Vec<String>> {
    let mut at = 0;
    for (&width, name) in widths.iter().zip(names) {
        let Some(field) = line.get(at..at + width) else { return Ok(Vec::new()) };
        if read_field(field, width)?.is_none() {
            let (first, last, shown) = (at + 1, at + width, names::columns(field));
            return Ok(vec![format!("{name} (columns {first} to {last}) is `{shown}`: {}", malformed(field))]);
        }
        at += width;
    }
    Ok(match line.get(at) {
        Some(b'\n') | None => Vec::new(),
        Some(b'\r') => vec![format!(
            "column {} is a carriage return: the line ends with CR LF (\\r\\n), and a line feed alone is due",
            at + 1
        )],
        Some(&other) => vec![format!("column {} is `{}`, and a line feed is due there", at + 1, names::columns(&[other]))],
    })
}

/// Why a field is no number.
fn malformed(field: &[u8]) -> &'static str {
    let inner = field.trim_ascii();
    let is_digits = !inner.is_empty() && inner.iter().all(u8::is_ascii_digit);
    if field.contains(&b'\t') {
        return "there is a tab in it; columns are filled with spaces";
    }
    if field.contains(&b'\r') {
        return "there is a carriage return in it: the line is too short, and ends with CR LF (\\r\\n)";
    }
    if field.contains(&b'\n') {
        return "there is a line feed in it: the line is too short";
    }
    if inner.is_empty() {
        return "it is blank; a number is expected, 0 where there is none";
    }
    if is_digits && field.ends_with(b" ") {
        return "it is not right-justified; spaces stand before a number and not behind it";
    }
    if is_digits && inner.starts_with(b"0") {
        return "it has a leading zero; spaces are expected before the digits";
    }
    if is_digits {
        return "it is over 4,294,967,295";
    }
    "no number; right-justified digits with spaces before them are expected"
}

pub fn sheet_counts(text: &[u8]) -> Answer<Vec<String>> {
    let Some([consequents, rows]) = columns::fields(text, &SHEET_FIRST)? else { return Ok(Vec::new()) };
    let mut said = Vec::new();
    if consequents > 6 {
        said.push(format!("the first line says {consequents} consequents; at most 6 are allowed"));
    }
    if rows > 176 {
        said.push(format!("the first line says {rows} rows; at most 176 are allowed"));
    }
    Ok(said)
}

pub fn line_count(text: &[u8]) -> Answer<Vec<String>> {
    let Some([lines, _, _]) = columns::fields(text, &LOG_FIRST)? else { return Ok(Vec::new()) };
    Ok(vec![format!("the first line says {lines} lines; at most 4,000 are allowed")])
}
