//! Texts whose length is not what their first line says: refusals 3 and 23.
use crate::columns::{fields, length, LINE, LOG_FIRST, ROW, SHEET_FIRST};
use crate::input::Input;
use satskhubo_interface::answer::Answer;

/// What a text is made of behind its first line.
struct Layout {
    first: usize,
    width: usize,
    noun: &'static str,
    /// The rows or lines that the first line says.
    due: u32,
}

pub fn of_sheet(text: &Input) -> Answer<Vec<String>> {
    let Some([_, due]) = fields(&text.bytes, &SHEET_FIRST)? else { return Ok(Vec::new()) };
    Ok(explained(text, &Layout { first: length(&SHEET_FIRST), width: length(&ROW), noun: "row", due }))
}

pub fn of_log(text: &Input) -> Answer<Vec<String>> {
    let Some([due, _, _]) = fields(&text.bytes, &LOG_FIRST)? else { return Ok(Vec::new()) };
    Ok(explained(text, &Layout { first: length(&LOG_FIRST), width: length(&LINE), noun: "line", due }))
}

fn explained(text: &Input, layout: &Layout) -> Vec<String> {
    let Layout { first, width, noun, due } = *layout;
    let all = first + width * due as usize;
    let share = format!("{first}, and {width} for each of the {due} {noun}s that its first line says");
    if text.is_cut {
        return vec![format!("{all} bytes are due: {share}")];
    }
    let mut said = vec![format!("the file has {} bytes, and {all} are due: {share}", text.bytes.len())];
    let rest = text.bytes.get(first..).unwrap_or_default();
    said.extend(odd_line(rest, layout));
    let found = rest.split(|&byte| byte == b'\n').filter(|line| !line.trim_ascii().is_empty()).count();
    if found != due as usize {
        said.push(format!("the first line says {due} {noun}s, and the file has {found}"));
    }
    said
}

/// The first line of another width than is due, or without its line feed.
fn odd_line(rest: &[u8], layout: &Layout) -> Option<String> {
    let columns = layout.width - 1;
    for (index, line) in rest.split_inclusive(|&byte| byte == b'\n').enumerate() {
        let content = line.strip_suffix(b"\n");
        if content.is_some_and(|content| content.len() == columns) {
            continue;
        }
        let behind: Vec<u8> = rest.split_inclusive(|&byte| byte == b'\n').skip(index).flatten().copied().collect();
        return Some(odd(index + 2, content, line, behind.trim_ascii().is_empty(), layout));
    }
    None
}

/// `content` is the line without its line feed, none where it has none; `is_end`: nothing but blanks follows.
fn odd(number: usize, content: Option<&[u8]>, line: &[u8], is_end: bool, layout: &Layout) -> String {
    let (columns, noun) = (layout.width - 1, layout.noun);
    if is_end {
        return format!("line {number} of the file is blank; nothing stands behind the last {noun}");
    }
    if content.unwrap_or(line).ends_with(b"\r") {
        return format!("line {number} of the file ends with CR LF (\\r\\n), and a line feed alone is due");
    }
    if line.contains(&b'\t') {
        return format!("line {number} of the file has a tab; columns are filled with spaces");
    }
    match content {
        None if line.len() == columns => format!("line {number} of the file, the last, has no line feed at its end"),
        None => format!(
            "line {number} of the file, the last, has {} bytes and no line feed; {columns} and a line feed are due",
            line.len()
        ),
        Some(content) => format!("line {number} of the file has {} bytes before its line feed; {columns} are due", content.len()),
    }
}
