//! satskhubo explain: a sheet in words, row by row.
use crate::antiscenarios::row_in_object;
use crate::arguments::{Asked, Form};
use crate::events::Events;
use crate::json::{array, Object};
use crate::opened::{open, Opened};
use crate::output::{Output, FAILED};
use crate::remark::remark;
use crate::sheet::{Row, Sheet};
use crate::words::{asks, count};

pub fn run(asked: &Asked, output: &mut Output) -> i32 {
    let Some(opened) = open(asked, output) else { return FAILED };
    match asked.form {
        Form::Words | Form::Plain => output.say(&in_words(&opened)),
        Form::Json => output.say(&object(&opened)),
    }
    0
}

fn in_words(opened: &Opened) -> String {
    let Opened { input, sheet, .. } = opened;
    let (consequents, rows) = (count(sheet.consequents, "consequent"), count(sheet.rows.len() as u64, "row"));
    let antiscenarios = count(opened.count, "antiscenario");
    let mut said = format!("{}: {consequents}, {rows}, N = {antiscenarios}\n", input.name.words());
    for section in 0..=sheet.consequents {
        said.push_str(&section_in_words(opened, section));
    }
    if sheet.consequents == 0 {
        said.push_str("no consequent: every matching of the antecedent is violating\n");
    }
    said
}

fn section_in_words(opened: &Opened, section: u32) -> String {
    let mut said = match section {
        0 => "section 0, the antecedent: whenever\n".to_string(),
        _ => format!("section {section}, consequent {section}: it is in order if\n"),
    };
    let numbered = (1..).zip(&opened.sheet.rows);
    let own: Vec<(u32, &Row)> = numbered.filter(|(_, row)| row.section == section).collect();
    for (number, row) in &own {
        said.push_str(&row_in_words(*number, row, &opened.events));
    }
    if own.is_empty() {
        said.push_str("  no rows: it is always met\n");
    }
    said + &points_in_words(&opened.sheet, section)
}

fn row_in_words(number: u32, row: &Row, events: &Events) -> String {
    let said = format!("  row {number:>3}  {:<8} {}\n", row.kind.name(), asks(row, events));
    match remark(number, row) {
        Some(remark) => said + &format!("{:11}remark:  {remark}\n", ""),
        None => said,
    }
}

fn points_in_words(sheet: &Sheet, section: u32) -> String {
    let own = sheet.section(section).filter(|row| row.kind.introduces());
    let points: Vec<String> = own.map(|row| row.p.to_string()).collect();
    match points[..] {
        [] => "  points: none\n".to_string(),
        _ => format!("  points: {}\n", points.join(", ")),
    }
}

fn object(opened: &Opened) -> String {
    let Opened { input, sheet, events, .. } = opened;
    let row = |(number, row): (u32, &Row)| {
        let object = row_in_object(Object::new().number("row", number), row, events);
        object.optional("remark", remark(number, row).as_deref()).end()
    };
    let object = input.name.in_object(Object::new(), "sheet").number("consequents", sheet.consequents);
    let object = object.number("antiscenarios", opened.count);
    object.raw("rows", &array((1..).zip(&sheet.rows).map(row))).end() + "\n"
}
