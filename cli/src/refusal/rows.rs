//! Rows of a sheet that are well formed and yet refused: 5 to 10.
use crate::columns::{fields as fields_of, lines, ROW, SHEET_FIRST};
use crate::sheet::{Kind, Row, CLOSE, START};
use crate::words::count;
use satskhubo_interface::answer::Answer;

/// A refused row, and the accepted ones before it.
struct Refused {
    consequents: u32,
    before: Vec<Row>,
    fields: [u32; 6],
}

fn refused(sheet: &[u8], index: usize) -> Answer<Option<Refused>> {
    let Some([consequents, _]) = fields_of(sheet, &SHEET_FIRST)? else { return Ok(None) };
    let mut before = Vec::new();
    for (number, line) in lines(sheet, &SHEET_FIRST, &ROW).enumerate() {
        let Some(fields) = fields_of(line, &ROW)? else { return Ok(None) };
        if number == index {
            return Ok(Some(Refused { consequents, before, fields }));
        }
        before.extend(Row::of(fields));
    }
    Ok(None)
}

/// What a rule says of the refused row, where it is there.
fn said(sheet: &[u8], index: usize, rule: fn(&Refused) -> Option<String>) -> Answer<Vec<String>> {
    Ok(refused(sheet, index)?.as_ref().and_then(rule).into_iter().collect())
}

pub fn section(sheet: &[u8], index: usize) -> Answer<Vec<String>> {
    said(sheet, index, |row| {
        let (section, consequents) = (row.fields[0], row.consequents);
        if section > consequents {
            return Some(format!("the section is {section}, and the first line says {}", count(consequents, "consequent")));
        }
        let before = row.before.last()?.section;
        Some(format!("the section is {section}, below {before}, the section of the row before"))
    })
}

pub fn kind(sheet: &[u8], index: usize) -> Answer<Vec<String>> {
    said(sheet, index, |row| {
        let [section, number, ..] = row.fields;
        Some(match (Kind::of(number), section) {
            (None, _) => format!("the kind is {number}; kinds are 1 to 12"),
            (Some(kind), 0) => {
                format!("kind {number}, {}, is for consequents; a row of the antecedent has kind 1 or 6 to 12", kind.name())
            }
            (Some(kind), _) => {
                format!("kind {number}, {}, is for the antecedent; a row of a consequent has kind 2 to 12", kind.name())
            }
        })
    })
}

impl Refused {
    fn row(&self) -> Option<Row> {
        Row::of(self.fields)
    }

    /// Document 01: ordinary points introduced in earlier rows of the row's own section or of the antecedent.
    fn known(&self) -> Vec<u32> {
        let section = self.fields[0];
        let usable = self.before.iter().filter(|row| row.section == 0 || row.section == section);
        usable.filter(|row| row.kind.introduces()).map(|row| row.p).collect()
    }

    /// The number of the next point of the row's section; none past its last.
    fn due(&self) -> Option<u32> {
        let section = self.fields[0];
        let (first, most) = if section == 0 { (1, 4) } else { (10 * section + 1, 8) };
        let own = self.before.iter().filter(|row| row.section == section && row.kind.introduces()).count() as u32;
        (own < most).then_some(first + own)
    }

    fn with_ends(&self, ends: &[u32]) -> Vec<u32> {
        let mut points = self.known();
        points.extend(ends);
        points.sort_unstable();
        points
    }
}

fn shown(point: &u32) -> String {
    match *point {
        START => "0 (the start)".to_string(),
        CLOSE => "99 (the close)".to_string(),
        point => point.to_string(),
    }
}

/// That a field is none of the points permitted.
fn not_permitted(field: &str, value: u32, permitted: &[u32]) -> String {
    let points: Vec<String> = permitted.iter().map(shown).collect();
    match points[..] {
        [] => format!("{field} is {value}; no point is known here that it could be"),
        _ => format!("{field} is {value}; permitted here: {}", points.join(", ")),
    }
}

pub fn point_p(sheet: &[u8], index: usize) -> Answer<Vec<String>> {
    said(sheet, index, |refused| {
        let row = refused.row()?;
        if !row.kind.introduces() {
            let ends: &[u32] = match row.kind {
                Kind::Free | Kind::Within | Kind::Outside => &[START, CLOSE],
                _ => &[],
            };
            return Some(not_permitted("p", row.p, &refused.with_ends(ends)));
        }
        Some(match (refused.due(), row.section) {
            (Some(due), _) => format!("p is {}; {due} is due, the next point of its section", row.p),
            (None, 0) => format!("p is {}; none is due: the antecedent has its 4 points", row.p),
            (None, _) => format!("p is {}; none is due: the section has its 8 points", row.p),
        })
    })
}

pub fn point_q(sheet: &[u8], index: usize) -> Answer<Vec<String>> {
    said(sheet, index, |refused| {
        let row = refused.row()?;
        let (other, ends): (Option<(&str, u32)>, &[u32]) = match row.kind {
            Kind::Next => (None, &[START]),
            Kind::Last => (None, &[CLOSE]),
            Kind::Earlier | Kind::Later => (Some(("a", row.a)), &[]),
            Kind::Before | Kind::Apart | Kind::Same => (Some(("p", row.p)), &[]),
            Kind::Free | Kind::Within | Kind::Outside => (Some(("p", row.p)), &[START, CLOSE]),
            Kind::Point | Kind::Event => return None,
        };
        let permitted = refused.with_ends(ends);
        match other {
            _ if !permitted.contains(&row.q) => Some(not_permitted("q", row.q, &permitted)),
            Some((field, value)) if value == row.q => {
                Some(format!("{field} and q are both {value}; two different points are due"))
            }
            Some(("a", value)) if !permitted.contains(&value) => Some(not_permitted("a", value, &permitted)),
            Some(_) | None => None,
        }
    })
}

pub fn fields(sheet: &[u8], index: usize) -> Answer<Vec<String>> {
    said(sheet, index, |refused| {
        let row = refused.row()?;
        let kind = format!("{}, {}", row.kind as u32, row.kind.name());
        let unused: &[(&str, u32)] = match row.kind {
            Kind::Point | Kind::Event => &[("q", row.q)],
            Kind::Earlier | Kind::Later => &[("b", row.b)],
            Kind::Before | Kind::Apart | Kind::Same => &[("a", row.a), ("b", row.b)],
            Kind::Next | Kind::Last | Kind::Free | Kind::Within | Kind::Outside => &[],
        };
        if let Some((field, value)) = unused.iter().find(|(_, value)| *value != 0) {
            return Some(format!("{field} is {value}; kind {kind}, does not use it, so 0 is due"));
        }
        match row.kind {
            Kind::Within | Kind::Outside => Some(format!("a is {}, above b, which is {}", row.a, row.b)),
            _ if row.set() == 0 => Some(format!("a and b are both 0, the empty set; kind {kind}, needs an event in it")),
            _ => None,
        }
    })
}

pub fn too_long(sheet: &[u8], index: usize) -> Answer<Vec<String>> {
    said(sheet, index, |row| {
        Some(match row.fields[0] {
            0 => "the antecedent has more than the 32 rows that it may have".to_string(),
            section => format!("section {section} has more than the 24 rows that a consequent may have"),
        })
    })
}
