//! Why no run can meet an antiscenario: the rows that contradict each other, in words and in JSON.
use crate::contradiction::{Contradiction, Numbered, Step};
use crate::events::Events;
use crate::json::{numbers, Object};
use crate::sheet::Kind;
use crate::words::point;

pub fn in_object(why: &Contradiction, events: &Events) -> String {
    let object = Object::new().text("rule", rule(why)).raw("rows", &numbers(why.rows().iter().map(|row| row.number)));
    object.text("words", &in_words(why, events)).end()
}

fn rule(why: &Contradiction) -> &'static str {
    match why {
        Contradiction::NoCommonEvent { .. } => "no-common-event",
        Contradiction::ApartInside { .. } => "apart-inside",
        Contradiction::Circular { .. } => "circular",
    }
}

pub fn in_words(why: &Contradiction, events: &Events) -> String {
    match why {
        Contradiction::NoCommonEvent { sets, joins } => no_event_fits(sets, joins, events),
        Contradiction::ApartInside { apart, joins } => {
            let (p, q) = (point(apart.row.p), point(apart.row.q));
            format!("{p} and {q} would be different lines ({}) and the same line ({})", cited(&[*apart]), cited(joins))
        }
        Contradiction::Circular { steps } => {
            let first = point(steps[0].from);
            let led: Vec<String> = steps.iter().map(led).collect();
            format!("{first} would stand before itself, since it {}", led.join(", which "))
        }
    }
}

fn led(step: &Step) -> String {
    let (to, by) = (point(step.to), cited(&[step.by]));
    match step.by.row.kind {
        Kind::Same => format!("is the same line as {to} ({by})"),
        _ => format!("stands before {to} ({by})"),
    }
}

fn no_event_fits(sets: &[Numbered], joins: &[Numbered], events: &Events) -> String {
    let mut points: Vec<u32> = sets.iter().map(|set| set.row.p).collect();
    points.sort_unstable();
    points.dedup();
    let wanted = |set: &Numbered| match set.row.set() {
        0 => format!("an event of the empty set ({})", cited(&[*set])),
        _ => format!("{} ({})", events.set(set.row.set()), cited(&[*set])),
    };
    if joins.is_empty() {
        let wanted: Vec<String> = sets.iter().map(wanted).collect();
        return format!("no event fits {}, which must have {}", point(points[0]), listed(&wanted));
    }
    let named: Vec<String> = points.iter().map(|&number| point(number)).collect();
    let wanted: Vec<String> = sets.iter().map(|set| format!("{} must have {}", point(set.row.p), wanted(set))).collect();
    format!("no event fits {}, which are the same line ({}): {}", listed(&named), cited(joins), listed(&wanted))
}

/// Rows of one kind by their numbers.
fn cited(rows: &[Numbered]) -> String {
    let numbers: Vec<String> = rows.iter().map(|row| row.number.to_string()).collect();
    let kind = rows.first().map_or("", |row| row.row.kind.name());
    format!("{} {}, {kind}", if rows.len() == 1 { "row" } else { "rows" }, listed(&numbers))
}

fn listed(items: &[String]) -> String {
    match items {
        [] => String::new(),
        [one] => one.clone(),
        [before @ .., last] => format!("{} and {last}", before.join(", ")),
    }
}
