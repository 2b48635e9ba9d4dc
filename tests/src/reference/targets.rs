//! The reference alone on every targeted text.
use super::blunder::Blunder;
use super::operations::open;
use crate::generate::logs::log_of;
use crate::generate::sheets::sheet_s;
use crate::generate::targeted::faults::{faulty_log, faulty_sheet, PLACES};
use crate::generate::targeted::{self, Case};

fn holds_for(case: &Case, of_log: bool) {
    let good_log = log_of(&[(1, 1)]).text();
    let opened = match of_log {
        true => open(&sheet_s(), &case.text, Blunder::None),
        false => open(&case.text, &good_log, Blunder::None),
    };
    let (answer, part) = opened.show();
    assert_eq!((answer, part.offset, part.length), (case.answer, case.offset, case.length), "{}", case.name);
    assert_eq!(part.of_log, of_log && answer != 0, "{}", case.name);
}

#[test]
fn targeted_sheets() {
    targeted::sheets().iter().for_each(|case| holds_for(case, false));
}

#[test]
fn targeted_logs() {
    targeted::logs().iter().for_each(|case| holds_for(case, true));
}

#[test]
fn two_faults_in_both_orders() {
    for (first, second) in PLACES.iter().flat_map(|x| PLACES.iter().map(move |y| (*x, *y))) {
        for (x, y) in (1..=10).flat_map(|x| (1..=10).map(move |y| (x, y))) {
            holds_for(&faulty_sheet(&[(x, first), (y, second)]), false);
        }
        for (x, y) in (21..=27).flat_map(|x| (21..=27).map(move |y| (x, y))) {
            holds_for(&faulty_log(&[(x, first), (y, second)]), true);
        }
    }
}
