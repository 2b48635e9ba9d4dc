//! Families written out in full: every sheet of a few shapes over a few sets and limits, and every log of up to three lines. Those of the newer
//! boards have sets in either half and in both.
use super::chains::on_two_points_below_32;
use crate::reference::blunder::Blunder;
use crate::reference::log::{Line, Log};
use crate::reference::sheet::{self, introduced, kind::*, Row, CLOSE, START};

/// The texts of all sheets of a shape.
#[derive(Clone)]
pub struct Family {
    pub name: &'static str,
    pub sheets: Vec<Vec<u8>>,
}

impl Family {
    pub fn new(name: &'static str, k: u32, sheets: &[Vec<Row>]) -> Family {
        Family { name, sheets: sheets.iter().map(|rows| sheet::text(k, rows)).collect() }
    }
}

/// Every log of up to three lines over events 0 and 1 and ticks 0 and 2, closing at the last tick or one later.
pub fn logs() -> Vec<Log> {
    logs_over([0, 1])
}

/// The same over an event of either half, which are alike but for 32.
pub fn board_logs() -> Vec<Log> {
    logs_over([1, 33])
}

fn logs_over(events: [u32; 2]) -> Vec<Log> {
    let mut all = Vec::new();
    let mut of_length = vec![Vec::<Line>::new()];
    for _ in 0..=3 {
        for lines in &of_length {
            let last = lines.last().map_or(0, |line| line.tick);
            for close in [last, last + 1] {
                all.push(Log { start: 0, close, lines: lines.clone(), blunder: Blunder::None });
            }
        }
        of_length = of_length.iter().flat_map(|lines| longer(lines, events)).collect();
    }
    all
}

fn longer(lines: &[Line], events: [u32; 2]) -> Vec<Vec<Line>> {
    let last = lines.last().map_or(0, |line| line.tick);
    let ticks = [0, 2].into_iter().filter(|&tick| tick >= last);
    let further = ticks.flat_map(|tick| events.map(|event| Line { tick, event }));
    further.map(|line| [lines, &[line]].concat()).collect()
}

/// What rows are written with, besides points.
struct Alphabet {
    sets: &'static [u64],
    sets_of_event: &'static [u64],
    /// WITHIN or OUTSIDE, and its limits; a denial has the other.
    limits: &'static [(u32, u32, u32)],
}

/// The distances of the logs are 0 to 3: 2 alone is surely within 1 to 3, and only one position within 0 to 0.
const FEW: Alphabet = Alphabet { sets: &[1], sets_of_event: &[0, 1], limits: &[(WITHIN, 1, 3), (OUTSIDE, 0, 0)] };
const MORE: Alphabet = Alphabet {
    sets: &[1, 2, 3],
    sets_of_event: &[0, 1, 2],
    limits: &[(WITHIN, 0, 0), (WITHIN, 0, 2), (WITHIN, 1, 3), (OUTSIDE, 0, 0), (OUTSIDE, 0, 1), (OUTSIDE, 2, 4)],
};

const LOWER: u64 = 1 << 1;
const UPPER: u64 = 1 << 33;
/// Sets of events 1 and 33: one of either half, and both.
const HALVES: Alphabet = Alphabet {
    sets: &[LOWER, UPPER, LOWER | UPPER],
    sets_of_event: &[0, LOWER, UPPER, LOWER | UPPER],
    limits: &[(WITHIN, 0, 1), (OUTSIDE, 0, 1)],
};

fn pairs(points: &[u32]) -> Vec<(u32, u32)> {
    let all = points.iter().flat_map(|&p| points.iter().map(move |&q| (p, q)));
    all.filter(|(p, q)| p != q).collect()
}

fn point(p: u32, set: u64) -> Row {
    Row::of_set(0, POINT, p, 0, set)
}

impl Alphabet {
    /// Every row of kinds 6 to 12 over these ordinary points.
    fn demanding_rows(&self, section: u32, ordinary: &[u32]) -> Vec<Row> {
        let mut rows = Vec::new();
        for (p, q) in pairs(ordinary) {
            rows.extend([BEFORE, APART, SAME].map(|kind| Row::new(section, kind, p, q, 0, 0)));
        }
        for (p, q) in pairs(&[ordinary, &[START, CLOSE]].concat()) {
            rows.extend(self.sets.iter().map(|&set| Row::of_set(section, FREE, p, q, set)));
            rows.extend(self.limits.iter().map(|&(kind, a, b)| Row::new(section, kind, p, q, a, b)));
        }
        for &p in ordinary {
            rows.extend(self.sets_of_event.iter().map(|&set| Row::of_set(section, EVENT, p, 0, set)));
        }
        rows
    }

    /// Every row of kinds 2 to 5 that introduces p.
    fn introducing_rows(&self, section: u32, p: u32, ordinary: &[u32]) -> Vec<Row> {
        let mut rows = Vec::new();
        for &set in self.sets {
            rows.extend(ordinary.iter().chain(&[START]).map(|&q| Row::of_set(section, NEXT, p, q, set)));
            rows.extend(ordinary.iter().chain(&[CLOSE]).map(|&q| Row::of_set(section, LAST, p, q, set)));
        }
        for (q, a) in pairs(ordinary) {
            rows.extend([EARLIER, LATER].map(|kind| Row::new(section, kind, p, q, a, 0)));
        }
        rows
    }

    /// Every row that may come next in a section, after these rows.
    fn rows_after(&self, before: &[Row], section: u32) -> Vec<Row> {
        let antecedent = introduced(before, 0);
        if section == 0 {
            let p = antecedent.len() as u32 + 1;
            let points = self.sets.iter().map(|&set| point(p, set));
            return self.demanding_rows(0, &antecedent).into_iter().chain(points).collect();
        }
        let own = introduced(before, section);
        let p = 10 * section + own.len() as u32 + 1;
        let ordinary = [antecedent, own].concat();
        [self.demanding_rows(section, &ordinary), self.introducing_rows(section, p, &ordinary)].concat()
    }

    /// Each of these sheets with every row that may come next.
    fn one_more(&self, sheets: &[Vec<Row>], section: u32) -> Vec<Vec<Row>> {
        let longer = |rows: &Vec<Row>| {
            let next = self.rows_after(rows, section).into_iter();
            next.map(|row| [&rows[..], &[row]].concat()).collect::<Vec<_>>()
        };
        sheets.iter().flat_map(longer).collect()
    }

    /// Each of these antecedents with every row of kinds 6 to 12 that may come next.
    fn one_demand(&self, antecedents: &[Vec<Row>]) -> Vec<Vec<Row>> {
        self.one_more(antecedents, 0).into_iter().filter(|rows| rows[rows.len() - 1].kind != POINT).collect()
    }
}

/// The family that is small enough to be compared whole each time: every kind in antecedent and consequent.
pub fn small() -> Vec<Family> {
    let none = vec![vec![]];
    let one_row = FEW.one_more(&none, 0);
    let one_point = vec![vec![point(1, 1)]];
    let two_points = vec![vec![point(1, 1), point(2, 1)]];
    let (demand, demand_on_two) = (FEW.one_demand(&one_point), FEW.one_demand(&two_points));
    let in_order = demand_on_two.iter().filter(|rows| rows[2].kind <= SAME).cloned().collect();
    let bare = [none.clone(), one_point].concat();
    let one = FEW.one_more(&bare, 1);
    vec![
        Family::new("antecedents of up to two rows", 0, &[none, one_row.clone(), FEW.one_more(&one_row, 0)].concat()),
        Family::new("two points and a demand", 0, &demand_on_two),
        Family::new("a consequent of up to two rows", 1, &[bare.clone(), one.clone(), FEW.one_more(&one, 1)].concat()),
        Family::new("two points and a consequent of one row", 1, &FEW.one_more(&two_points, 1)),
        Family::new("an antecedent with a demand and a consequent of one row", 1, &FEW.one_more(&[demand, in_order].concat(), 1)),
        Family::new("two consequents, one empty", 2, &[one.clone(), FEW.one_more(&bare, 2)].concat()),
        Family::new("two consequents of one row", 2, &FEW.one_more(&one, 2)),
    ]
}

/// The sheets whose last row is as wanted.
fn ending(sheets: Vec<Vec<Row>>, wanted: impl Fn(&Row) -> bool) -> Vec<Vec<Row>> {
    sheets.into_iter().filter(|rows| rows.last().is_some_and(&wanted)).collect()
}

/// Document 02, A1: the families of the newer boards, for `board_logs`, compared whole each time.
pub fn boards() -> Vec<Family> {
    let none = vec![vec![]];
    let one_row = HALVES.one_more(&none, 0);
    let points: Vec<Vec<Row>> = HALVES.sets.iter().map(|&set| vec![point(1, set)]).collect();
    let one = HALVES.one_more(&[none, points].concat(), 1);
    let of_upper = HALVES.one_more(&[vec![point(1, UPPER)]], 1);
    let introduced = ending(of_upper.clone(), Row::introduces);
    let spoken_of = ending(HALVES.one_more(&introduced, 1), |row| [FREE, EVENT].contains(&row.kind));
    let two = HALVES.one_more(&ending(of_upper, |row| row.set() == UPPER), 2);
    vec![
        Family::new("boards: antecedents of up to two rows", 0, &[one_row.clone(), HALVES.one_more(&one_row, 0)].concat()),
        Family::new("boards: a consequent of one row", 1, &one),
        Family::new("boards: a consequent of a point and a set", 1, &spoken_of),
        Family::new("boards: two consequents of one row", 2, &ending(two, |row| [NEXT, LAST, FREE, EVENT].contains(&row.kind))),
    ]
}

/// The larger families, compared in part each time and whole when asked.
pub fn large() -> Vec<Family> {
    let none = vec![vec![]];
    let one_row = MORE.one_more(&none, 0);
    let one_point = [vec![point(1, 1)], vec![point(1, 3)]];
    let two_points = [vec![point(1, 1), point(2, 2)], vec![point(1, 3), point(2, 1)]];
    let antecedents = [&none[..], &one_point, &two_points].concat();
    let one = MORE.one_more(&antecedents, 1);
    let first = MORE.one_more(&antecedents[..2], 1);
    vec![
        Family::new("no consequents", 0, &[none, one_row.clone(), MORE.one_more(&one_row, 0)].concat()),
        Family::new("one consequent of up to two rows", 1, &[antecedents, one.clone(), MORE.one_more(&one, 1)].concat()),
        Family::new("two consequents of one row", 2, &MORE.one_more(&first, 2)),
        Family::new("chains of BEFORE rows", 1, &on_two_points_below_32()),
    ]
}
