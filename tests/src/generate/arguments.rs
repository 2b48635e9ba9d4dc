//! The arguments of a seed: a number, room, places, a placement table, limits, numbers that match and an order of the
//! consequents, mostly within what a pair has.
use crate::outcome::Table;
use crate::random::Random;
use crate::reference::antiscenario::{denial_counts, number_of};
use crate::reference::operations::{Opened, Verdict, MOST_POINTS};
use crate::reference::rows::{points, Placement};
use crate::reference::weeded::Plan;

pub struct Arguments {
    pub number: u64,
    pub room: usize,
    pub places: usize,
    pub table: Table,
}

fn number(random: &mut Random, count: u64) -> u64 {
    match random.below(12) {
        0 => random.next(),
        1 => count + random.below(3) as u64,
        2 => 0,
        _ => random.next() % count.max(1) + 1,
    }
}

pub fn arguments_of(seed: u64, opened: &Opened) -> Arguments {
    let mut random = Random::new(!seed);
    let number = number(&mut random, opened.read_sheet().unwrap_or(1));
    let (length, points) = opened.size(number).unwrap_or((7, 1));
    let n = opened.read_log().unwrap_or(1);
    let positions: Vec<u32> = (0..points).map(|_| random.from_to(0, n + 1)).collect();
    let mut table = Table::of(&positions, random.from_to(0, n + 2));
    if random.one_in(3) {
        table.count = random.below(MOST_POINTS + 3);
    }
    Arguments { number, room: random.below(2 * length + 1), places: random.below(2 * points + 2), table }
}

/// Up to so many matchings, every limit is tried that makes a difference.
const FEW_MATCHINGS: u64 = 10;

/// Document 02, A10: limits, in order: each up to one more than the antecedent has matchings, or of many those next to their number and to the first
/// violating one, and some at random; and limits that no log has matchings for.
pub fn limits_of(seed: u64, opened: &Opened) -> Vec<u64> {
    let mut random = Random::new(!seed);
    let fronts = opened.fronts().unwrap_or(&[]);
    let count = fronts.len() as u64;
    let mut limits = vec![0, 1, 2, count, count + 1, 1 << 32, (1 << 32) + 1, random.next(), u64::MAX];
    if count <= FEW_MATCHINGS {
        limits.extend(0..count);
    } else {
        let violating = fronts.iter().position(|front| front.rows.is_some());
        limits.extend(violating.into_iter().flat_map(|index| index as u64..index as u64 + 3));
        limits.extend([count - 1, random.next() % count, random.next() % count, random.next() % count]);
    }
    limits.sort();
    limits.dedup();
    limits
}

/// Document 02, A11: an order of so many consequents, seldom that of the sheet.
pub fn order_of(seed: u64, k: u32) -> Vec<u32> {
    // Of its own, so that nothing else that the seed decides goes with certain orders.
    let mut random = Random::new(!seed.rotate_left(32));
    let mut order: Vec<u32> = (1..=k).collect();
    for place in (1..order.len()).rev() {
        order.swap(place, random.below(place + 1));
    }
    if order.is_sorted() && k > 1 && !random.one_in(8) {
        order.rotate_left(1);
    }
    order
}

/// So many numbers that match are tried.
const MATCHED: usize = 3;

/// Document 02, A11: numbers that have a matching, where the sheet is violated: of each consequent any denial that extends the smallest violating
/// placement.
pub fn matched_numbers_of(seed: u64, opened: &Opened) -> Vec<u64> {
    let (Ok(sheet), Ok(log), Ok(Verdict::Violated { placement, .. })) = (&opened.sheet, &opened.log, opened.check()) else {
        return vec![];
    };
    let placed = Placement::of(log, &points(&sheet.section(0)), &placement);
    let extending = sheet.denials.iter().map(|denials| {
        let extends = |choice: &usize| Plan::new(&denials[*choice], log).has_matching(&placed);
        (0..denials.len()).filter(extends).map(|choice| choice as u64).collect::<Vec<u64>>()
    });
    let (extending, mut random) = (extending.collect::<Vec<_>>(), Random::new(!seed));
    let mut chosen = || extending.iter().map(|choices| random.pick(choices)).collect::<Vec<u64>>();
    (0..MATCHED).map(|_| number_of(&chosen(), &denial_counts(sheet))).collect()
}
