//! Document 02, A8: the far end of the denial of a missing point, by the table: an antecedent point, or else the close or the start.
use super::blunder::Blunder;
use super::sheet::{introduced, is_end, kind::*, Row, Sheet, CLOSE, START};

/// The points that BEFORE rows lead to from x, in one or more steps: those reached, grown step by step until none is added.
fn reached(rows: &[Row], x: u32, most_steps: usize) -> Vec<u32> {
    let mut reached: Vec<u32> = Vec::new();
    for _ in 0..most_steps {
        let leads = |row: &&Row| row.kind == BEFORE && (row.p == x || reached.contains(&row.p));
        let fresh: Vec<u32> = rows.iter().filter(leads).map(|row| row.q).filter(|y| !reached.contains(y)).collect();
        if fresh.is_empty() {
            break;
        }
        reached.extend(fresh);
    }
    reached
}

/// BEFORE rows looked at once each, in sheet order, so that a later row does not lead to an earlier one.
fn reached_in_one_pass(rows: &[Row], x: u32) -> Vec<u32> {
    let mut reached = vec![x];
    for row in rows.iter().filter(|row| row.kind == BEFORE) {
        if reached.contains(&row.p) {
            reached.push(row.q);
        }
    }
    reached.split_off(1)
}

/// Whether BEFORE rows lead from x to y.
fn lead(rows: &[Row], (x, y): (u32, u32), blunder: Blunder) -> bool {
    let reached = match blunder {
        Blunder::OnePass => reached_in_one_pass(rows, x),
        Blunder::TwoSteps => reached(rows, x, 2),
        _ => reached(rows, x, usize::MAX),
    };
    reached.contains(&y)
}

/// The lower and the higher of two points as the row has it: z comes after the others where it is NEXT, and before them where it is LAST.
fn in_order(row: &Row, point: u32, z: u32) -> (u32, u32) {
    if row.kind == NEXT {
        (point, z)
    } else {
        (z, point)
    }
}

/// "BEFORE rows of the same consequent lead, in one or more steps, from a NEXT row's p to an antecedent point z"; for LAST, "from z to p".
fn is_reached(sheet: &Sheet, row: &Row, z: u32) -> bool {
    let consequent = sheet.section(row.section);
    let chain = in_order(row, row.p, z);
    match sheet.blunder {
        Blunder::MixedChain => lead(&[sheet.section(0), consequent].concat(), chain, sheet.blunder),
        Blunder::ChainOfOneStep => reached(&consequent, chain.0, 1).contains(&chain.1),
        Blunder::ChainOfLaterRows => {
            let later: Vec<Row> = consequent.into_iter().skip_while(|earlier| earlier != row).collect();
            lead(&later, chain, sheet.blunder)
        }
        Blunder::LastChainReversed => lead(&consequent, (row.p, z), sheet.blunder),
        _ => lead(&consequent, chain, sheet.blunder),
    }
}

/// "q is 0 or BEFORE rows of the antecedent lead from q to z"; for LAST, "q is 99 or the antecedent's rows lead from z to q".
fn is_in_order(sheet: &Sheet, row: &Row, z: u32) -> bool {
    let antecedent = sheet.section(0);
    let consequent = sheet.section(row.section);
    let order = in_order(row, row.q, z);
    match sheet.blunder {
        Blunder::NoOrder => true,
        Blunder::OrderOfConsequent => is_end(row.q) || lead(&consequent, order, sheet.blunder),
        Blunder::OrderOfBoth => is_end(row.q) || lead(&[antecedent, consequent].concat(), order, sheet.blunder),
        Blunder::OrderOfOneStep => is_end(row.q) || reached(&antecedent, order.0, 1).contains(&order.1),
        Blunder::LastOrderReversed => is_end(row.q) || lead(&antecedent, (row.q, z), sheet.blunder),
        Blunder::OwnPointInOrder if introduced(&consequent, row.section).contains(&row.q) => true,
        Blunder::EndsWantOrder => lead(&antecedent, order, sheet.blunder),
        Blunder::QToItself if z == row.q => true,
        _ => is_end(row.q) || lead(&antecedent, order, sheet.blunder),
    }
}

/// "z is not q".
fn is_not_q(sheet: &Sheet, row: &Row, z: u32) -> bool {
    z != row.q || [Blunder::QTaken, Blunder::QToItself].contains(&sheet.blunder)
}

/// Document 02, A8: "Suppose BEFORE rows of the same consequent lead, in one or more steps, from a NEXT row's p to an antecedent point z. Suppose
/// also that z is not q, and that q is 0 or BEFORE rows of the antecedent lead from q to z. The denial is then FREE q z a in place of
/// FREE q 99 a. For LAST, again with z not q, the consequent's BEFORE rows lead from z to p, q is 99 or the antecedent's rows lead from z to q,
/// and the denial is FREE z q a. Of several z the lowest number is taken."
fn nearer_end(sheet: &Sheet, row: &Row) -> Option<u32> {
    let reached = introduced(&sheet.rows, 0).into_iter().filter(|&z| is_not_q(sheet, row, z) && is_reached(sheet, row, z));
    let is_in_order = |&z: &u32| is_in_order(sheet, row, z);
    match sheet.blunder {
        Blunder::BeforeA8 => None,
        Blunder::HighestEnd => reached.filter(is_in_order).max(),
        Blunder::LowestReached => reached.min(),
        Blunder::LowestReachedOrLong => reached.min().filter(is_in_order),
        _ => reached.filter(is_in_order).min(),
    }
}

/// The other point of the denial of NEXT or LAST, beside q.
pub fn far_end(sheet: &Sheet, row: &Row) -> u32 {
    nearer_end(sheet, row).unwrap_or(if row.kind == NEXT { CLOSE } else { START })
}
