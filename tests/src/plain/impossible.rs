//! Whether an antiscenario is impossible: joined points have one number, sets are met in one word, and orders are sets of points.
use super::sheet::Row;

/// Points are 0 to 99.
const POINTS: usize = 100;

/// The number of the point with which it is one.
#[inline]
fn root(joined: &[u8; POINTS], mut point: u8) -> u8 {
    while joined[point as usize] != point {
        point = joined[point as usize];
    }
    point
}

fn joined(rows: &[Row]) -> [u8; POINTS] {
    let mut joined = std::array::from_fn(|point| point as u8);
    for row in rows.iter().filter(|row| row.kind == 8) {
        let (p, q) = (root(&joined, row.p), root(&joined, row.q));
        joined[p.max(q) as usize] = p.min(q);
    }
    joined
}

/// Points with none above them are taken away, one after another; those on a way back stay, and those below them.
fn leads_back(above: &[u128; POINTS], mut left: u128) -> bool {
    loop {
        let (before, mut look) = (left, left);
        while look != 0 {
            let point = look.trailing_zeros() as usize;
            look &= look - 1;
            if above[point] & left == 0 {
                left &= !(1 << point);
            }
        }
        if left == before {
            return left != 0;
        }
    }
}

pub fn is_impossible(rows: &[Row]) -> bool {
    let joined = joined(rows);
    let mut events = [u64::MAX; POINTS];
    let mut above = [0; POINTS];
    let mut left = 0;
    for row in rows {
        if ![1, 2, 3, 6, 7, 12].contains(&row.kind) {
            continue;
        }
        let (p, q) = (root(&joined, row.p) as usize, root(&joined, row.q) as usize);
        if [1, 2, 3, 12].contains(&row.kind) {
            events[p] &= row.set();
        }
        if events[p] == 0 || row.kind == 7 && p == q {
            return true;
        }
        let (lower, higher) = match row.kind {
            3 | 6 => (p, q),
            2 => (q, p),
            _ => continue,
        };
        above[lower] |= 1 << higher;
        left |= 1 << lower;
    }
    leads_back(&above, left)
}
