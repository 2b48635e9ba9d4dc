//! How far the check with a limit has come, besides its verdict. Of a check without a limit nothing is said.
use crate::json::Object;
use crate::words::grouped;
use satskhubo_interface::answer::Looked;

/// What to do where a check stopped.
pub const HOW_TO_GO_ON: &str =
    "this is neither holds nor violated; a larger --limit goes further, and without --limit the check goes to the end";

/// Columns behind refusal and verdict.
pub fn looked_in_columns(looked: Option<Looked>) -> String {
    match looked {
        Some(Looked { matchings, placements_after }) => format!("{matchings:>16}{placements_after:>16}"),
        None => String::new(),
    }
}

pub fn looked_in_object(object: Object, looked: Option<Looked>) -> Object {
    match looked {
        Some(Looked { matchings, placements_after }) => object.number("looked", matchings).number("after", placements_after),
        None => object,
    }
}

/// Of a log that holds, behind the verdict.
pub fn all_looked_at(looked: Option<Looked>) -> String {
    match looked.map(|looked| looked.matchings) {
        None => String::new(),
        Some(0) => "; the antecedent has no matching".to_string(),
        Some(1) => "; the antecedent has 1 matching, which was looked at".to_string(),
        Some(matchings) => format!("; the antecedent has {} matchings, all looked at", grouped(matchings)),
    }
}

/// Of a violation, in which so many points are placed: it is the last matching that was looked at.
pub fn up_to_this(looked: Looked, points: usize) -> String {
    let after = placements(looked.placements_after, points, ["comes after it", "come after it"]);
    match looked.matchings {
        1 => format!("1 matching of the antecedent was looked at, this one; {after}"),
        matchings => format!("{} matchings of the antecedent were looked at, this one last; {after}", grouped(matchings)),
    }
}

/// Of a check that stopped, behind this word. The antecedent, by its name, has so many points.
pub fn so_far(looked: Looked, antecedent: &str, points: usize) -> String {
    let rest = |verbs| placements(looked.placements_after, points, verbs);
    match looked.matchings {
        0 => {
            let left = rest(["is left", "are left"]);
            format!("before the first matching of {antecedent}, since the limit is 0; there is at least one, and {left}")
        }
        1 => {
            let after = rest(["comes after it", "come after it"]);
            format!("after the first matching of {antecedent}, which is in order; there is at least one more, and {after}")
        }
        matchings => {
            let after = rest(["comes after the last one looked at", "come after the last one looked at"]);
            let first = format!("the first {} matchings of {antecedent}, all of them in order", grouped(matchings));
            format!("after {first}; there is at least one more, and {after}")
        }
    }
}

/// So many placements of so many points, with a verb in the singular and in the plural.
fn placements(count: u64, points: usize, [one, several]: [&str; 2]) -> String {
    let of = match points {
        0 => String::new(),
        1 => " of point 1".to_string(),
        2 => " of points 1 and 2".to_string(),
        _ => format!(" of points 1 to {points}"),
    };
    match count {
        0 => format!("no placement{of} {one}"),
        1 => format!("1 placement{of} {one}"),
        _ => format!("{} placements{of} {several}", grouped(count)),
    }
}

#[cfg(test)]
mod tests {
    use super::placements;

    #[test]
    fn so_many_of_so_many_points() {
        let said = |count, points| placements(count, points, ["is left", "are left"]);
        assert_eq!(said(0, 1), "no placement of point 1 is left");
        assert_eq!(said(1, 0), "1 placement is left");
        assert_eq!(said(1, 2), "1 placement of points 1 and 2 is left");
        assert_eq!(said(2, 3), "2 placements of points 1 to 3 are left");
        assert_eq!(said(256_000_000_000_000, 4), "256,000,000,000,000 placements of points 1 to 4 are left");
    }
}
