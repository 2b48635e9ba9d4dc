//! Document 02, A11: a sheet with its consequents in another order, points renumbered to fit, and where all that is said of it moves.
use super::antiscenario::{choices, denial_counts, number_of};
use super::sheet::{self, kind::*, Row, Sheet, FIRST_LINE};

/// Document 02, A11: a rearrangement of a sheet's consequents.
#[derive(Clone, Debug)]
pub struct Rearrangement {
    /// The consequent that comes to each place, both from 1.
    pub order: Vec<u32>,
    /// How many rows the antecedent has, and each consequent.
    pub lengths: Vec<u32>,
    /// How many denials each consequent has.
    pub denials: Vec<u64>,
}

/// Every order of so many consequents, that of the sheet first.
pub fn every_order(k: u32) -> Vec<Vec<u32>> {
    if k == 0 {
        return vec![vec![]];
    }
    let inserted = |order: &[u32], place: usize| [&order[..place], &[k], &order[place..]].concat();
    let longer = |order: Vec<u32>| (0..k as usize).rev().map(move |place| inserted(&order, place));
    every_order(k - 1).into_iter().flat_map(longer).collect()
}

/// The place that each consequent comes to.
pub fn inverse(order: &[u32]) -> Vec<u32> {
    let place_of = |consequent| 1 + order.iter().position(|other| *other == consequent).expect("each comes once") as u32;
    (1..=order.len() as u32).map(place_of).collect()
}

/// "points renumbered to fit": point 10j + t of consequent j becomes 10i + t. The antecedent's points stay, and so do the start and the close.
pub fn renumbered(point: u32, from: u32, to: u32) -> u32 {
    match point / 10 == from {
        true => point - 10 * from + 10 * to,
        false => point,
    }
}

/// A consequent's row as it stands in its new place; a is a point in kinds 4 and 5 alone.
pub fn moved_row(row: &Row, place: u32) -> Row {
    let moved = |point| renumbered(point, row.section, place);
    let a = if [EARLIER, LATER].contains(&row.kind) { moved(row.a) } else { row.a };
    Row { section: place, p: moved(row.p), q: moved(row.q), a, ..*row }
}

impl Rearrangement {
    pub fn new(sheet: &Sheet, order: &[u32]) -> Rearrangement {
        Rearrangement {
            order: order.to_vec(),
            lengths: (0..=sheet.k).map(|section| sheet.section(section).len() as u32).collect(),
            denials: denial_counts(sheet),
        }
    }

    /// What each consequent has, in the new order.
    pub fn in_order<T: Copy>(&self, of_each: &[T]) -> Vec<T> {
        self.order.iter().map(|consequent| of_each[*consequent as usize - 1]).collect()
    }

    /// That of the rearranged sheet which undoes this one.
    pub fn back(&self) -> Rearrangement {
        let lengths = [&self.lengths[..1], &self.in_order(&self.lengths[1..])].concat();
        Rearrangement { order: inverse(&self.order), lengths, denials: self.in_order(&self.denials) }
    }

    /// A text's rows rearranged, each moved to its place: the antecedent's, then each consequent's in the new order. The first line stays, since
    /// neither k nor the row count changes.
    pub fn text_by(&self, text: &[u8], moved: impl Fn(&Row, u32) -> Row) -> Vec<u8> {
        let rows = sheet::rows_of(text);
        let mut rearranged = text[..FIRST_LINE].to_vec();
        for (place, section) in (0..).zip([0].iter().chain(&self.order)) {
            let part = rows.iter().filter(|row| row.section == *section);
            rearranged.extend(part.flat_map(|row| if place == 0 { row.text() } else { moved(row, place).text() }));
        }
        rearranged
    }

    /// The rearranged sheet's text from the sheet's; and of an antiscenario's text that of the same pattern in the rearranged sheet, whose parts are in
    /// another order.
    pub fn text(&self, text: &[u8]) -> Vec<u8> {
        self.text_by(text, moved_row)
    }

    /// "under moved numbers": that of antiscenario m in the rearranged sheet has its choices, in the new order.
    pub fn number(&self, m: u64) -> u64 {
        number_of(&self.in_order(&choices(m, &self.denials)), &self.in_order(&self.denials))
    }

    /// The rows before a consequent's.
    pub fn rows_before(&self, consequent: u32) -> u32 {
        self.lengths[..consequent as usize].iter().sum()
    }

    /// "The rows at fault move with their consequents": each comes to its consequent's place, and by its number as far as its consequent.
    pub fn rows_at_fault(&self, rows: &[u32]) -> Vec<u32> {
        let rearranged = self.back();
        let from = self.order.iter().map(|consequent| self.rows_before(*consequent));
        let to = (1..).map(|place| rearranged.rows_before(place));
        self.in_order(rows).into_iter().zip(from).zip(to).map(|((row, from), to)| row - from + to).collect()
    }

    /// A placement of an antiscenario's points, by its rows: the antecedent's positions, then those of each part in the new order.
    pub fn positions(&self, rows: &[Row], positions: &[u32]) -> Vec<u32> {
        let introducing: Vec<&Row> = rows.iter().filter(|row| row.introduces()).collect();
        let mut moved = Vec::new();
        for section in [0].iter().chain(&self.order) {
            let part = introducing.iter().zip(positions).filter(|(row, _)| row.section == *section);
            moved.extend(part.map(|(_, position)| *position));
        }
        moved
    }
}

#[cfg(test)]
mod tests {
    use super::*;
    use crate::reference::antiscenario::antiscenario;
    use crate::reference::blunder::Blunder;
    use crate::reference::rows::points;

    /// The first consequent has a point, a limit and a set that are numbers of points, and five denials; the second has one, the third two.
    fn sheet() -> Vec<u8> {
        let antecedent = [Row::new(0, POINT, 1, 0, 11, 0), Row::new(0, POINT, 2, 0, 2, 0)];
        let first = [
            Row::new(1, LATER, 11, 1, 2, 0),
            Row::new(1, EARLIER, 12, 2, 11, 0),
            Row::new(1, WITHIN, 12, 99, 11, 12),
            Row::new(1, FREE, 0, 11, 12, 0),
            Row::new(1, NEXT, 13, 12, 11, 11),
            Row::new(1, BEFORE, 2, 13, 0, 0),
        ];
        let second = [Row::new(2, SAME, 1, 2, 0, 0)];
        let third = [Row::new(3, LAST, 31, 99, 31, 0), Row::new(3, EVENT, 31, 0, 31, 31)];
        sheet::text(3, &[&antecedent[..], &first, &second, &third].concat())
    }

    fn read(text: &[u8]) -> Sheet {
        sheet::read(text, Blunder::None).expect("accepted")
    }

    #[test]
    fn orders() {
        assert_eq!([0, 1].map(every_order), [vec![vec![]], vec![vec![1]]]);
        let of_three = [[1, 2, 3], [1, 3, 2], [3, 1, 2], [2, 1, 3], [2, 3, 1], [3, 2, 1]];
        assert_eq!(every_order(3), of_three);
        assert_eq!(of_three.map(|order| inverse(&order)), [[1, 2, 3], [1, 3, 2], [2, 3, 1], [2, 1, 3], [3, 1, 2], [3, 2, 1]]);
        assert_eq!(every_order(6).len(), 720);
    }

    #[test]
    fn points_and_rows() {
        assert_eq!([0, 4, 11, 18, 19, 21, 99].map(|point| renumbered(point, 1, 6)), [0, 4, 61, 68, 69, 21, 99]);
        let due = "  3 11
  0  1  1  0         11          0
  0  1  2  0          2          0
  1  8  1  2          0          0
  2  3 21 99         31          0
  2 12 21  0         31         31
  3  5 31  1          2          0
  3  4 32  2         31          0
  3 10 32 99         11         12
  3  9  0 31         12          0
  3  2 33 32         11         11
  3  6  2 33          0          0
";
        let text = sheet();
        let rearrangement = Rearrangement::new(&read(&text), &[2, 3, 1]);
        let rearranged = rearrangement.text(&text);
        assert_eq!(String::from_utf8(rearranged.clone()).unwrap(), due);
        assert_eq!(rearrangement.back().text(&rearranged), text);
    }

    /// Number 9 has choices 4, 0 and 0 of 5, 1 and 2, both from 0; in the new order 0, 0 and 4.
    #[test]
    fn numbers_and_faults() {
        let rearrangement = Rearrangement::new(&read(&sheet()), &[2, 3, 1]);
        assert_eq!(rearrangement.denials, [5, 1, 2]);
        assert_eq!(choices(9, &rearrangement.denials), [4, 0, 0]);
        assert_eq!([1, 2, 3, 9, 10].map(|m| rearrangement.number(m)), [1, 6, 2, 5, 10]);
        // Rows 3 to 8, 9, and 10 and 11 become 6 to 11, 3, and 4 and 5.
        assert_eq!(rearrangement.rows_at_fault(&[5, 9, 11]), [3, 5, 8]);
        assert_eq!(rearrangement.back().rows_at_fault(&[3, 5, 8]), [5, 9, 11]);
    }

    /// Of the reference alone, in every order: what is written and placed is what the rearranged sheet has.
    #[test]
    fn antiscenarios() {
        let text = sheet();
        let first = read(&text);
        for order in every_order(3) {
            let rearrangement = Rearrangement::new(&first, &order);
            let second = read(&rearrangement.text(&text));
            let place_of = |consequent: u32| inverse(&order)[consequent as usize - 1];
            let moved_point = |point: u32| if point < 10 { point } else { renumbered(point, point / 10, place_of(point / 10)) };
            let mut numbers: Vec<u64> = (1..=first.count).map(|m| rearrangement.number(m)).collect();
            for (m, number) in (1..).zip(&numbers) {
                let (rows, moved) = (antiscenario(&first, m), antiscenario(&second, *number));
                assert_eq!(rearrangement.text(&sheet::text(3, &rows)), sheet::text(3, &moved), "{order:?}, number {m}");
                // Each point with its own new number for a position.
                let positions: Vec<u32> = points(&rows).into_iter().map(moved_point).collect();
                assert_eq!(rearrangement.positions(&rows, &positions), points(&moved), "{order:?}, number {m}");
            }
            numbers.sort();
            assert_eq!(numbers, (1..=first.count).collect::<Vec<_>>());
        }
    }
}
