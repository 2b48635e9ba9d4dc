//! Document 02, A11: slips in a rearrangement, each put on what its definition gives.
use super::antiscenario::{choices, is_of_denial, number_of};
use super::blunder::Blunder;
use super::rearranged::{inverse, moved_row, renumbered, Rearrangement};
use super::sheet::{kind::*, Row};

/// A rearrangement with one of these slips, or with none.
#[derive(Clone, Debug)]
pub struct Rearranging {
    pub due: Rearrangement,
    pub slip: Blunder,
}

impl Rearranging {
    /// The rearranged sheet's text.
    pub fn sheet(&self, text: &[u8]) -> Vec<u8> {
        self.inverted_by(Blunder::InverseInSheet).text_by(text, |row, place| self.row(row, place))
    }

    /// That which undoes this one, with the same slip.
    pub fn back(&self) -> Rearranging {
        Rearranging { due: self.due.back(), slip: self.slip }
    }

    /// What an antiscenario's text becomes.
    pub fn antiscenario(&self, text: &[u8]) -> Vec<u8> {
        let parts = self.inverted_by(Blunder::InverseInParts);
        match self.slip {
            Blunder::PartsStay => {
                let places = inverse(&parts.order);
                let unmoved = Rearrangement { order: (1..=places.len() as u32).collect(), ..parts };
                unmoved.text_by(text, |row, consequent| moved_row(row, places[consequent as usize - 1]))
            }
            Blunder::PartsKeepSections => parts.text_by(text, |row, _| *row),
            _ => parts.text_by(text, |row, place| self.row(row, place)),
        }
    }

    /// What number m becomes; one that there is not stays.
    pub fn number(&self, m: u64) -> u64 {
        let Rearrangement { denials, .. } = &self.due;
        if m < 1 || m > denials.iter().product() {
            return m;
        }
        match self.slip {
            Blunder::NumbersStay => m,
            Blunder::NumbersByOldCounts => number_of(&self.due.in_order(&choices(m, denials)), denials),
            Blunder::FirstChoiceFastest => {
                let turned = |of_each: &[u64]| of_each.iter().rev().copied().collect::<Vec<u64>>();
                let chosen = turned(&choices(m, &turned(denials)));
                number_of(&turned(&self.due.in_order(&chosen)), &turned(&self.due.in_order(denials)))
            }
            _ => self.inverted_by(Blunder::InverseInNumbers).number(m),
        }
    }

    pub fn rows_at_fault(&self, rows: &[u32]) -> Vec<u32> {
        let due = &self.due;
        match self.slip {
            Blunder::FaultsStay => rows.to_vec(),
            Blunder::FaultsKeepNumbers => due.in_order(rows),
            Blunder::FaultsKeepPlaces => due.back().in_order(&due.rows_at_fault(rows)),
            Blunder::FaultsByOldLengths => {
                let moved =
                    |(place, row): (u32, &u32)| row - due.rows_before(due.order[place as usize - 1]) + due.rows_before(place);
                (1..).zip(&due.in_order(rows)).map(moved).collect()
            }
            _ => self.inverted_by(Blunder::InverseInFaults).rows_at_fault(rows),
        }
    }

    pub fn positions(&self, rows: &[Row], positions: &[u32]) -> Vec<u32> {
        match self.slip {
            Blunder::PositionsStay => positions.to_vec(),
            _ => self.inverted_by(Blunder::InverseInPositions).positions(rows, positions),
        }
    }

    /// The rearrangement, by the inverse order if this is the slip.
    fn inverted_by(&self, slip: Blunder) -> Rearrangement {
        let Rearrangement { order, .. } = &self.due;
        Rearrangement { order: if self.slip == slip { inverse(order) } else { order.clone() }, ..self.due.clone() }
    }

    fn row(&self, row: &Row, place: u32) -> Row {
        let (due, moved) = (moved_row(row, place), |number| renumbered(number, row.section, place));
        let has_set = [POINT, NEXT, LAST, FREE, EVENT].contains(&row.kind);
        let has_limits = [WITHIN, OUTSIDE].contains(&row.kind);
        match self.slip {
            Blunder::PStays => Row { p: row.p, ..due },
            Blunder::QStays => Row { q: row.q, ..due },
            Blunder::OtherPointStays => Row { a: row.a, ..due },
            Blunder::SparePointStays => {
                let point = |point, due| if is_of_denial(point) { point } else { due };
                Row { p: point(row.p, due.p), q: point(row.q, due.q), ..due }
            }
            Blunder::AntecedentRenumbered => {
                let point = |point| if (1..10).contains(&point) { 10 * place + point } else { point };
                Row { p: point(due.p), q: point(due.q), ..due }
            }
            Blunder::SetRenumbered if has_set => Row { a: moved(row.a), ..due },
            Blunder::LowerLimitRenumbered if has_limits => Row { a: moved(row.a), ..due },
            Blunder::UpperLimitRenumbered if has_limits => Row { b: moved(row.b), ..due },
            _ => due,
        }
    }
}
