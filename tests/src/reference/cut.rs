//! Document 01, for demand 3: the matchings of antiscenarios cut down to the antecedent's points.
use super::log::Log;
use super::operations::every_matching;
use super::rows::{matchings, placement_count, points, Placement};
use super::sheet::{Row, Sheet};
use super::weeded::{by_section, Plan};
use std::collections::HashMap;

/// Below so many placements, the matchings of an antiscenario are all written out and cut down.
const FEW: u64 = 82;

/// What the matchings of a sheet's antiscenarios on a log can be cut down to, and are.
pub struct CutDown<'a> {
    log: &'a Log,
    antecedent: Vec<Row>,
    /// The antecedent's matchings, smallest first.
    pub fronts: Vec<Vec<u32>>,
    /// Which fronts extend to a matching of the rows that a consequent gives to an antiscenario; many antiscenarios have the same ones.
    extending: HashMap<Vec<Row>, Vec<bool>>,
}

impl<'a> CutDown<'a> {
    pub fn new(sheet: &Sheet, log: &'a Log) -> CutDown<'a> {
        let antecedent = sheet.section(0);
        let fronts = every_matching(&antecedent, log);
        CutDown { log, antecedent, fronts, extending: HashMap::new() }
    }

    /// The fronts, each with whether a matching of the antiscenario is cut down to it.
    pub fn of(&mut self, antiscenario: &[Row]) -> Vec<bool> {
        match placement_count(self.log, points(antiscenario).len(), FEW) < FEW {
            true => self.written_out(antiscenario),
            false => self.by_section(antiscenario),
        }
    }

    pub fn written_out(&self, antiscenario: &[Row]) -> Vec<bool> {
        let kept = points(&self.antecedent).len();
        let cut: Vec<Vec<u32>> = matchings(antiscenario, self.log).iter().map(|positions| positions[..kept].to_vec()).collect();
        assert!(cut.iter().all(|front| self.fronts.contains(front)), "an antiscenario has the antecedent's rows");
        self.fronts.iter().map(|front| cut.contains(front)).collect()
    }

    /// A front extends to a matching of the antiscenario if it does to one of each consequent's rows there.
    pub fn by_section(&mut self, antiscenario: &[Row]) -> Vec<bool> {
        let (antecedent, consequents) = by_section(antiscenario);
        assert_eq!(antecedent, self.antecedent, "an antiscenario has the antecedent's rows");
        let mut all = vec![true; self.fronts.len()];
        for rows in consequents {
            let extending = self.extending(rows);
            all.iter_mut().zip(extending).for_each(|(all, one)| *all &= one);
        }
        all
    }

    /// The fronts, each with the lowest number of an antiscenario that has a matching cut down to it: one denial of every consequent is chosen,
    /// whichever extends the front, for each consequent by itself. No number is gone through, however large N is.
    pub fn reaching(&mut self, sheet: &Sheet) -> Vec<Option<u64>> {
        let mut before: Vec<Option<u64>> = vec![Some(0); self.fronts.len()];
        for denials in &sheet.denials {
            let mut chosen = vec![None; self.fronts.len()];
            for (choice, denial) in denials.iter().enumerate().rev() {
                let extending = self.extending(denial.clone());
                chosen.iter_mut().zip(extending).filter(|(_, extends)| **extends).for_each(|(chosen, _)| *chosen = Some(choice));
            }
            let mixed = |before: u64, chosen: usize| before * denials.len() as u64 + chosen as u64;
            before = before.into_iter().zip(chosen).map(|(before, chosen)| Some(mixed(before?, chosen?))).collect();
        }
        before.into_iter().map(|before| before.map(|before| before + 1)).collect()
    }

    fn extending(&mut self, rows: Vec<Row>) -> &[bool] {
        self.extending.entry(rows).or_insert_with_key(|rows| {
            let (plan, points) = (Plan::new(rows, self.log), points(&self.antecedent));
            self.fronts.iter().map(|front| plan.has_matching(&Placement::of(self.log, &points, front))).collect()
        })
    }
}
