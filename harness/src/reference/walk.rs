//! The walk that finds placements in dictionary order and counts its tries.

use super::agreement::Scene;
use super::filter::Filter;
use super::refusal::Stop;
use super::rows::{bays, empty, only};

/// A placement, the bay of each unit in order, and the tries it took.
#[derive(Clone, Debug, PartialEq, Eq)]
pub struct Found {
    pub bays: Vec<usize>,
    pub tries: u32,
}

/// The first placement within `rows`, or the first after `last`.
/// The reference gives up after `patience` tries.
pub fn search(
    scene: &Scene,
    filter: &Filter,
    rows: &[u64],
    last: Option<&[usize]>,
    patience: u32,
) -> Result<Found, Stop> {
    let mut walk = Walk { scene, filter, last, tries: 0, patience, settled: Vec::new() };
    let mut start = rows.to_vec();
    filter.apply(scene, &mut start);
    if empty(&start) == 0 && walk.settle_from(&start, last.is_some())? {
        return Ok(Found { bays: walk.settled, tries: walk.tries });
    }
    Err(Stop::NoPlacement { tries: walk.tries })
}

struct Walk<'a> {
    scene: &'a Scene,
    filter: &'a Filter,
    last: Option<&'a [usize]>,
    tries: u32,
    patience: u32,
    /// The bays of the units settled so far.
    settled: Vec<usize>,
}

impl Walk<'_> {
    /// Settles the next unit and those after it. `beside` tells that all
    /// earlier bays equal those of the last answer.
    fn settle_from(&mut self, rows: &[u64], beside: bool) -> Result<bool, Stop> {
        let unit = self.settled.len();
        if unit == self.scene.units() {
            return Ok(true);
        }
        for bay in bays(rows[unit]) {
            if beside && self.passed_over(unit, bay) {
                continue;
            }
            if let Some(left) = self.try_bay(rows, unit, bay)? {
                let still_beside = beside && self.last.is_some_and(|last| last[unit] == bay);
                self.settled.push(bay);
                if self.settle_from(&left, still_beside)? {
                    return Ok(true);
                }
                self.settled.pop();
            }
        }
        Ok(false)
    }

    fn passed_over(&self, unit: usize, bay: usize) -> bool {
        let last_unit = unit + 1 == self.scene.units();
        self.last.is_some_and(|last| bay < last[unit] || (last_unit && bay == last[unit]))
    }

    /// One try; answers the rows that it leaves, or none if it fails.
    fn try_bay(&mut self, rows: &[u64], unit: usize, bay: usize) -> Result<Option<Vec<u64>>, Stop> {
        if self.tries == self.patience {
            return Err(Stop::TooLong);
        }
        self.tries += 1;
        let mut left = rows.to_vec();
        left[unit] = only(bay);
        for later in unit + 1..left.len() {
            left[later] &= self.scene.agreeing_bays(unit, bay, later);
        }
        self.filter.apply(self.scene, &mut left);
        Ok((empty(&left) == 0).then_some(left))
    }
}
