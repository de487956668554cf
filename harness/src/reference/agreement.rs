//! When two pairs of a unit with a bay agree, and what a placement is.

use super::graph::Graph;
use super::rows::{all_below, only};

/// An arrangement to be placed in a room.
#[derive(Clone, Debug)]
pub struct Scene {
    pub arrangement: Graph,
    pub room: Graph,
    pub strict: bool,
    /// For each bay the bays joined to it, so that a filter need not ask bay by bay.
    joined_bays: Vec<u64>,
}

impl Scene {
    pub fn new(arrangement: Graph, room: Graph, strict: bool) -> Scene {
        let joined_to = |bay: usize| {
            let joined = (0..room.count()).filter(|&other| room.joined(bay, other));
            joined.fold(0, |row, other| row | only(other))
        };
        let joined_bays = (0..room.count()).map(joined_to).collect();
        Scene { arrangement, room, strict, joined_bays }
    }

    pub fn units(&self) -> usize {
        self.arrangement.count()
    }

    pub fn bays(&self) -> usize {
        self.room.count()
    }

    /// The rule itself, for two different units.
    pub fn agree(&self, (unit, bay): (usize, usize), (other, place): (usize, usize)) -> bool {
        let units_joined = self.arrangement.joined(unit, other);
        let bays_joined = self.room.joined(bay, place);
        bay != place && (!units_joined || bays_joined) && (!self.strict || units_joined || !bays_joined)
    }

    /// The bays of `other` that agree with `unit` on `bay`, as a row.
    pub fn agreeing_bays(&self, unit: usize, bay: usize, other: usize) -> u64 {
        let elsewhere = all_below(self.bays()) & !only(bay);
        if self.arrangement.joined(unit, other) {
            self.joined_bays[bay]
        } else if self.strict {
            elsewhere & !self.joined_bays[bay]
        } else {
            elsewhere
        }
    }

    /// Whether every two of the units agree; `bays[unit]` is the unit's bay.
    pub fn is_placement(&self, bays: &[usize]) -> bool {
        let pairs = || bays.iter().copied().enumerate();
        pairs().all(|one| pairs().all(|two| one.0 == two.0 || self.agree(one, two)))
    }
}

#[cfg(test)]
mod tests {
    use super::*;
    use crate::reference::graph::Source;
    use crate::reference::rows::holds;

    #[test]
    fn agreeing_bays_are_those_that_agree() {
        let path = Source::Table { rows: vec![2, 5, 2], columns: 3 }.take();
        let grid = Source::Grid { columns: 3, levels: 2 }.take();
        for strict in [false, true] {
            let scene = Scene::new(path.clone(), grid.clone(), strict);
            for (unit, other) in [(0, 1), (1, 0), (0, 2), (2, 0), (1, 2)] {
                for bay in 0..6 {
                    let row = scene.agreeing_bays(unit, bay, other);
                    for place in 0..6 {
                        assert_eq!(holds(row, place), scene.agree((unit, bay), (other, place)));
                    }
                }
            }
        }
    }
}
