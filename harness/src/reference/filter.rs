//! Filters: they take pairs out of rows that no placement can use.

use super::agreement::Scene;
use super::rows::{bays, empty, first_past, only, pairs};

/// The most units whose rows a filter narrows.
pub const MOST_UNITS: usize = 24;

#[derive(Clone, Debug, PartialEq, Eq)]
pub enum Filter {
    Open,
    JointCount,
    Support,
    /// One after the other.
    Chained(Vec<Filter>),
    /// Again and again until it takes nothing away.
    Repeated(Box<Filter>),
}

/// How many pairs were taken away and how many rows are empty now.
#[derive(Clone, Copy, Debug, PartialEq, Eq)]
pub struct Counts {
    pub taken: usize,
    pub empty: usize,
}

impl Filter {
    /// The filter of a job: joint count, then support.
    pub fn of_a_job() -> Filter {
        Filter::Chained(vec![Filter::JointCount, Filter::Support])
    }

    /// Rows of the wrong shape are left alone; only their empty ones count.
    pub fn apply(&self, scene: &Scene, rows: &mut [u64]) -> Counts {
        let before = pairs(rows);
        if well_shaped(scene, rows) {
            self.narrow(scene, rows);
        }
        Counts { taken: before - pairs(rows), empty: empty(rows) }
    }

    fn narrow(&self, scene: &Scene, rows: &mut [u64]) {
        match self {
            Filter::Open => {}
            Filter::JointCount => keep_pairs(rows, |_, unit, bay| enough_joints(scene, unit, bay)),
            Filter::Support => keep_supported(scene, rows),
            Filter::Chained(filters) => filters.iter().for_each(|filter| filter.narrow(scene, rows)),
            Filter::Repeated(filter) => while filter.apply(scene, rows).taken > 0 {},
        }
    }
}

fn well_shaped(scene: &Scene, rows: &[u64]) -> bool {
    let inside = |row: &u64| first_past(*row, scene.bays()).is_none();
    rows.len() == scene.units() && scene.units() <= MOST_UNITS && rows.iter().all(inside)
}

/// Keeps the pairs that pass a test on the rows as they stood before.
fn keep_pairs(rows: &mut [u64], keeps: impl Fn(&[u64], usize, usize) -> bool) {
    let before = rows.to_vec();
    for (unit, row) in rows.iter_mut().enumerate() {
        let kept = bays(*row).filter(|&bay| keeps(&before, unit, bay));
        *row = kept.fold(0, |kept, bay| kept | only(bay));
    }
}

fn enough_joints(scene: &Scene, unit: usize, bay: usize) -> bool {
    let of_unit = scene.arrangement.joint_count(unit);
    let of_bay = scene.room.joint_count(bay);
    let gaps_of_unit = scene.units() - 1 - of_unit;
    let gaps_of_bay = scene.bays() - 1 - of_bay;
    of_bay >= of_unit && (!scene.strict || gaps_of_bay >= gaps_of_unit)
}

/// The greatest supported rows: drop what lacks support until nothing does.
/// With two units or more an empty row thereby empties all the others.
fn keep_supported(scene: &Scene, rows: &mut [u64]) {
    loop {
        let before = rows.to_vec();
        keep_pairs(rows, |rows, unit, bay| supported(scene, rows, unit, bay));
        if rows == before {
            return;
        }
    }
}

fn supported(scene: &Scene, rows: &[u64], unit: usize, bay: usize) -> bool {
    let mut others = (0..rows.len()).filter(|&other| other != unit);
    others.all(|other| scene.agreeing_bays(unit, bay, other) & rows[other] != 0)
}
