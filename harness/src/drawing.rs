//! Random sound jobs, and their bytes part by part so that any part can be made ill.

use crate::chance::Chance;
use crate::graphs;
use crate::reference::job::Job;
use crate::reference::rows::{all_below, bays, only};

/// How large a drawing may be.
#[derive(Clone, Copy, Debug, PartialEq, Eq)]
pub enum Size {
    Tiny,
    Small,
    Middle,
    Large,
}

/// A sound job before it is written.
#[derive(Clone, Debug)]
pub struct Drawing {
    pub strict: bool,
    pub edition: u16,
    pub arrangement: Vec<u64>,
    pub room: Vec<u64>,
    pub kinds: Vec<u8>,
    pub heights: Vec<u16>,
    pub struck: Vec<u64>,
}

impl Drawing {
    pub fn random(chance: &mut Chance, size: Size) -> Drawing {
        let (units, bays) = sizes(chance, size);
        let room = graphs::room(chance, bays);
        let arrangement = graphs::arrangement(chance, units, &room);
        Drawing {
            strict: chance.percent(35),
            edition: chance.between(1, 2) as u16,
            arrangement,
            room,
            kinds: kinds(chance, units),
            heights: heights(chance, bays),
            struck: struck(chance, units, bays),
        }
    }

    /// One unit that may stand on exactly `open` of the bays.
    pub fn single_unit(chance: &mut Chance, open: usize) -> Drawing {
        let bays = chance.between(open.max(1), 64);
        let mut left = all_below(bays);
        while left.count_ones() as usize > open {
            left &= !only(chance.below(bays));
        }
        Drawing {
            strict: chance.percent(50),
            edition: 1,
            arrangement: vec![0],
            room: graphs::room(chance, bays),
            kinds: vec![0],
            heights: heights(chance, bays),
            struck: vec![all_below(bays) & !left],
        }
    }

    /// Strikes pairs until about `wanted` placements are left.
    pub fn trim(&mut self, chance: &mut Chance, wanted: usize) {
        for _ in 0..80 {
            match self.placements(wanted + 1) {
                Some(count) if count > wanted => self.strike_unless_below(chance, wanted),
                _ => return,
            }
        }
    }

    fn strike_unless_below(&mut self, chance: &mut Chance, wanted: usize) {
        let (unit, bay) = (chance.below(self.struck.len()), chance.below(self.room.len()));
        let before = self.struck[unit];
        self.struck[unit] |= only(bay);
        if self.placements(wanted).is_none_or(|count| count < wanted) {
            self.struck[unit] = before;
        }
    }

    /// How many placements there are, counted up to `most`; none if it takes long.
    fn placements(&self, most: usize) -> Option<usize> {
        let job = Job::read(&self.parts().bytes()).expect("a drawing is sound");
        job.placements(most, 2000).ok().map(|(placements, _)| placements.len())
    }

    pub fn parts(&self) -> Parts {
        Parts {
            strictness: u8::from(self.strict),
            edition: self.edition,
            arrangement: RawTable::of(&self.arrangement, self.arrangement.len()),
            room: RawTable::of(&self.room, self.room.len()),
            kinds: self.kinds.clone(),
            heights: self.heights.clone(),
            form: 2,
            plan: RawTable::of(&self.struck, self.room.len()),
            tail: Vec::new(),
        }
    }
}

fn sizes(chance: &mut Chance, size: Size) -> (usize, usize) {
    match size {
        Size::Tiny => (chance.between(1, 3), chance.between(1, 5)),
        Size::Small => (chance.between(1, 4), chance.between(1, 8)),
        Size::Middle => (chance.between(2, 9), chance.between(4, 20)),
        Size::Large => {
            let units = chance.pick(&[10, 14, 18, 22, 23, 24, 24]);
            let bays = chance.pick(&[24, 30, 36, 48, 56, 60, 63, 64, 64]);
            (units, bays)
        }
    }
}

/// Mostly kinds that stand nearly anywhere; a few that suit no bay.
fn kinds(chance: &mut Chance, count: usize) -> Vec<u8> {
    let stray = chance.percent(4);
    let kind = |chance: &mut Chance| match chance.percent(50) {
        true => chance.pick(&[0, 6]),
        false => chance.below(8) as u8,
    };
    let mut kinds: Vec<u8> = (0..count).map(|_| kind(chance)).collect();
    if stray {
        let unit = chance.below(count);
        kinds[unit] = chance.between(8, 255) as u8;
    }
    kinds
}

/// Heights at and around the figures of the book, or all of them generous.
fn heights(chance: &mut Chance, count: usize) -> Vec<u16> {
    let figures = [0, 299, 300, 449, 450, 599, 600, 649, 650, 749, 750, 899, 900, 1299, 1300, 65535];
    let generous = chance.pick(&[50, 80, 100]);
    let height = |chance: &mut Chance| match chance.percent(generous) {
        true => chance.pick(&[1300, 2400, 65535]),
        false => chance.pick(&figures),
    };
    (0..count).map(|_| height(chance)).collect()
}

fn struck(chance: &mut Chance, units: usize, bay_count: usize) -> Vec<u64> {
    let share = chance.pick(&[0, 0, 3, 10, 30]);
    let row = |chance: &mut Chance| {
        let struck = bays(all_below(bay_count)).filter(|_| chance.percent(share));
        struck.fold(0, |row, bay| row | only(bay))
    };
    (0..units).map(|_| row(chance)).collect()
}

/// A stored table as it is written, sound or not.
#[derive(Clone, Debug)]
pub struct RawTable {
    pub rows: u8,
    pub columns: u8,
    pub map: u64,
    pub stored: Vec<u64>,
}

impl RawTable {
    pub fn of(rows: &[u64], columns: usize) -> RawTable {
        let stored = |row: &&u64| **row != 0;
        let map = (0..rows.len()).filter(|index| rows[*index] != 0);
        RawTable {
            rows: rows.len() as u8,
            columns: columns as u8,
            map: map.fold(0, |map, index| map | only(index)),
            stored: rows.iter().filter(stored).copied().collect(),
        }
    }

    pub fn bytes(&self) -> Vec<u8> {
        let mut bytes = vec![self.rows, self.columns];
        bytes.extend(self.map.to_le_bytes());
        self.stored.iter().for_each(|row| bytes.extend(row.to_le_bytes()));
        bytes
    }
}

/// The parts of a job as they are written, sound or not.
#[derive(Clone, Debug)]
pub struct Parts {
    pub strictness: u8,
    pub edition: u16,
    pub arrangement: RawTable,
    pub room: RawTable,
    pub kinds: Vec<u8>,
    pub heights: Vec<u16>,
    pub form: u8,
    pub plan: RawTable,
    pub tail: Vec<u8>,
}

impl Parts {
    pub fn bytes(&self) -> Vec<u8> {
        let mut bytes = vec![self.strictness];
        bytes.extend(self.edition.to_le_bytes());
        bytes.extend(self.arrangement.bytes());
        bytes.extend(self.room.bytes());
        bytes.extend(&self.kinds);
        self.heights.iter().for_each(|height| bytes.extend(height.to_le_bytes()));
        bytes.extend(self.saved_plan());
        bytes
    }

    pub fn saved_plan(&self) -> Vec<u8> {
        let mut bytes = vec![self.form];
        bytes.extend(self.plan.bytes());
        bytes.extend(&self.tail);
        bytes
    }
}
