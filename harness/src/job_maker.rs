//! An endless stream of jobs: sound ones, ill ones and damaged bytes.

use std::collections::VecDeque;

use crate::chance::Chance;
use crate::drawing::{Drawing, Parts, RawTable, Size};
use crate::graphs;
use crate::reference::rows::{all_below, bays, only};

pub struct JobMaker {
    chance: Chance,
    /// Jobs of a series still to be given out.
    waiting: VecDeque<Vec<u8>>,
}

impl JobMaker {
    pub fn new(seed: u64) -> JobMaker {
        let worked = worked_job();
        let mut waiting = VecDeque::from(truncations(&worked));
        waiting.push_front(worked);
        JobMaker { chance: Chance::new(seed), waiting }
    }

    pub fn next_job(&mut self) -> Vec<u8> {
        loop {
            if let Some(job) = self.waiting.pop_front() {
                return job;
            }
            self.waiting.extend(more_jobs(&mut self.chance));
        }
    }
}

/// Two units on three bays in a row.
pub fn worked_job() -> Vec<u8> {
    let drawing = Drawing {
        strict: false,
        edition: 2,
        arrangement: vec![2, 1],
        room: vec![2, 5, 2],
        kinds: vec![1, 3],
        heights: vec![700, 800, 700],
        struck: vec![0, 0],
    };
    drawing.parts().bytes()
}

/// Series are rare, because each gives many jobs.
fn more_jobs(chance: &mut Chance) -> Vec<Vec<u8>> {
    match chance.weighted(&[800, 120, 40, 250, 90, 4, 1, 4]) {
        0 => vec![any_drawing(chance).parts().bytes()],
        1 => vec![trimmed_job(chance)],
        2 => vec![single_unit_job(chance)],
        3 => vec![ill_job(chance)],
        4 => damaged_jobs(chance),
        5 => truncations(&tiny_job(chance)),
        6 => every_bit_changed(&tiny_job(chance)),
        _ => every_byte_changed(chance),
    }
}

fn any_drawing(chance: &mut Chance) -> Drawing {
    let sizes = [Size::Tiny, Size::Small, Size::Middle, Size::Large];
    let size = sizes[chance.weighted(&[10, 45, 32, 13])];
    Drawing::random(chance, size)
}

fn tiny_job(chance: &mut Chance) -> Vec<u8> {
    Drawing::random(chance, Size::Tiny).parts().bytes()
}

/// A job with a wanted number of placements, around the length of a listing.
fn trimmed_job(chance: &mut Chance) -> Vec<u8> {
    let size = chance.pick(&[Size::Small, Size::Small, Size::Middle]);
    let mut drawing = Drawing::random(chance, size);
    let wanted = chance.pick(&[1, 2, 19, 20, 20, 20, 21]);
    drawing.trim(chance, wanted);
    drawing.parts().bytes()
}

fn single_unit_job(chance: &mut Chance) -> Vec<u8> {
    let open = chance.pick(&[0, 1, 10, 19, 20, 20, 21, 22, 40]);
    Drawing::single_unit(chance, open).parts().bytes()
}

/// One or two parts are not as they should be.
fn ill_job(chance: &mut Chance) -> Vec<u8> {
    let size = chance.pick(&[Size::Tiny, Size::Small, Size::Middle, Size::Large]);
    let mut parts = Drawing::random(chance, size).parts();
    for _ in 0..chance.pick(&[1, 1, 1, 2]) {
        make_ill(chance, &mut parts);
    }
    parts.bytes()
}

pub fn make_ill(chance: &mut Chance, parts: &mut Parts) {
    match chance.weighted(&[3, 3, 3, 24, 6, 4, 6, 2]) {
        0 => parts.strictness = chance.between(2, 255) as u8,
        1 => parts.edition = chance.pick(&[0, 3, 4, 255, 256, 257, 258, 512, 513, 65535]),
        2 => parts.form = chance.pick(&[0, 1, 3, 4, 128, 255]),
        3 => ill_table(chance, parts),
        4 => other_plan_sizes(chance, parts),
        5 => many_units(chance, parts),
        6 => parts.tail = some_bytes(chance),
        _ => cards_missing_or_left(chance, parts),
    }
}

fn ill_table(chance: &mut Chance, parts: &mut Parts) {
    let table = match chance.below(3) {
        0 => &mut parts.arrangement,
        1 => &mut parts.room,
        _ => &mut parts.plan,
    };
    match chance.below(9) {
        0 => table.columns = table.columns.wrapping_add(chance.pick(&[1, 255])),
        1 => table.rows = table.rows.wrapping_add(chance.pick(&[1, 255])),
        2 => stored_bit(chance, table, |table, index| map_index(table.map, index)),
        3 => one_sided(chance, table),
        4 => stored_bit(chance, table, |table, _| table.columns as usize),
        5 => map_bit_past(chance, table),
        6 => zero_row(chance, table),
        7 => count_past_limit(chance, table),
        _ => no_rows_or_columns(chance, table),
    }
}

/// Sets one bit of one stored row, if it lies within the row.
fn stored_bit(chance: &mut Chance, table: &mut RawTable, bit: impl Fn(&RawTable, usize) -> usize) {
    if table.stored.is_empty() {
        return;
    }
    let index = chance.below(table.stored.len());
    let least = bit(table, index);
    if least < 64 {
        table.stored[index] |= only(least);
    }
    if least < 63 && chance.percent(30) {
        table.stored[index] |= only(chance.between(least, 63));
    }
}

/// The row that the stored row at `index` belongs to, while the map is sound.
fn map_index(map: u64, index: usize) -> usize {
    bays(map).nth(index).unwrap_or(63)
}

fn one_sided(chance: &mut Chance, table: &mut RawTable) {
    if table.stored.is_empty() || table.columns == 0 {
        return;
    }
    let index = chance.below(table.stored.len());
    table.stored[index] ^= only(chance.below(table.columns.min(64) as usize));
}

/// Sometimes with a row stored for it, sometimes without.
fn map_bit_past(chance: &mut Chance, table: &mut RawTable) {
    let count = table.rows as usize;
    if count >= 64 {
        return;
    }
    table.map |= only(chance.between(count, 63));
    if chance.percent(40) {
        table.map |= only(chance.between(count, 63));
    }
    if chance.percent(50) {
        table.stored.push(1);
    }
}

fn zero_row(chance: &mut Chance, table: &mut RawTable) {
    if table.stored.is_empty() {
        table.map |= 1;
        table.stored.push(0);
    } else {
        let index = chance.below(table.stored.len());
        table.stored[index] = 0;
    }
}

fn count_past_limit(chance: &mut Chance, table: &mut RawTable) {
    let count = chance.pick(&[65, 66, 100, 128, 255]);
    if chance.percent(50) {
        table.rows = count;
    } else {
        table.columns = count;
    }
}

fn no_rows_or_columns(chance: &mut Chance, table: &mut RawTable) {
    match chance.below(3) {
        0 => *table = RawTable::of(&[], table.columns as usize),
        1 => *table = RawTable::of(&vec![0; table.rows as usize], 0),
        _ => *table = RawTable::of(&[], 0),
    }
}

/// A sound plan for another drawing.
fn other_plan_sizes(chance: &mut Chance, parts: &mut Parts) {
    let units = chance.pick(&[1, parts.plan.rows.max(2) as usize - 1, parts.plan.rows as usize, 24]);
    let bays = chance.pick(&[1, parts.plan.columns.max(2) as usize - 1, parts.plan.columns as usize, 64]);
    let row = all_below(bays) & chance.bits();
    parts.plan = RawTable::of(&vec![row; units.min(64)], bays);
}

/// An arrangement that passes the look-over but is too large for any plan.
fn many_units(chance: &mut Chance, parts: &mut Parts) {
    let units = chance.pick(&[25, 26, 40, 63, 64]);
    let rows = graphs::tree_and_more(chance, units);
    parts.arrangement = RawTable::of(&rows, units);
    parts.kinds = vec![0; units];
    let bays = parts.room.columns as usize;
    let plan_units = chance.pick(&[1, 24, 25, units]);
    parts.plan = RawTable::of(&vec![0; plan_units], bays.min(64));
}

fn cards_missing_or_left(chance: &mut Chance, parts: &mut Parts) {
    match chance.below(4) {
        0 => parts.kinds.push(2),
        1 => drop(parts.kinds.pop()),
        2 => parts.heights.push(700),
        _ => drop(parts.heights.pop()),
    }
}

/// Few bytes, or more than the console program reads.
fn some_bytes(chance: &mut Chance) -> Vec<u8> {
    let count = match chance.percent(5) {
        true => chance.between(4000, 5000),
        false => chance.between(1, 12),
    };
    (0..count).map(|_| chance.byte()).collect()
}

/// Some single changes of the bytes of one job.
fn damaged_jobs(chance: &mut Chance) -> Vec<Vec<u8>> {
    let job = any_drawing(chance).parts().bytes();
    (0..3).map(|_| damaged(chance, &job)).collect()
}

pub fn damaged(chance: &mut Chance, bytes: &[u8]) -> Vec<u8> {
    let mut bytes = bytes.to_vec();
    let at = chance.below(bytes.len());
    match chance.below(7) {
        0 => bytes[at] ^= 1 << chance.below(8),
        1 => bytes[at] = chance.byte(),
        2 => bytes[at] = chance.pick(&[0, 1, 2, 64, 65, 255]),
        3 => bytes.insert(at, chance.byte()),
        4 => drop(bytes.remove(at)),
        5 => bytes.truncate(at),
        _ => bytes.extend(some_bytes(chance)),
    }
    bytes
}

/// The bytes cut off at every offset, the whole left out.
pub fn truncations(bytes: &[u8]) -> Vec<Vec<u8>> {
    (0..bytes.len()).map(|length| bytes[..length].to_vec()).collect()
}

fn every_bit_changed(bytes: &[u8]) -> Vec<Vec<u8>> {
    let changed = |bit: usize| {
        let mut changed = bytes.to_vec();
        changed[bit / 8] ^= 1 << (bit % 8);
        changed
    };
    (0..8 * bytes.len()).map(changed).collect()
}

fn every_byte_changed(chance: &mut Chance) -> Vec<Vec<u8>> {
    let bytes = tiny_job(chance);
    let mut changed = |at: usize| {
        let mut changed = bytes.clone();
        changed[at] = chance.byte();
        changed
    };
    (0..bytes.len()).map(&mut changed).collect()
}
