//! Random rooms and arrangements, as rows of joints.

use crate::chance::Chance;
use crate::reference::rows::{bays, holds, only};

pub fn join(rows: &mut [u64], a: usize, b: usize) {
    if a != b {
        rows[a] |= only(b);
        rows[b] |= only(a);
    }
}

fn part(rows: &mut [u64], a: usize, b: usize) {
    rows[a] &= !only(b);
    rows[b] &= !only(a);
}

/// A room of one of the usual shapes.
pub fn room(chance: &mut Chance, count: usize) -> Vec<u64> {
    match chance.weighted(&[4, 2, 4, 2, 1, 1, 2]) {
        0 => tree_and_more(chance, count),
        1 => random(chance, count, 70),
        2 => any_grid(chance, count),
        3 => ring(count),
        4 => random(chance, count, 100),
        5 => random(chance, count, 0),
        _ => random(chance, count, 30),
    }
}

/// An arrangement; most often one cut out of the room, so that it can be placed.
pub fn arrangement(chance: &mut Chance, count: usize, room: &[u64]) -> Vec<u64> {
    if count <= room.len() && chance.percent(70) {
        let mut rows = cut_out(chance, count, room);
        if chance.percent(60) {
            thin_out(chance, &mut rows);
        }
        return rows;
    }
    match chance.below(5) {
        0 => random(chance, count, 0),
        1 => ring(count),
        2 => any_grid(chance, count),
        3 => tree_and_more(chance, count),
        _ => random(chance, count, 25),
    }
}

pub fn random(chance: &mut Chance, count: usize, percent: usize) -> Vec<u64> {
    let mut rows = vec![0; count];
    for a in 0..count {
        for b in 0..a {
            if chance.percent(percent) {
                join(&mut rows, a, b);
            }
        }
    }
    rows
}

/// A tree with a few more joints.
pub fn tree_and_more(chance: &mut Chance, count: usize) -> Vec<u64> {
    let mut rows = vec![0; count];
    for node in 1..count {
        let nearest = node.saturating_sub(4);
        let earlier = chance.between(nearest, node - 1);
        join(&mut rows, node, earlier);
    }
    for _ in 0..chance.below(count / 3 + 1) {
        let (a, b) = (chance.below(count), chance.below(count));
        join(&mut rows, a, b);
    }
    rows
}

pub fn ring(count: usize) -> Vec<u64> {
    let mut rows = vec![0; count];
    (0..count).for_each(|node| join(&mut rows, node, (node + 1) % count));
    rows
}

fn any_grid(chance: &mut Chance, count: usize) -> Vec<u64> {
    let widths: Vec<usize> = (1..=count).filter(|width| count % width == 0).collect();
    grid(chance.pick(&widths), count)
}

pub fn grid(width: usize, count: usize) -> Vec<u64> {
    let mut rows = vec![0; count];
    for node in 0..count {
        if (node + 1) % width != 0 && node + 1 < count {
            join(&mut rows, node, node + 1);
        }
        if node + width < count {
            join(&mut rows, node, node + width);
        }
    }
    rows
}

/// Joints of some bays of the room, chosen one beside the other.
fn cut_out(chance: &mut Chance, count: usize, room: &[u64]) -> Vec<u64> {
    let mut chosen = vec![chance.below(room.len())];
    while chosen.len() < count {
        let beside = chosen.iter().fold(0, |row, bay| row | room[*bay]);
        let fresh = |bay: &usize| !chosen.contains(bay);
        let mut choices: Vec<usize> = bays(beside).filter(fresh).collect();
        if choices.is_empty() {
            choices = (0..room.len()).filter(fresh).collect();
        }
        chosen.push(chance.pick(&choices));
    }
    let mut rows = vec![0; count];
    for a in 0..count {
        for b in 0..a {
            if holds(room[chosen[a]], chosen[b]) {
                join(&mut rows, a, b);
            }
        }
    }
    rows
}

fn thin_out(chance: &mut Chance, rows: &mut [u64]) {
    let share = chance.pick(&[5, 20, 50]);
    for a in 0..rows.len() {
        for b in bays(rows[a]) {
            if b < a && chance.percent(share) {
                part(rows, a, b);
            }
        }
    }
}
