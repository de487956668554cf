//! Rows of bays as 64-bit numbers: bit b stands for bay b.

/// The row that holds bay `bay` alone.
pub fn only(bay: usize) -> u64 {
    1u64 << bay
}

pub fn holds(row: u64, bay: usize) -> bool {
    bay < 64 && row & only(bay) != 0
}

/// The row of all bays below `count`; a shift by 64 would overflow.
pub fn all_below(count: usize) -> u64 {
    if count >= 64 {
        u64::MAX
    } else {
        only(count) - 1
    }
}

/// The bays of a row, rising.
pub fn bays(row: u64) -> impl Iterator<Item = usize> {
    (0..64).filter(move |&bay| holds(row, bay))
}

/// The lowest bit of `row` at or past `count`.
pub fn first_past(row: u64, count: usize) -> Option<usize> {
    bays(row & !all_below(count)).next()
}

pub fn pairs(rows: &[u64]) -> usize {
    rows.iter().map(|row| row.count_ones() as usize).sum()
}

pub fn empty(rows: &[u64]) -> usize {
    rows.iter().filter(|row| **row == 0).count()
}

#[cfg(test)]
mod tests {
    use super::*;

    #[test]
    fn bits_and_their_edges() {
        assert_eq!([0, 1, 63, 64, 65].map(all_below), [0, 1, u64::MAX >> 1, u64::MAX, u64::MAX]);
        assert!(bays(1 << 63 | 5).eq([0, 2, 63]));
        assert_eq!(first_past(0b1101, 1), Some(2));
        assert_eq!(first_past(0b1101, 4), None);
        assert_eq!(first_past(u64::MAX, 64), None);
        assert!(!holds(u64::MAX, 64));
    }
}
