//! Graphs of joints and the two kinds of source that tell them.

use super::rows::{first_past, holds};

/// The most nodes that a source may have.
pub const MOST_NODES: usize = 64;

/// Which nodes are joined; always two-way and without self joints.
#[derive(Clone, Debug, PartialEq, Eq)]
pub struct Graph {
    joints: Vec<Vec<bool>>,
    /// How many joints each node has; counted once, as filters ask often.
    joint_counts: Vec<usize>,
}

impl Graph {
    pub fn count(&self) -> usize {
        self.joints.len()
    }

    /// A number at or past the count is joined to nothing.
    pub fn joined(&self, a: usize, b: usize) -> bool {
        a < self.count() && b < self.count() && self.joints[a][b]
    }

    pub fn joint_count(&self, node: usize) -> usize {
        self.joint_counts[node]
    }

    fn from_joined(count: usize, joined: impl Fn(usize, usize) -> bool) -> Graph {
        let row = |a| (0..count).map(|b| joined(a, b)).collect();
        let joints: Vec<Vec<bool>> = (0..count).map(row).collect();
        let joint_counts = joints.iter().map(|row| row.iter().filter(|joined| **joined).count()).collect();
        Graph { joints, joint_counts }
    }

    /// What a declined source is taken as.
    fn single_node() -> Graph {
        Graph::from_joined(1, |_, _| false)
    }
}

/// Where joints come from, before they are looked over.
#[derive(Clone, Debug, PartialEq, Eq)]
pub enum Source {
    Table { rows: Vec<u64>, columns: usize },
    Grid { columns: usize, levels: usize },
}

impl Source {
    /// Whether the source keeps the rules of joints.
    pub fn is_sound(&self) -> bool {
        match self {
            Source::Table { rows, columns } => table_is_sound(rows, *columns),
            Source::Grid { columns, levels } => grid_is_sound(*columns, *levels),
        }
    }

    /// Taking never declines: an unsound source is one node without joints.
    pub fn take(&self) -> Graph {
        if !self.is_sound() {
            return Graph::single_node();
        }
        match self {
            Source::Table { rows, .. } => Graph::from_joined(rows.len(), |a, b| holds(rows[a], b)),
            Source::Grid { columns, levels } => {
                Graph::from_joined(columns * levels, |a, b| neighbours(*columns, a, b))
            }
        }
    }
}

fn table_is_sound(rows: &[u64], columns: usize) -> bool {
    let count = rows.len();
    let size_is_sound = count == columns && (1..=MOST_NODES).contains(&count);
    size_is_sound && (0..count).all(|node| row_is_sound(rows, node))
}

fn row_is_sound(rows: &[u64], node: usize) -> bool {
    let inside = first_past(rows[node], rows.len()).is_none();
    let not_itself = !holds(rows[node], node);
    let two_way = (0..rows.len()).all(|other| holds(rows[node], other) == holds(rows[other], node));
    inside && not_itself && two_way
}

fn grid_is_sound(columns: usize, levels: usize) -> bool {
    // The product must not wrap, however large the sizes are.
    let small = columns.checked_mul(levels).is_some_and(|count| count <= MOST_NODES);
    columns >= 1 && levels >= 1 && small
}

/// Side by side on one level, or directly above one another.
fn neighbours(columns: usize, a: usize, b: usize) -> bool {
    let (level_a, column_a) = (a / columns, a % columns);
    let (level_b, column_b) = (b / columns, b % columns);
    let beside = level_a == level_b && column_a.abs_diff(column_b) == 1;
    let above = column_a == column_b && level_a.abs_diff(level_b) == 1;
    beside || above
}

#[cfg(test)]
mod tests {
    use super::*;

    fn table(rows: &[u64], columns: usize) -> Source {
        Source::Table { rows: rows.to_vec(), columns }
    }

    #[test]
    fn tables_that_break_a_rule_are_declined() {
        assert!(table(&[2, 5, 2], 3).is_sound());
        assert!(table(&[0], 1).is_sound());
        assert!(table(&[0; 64], 64).is_sound());
        assert!(!table(&[], 0).is_sound());
        assert!(!table(&[0; 65], 65).is_sound());
        assert!(!table(&[0, 0], 3).is_sound());
        assert!(!table(&[1, 0], 2).is_sound());
        assert!(!table(&[2, 0], 2).is_sound());
        assert!(!table(&[4, 0], 2).is_sound());
        assert_eq!(table(&[2, 0], 2).take(), table(&[0], 1).take());
    }

    #[test]
    fn grids_join_neighbours_only() {
        let grid = Source::Grid { columns: 3, levels: 2 };
        assert_eq!(
            grid.take(),
            table(&[0b001010, 0b010101, 0b100010, 0b010001, 0b101010, 0b010100], 6).take()
        );
        assert!(!Source::Grid { columns: 0, levels: 3 }.is_sound());
        assert!(!Source::Grid { columns: 13, levels: 5 }.is_sound());
        assert!(!Source::Grid { columns: 1 << 32, levels: 1 << 32 }.is_sound());
        assert_eq!(Source::Grid { columns: 65, levels: 1 }.take().count(), 1);
        assert!(!grid.take().joined(6, 0));
    }
}
