//! All placements by looking at every assignment: for small rooms only.

use super::agreement::Scene;
use super::rows::bays;

/// Every placement within the rows, in dictionary order.
pub fn all_placements(scene: &Scene, rows: &[u64]) -> Vec<Vec<usize>> {
    let assignments = all_assignments(rows);
    assignments.into_iter().filter(|bays| scene.is_placement(bays)).collect()
}

/// Every choice of one bay a row, in dictionary order.
fn all_assignments(rows: &[u64]) -> Vec<Vec<usize>> {
    let mut assignments = vec![Vec::new()];
    for row in rows {
        let mut longer = Vec::new();
        for assignment in &assignments {
            for bay in bays(*row) {
                let mut next: Vec<usize> = assignment.clone();
                next.push(bay);
                longer.push(next);
            }
        }
        assignments = longer;
    }
    assignments
}
