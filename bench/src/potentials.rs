//! Potentials: a number for each point, such that no step's end has more than its
//! start and the step's weight together. They exist exactly if no closed walk has a
//! negative sum.

use crate::rows::Row;
use crate::steps::Step;

/// The numbers of the steps of a closed walk with a negative sum.
pub struct NegativeWalk(pub Vec<u32>);

pub fn potentials(steps: &[Step], points: usize) -> Result<Vec<i64>, NegativeWalk> {
    let mut row = Row::new(vec![0; points]);
    let mut marks = vec![0; points];
    while row.pass(steps) {
        if let Some(point) = on_closed_walk(steps, &row, &mut marks) {
            return Err(NegativeWalk(row.walk(steps, point, point)));
        }
    }
    Ok(row.sums)
}

/// A point that last steps lead back to from itself. Each point is marked with the
/// first from which they lead to it.
fn on_closed_walk(steps: &[Step], row: &Row, marks: &mut [usize]) -> Option<usize> {
    const UNMARKED: usize = usize::MAX;
    marks.fill(UNMARKED);
    for first in 0..marks.len() {
        let mut at = first;
        while marks[at] == UNMARKED {
            marks[at] = first;
            match row.last_step(steps, at) {
                Some(step) => at = step.from,
                None => break,
            }
        }
        if marks[at] == first && row.last_step(steps, at).is_some() {
            return Some(at);
        }
    }
    None
}
