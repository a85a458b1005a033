//! Johnson's method in plain Rust: from each point, Dijkstra's over reduced sums.

use std::cmp::Reverse;
use std::collections::BinaryHeap;

use crate::outgoing::Outgoing;
use crate::potentials::NegativeWalk;
use crate::reduced::Numbers;
use crate::steps::{Step, NONE};

pub fn sums(steps: &[Step], points: usize, work: &mut [i64]) -> Result<(), NegativeWalk> {
    let numbers = Numbers::new(steps, points)?;
    let outgoing = Outgoing::new(&numbers.reduced(steps), points);
    let mut reached = Vec::with_capacity(points);
    let table = &mut work[..points * points];
    for (from, row) in table.chunks_exact_mut(points).enumerate() {
        fill(&outgoing, from, row, &mut reached);
        for point in reached.drain(..) {
            row[point] = numbers.sum(row[point], from, point);
        }
    }
    Ok(())
}

/// Writes the reduced sums of walks from a point, and the points that they reach.
fn fill(outgoing: &Outgoing, from: usize, row: &mut [i64], reached: &mut Vec<usize>) {
    row.fill(NONE);
    row[from] = 0;
    let mut heap = BinaryHeap::from([Reverse((0, from))]);
    while let Some(Reverse((sum, point))) = heap.pop() {
        // Else it was reached with less.
        if sum == row[point] {
            reached.push(point);
            for step in outgoing.from(point) {
                if sum + step.weight < row[step.to] {
                    row[step.to] = sum + step.weight;
                    heap.push(Reverse((sum + step.weight, step.to)));
                }
            }
        }
    }
}
