//! One row of least sums, made in place by passes over all steps, with the last
//! step of each walk.

use crate::steps::{Step, NONE};

/// Stands for no step.
const NO_STEP: usize = usize::MAX;

pub struct Row {
    pub sums: Vec<i64>,
    last: Vec<usize>,
    /// Passes go up and down the list in turn.
    down: bool,
}

impl Row {
    /// The row before the first pass.
    pub fn new(sums: Vec<i64>) -> Row {
        let last = vec![NO_STEP; sums.len()];
        Row {
            sums,
            last,
            down: false,
        }
    }

    /// One pass, and whether it changed anything.
    pub fn pass(&mut self, steps: &[Step]) -> bool {
        let mut changed = false;
        let mut lower = |(at, step): (usize, &Step)| {
            let sum = self.sums[step.from];
            if sum != NONE && sum + step.weight < self.sums[step.to] {
                self.sums[step.to] = sum + step.weight;
                self.last[step.to] = at;
                changed = true;
            }
        };
        if self.down {
            steps.iter().enumerate().rev().for_each(&mut lower);
        } else {
            steps.iter().enumerate().for_each(&mut lower);
        }
        self.down = !self.down;
        changed
    }

    /// The last step of the walk to a point.
    pub fn last_step<'a>(&self, steps: &'a [Step], point: usize) -> Option<&'a Step> {
        steps.get(self.last[point])
    }

    /// The numbers of the steps, at least one, that led from one point to the other.
    pub fn walk(&self, steps: &[Step], from: usize, to: usize) -> Vec<u32> {
        let mut numbers = Vec::new();
        let mut at = to;
        while let Some(step) = self.last_step(steps, at) {
            numbers.push(step.number);
            at = step.from;
            if at == from {
                break;
            }
        }
        numbers.reverse();
        numbers
    }
}

/// The numbers of the steps of a least walk between two points, where there is one
/// and no closed walk has a negative sum.
pub fn least_walk(steps: &[Step], points: usize, from: usize, to: usize) -> Vec<u32> {
    let mut sums = vec![NONE; points];
    sums[from] = 0;
    let mut row = Row::new(sums);
    while row.pass(steps) {}
    row.walk(steps, from, to)
}
