//! The steps of a list by the points where they begin.

use crate::steps::Step;

pub struct Outgoing {
    steps: Vec<Step>,
    /// Where the steps of a point begin; one more than there are points.
    heads: Vec<usize>,
}

impl Outgoing {
    pub fn new(steps: &[Step], points: usize) -> Outgoing {
        let mut heads = vec![0; points + 1];
        for step in steps {
            heads[step.from + 1] += 1;
        }
        for point in 0..points {
            heads[point + 1] += heads[point];
        }
        let (mut free, mut sorted) = (heads.clone(), steps.to_vec());
        for step in steps {
            sorted[free[step.from]] = *step;
            free[step.from] += 1;
        }
        Outgoing {
            steps: sorted,
            heads,
        }
    }

    pub fn from(&self, point: usize) -> &[Step] {
        &self.steps[self.heads[point]..self.heads[point + 1]]
    }
}
