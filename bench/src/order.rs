//! The order in which variables are eliminated.

use crate::steps::Step;

/// The place of each point, where variables stand in the order of elimination:
/// first those that share the fewest lines with others.
pub fn places(steps: &[Step], points: usize) -> Vec<usize> {
    let mut shared = vec![0; points / 2];
    for step in steps {
        shared[step.from / 2] += usize::from(step.from / 2 != step.to / 2);
    }
    let mut order: Vec<usize> = (0..points / 2).collect();
    order.sort_by_key(|&x| shared[x]);
    let mut places = vec![0; points];
    for (place, x) in order.into_iter().enumerate() {
        places[2 * x] = 2 * place;
        places[2 * x + 1] = 2 * place + 1;
    }
    places
}
