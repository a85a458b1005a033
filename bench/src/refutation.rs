//! A refutation and the identifiers of its steps, as deciding writes them.

use crate::buffers::Buffers;
use crate::lines::{Line, IDENTIFIER};

pub struct Refutation {
    kind: u32,
    first: Vec<u32>,
    second: Vec<u32>,
}

impl Refutation {
    /// A closed walk of negative sum.
    pub fn closed(walk: Vec<u32>) -> Refutation {
        Refutation {
            kind: 1,
            first: walk,
            second: Vec::new(),
        }
    }

    /// A walk from a point to its opposite and one back, whose halves sum below 0.
    pub fn halved(first: Vec<u32>, second: Vec<u32>) -> Refutation {
        Refutation {
            kind: 2,
            first,
            second,
        }
    }

    /// A line 0 ≤ d with d below 0.
    pub fn false_line(line: usize) -> Refutation {
        Refutation {
            kind: 3,
            first: vec![2 * line as u32],
            second: Vec::new(),
        }
    }

    pub fn write(&self, list: &[Line], out: &mut Buffers) {
        let counts = [self.first.len() as u32, self.second.len() as u32];
        let all = [&[self.kind], &counts[..], &self.first, &self.second].concat();
        out.refutation[..all.len()].copy_from_slice(&all);
        let steps = self.first.iter().chain(&self.second);
        for (place, step) in out.identifiers.iter_mut().zip(steps) {
            *place = list[*step as usize / 2][IDENTIFIER] as u32;
        }
    }
}
