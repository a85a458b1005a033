//! The buffers that deciding is lent.

use crate::limits::{differences_work_room, rooms};

pub struct Buffers {
    pub model: Vec<i32>,
    pub bounds: Vec<i64>,
    pub groups: Vec<u32>,
    pub refutation: Vec<u32>,
    pub identifiers: Vec<u32>,
    pub work: Vec<i64>,
}

impl Buffers {
    /// Each as long as a list of n variables needs.
    pub fn new(n: usize) -> Buffers {
        let [model, bounds, groups, refutation, identifiers, work] = rooms(n);
        Buffers {
            model: vec![0; model],
            bounds: vec![0; bounds],
            groups: vec![0; groups],
            refutation: vec![0; refutation],
            identifiers: vec![0; identifiers],
            work: vec![0; work],
        }
    }

    /// The same for a list of differences.
    pub fn for_differences(n: usize) -> Buffers {
        Buffers {
            work: vec![0; differences_work_room(n)],
            ..Buffers::new(n)
        }
    }

    /// Fills all with a number that means nothing.
    pub fn fill(&mut self) {
        self.model.fill(7);
        for numbers in [&mut self.bounds, &mut self.work] {
            numbers.fill(7);
        }
        for numbers in [
            &mut self.groups,
            &mut self.refutation,
            &mut self.identifiers,
        ] {
            numbers.fill(7);
        }
    }
}
