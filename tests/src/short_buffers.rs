//! Short buffers, for each engine that decides: which of them is named, and that the
//! refusals of the list go first.

use crate::buffers::{cut_by, Buffers, Lengths, BUFFERS, OUTPUTS};
use crate::chance::Chance;
use crate::damage::refused_lists;
use crate::decision::{Decision, Verdict};
use crate::limits::MOST_N;

/// An engine: the rooms of its buffers, and how it decides in some.
pub struct Engine {
    pub needed: fn(u64) -> Lengths,
    pub decide_in: fn(&mut Buffers, u64, &[i32]) -> Decision,
}

impl Engine {
    fn verdict(&self, chance: &mut Chance, lengths: Lengths, n: u64, list: &[i32]) -> Verdict {
        let mut buffers = Buffers::new(chance, lengths);
        (self.decide_in)(&mut buffers, n, list).verdict
    }

    /// Each set of buffers may be one too short: the first short output is named, and the
    /// work area comes last. The exact room is enough for each of the lists.
    pub fn names_the_first_short(&self, chance: &mut Chance, n: u64, lists: &[Vec<i32>]) {
        for short in 0..1 << BUFFERS {
            let full = (self.needed)(n);
            let lengths = cut_by(full, short);
            let first = (0..BUFFERS).find(|&at| lengths[at] < full[at]);
            for list in lists {
                let verdict = self.verdict(chance, lengths, n, list);
                match first {
                    Some(at) => assert_eq!(verdict, refused_for(at)),
                    None => assert!(!matches!(verdict, Verdict::Refused(..))),
                }
            }
        }
    }

    /// A buffer of no numbers at all is as short as any.
    pub fn names_an_empty_one(&self, chance: &mut Chance) {
        for n in [1, 3, MOST_N] {
            for at in 0..BUFFERS {
                let mut lengths = (self.needed)(n);
                lengths[at] = 0;
                assert_eq!(self.verdict(chance, lengths, n, &[]), refused_for(at));
            }
        }
    }

    /// The list's refusals go before those of the buffers.
    pub fn looks_at_the_list_first(&self, chance: &mut Chance) {
        for (n, list, due) in refused_lists() {
            for short in 0..1 << BUFFERS {
                let verdict = self.verdict(chance, cut_by((self.needed)(2), short), n, &list);
                assert_eq!(verdict, Verdict::Refused(due.0, due.1), "{list:?}");
            }
        }
    }

    /// The rooms of the buffers, one of them sometimes short.
    pub fn sometimes_short(&self, chance: &mut Chance, n: u64) -> Lengths {
        let mut lengths = (self.needed)(n);
        if chance.one_in(6) {
            let at = chance.below(BUFFERS);
            lengths[at] = lengths[at].saturating_sub(chance.between(1, 3) as usize);
        }
        lengths
    }
}

/// The refusal of a short buffer: 7 with its place, or 8 of the work area.
fn refused_for(at: usize) -> Verdict {
    if at == OUTPUTS {
        Verdict::Refused(8, 0)
    } else {
        Verdict::Refused(7, at + 1)
    }
}
