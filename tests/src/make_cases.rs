//! Makes inputs for the checkers at random: lists of all lengths, values for
//! them, and refutations of which some are right.

use crate::bytes;
use crate::chance::Chance;
use crate::damage::Input;
use crate::limits::{LARGEST_VALUE, MOST_LINES, NUMBER_BYTES};
use crate::lines::Line;
use crate::make::{self, Proposal};

/// A number of lines, mostly small, seldom about as many as are let in.
pub fn some_lines(chance: &mut Chance) -> usize {
    match chance.below(512) {
        0 => MOST_LINES - 12 + chance.below(17),
        1..=39 => chance.below(100),
        _ => chance.below(9),
    }
}

/// A value for each variable: all small, some large, or all about one height.
pub fn some_values(chance: &mut Chance, n: u64) -> Vec<i64> {
    let base = chance.pick(&[0, 0, 0, 700_000, LARGEST_VALUE - 4, 4 - LARGEST_VALUE]);
    let extremes = chance.one_in(8);
    let mut value = || match chance.below(8) {
        0 if extremes => chance.pick(&[LARGEST_VALUE, -LARGEST_VALUE, 1 << 39, -1 << 31]),
        _ => base + chance.between(-4, 4),
    };
    (0..n).map(|_| value()).collect()
}

/// An input to the refutation checker, and values that meet its list where they
/// are known.
pub struct Case {
    pub n: u64,
    pub lines: Vec<Line>,
    pub proposal: Proposal,
    pub solution: Option<Vec<i64>>,
}

impl Case {
    /// The case itself, the same with a wrong head, and damaged in five ways.
    pub fn inputs(&self, chance: &mut Chance) -> Vec<Input> {
        let base = Input {
            n: self.n,
            list: bytes::list(&self.lines),
            proposed: bytes::refutation(&self.proposal.numbers()),
        };
        let miscounted = bytes::refutation(&make::miscount(chance, &self.proposal));
        let mut inputs = vec![base.clone()];
        inputs.push(Input {
            proposed: miscounted,
            ..base.clone()
        });
        inputs.extend((0..5).map(|_| base.damaged(chance, NUMBER_BYTES)));
        inputs
    }
}

/// A case: right or nearly right, or a walk that may well refute nothing.
pub fn some_case(chance: &mut Chance) -> Case {
    let n = make::variables(chance);
    match chance.below(8) {
        0..=2 if n > 0 => {
            let (lines, proposal) = make::near_refutation(chance, n);
            Case {
                n,
                lines,
                proposal,
                solution: None,
            }
        }
        3 => {
            let (lines, proposal) = make::near_false_line(chance, n);
            Case {
                n,
                lines,
                proposal,
                solution: None,
            }
        }
        4 | 5 => {
            let count = some_lines(chance).min(MOST_LINES);
            let lines = make::lines(chance, n, count);
            let proposal = some_stroll(chance, &lines);
            Case {
                n,
                lines,
                proposal,
                solution: None,
            }
        }
        _ => {
            let values = some_values(chance, n);
            let count = some_lines(chance).min(MOST_LINES);
            let lines = make::lines_met_by(chance, &values, count);
            let proposal = some_stroll(chance, &lines);
            Case {
                n,
                lines,
                proposal,
                solution: Some(values),
            }
        }
    }
}

/// A walk along the lines, or if none is found some numbers without much sense.
fn some_stroll(chance: &mut Chance, lines: &[Line]) -> Proposal {
    for _ in 0..4 {
        if let Some(proposal) = make::stroll(chance, lines) {
            return proposal;
        }
    }
    let mut steps = |count| {
        (0..count)
            .map(|_| chance.below(2 * lines.len() + 2) as u32)
            .collect()
    };
    Proposal {
        kind: 1 + lines.len() as u32 % 3,
        first: steps(2),
        second: steps(lines.len() % 3),
    }
}
