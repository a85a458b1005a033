//! Deciding differences: the call in lent buffers, with all that must hold of any answer,
//! what it is to be refused with, and lists of differences.

use crate::buffers::{self, Buffers, Lengths, OUTPUTS};
use crate::chance::Chance;
use crate::decision::{Call, Decision};
use crate::limits::{differences_work_room, LARGEST_BOUND, LINE_NUMBERS};
use crate::lines::{identify, line, Line, BOUND};
use crate::make::left_side;
use crate::second::{list_refusal, short_refusal, Answer};

/// The refusal of a line that is no difference.
pub const NOT_DIFFERENCE: u8 = 60;

/// The lengths that n variables, at most MOST_VARIABLES, ask for.
pub fn needed(n: u64) -> Lengths {
    let mut lengths = buffers::needed(n);
    lengths[OUTPUTS] = differences_work_room(n as usize);
    lengths
}

/// Whether the numbers of a valid line are those of a difference.
pub fn is_difference(line: &[i32]) -> bool {
    let coefficients = [line[0], line[2]];
    coefficients == [1, -1] || coefficients == [-1, 1]
}

/// What this list is to be refused with, if it is to, in buffers of these lengths.
fn refusal(n: u64, list: &[i32], lengths: Lengths) -> Option<Answer> {
    let other = || {
        let mut lines = list.chunks(LINE_NUMBERS);
        let place = lines.position(|line| !is_difference(line))?;
        Some(Answer::Refused(NOT_DIFFERENCE, place))
    };
    list_refusal(n, list)
        .or_else(other)
        .or_else(|| short_refusal(needed(n), lengths))
}

/// Decides lines in buffers full of rubbish, some longer than they need be.
pub fn decide(chance: &mut Chance, n: u64, lines: &[Line]) -> Decision {
    let mut buffers = Buffers::at_least(chance, needed(n));
    decide_in(&mut buffers, n, &lines.concat())
}

/// Decides a list in these buffers.
pub fn decide_in(buffers: &mut Buffers, n: u64, list: &[i32]) -> Decision {
    let before = buffers.clone();
    let old_list = list.to_vec();
    let result = buffers.differences(n, list);
    assert!(list == old_list, "the list was written to: {old_list:?}");
    let call = Call {
        n,
        list,
        due: refusal(n, list, before.lengths()),
        result,
        rooms: needed,
    };
    call.decision(&before, buffers)
}

/// A difference of any two of n variables, in either order and at times of one with
/// itself, and the bound 0.
pub fn some_difference(chance: &mut Chance, n: usize) -> Line {
    let (a, x) = (chance.pick(&[-1, 1]), chance.below(n) as i32);
    let y = match chance.below(20) {
        0 => x,
        _ => chance.below(n) as i32,
    };
    line(a, x, -a, y, 0)
}

/// What a list of differences is made of.
pub struct Shape {
    pub n: usize,
    pub count: usize,
    pub largest: i64,
}

impl Shape {
    /// From few lines to many, from small bounds to the largest.
    pub fn of(chance: &mut Chance, n: usize) -> Shape {
        let count = chance.pick(&[n / 2, n, 2 * n, 4 * n, 10 * n]) + chance.below(4);
        Shape {
            n,
            count,
            largest: chance.pick(&[0, 1, 3, 20, 1_000, LARGEST_BOUND]),
        }
    }

    /// A list of this shape, made in one of the ways below; without variables it has no
    /// lines.
    pub fn list(&self, chance: &mut Chance) -> Vec<Line> {
        let mut lines = match chance.below(8) {
            _ if self.n == 0 => Vec::new(),
            0 | 1 => self.free(chance),
            2..=4 => self.met(chance),
            5 => self.met_but_one(chance),
            _ => self.round_walk(chance),
        };
        identify(chance, &mut lines);
        let order = chance.order(lines.len());
        order.iter().map(|&at| lines[at]).collect()
    }

    /// Bounds at random, the lowest of them at times near zero.
    fn free(&self, chance: &mut Chance) -> Vec<Line> {
        let lowest = -self.largest / chance.pick(&[1, 4, 16, 64]);
        let lines = (0..self.count).map(|_| {
            let mut line = some_difference(chance, self.n);
            line[BOUND] = chance.between(lowest, self.largest) as i32;
            line
        });
        lines.collect()
    }

    /// Lines that some values meet, many of them with nothing to spare.
    pub fn met(&self, chance: &mut Chance) -> Vec<Line> {
        let high = self.largest / 2;
        let values: Vec<i64> = (0..self.n).map(|_| chance.between(-high, high)).collect();
        let often = chance.between(1, 4) as usize;
        let lines = (0..self.count).map(|_| {
            let mut line = some_difference(chance, self.n);
            let spare = match chance.one_in(often) {
                true => 0,
                false => chance.between(0, 1 + self.largest / 2),
            };
            let bound = left_side(&line, &values) + spare;
            line[BOUND] = bound.min(LARGEST_BOUND) as i32;
            line
        });
        lines.collect()
    }

    /// The same with one bound a little lower than it may safely be.
    fn met_but_one(&self, chance: &mut Chance) -> Vec<Line> {
        let mut lines = self.met(chance);
        if !lines.is_empty() {
            let at = chance.below(lines.len());
            let lower = chance.between(1, 3) as i32;
            lines[at][BOUND] = (lines[at][BOUND] - lower).max(-LARGEST_BOUND as i32);
        }
        lines
    }

    /// One closed walk through all variables, of a sum from -1 to 1, and other lines that
    /// add little.
    pub fn round_walk(&self, chance: &mut Chance) -> Vec<Line> {
        let order = chance.order(self.n);
        let high = self.largest.min(LARGEST_BOUND / 4);
        let values: Vec<i64> = (0..self.n).map(|_| chance.between(-high, high)).collect();
        let mut lines: Vec<Line> = Vec::new();
        for (at, &x) in order.iter().enumerate() {
            let y = order[(at + 1) % order.len()];
            let (a, bound) = (chance.pick(&[-1, 1]), (values[x] - values[y]) as i32);
            let ends = if a == 1 { [x, y] } else { [y, x] };
            lines.push(line(a, ends[0] as i32, -a, ends[1] as i32, bound));
        }
        lines[0][BOUND] += chance.between(-1, 1) as i32;
        while lines.len() < self.count {
            let mut line = some_difference(chance, self.n);
            line[BOUND] = chance.between(LARGEST_BOUND / 2, LARGEST_BOUND) as i32;
            lines.push(line);
        }
        lines
    }
}
