//! Decides small lists by trying all values in a range, and knows nothing of
//! steps or walks.
//!
//! Why the range is wide enough. Let D be at least 1 and at least every |d|, and
//! let some values solve the list. Put 0 and the absolute values in order, and
//! say that there is a gap where one is followed by another that is more than D
//! higher. The variables above a gap are `high`, the others `low`. Then all high
//! values may move by one away from zero, or by one toward it, together:
//!
//! - In a line with one high and one low variable the high term is negative,
//!   since else the left side were above D. It stays so far below the low one
//!   that the left side is at most -D after either move.
//! - In a line with two high terms they are not both positive, since each is
//!   above D. If both are negative the left side is at most -2D - 2, and at most
//!   -2D after either move. If the signs differ the left side does not change.
//! - In a line with one high term alone it is negative, and at most -D after
//!   either move.
//!
//! The following has these moves to thank. |model| ≤ n·D: else there is a gap,
//! and a move toward zero brings the first high variable nearer to zero while
//! all before it stay. A least or greatest value that exists is within ±n·D:
//! else there is a gap below it, and one of the moves passes it. So a greatest
//! value is absent exactly if a value above n·D is possible.
//!
//! To see a bound, it is enough to try all values up to (2n - 1)·D + 1. Among
//! the solutions with x = v, where |v| ≤ n·D, or with x above n·D, take one with
//! the lowest sum of absolute values. No gap is above |x|, or a move would lower
//! the sum, and in the second case x is n·D + 1, for the same reason. So the
//! others are within |x| + (n - 1)·D.
//!
//! To see that x and y may differ, n·D is enough: take such a solution with the
//! lowest sum. A move toward zero does not make x and y equal, since D is not 0:
//! high values stay at least D from zero and from the low ones. So there is no
//! gap. The same goes for x and -y, and for x and -x: the absolute values of high
//! variables all go down by one, and those of the low ones stay below them.

use crate::decision::{Group, Reason, Solved, Verdict, MINUS, PLUS};
use crate::lines::{Line, BOUND, X, Y};
use crate::make::left_side;

/// For each two variables x and y, at x and then at y, whether x = y in every solution,
/// and whether x = -y in every solution.
#[derive(Clone, Debug, PartialEq, Eq)]
pub struct Ties {
    pub equal: Vec<Vec<bool>>,
    pub mirrored: Vec<Vec<bool>>,
}

/// The ties of a valid list without false lines, where it has a solution.
pub fn ties(n: usize, lines: &[Line]) -> Option<Ties> {
    let reach = n as i64 * largest(lines);
    let mut search = Search::new(n, lines, reach, false);
    search.from(0);
    search.model.is_some().then_some(search.ties)
}

/// At least 1, and at least the bound of each line and its negative.
fn largest(lines: &[Line]) -> i64 {
    let largest = lines.iter().map(|line| i64::from(line[BOUND]).abs()).max();
    largest.unwrap_or(1).max(1)
}

/// What deciding is to answer to a valid list.
pub fn verdict(n: usize, lines: &[Line]) -> Verdict {
    let is_false = |line: &Line| line[0] == 0 && line[2] == 0 && line[BOUND] < 0;
    if let Some(first) = lines.iter().position(is_false) {
        return Verdict::No(Reason::FalseLine(first));
    }
    let largest = largest(lines);
    let count = n as i64;
    let mut search = Search::new(n, lines, ((2 * count - 1) * largest + 1).max(0), false);
    search.from(0);
    if search.model.is_some() {
        return Verdict::Yes(search.solved(count * largest));
    }
    // A closed walk of negative sum exists exactly if no fractions solve the
    // list, and where fractions do, halves do. Halves are whole numbers once
    // every d is doubled.
    let mut doubled = lines.to_vec();
    for line in &mut doubled {
        line[BOUND] *= 2;
    }
    let mut search = Search::new(n, &doubled, 2 * count * largest, true);
    search.from(0);
    Verdict::No(match search.model {
        Some(_) => Reason::HalvedWalks,
        None => Reason::ClosedWalk,
    })
}

impl Ties {
    /// The lowest variable that this one equals or mirrors, which may be itself; and
    /// that it equals it, where it does both.
    fn group(&self, x: usize) -> Group {
        let tied = |y: &usize| self.equal[x][*y] || self.mirrored[x][*y];
        let lowest = (0..=x).find(tied).unwrap();
        let sign = if self.equal[x][lowest] { PLUS } else { MINUS };
        [lowest as u32, sign]
    }
}

/// A search through all values, and what its solutions have shown.
struct Search {
    /// The lines by the highest variable that they name.
    lines: Vec<Vec<Line>>,
    reach: i64,
    only_one: bool,
    values: Vec<i64>,
    model: Option<Vec<i64>>,
    least: Vec<i64>,
    greatest: Vec<i64>,
    /// What was so in all solutions.
    ties: Ties,
}

impl Search {
    fn new(n: usize, lines: &[Line], reach: i64, only_one: bool) -> Search {
        let highest = |line: &Line| line[X].max(line[Y]) as usize;
        let named = |line: &&Line| line[0] != 0 || line[2] != 0;
        let lines_at = |at| {
            let here = lines
                .iter()
                .filter(named)
                .filter(|line| highest(line) == at);
            here.copied().collect()
        };
        Search {
            lines: (0..n).map(lines_at).collect(),
            reach,
            only_one,
            values: vec![0; n],
            model: None,
            least: vec![i64::MAX; n],
            greatest: vec![i64::MIN; n],
            ties: Ties {
                equal: vec![vec![true; n]; n],
                mirrored: vec![vec![true; n]; n],
            },
        }
    }

    /// Tries all values of this variable and the later ones, nearest zero first,
    /// so that the first solution found is the model.
    fn from(&mut self, at: usize) {
        if at == self.values.len() {
            return self.note();
        }
        for size in 0..=self.reach {
            // Zero is its own negative and tried once.
            for &value in &[size, -size][usize::from(size == 0)..] {
                self.values[at] = value;
                let met = |line: &Line| left_side(line, &self.values) <= i64::from(line[BOUND]);
                if self.lines[at].iter().all(met) {
                    self.from(at + 1);
                }
                if self.only_one && self.model.is_some() {
                    return;
                }
            }
        }
    }

    /// Notes the solution that is in `values`.
    fn note(&mut self) {
        if self.model.is_none() {
            self.model = Some(self.values.clone());
        }
        for (x, &value) in self.values.iter().enumerate() {
            self.least[x] = self.least[x].min(value);
            self.greatest[x] = self.greatest[x].max(value);
            for (y, &other) in self.values.iter().enumerate() {
                self.ties.equal[x][y] &= value == other;
                self.ties.mirrored[x][y] &= value == -other;
            }
        }
    }

    /// What the solutions show, where bounds beyond ±`furthest` are none.
    fn solved(&self, furthest: i64) -> Solved {
        let bounds = (0..self.values.len()).flat_map(|x| {
            let (least, greatest) = (self.least[x], self.greatest[x]);
            [
                if least < -furthest { i64::MIN } else { least },
                if greatest > furthest {
                    i64::MAX
                } else {
                    greatest
                },
            ]
        });
        Solved {
            model: self.model.clone().unwrap(),
            bounds: bounds.collect(),
            groups: (0..self.values.len()).map(|x| self.ties.group(x)).collect(),
        }
    }
}
