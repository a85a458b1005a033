//! The greatest sums and differences of two variables in small lists, by trying all values
//! in a range. It knows nothing of steps or walks.
//!
//! Why the range is wide enough. As in `brute.rs`, let D be at least 1 and at least every
//! |d|; where one of 0 and the absolute values of a solution is followed by another that
//! is more than D higher, there is a gap, and all values above it may move by one away
//! from zero, or toward it, together.
//!
//! Let s be a sum of two terms, p and q, each a variable or its negative, in a solution.
//! If s is above 2n·D, it can be raised by a move, and so again and again: one of the
//! terms, p, is above n·D. If q is 0 or more, take any gap below p. If q is below 0, |q|
//! is so far below p that there is a gap between them. In both cases p rises by the move
//! outward, and q does not fall. So a greatest value is absent exactly if one above 2n·D
//! is possible.
//!
//! Among the solutions in which s has one value within ±2n·D, or any above, take one with
//! the lowest sum of absolute values. If s is above 2n·D it is so by at most 2, or a move
//! toward zero at the gap that is there would do. Where the terms have different signs,
//! no gap is below the nearer one, as a move toward zero would leave s as it is; so that
//! one is within n·D, and the other within 3n·D + 2. Where they have not, both are within
//! 2n·D + 2. No gap is above both, for the same reason, so that all other variables are
//! within (n - 1)·D of that.

use crate::implied::Sums;
use crate::lines::{Line, BOUND, X, Y};
use crate::make::left_side;

/// For each two variables, at x and then at y, the greatest x + y, x - y, -x + y and
/// -x - y in a valid list; none where it has no solution.
pub fn sums(n: usize, lines: &[Line]) -> Option<Vec<Vec<Sums>>> {
    let is_true = |line: &Line| line[0] != 0 || line[2] != 0 || line[BOUND] >= 0;
    if !lines.iter().all(is_true) {
        return None;
    }
    let bounds = lines.iter().map(|line| i64::from(line[BOUND]).abs());
    let largest = bounds.max().unwrap_or(1).max(1);
    let count = n as i64;
    let mut search = Search {
        lines: (0..n).map(|at| lines_at(lines, at)).collect(),
        reach: (4 * count - 1).max(0) * largest + 2,
        values: vec![0; n],
        solvable: false,
        greatest: vec![vec![[i64::MIN; 4]; n]; n],
    };
    search.from(0);
    let absent = |greatest: i64| greatest > 2 * count * largest;
    for sums in search.greatest.as_mut_slice().iter_mut().flatten() {
        *sums = sums.map(|sum| if absent(sum) { i64::MAX } else { sum });
    }
    search.solvable.then_some(search.greatest)
}

/// The lines whose highest variable this is.
fn lines_at(lines: &[Line], at: usize) -> Vec<Line> {
    let named = |line: &&Line| line[0] != 0 || line[2] != 0;
    let highest = |line: &&Line| line[X].max(line[Y]) as usize == at;
    lines
        .iter()
        .filter(named)
        .filter(highest)
        .copied()
        .collect()
}

/// A search through all values, and the greatest sums of its solutions.
struct Search {
    lines: Vec<Vec<Line>>,
    reach: i64,
    values: Vec<i64>,
    solvable: bool,
    greatest: Vec<Vec<Sums>>,
}

impl Search {
    /// Tries all values of this variable and the later ones.
    fn from(&mut self, at: usize) {
        if at == self.values.len() {
            return self.note();
        }
        for value in -self.reach..=self.reach {
            self.values[at] = value;
            let met = |line: &Line| left_side(line, &self.values) <= i64::from(line[BOUND]);
            if self.lines[at].iter().all(met) {
                self.from(at + 1);
            }
        }
    }

    /// Notes the solution that is in `values`.
    fn note(&mut self) {
        self.solvable = true;
        for (&x, row) in self.values.iter().zip(&mut self.greatest) {
            for (&y, sums) in self.values.iter().zip(row) {
                let found = [x + y, x - y, y - x, -x - y];
                for (greatest, sum) in sums.iter_mut().zip(found) {
                    *greatest = sum.max(*greatest);
                }
            }
        }
    }
}
