//! What docs/SPECIFICATION.md names and several tests use.

use crate::limits::{LARGEST_BOUND, MOST_LINES, MOST_VARIABLES};
use crate::lines::{identified, line, Line};

/// Case 4: solved by halves only. Its identifiers are 0, as they are there.
pub const CASE_4: [Line; 4] = [
    line(1, 0, -1, 1, 2),
    line(1, 0, 1, 1, -1),
    line(-1, 0, -1, 2, -4),
    line(-1, 0, 1, 2, 3),
];

/// Case 11: the most lines over the most variables, all with the largest bound.
pub fn largest() -> Vec<Line> {
    let (n, bound) = (MOST_VARIABLES as i32, LARGEST_BOUND as i32);
    let lines: Vec<Line> = (0..MOST_LINES as i32)
        .map(|at| line(1, at % n, 1, (at * 7 + at / n) % n, bound))
        .collect();
    identified(&lines)
}
