//! Lines and lists.

use crate::limits::LINE_NUMBERS;

pub type Line = [i32; LINE_NUMBERS];

/// Where a line's identifier stands.
pub const IDENTIFIER: usize = 5;

pub type List = Vec<Line>;

/// The line a·x + b·y ≤ d, without an identifier.
pub fn line(a: i32, x: usize, b: i32, y: usize, d: i32) -> Line {
    let said = [a, x as i32, b, y as i32, d];
    let mut line = Line::default();
    line[..said.len()].copy_from_slice(&said);
    line
}

/// The line a·x ≤ d.
pub fn lone(a: i32, x: usize, d: i32) -> Line {
    line(a, x, 0, 0, d)
}
