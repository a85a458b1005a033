//! Lines, and how they are made: by hand with the identifier 0, then with others.

use crate::chance::Chance;
use crate::limits::{EDGE_IDENTIFIERS, LAST_IDENTIFIER, LAST_SHORT, LINE_NUMBERS};

/// A line: a, x, b, y, d, identifier.
pub type Line = [i32; LINE_NUMBERS];

/// Where a line's variables, its bound and its identifier stand.
pub const X: usize = 1;
pub const Y: usize = 3;
pub const BOUND: usize = 4;
pub const IDENTIFIER: usize = 5;

/// The line a·x + b·y ≤ d.
pub const fn line(a: i32, x: i32, b: i32, y: i32, d: i32) -> Line {
    let mut line = [0; LINE_NUMBERS];
    [line[0], line[X], line[2], line[Y], line[BOUND]] = [a, x, b, y, d];
    line
}

/// The line a·x ≤ d, with its variable in the first place.
pub const fn lone(a: i32, x: i32, d: i32) -> Line {
    line(a, x, 0, 0, d)
}

/// The same with its variable in the second place, where it is refused.
pub const fn misplaced(a: i32, x: i32, d: i32) -> Line {
    line(0, 0, a, x, d)
}

/// The line 0 ≤ d.
pub const fn zero(d: i32) -> Line {
    line(0, 0, 0, 0, d)
}

/// The same line, from the message with this identifier.
pub const fn of_message(mut line: Line, identifier: i32) -> Line {
    line[IDENTIFIER] = identifier;
    line
}

/// A valid identifier: often 0, at times at a limit or one of those that have the same
/// low eleven bits, else any.
pub fn identifier(chance: &mut Chance) -> i32 {
    let any = chance.between(0, i64::from(LAST_IDENTIFIER)) as i32;
    match chance.below(8) {
        0 | 1 => 0,
        2 => chance.pick(&EDGE_IDENTIFIERS),
        3 => any & !LAST_SHORT,
        _ => any,
    }
}

/// Gives each line an identifier.
pub fn identify(chance: &mut Chance, lines: &mut [Line]) {
    for line in lines {
        line[IDENTIFIER] = identifier(chance);
    }
}

/// Lines that were made by hand, with identifiers: the same ones whenever the lines are
/// the same.
pub fn identified(lines: &[Line]) -> Vec<Line> {
    let mix = |seed: u64, &number: &i32| (seed ^ number as u64).wrapping_mul(0x0000_0100_0000_01B3);
    let seed = lines.as_flattened().iter().fold(lines.len() as u64, mix);
    let mut lines = lines.to_vec();
    identify(&mut Chance::new(seed), &mut lines);
    lines
}
