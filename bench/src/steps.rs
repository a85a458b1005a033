//! The steps of a list's lines. Variable x has the points 2x and, for its negative,
//! 2x + 1.

use crate::lines::Line;

/// Stands for no walk.
pub const NONE: i64 = i64::MAX;

/// More than any sum of a walk: what is not below it is none.
pub const ABSENT: i64 = 1 << 50;

#[derive(Clone, Copy)]
pub struct Step {
    pub from: usize,
    pub to: usize,
    pub weight: i64,
    pub number: u32,
}

/// The point of the negative.
pub fn opposite(point: usize) -> usize {
    point ^ 1
}

/// The lowest line that says 0 ≤ d with d below 0.
pub fn false_line(list: &[Line]) -> Option<usize> {
    list.iter()
        .position(|&[a, _, b, _, d, ..]| a == 0 && b == 0 && d < 0)
}

/// The steps of a valid list.
pub fn steps(list: &[Line]) -> Vec<Step> {
    let point = |sign: i32, x: i32| 2 * x as usize + usize::from(sign < 0);
    let mut steps = Vec::with_capacity(2 * list.len());
    for (at, &[a, x, b, y, d, ..]) in list.iter().enumerate() {
        let mut add = |from, to, weight, side| {
            let (weight, number) = (i64::from(weight), (2 * at + side) as u32);
            steps.push(Step {
                from,
                to,
                weight,
                number,
            });
        };
        match (a, b) {
            (0, 0) => {}
            // A lone coefficient stands in the first place.
            (_, 0) => add(point(a, x), point(-a, x), 2 * d, 0),
            _ => {
                add(point(a, x), point(-b, y), d, 0);
                add(point(b, y), point(-a, x), d, 1);
            }
        }
    }
    steps
}
