//! The library's time as a multiple of other ways'.

use crate::timing::Times;
use crate::ways::{LIBRARY, SAME_METHOD, WAYS};

/// The library's seconds as a multiple of another way's.
pub fn multiple(times: &Times, way: usize) -> f64 {
    times[LIBRARY] / times[way]
}

/// The plain way that took the least.
pub fn best(times: &Times) -> usize {
    let plain = (0..WAYS.len()).filter(|&way| way != LIBRARY);
    let fewer = |x: &usize, y: &usize| times[*x].total_cmp(&times[*y]);
    plain.min_by(fewer).unwrap_or(SAME_METHOD)
}

/// The seconds of some lists together.
pub fn sum(lists: &[Times]) -> Times {
    std::array::from_fn(|way| lists.iter().map(|times| times[way]).sum())
}

/// A number in two digits or more.
pub fn shown(number: f64) -> String {
    let digits = match number {
        10.0.. => 0,
        1.0.. => 1,
        _ => 2,
    };
    format!("{number:.digits$}")
}

/// Seconds in milliseconds.
pub fn milliseconds(seconds: f64) -> String {
    format!("{} ms", shown(1e3 * seconds))
}
