//! One list timed by all ways, and their answers compared.

use std::hint::black_box;

use crate::buffers::Buffers;
use crate::clock::seconds;
use crate::library::refutes;
use crate::lines::{Line, IDENTIFIER};
use crate::ways::WAYS;

/// The seconds that a list takes each way.
pub type Times = [f64; WAYS.len()];

/// A way is tried so often on a list, or until it has taken so many seconds.
pub const TRIES: usize = 20;
pub const LONG: f64 = 0.06;

/// What must be the same from all ways.
#[derive(Clone, PartialEq)]
pub struct Answer {
    result: i64,
    model: Vec<i32>,
    bounds: Vec<i64>,
    groups: Vec<u32>,
    kind: u32,
}

/// The answer, where what need not be the same is right too.
pub fn answer(name: &str, n: usize, list: &[Line], result: i64, out: &Buffers) -> Answer {
    let cleared = out.work.iter().all(|&number| number == 0);
    assert!(cleared, "{name} leaves numbers in the work area");
    let refuted = result == 0 || refutes(n, list, &out.refutation);
    assert!(refuted, "{name} gives a wrong refutation");
    let named = result == 0 || names_steps(list, out);
    assert!(named, "{name} gives wrong identifiers");
    Answer {
        result,
        model: out.model.clone(),
        bounds: out.bounds.clone(),
        groups: out.groups.clone(),
        kind: out.refutation[0],
    }
}

/// Whether each step of the refutation has the identifier of its line.
fn names_steps(list: &[Line], out: &Buffers) -> bool {
    let count = (out.refutation[1] + out.refutation[2]) as usize;
    let steps = out.refutation[3..].iter().take(count);
    let due = steps.map(|&step| list[step as usize / 2][IDENTIFIER] as u32);
    due.eq(out.identifiers.iter().copied().take(count))
}

/// Whether a list can hold, and its times: the least of some tries, taken in turn.
pub fn times(n: usize, list: &[Line]) -> (bool, Times) {
    let mut least = [f64::MAX; WAYS.len()];
    let mut spent = [0.0; WAYS.len()];
    let mut due: Option<Answer> = None;
    let mut out = Buffers::new(n);
    for _ in 0..TRIES {
        for (at, way) in WAYS.iter().enumerate() {
            if spent[at] >= LONG {
                continue;
            }
            out.fill();
            let began = seconds();
            let result = black_box((way.decide)(n, black_box(list), black_box(&mut out)));
            let time = seconds() - began;
            least[at] = time.min(least[at]);
            spent[at] += time;
            let found = answer(way.name, n, list, result, &out);
            let due = due.get_or_insert_with(|| found.clone());
            assert!(found == *due, "{} answers otherwise", way.name);
        }
    }
    (due.is_some_and(|answer| answer.result == 0), least)
}
