//! The ways to decide that are timed.

use crate::buffers::Buffers;
use crate::finish::decide;
use crate::lines::Line;
use crate::{elimination, hub, johnson, library, rounds, three_loops};

pub struct Way {
    pub name: &'static str,
    pub decide: fn(usize, &[Line], &mut Buffers) -> i64,
}

/// The places of some. All but the library are plain Rust.
pub const LIBRARY: usize = 0;
pub const SAME_METHOD: usize = 1;
pub const THREE_LOOPS: usize = 2;

pub const WAYS: [Way; 5] = [
    Way {
        name: "the library",
        decide: library::decide,
    },
    Way {
        name: "same method",
        decide: same_method,
    },
    Way {
        name: "three loops",
        decide: |n, list, out| decide(n, list, three_loops::sums, out),
    },
    Way {
        name: "rounds",
        decide: |n, list, out| decide(n, list, rounds::sums, out),
    },
    Way {
        name: "Johnson",
        decide: |n, list, out| decide(n, list, johnson::sums, out),
    },
];

/// As the library does: without a table where there is one hub, else by elimination.
fn same_method(n: usize, list: &[Line], out: &mut Buffers) -> i64 {
    if hub::answered(n, list, out) {
        return 0;
    }
    decide(n, list, elimination::sums, out)
}
