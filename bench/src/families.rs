//! The families of lists that are timed.

use crate::buffers::Buffers;
use crate::chance::Chance;
use crate::library;
use crate::limits::{MOST_IDENTIFIER, MOST_LINES, MOST_VARIABLES};
use crate::lines::{List, IDENTIFIER};
use crate::lists::{
    all_count, chain, grid, halves_apart, hub, lone_lines, made_differences, met, met_differences,
    negative_cycle, sparse, tied, Hidden, Order,
};

pub struct Family {
    pub name: &'static str,
    pub n: usize,
    pub lists: Vec<List>,
}

/// The family of which half can hold.
pub const SPARSE: &str = "sparse";

/// What is timed at one number of variables.
struct Size {
    n: usize,
    /// The lines of a list, where its shape leaves them open.
    lines: usize,
    /// The sparse lists, and the lowest bound in them.
    sparse: usize,
    lowest: i32,
    /// The lists of each other family.
    others: usize,
}

/// The limits of the library's first versions, kept to compare over time.
const SMALL: Size = Size {
    n: 64,
    lines: 512,
    sparse: 100,
    lowest: -160,
    others: 10,
};

/// The limits of today.
const LARGE: Size = Size {
    n: MOST_VARIABLES,
    lines: MOST_LINES,
    sparse: 40,
    lowest: -135,
    others: 3,
};

/// Few variables, with the most lines.
const FEW: [usize; 2] = [4, 32];

/// Families of lists that can hold, or of which some can, which sessions take line by line.
pub const OF_SESSIONS: [&str; 2] = [SPARSE, DENSE.0];

/// A name, and a list of so many variables and lines.
type Shape = (&'static str, fn(&mut Chance, usize, usize) -> List);

const DENSE: Shape = ("dense", |chance, n, _| {
    met(chance, n, MOST_LINES, Hidden::Whole, 1_000)
});

const SHUFFLED: Shape = ("chain, shuffled", |chance, n, lines| {
    chain(chance, n, lines, Order::Shuffled)
});

/// One list each.
const CHAINS: [Shape; 4] = [
    ("chain, forward", |chance, n, lines| {
        chain(chance, n, lines, Order::Forward)
    }),
    ("chain, backward", |chance, n, lines| {
        chain(chance, n, lines, Order::Backward)
    }),
    ("chain, mixed", |chance, n, lines| {
        chain(chance, n, lines, Order::Mixed)
    }),
    SHUFFLED,
];

const OTHERS: [Shape; 10] = [
    DENSE,
    ("dense, all lines count", |chance, n, _| {
        all_count(chance, n, MOST_LINES)
    }),
    ("one hub", |chance, n, _| hub(chance, n)),
    ("grid", |chance, n, _| grid(chance, n)),
    ("lone lines", |chance, n, _| {
        lone_lines(chance, n, MOST_LINES)
    }),
    ("equal or mirrored", tied),
    ("negative cycle of 2", |chance, n, lines| {
        negative_cycle(chance, n, lines, 2)
    }),
    ("negative cycle of all", |chance, n, lines| {
        negative_cycle(chance, n, lines, n)
    }),
    ("halves", |chance, n, _| {
        met(chance, n, 4 * n, Hidden::Halves, 0)
    }),
    ("halves, long walks", halves_apart),
];

/// All families, with at most so many lists each.
pub fn families(most: usize) -> Vec<Family> {
    let mut families = Vec::new();
    for size in [SMALL, LARGE] {
        let Size { n, lines, .. } = size;
        let others = most.min(size.others);
        families.push(half_sparse(&size, most));
        families.extend(CHAINS.map(|shape| family(shape, n, lines, 1)));
        families.extend(OTHERS.map(|shape| family(shape, n, lines, others)));
    }
    for n in FEW {
        families.push(family(DENSE, n, MOST_LINES, most.min(SMALL.others)));
        families.push(family(SHUFFLED, n, MOST_LINES, 1));
    }
    families
}

fn family((name, list): Shape, n: usize, lines: usize, count: usize) -> Family {
    let mut chance = Chance(5);
    let list = |_| identified(list(&mut chance, n, lines));
    let lists = (0..count).map(list).collect();
    Family { name, n, lists }
}

/// The same lines from any messages. The lists are otherwise as without identifiers.
fn identified(mut list: List) -> List {
    let mut chance = Chance(9);
    for line in &mut list {
        line[IDENTIFIER] = chance.below(MOST_IDENTIFIER + 1) as i32;
    }
    list
}

/// Sparse lists of which half can hold: of those drawn, the first of each verdict.
fn half_sparse(size: &Size, most: usize) -> Family {
    let count = most.min(size.sparse);
    let draw = |chance: &mut Chance| sparse(chance, size.n, size.lowest);
    half_of(SPARSE, size.n, count, draw)
}

/// So many lists of which half can hold: of those drawn, the first of each verdict.
fn half_of(
    name: &'static str,
    n: usize,
    count: usize,
    draw: impl Fn(&mut Chance) -> List,
) -> Family {
    let mut missing = [count / 2, count - count / 2];
    let mut chance = Chance(1);
    let mut out = Buffers::new(n);
    let mut lists = Vec::new();
    while missing != [0, 0] {
        let list = identified(draw(&mut chance));
        let holds = library::decide(n, &list, &mut out) == 0;
        let missing = &mut missing[usize::from(holds)];
        if *missing > 0 {
            *missing -= 1;
            lists.push(list);
        }
    }
    Family { name, n, lists }
}

/// Lists of differences: half of the sparse ones can hold, all of the dense ones, and
/// none of the others.
pub fn differences(most: usize) -> Vec<Family> {
    let mut families = Vec::new();
    for size in [SMALL, LARGE] {
        let Size { n, lines, .. } = size;
        let draw = |chance: &mut Chance| made_differences(sparse(chance, n, size.lowest));
        families.push(half_of(SPARSE, n, most.min(size.others), draw));
        let others: [Shape; 2] = [
            (DENSE.0, |chance, n, _| {
                met_differences(chance, n, MOST_LINES)
            }),
            ("negative cycle of all", |chance, n, lines| {
                made_differences(negative_cycle(chance, n, lines, n))
            }),
        ];
        families.extend(others.map(|shape| family(shape, n, lines, most.min(size.others))));
    }
    families
}
