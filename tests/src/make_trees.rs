//! Makes trees at random: some that are not refused, some with many choices, some too deep;
//! lists for them; and damages their numbers.

use crate::chance::Chance;
use crate::limits::MOST_DEPTH;
use crate::lines::{identified, line, lone, zero, Line};
use crate::make_lists::{self, near_zero, tied};
use crate::trees::{Tree, ALL_OF, ANY_OF, LEAF};

/// A list of n variables, at least two, whose lines trees pick from: with variables that are
/// tied, or of any shape; behind so many of these lines of which two clash, two do by halves,
/// and one is false.
pub fn list_to_pick_from(chance: &mut Chance, n: u64, with_ties: bool) -> (Vec<Line>, usize) {
    let mut lines = if with_ties {
        let values = near_zero(chance, n);
        tied(chance, &values)
    } else {
        make_lists::Shape::of(chance, n).list(chance)
    };
    let own = lines.len();
    let more = [lone(-1, 0, -4), lone(1, 0, 3), zero(-3)];
    let halves = [line(1, 1, 1, 1, 7), line(-1, 1, -1, 1, -7)];
    lines.extend(identified(&[&more[..], &halves].concat()));
    (lines, own)
}

/// What a tree is made of: over how many lines, how deep at most, with how many children of
/// a node at most.
#[derive(Clone, Copy)]
pub struct Shape {
    pub lines: usize,
    pub depth: usize,
    pub children: usize,
}

impl Shape {
    /// From bare ones to full ones.
    pub fn of(chance: &mut Chance, lines: usize) -> Shape {
        Shape {
            lines,
            depth: chance.pick(&[2, 3, 4, 5, MOST_DEPTH]),
            children: chance.pick(&[1, 2, 2, 3, 3, 4, 5]),
        }
    }

    /// A tree of this shape, whatever its choices are.
    pub fn tree(self, chance: &mut Chance) -> Tree {
        self.node(chance, ALL_OF, 1)
    }

    /// The same with no node of more choices than this. About half of the first lines, so
    /// many, are the root's own, so that choices pick many.
    pub fn full_tree(self, chance: &mut Chance, own: usize, most: usize) -> Tree {
        loop {
            let mut children: Vec<Tree> = (0..own).map(Tree::Line).collect();
            children.retain(|_| chance.one_in(2));
            for _ in 0..chance.below(self.children + 1) {
                let at = chance.below(children.len() + 1);
                children.insert(at, self.node(chance, ANY_OF, 2));
            }
            let tree = Tree::AllOf(children);
            if tree.counts().iter().all(|&count| count <= most as u128) {
                return tree;
            }
        }
    }

    /// A node of this kind at this depth, at times without children.
    fn node(self, chance: &mut Chance, kind: u32, depth: usize) -> Tree {
        let most = if chance.one_in(12) { 0 } else { self.children };
        let count = if depth < self.depth {
            chance.between(i64::from(most > 0), most as i64)
        } else {
            0
        };
        let other = if kind == ALL_OF { ANY_OF } else { ALL_OF };
        let children = (0..count)
            .map(|_| self.child(chance, other, depth + 1))
            .collect();
        match kind {
            ALL_OF => Tree::AllOf(children),
            _ => Tree::AnyOf(children),
        }
    }

    /// A line, where there are some, or a node of this kind.
    fn child(self, chance: &mut Chance, kind: u32, depth: usize) -> Tree {
        let deepest = depth == self.depth;
        if self.lines > 0 && (chance.one_in(2) || (deepest && !chance.one_in(8))) {
            Tree::Line(chance.below(self.lines))
        } else {
            self.node(chance, kind, depth)
        }
    }
}

/// The numbers of a tree with one damage, at times several.
pub fn damaged(chance: &mut Chance, numbers: &[u32], lines: usize) -> Vec<u32> {
    let mut numbers = numbers.to_vec();
    loop {
        damage(chance, &mut numbers, lines as u32);
        if !chance.one_in(3) {
            return numbers;
        }
    }
}

fn damage(chance: &mut Chance, numbers: &mut Vec<u32>, lines: u32) {
    let at = chance.below(numbers.len() + 1);
    let other = chance.below(numbers.len() + 1);
    match chance.below(9) {
        0 => numbers.truncate(at),
        1 => numbers.insert(at, chance.pick(&[0, 1, 2, 3, 4, lines])),
        2 => drop(numbers.drain(at.min(other)..at.max(other))),
        3 => numbers.extend((0..1 + chance.below(3)).map(|_| chance.below(4) as u32)),
        4 => {
            let part = numbers[at.min(other)..at.max(other)].to_vec();
            drop(numbers.splice(at..at, part));
        }
        _ if at == numbers.len() => {}
        5 => numbers[at] = chance.pick(&[ALL_OF, ANY_OF, LEAF]),
        6 => numbers[at] = numbers[at].wrapping_add(chance.pick(&[1, u32::MAX])),
        7 => numbers[at] = chance.pick(&[0, 4, lines, lines + 1, 1 << 16, 1 << 31, u32::MAX]),
        _ => numbers[at] ^= 1 << chance.below(32),
    }
}
