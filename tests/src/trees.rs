//! A second implementation of trees over the lines of a list, written from their description
//! alone: reading and refusing them, their choices one behind the other, and what they say
//! as a condition.

use std::collections::BTreeSet;

use crate::limits;

/// The kinds of nodes, as their first number.
pub const ALL_OF: u32 = limits::ALL_OF as u32;
pub const ANY_OF: u32 = limits::ANY_OF as u32;
pub const LEAF: u32 = limits::LEAF as u32;

/// The most choices of a node.
pub const MOST_CHOICES: u128 = limits::MOST_CHOICES as u128;

/// A line of the list, or a node with its children.
#[derive(Clone, Debug, PartialEq, Eq)]
pub enum Tree {
    Line(usize),
    AllOf(Vec<Tree>),
    AnyOf(Vec<Tree>),
}

/// The number of a refusal, and its place.
pub type Refusal = (u8, usize);

/// The lines that a choice picks.
pub type Picked = BTreeSet<usize>;

/// An all-of and an any-of of these lines.
pub fn all_lines(lines: &[usize]) -> Tree {
    Tree::AllOf(lines.iter().map(|&line| Tree::Line(line)).collect())
}
pub fn any_line(lines: &[usize]) -> Tree {
    Tree::AnyOf(lines.iter().map(|&line| Tree::Line(line)).collect())
}

/// This tree as deep as one may stand, below nodes of one child each, of which the first is
/// at this depth.
pub fn deepest(tree: Tree, depth: usize) -> Tree {
    let levels = (depth..limits::MOST_DEPTH).rev();
    levels.fold(tree, |child, level| match level % 2 {
        1 => Tree::AllOf(vec![child]),
        _ => Tree::AnyOf(vec![child]),
    })
}

impl Tree {
    /// The numbers of the tree, in reading order.
    pub fn numbers(&self) -> Vec<u32> {
        let (kind, number, children) = match self {
            Tree::Line(line) => (LEAF, *line, &[][..]),
            Tree::AllOf(children) => (ALL_OF, children.len(), &children[..]),
            Tree::AnyOf(children) => (ANY_OF, children.len(), &children[..]),
        };
        let mut numbers = vec![kind, number as u32];
        numbers.extend(children.iter().flat_map(Tree::numbers));
        numbers
    }

    /// The tree with other numbers for its lines: for line k the one at index k.
    pub fn renamed(&self, numbers: &[usize]) -> Tree {
        let each = |children: &[Tree]| {
            let renamed = children.iter().map(|child| child.renamed(numbers));
            renamed.collect()
        };
        match self {
            Tree::Line(line) => Tree::Line(numbers[*line]),
            Tree::AllOf(children) => Tree::AllOf(each(children)),
            Tree::AnyOf(children) => Tree::AnyOf(each(children)),
        }
    }

    /// How many choices each node has, in reading order, itself first. Numbers that are too
    /// large for any use stay at the highest.
    pub fn counts(&self) -> Vec<u128> {
        let below = |children: &[Tree]| children.iter().map(Tree::counts).collect::<Vec<_>>();
        let (own, below) = match self {
            Tree::Line(_) => (1, Vec::new()),
            Tree::AllOf(children) => {
                let below = below(children);
                let times = |product: u128, counts: &Vec<u128>| product.saturating_mul(counts[0]);
                (below.iter().fold(1, times), below)
            }
            Tree::AnyOf(children) => {
                let below = below(children);
                let plus = |sum: u128, counts: &Vec<u128>| sum.saturating_add(counts[0]);
                (below.iter().fold(0, plus), below)
            }
        };
        [vec![own], below.concat()].concat()
    }

    /// All choices in the order of their numbers, of a tree that is not refused.
    pub fn choices(&self) -> Vec<Picked> {
        match self {
            Tree::Line(line) => vec![BTreeSet::from([*line])],
            Tree::AnyOf(children) => children.iter().flat_map(Tree::choices).collect(),
            // A child without a choice leaves none, however many the others have.
            Tree::AllOf(_) if self.counts()[0] == 0 => Vec::new(),
            Tree::AllOf(children) => {
                let with = |before: Vec<Picked>, child: &Tree| {
                    let own = child.choices();
                    let each = |picked: &Picked| {
                        own.iter()
                            .map(|more| picked | more)
                            .collect::<Vec<Picked>>()
                    };
                    before.iter().flat_map(each).collect()
                };
                children.iter().fold(vec![BTreeSet::new()], with)
            }
        }
    }

    /// Whether the condition holds, where these lines are met and no others.
    pub fn holds(&self, met: &[bool]) -> bool {
        match self {
            Tree::Line(line) => met[*line],
            Tree::AllOf(children) => children.iter().all(|child| child.holds(met)),
            Tree::AnyOf(children) => children.iter().any(|child| child.holds(met)),
        }
    }
}

/// A node some of whose children are still to be read.
struct Open {
    kind: u32,
    left: u32,
    children: Vec<Tree>,
}

impl Open {
    fn closed(self) -> Tree {
        match self.kind {
            ALL_OF => Tree::AllOf(self.children),
            _ => Tree::AnyOf(self.children),
        }
    }
}

/// Puts a node that is whole into the one around it, and closes those that have all their
/// children by that. The root, once it is closed.
fn put(open: &mut Vec<Open>, whole: Option<Tree>) -> Option<Tree> {
    let mut whole = whole;
    loop {
        if let Some(child) = whole.take() {
            let Some(around) = open.last_mut() else {
                return Some(child);
            };
            around.children.push(child);
            around.left -= 1;
        }
        if open.last().is_some_and(|last| last.left > 0) {
            return None;
        }
        whole = open.pop().map(Open::closed);
    }
}

/// The tree that these numbers are, over so many lines, or 41 or 42 with its place.
pub fn read(numbers: &[u32], lines: usize) -> Result<Tree, Refusal> {
    let mut open: Vec<Open> = Vec::new();
    let mut at = 0;
    loop {
        let cut = (41, numbers.len());
        let kind = *numbers.get(at).ok_or(cut)?;
        let may_stand: &[u32] = match open.last() {
            None => &[ALL_OF],
            Some(around) if around.kind == ALL_OF => &[ANY_OF, LEAF],
            Some(_) => &[ALL_OF, LEAF],
        };
        if open.len() == limits::MOST_DEPTH {
            return Err((42, at));
        }
        if !may_stand.contains(&kind) {
            return Err((41, at));
        }
        let number = *numbers.get(at + 1).ok_or(cut)?;
        if kind == LEAF && number as usize >= lines {
            return Err((41, at + 1));
        }
        at += 2;
        let whole = (kind == LEAF).then_some(Tree::Line(number as usize));
        if whole.is_none() {
            open.push(Open {
                kind,
                left: number,
                children: Vec::new(),
            });
        }
        if let Some(root) = put(&mut open, whole) {
            return if at < numbers.len() {
                Err((41, at))
            } else {
                Ok(root)
            };
        }
    }
}

/// The same, or 40 at the first node with too many choices.
pub fn taken(numbers: &[u32], lines: usize) -> Result<Tree, Refusal> {
    let tree = read(numbers, lines)?;
    let over = tree.counts().iter().position(|&count| count > MOST_CHOICES);
    // Each node has two numbers.
    over.map_or(Ok(tree), |node| Err((40, 2 * node)))
}
