//! The buffers that deciding is lent: each lies between guard numbers, may be
//! longer than it need be, and is full of rubbish before the call.

use crate::chance::Chance;
use crate::library::{self, ChoiceFound, ImpliedPair, Lent};
use crate::limits::rooms;
use crate::lines::Line;

/// How many numbers lie before and behind what is lent.
const GUARD: usize = 16;

/// How many buffers are lent, and how many of them are for output: all but the last.
pub const BUFFERS: usize = 6;
pub const OUTPUTS: usize = BUFFERS - 1;

/// A length for each: model, bounds, groups, refutation, identifiers, work area.
pub type Lengths = [usize; BUFFERS];

/// The place of the groups' length among them.
pub const GROUPS: usize = 2;

/// The lengths that n variables, at most MOST_VARIABLES, ask for.
pub fn needed(n: u64) -> Lengths {
    rooms(n as usize)
}

/// These lengths, each one less where this number has its bit; but a buffer of no
/// numbers can't be shorter.
pub fn cut_by(full: Lengths, short: usize) -> Lengths {
    std::array::from_fn(|at| full[at].saturating_sub(short >> at & 1))
}

/// The numbers that are lent and the guards around them.
#[derive(Clone, Debug, PartialEq, Eq)]
pub struct Guarded<T> {
    whole: Vec<T>,
    length: usize,
}

impl<T: Copy> Guarded<T> {
    /// So many numbers and their guards, full of this rubbish.
    pub fn new(length: usize, rubbish: impl FnMut() -> T) -> Guarded<T> {
        let whole = std::iter::repeat_with(rubbish)
            .take(length + 2 * GUARD)
            .collect();
        Guarded { whole, length }
    }

    pub fn lent(&self) -> &[T] {
        &self.whole[GUARD..GUARD + self.length]
    }

    /// What lies behind the first numbers that are lent.
    pub fn behind(&self, first: usize) -> &[T] {
        &self.whole[GUARD + first..]
    }

    pub fn before(&self) -> &[T] {
        &self.whole[..GUARD]
    }

    pub fn lent_mut(&mut self) -> &mut [T] {
        &mut self.whole[GUARD..GUARD + self.length]
    }

    /// Whether what lies before and behind what is lent is the same.
    pub fn has_guards_of(&self, other: &Guarded<T>) -> bool
    where
        T: PartialEq,
    {
        let guards =
            |of: &Guarded<T>| [&of.whole[..GUARD], &of.whole[GUARD + of.length..]].concat();
        guards(self) == guards(other)
    }
}

/// All of them.
#[derive(Clone, Debug, PartialEq, Eq)]
pub struct Buffers {
    pub model: Guarded<i32>,
    pub bounds: Guarded<i64>,
    pub groups: Guarded<u32>,
    pub refutation: Guarded<u32>,
    pub identifiers: Guarded<u32>,
    pub work: Guarded<i64>,
}

impl Buffers {
    /// Buffers of these lengths, full of rubbish of one sort or another.
    pub fn new(chance: &mut Chance, lengths: Lengths) -> Buffers {
        let sort = chance.below(8);
        let mut count = 0;
        let mut rubbish = || match sort {
            0 => 0,
            1 => -1,
            2 => i64::MIN,
            3 => i64::MAX,
            4 => {
                count += 1;
                count
            }
            _ => chance.next() as i64,
        };
        Buffers {
            model: Guarded::new(lengths[0], || rubbish() as i32),
            bounds: Guarded::new(lengths[1], &mut rubbish),
            groups: Guarded::new(lengths[2], || rubbish() as u32),
            refutation: Guarded::new(lengths[3], || rubbish() as u32),
            identifiers: Guarded::new(lengths[4], || rubbish() as u32),
            work: Guarded::new(lengths[5], &mut rubbish),
        }
    }

    /// Buffers long enough for n variables, some of them longer.
    pub fn enough(chance: &mut Chance, n: u64) -> Buffers {
        Buffers::at_least(chance, needed(n))
    }

    /// Buffers of these lengths, some of them longer.
    pub fn at_least(chance: &mut Chance, lengths: Lengths) -> Buffers {
        let lengths = lengths.map(|length| length + chance.pick(&[0, 0, 1, 7]));
        Buffers::new(chance, lengths)
    }

    /// Others with the numbers of these within such rooms.
    pub fn within(&self, rooms: Lengths, others: &Buffers) -> Buffers {
        fn put<T: Copy>(room: usize, from: &Guarded<T>, to: &mut Guarded<T>) {
            to.lent_mut()[..room].copy_from_slice(&from.lent()[..room]);
        }
        let mut both = others.clone();
        put(rooms[0], &self.model, &mut both.model);
        put(rooms[1], &self.bounds, &mut both.bounds);
        put(rooms[2], &self.groups, &mut both.groups);
        put(rooms[3], &self.refutation, &mut both.refutation);
        put(rooms[4], &self.identifiers, &mut both.identifiers);
        put(rooms[5], &self.work, &mut both.work);
        both
    }

    pub fn lengths(&self) -> Lengths {
        [
            self.model.length,
            self.bounds.length,
            self.groups.length,
            self.refutation.length,
            self.identifiers.length,
            self.work.length,
        ]
    }

    /// All of them, for one call.
    fn lent(&mut self) -> Lent<'_> {
        Lent {
            model: self.model.lent_mut(),
            bounds: self.bounds.lent_mut(),
            groups: self.groups.lent_mut(),
            refutation: self.refutation.lent_mut(),
            identifiers: self.identifiers.lent_mut(),
            work: self.work.lent_mut(),
        }
    }

    /// The result of deciding a list in these buffers.
    pub fn call(&mut self, n: u64, list: &[i32]) -> i64 {
        library::decide(n, list, self.lent())
    }

    /// The result of deciding a list of differences in these buffers.
    pub fn differences(&mut self, n: u64, list: &[i32]) -> i64 {
        library::decide_differences(n, list, self.lent())
    }

    /// What two variables of a list imply about each other, with this work area.
    pub fn implied_pair(&mut self, n: u64, list: &[i32], [x, y]: [u64; 2]) -> ImpliedPair {
        library::implied_pair(n, list, x, y, self.work.lent_mut())
    }

    /// The result of asking for a line, with this model and this work area.
    pub fn implied_line(&mut self, n: u64, list: &[i32], line: Line) -> i64 {
        let (model, work) = (&mut self.model, &mut self.work);
        library::implied_line(n, list, line, model.lent_mut(), work.lent_mut())
    }

    /// The result of showing a line, with this refutation, these identifiers and this work
    /// area.
    pub fn show_line(&mut self, n: u64, list: &[i32], line: Line) -> i64 {
        let (refutation, identifiers) = (&mut self.refutation, &mut self.identifiers);
        let (refutation, identifiers) = (refutation.lent_mut(), identifiers.lent_mut());
        library::show_line(n, list, line, refutation, identifiers, self.work.lent_mut())
    }

    /// The first choice of a tree that can be met, with this model and this work area.
    pub fn tree_first(&mut self, n: u64, list: &[i32], tree: &[u32]) -> ChoiceFound {
        let (model, work) = (&mut self.model, &mut self.work);
        library::tree_first(n, list, tree, model.lent_mut(), work.lent_mut())
    }

    /// A choice of a tree, decided in these buffers.
    pub fn tree_decide(&mut self, n: u64, list: &[i32], tree: &[u32], choice: u64) -> ChoiceFound {
        library::tree_decide(n, list, tree, choice, self.lent())
    }

    /// The result of adding a line to the session with this state, in these buffers.
    pub fn add(&mut self, state: &mut [i64], line: Line) -> i64 {
        library::session_add(state, line, self.lent())
    }
}
