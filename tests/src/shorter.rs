//! The shorter of two refutations: a second implementation, and the call on numbers
//! between guards, all of which it must leave as they were.

use std::hint::black_box;

use crate::buffers::Guarded;
use crate::bytes;
use crate::chance::Chance;
use crate::library;
use crate::limits::{SHORTER_FIRST, SHORTER_NEITHER, SHORTER_SECOND};
use crate::second::{self, Answer};

/// What is handed back: so many numbers from the front of the first or of the second.
#[derive(Clone, Copy, Debug, PartialEq, Eq)]
pub enum Shorter {
    Neither,
    First(usize),
    Second(usize),
}

/// How many numbers the refutation at the front of these has, if it is there and accepted.
pub fn accepted(n: u64, list: &[i32], lent: &[u32]) -> Option<usize> {
    let &[_, p, q, ..] = lent else {
        return None;
    };
    let length = 3 + u128::from(p) + u128::from(q);
    let part = lent.get(..usize::try_from(length).ok()?)?;
    let answer = second::check_refutation(n, &bytes::numbers(list), &bytes::refutation(part));
    (answer == Answer::Yes).then_some(part.len())
}

/// What is due.
fn due(n: u64, list: &[i32], lent: [&[u32]; 2]) -> Shorter {
    match lent.map(|lent| accepted(n, list, lent)) {
        [Some(first), Some(second)] if second < first => Shorter::Second(second),
        [Some(first), _] => Shorter::First(first),
        [None, Some(second)] => Shorter::Second(second),
        [None, None] => Shorter::Neither,
    }
}

/// What a call returned, in the form of what is due.
fn returned(part: library::Part) -> Shorter {
    let length = part.length as usize;
    match part.which as usize {
        SHORTER_FIRST => Shorter::First(length),
        SHORTER_SECOND => Shorter::Second(length),
        SHORTER_NEITHER => {
            assert_eq!(length, 0, "the length of nothing");
            Shorter::Neither
        }
        which => panic!("which is {which}"),
    }
}

/// These numbers between guards.
fn guarded<T: Copy>(numbers: &[T], rubbish: impl FnMut() -> T) -> Guarded<T> {
    let mut guarded = Guarded::new(numbers.len(), rubbish);
    guarded.lent_mut().copy_from_slice(numbers);
    guarded
}

/// What the library hands back, after making sure that it is due and that nothing was
/// written.
pub fn shorter(chance: &mut Chance, n: u64, list: &[i32], lent: [&[u32]; 2]) -> Shorter {
    let mut of_list = guarded(list, || chance.next() as i32);
    let mut refutations = lent.map(|lent| guarded(lent, || chance.next() as u32));
    let before = (of_list.clone(), refutations.clone());
    let [first, second] = [0, 1].map(|at| refutations[at].lent());
    let part = library::shorter(n, of_list.lent(), first, second);
    let after = (black_box(&mut of_list), black_box(&mut refutations));
    let shown = || format!("n: {n}\nlist: {list:?}\nrefutations: {lent:?}");
    assert!(
        (&before.0, &before.1) == (&*after.0, &*after.1),
        "something was written to\n{}",
        shown()
    );
    let due = due(n, list, lent);
    assert_eq!(returned(part), due, "{due:?} is due\n{}", shown());
    let handed = match due {
        Shorter::First(length) => &lent[0][..length],
        Shorter::Second(length) => &lent[1][..length],
        Shorter::Neither => return due,
    };
    let answer = crate::refutation(n, &bytes::numbers(list), &bytes::refutation(handed));
    assert_eq!(
        answer,
        Answer::Yes,
        "{handed:?} is not accepted\n{}",
        shown()
    );
    due
}
