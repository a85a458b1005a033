//! Decides a list with the library and makes sure of all that must hold of any
//! answer: that both checkers accept it, and that nothing else is written.

use crate::buffers::{needed, Buffers, Lengths};
use crate::bytes;
use crate::chance::Chance;
use crate::limits::NO;
use crate::lines::Line;
use crate::second::{self, Answer};

/// What deciding answers, but for the walks of a refutation, which are free.
#[derive(Clone, Debug, PartialEq, Eq)]
pub enum Verdict {
    Yes(Solved),
    No(Reason),
    /// The refusal's number and its place.
    Refused(u8, usize),
}

/// What is written on a yes.
#[derive(Clone, Debug, PartialEq, Eq)]
pub struct Solved {
    pub model: Vec<i64>,
    /// For each variable the least, then the greatest value.
    pub bounds: Vec<i64>,
    pub groups: Vec<Group>,
}

/// The group of a variable: the lowest variable that it always equals or mirrors, then
/// `PLUS` where it equals it, `MINUS` where it does not.
pub type Group = [u32; 2];
pub const PLUS: u32 = 0;
pub const MINUS: u32 = 1;

/// The groups of so many variables of which none equals or mirrors another.
pub fn own_groups(n: usize) -> Vec<Group> {
    (0..n as u32).map(|x| [x, PLUS]).collect()
}

/// Why a list has no solution: the kind of refutation that is due.
#[derive(Clone, Copy, Debug, PartialEq, Eq)]
pub enum Reason {
    /// Kind 3: the number of the lowest false line.
    FalseLine(usize),
    /// Kind 1.
    ClosedWalk,
    /// Kind 2.
    HalvedWalks,
}

/// A verdict, and on a no the numbers that were handed over: the refutation, and an
/// identifier for each of its steps.
#[derive(Clone, Debug, PartialEq, Eq)]
pub struct Decision {
    pub verdict: Verdict,
    pub refutation: Vec<u32>,
    pub identifiers: Vec<u32>,
}

impl Decision {
    /// A verdict with which nothing is handed over.
    fn only(verdict: Verdict) -> Decision {
        Decision {
            verdict,
            refutation: Vec::new(),
            identifiers: Vec::new(),
        }
    }
}

/// A no, as a result.
const A_NO: i64 = NO as i64;

/// Decides lines in buffers full of rubbish, some longer than they need be.
pub fn decide(chance: &mut Chance, n: u64, lines: &[Line]) -> Decision {
    decide_in(&mut Buffers::enough(chance, n), n, &lines.concat())
}

/// Decides a list in these buffers.
pub fn decide_in(buffers: &mut Buffers, n: u64, list: &[i32]) -> Decision {
    let before = buffers.clone();
    let old_list = list.to_vec();
    let result = buffers.call(n, list);
    assert!(list == old_list, "the list was written to: {old_list:?}");
    let due = second::decide_refusal(n, list, before.lengths());
    let call = Call {
        n,
        list,
        due,
        result,
        rooms: needed,
    };
    call.decision(&before, buffers)
}

/// A call that decides a list, what it is to be refused with, if it is to, and what it
/// returned.
pub struct Call<'a> {
    pub n: u64,
    pub list: &'a [i32],
    pub due: Option<Answer>,
    pub result: i64,
    /// The rooms of the buffers for n variables.
    pub rooms: fn(u64) -> Lengths,
}

impl Call<'_> {
    /// The decision, where the buffers held this before the call and that after it.
    pub fn decision(&self, before: &Buffers, buffers: &Buffers) -> Decision {
        let Call {
            n,
            list,
            due,
            result,
            rooms,
        } = *self;
        let shown = || format!("n: {n}\nlist: {list:?}");
        let mut allowed = before.clone();
        let decision = match (due, result) {
            (Some(refused), _) => {
                assert_eq!(result, refused.code(), "{refused:?} is due\n{}", shown());
                let Answer::Refused(number, place) = refused else {
                    unreachable!()
                };
                Decision::only(Verdict::Refused(number, place))
            }
            (None, 0) => yes(n, list, rooms(n), buffers, &mut allowed),
            (None, A_NO) => no(n, list, rooms(n), buffers, &mut allowed),
            (None, _) => panic!("the result is {result}\n{}", shown()),
        };
        if *buffers != allowed {
            let place = first_difference(buffers, &allowed);
            panic!(
                "result {result}, and {place} is not as it must be\n{}",
                shown()
            );
        }
        decision
    }
}

/// A model's values, as the checks and other calls take them.
pub fn widened(values: &[i32]) -> Vec<i64> {
    values.iter().copied().map(i64::from).collect()
}

/// Reads a yes, and lets `allowed` have what may be written with it, in these rooms.
fn yes(n: u64, list: &[i32], rooms: Lengths, buffers: &Buffers, allowed: &mut Buffers) -> Decision {
    let [model, bounds, groups, .., work] = rooms;
    let values = &buffers.model.lent()[..model];
    let solved = Solved {
        model: widened(values),
        bounds: buffers.bounds.lent()[..bounds].to_vec(),
        groups: groups_of(&buffers.groups.lent()[..groups]),
    };
    allowed.model.lent_mut()[..model].copy_from_slice(values);
    allowed.bounds.lent_mut()[..bounds].copy_from_slice(&solved.bounds);
    allowed.groups.lent_mut()[..groups].copy_from_slice(solved.groups.as_flattened());
    allowed.work.lent_mut()[..work].fill(0);
    let answer = crate::model(n, &bytes::numbers(list), &bytes::model(&solved.model));
    assert_eq!(
        answer,
        Answer::Yes,
        "the model {:?} is not accepted\nn: {n}\nlist: {list:?}",
        solved.model
    );
    Decision::only(Verdict::Yes(solved))
}

/// The groups that these numbers are.
fn groups_of(numbers: &[u32]) -> Vec<Group> {
    let group = |numbers: &[u32]| numbers.try_into().unwrap();
    numbers.chunks(2).map(group).collect()
}

/// Reads a no, and lets `allowed` have what may be written with it, in these rooms.
fn no(n: u64, list: &[i32], rooms: Lengths, buffers: &Buffers, allowed: &mut Buffers) -> Decision {
    let [_, _, _, room, _, work] = rooms;
    let lent = &buffers.refutation.lent()[..room];
    let shown = || format!("n: {n}\nlist: {list:?}\nrefutation: {lent:?}");
    let steps = u64::from(lent[1]) + u64::from(lent[2]);
    let most = if lent[0] == 3 { 1 } else { 4 * n };
    assert!(steps <= most, "{steps} steps\n{}", shown());
    let refutation = lent[..3 + steps as usize].to_vec();
    allowed.refutation.lent_mut()[..refutation.len()].copy_from_slice(&refutation);
    allowed.work.lent_mut()[..work].fill(0);
    let packed = bytes::refutation(&refutation);
    let answer = crate::refutation(n, &bytes::numbers(list), &packed);
    assert_eq!(answer, Answer::Yes, "not accepted\n{}", shown());
    let identifiers = buffers.identifiers.lent()[..steps as usize].to_vec();
    let due = second::identifiers(list, &refutation[3..]);
    assert_eq!(identifiers, due, "the steps' identifiers\n{}", shown());
    allowed.identifiers.lent_mut()[..due.len()].copy_from_slice(&due);
    let reason = match refutation[0] {
        1 => Reason::ClosedWalk,
        2 => Reason::HalvedWalks,
        _ => Reason::FalseLine(refutation[3] as usize / 2),
    };
    Decision {
        verdict: Verdict::No(reason),
        refutation,
        identifiers,
    }
}

/// The buffer that differs, in words.
fn first_difference(buffers: &Buffers, allowed: &Buffers) -> &'static str {
    if buffers.model != allowed.model {
        "the model's buffer"
    } else if buffers.bounds != allowed.bounds {
        "the bounds' buffer"
    } else if buffers.groups != allowed.groups {
        "the groups' buffer"
    } else if buffers.refutation != allowed.refutation {
        "the refutation's buffer"
    } else if buffers.identifiers != allowed.identifiers {
        "the identifiers' buffer"
    } else {
        "the work area"
    }
}
