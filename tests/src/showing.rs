//! Showing a line with the library: what is returned and left in the lent buffers and
//! around them must be what is due, and what is handed over must be a showing, as both
//! checkers say.

use crate::buffers::{needed, Buffers};
use crate::bytes;
use crate::chance::Chance;
use crate::limits::{LINE_NUMBERS, MOST_LINES, NO};
use crate::lines::{Line, IDENTIFIER};
use crate::second::{self, Answer};

/// Whether a line is shown; then what is handed over.
#[derive(Clone, Debug, PartialEq, Eq)]
pub enum Shown {
    Yes(Vec<u32>),
    No,
    Refused(u8, usize),
}

/// The lengths that the refutation, the identifiers and the work area for n variables have
/// to have.
pub fn rooms(n: u64) -> [usize; 3] {
    let [.., refutation, identifiers, work] = needed(n);
    [refutation, identifiers, work]
}

/// Shows a line in buffers of these lengths.
pub fn show_in(
    chance: &mut Chance,
    n: u64,
    list: &[i32],
    line: Line,
    lengths: [usize; 3],
) -> Shown {
    let [refutation, identifiers, work] = lengths;
    let mut buffers = Buffers::new(chance, [0, 0, 0, refutation, identifiers, work]);
    let mut allowed = buffers.clone();
    let read = list.to_vec();
    let result = buffers.show_line(n, list, line);
    let told = || format!("result {result}\nn: {n}, line: {line:?}\nlist: {list:?}");
    let shown = match (second::show_refusal(n, list, &line, lengths), result) {
        (Some(refused), _) => {
            assert_eq!(result, refused.code(), "{refused:?} is due\n{}", told());
            match refused {
                Answer::Refused(number, place) => Shown::Refused(number, place),
                _ => unreachable!(),
            }
        }
        (None, 0) => handed_over(n, list, line, &buffers, &mut allowed),
        (None, _) => {
            assert_eq!(result, NO as i64, "{}", told());
            Shown::No
        }
    };
    if !matches!(shown, Shown::Refused(..)) {
        allowed.work.lent_mut()[..rooms(n)[2]].fill(0);
    }
    assert!(buffers == allowed, "the buffers or around\n{}", told());
    assert!(read == list, "the list was written to\n{}", told());
    shown
}

/// The same in buffers that are long enough.
pub fn show(chance: &mut Chance, n: u64, lines: &[Line], line: Line) -> Shown {
    let lengths = rooms(n).map(|room| room + chance.pick(&[0, 0, 1, 7]));
    show_in(chance, n, lines.as_flattened(), line, lengths)
}

/// Reads a showing, and lets `allowed` have what may be written with it: it is short, both
/// checkers accept it, and each step has the identifier of its line.
fn handed_over(
    n: u64,
    list: &[i32],
    line: Line,
    buffers: &Buffers,
    allowed: &mut Buffers,
) -> Shown {
    let lent = buffers.refutation.lent();
    let told = || format!("n: {n}, line: {line:?}\nlist: {list:?}\nshowing: {lent:?}");
    let steps = u64::from(lent[1]) + u64::from(lent[2]);
    let most = if lent[0] == 3 { 1 } else { 4 * n };
    assert!(steps <= most, "{steps} steps\n{}", told());
    let showing = lent[..3 + steps as usize].to_vec();
    assert_eq!(checked(n, list, line, &showing), Answer::Yes, "{}", told());
    let identifier = |&step: &u32| match step as usize / 2 {
        MOST_LINES => line[IDENTIFIER] as u32,
        own => list[LINE_NUMBERS * own + IDENTIFIER] as u32,
    };
    let identifiers: Vec<u32> = showing[3..].iter().map(identifier).collect();
    allowed.refutation.lent_mut()[..showing.len()].copy_from_slice(&showing);
    allowed.identifiers.lent_mut()[..identifiers.len()].copy_from_slice(&identifiers);
    Shown::Yes(showing)
}

/// What both checkers answer on these numbers.
pub fn checked(n: u64, list: &[i32], line: Line, showing: &[u32]) -> Answer {
    let line = bytes::numbers(&line);
    crate::shown(n, &bytes::numbers(list), &line, &bytes::refutation(showing))
}
