//! The two questions of what a list implies, asked of the library: what each returns, and
//! what it leaves in the lent buffers and around them, must be what is due.

use crate::buffers::{needed, Buffers};
use crate::bytes;
use crate::chance::Chance;
use crate::decision::{widened, Verdict};
use crate::library::ImpliedPair;
use crate::limits::{LINE_NUMBERS, NO, UNSOLVABLE};
use crate::lines::{line, Line, BOUND, X, Y};
use crate::make::left_side;
use crate::second::{self, list_refusal, Answer};

/// The greatest x + y, x - y, -x + y and -x - y; the highest number where there is none.
pub type Sums = [i64; 4];

/// What two variables imply about each other.
#[derive(Clone, Debug, PartialEq, Eq)]
pub enum Pair {
    Sums(Sums),
    Unsolvable,
    Refused(u8, usize),
}

/// Whether a line is implied; if it is not, the model that breaks it.
#[derive(Clone, Debug, PartialEq, Eq)]
pub enum Implied {
    Yes,
    No(Vec<i64>),
    Unsolvable,
    Refused(u8, usize),
}

impl From<Answer> for Implied {
    /// A refusal.
    fn from(refused: Answer) -> Implied {
        let (number, place) = parts(refused);
        Implied::Refused(number, place)
    }
}

/// The lengths that the model and the work area for n variables have to have.
pub fn rooms(n: u64) -> [usize; 2] {
    let [model, .., work] = needed(n);
    [model, work]
}

/// Buffers for a model and a work area of these lengths, full of rubbish.
fn lent(chance: &mut Chance, model: usize, work: usize) -> Buffers {
    Buffers::new(chance, [model, 0, 0, 0, 0, work])
}

/// What asking for two variables is to be refused with, if it is to.
fn pair_refusal(n: u64, list: &[i32], x: u64, y: u64, work: usize) -> Option<Answer> {
    let rules = [
        list_refusal(n, list),
        (x >= n).then_some(Answer::Refused(5, 0)),
        (y >= n).then_some(Answer::Refused(5, 1)),
    ];
    let refused = rules.into_iter().flatten().next();
    refused.or_else(|| (work < rooms(n)[1]).then_some(Answer::Refused(8, 0)))
}

/// What asking for a line is to be refused with, if it is to, in buffers of these lengths.
fn line_refusal(n: u64, list: &[i32], line: Line, lengths: [usize; 2]) -> Option<Answer> {
    if let Some(refused) = list_refusal(n, list) {
        return Some(refused);
    }
    if let Some(Answer::Refused(number, _)) = list_refusal(n, &line) {
        return Some(Answer::Refused(number, list.len() / LINE_NUMBERS));
    }
    let [model, work] = rooms(n);
    if lengths[0] < model {
        return Some(Answer::Refused(7, 1));
    }
    (lengths[1] < work).then_some(Answer::Refused(8, 0))
}

/// The number and the place of a refusal.
fn parts(refused: Answer) -> (u8, usize) {
    match refused {
        Answer::Refused(number, place) => (number, place),
        _ => unreachable!(),
    }
}

/// What asking for two variables returned, where this is what it is to be refused with, if it
/// is to: the four numbers must be 0 unless they are the answer.
pub fn read_pair(found: ImpliedPair, due: Option<Answer>, shown: impl Fn() -> String) -> Pair {
    let sums: Sums = [found.plus, found.minus].concat().try_into().unwrap();
    let pair = match (due, found.result) {
        (Some(refused), result) => {
            assert_eq!(result, refused.code(), "{refused:?} is due\n{}", shown());
            let (number, place) = parts(refused);
            Pair::Refused(number, place)
        }
        (None, 0) => Pair::Sums(sums),
        (None, result) => {
            assert_eq!(result, UNSOLVABLE as i64, "{}", shown());
            Pair::Unsolvable
        }
    };
    if !matches!(pair, Pair::Sums(_)) {
        assert_eq!(sums, [0; 4], "{}", shown());
    }
    pair
}

/// Asks for two variables with a work area of this length.
pub fn pair_in(chance: &mut Chance, n: u64, list: &[i32], [x, y]: [u64; 2], work: usize) -> Pair {
    let mut buffers = lent(chance, 0, work);
    let mut allowed = buffers.clone();
    let read = list.to_vec();
    let found = buffers.implied_pair(n, list, [x, y]);
    let shown = || format!("{found:?}\nn: {n}, x: {x}, y: {y}\nlist: {list:?}");
    let due = pair_refusal(n, list, x, y, work);
    let pair = read_pair(found, due, shown);
    if due.is_none() {
        allowed.work.lent_mut()[..rooms(n)[1]].fill(0);
    }
    assert!(buffers == allowed, "the work area or around\n{}", shown());
    assert!(read == list, "the list was written to\n{}", shown());
    pair
}

/// The same with a work area that is long enough.
pub fn pair(chance: &mut Chance, n: u64, lines: &[Line], x: usize, y: usize) -> Pair {
    let work = rooms(n)[1] + chance.pick(&[0, 0, 1, 7]);
    pair_in(chance, n, lines.as_flattened(), [x as u64, y as u64], work)
}

/// Asks for a line in buffers of these lengths.
pub fn implied_in(
    chance: &mut Chance,
    n: u64,
    list: &[i32],
    line: Line,
    lengths: [usize; 2],
) -> Implied {
    let mut buffers = lent(chance, lengths[0], lengths[1]);
    let mut allowed = buffers.clone();
    let read = list.to_vec();
    let result = buffers.implied_line(n, list, line);
    let shown = || format!("result {result}\nn: {n}, line: {line:?}\nlist: {list:?}");
    let due = line_refusal(n, list, line, lengths);
    let [room, work_room] = rooms(if due.is_some() { 0 } else { n });
    let implied = match (due, result) {
        (Some(refused), _) => {
            assert_eq!(result, refused.code(), "{refused:?} is due\n{}", shown());
            refused.into()
        }
        (None, 0) => Implied::Yes,
        (None, _) if result == NO as i64 => {
            let values = &buffers.model.lent()[..room];
            allowed.model.lent_mut()[..room].copy_from_slice(values);
            let model = widened(values);
            breaks(n, list, line, &model);
            Implied::No(model)
        }
        (None, _) => {
            assert_eq!(result, UNSOLVABLE as i64, "{}", shown());
            Implied::Unsolvable
        }
    };
    if due.is_none() {
        allowed.work.lent_mut()[..work_room].fill(0);
    }
    assert!(buffers == allowed, "the buffers or around\n{}", shown());
    assert!(read == list, "the list was written to\n{}", shown());
    implied
}

/// Makes sure that a model solves the list, as both checkers say, and breaks the line.
fn breaks(n: u64, list: &[i32], line: Line, model: &[i64]) {
    let answer = crate::model(n, &bytes::numbers(list), &bytes::model(model));
    let shown = || format!("n: {n}, line: {line:?}\nlist: {list:?}\nmodel: {model:?}");
    assert_eq!(answer, second::Answer::Yes, "{}", shown());
    let left = left_side(&line, model);
    assert!(left > i64::from(line[BOUND]), "{}", shown());
}

/// The same in buffers that are long enough.
pub fn implied(chance: &mut Chance, n: u64, lines: &[Line], line: Line) -> Implied {
    let lengths = rooms(n).map(|room| room + chance.pick(&[0, 0, 1, 7]));
    implied_in(chance, n, lines.as_flattened(), line, lengths)
}

/// The line that says that this one is broken; its bound may pass the limit by one.
pub fn opposite(asked: Line) -> Line {
    line(-asked[0], asked[X], -asked[2], asked[Y], -asked[BOUND] - 1)
}

/// What is due to a line by a way to decide lists that takes limits one wider.
pub fn due(verdict: fn(usize, &[Line]) -> Verdict, n: u64, lines: &[Line], asked: Line) -> Implied {
    let n = n as usize;
    if let Verdict::No(_) = verdict(n, lines) {
        return Implied::Unsolvable;
    }
    match verdict(n, &[lines, &[opposite(asked)]].concat()) {
        Verdict::Yes(solved) => Implied::No(solved.model),
        _ => Implied::Yes,
    }
}
