//! A second implementation of both checkers and of the refusals of deciding,
//! written from the description of lists, models and refutations alone and
//! sharing nothing with the library. It reads the bytes into vectors first and
//! then looks at them rule by rule.

use crate::buffers::{needed, Lengths, BUFFERS, OUTPUTS};
use crate::limits::{
    most_shown_bound, LARGEST_BOUND, LARGEST_VALUE, LAST_IDENTIFIER, LINE_BYTES, LINE_NUMBERS,
};
use crate::limits::{MOST_LINES, MOST_N, MOST_REFUTATION, NO, NUMBER_BYTES, REFUSAL_UNIT};

const MOST_REFUTATION_BYTES: usize = NUMBER_BYTES * MOST_REFUTATION;

/// What a checker answers.
#[derive(Clone, Copy, Debug, PartialEq, Eq)]
pub enum Answer {
    Yes,
    /// The first line that fails; for a refutation the index at which it breaks.
    No(usize),
    /// The refusal's number and its place.
    Refused(u8, usize),
}

impl Answer {
    /// The answer as the one number that is returned.
    pub fn code(self) -> i64 {
        match self {
            Answer::Yes => 0,
            Answer::No(place) => (NO + place) as i64,
            Answer::Refused(number, place) => {
                -((usize::from(number) * REFUSAL_UNIT + place) as i64)
            }
        }
    }
}

/// The line a·x + b·y ≤ d, from the message with this identifier.
#[derive(Clone, Copy, Debug)]
struct Line {
    a: i32,
    x: i32,
    b: i32,
    y: i32,
    d: i32,
    identifier: i32,
}

impl Line {
    /// The number of the refusal that this line asks for, if any, as a line of a list.
    fn refusal(&self, n: u64) -> Option<u8> {
        self.refusal_within(n, LARGEST_BOUND)
    }

    /// The same with this greatest bound.
    fn refusal_within(&self, n: u64, largest: i64) -> Option<u8> {
        let coefficient_ok = |c: i32| [-1, 0, 1].contains(&c);
        let variable_ok = |c: i32, v: i32| {
            if c == 0 {
                v == 0
            } else {
                v >= 0 && (v as u64) < n
            }
        };
        if !coefficient_ok(self.a) || !coefficient_ok(self.b) {
            Some(4)
        } else if !variable_ok(self.a, self.x) || !variable_ok(self.b, self.y) {
            Some(5)
        } else if self.a == 0 && self.b != 0 {
            Some(12)
        } else if i64::from(self.d).abs() > largest {
            Some(6)
        } else if self.identifier < 0 || self.identifier > LAST_IDENTIFIER {
            Some(13)
        } else {
            None
        }
    }

    /// Whether the values meet this line.
    fn is_met(&self, values: &[i64]) -> bool {
        let term = |c: i32, v: i32| match c {
            0 => 0,
            1 => i128::from(values[v as usize]),
            _ => -i128::from(values[v as usize]),
        };
        term(self.a, self.x) + term(self.b, self.y) <= i128::from(self.d)
    }

    /// The steps of side 0 and of side 1.
    fn steps(&self) -> [Option<Step>; 2] {
        let (x, y) = (self.x, self.y);
        let d = i64::from(self.d);
        let step = |from, to, weight| Some(Step { from, to, weight });
        match (self.a, self.b) {
            (1, 1) => [step(plus(x), minus(y), d), step(plus(y), minus(x), d)],
            (1, -1) => [step(plus(x), plus(y), d), step(minus(y), minus(x), d)],
            (-1, 1) => [step(minus(x), minus(y), d), step(plus(y), plus(x), d)],
            (-1, -1) => [step(minus(x), plus(y), d), step(minus(y), plus(x), d)],
            (1, 0) => [step(plus(x), minus(x), 2 * d), None],
            (-1, 0) => [step(minus(x), plus(x), 2 * d), None],
            _ => [None, None],
        }
    }
}

/// A point: a variable or, with `negated`, its negative.
#[derive(Clone, Copy, Debug, PartialEq, Eq)]
struct Point {
    variable: i32,
    negated: bool,
}

fn plus(variable: i32) -> Point {
    Point {
        variable,
        negated: false,
    }
}

fn minus(variable: i32) -> Point {
    Point {
        variable,
        negated: true,
    }
}

impl Point {
    fn opposite(self) -> Point {
        Point {
            negated: !self.negated,
            ..self
        }
    }
}

/// A step from one point to another.
#[derive(Clone, Copy, Debug)]
struct Step {
    from: Point,
    to: Point,
    weight: i64,
}

/// The lines that these numbers are.
fn lines_of(numbers: &[i32]) -> Vec<Line> {
    let line = |numbers: &[i32]| match *numbers {
        [a, x, b, y, d, identifier] => Line {
            a,
            x,
            b,
            y,
            d,
            identifier,
        },
        _ => unreachable!(),
    };
    numbers.chunks(LINE_NUMBERS).map(line).collect()
}

/// The lines whose bytes these are.
fn lines_in(bytes: &[u8]) -> Vec<Line> {
    let numbers: Vec<i32> = bytes
        .chunks(NUMBER_BYTES)
        .map(|four| i32::from_le_bytes(four.try_into().unwrap()))
        .collect();
    lines_of(&numbers)
}

/// The list's lines, or what it is refused with.
fn read_list(n: u64, list: &[u8]) -> Result<Vec<Line>, Answer> {
    if n > MOST_N {
        return Err(Answer::Refused(1, 0));
    }
    if list.len() % LINE_BYTES != 0 {
        return Err(Answer::Refused(2, 0));
    }
    if list.len() / LINE_BYTES > MOST_LINES {
        return Err(Answer::Refused(3, 0));
    }
    let lines = lines_in(list);
    for (place, line) in lines.iter().enumerate() {
        if let Some(number) = line.refusal(n) {
            return Err(Answer::Refused(number, place));
        }
    }
    Ok(lines)
}

/// What `utvpi_check_model` is to answer.
pub fn check_model(n: u64, list: &[u8], model: &[u8]) -> Answer {
    let lines = match read_list(n, list) {
        Ok(lines) => lines,
        Err(refused) => return refused,
    };
    if model.len() as u64 != 8 * n {
        return Answer::Refused(9, 0);
    }
    let values: Vec<i64> = model
        .chunks(8)
        .map(|eight| i64::from_le_bytes(eight.try_into().unwrap()))
        .collect();
    let allowed = -LARGEST_VALUE..=LARGEST_VALUE;
    if let Some(index) = values.iter().position(|value| !allowed.contains(value)) {
        return Answer::Refused(10, index);
    }
    match lines.iter().position(|line| !line.is_met(&values)) {
        Some(first) => Answer::No(first),
        None => Answer::Yes,
    }
}

/// What `utvpi_check_refutation` is to answer.
pub fn check_refutation(n: u64, list: &[u8], refutation: &[u8]) -> Answer {
    match read_list(n, list) {
        Err(refused) => refused,
        Ok(_) if refutation.len() > MOST_REFUTATION_BYTES => Answer::Refused(11, 0),
        Ok(lines) => match break_in(&lines, refutation) {
            Some((place, _)) => Answer::No(place),
            None => Answer::Yes,
        },
    }
}

/// What `utvpi_check_shown` is to answer: the showing is a refutation of the list with
/// zero, zero lines up to the most lines and the opposite line behind these.
pub fn check_shown(n: u64, list: &[u8], line: &[u8], showing: &[u8]) -> Answer {
    let mut lines = match read_list(n, list) {
        Ok(lines) => lines,
        Err(refused) => return refused,
    };
    let line = match read_shown(n, lines.len(), line) {
        Ok(line) => line,
        Err(refused) => return refused,
    };
    if showing.len() > MOST_REFUTATION_BYTES {
        return Answer::Refused(11, 0);
    }
    let nothing = lines_of(&[0; LINE_NUMBERS])[0];
    lines.resize(MOST_LINES, nothing);
    lines.push(Line {
        a: -line.a,
        b: -line.b,
        d: -line.d - 1,
        ..line
    });
    match break_in(&lines, showing) {
        Some((place, _)) => Answer::No(place),
        None => Answer::Yes,
    }
}

/// The line that is to be shown behind so many lines, or what it is refused with.
fn read_shown(n: u64, place: usize, line: &[u8]) -> Result<Line, Answer> {
    if line.len() != LINE_BYTES {
        return Err(Answer::Refused(2, place));
    }
    let line = lines_in(line)[0];
    match line.refusal_within(n, most_shown_bound(n as usize) as i64) {
        Some(number) => Err(Answer::Refused(number, place)),
        None => Ok(line),
    }
}

/// What `utvpi_show_line` is to refuse, if it is to, in buffers of these lengths: those of
/// the refutation, the identifiers and the work area.
pub fn show_refusal(n: u64, list: &[i32], line: &[i32], lengths: [usize; 3]) -> Option<Answer> {
    if let Some(refused) = list_refusal(n, list) {
        return Some(refused);
    }
    let shown = lines_of(line)[0];
    if let Some(number) = shown.refusal_within(n, most_shown_bound(n as usize) as i64) {
        return Some(Answer::Refused(number, list.len() / LINE_NUMBERS));
    }
    let [.., refutation, identifiers, work] = needed(n);
    let short = |at: usize, room: usize| lengths[at] < room;
    if short(0, refutation) {
        Some(Answer::Refused(7, 4))
    } else if short(1, identifiers) {
        Some(Answer::Refused(7, 5))
    } else {
        short(2, work).then_some(Answer::Refused(8, 0))
    }
}

/// Why a refutation is none at the place that is given for it.
#[derive(Clone, Copy, Debug, PartialEq, Eq, PartialOrd, Ord)]
pub enum Fault {
    /// The bytes are no multiple of four.
    Bytes,
    /// There are fewer than three numbers.
    Short,
    Kind,
    Counts,
    /// As many numbers as the counts ask for, and no more, are not there.
    Total,
    /// The step's line is not in the list.
    NoLine,
    /// The step's side is none, on a line with one variable.
    NoSide,
    ZeroLine,
    /// The step begins elsewhere than where it must.
    Apart,
    /// The step is its walk's last and ends elsewhere than where the walk must.
    End,
    Sums,
    /// Kind 3, and the number is not that of a false line.
    NotFalse,
}

/// Where and why a refutation breaks; none where it is right, and where the list
/// or the length is refused.
pub fn where_it_breaks(n: u64, list: &[u8], refutation: &[u8]) -> Option<(usize, Fault)> {
    match read_list(n, list) {
        Ok(lines) if refutation.len() <= MOST_REFUTATION_BYTES => break_in(&lines, refutation),
        _ => None,
    }
}

/// What this list itself is refused with, if it is.
pub fn list_refusal(n: u64, list: &[i32]) -> Option<Answer> {
    let bytes: Vec<u8> = list
        .iter()
        .flat_map(|number| number.to_le_bytes())
        .collect();
    read_list(n, &bytes).err()
}

/// What `utvpi_decide` is to refuse this list with, if it is to, in buffers of these
/// lengths.
pub fn decide_refusal(n: u64, list: &[i32], lengths: Lengths) -> Option<Answer> {
    list_refusal(n, list).or_else(|| short_refusal(needed(n), lengths))
}

/// What buffers of these lengths are refused with, if they are, where these are needed.
pub fn short_refusal(needed: Lengths, lengths: Lengths) -> Option<Answer> {
    match (0..BUFFERS).find(|&at| lengths[at] < needed[at])? {
        OUTPUTS => Some(Answer::Refused(8, 0)),
        output => Some(Answer::Refused(7, output + 1)),
    }
}

/// The identifiers that `utvpi_decide` is to hand over with these steps of a valid
/// list: of each that of its line.
pub fn identifiers(list: &[i32], steps: &[u32]) -> Vec<u32> {
    let lines = lines_of(list);
    let of = |&step: &u32| lines[step as usize / 2].identifier as u32;
    steps.iter().map(of).collect()
}

/// The head's rules in their order, and then the steps.
fn break_in(lines: &[Line], bytes: &[u8]) -> Option<(usize, Fault)> {
    if bytes.len() % NUMBER_BYTES != 0 {
        return Some((0, Fault::Bytes));
    }
    let numbers: Vec<u32> = bytes
        .chunks(NUMBER_BYTES)
        .map(|four| u32::from_le_bytes(four.try_into().unwrap()))
        .collect();
    if numbers.len() < 3 {
        return Some((0, Fault::Short));
    }
    let (kind, p, q) = (numbers[0], u64::from(numbers[1]), u64::from(numbers[2]));
    let counts_ok = match kind {
        1 => p >= 1 && q == 0,
        2 => p >= 1 && q >= 1,
        3 => p == 1 && q == 0,
        _ => return Some((0, Fault::Kind)),
    };
    if !counts_ok {
        return Some((1, Fault::Counts));
    }
    if numbers.len() as u64 != 3 + p + q {
        return Some((2, Fault::Total));
    }
    if kind == 3 {
        return false_line_fault(lines, numbers[3]).map(|fault| (3, fault));
    }
    let walks = Walks {
        lines,
        turn: (kind == 2).then_some(3 + p as usize),
        numbers,
    };
    walks.first_break()
}

/// Kind 3: twice the number of a line 0 ≤ d with d below 0.
fn false_line_fault(lines: &[Line], number: u32) -> Option<Fault> {
    let Some(line) = lines.get(number as usize / 2) else {
        return Some(Fault::NoLine);
    };
    let is_false = number % 2 == 0 && line.a == 0 && line.b == 0 && line.d < 0;
    (!is_false).then_some(Fault::NotFalse)
}

/// Kinds 1 and 2 with a right head: all numbers, and the index at which the
/// second walk begins, if there are two.
struct Walks<'a> {
    lines: &'a [Line],
    numbers: Vec<u32>,
    turn: Option<usize>,
}

impl Walks<'_> {
    /// The first index whose step is at fault, else the last if the sums are.
    fn first_break(&self) -> Option<(usize, Fault)> {
        let indexes = 3..self.numbers.len();
        let mut broken = indexes.filter_map(|at| Some((at, self.fault_at(at)?)));
        let high = || (!self.sums_are_low()).then_some((self.numbers.len() - 1, Fault::Sums));
        broken.next().or_else(high)
    }

    /// What is wrong with the step at this index, where all before it are right.
    fn fault_at(&self, at: usize) -> Option<Fault> {
        let step = match self.step(at) {
            Ok(step) => step,
            Err(fault) => return Some(fault),
        };
        if self.due_start(at).is_some_and(|due| due != step.from) {
            Some(Fault::Apart)
        } else if self.due_end(at).is_some_and(|due| due != step.to) {
            Some(Fault::End)
        } else {
            None
        }
    }

    fn step(&self, at: usize) -> Result<Step, Fault> {
        let number = self.numbers[at] as usize;
        let line = self.lines.get(number / 2).ok_or(Fault::NoLine)?;
        let none = if line.a == 0 && line.b == 0 {
            Fault::ZeroLine
        } else {
            Fault::NoSide
        };
        line.steps()[number % 2].ok_or(none)
    }

    /// The point at which all begins.
    fn start(&self) -> Point {
        self.step(3).unwrap().from
    }

    /// Where the step at this index must begin; the first may begin anywhere.
    fn due_start(&self, at: usize) -> Option<Point> {
        match at {
            3 => None,
            _ if Some(at) == self.turn => Some(self.start().opposite()),
            _ => Some(self.step(at - 1).unwrap().to),
        }
    }

    /// Where it must end, if it is the last of a walk.
    fn due_end(&self, at: usize) -> Option<Point> {
        if at + 1 == self.numbers.len() {
            Some(self.start())
        } else if Some(at + 1) == self.turn {
            Some(self.start().opposite())
        } else {
            None
        }
    }

    /// Whether the sum is below 0, or of two sums the halves together.
    fn sums_are_low(&self) -> bool {
        let sum = |part: std::ops::Range<usize>| -> i64 {
            part.map(|at| self.step(at).unwrap().weight).sum()
        };
        match self.turn {
            None => sum(3..self.numbers.len()) < 0,
            Some(turn) => {
                let (there, back) = (sum(3..turn), sum(turn..self.numbers.len()));
                there.div_euclid(2) + back.div_euclid(2) < 0
            }
        }
    }
}
