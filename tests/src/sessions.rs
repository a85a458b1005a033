//! A second implementation of sessions: the lines in a vector, from which the numbers of
//! the state are written, and into which any numbers are read. It was written from the
//! description alone and shares nothing with the library: the table, the model and the
//! groups of the state are made of all lines each time.

use crate::buffers::Lengths;
use crate::closure;
use crate::decision::Verdict;
use crate::limits::{session_room, LINE_NUMBERS, MOST_LINES, MOST_N, MOST_NUMBERS};
use crate::lines::Line;
use crate::second::{decide_refusal, list_refusal, Answer};

/// The numbers of a state before those of its lines: n, how many lines there are, and
/// whether the last answer was a no.
pub const HEAD: usize = 3;
pub const VARIABLES: usize = 0;
pub const COUNT: usize = 1;
pub const FLAG: usize = 2;

/// The numbers before the table, the model and the groups.
pub const FRONT: usize = HEAD + MOST_NUMBERS;

/// What numbers that are no state, or too few for one, are refused with.
pub const NO_STATE: Answer = Answer::Refused(7, 6);

/// What a state says before its lines.
#[derive(Clone, Copy, Debug, PartialEq, Eq)]
pub struct Head {
    pub n: u64,
    pub count: usize,
    pub refuted: bool,
}

impl Head {
    /// What these numbers say, if they can be those of a state; those of lines may be any.
    pub fn read(numbers: &[i64]) -> Option<Head> {
        let [n, count, flag] = *numbers.first_chunk::<HEAD>()?;
        let n = u64::try_from(n).ok().filter(|&n| n <= MOST_N)?;
        let count = usize::try_from(count)
            .ok()
            .filter(|&count| count <= MOST_LINES)?;
        let refuted = match flag {
            0 => false,
            1 => true,
            _ => return None,
        };
        let head = Head { n, count, refuted };
        (numbers.len() >= session_room(n as usize)).then_some(head)
    }

    /// What asking for a line is to be refused with, if it is to.
    pub fn line_refusal(&self, line: Line) -> Option<Answer> {
        match list_refusal(self.n, &line)? {
            Answer::Refused(number, _) => Some(Answer::Refused(number, self.count)),
            _ => unreachable!(),
        }
    }

    /// What asking for two variables is to be refused with, if it is to.
    pub fn pair_refusal(&self, variables: [u64; 2]) -> Option<Answer> {
        let beyond = variables.iter().position(|&variable| variable >= self.n);
        beyond.map(|place| Answer::Refused(5, place))
    }
}

/// What a session is to hold.
#[derive(Clone, Debug, PartialEq, Eq)]
pub struct Session {
    pub n: u64,
    pub lines: Vec<Line>,
    /// Whether the last answer was a no.
    pub refuted: bool,
}

impl Session {
    /// A session of n variables and no lines.
    pub fn new(n: u64) -> Session {
        Session {
            n,
            lines: Vec::new(),
            refuted: false,
        }
    }

    pub fn room(&self) -> usize {
        session_room(self.n as usize)
    }

    /// The lines that are known: after a no those before the last.
    fn kept(&self) -> &[Line] {
        let last = usize::from(self.refuted && !self.lines.is_empty());
        &self.lines[..self.lines.len() - last]
    }

    /// Whether calls of a session can lead to it: its lines are valid, and the last answer
    /// was right, and the one before it a yes.
    pub fn stands(&self) -> bool {
        let solvable = |lines: &[Line]| {
            let verdict = closure::verdict(self.n as usize, lines);
            matches!(verdict, Verdict::Yes(_))
        };
        list_refusal(self.n, self.lines.as_flattened()).is_none()
            && solvable(&self.lines) != self.refuted
            && (!self.refuted || solvable(self.kept()))
    }

    /// What its state knows of its lines, where these have a solution: their table, their
    /// model and their groups.
    pub fn known(&self) -> Option<Vec<i64>> {
        let (n, lines) = (self.n as usize, self.kept());
        if list_refusal(self.n, lines.as_flattened()).is_some() {
            return None;
        }
        let Verdict::Yes(solved) = closure::verdict(n, lines) else {
            return None;
        };
        let groups = solved.groups.as_flattened().iter();
        let groups = groups.map(|&number| i64::from(number)).collect();
        Some([closure::table(n, lines)?, solved.model, groups].concat())
    }

    /// The numbers of its state.
    pub fn state(&self) -> Vec<i64> {
        let mut numbers = vec![-1; self.room()];
        self.write(&mut numbers);
        numbers
    }

    /// Writes its state to the front of these numbers; where its lines have no solution, what
    /// is known of them is left as it is.
    pub fn write(&self, numbers: &mut [i64]) {
        self.write_front(numbers);
        if let Some(known) = self.known() {
            numbers[FRONT..self.room()].copy_from_slice(&known);
        }
    }

    /// Writes what stands before what is known.
    pub fn write_front(&self, numbers: &mut [i64]) {
        let (head, rest) = numbers[..FRONT].split_at_mut(HEAD);
        let (lines, behind) = rest.split_at_mut(LINE_NUMBERS * self.lines.len());
        head[VARIABLES] = self.n as i64;
        head[COUNT] = self.lines.len() as i64;
        head[FLAG] = i64::from(self.refuted);
        for (to, &number) in lines.iter_mut().zip(self.lines.as_flattened()) {
            *to = i64::from(number);
        }
        behind.fill(0);
    }

    /// The session that these numbers are taken for, if they are taken for one.
    pub fn read(numbers: &[i64]) -> Option<Session> {
        let Head { n, count, refuted } = Head::read(numbers)?;
        let numbers = numbers[HEAD..].iter().take(LINE_NUMBERS * count);
        let numbers = numbers.map(|&number| i32::try_from(number).ok());
        let numbers = numbers.collect::<Option<Vec<i32>>>()?;
        let lines = numbers.chunks(LINE_NUMBERS);
        let lines = lines.map(|line| line.try_into().unwrap()).collect();
        Some(Session { n, lines, refuted })
    }

    /// Its lines and one more.
    pub fn with(&self, line: Line) -> Vec<Line> {
        [&self.lines[..], &[line]].concat()
    }

    /// What adding this line is to be refused with, if it is to, in buffers of these
    /// lengths.
    pub fn add_refusal(&self, line: Line, lengths: Lengths) -> Option<Answer> {
        if self.refuted {
            Some(Answer::Refused(30, 0))
        } else if self.lines.len() >= MOST_LINES {
            Some(Answer::Refused(3, 0))
        } else {
            decide_refusal(self.n, self.with(line).as_flattened(), lengths)
        }
    }

    /// Adds a line, where the answer to all of them is a no or a yes.
    pub fn add(&mut self, line: Line, refuted: bool) {
        self.lines.push(line);
        self.refuted = refuted;
    }

    /// Takes the last line away, or says what that is refused with.
    pub fn withdraw(&mut self) -> Result<(), Answer> {
        self.lines.pop().ok_or(Answer::Refused(31, 0))?;
        self.refuted = false;
        Ok(())
    }
}
