//! A session of the library beside the second one: each call is made of both, and what
//! it returns and what it leaves, in the state, in the buffers and around them, must be
//! what is due.

use std::sync::mpsc::{channel, RecvTimeoutError};
use std::thread;
use std::time::Duration;

use crate::buffers::{needed, Buffers, Guarded, Lengths};
use crate::chance::Chance;
use crate::closure;
use crate::decision::{decide, Call, Decision, Verdict};
use crate::library;
use crate::limits::LINE_NUMBERS;
use crate::lines::Line;
use crate::make::lines_met_by;
use crate::second::Answer;
use crate::sessions::{Session, FRONT, HEAD};

/// Both.
#[derive(Clone, Debug)]
pub struct Pair {
    /// The state that the library is handed, at the front of a buffer that may be longer,
    /// and the same as it is due.
    state: Guarded<i64>,
    due: Guarded<i64>,
    pub second: Session,
    /// Whether calls can lead to the state. Of one to which they can't, any numbers may stand
    /// behind its lines.
    stands: bool,
}

impl Pair {
    /// A session of n variables, started in a buffer full of rubbish.
    pub fn start(chance: &mut Chance, n: u64) -> Pair {
        let second = Session::new(n);
        let length = second.room() + chance.pick(&[0, 0, 1, 7]);
        let state = Guarded::new(length, || chance.next() as i64);
        let mut pair = Pair {
            due: state.clone(),
            state,
            second,
            stands: true,
        };
        pair.start_again(n);
        pair
    }

    /// The session that the second one is, with its state written from there.
    pub fn at(chance: &mut Chance, second: Session) -> Pair {
        let mut pair = Pair::start(chance, second.n);
        second.write(pair.state.lent_mut());
        second.write(pair.due.lent_mut());
        let stands = second.stands();
        Pair {
            second,
            stands,
            ..pair
        }
    }

    /// Starts a session where this one was.
    pub fn start_again(&mut self, n: u64) {
        assert_eq!(library::session_start(n, self.state.lent_mut()), 0);
        self.second = Session::new(n);
        self.stands = true;
        self.second.write(self.due.lent_mut());
        self.must_be_due();
    }

    /// Has other numbers written to the table, the model and the groups of the state, which
    /// are none then.
    pub fn spoil(&mut self, write: impl FnOnce(&mut [i64])) {
        let known = FRONT..self.second.room();
        write(&mut self.state.lent_mut()[known]);
        self.stands = false;
    }

    /// The numbers of the state and those behind it.
    pub fn numbers(&self) -> &[i64] {
        self.state.lent()
    }

    /// Makes sure that the state, all that is behind it and the guards are as is due.
    fn must_be_due(&mut self) {
        if !self.stands {
            let known = FRONT..self.second.room();
            self.due.lent_mut()[known.clone()].copy_from_slice(&self.state.lent()[known]);
        }
        if self.state != self.due {
            let pairs = self.state.lent().iter().zip(self.due.lent());
            let place = pairs.take_while(|(found, due)| found == due).count();
            panic!(
                "the state is not as it must be from number {place} on: {:?}",
                self.second
            );
        }
    }

    /// The decision as a line is added in these buffers.
    pub fn add_in(&mut self, buffers: &mut Buffers, line: Line) -> Decision {
        let before = buffers.clone();
        let due = self.second.add_refusal(line, before.lengths());
        let lines = self.second.with(line);
        let call = Call {
            n: self.second.n,
            list: lines.as_flattened(),
            due,
            result: buffers.add(self.state.lent_mut(), line),
            rooms: needed,
        };
        let decision = call.decision(&before, buffers);
        if due.is_none() {
            let refuted = matches!(decision.verdict, Verdict::No(_));
            self.second.add(line, refuted);
            self.second.write(self.due.lent_mut());
        }
        self.must_be_due();
        decision
    }

    /// The same in buffers full of rubbish, some longer than they need be; and the answer
    /// must be that of deciding all lines afresh.
    pub fn add(&mut self, chance: &mut Chance, line: Line) -> Verdict {
        let mut buffers = Buffers::enough(chance, self.second.n);
        let verdict = self.add_in(&mut buffers, line).verdict;
        if !matches!(verdict, Verdict::Refused(..)) {
            let afresh = decide(chance, self.second.n, &self.second.lines).verdict;
            assert_eq!(verdict, afresh, "{:?}", self.second);
        }
        verdict
    }

    /// Takes the last line away, or gives what that is refused with.
    pub fn withdraw(&mut self) -> Result<(), Answer> {
        let due = self.second.withdraw();
        let code = due.map_or_else(Answer::code, |()| 0);
        assert_eq!(library::session_withdraw(self.state.lent_mut()), code);
        if due.is_ok() {
            self.second.write(self.due.lent_mut());
        }
        self.must_be_due();
        due
    }
}

/// A session whose lines these values meet, so many of them.
pub fn met(chance: &mut Chance, values: &[i64], count: usize) -> Session {
    Session {
        n: values.len() as u64,
        lines: lines_met_by(chance, values, count),
        refuted: false,
    }
}

/// A buffer with these numbers, between guards.
pub fn lent(chance: &mut Chance, numbers: &[i64]) -> Guarded<i64> {
    let guard = chance.next() as i64;
    let mut state = Guarded::new(numbers.len(), || guard);
    state.lent_mut().copy_from_slice(numbers);
    state
}

/// The session whose state these numbers begin with, if calls can lead to it.
pub fn standing(numbers: &[i64]) -> Option<Session> {
    let session = Session::read(numbers)?;
    let known = session.known()?;
    let behind = &numbers[HEAD + LINE_NUMBERS * session.lines.len()..FRONT];
    let zeros = behind.iter().all(|&number| number == 0);
    let is_due = zeros && numbers[FRONT..].starts_with(&known) && session.stands();
    is_due.then_some(session)
}

/// Makes sure that a call left a state as it was but for the head, the numbers of the line
/// that came or went, whose number this is, and what stands behind the lines: they must be
/// those of a session. Where no calls lead to what the state was before, any numbers may
/// stand there.
fn left_as(session: &Session, line: usize, before: &Guarded<i64>, state: &Guarded<i64>) {
    let mut due = before.clone();
    let numbers = due.lent_mut();
    let mut front = vec![0; FRONT];
    session.write_front(&mut front);
    let at = HEAD + LINE_NUMBERS * line;
    for part in [0..HEAD, at..at + LINE_NUMBERS] {
        numbers[part.clone()].copy_from_slice(&front[part]);
    }
    let room = FRONT..session.room();
    let known = match standing(before.lent()) {
        Some(_) => session.known().unwrap(),
        None => state.lent()[room.clone()].to_vec(),
    };
    numbers[room].copy_from_slice(&known);
    assert!(*state == due, "{session:?}");
}

/// The results of adding a line, in buffers of these lengths, and of withdrawing, each to
/// a state with these numbers.
pub fn both_calls(chance: &mut Chance, numbers: &[i64], line: Line, lengths: Lengths) -> [i64; 2] {
    let (withdrawn, _) = withdraw_from(chance, numbers);
    let (added, _) = add_to(chance, numbers, line, lengths);
    [added, withdrawn]
}

/// The result of withdrawing a line from a state with these numbers, and what it is then. A
/// refusal must leave all as it was; else the state must be that of the session without its
/// last line.
pub fn withdraw_from(chance: &mut Chance, numbers: &[i64]) -> (i64, Vec<i64>) {
    let mut state = lent(chance, numbers);
    let before = state.clone();
    let result = library::session_withdraw(state.lent_mut());
    if result < 0 {
        assert!(state == before, "{result}");
    } else {
        let mut session = Session::read(numbers).unwrap();
        assert_eq!(session.withdraw(), Ok(()));
        left_as(&session, session.lines.len(), &before, &state);
    }
    (result, state.lent().to_vec())
}

/// The result of adding a line, in buffers of these lengths, to a state with these numbers,
/// and what it is then. A refusal must leave all as it was; else the state must be that of the
/// session with the line, and the answer that to all its lines; of numbers to which no calls
/// lead, a yes may be wrong.
pub fn add_to(
    chance: &mut Chance,
    numbers: &[i64],
    line: Line,
    lengths: Lengths,
) -> (i64, Vec<i64>) {
    let mut state = lent(chance, numbers);
    let before = state.clone();
    let mut buffers = Buffers::new(chance, lengths);
    let old = buffers.clone();
    let result = buffers.add(state.lent_mut(), line);
    if result < 0 {
        assert!(state == before && buffers == old, "{result}");
    } else {
        let mut session = Session::read(numbers).unwrap();
        session.add(line, result > 0);
        match standing(numbers) {
            Some(_) => answers(&session, result, &old, &buffers),
            None => no_or_any_yes(&session, result, &old, &buffers),
        }
        left_as(&session, session.lines.len() - 1, &before, &state);
    }
    (result, state.lent().to_vec())
}

/// Makes sure that this result, and what is left in the buffers, is a no to all lines of a
/// session, whatever its table was, or a yes that may be wrong: then nothing is written but
/// the rooms of model, bounds and groups, and that of the work area is all zeros.
fn no_or_any_yes(session: &Session, result: i64, before: &Buffers, buffers: &Buffers) {
    if result != 0 {
        return answers(session, result, before, buffers);
    }
    let [model, bounds, groups, .., work] = needed(session.n);
    let mut allowed = buffers.within([model, bounds, groups, 0, 0, 0], before);
    allowed.work.lent_mut()[..work].fill(0);
    assert!(*buffers == allowed, "{session:?}");
}

/// Makes sure that this result, and what is left in the buffers, answer to all lines of
/// a session.
fn answers(session: &Session, result: i64, before: &Buffers, buffers: &Buffers) {
    let call = Call {
        n: session.n,
        list: session.lines.as_flattened(),
        due: None,
        result,
        rooms: needed,
    };
    let verdict = closure::verdict(session.n as usize, &session.lines);
    assert_eq!(call.decision(before, buffers).verdict, verdict);
}

/// Makes sure that this ends soon, whatever the machine does beside it: it is given many
/// times what it takes.
pub fn within_a_minute(work: impl FnOnce() + Send + 'static) {
    let (ended, end) = channel();
    let worker = thread::spawn(move || {
        work();
        ended.send(()).unwrap();
    });
    // Where the work fails, the channel is closed, and nothing is sent.
    match end.recv_timeout(Duration::from_secs(60)) {
        Err(RecvTimeoutError::Timeout) => panic!("a call does not end"),
        _ => worker.join().unwrap(),
    }
}
