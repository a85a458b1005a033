//! The two questions to a session, asked of the library: each writes nothing, is refused as is
//! due, and says of a state to which calls lead what the questions to a list say of its lines.

use crate::chance::Chance;
use crate::implied::{self, implied, read_pair, Implied, Pair};
use crate::library;
use crate::limits::{NO, UNSOLVABLE};
use crate::lines::Line;
use crate::second::Answer;
use crate::session_calls::{lent, standing};
use crate::sessions::{Head, Session, NO_STATE};

/// What a session is asked.
#[derive(Clone, Copy, Debug)]
pub struct Asked {
    pub line: Line,
    pub variables: [u64; 2],
}

/// Both answers.
#[derive(Clone, Debug, PartialEq, Eq)]
pub struct Answers {
    /// Without the model that the question to a list gives.
    pub line: Implied,
    pub pair: Pair,
}

/// What asking for a line returned, where this is what it is to be refused with, if it is to.
fn read_line(result: i64, due: Option<Answer>) -> Implied {
    match (due, result) {
        (Some(refused), _) => {
            assert_eq!(result, refused.code(), "{refused:?} is due");
            refused.into()
        }
        (None, 0) => Implied::Yes,
        (None, _) if result == NO as i64 => Implied::No(Vec::new()),
        (None, _) => {
            assert_eq!(result, UNSOLVABLE as i64);
            Implied::Unsolvable
        }
    }
}

/// Both answers of these numbers as a state, between guards: any, but where calls lead to the
/// state, where they are to be refused, and after a no. The lines are not looked at.
pub fn ask(chance: &mut Chance, numbers: &[i64], asked: Asked) -> Answers {
    let state = lent(chance, numbers);
    let before = state.clone();
    let Asked { line, variables } = asked;
    let head = Head::read(numbers);
    let due = |of: &dyn Fn(&Head) -> Option<_>| head.as_ref().map_or(Some(NO_STATE), of);
    let [of_line, of_pair] = [
        due(&|head| head.line_refusal(line)),
        due(&|head| head.pair_refusal(variables)),
    ];
    let result = library::session_implied(state.lent(), line);
    let found = library::session_pair(state.lent(), variables[0], variables[1]);
    assert!(state == before, "a question wrote to the state: {asked:?}");
    let answers = Answers {
        line: read_line(result, of_line),
        pair: read_pair(found, of_pair, || format!("{asked:?}, {head:?}")),
    };
    let refuted = head.is_some_and(|head| head.refuted);
    let unsolvable = answers.line == Implied::Unsolvable;
    assert_eq!(unsolvable, refuted && of_line.is_none(), "{asked:?}");
    let unsolvable = answers.pair == Pair::Unsolvable;
    assert_eq!(unsolvable, refuted && of_pair.is_none(), "{asked:?}");
    if let Some(session) = standing(numbers) {
        assert_eq!(
            answers,
            afresh(chance, &session, asked),
            "{asked:?}, {session:?}"
        );
    }
    answers
}

/// Both answers on the list of all lines of a session.
fn afresh(chance: &mut Chance, session: &Session, asked: Asked) -> Answers {
    let line = match implied(chance, session.n, &session.lines, asked.line) {
        Implied::No(_) => Implied::No(Vec::new()),
        answer => answer,
    };
    let work = implied::rooms(session.n)[1];
    let list = session.lines.as_flattened();
    let pair = implied::pair_in(chance, session.n, list, asked.variables, work);
    Answers { line, pair }
}
