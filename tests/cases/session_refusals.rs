//! What the calls of sessions refuse: n above the limit, lines of every rule, short
//! buffers, and which refusal is given where several apply. A refusal changes nothing.
//! `session_states.rs` has the states that no call left.

use utvpi_tests::buffers::{cut_by, needed, Buffers, Guarded, BUFFERS, OUTPUTS};
use utvpi_tests::chance::Chance;
use utvpi_tests::damage::{fault_sets, faulty_line, first_fault};
use utvpi_tests::decision::Verdict;
use utvpi_tests::library;
use utvpi_tests::limits::{session_room, MOST_LINES, MOST_N};
use utvpi_tests::lines::zero;
use utvpi_tests::second::Answer::{self, Refused};
use utvpi_tests::session_calls::{both_calls, met, Pair};
use utvpi_tests::sessions::{Session, HEAD, NO_STATE};

/// Starting: n is looked at first, then the room; what lies behind it is left alone.
#[test]
fn starting() {
    let mut chance = Chance::new(150);
    let low_bits = [1 << 32, (1 << 32) + 1, 1 << 63];
    let too_many = [MOST_N + 1, MOST_N + 2, u64::MAX];
    for n in [&[0, 1, 5, MOST_N][..], &too_many, &low_bits].concat() {
        let room = session_room(n.min(MOST_N) as usize);
        for length in [0, 1, HEAD, room - 1, room, room + 1, room + 9] {
            let mut state = Guarded::new(length, || chance.next() as i64);
            let mut left = state.clone();
            let result = library::session_start(n, state.lent_mut());
            let due = if n > MOST_N {
                Refused(1, 0)
            } else if length < room {
                NO_STATE
            } else {
                Session::new(n).write(left.lent_mut());
                Answer::Yes
            };
            assert_eq!(result, due.code(), "n {n}, {length} numbers");
            assert!(state == left, "n {n}, {length} numbers");
        }
    }
}

/// Lines of every rule, at every place up to some and at the last: the number of the new
/// line is named, and the session goes on as if it had not been asked.
#[test]
fn lines_of_every_rule() {
    let mut chance = Chance::new(151);
    let last = met(&mut chance, &[3, -2], MOST_LINES - 1);
    let mut pairs = [Session::new(2), last].map(|session| Pair::at(&mut chance, session));
    for pair in &mut pairs {
        for place in pair.second.lines.len()..MOST_LINES.min(pair.second.lines.len() + 20) {
            for faults in fault_sets().skip(1).chain(fault_sets().skip(1)) {
                let line = faulty_line(&mut chance, faults);
                let number = first_fault(faults).unwrap();
                let verdict = pair.add(&mut chance, line);
                assert_eq!(verdict, Verdict::Refused(number, place), "{line:?}");
            }
            let line = faulty_line(&mut chance, 0);
            assert!(matches!(pair.add(&mut chance, line), Verdict::Yes(_)));
        }
    }
}

/// Each set of buffers may be one too short: the first short output is named, and the
/// work area comes last. Then the same line is let in.
#[test]
fn which_buffer_is_short() {
    let mut chance = Chance::new(152);
    for n in [0, 1, 2, 5] {
        let mut pair = Pair::start(&mut chance, n);
        for short in 0..1 << BUFFERS {
            let lengths = cut_by(needed(n), short);
            let mut buffers = Buffers::new(&mut chance, lengths);
            let line = chance.pick(&[zero(0), zero(-1)]);
            let verdict = pair.add_in(&mut buffers, line).verdict;
            match (0..BUFFERS).find(|&at| lengths[at] < needed(n)[at]) {
                Some(OUTPUTS) => assert_eq!(verdict, Verdict::Refused(8, 0)),
                Some(at) => assert_eq!(verdict, Verdict::Refused(7, at + 1)),
                None => assert_eq!(pair.withdraw(), Ok(())),
            }
            assert!(!matches!(pair.add(&mut chance, line), Verdict::Refused(..)));
            assert_eq!(pair.withdraw(), Ok(()));
        }
    }
}

/// What is wrong where a line is added: the last two are sets.
struct Wrong {
    no_state: bool,
    refuted: bool,
    full: bool,
    faults: usize,
    short: usize,
}

impl Wrong {
    /// The refusal that is due to a session with so many lines, if any.
    fn due(&self, count: usize) -> Option<Answer> {
        let line = first_fault(self.faults).map(|number| Refused(number, count));
        let rules = [
            self.no_state.then_some(NO_STATE),
            self.refuted.then_some(Refused(30, 0)),
            self.full.then_some(Refused(3, 0)),
            line,
        ];
        let output = (0..OUTPUTS).find(|at| self.short >> at & 1 == 1);
        let output = output.map(|at| Refused(7, at + 1));
        let work = (self.short != 0).then_some(Refused(8, 0));
        let mut all = rules.into_iter().chain([output, work]);
        all.find_map(|refused| refused)
    }
}

/// Whatever is wrong at once, the first is given.
#[test]
fn the_first_of_several() {
    let mut chance = Chance::new(153);
    let sessions = [3, MOST_LINES].map(|count| met(&mut chance, &[3, -2], count));
    let shorts = (0..BUFFERS)
        .map(|at| 1 << at)
        .chain([0, (1 << BUFFERS) - 1]);
    let shorts: Vec<usize> = shorts.collect();
    for at in 0..1 << 3 {
        let [no_state, refuted, full] = [0, 1, 2].map(|bit| at >> bit & 1 == 1);
        let mut session = sessions[usize::from(full)].clone();
        session.refuted = refuted;
        let mut numbers = session.state();
        if no_state {
            numbers.pop();
        }
        for (faults, &short) in fault_sets().flat_map(|faults| {
            let shorts = shorts.iter();
            shorts.map(move |short| (faults, short))
        }) {
            let wrong = Wrong {
                no_state,
                refuted,
                full,
                faults,
                short,
            };
            let line = faulty_line(&mut chance, faults);
            let lengths = cut_by(needed(2), short);
            let [added, withdrawn] = both_calls(&mut chance, &numbers, line, lengths);
            match wrong.due(session.lines.len()) {
                Some(refused) => assert_eq!(added, refused.code(), "{refused:?}"),
                None => assert!(added >= 0, "{added}"),
            }
            assert_eq!(withdrawn, if no_state { NO_STATE.code() } else { 0 });
        }
    }
}
