//! The two questions to a session: at each point of random sessions against the questions to
//! the list of its lines, against a search through all values, and against another method;
//! what they refuse, and in which order. Neither changes anything.

use utvpi_tests::chance::Chance;
use utvpi_tests::damage::{fault_sets, faulty_line, first_fault};
use utvpi_tests::decision::Verdict;
use utvpi_tests::implied::{opposite, Implied, Pair, Sums};
use utvpi_tests::limits::{LARGEST_BOUND, MOST_LINES, MOST_N, MOST_VARIABLES};
use utvpi_tests::lines::{line, lone, zero, Line, BOUND};
use utvpi_tests::make::some_line;
use utvpi_tests::make_lists::{near_zero, small, tied, Shape};
use utvpi_tests::session_calls::{self, met, standing};
use utvpi_tests::session_questions::{ask, Answers, Asked};
use utvpi_tests::sessions::{Session, FRONT, HEAD, NO_STATE};
use utvpi_tests::{brute, brute_sums, closure};

/// How many answers of each sort were seen.
#[derive(Clone, Copy, Debug, Default)]
struct Seen {
    unsolvable: usize,
    /// Greatest sums that are there, and those that are not.
    present: usize,
    absent: usize,
    implied: usize,
    broken: usize,
}

impl Seen {
    fn count(&mut self, answers: &Answers) {
        match answers.line {
            Implied::Yes => self.implied += 1,
            Implied::No(_) => self.broken += 1,
            Implied::Unsolvable => self.unsolvable += 1,
            Implied::Refused(..) => {}
        }
        if let Pair::Sums(sums) = answers.pair {
            let absent = sums.iter().filter(|&&sum| sum == i64::MAX).count();
            self.absent += absent;
            self.present += sums.len() - absent;
        }
    }

    /// Fails if some sort was seen less often than this.
    fn must_have(&self, each: usize) {
        println!("{self:?}");
        let lines = [self.unsolvable, self.implied, self.broken];
        let counts = [&lines[..], &[self.present, self.absent]].concat();
        assert!(counts.iter().all(|&count| count >= each), "{self:?}");
    }
}

/// A line with a bound near 0, and two variables.
fn any_question(chance: &mut Chance, n: u64) -> Asked {
    let mut line = match n {
        0 => zero(0),
        _ => some_line(chance, n),
    };
    line[BOUND] = chance.between(-4, 4) as i32;
    let variables = [(); 2].map(|()| chance.below(n.max(1) as usize) as u64);
    Asked { line, variables }
}

/// Asks a session, to whose state calls must lead: the answers are those on its lines.
fn asked(chance: &mut Chance, pair: &session_calls::Pair, question: Asked) -> Answers {
    assert_eq!(standing(pair.numbers()).as_ref(), Some(&pair.second));
    ask(chance, pair.numbers(), question)
}

/// Takes the line away that made a no, and else the last one in some of so many cases.
fn withdraw_at_times(chance: &mut Chance, pair: &mut session_calls::Pair, times: usize) {
    let session = &pair.second;
    if session.refuted || (chance.one_in(times) && !session.lines.is_empty()) {
        assert_eq!(pair.withdraw(), Ok(()));
    }
}

/// Random sequences of lines added and withdrawn, with questions between them, after a no,
/// too.
#[test]
fn at_each_point() {
    let mut chance = Chance::new(180);
    let mut seen = Seen::default();
    for _ in 0..1_500 {
        let (n, lines) = small(&mut chance);
        let mut pair = session_calls::Pair::start(&mut chance, n);
        for line in lines {
            for _ in 0..2 {
                let question = any_question(&mut chance, n);
                seen.count(&asked(&mut chance, &pair, question));
            }
            withdraw_at_times(&mut chance, &mut pair, 5);
            pair.add(&mut chance, line);
        }
        let question = any_question(&mut chance, n);
        seen.count(&asked(&mut chance, &pair, question));
    }
    seen.must_have(300);
}

/// The line with these signs over these variables.
fn about([a, b]: [i32; 2], [x, y]: [u64; 2], d: i64) -> Line {
    line(a, x as i32, b, y as i32, d as i32)
}

const SIGNS: [[i32; 2]; 4] = [[1, 1], [1, -1], [-1, 1], [-1, -1]];

/// The four sums must be these, and each line with its sum as the bound implied, and not with
/// one less; where there is none, not with the greatest bound that a line may have.
fn at_the_sums(chance: &mut Chance, pair: &session_calls::Pair, variables: [u64; 2], sums: Sums) {
    for (signs, sum) in SIGNS.into_iter().zip(sums) {
        let bounds = match sum {
            i64::MAX => vec![(LARGEST_BOUND, false)],
            _ => vec![(sum, true), (sum - 1, false)],
        };
        for (bound, is_implied) in bounds {
            if bound.abs() > LARGEST_BOUND {
                continue;
            }
            let line = about(signs, variables, bound);
            let answers = asked(chance, pair, Asked { line, variables });
            let due = if is_implied {
                Implied::Yes
            } else {
                Implied::No(Vec::new())
            };
            assert_eq!(answers.line, due, "{line:?}, {:?}", pair.second);
            assert_eq!(answers.pair, Pair::Sums(sums), "{:?}", pair.second);
        }
    }
}

/// What all values say of a line, by a search.
fn by_all_values(n: u64, lines: &[Line], line: Line) -> Implied {
    let longer = [lines, &[opposite(line)]].concat();
    match brute::verdict(n as usize, &longer) {
        Verdict::Yes(_) => Implied::No(Vec::new()),
        _ => Implied::Yes,
    }
}

/// Small sessions, with all values tried after each line: all pairs, and some lines.
#[test]
fn small_sessions_by_all_values() {
    let mut chance = Chance::new(181);
    let mut unsolvable = 0;
    for _ in 0..250 {
        let (n, lines) = small(&mut chance);
        let mut pair = session_calls::Pair::start(&mut chance, n);
        for added in lines {
            pair.add(&mut chance, added);
            let found = brute_sums::sums(n as usize, &pair.second.lines);
            let question = any_question(&mut chance, n);
            let answers = asked(&mut chance, &pair, question);
            let Some(sums) = found else {
                assert_eq!(answers.line, Implied::Unsolvable);
                unsolvable += 1;
                assert_eq!(pair.withdraw(), Ok(()));
                continue;
            };
            let due = by_all_values(n, &pair.second.lines, question.line);
            assert_eq!(answers.line, due, "{question:?}, {:?}", pair.second);
            for variables in (0..n).flat_map(|x| (0..n).map(move |y| [x, y])) {
                let sums = sums[variables[0] as usize][variables[1] as usize];
                at_the_sums(&mut chance, &pair, variables, sums);
            }
        }
    }
    assert!(unsolvable >= 40, "{unsolvable}");
}

/// Larger sessions, compared with another method as lines come and go.
#[test]
fn larger_sessions() {
    let mut chance = Chance::new(182);
    let mut seen = Seen::default();
    for _ in 0..40 {
        let (n, mut lines) = some_list(&mut chance);
        lines.truncate(60);
        let mut pair = session_calls::Pair::start(&mut chance, n);
        for line in lines {
            withdraw_at_times(&mut chance, &mut pair, 12);
            // At times one that makes a no.
            let clash = pair.second.lines.last().map(|&last| opposite(last));
            let line = clash.filter(|_| chance.one_in(12)).unwrap_or(line);
            pair.add(&mut chance, line);
            let question = any_question(&mut chance, n);
            seen.count(&asked(&mut chance, &pair, question));
            let variables = [(); 2].map(|()| chance.below(n as usize) as u64);
            let distances = closure::distances(n as usize, &pair.second.lines);
            if let Some(distances) = distances.filter(|_| chance.one_in(3)) {
                let sums = distances.sums(variables[0] as usize, variables[1] as usize);
                at_the_sums(&mut chance, &pair, variables, sums);
            }
        }
    }
    seen.must_have(20);
}

/// A list of up to 32 variables, at times one of many ties.
fn some_list(chance: &mut Chance) -> (u64, Vec<Line>) {
    if chance.one_in(3) {
        let n = chance.between(1, 9) as u64;
        let values = near_zero(chance, n);
        return (n, tied(chance, &values));
    }
    let n = chance.pick(&[3, 5, 8, 13, 20, 32]);
    (n, Shape::of(chance, n).list(chance))
}

/// Lines of every rule are refused with the number of lines as the place, after a no and with
/// the most lines, too; variables beyond n as 5, x before y.
#[test]
fn what_is_refused() {
    let mut chance = Chance::new(183);
    let beyond = [2, 3, 1 << 32, (1 << 32) + 1, u64::MAX];
    for count in [0, 1, 9, MOST_LINES] {
        for refuted in [false, true] {
            let mut session = met(&mut chance, &[3, -2], count);
            session.refuted = refuted;
            let numbers = session.state();
            for faults in fault_sets().skip(1) {
                let line = faulty_line(&mut chance, faults);
                for (x, y) in [0, 1].into_iter().flat_map(|x| beyond.map(|y| (x, y))) {
                    for (variables, place) in [([x, y], 1), ([y, x], 0), ([y, y], 0)] {
                        let answers = ask(&mut chance, &numbers, Asked { line, variables });
                        let number = first_fault(faults).unwrap();
                        assert_eq!(answers.line, Implied::Refused(number, count));
                        assert_eq!(answers.pair, Pair::Refused(5, place));
                    }
                }
            }
        }
    }
}

/// Too few numbers are no state, whatever else is wrong; with more than enough what lies
/// behind does not matter.
#[test]
fn short_and_long_states() {
    let mut chance = Chance::new(184);
    for n in [0, 1, 2, 5, 17] {
        let values = vec![1; n];
        let session = met(&mut chance, &values, 6);
        let mut numbers = session.state();
        let question = any_question(&mut chance, n as u64);
        let wrong = Asked {
            line: lone(2, -1, 0),
            variables: [u64::MAX; 2],
        };
        for length in [0, 1, numbers.len() / 2, numbers.len() - 1] {
            for asked in [question, wrong] {
                let answers = ask(&mut chance, &numbers[..length], asked);
                assert_eq!(answers.line, NO_STATE.into());
                assert_eq!(answers.pair, Pair::Refused(7, 6));
            }
        }
        let answers = ask(&mut chance, &numbers, question);
        numbers.extend((0..9).map(|_| chance.next() as i64));
        assert_eq!(ask(&mut chance, &numbers, question), answers);
    }
}

/// The numbers of the lines are not looked at: whatever they are, the table tells.
#[test]
fn no_look_at_the_lines() {
    let mut chance = Chance::new(186);
    for _ in 0..100 {
        let values = [(); 3].map(|()| chance.between(-3, 3));
        let session = met(&mut chance, &values, 5);
        let mut numbers = session.state();
        let question = any_question(&mut chance, session.n);
        let answers = ask(&mut chance, &numbers, question);
        let lines = HEAD..FRONT;
        let at = HEAD + chance.below(lines.len());
        numbers[at] = chance.pick(&[i64::MIN, 1 << 31, 1 << 32, i64::MAX]);
        assert_eq!(ask(&mut chance, &numbers, question), answers);
        numbers[lines].fill_with(|| chance.next() as i64);
        assert_eq!(ask(&mut chance, &numbers, question), answers);
    }
}

/// A session of no variables, and the largest: one with the most lines can be asked, too.
#[test]
fn at_the_limits() {
    let mut chance = Chance::new(185);
    for values in [vec![], vec![3, -2], vec![0; MOST_VARIABLES]] {
        let n = values.len() as u64;
        let full = met(&mut chance, &values, MOST_LINES);
        let last = full.lines[MOST_LINES - 1];
        for session in [Session::new(n), full] {
            let numbers = session.state();
            let variables = [n.saturating_sub(1), 0];
            let pairs = [(zero(0), Implied::Yes), (zero(-1), Implied::No(Vec::new()))];
            for (line, due) in pairs {
                let answers = ask(&mut chance, &numbers, Asked { line, variables });
                assert_eq!(answers.line, due);
            }
            if !session.lines.is_empty() {
                let answers = ask(
                    &mut chance,
                    &numbers,
                    Asked {
                        line: last,
                        variables,
                    },
                );
                assert_eq!(answers.line, Implied::Yes);
            }
        }
        assert!(n <= MOST_N);
    }
}
