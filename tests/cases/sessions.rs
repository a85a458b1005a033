//! Sessions: random sequences of calls against deciding afresh and against the second
//! implementation, what holds along adds, what a withdrawn line leaves, and as many lines
//! as there may be. `session_refusals.rs` has what is refused.

use utvpi_tests::buffers::{needed, Buffers, BUFFERS};
use utvpi_tests::chance::Chance;
use utvpi_tests::damage::{fault_sets, faulty_line};
use utvpi_tests::decision::{Reason, Solved, Verdict};
use utvpi_tests::implied::opposite;
use utvpi_tests::limits::{MOST_LINES, MOST_N, MOST_VARIABLES};
use utvpi_tests::lines::{line, lone, misplaced, zero, Line, BOUND};
use utvpi_tests::make::left_side;
use utvpi_tests::make_lists::{near_zero, small, tied};
use utvpi_tests::second::Answer::Refused;
use utvpi_tests::session_calls::{met, Pair};

/// How many sequences of calls there are, and the most calls of one.
const SEQUENCES: usize = 10_000;
const CALLS: usize = 20;

/// The answers that a test saw.
#[derive(Default)]
struct Seen {
    starts: usize,
    yes: usize,
    /// By the reason: a false line, one closed walk, two halved ones.
    no: [usize; 3],
    withdrawn: usize,
    /// By the refusal's number.
    refused: [usize; 32],
}

impl Seen {
    fn count(&mut self, verdict: &Verdict) {
        match verdict {
            Verdict::Yes(_) => self.yes += 1,
            Verdict::No(Reason::FalseLine(_)) => self.no[0] += 1,
            Verdict::No(Reason::ClosedWalk) => self.no[1] += 1,
            Verdict::No(Reason::HalvedWalks) => self.no[2] += 1,
            Verdict::Refused(number, _) => self.refused[usize::from(*number)] += 1,
        }
    }

    /// Fails where some answer was rarely seen.
    fn must_include(&self, refusals: &[usize]) {
        let (starts, yes, withdrawn) = (self.starts, self.yes, self.withdrawn);
        println!("{starts} starts, {yes} yes, no by reason {:?}", self.no);
        println!(
            "{withdrawn} withdrawn, refused by number {:?}",
            self.refused
        );
        assert!(starts >= SEQUENCES && yes >= SEQUENCES && withdrawn >= SEQUENCES);
        assert!(self.no.iter().all(|&times| times >= 500));
        for &refusal in refusals {
            let times = self.refused[refusal];
            assert!(times >= 200, "refusal {refusal} seen only {times} times");
        }
    }
}

/// A line that may be refused: of two variables, with any faults.
fn any_faults(chance: &mut Chance) -> Line {
    let faults = chance.below(fault_sets().len());
    faulty_line(chance, faults)
}

/// Adds a line in buffers of which one may be too short.
fn add_short(chance: &mut Chance, pair: &mut Pair, line: Line) -> Verdict {
    let mut lengths = needed(pair.second.n);
    let at = chance.below(BUFFERS);
    lengths[at] = lengths[at].saturating_sub(chance.between(1, 3) as usize);
    let mut buffers = Buffers::new(chance, lengths);
    pair.add_in(&mut buffers, line).verdict
}

/// One call of a sequence, of the session or on a line that it may have.
fn some_call(chance: &mut Chance, pair: &mut Pair, line: Line, seen: &mut Seen) {
    let soon_withdrawn = if pair.second.refuted { 2 } else { 5 };
    if chance.one_in(soon_withdrawn) {
        return match pair.withdraw() {
            Ok(()) => seen.withdrawn += 1,
            Err(refused) => {
                assert_eq!(refused, Refused(31, 0));
                seen.refused[31] += 1;
            }
        };
    }
    let verdict = match chance.below(30) {
        0 => {
            seen.starts += 1;
            return pair.start_again(pair.second.n);
        }
        1..=3 => add_short(chance, pair, line),
        4..=7 => {
            let line = any_faults(chance);
            pair.add(chance, line)
        }
        _ => pair.add(chance, line),
    };
    seen.count(&verdict);
}

/// After each call the state is whole what the second implementation says, and each
/// answer is that of deciding all lines afresh.
#[test]
fn random_sequences() {
    let mut chance = Chance::new(140);
    let mut seen = Seen::default();
    for _ in 0..SEQUENCES {
        let (n, lines) = small(&mut chance);
        let mut pair = Pair::start(&mut chance, n);
        seen.starts += 1;
        let mut lines = lines.iter().cycle();
        for _ in 0..=chance.below(CALLS) {
            let line = lines.next().copied().unwrap_or(zero(0));
            some_call(&mut chance, &mut pair, line, &mut seen);
        }
    }
    seen.must_include(&[4, 5, 6, 7, 8, 12, 13, 30, 31]);
}

/// A line that is added and taken away leaves every number as it was, and adding it
/// again is answered alike; a copy of the state goes on from the same place.
#[test]
fn added_and_withdrawn() {
    let mut chance = Chance::new(141);
    let (mut yes, mut no) = (0, 0);
    for _ in 0..1_500 {
        let (n, lines) = small(&mut chance);
        let mut pair = Pair::start(&mut chance, n);
        for line in lines {
            let mut copy = pair.clone();
            let verdict = pair.add(&mut chance, line);
            assert!(pair.numbers() != copy.numbers());
            assert_eq!(pair.withdraw(), Ok(()));
            assert!(pair.numbers() == copy.numbers(), "{line:?}");
            assert_eq!(pair.add(&mut chance, line), verdict);
            assert_eq!(copy.add(&mut chance, line), verdict);
            match verdict {
                Verdict::Yes(_) => yes += 1,
                _ => {
                    no += 1;
                    break;
                }
            }
        }
    }
    assert!(yes >= 2_000 && no >= 300, "{yes} yes, {no} no");
}

/// Whether two variables that always have the same value, or always opposite ones, before
/// a line was added still do so after it.
fn groups_stay(before: &Solved, after: &Solved) -> bool {
    let zero = |x: usize| after.bounds[2 * x..][..2] == [0, 0];
    let count = before.groups.len();
    let mut pairs = (0..count).flat_map(|x| (0..x).map(move |y| (x, y)));
    pairs.all(|(x, y)| {
        let [[[r, sign], [s, other]], [[t, now], [u, other_now]]] =
            [before, after].map(|solved| [solved.groups[x], solved.groups[y]]);
        let same_signs = (sign == other) == (now == other_now);
        r != s || (t == u && (same_signs || (zero(x) && zero(y))))
    })
}

/// Whether the bounds after a line was added are within those before it.
fn bounds_tighten(before: &Solved, after: &Solved) -> bool {
    let mut pairs = before.bounds.chunks(2).zip(after.bounds.chunks(2));
    pairs.all(|(old, new)| old[0] <= new[0] && new[1] <= old[1])
}

/// Makes sure that nothing was unlearned as this line was added: bounds only tighten,
/// groups stay, and the model is the same exactly if it meets the line.
fn nothing_unlearned(line: &Line, before: &Solved, after: &Solved) {
    let shown = || format!("{line:?}\n{before:?}\n{after:?}");
    assert!(bounds_tighten(before, after), "{}", shown());
    assert!(groups_stay(before, after), "{}", shown());
    let met = left_side(line, &before.model) <= i64::from(line[BOUND]);
    assert_eq!(before.model == after.model, met, "{}", shown());
}

/// A list of few variables, of which many are equal or mirrored half of the times.
fn some_list(chance: &mut Chance) -> (u64, Vec<Line>) {
    if chance.one_in(2) {
        return small(chance);
    }
    let n = chance.between(1, 5) as u64;
    let values = near_zero(chance, n);
    (n, tied(chance, &values))
}

/// What each answer says holds along adds, and after a no each line is refused as 30.
#[test]
fn along_adds() {
    let mut chance = Chance::new(142);
    let (mut yes, mut no, mut tighter, mut joined) = (0, 0, 0, 0);
    for _ in 0..6_000 {
        let (n, lines) = some_list(&mut chance);
        let mut pair = Pair::start(&mut chance, n);
        let mut last: Option<Solved> = None;
        for line in lines {
            let refuted = pair.second.refuted;
            match (pair.add(&mut chance, line), last.take()) {
                (verdict, _) if refuted => assert_eq!(verdict, Verdict::Refused(30, 0)),
                (Verdict::Yes(after), before) => {
                    yes += 1;
                    if let Some(before) = before {
                        nothing_unlearned(&line, &before, &after);
                        tighter += usize::from(before.bounds != after.bounds);
                        joined += usize::from(before.groups != after.groups);
                    }
                    last = Some(after);
                }
                (verdict, _) => {
                    no += 1;
                    assert!(matches!(verdict, Verdict::No(_)), "{verdict:?}");
                }
            }
        }
    }
    println!("{yes} yes, {no} no, {tighter} times tighter bounds, {joined} times other groups");
    assert!(yes >= 10_000 && no >= 500 && tighter >= 2_000 && joined >= 1_000);
}

/// Two lines that can hold, and one that makes a no of them: one of each kind.
const CLASHES: [([Line; 2], Line, Reason); 3] = [
    ([lone(1, 0, 0), zero(0)], zero(-1), Reason::FalseLine(2)),
    (
        [lone(1, 0, 0), line(1, 1, -1, 0, 1)],
        lone(-1, 1, -2),
        Reason::ClosedWalk,
    ),
    (
        [line(1, 0, 1, 0, 1), zero(0)],
        line(-1, 0, -1, 0, -1),
        Reason::HalvedWalks,
    ),
];

/// After a no every line is refused as 30, until the one that made it is withdrawn.
#[test]
fn after_a_no() {
    let mut chance = Chance::new(143);
    for (first, clash, reason) in CLASHES {
        let mut pair = Pair::start(&mut chance, 2);
        for line in first {
            assert!(matches!(pair.add(&mut chance, line), Verdict::Yes(_)));
        }
        for _ in 0..3 {
            assert_eq!(pair.add(&mut chance, clash), Verdict::No(reason));
            for line in [zero(0), zero(-1), clash, lone(2, 0, 0), misplaced(1, 0, 0)] {
                let verdict = pair.add(&mut chance, line);
                assert_eq!(verdict, Verdict::Refused(30, 0));
            }
            assert_eq!(pair.withdraw(), Ok(()));
            assert!(matches!(pair.add(&mut chance, first[0]), Verdict::Yes(_)));
            assert_eq!(pair.withdraw(), Ok(()));
        }
    }
}

/// Withdrawn to its start, a session is as it was started, and takes lines again.
#[test]
fn withdrawn_to_the_start() {
    let mut chance = Chance::new(144);
    for n in [0, 1, 2, 3, MOST_N] {
        let mut pair = Pair::start(&mut chance, n);
        let started = pair.numbers().to_vec();
        for count in [0, 1, 7] {
            for d in 0..count {
                assert!(matches!(pair.add(&mut chance, zero(d)), Verdict::Yes(_)));
            }
            for _ in 0..count {
                assert_eq!(pair.withdraw(), Ok(()));
            }
            for _ in 0..2 {
                assert_eq!(pair.withdraw(), Err(Refused(31, 0)));
            }
            assert!(pair.numbers() == started);
        }
    }
}

/// The last line that there may be, and one more: it is refused as 3, whatever else is
/// wrong with it or the buffers, but for a no, which goes before.
#[test]
fn the_most_lines() {
    let mut chance = Chance::new(145);
    for values in [vec![], vec![3, -2], vec![0; MOST_VARIABLES]] {
        let last = MOST_LINES - 1;
        let session = met(&mut chance, &values, last);
        let mut pair = Pair::at(&mut chance, session);
        for _ in 0..2 {
            assert!(matches!(pair.add(&mut chance, zero(0)), Verdict::Yes(_)));
            for line in [zero(0), zero(-1), lone(2, -1, 0), misplaced(1, 0, 0)] {
                assert_eq!(pair.add(&mut chance, line), Verdict::Refused(3, 0));
                let verdict = add_short(&mut chance, &mut pair, line);
                assert_eq!(verdict, Verdict::Refused(3, 0));
            }
            assert_eq!(pair.withdraw(), Ok(()));
            let verdict = pair.add(&mut chance, zero(-1));
            assert_eq!(verdict, Verdict::No(Reason::FalseLine(last)));
            let verdict = pair.add(&mut chance, zero(0));
            assert_eq!(verdict, Verdict::Refused(30, 0));
            assert_eq!(pair.withdraw(), Ok(()));
        }
    }
}

/// Sessions of many variables: lines come and go, among them some that make a no.
#[test]
fn many_variables() {
    let mut chance = Chance::new(147);
    let (mut yes, mut no) = (0, 0);
    for (n, count) in [(30, 200), (64, 60), (120, 20), (MOST_N, 12)] {
        let values: Vec<i64> = (0..n).map(|_| chance.between(-50, 50)).collect();
        let lines = met(&mut chance, &values, count).lines;
        let mut pair = Pair::start(&mut chance, n);
        for line in lines {
            assert!(matches!(pair.add(&mut chance, line), Verdict::Yes(_)));
            yes += 1;
            // What this line forbids, or a line that says nothing new.
            let last = chance.pick(&[opposite(line), line]);
            let before = pair.numbers().to_vec();
            match pair.add(&mut chance, last) {
                Verdict::No(_) => no += 1,
                verdict => assert!(matches!(verdict, Verdict::Yes(_) | Verdict::Refused(6, _))),
            }
            if pair.second.refuted || chance.one_in(3) {
                let kept = pair.second.lines.last() == Some(&last);
                assert_eq!(pair.withdraw(), Ok(()));
                assert_eq!(pair.numbers() == before, kept);
            }
        }
    }
    println!("{yes} yes, {no} no");
    assert!(yes >= 250 && no >= 100);
}

/// As many lines as there may be, each added, and each withdrawn.
#[test]
fn every_line_from_the_start() {
    let mut chance = Chance::new(146);
    let all = met(&mut chance, &[3, -2], MOST_LINES).lines;
    let mut pair = Pair::start(&mut chance, 2);
    let mut buffers = Buffers::enough(&mut chance, 2);
    for &line in &all {
        let verdict = pair.add_in(&mut buffers, line).verdict;
        assert!(matches!(verdict, Verdict::Yes(_)));
    }
    assert_eq!(pair.add(&mut chance, all[0]), Verdict::Refused(3, 0));
    assert_eq!(pair.second.lines, all);
    for _ in 0..MOST_LINES {
        assert_eq!(pair.withdraw(), Ok(()));
    }
    assert_eq!(pair.withdraw(), Err(Refused(31, 0)));
}
