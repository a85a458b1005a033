//! Random lists, decided: tiny ones against a search through all values, larger
//! ones against another method, and pairs of which one begins with
//! the other. Every refutation is fed to both checkers on the way.

use std::thread;

use utvpi_tests::bytes;
use utvpi_tests::chance::Chance;
use utvpi_tests::decision::{decide, Decision, Group, Reason, Solved, Verdict, MINUS};
use utvpi_tests::limits::{LARGEST_BOUND, MOST_LINES, SMALL_VARIABLES};
use utvpi_tests::lines::{identify, line, Line};
use utvpi_tests::make_lists::{around_hub, near_zero, small, tied, Shape};
use utvpi_tests::second::{self, Answer};
use utvpi_tests::{brute, closure};

/// How many answers of each sort were seen.
#[derive(Clone, Copy, Debug, Default)]
struct Seen {
    yes: usize,
    false_line: usize,
    closed_walk: usize,
    halved_walks: usize,
    /// Lists on which some group has two variables, some variable mirrors another, a
    /// bound is there, one is absent, and a value of the model is not 0.
    grouped: usize,
    mirrored: usize,
    bounded: usize,
    unbounded: usize,
    not_zero: usize,
}

impl Seen {
    fn count(&mut self, verdict: &Verdict) {
        match verdict {
            Verdict::Yes(solved) => self.count_solved(solved),
            Verdict::No(Reason::FalseLine(_)) => self.false_line += 1,
            Verdict::No(Reason::ClosedWalk) => self.closed_walk += 1,
            Verdict::No(Reason::HalvedWalks) => self.halved_walks += 1,
            Verdict::Refused(number, place) => panic!("refused: {number} at {place}"),
        }
    }

    fn count_solved(&mut self, solved: &Solved) {
        let absent = |bound: &i64| [i64::MIN, i64::MAX].contains(bound);
        let own = |(x, group): (usize, &Group)| x as u32 == group[0];
        self.yes += 1;
        self.grouped += usize::from(!solved.groups.iter().enumerate().all(own));
        self.mirrored += usize::from(solved.groups.iter().any(|group| group[1] == MINUS));
        self.bounded += usize::from(!solved.bounds.iter().all(absent));
        self.unbounded += usize::from(solved.bounds.iter().any(absent));
        self.not_zero += usize::from(solved.model.iter().any(|&value| value != 0));
    }

    fn lists(&self) -> usize {
        self.yes + self.false_line + self.closed_walk + self.halved_walks
    }

    /// Fails if some sort was seen less often than this.
    fn must_have(&self, each: usize, false_lines: usize) {
        println!("{} lists: {self:?}", self.lists());
        let counts = [
            self.yes,
            self.closed_walk,
            self.halved_walks,
            self.grouped,
            self.mirrored,
            self.bounded,
            self.unbounded,
            self.not_zero,
        ];
        assert!(counts.iter().all(|&count| count >= each), "{self:?}");
        assert!(self.false_line >= false_lines, "{self:?}");
    }
}

/// Small lists, with all values tried.
#[test]
fn small_lists_by_all_values() {
    let mut chance = Chance::new(21);
    let mut seen = Seen::default();
    for _ in 0..60_000 {
        let (n, lines) = small(&mut chance);
        let due = brute::verdict(n as usize, &lines);
        let decision = decide(&mut chance, n, &lines);
        assert_eq!(decision.verdict, due, "n: {n}\nlines: {lines:?}");
        // The two ways to know better must agree as well.
        assert_eq!(
            closure::verdict(n as usize, &lines),
            due,
            "n: {n}\nlines: {lines:?}"
        );
        seen.count(&due);
    }
    assert!(seen.lists() >= 50_000);
    seen.must_have(1_000, 500);
}

/// Every list of two lines over one variable or two, of bounds within ±2: nothing
/// is left to chance. A lone coefficient in the second place is refused.
#[test]
fn all_lists_of_two_lines() {
    let mut chance = Chance::new(22);
    for n in 1..=2 {
        let mut terms = vec![[0, 0]];
        terms.extend((0..n).flat_map(|x| [[-1, x], [1, x]]));
        let mut all: Vec<Line> = Vec::new();
        for one in &terms {
            for two in &terms {
                all.extend((-2..=2).map(|d| line(one[0], one[1], two[0], two[1], d)));
            }
        }
        for first in &all {
            for second in &all {
                let mut lines = [*first, *second];
                identify(&mut chance, &mut lines);
                let misplaced = |line: &Line| line[0] == 0 && line[2] != 0;
                let due = match lines.iter().position(misplaced) {
                    Some(place) => Verdict::Refused(12, place),
                    None => brute::verdict(n as usize, &lines),
                };
                let decision = decide(&mut chance, n as u64, &lines);
                assert_eq!(decision.verdict, due, "n: {n}\nlines: {lines:?}");
            }
        }
    }
}

/// Decides a list, and compares with the other method.
fn compare(chance: &mut Chance, n: u64, list: &[Line], seen: &mut Seen) {
    let due = closure::verdict(n as usize, list);
    let decision = decide(chance, n, list);
    assert_eq!(decision.verdict, due, "n: {n}\nlines: {list:?}");
    seen.count(&due);
}

/// The lists of one thread: the numbers of variables are taken in turn.
fn compare_large(seed: u64, sizes: &[u64]) -> Seen {
    let mut chance = Chance::new(seed);
    let mut seen = Seen::default();
    for &size in sizes {
        let list = Shape::of(&mut chance, size).list(&mut chance);
        compare(&mut chance, size, &list, &mut seen);
    }
    seen
}

fn add(seen: &mut Seen, other: Seen) {
    seen.yes += other.yes;
    seen.false_line += other.false_line;
    seen.closed_walk += other.closed_walk;
    seen.halved_walks += other.halved_walks;
    seen.grouped += other.grouped;
    seen.mirrored += other.mirrored;
    seen.bounded += other.bounded;
    seen.unbounded += other.unbounded;
    seen.not_zero += other.not_zero;
}

/// Runs the same work in two threads.
fn in_two_threads(work: impl Fn(u64) -> Seen + Sync) -> Seen {
    let mut seen = Seen::default();
    let work = &work;
    thread::scope(|scope| {
        let threads = [0, 1].map(|thread| scope.spawn(move || work(thread)));
        for thread in threads {
            add(&mut seen, thread.join().unwrap());
        }
    });
    seen
}

/// Lists of few to many variables, of all sizes of bounds.
#[test]
fn large_lists_by_another_method() {
    let seen = in_two_threads(|thread| {
        let mut chance = Chance::new(30 + thread);
        let mut size = || {
            let most = SMALL_VARIABLES as i64 / chance.pick(&[1, 2, 4, 8]);
            chance.between(1, most) as u64
        };
        let sizes: Vec<u64> = (0..800).map(|_| size()).collect();
        compare_large(40 + thread, &sizes)
    });
    assert!(seen.lists() >= 1_600);
    seen.must_have(60, 10);
}

/// Lists of the most of these variables.
#[test]
fn larger_lists_by_another_method() {
    let sizes = [SMALL_VARIABLES as u64; 250];
    let seen = in_two_threads(|thread| compare_large(50 + thread, &sizes));
    assert!(seen.lists() >= 500);
    seen.must_have(20, 5);
}

/// Many lines on few variables, up to the most: where steps between the same points
/// are merged, where rounds go before elimination, and one line to each side of both.
#[test]
fn many_lines_by_another_method() {
    let seen = in_two_threads(|thread| {
        let mut chance = Chance::new(60 + thread);
        let mut seen = Seen::default();
        for _ in 0..300 {
            let n = chance.pick(&[1, 2, 3, 5, 8, 16, 31, 32, 45, 46, 64]) as u64;
            let points = n as usize;
            let near = chance.pick(&[4 * points, 8 * points, points * points / 2, MOST_LINES]);
            let count = (near + chance.below(3))
                .saturating_sub(1)
                .clamp(1, MOST_LINES - 1);
            let largest = chance.pick(&[1, 20, 1_000, LARGEST_BOUND]);
            let mut list = Shape { n, count, largest }.list(&mut chance);
            list.truncate(MOST_LINES);
            compare(&mut chance, n, &list, &mut seen);
        }
        seen
    });
    assert!(seen.lists() >= 600);
    seen.must_have(20, 0);
}

/// Lists in which all lines of two variables name the first one, or all but one do: these are
/// answered without a table where they can hold and no variable is tied to another.
#[test]
fn one_hub_by_another_method() {
    let seen = in_two_threads(|thread| {
        let mut chance = Chance::new(70 + thread);
        let mut seen = Seen::default();
        for _ in 0..1_500 {
            let most = SMALL_VARIABLES as i64 / chance.pick(&[1, 4, 16, 32]);
            let n = chance.between(1, most.max(2)) as u64;
            let shape = Shape::of(&mut chance, n);
            let list = around_hub(&mut chance, &shape);
            compare(&mut chance, n, &list, &mut seen);
        }
        seen
    });
    assert!(seen.lists() >= 3_000);
    seen.must_have(50, 0);
}

/// Whether two variables that shared a group still do, equal where they were equal and
/// mirrored where they were mirrored; always 0, they are both, and their signs plus.
fn stays_tied(one: &Solved, two: &Solved, x: usize, y: usize) -> bool {
    let differ = |solved: &Solved| {
        let ([r, s], [q, t]) = (solved.groups[x], solved.groups[y]);
        (r == q).then_some(s != t)
    };
    let zero = |at: usize| two.bounds[2 * at..][..2] == [0, 0];
    match (differ(one), differ(two)) {
        (None, _) => true,
        (_, None) => false,
        (Some(before), Some(after)) => before == after || before && zero(x) && zero(y),
    }
}

/// What must hold of a list's decision and a longer list's that begins with it.
fn compare_pair(n: u64, short: &[Line], long: &[Line], one: &Decision, two: &Decision) {
    let shown = || format!("n: {n}\nlines: {short:?}\nlonger: {long:?}\n{one:?}\n{two:?}");
    let longer = bytes::list(long);
    let (one, two) = match (&one.verdict, &two.verdict) {
        (Verdict::No(_), Verdict::No(_)) => {
            // The no that was shown is shown by the same numbers.
            let shown_no = bytes::refutation(&one.refutation);
            let answer = utvpi_tests::refutation(n, &longer, &shown_no);
            return assert_eq!(answer, Answer::Yes, "{}", shown());
        }
        (Verdict::Yes(_), Verdict::No(_)) => return,
        (Verdict::Yes(one), Verdict::Yes(two)) => (one, two),
        _ => panic!("a no became something else\n{}", shown()),
    };
    for (old, new) in one.bounds.chunks(2).zip(two.bounds.chunks(2)) {
        let tighter = new[0] >= old[0] && new[1] <= old[1];
        assert!(tighter, "a bound is looser\n{}", shown());
    }
    for x in 0..n as usize {
        for y in 0..x {
            let kept = stays_tied(one, two, x, y);
            assert!(kept, "{x} and {y} were tied otherwise\n{}", shown());
        }
    }
    let still_met = second::check_model(n, &longer, &bytes::model(&one.model)) == Answer::Yes;
    let same = one.model == two.model;
    assert_eq!(same, still_met, "the models {}", shown());
}

/// Decides all beginnings of a list, or some, and compares each with the next.
fn compare_beginnings(chance: &mut Chance, n: u64, lines: &[Line], step: usize) -> usize {
    let mut pairs = 0;
    let mut at = 0;
    let mut last = decide(chance, n, &[]);
    while at < lines.len() {
        let next = (at + 1 + chance.below(step)).min(lines.len());
        let decision = decide(chance, n, &lines[..next]);
        compare_pair(n, &lines[..at], &lines[..next], &last, &decision);
        // No lines more is a longer list, too.
        let again = decide(chance, n, &lines[..next]);
        assert_eq!(again.verdict, decision.verdict);
        (at, last) = (next, decision);
        pairs += 2;
    }
    pairs
}

/// Nothing that was learned is unlearned when lines are added.
#[test]
fn longer_lists_unlearn_nothing() {
    let mut chance = Chance::new(60);
    let mut pairs = 0;
    for _ in 0..6_000 {
        let (n, lines) = small(&mut chance);
        pairs += compare_beginnings(&mut chance, n, &lines, 1);
    }
    for _ in 0..3_000 {
        let n = chance.between(2, 8) as u64;
        let values = near_zero(&mut chance, n);
        let lines = tied(&mut chance, &values);
        pairs += compare_beginnings(&mut chance, n, &lines, 2);
    }
    for _ in 0..150 {
        let n = chance.between(2, 24) as u64;
        let lines = Shape::of(&mut chance, n).list(&mut chance);
        let step = 1 + lines.len() / 8;
        pairs += compare_beginnings(&mut chance, n, &lines, step);
    }
    for _ in 0..8 {
        let n = SMALL_VARIABLES as u64;
        let lines = Shape::of(&mut chance, n).list(&mut chance);
        let step = 1 + lines.len() / 3;
        pairs += compare_beginnings(&mut chance, n, &lines, step);
    }
    println!("{pairs} pairs");
    assert!(pairs >= 20_000, "{pairs} pairs");
}
