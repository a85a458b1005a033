//! The engine for differences beside the one for all lists: on the same lists of
//! differences both give the same answers, and so does a search through all values. What
//! is no difference is refused at its place, after the rules of all lines and before the
//! buffers are looked at; and nothing but the answer is written.

use std::thread;

use utvpi_tests::buffers::{cut_by, Buffers, BUFFERS};
use utvpi_tests::chance::Chance;
use utvpi_tests::damage::damaged_list;
use utvpi_tests::decision::{self, own_groups, Decision, Reason, Verdict, PLUS};
use utvpi_tests::differences::{
    decide, decide_in, is_difference, needed, some_difference, Shape, NOT_DIFFERENCE,
};
use utvpi_tests::limits::{LARGEST_BOUND, LAST_VARIABLE, LINE_NUMBERS, MOST_LINES, MOST_N};
use utvpi_tests::limits::{MOST_VARIABLES, SMALL_VARIABLES};
use utvpi_tests::lines::{identified, identify, line, lone, zero, Line, BOUND};
use utvpi_tests::short_buffers::Engine;
use utvpi_tests::{brute, closure};

const ENGINE: Engine = Engine { needed, decide_in };

/// How many answers of each sort were seen.
#[derive(Clone, Copy, Debug, Default)]
struct Seen {
    yes: usize,
    no: usize,
    /// Lists on which some variables are always equal, and on which a value of the model is
    /// not 0.
    grouped: usize,
    not_zero: usize,
}

impl Seen {
    fn count(&mut self, n: usize, verdict: &Verdict) {
        match verdict {
            Verdict::Yes(solved) => {
                self.yes += 1;
                self.grouped += usize::from(solved.groups != own_groups(n));
                self.not_zero += usize::from(solved.model.iter().any(|&value| value != 0));
            }
            Verdict::No(_) => self.no += 1,
            Verdict::Refused(number, place) => panic!("refused: {number} at {place}"),
        }
    }

    /// Fails if some sort was seen less often than this.
    fn must_have(&self, each: usize) {
        println!("{self:?}");
        let counts = [self.yes, self.no, self.grouped, self.not_zero];
        assert!(counts.iter().all(|&count| count >= each), "{self:?}");
    }
}

/// The decision on differences, after making sure that it has what all of them have: no
/// bounds and no mirrors on a yes, a closed walk on a no.
fn decided(chance: &mut Chance, n: usize, lines: &[Line]) -> Decision {
    let decision = decide(chance, n as u64, lines);
    match &decision.verdict {
        Verdict::Yes(solved) => {
            let absent = [[i64::MIN, i64::MAX]].repeat(n).concat();
            assert_eq!(solved.bounds, absent, "{n} {lines:?}");
            assert!(solved.groups.iter().all(|group| group[1] == PLUS));
        }
        verdict => assert_eq!(*verdict, Verdict::No(Reason::ClosedWalk), "{n} {lines:?}"),
    }
    decision
}

/// Few lines and many, tight and loose: both engines, and another method.
#[test]
fn both_engines() {
    let mut chance = Chance::new(300);
    let mut seen = Seen::default();
    for n in 0..=40 {
        for _ in 0..100 {
            let lines = Shape::of(&mut chance, n).list(&mut chance);
            assert!(lines.iter().all(|line| is_difference(line)));
            let verdict = decided(&mut chance, n, &lines).verdict;
            let first = decision::decide(&mut chance, n as u64, &lines).verdict;
            assert_eq!(verdict, first, "n: {n}\nlines: {lines:?}");
            let due = closure::verdict(n, &lines);
            assert_eq!(verdict, due, "n: {n}\nlines: {lines:?}");
            seen.count(n, &verdict);
        }
    }
    seen.must_have(500);
}

/// Small lists, with all values tried.
#[test]
fn small_lists_by_all_values() {
    let mut chance = Chance::new(301);
    let mut seen = Seen::default();
    for _ in 0..10_000 {
        let n = chance.pick(&[0, 1, 2, 2, 3, 3, 3]);
        let (count, largest) = (chance.below(4 + 2 * n), chance.between(0, 2));
        let mut lines = Shape { n, count, largest }.list(&mut chance);
        for line in &mut lines {
            line[BOUND] = line[BOUND].clamp(-2, 2);
        }
        let verdict = decided(&mut chance, n, &lines).verdict;
        assert_eq!(verdict, brute::verdict(n, &lines), "{n} {lines:?}");
        seen.count(n, &verdict);
    }
    seen.must_have(500);
}

/// All valid lines over so many variables with bounds within ±1.
fn all_lines(n: i32) -> Vec<Line> {
    let terms: Vec<[i32; 2]> = (0..n).flat_map(|x| [[-1, x], [1, x]]).collect();
    let mut all: Vec<Line> = Vec::new();
    for d in -1..=1 {
        all.push(zero(d));
        for &[a, x] in &terms {
            all.push(lone(a, x, d));
            all.extend(terms.iter().map(|&[b, y]| line(a, x, b, y, d)));
        }
    }
    all
}

/// Every list of two lines over one variable or two: nothing is left to chance.
#[test]
fn all_lists_of_two_lines() {
    let mut chance = Chance::new(302);
    for n in 1..=2 {
        let all = all_lines(n);
        for first in &all {
            for second in &all {
                let mut lines = [*first, *second];
                identify(&mut chance, &mut lines);
                let due = match lines.iter().position(|line| !is_difference(line)) {
                    Some(place) => Verdict::Refused(NOT_DIFFERENCE, place),
                    None => brute::verdict(n as usize, &lines),
                };
                let verdict = decide(&mut chance, n as u64, &lines).verdict;
                assert_eq!(verdict, due, "n: {n}\nlines: {lines:?}");
            }
        }
    }
}

/// A valid line that is no difference: a sum, a lone variable or none at all.
fn some_other(chance: &mut Chance, n: usize) -> Line {
    let [x, y] = [(); 2].map(|()| chance.below(n) as i32);
    let (a, bound) = (chance.pick(&[-1, 1]), chance.between(-3, 3) as i32);
    match chance.below(3) {
        0 => line(a, x, a, y, bound),
        1 => lone(a, x, bound),
        _ => zero(bound),
    }
}

/// One other line at each place is refused there, and of two the first, whatever the
/// buffers are and whether or not the list can be met.
#[test]
fn one_other_line_at_each_place() {
    let mut chance = Chance::new(303);
    for n in [1, 2, 5, 40] {
        let lines = Shape::of(&mut chance, n).list(&mut chance);
        for place in 0..lines.len() {
            let mut lines = lines.clone();
            lines[place] = some_other(&mut chance, n);
            if chance.one_in(2) {
                let later = place + chance.below(lines.len() - place);
                lines[later] = some_other(&mut chance, n);
            }
            identify(&mut chance, &mut lines);
            let short = chance.below(1 << BUFFERS);
            let mut buffers = Buffers::new(&mut chance, cut_by(needed(n as u64), short));
            let verdict = decide_in(&mut buffers, n as u64, &lines.concat()).verdict;
            assert_eq!(verdict, Verdict::Refused(NOT_DIFFERENCE, place));
        }
    }
}

/// The rules of all lines go first, those of lines behind the first that is no difference
/// too; then that line, then the buffers.
#[test]
fn the_order_of_refusals() {
    let mut chance = Chance::new(304);
    ENGINE.looks_at_the_list_first(&mut chance);
    let faults = [
        (4, line(2, 0, -1, 1, 0)),
        (5, line(1, 0, -1, 2, 0)),
        (6, line(1, 0, -1, 1, LARGEST_BOUND as i32 + 1)),
        (12, line(0, 0, 1, 1, 0)),
        (13, [1, 0, -1, 1, 0, -1]),
    ];
    let other = line(1, 0, 1, 1, 3);
    for (number, faulty) in faults {
        for (lines, place) in [([other, faulty], 1), ([faulty, other], 0)] {
            let verdict = decide(&mut chance, 2, &lines).verdict;
            assert_eq!(verdict, Verdict::Refused(number, place), "{lines:?}");
        }
    }
}

#[test]
fn which_buffer_is_short() {
    let mut chance = Chance::new(305);
    for n in [0, 1, 2, 5, 40, MOST_N] {
        let [x, y] = [0, n.max(1) as i32 - 1];
        let mut lists = vec![vec![]];
        if n > 0 {
            let clash = [line(1, x, -1, y, -1), line(-1, x, 1, y, 0)];
            lists.extend([&clash[..1], &clash].map(|lines| identified(lines).concat()));
        }
        ENGINE.names_the_first_short(&mut chance, n, &lists);
    }
}

#[test]
fn empty_buffers() {
    ENGINE.names_an_empty_one(&mut Chance::new(306));
}

/// Some lists for the tests below: most small, few larger.
fn some_list(chance: &mut Chance) -> (usize, Vec<Line>) {
    let n = match chance.below(100) {
        0 => SMALL_VARIABLES,
        1..=20 => chance.below(20),
        _ => chance.below(5),
    };
    (n, Shape::of(chance, n).list(chance))
}

/// Lists damaged in every way, in buffers of which some are short: each is refused as is
/// due, and one that is still a list of differences is decided.
#[test]
fn damaged_lists() {
    let mut chance = Chance::new(307);
    let mut refused = [0; NOT_DIFFERENCE as usize + 1];
    let mut decided = 0;
    for _ in 0..30_000 {
        let (n, lines) = some_list(&mut chance);
        let lengths = ENGINE.sometimes_short(&mut chance, n as u64);
        let (n, list) = damaged_list(&mut chance, n as u64, &lines.concat());
        let mut buffers = Buffers::new(&mut chance, lengths);
        match decide_in(&mut buffers, n, &list).verdict {
            Verdict::Refused(number, _) => refused[number as usize] += 1,
            verdict => {
                decided += 1;
                let lines: Vec<Line> = list
                    .chunks(LINE_NUMBERS)
                    .map(|line| line.try_into().unwrap())
                    .collect();
                let due = closure::verdict(n as usize, &lines);
                assert_eq!(verdict, due, "{n} {lines:?}");
            }
        }
    }
    println!("{decided} decided, refused by number {:?}", &refused[1..]);
    assert!(decided >= 1_000);
    for number in [1, 2, 3, 4, 5, 6, 7, 8, 12, 13, NOT_DIFFERENCE] {
        let count = refused[number as usize];
        assert!(count >= 50, "refusal {number} in {refused:?}");
    }
}

/// The same list gets the same answer whatever stood in the buffers, however long they
/// are, and whatever was decided in them before.
#[test]
fn rubbish_does_not_count() {
    let mut chance = Chance::new(308);
    let mut used = Buffers::new(&mut chance, needed(SMALL_VARIABLES as u64));
    for _ in 0..1_000 {
        let (n, lines) = some_list(&mut chance);
        let first = decide(&mut chance, n as u64, &lines);
        for _ in 0..2 {
            let again = decide(&mut chance, n as u64, &lines);
            assert_eq!(again, first, "{n} {lines:?}");
        }
        let stale = decide_in(&mut used, n as u64, &lines.concat());
        assert_eq!(stale, first, "{n} {lines:?}");
    }
}

/// Several threads decide at once, each in its own buffers.
#[test]
fn several_threads() {
    let mut chance = Chance::new(309);
    let mut asked: Vec<(u64, Vec<Line>, Decision)> = Vec::new();
    for _ in 0..500 {
        let (n, lines) = some_list(&mut chance);
        let decision = decide(&mut chance, n as u64, &lines);
        asked.push((n as u64, lines, decision));
    }
    thread::scope(|scope| {
        for seed in 310..314 {
            let asked = &asked;
            scope.spawn(move || {
                let mut chance = Chance::new(seed);
                for at in chance.order(asked.len()) {
                    let (n, lines, due) = &asked[at];
                    assert_eq!(decide(&mut chance, *n, lines), *due);
                }
            });
        }
    });
}

/// These lines and others that add nothing, up to the most, in some order.
fn filled(chance: &mut Chance, mut lines: Vec<Line>) -> Vec<Line> {
    while lines.len() < MOST_LINES {
        let mut line = some_difference(chance, MOST_VARIABLES);
        line[BOUND] = chance.between(LARGEST_BOUND / 2, LARGEST_BOUND) as i32;
        lines.push(line);
    }
    identify(chance, &mut lines);
    let order = chance.order(lines.len());
    order.iter().map(|&at| lines[at]).collect()
}

/// The decision on a list of the most variables and lines, after making sure that the
/// first engine and another method give the same.
fn largest_decided(chance: &mut Chance, lines: &[Line]) -> Decision {
    assert_eq!(lines.len(), MOST_LINES);
    let decision = decided(chance, MOST_VARIABLES, lines);
    let first = decision::decide(chance, MOST_N, lines).verdict;
    assert_eq!(decision.verdict, first);
    assert_eq!(decision.verdict, closure::verdict(MOST_VARIABLES, lines));
    decision
}

/// A chain through all variables, each this much below the next, and the last at most
/// this much above the first.
fn chain(chance: &mut Chance, step: i32, most: i32) -> Vec<Line> {
    let mut lines = vec![line(1, LAST_VARIABLE, -1, 0, most)];
    lines.extend((1..=LAST_VARIABLE).map(|x| line(1, x - 1, -1, x, -step)));
    filled(chance, lines)
}

/// A chain that just holds, whose values are all of the range, and one that just does
/// not, which takes a step of each of its lines.
#[test]
fn the_largest_chains() {
    let mut chance = Chance::new(315);
    let lines = chain(&mut chance, 1, LAST_VARIABLE);
    let Verdict::Yes(solved) = largest_decided(&mut chance, &lines).verdict else {
        panic!("the chain holds");
    };
    let values: Vec<i64> = (0..=i64::from(LAST_VARIABLE)).collect();
    assert_eq!(solved.model, values);
    let lines = chain(&mut chance, 1, LAST_VARIABLE - 1);
    let decision = largest_decided(&mut chance, &lines);
    assert_eq!(decision.verdict, Verdict::No(Reason::ClosedWalk));
    assert_eq!(decision.refutation[1] as usize, MOST_VARIABLES);
    let lines = chain(&mut chance, 0, 0);
    let Verdict::Yes(solved) = largest_decided(&mut chance, &lines).verdict else {
        panic!("all are equal");
    };
    assert_eq!(solved.groups, [[0, PLUS]; MOST_VARIABLES]);
}

/// Values as far from zero as any: each variable is the largest bound above the last.
#[test]
fn the_longest_way_from_zero() {
    let mut chance = Chance::new(316);
    let bound = LARGEST_BOUND as i32;
    let mut lines: Vec<Line> = (1..=LAST_VARIABLE)
        .map(|x| line(1, x - 1, -1, x, -bound))
        .collect();
    lines.extend([line(1, 0, -1, 0, 0)].repeat(MOST_LINES - lines.len()));
    let Verdict::Yes(solved) = largest_decided(&mut chance, &lines).verdict else {
        panic!("the chain holds");
    };
    let farthest = i64::from(LAST_VARIABLE) * LARGEST_BOUND;
    assert_eq!(solved.model.last(), Some(&farthest));
}

/// Lists that some values meet, many lines with nothing to spare; and closed walks.
#[test]
fn the_largest_random_lists() {
    for seed in 320..323 {
        let mut chance = Chance::new(seed);
        let shape = Shape {
            n: MOST_VARIABLES,
            count: MOST_LINES,
            largest: LARGEST_BOUND,
        };
        let mut lines = shape.met(&mut chance);
        identify(&mut chance, &mut lines);
        let verdict = largest_decided(&mut chance, &lines).verdict;
        assert!(matches!(verdict, Verdict::Yes(_)));
        let mut lines = shape.round_walk(&mut chance);
        identify(&mut chance, &mut lines);
        largest_decided(&mut chance, &lines);
    }
}
