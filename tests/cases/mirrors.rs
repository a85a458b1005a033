//! Variables that always have each other's value, or its negative: they share a group's
//! variable, and the signs say which of the two it is. Some lists made by hand, some at
//! random; what stays when lines are added; and the room that the groups need.

use utvpi_tests::brute::{self, Ties};
use utvpi_tests::buffers::{needed, Buffers, GROUPS};
use utvpi_tests::chance::Chance;
use utvpi_tests::closure;
use utvpi_tests::decision::{decide, decide_in, own_groups, Group, Solved, Verdict};
use utvpi_tests::decision::{MINUS, PLUS};
use utvpi_tests::limits::{MOST_N, MOST_VARIABLES, SMALL_VARIABLES};
use utvpi_tests::lines::{identified, line, lone, Line, BOUND};
use utvpi_tests::make_lists::{fixed, fixed_by_halves, near_zero, tie, tied};

/// With more variables than these all values are too many to try.
const FEW: usize = 4;

/// What is answered to a list that has a solution, after making sure that the other
/// ways to decide answer the same.
fn solved(n: usize, lines: &[Line]) -> Solved {
    let lines = identified(lines);
    let mut chance = Chance::new(lines.len() as u64);
    let verdict = decide(&mut chance, n as u64, &lines).verdict;
    assert_eq!(verdict, closure::verdict(n, &lines), "{n} {lines:?}");
    if n <= FEW {
        assert_eq!(verdict, brute::verdict(n, &lines), "{n} {lines:?}");
    }
    match verdict {
        Verdict::Yes(solved) => solved,
        verdict => panic!("{verdict:?}\n{n} {lines:?}"),
    }
}

/// The groups of a list that has a solution.
fn groups(n: usize, lines: &[Line]) -> Vec<Group> {
    solved(n, lines).groups
}

/// Whether a variable is always 0.
fn is_zero(solved: &Solved, x: usize) -> bool {
    solved.bounds[2 * x..][..2] == [0, 0]
}

#[test]
fn mirrored_by_sums_alone() {
    let lines = tie(1, 0, 1, 1);
    assert_eq!(groups(2, &lines), [[0, PLUS], [0, MINUS]]);
    assert_eq!(groups(2, &tie(1, 1, 1, 0)), [[0, PLUS], [0, MINUS]]);
    assert_eq!(groups(2, &tie(1, 0, -1, 1)), [[0, PLUS], [0, PLUS]]);
    // One of the two lines says too little, and so does one that is not tight.
    for at in 0..2 {
        assert_eq!(groups(2, &lines[at..=at]), own_groups(2));
        let mut loose = lines;
        loose[at][BOUND] = 1;
        assert_eq!(groups(2, &loose), own_groups(2));
    }
    // The lowest of three is not the first that is named, and has no tie itself.
    let lines = [tie(1, 3, 1, 1), tie(-1, 2, 1, 3)].concat();
    let due = [[0, PLUS], [1, PLUS], [1, MINUS], [1, MINUS]];
    assert_eq!(groups(4, &lines), due);
}

/// As case 6 is for equality: each alone has one value by halving, no walk leads from
/// one to the other, and the values are opposite.
#[test]
fn mirrored_by_halves_only() {
    for value in [-3, -1, 1, 2] {
        let due = |other| [fixed_by_halves(0, value), fixed_by_halves(1, other)].concat();
        assert_eq!(groups(2, &due(-value)), [[0, PLUS], [0, MINUS]]);
        assert_eq!(groups(2, &due(value)), [[0, PLUS], [0, PLUS]]);
        assert_eq!(groups(2, &due(1 - value)), own_groups(2));
        // With one bound more than that, one of them is not fixed.
        let mut loose = due(-value);
        loose[3][BOUND] += 1;
        assert_eq!(groups(2, &loose), own_groups(2));
    }
    let zero = [fixed_by_halves(0, 0), fixed_by_halves(1, 0)].concat();
    assert_eq!(groups(2, &zero), [[0, PLUS], [0, PLUS]]);
    // x + y and its negative are at most 1, and a sum of 1 leaves halves alone.
    let lines = [line(1, 0, 1, 1, 1), line(-1, 0, -1, 1, 1)];
    let same = [line(1, 0, -1, 1, 0), line(-1, 0, 1, 1, 0)];
    assert_eq!(groups(2, &lines), own_groups(2));
    let both = [lines, same].concat();
    assert_eq!(groups(2, &both), [[0, PLUS], [0, PLUS]]);
    assert!(is_zero(&solved(2, &both), 1));
}

/// The value of one of them by halving, that of the other by a walk.
#[test]
fn mirrored_by_both() {
    for value in -2..=2 {
        let lines = [fixed(0, value), fixed_by_halves(1, -value)].concat();
        let sign = if value == 0 { PLUS } else { MINUS };
        assert_eq!(groups(2, &lines), [[0, PLUS], [0, sign]]);
    }
}

/// Each variable mirrors the one before it, through so many.
fn mirrors(count: usize) -> Vec<Line> {
    let next = (1..count as i32).flat_map(|x| tie(1, x - 1, 1, x));
    next.collect()
}

/// Plus and minus in turn.
fn alternating(count: usize) -> Vec<Group> {
    let signs = [PLUS, MINUS].into_iter().cycle();
    signs.take(count).map(|sign| [0, sign]).collect()
}

/// Chains of mirrors: the signs alternate. Closed by one more mirror, a chain of an even
/// length stays as it is, and in one of an odd length all are 0.
#[test]
fn chains_of_mirrors() {
    let counts = (2..=9).chain([SMALL_VARIABLES - 1, SMALL_VARIABLES]);
    for count in counts.chain([MOST_VARIABLES]) {
        let mut lines = mirrors(count);
        let order = Chance::new(count as u64).order(lines.len());
        lines = order.iter().map(|&at| lines[at]).collect();
        assert_eq!(groups(count, &lines), alternating(count));
        let last = count as i32 - 1;
        let closed = [&lines[..], &tie(1, last, 1, 0)].concat();
        let due = match count % 2 {
            0 => alternating(count),
            _ => vec![[0, PLUS]; count],
        };
        assert_eq!(groups(count, &closed), due, "{count}");
        // The last one at 3, the others are at 3 and at -3 in turn.
        let fixed = [&lines[..], &fixed(last, 3)].concat();
        assert_eq!(groups(count, &fixed), alternating(count));
        // The last one at 0.
        let zero = [&lines[..], &fixed_by_halves(last, 0)].concat();
        assert_eq!(groups(count, &zero), vec![[0, PLUS]; count]);
    }
}

/// Chains through the variables from the last to the first, and in any order: what is
/// minus is as far from variable 0 as an odd number of mirrors.
#[test]
fn chains_in_other_orders() {
    let mut chance = Chance::new(140);
    for count in [2, 3, 4, 5, 8, 17, SMALL_VARIABLES] {
        for round in 0..6 {
            let order = match round {
                0 => (0..count).rev().collect(),
                _ => chance.order(count),
            };
            let signs: Vec<i32> = order.iter().map(|_| chance.pick(&[-1, 1])).collect();
            let mut lines = Vec::new();
            for (pair, sign) in order.windows(2).zip(&signs) {
                lines.extend(tie(1, pair[0] as i32, *sign, pair[1] as i32));
            }
            // The sign of each against the first of the order, then against variable 0.
            let mut against = vec![1; count];
            for (pair, sign) in order.windows(2).zip(&signs) {
                against[pair[1]] = -sign * against[pair[0]];
            }
            let sign = |x: usize| {
                if against[x] == against[0] {
                    PLUS
                } else {
                    MINUS
                }
            };
            let due: Vec<Group> = (0..count).map(|x| [0, sign(x)]).collect();
            assert_eq!(groups(count, &lines), due, "{order:?} {signs:?}");
        }
    }
}

/// All orders of these variables.
fn orders(of: &[i32]) -> Vec<Vec<i32>> {
    let Some((&first, rest)) = of.split_first() else {
        return vec![Vec::new()];
    };
    let mut all = Vec::new();
    for order in orders(rest) {
        for at in 0..=order.len() {
            all.push([&order[..at], &[first], &order[at..]].concat());
        }
    }
    all
}

/// Some variables are always 0, each for another reason, in every order; the others are
/// not. They join the lowest of them, with plus.
#[test]
fn always_zero() {
    let all: Vec<i32> = (0..FEW as i32).collect();
    let mut seen = 0;
    for order in orders(&all) {
        let [a, b, c, d] = order[..] else {
            unreachable!()
        };
        let reasons = [
            fixed(a, 0),
            fixed_by_halves(b, 0),
            tie(1, c, 1, a),
            // Twice d is at most 0, and at least 0.
            tie(1, d, 1, d),
        ];
        for count in 0..=order.len() {
            let (zero, rest) = order.split_at(count);
            let mut lines = reasons[..count].concat();
            // Of the others the first two mirror each other, at 1 and -1 or further.
            if let [x, y, ..] = *rest {
                lines.extend(tie(1, x, 1, y));
                lines.push(lone(-1, x, -1));
            }
            let due = |x: &i32| match zero.iter().min() {
                Some(&lowest) if zero.contains(x) => [lowest as u32, PLUS],
                _ => match *rest {
                    [y, z, ..] if *x == y.max(z) => [y.min(z) as u32, MINUS],
                    _ => [*x as u32, PLUS],
                },
            };
            let due: Vec<Group> = all.iter().map(due).collect();
            for turned in [false, true] {
                if turned {
                    lines.reverse();
                }
                assert_eq!(groups(FEW, &lines), due, "{lines:?}");
            }
            seen += 1;
        }
    }
    assert_eq!(seen, 24 * (FEW + 1));
}

/// What is equal and mirrored is 0, and what is 0 is both: the sign is plus.
#[test]
fn equal_and_mirrored_is_zero() {
    let (equal, mirrored) = (tie(1, 0, -1, 1), tie(1, 0, 1, 1));
    assert_eq!(groups(2, &equal), [[0, PLUS], [0, PLUS]]);
    assert!(!is_zero(&solved(2, &equal), 0));
    let both = [mirrored, equal].concat();
    assert_eq!(groups(2, &both), [[0, PLUS], [0, PLUS]]);
    assert!(is_zero(&solved(2, &both), 0) && is_zero(&solved(2, &both), 1));
    // A third one that is 0 is tied to them only then.
    let third = [&mirrored[..], &fixed(2, 0)].concat();
    let apart = [[0, PLUS], [0, MINUS], [2, PLUS]];
    assert_eq!(groups(3, &third), apart);
    let mut joined = third.clone();
    joined.extend(equal);
    assert_eq!(groups(3, &joined), [[0, PLUS]; 3]);
    // Where the zero is the lowest, the mirrored ones join it.
    let third = [&tie(1, 1, 1, 2)[..], &fixed_by_halves(0, 0)].concat();
    let apart = [[0, PLUS], [1, PLUS], [1, MINUS]];
    assert_eq!(groups(3, &third), apart);
    for x in [1, 2] {
        let joined = [&third[..], &fixed(x, 0)].concat();
        assert_eq!(groups(3, &joined), [[0, PLUS]; 3]);
    }
    // Between 0 and 1, and its own negative's equal: only 0 is left.
    let own = [lone(1, 0, 1), lone(-1, 0, 0), line(1, 0, 1, 0, 1)];
    assert_eq!(groups(1, &own), [[0, PLUS]]);
    assert!(is_zero(&solved(1, &own), 0));
}

/// How many pairs of variables were tied in each way.
#[derive(Debug, Default)]
struct Seen {
    apart: usize,
    equal: usize,
    mirrored: usize,
    zero: usize,
}

impl Seen {
    /// Two variables share a group's variable exactly if they are always equal or always
    /// mirrored, the signs say which, and the variable is the lowest of those that do.
    fn compare(&mut self, solved: &Solved, ties: &Ties, shown: &str) {
        let n = solved.groups.len();
        for x in 0..n {
            let [lowest, _] = solved.groups[x].map(|number| number as usize);
            assert!(lowest <= x, "{shown}");
            assert_eq!(solved.groups[lowest], [lowest as u32, PLUS], "{shown}");
            for y in 0..n {
                let ([r, s], [q, t]) = (solved.groups[x], solved.groups[y]);
                let (equal, mirrored) = (ties.equal[x][y], ties.mirrored[x][y]);
                let zero = is_zero(solved, x) && is_zero(solved, y);
                assert_eq!(r == q, equal || mirrored, "{x} and {y}\n{shown}");
                assert_eq!(r == q && s == t, equal, "{x} and {y}\n{shown}");
                assert_eq!(r == q && (s != t || zero), mirrored, "{x} and {y}\n{shown}");
                match (equal, mirrored) {
                    _ if x == y => {}
                    (true, true) => self.zero += 1,
                    (true, false) => self.equal += 1,
                    (false, true) => self.mirrored += 1,
                    (false, false) => self.apart += 1,
                }
            }
        }
    }

    /// Fails if pairs tied in some way were seen less often than this.
    fn must_have(&self, each: usize) {
        println!("{self:?}");
        let counts = [self.apart, self.equal, self.mirrored, self.zero];
        assert!(counts.iter().all(|&count| count >= each), "{self:?}");
    }
}

/// A list of many ties.
fn some_list(chance: &mut Chance, n: u64) -> Vec<Line> {
    let values = near_zero(chance, n);
    tied(chance, &values)
}

/// Lists of many ties, with all values tried.
#[test]
fn ties_by_all_values() {
    let mut chance = Chance::new(141);
    let mut seen = Seen::default();
    for round in 0..12_000 {
        let n = if round % 16 == 0 { FEW } else { 2 + round % 2 };
        let lines = some_list(&mut chance, n as u64);
        let shown = format!("n: {n}\nlines: {lines:?}");
        let verdict = decide(&mut chance, n as u64, &lines).verdict;
        assert_eq!(verdict, brute::verdict(n, &lines), "{shown}");
        assert_eq!(verdict, closure::verdict(n, &lines), "{shown}");
        if let Verdict::Yes(solved) = &verdict {
            let ties = brute::ties(n, &lines).unwrap();
            seen.compare(solved, &ties, &shown);
        }
    }
    seen.must_have(2_000);
}

/// Whether no solution of a list lets a·x + b·y be other than 0: with a line that asks
/// for less than 0, and with one that asks for more, the list has none.
fn always_zero_sum(chance: &mut Chance, n: usize, lines: &[Line], terms: [i32; 4]) -> bool {
    let [a, x, b, y] = terms;
    [line(a, x, b, y, -1), line(-a, x, -b, y, -1)]
        .iter()
        .all(|more| {
            let lines = [lines, &[*more]].concat();
            matches!(decide(chance, n as u64, &lines).verdict, Verdict::No(_))
        })
}

/// Longer lists of many ties: what is equal or mirrored is asked of the library, with a
/// line more that says otherwise.
#[test]
fn ties_by_contradiction() {
    let mut chance = Chance::new(142);
    let mut seen = Seen::default();
    for _ in 0..250 {
        let n = chance.between(5, 11) as usize;
        let lines = some_list(&mut chance, n as u64);
        let shown = format!("n: {n}\nlines: {lines:?}");
        let verdict = decide(&mut chance, n as u64, &lines).verdict;
        let Verdict::Yes(solved) = verdict else {
            continue;
        };
        let mut all = |b: i32| -> Vec<Vec<bool>> {
            let row = |x: usize, chance: &mut Chance| {
                let at = |y: usize| always_zero_sum(chance, n, &lines, [1, x as i32, b, y as i32]);
                (0..n).map(at).collect()
            };
            (0..n).map(|x| row(x, &mut chance)).collect()
        };
        let ties = Ties {
            equal: all(-1),
            mirrored: all(1),
        };
        seen.compare(&solved, &ties, &shown);
    }
    seen.must_have(300);
}

/// How many pairs of variables went on with equal signs, with different ones, and from
/// different ones to plus, as both became 0.
#[derive(Debug, Default)]
struct Kept {
    equal: usize,
    different: usize,
    became_zero: usize,
}

impl Kept {
    /// Who shares a variable goes on sharing one when lines are added, with the same
    /// relative sign unless both are always 0 then.
    fn compare(&mut self, one: &Solved, two: &Solved, shown: &str) {
        let n = one.groups.len();
        for (x, y) in (0..n).flat_map(|x| (0..x).map(move |y| (x, y))) {
            let [[r, s], [q, t]] = [one.groups[x], one.groups[y]];
            if r != q {
                continue;
            }
            let [[new_r, new_s], [new_q, new_t]] = [two.groups[x], two.groups[y]];
            assert_eq!(new_r, new_q, "{x} and {y} were tied\n{shown}");
            let zero = is_zero(two, x) && is_zero(two, y);
            if s == t {
                assert_eq!(new_s, new_t, "{x} and {y} were equal\n{shown}");
                self.equal += 1;
            } else if zero {
                assert_eq!([new_s, new_t], [PLUS; 2], "{x} and {y} are 0\n{shown}");
                self.became_zero += 1;
            } else {
                assert_ne!(new_s, new_t, "{x} and {y} were mirrored\n{shown}");
                self.different += 1;
            }
        }
    }
}

/// A list and the same with more lines, of which some tie.
#[test]
fn what_stays_when_lines_are_added() {
    let mut chance = Chance::new(143);
    let mut kept = Kept::default();
    for _ in 0..6_000 {
        let n = chance.between(2, 12) as u64;
        let values = near_zero(&mut chance, n);
        let short = tied(&mut chance, &values);
        let long = [&short[..], &tied(&mut chance, &values)].concat();
        let verdicts = [&short, &long].map(|lines| decide(&mut chance, n, lines).verdict);
        if let [Verdict::Yes(one), Verdict::Yes(two)] = &verdicts {
            let shown = format!("n: {n}\nlines: {short:?}\nlonger: {long:?}");
            kept.compare(one, two, &shown);
        }
    }
    println!("{kept:?}");
    let counts = [kept.equal, kept.different, kept.became_zero];
    assert!(counts.iter().all(|&count| count >= 500), "{kept:?}");
}

/// The groups' buffer is short up to one number less than its room, and then not: two
/// numbers of each variable are written, and none beyond, whatever stood there.
#[test]
fn the_room_of_the_groups() {
    let mut chance = Chance::new(144);
    for n in [1, 2, 3, 9, MOST_N] {
        let lines = identified(&mirrors(n as usize)).concat();
        let full = needed(n);
        for length in 0..=full[GROUPS] + 3 {
            let mut lengths = full;
            lengths[GROUPS] = length;
            // Deciding one of the largest takes long; refusing does not.
            if n == MOST_N && length > full[GROUPS] {
                continue;
            }
            let mut buffers = Buffers::new(&mut chance, lengths);
            let verdict = decide_in(&mut buffers, n, &lines).verdict;
            if length < full[GROUPS] {
                assert_eq!(verdict, Verdict::Refused(7, GROUPS + 1), "{n} {length}");
            } else {
                let Verdict::Yes(solved) = verdict else {
                    panic!("{n} {length}: {verdict:?}");
                };
                assert_eq!(solved.groups, alternating(n as usize));
            }
        }
    }
}
