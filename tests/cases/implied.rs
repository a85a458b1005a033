//! What lists imply, about two variables and of a line more: small lists against a search
//! through all values, larger ones against another method, lists without a solution, and
//! lists of which one begins with the other.

use utvpi_tests::chance::Chance;
use utvpi_tests::decision::{decide, Verdict};
use utvpi_tests::document::CASE_4;
use utvpi_tests::implied::{due, implied, opposite, pair, Implied, Pair, Sums};
use utvpi_tests::limits::{LARGEST_BOUND, LAST_VARIABLE, MOST_N, SMALL_VARIABLES};
use utvpi_tests::lines::{identified, identifier, line, lone, of_message, zero, Line, BOUND};
use utvpi_tests::make::some_line;
use utvpi_tests::make_lists::{near_zero, small, tied, Shape};
use utvpi_tests::{brute, brute_sums, closure};

/// How many answers of each sort were seen.
#[derive(Clone, Copy, Debug, Default)]
struct Seen {
    /// Lists without a solution.
    unsolvable: usize,
    /// Greatest sums that are there, and those that are not.
    present: usize,
    absent: usize,
    implied: usize,
    broken: usize,
}

impl Seen {
    fn sums(&mut self, sums: Sums) {
        let absent = sums.iter().filter(|&&sum| sum == i64::MAX).count();
        self.absent += absent;
        self.present += sums.len() - absent;
    }

    fn line(&mut self, answer: &Implied) {
        match answer {
            Implied::Yes => self.implied += 1,
            Implied::No(_) => self.broken += 1,
            _ => {}
        }
    }

    /// Fails if some sort was seen less often than this.
    fn must_have(&self, each: usize) {
        println!("{self:?}");
        let counts = [
            self.unsolvable,
            self.present,
            self.absent,
            self.implied,
            self.broken,
        ];
        assert!(counts.iter().all(|&count| count >= each), "{self:?}");
    }
}

/// The line a·x + b·y ≤ d over variables of any two numbers.
fn about(a: i32, x: usize, b: i32, y: usize, d: i64) -> Line {
    line(a, x as i32, b, y as i32, d as i32)
}

/// The four lines that have these sums on their left sides.
fn lines_of(sums: Sums, x: usize, y: usize) -> [(Line, i64); 4] {
    let signs = [(1, 1), (1, -1), (-1, 1), (-1, -1)];
    std::array::from_fn(|at| (about(signs[at].0, x, signs[at].1, y, 0), sums[at]))
}

/// Asks about a line, from any message: the answer must be the one that is due by a way to
/// decide lists.
fn ask(
    chance: &mut Chance,
    verdict: fn(usize, &[Line]) -> Verdict,
    n: u64,
    lines: &[Line],
    asked: Line,
) -> Implied {
    let asked = of_message(asked, identifier(chance));
    let answer = implied(chance, n, lines, asked);
    let due = due(verdict, n, lines, asked);
    assert_eq!(answer, due, "n: {n}\nlines: {lines:?}\nasked: {asked:?}");
    answer
}

/// Asks about a sum with its greatest value as the bound, which is implied, and with one
/// less, which is not; where there is none, with the greatest bound that a line may have.
fn ask_at(chance: &mut Chance, n: u64, lines: &[Line], (asked, greatest): (Line, i64)) {
    let bounds = match greatest {
        i64::MAX => vec![LARGEST_BOUND],
        _ => vec![greatest, greatest - 1],
    };
    for bound in bounds {
        if bound.abs() <= LARGEST_BOUND {
            let mut asked = asked;
            asked[BOUND] = bound as i32;
            match implied(chance, n, lines, asked) {
                Implied::Yes => assert_eq!(bound, greatest, "{lines:?}\n{asked:?}"),
                Implied::No(_) => assert_ne!(bound, greatest, "{lines:?}\n{asked:?}"),
                other => panic!("{other:?}\n{lines:?}\n{asked:?}"),
            }
        }
    }
}

/// All pairs of a list, and the lines at their sums, compared with all values tried.
fn by_all_values(chance: &mut Chance, seen: &mut Seen, n: u64, lines: &[Line]) {
    let due = brute_sums::sums(n as usize, lines);
    let distances = closure::distances(n as usize, lines);
    for x in 0..n as usize {
        for y in 0..n as usize {
            let answer = pair(chance, n, lines, x, y);
            let Some(due) = &due else {
                assert_eq!(answer, Pair::Unsolvable, "{lines:?}");
                continue;
            };
            let sums = due[x][y];
            assert_eq!(answer, Pair::Sums(sums), "x {x}, y {y}, {lines:?}");
            // The two ways to know better must agree as well.
            assert_eq!(distances.as_ref().unwrap().sums(x, y), sums, "{lines:?}");
            seen.sums(sums);
            for at in lines_of(sums, x, y) {
                ask_at(chance, n, lines, at);
            }
        }
    }
    seen.unsolvable += usize::from(due.is_none());
}

/// Small lists, with all values tried: all pairs, and some lines.
#[test]
fn small_lists_by_all_values() {
    let mut chance = Chance::new(160);
    let mut seen = Seen::default();
    for _ in 0..600 {
        let (n, lines) = small(&mut chance);
        by_all_values(&mut chance, &mut seen, n, &lines);
        for _ in 0..4 {
            let mut asked = some_line(&mut chance, n);
            asked[BOUND] = chance.between(-4, 4) as i32;
            let answer = ask(&mut chance, brute::verdict, n, &lines, asked);
            seen.line(&answer);
        }
    }
    seen.must_have(100);
}

/// Every list of two lines over one variable or two, of bounds within ±1: all pairs, and
/// lines at their sums; and of all lists of one line every line that can be asked about.
#[test]
fn all_lists_of_two_lines() {
    let mut chance = Chance::new(161);
    let mut seen = Seen::default();
    for n in 1..=2 {
        let mut terms = vec![[0, 0]];
        terms.extend((0..n).flat_map(|x| [[-1, x], [1, x]]));
        let mut all: Vec<Line> = Vec::new();
        for one in &terms {
            for two in terms.iter().filter(|two| one[0] != 0 || two[0] == 0) {
                all.extend((-1..=1).map(|d| line(one[0], one[1], two[0], two[1], d)));
            }
        }
        for (place, &first) in all.iter().enumerate() {
            for &second in &all[place..] {
                by_all_values(&mut chance, &mut seen, n as u64, &[first, second]);
            }
            for &asked in &all {
                let answer = ask(&mut chance, brute::verdict, n as u64, &[first], asked);
                seen.line(&answer);
            }
        }
    }
    seen.must_have(400);
}

/// Pairs of a larger list, and lines at their sums and others, compared with another
/// method.
fn by_closure(chance: &mut Chance, seen: &mut Seen, lines: &[Line], n: u64) {
    let distances = closure::distances(n as usize, lines);
    seen.unsolvable += usize::from(distances.is_none());
    for _ in 0..8 {
        let [x, y] = [(); 2].map(|()| chance.below(n as usize));
        let answer = pair(chance, n, lines, x, y);
        let Some(distances) = &distances else {
            assert_eq!(answer, Pair::Unsolvable);
            continue;
        };
        let sums = distances.sums(x, y);
        assert_eq!(answer, Pair::Sums(sums), "x {x}, y {y}, {lines:?}");
        seen.sums(sums);
        let at = chance.pick(&lines_of(sums, x, y));
        ask_at(chance, n, lines, at);
    }
    for _ in 0..2 {
        let asked = some_line(chance, n);
        let answer = ask(chance, closure::verdict, n, lines, asked);
        seen.line(&answer);
        within_limits(chance, n, lines, asked, &answer);
    }
}

/// Where the list with the opposite line is within the limits, deciding it says the same,
/// with the same model.
fn within_limits(chance: &mut Chance, n: u64, lines: &[Line], asked: Line, answer: &Implied) {
    let opposite = opposite(asked);
    if i64::from(opposite[BOUND]).abs() > LARGEST_BOUND || *answer == Implied::Unsolvable {
        return;
    }
    let longer = [lines, &[opposite]].concat();
    match decide(chance, n, &longer).verdict {
        Verdict::Yes(solved) => assert_eq!(*answer, Implied::No(solved.model)),
        _ => assert_eq!(*answer, Implied::Yes),
    }
}

#[test]
fn larger_lists() {
    let mut chance = Chance::new(162);
    let mut seen = Seen::default();
    for _ in 0..120 {
        let n = chance.pick(&[3, 5, 8, 13, 20, SMALL_VARIABLES as u64 / 2]);
        let lines = Shape::of(&mut chance, n).list(&mut chance);
        by_closure(&mut chance, &mut seen, &lines, n);
    }
    for _ in 0..60 {
        let n = chance.between(1, 9) as u64;
        let values = near_zero(&mut chance, n);
        let lines = tied(&mut chance, &values);
        by_closure(&mut chance, &mut seen, &lines, n);
    }
    seen.must_have(20);
}

/// The same variable twice: a difference of 0, and twice the greatest value and the least
/// with its sign turned.
#[test]
fn the_same_variable_twice() {
    let mut chance = Chance::new(163);
    let mut both = [0, 0];
    for _ in 0..300 {
        let (n, lines) = small(&mut chance);
        let Verdict::Yes(solved) = decide(&mut chance, n, &lines).verdict else {
            continue;
        };
        for x in 0..n as usize {
            let (least, greatest) = (solved.bounds[2 * x], solved.bounds[2 * x + 1]);
            let high = greatest.checked_mul(2).unwrap_or(i64::MAX);
            let low = least.checked_mul(-2).unwrap_or(i64::MAX);
            let due = Pair::Sums([high, 0, 0, low]);
            assert_eq!(pair(&mut chance, n, &lines, x, x), due, "{lines:?}");
            both[usize::from(greatest == i64::MAX)] += 1;
        }
    }
    assert!(both.iter().all(|&count| count > 50), "{both:?}");
}

/// Sums that are far apart: a chain through the most variables, each a million above the
/// one before it, with the first at 1,000,000 at least.
#[test]
fn large_sums() {
    let mut chance = Chance::new(164);
    let (million, last) = (LARGEST_BOUND as i32, LAST_VARIABLE);
    let mut lines = vec![lone(-1, 0, -million)];
    lines.extend((1..=last).map(|x| line(1, x - 1, -1, x, -million)));
    let lines = identified(&lines);
    let far = i64::from(last) * LARGEST_BOUND;
    let none = i64::MAX;
    let ends = [0, last as usize];
    let sums = [none, -far, none, -far - 2 * LARGEST_BOUND];
    assert_eq!(
        pair(&mut chance, MOST_N, &lines, ends[0], ends[1]),
        Pair::Sums(sums)
    );
    let sums = [none, none, -far, -far - 2 * LARGEST_BOUND];
    assert_eq!(
        pair(&mut chance, MOST_N, &lines, ends[1], ends[0]),
        Pair::Sums(sums)
    );
    let sums = [none, 0, 0, -2 * (far + LARGEST_BOUND)];
    assert_eq!(
        pair(&mut chance, MOST_N, &lines, ends[1], ends[1]),
        Pair::Sums(sums)
    );
}

/// Lists without a solution, for each of the three reasons: nothing is said of them, not
/// even of a false line, and no model is written.
#[test]
fn without_a_solution() {
    let mut chance = Chance::new(165);
    let closed_walk = [line(1, 0, -1, 1, 3), line(-1, 0, 1, 1, -4)];
    let lists = [
        vec![zero(-1)],
        vec![lone(1, 0, 3), zero(0), zero(-1_000)],
        closed_walk.to_vec(),
        CASE_4.to_vec(),
        vec![lone(1, 0, 3), lone(-1, 0, -4)],
    ];
    for lines in lists.map(|lines| identified(&lines)) {
        for x in 0..3 {
            for y in 0..3 {
                assert_eq!(pair(&mut chance, 3, &lines, x, y), Pair::Unsolvable);
            }
        }
        let others = [zero(0), zero(-1), lone(1, 2, 7), line(1, 0, 1, 1, -7)];
        for asked in others.into_iter().chain(lines.clone()) {
            assert_eq!(implied(&mut chance, 3, &lines, asked), Implied::Unsolvable);
        }
    }
    assert_eq!(
        implied(&mut chance, 0, &[zero(-1)], zero(0)),
        Implied::Unsolvable
    );
}

/// A zero, zero line is implied exactly if it is not false: without variables too.
#[test]
fn zero_lines() {
    let mut chance = Chance::new(166);
    let largest = LARGEST_BOUND as i32;
    for n in [0, 1, 3, MOST_N] {
        for d in [-largest, -2, -1, 0, 1, largest] {
            let due = match d {
                0.. => Implied::Yes,
                _ => Implied::No(vec![0; n as usize]),
            };
            assert_eq!(implied(&mut chance, n, &[], zero(d)), due, "n {n}, d {d}");
        }
    }
}

/// The models that break lines of one variable and two, worked out by hand.
#[test]
fn models_by_hand() {
    let mut chance = Chance::new(167);
    let lines = identified(&[lone(-1, 1, -5), line(1, 0, -1, 1, -2)]);
    let no = |model: [i64; 2]| Implied::No(model.to_vec());
    for (asked, due) in [
        (lone(-1, 1, -5), Implied::Yes),
        (lone(-1, 1, -6), no([0, 5])),
        (lone(1, 1, 5), no([0, 6])),
        (lone(-1, 0, 3), no([-4, 5])),
        (line(1, 0, -1, 1, -2), Implied::Yes),
        (line(1, 0, -1, 1, -3), no([3, 5])),
        (line(1, 1, 1, 1, 11), no([0, 6])),
        (line(-1, 1, -1, 1, -9), Implied::Yes),
        (line(1, 1, -1, 1, 0), Implied::Yes),
        (line(1, 1, -1, 1, -1), no([0, 5])),
    ] {
        assert_eq!(implied(&mut chance, 2, &lines, asked), due, "{asked:?}");
    }
}

/// Along added lines each number stays or falls, and what was implied stays implied, as
/// long as there is a solution; then there is none any more.
#[test]
fn along_added_lines() {
    let mut chance = Chance::new(168);
    let (mut falls, mut implied_later, mut ends) = (0, 0, 0);
    for _ in 0..60 {
        let n = chance.between(2, 6) as u64;
        let shape = Shape {
            n,
            count: 12,
            largest: chance.pick(&[2, 20, LARGEST_BOUND]),
        };
        let lines = shape.list(&mut chance);
        let [x, y] = [(); 2].map(|()| chance.below(n as usize));
        let asked = some_line(&mut chance, n);
        let (mut sums, mut holds, mut over) = ([i64::MAX; 4], false, false);
        for count in 0..=lines.len() {
            let answer = implied(&mut chance, n, &lines[..count], asked);
            match pair(&mut chance, n, &lines[..count], x, y) {
                Pair::Sums(now) => {
                    assert!(!over, "{lines:?}");
                    let fell = now.iter().zip(&sums).any(|(now, before)| now < before);
                    assert!(now.iter().zip(&sums).all(|(now, before)| now <= before));
                    falls += usize::from(fell);
                    sums = now;
                }
                answer => {
                    assert_eq!(answer, Pair::Unsolvable);
                    over = true;
                }
            }
            assert_eq!(answer == Implied::Unsolvable, over, "{lines:?}");
            assert!(over || !holds || answer == Implied::Yes, "{lines:?}");
            implied_later += usize::from(!holds && answer == Implied::Yes && count > 0);
            holds |= answer == Implied::Yes;
        }
        ends += usize::from(over);
    }
    println!("{falls} falls, {implied_later} implied later, {ends} without a solution");
    assert!(falls > 40 && implied_later > 5 && ends > 5);
}

/// Lines of the list itself are implied, each with a higher bound, too, and with its
/// terms in the other order; and no sum of its variables passes its bound.
#[test]
fn own_lines() {
    let mut chance = Chance::new(169);
    let mut asked_for = 0;
    for _ in 0..80 {
        let n = chance.between(1, 12) as u64;
        let lines = Shape::of(&mut chance, n).met(&mut chance, 1);
        for &own in lines.iter().take(6) {
            let mut higher = own;
            higher[BOUND] = (own[BOUND] + chance.between(0, 3) as i32).min(LARGEST_BOUND as i32);
            assert_eq!(implied(&mut chance, n, &lines, higher), Implied::Yes);
            if own[2] != 0 {
                let [a, x, b, y, d, ..] = own;
                let turned = line(b, y, a, x, d);
                assert_eq!(implied(&mut chance, n, &lines, turned), Implied::Yes);
                let answer = pair(&mut chance, n, &lines, x as usize, y as usize);
                let Pair::Sums(sums) = answer else {
                    panic!("values meet the list");
                };
                let at = 2 * usize::from(own[0] < 0) + usize::from(own[2] < 0);
                assert!(sums[at] <= i64::from(own[BOUND]), "{own:?}");
            }
            asked_for += 1;
        }
    }
    assert!(asked_for > 300);
}
