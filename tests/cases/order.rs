//! Lines in another order: the same verdict, on a yes the same model, bounds and groups,
//! on a no the same kind, from every call that decides, both engines and the calls on trees
//! among them. And how large the numbers get that
//! deciding and the questions write: within the sizes that are proved, which chains reach.

use utvpi_tests::chance::Chance;
use utvpi_tests::decision::{decide, Reason, Solved, Verdict};
use utvpi_tests::differences;
use utvpi_tests::implied::{implied, pair, Implied, Pair};
use utvpi_tests::limits::{LARGEST_BOUND, LAST_VARIABLE, MOST_N, SMALL_VARIABLES};
use utvpi_tests::lines::{identified, line, lone, Line};
use utvpi_tests::make_lists::{small, Shape};
use utvpi_tests::make_trees::{self, list_to_pick_from};
use utvpi_tests::session_calls;
use utvpi_tests::sessions::FRONT;
use utvpi_tests::tree_calls::{Asked, First};
use utvpi_tests::trees::Tree;

/// The lines in another order.
fn rearranged(chance: &mut Chance, lines: &[Line]) -> Vec<Line> {
    let order = chance.order(lines.len());
    order.iter().map(|&at| lines[at]).collect()
}

/// A verdict but for the number of a false line, which goes with the order.
fn apart_from_order(verdict: Verdict) -> Verdict {
    match verdict {
        Verdict::No(Reason::FalseLine(_)) => Verdict::No(Reason::FalseLine(0)),
        other => other,
    }
}

/// A list of few variables, or of some more.
fn some_list(chance: &mut Chance, at: usize) -> (u64, Vec<Line>) {
    if at % 8 > 0 {
        return small(chance);
    }
    let n = 1 + chance.below(SMALL_VARIABLES) as u64;
    (n, Shape::of(chance, n).list(chance))
}

/// How many answers of each sort were seen.
#[derive(Debug, Default)]
struct Seen {
    yes: usize,
    false_line: usize,
    closed_walk: usize,
    halved_walks: usize,
}

impl Seen {
    fn count(&mut self, verdict: &Verdict) {
        match verdict {
            Verdict::Yes(_) => self.yes += 1,
            Verdict::No(Reason::FalseLine(_)) => self.false_line += 1,
            Verdict::No(Reason::ClosedWalk) => self.closed_walk += 1,
            Verdict::No(Reason::HalvedWalks) => self.halved_walks += 1,
            Verdict::Refused(number, place) => panic!("refused: {number} at {place}"),
        }
    }

    /// Fails if some sort was seen less often than this.
    fn must_have(&self, each: usize) {
        let Seen {
            yes,
            false_line,
            closed_walk,
            halved_walks,
        } = self;
        let counts = [yes, false_line, closed_walk, halved_walks];
        assert!(counts.into_iter().all(|&count| count >= each), "{self:?}");
    }
}

/// Deciding.
#[test]
fn deciding() {
    let mut chance = Chance::new(140);
    let mut seen = Seen::default();
    for at in 0..4_000 {
        let (n, lines) = some_list(&mut chance, at);
        let verdict = decide(&mut chance, n, &lines).verdict;
        seen.count(&verdict);
        let due = apart_from_order(verdict);
        for _ in 0..3 {
            let other = rearranged(&mut chance, &lines);
            let found = apart_from_order(decide(&mut chance, n, &other).verdict);
            assert_eq!(found, due, "n: {n}\n{lines:?}\n{other:?}");
        }
    }
    seen.must_have(60);
}

/// Deciding differences, by the engine for them.
#[test]
fn deciding_differences() {
    let mut chance = Chance::new(145);
    let (mut yes, mut no) = (0, 0);
    for at in 0..3_000 {
        let n = match at % 8 {
            0 => 1 + chance.below(SMALL_VARIABLES),
            _ => chance.below(6),
        };
        let lines = differences::Shape::of(&mut chance, n).list(&mut chance);
        let due = differences::decide(&mut chance, n as u64, &lines).verdict;
        yes += usize::from(matches!(due, Verdict::Yes(_)));
        no += usize::from(due == Verdict::No(Reason::ClosedWalk));
        for _ in 0..3 {
            let other = rearranged(&mut chance, &lines);
            let found = differences::decide(&mut chance, n as u64, &other).verdict;
            assert_eq!(found, due, "n: {n}\n{lines:?}\n{other:?}");
        }
    }
    assert!(yes >= 500 && no >= 500, "{yes} {no}");
}

/// The answers to a tree over lines: the first choice with its model, and each choice
/// decided.
fn answers(chance: &mut Chance, n: u64, lines: &[Line], tree: &Tree) -> (First, Vec<Verdict>) {
    let numbers = tree.numbers();
    let asked = Asked {
        n,
        list: lines.as_flattened(),
        tree: &numbers,
    };
    let choices = 0..asked.choices().unwrap().len();
    let decided = choices.map(|choice| asked.decide(chance, choice).verdict);
    let verdicts = decided.map(apart_from_order).collect();
    (asked.first(chance), verdicts)
}

/// Both calls on trees: the tree has the lines' new numbers, so that its choices pick the
/// same lines.
#[test]
fn trees() {
    let mut chance = Chance::new(146);
    let mut seen = Seen::default();
    let (mut at_once, mut later, mut never) = (0, 0, 0);
    for round in 0..800 {
        let n = chance.pick(&[2, 3, 5, 8, 13]);
        let (lines, own) = list_to_pick_from(&mut chance, n, round % 2 == 1);
        let shape = make_trees::Shape::of(&mut chance, lines.len());
        let tree = shape.full_tree(&mut chance, own, 40);
        let due = answers(&mut chance, n, &lines, &tree);
        due.1.iter().for_each(|verdict| seen.count(verdict));
        match due.0 {
            First::Yes(0, _) => at_once += 1,
            First::Yes(..) => later += 1,
            First::No => never += 1,
            First::Refused(number, place) => panic!("refused: {number} at {place}"),
        }
        for _ in 0..2 {
            let order = chance.order(lines.len());
            let other: Vec<Line> = order.iter().map(|&at| lines[at]).collect();
            let mut places = vec![0; lines.len()];
            for (place, &line) in order.iter().enumerate() {
                places[line] = place;
            }
            let renamed = tree.renamed(&places);
            let found = answers(&mut chance, n, &other, &renamed);
            assert_eq!(found, due, "n: {n}\n{lines:?}\n{tree:?}\n{other:?}");
        }
    }
    let counts = [at_once, later, never];
    println!("{seen:?} {counts:?}");
    seen.must_have(30);
    assert!(counts.iter().all(|&count| count >= 20), "{counts:?}");
}

/// Both questions: the pair of any two variables, and lines of the list itself, their
/// opposites and others.
#[test]
fn what_a_list_implies() {
    let mut chance = Chance::new(141);
    let (mut yes, mut no, mut unsolvable) = (0, 0, 0);
    for at in 0..1_500 {
        let (n, lines) = some_list(&mut chance, at);
        let other = rearranged(&mut chance, &lines);
        let shown = format!("n: {n}\n{lines:?}\n{other:?}");
        if n > 0 {
            let [x, y] = [chance.below(n as usize), chance.below(n as usize)];
            let found = pair(&mut chance, n, &other, x, y);
            assert_eq!(found, pair(&mut chance, n, &lines, x, y), "{x} {y} {shown}");
        }
        let (_, others) = small(&mut chance);
        for asked in lines.iter().chain(&others).take(4) {
            if asked[1].max(asked[3]) >= n as i32 {
                continue;
            }
            let found = implied(&mut chance, n, &other, *asked);
            match &found {
                Implied::Yes => yes += 1,
                Implied::No(_) => no += 1,
                Implied::Unsolvable => unsolvable += 1,
                Implied::Refused(number, place) => panic!("refused: {number} at {place}"),
            }
            let due = implied(&mut chance, n, &lines, *asked);
            assert_eq!(found, due, "{asked:?} {shown}");
        }
    }
    assert!(yes >= 100 && no >= 100 && unsolvable >= 100);
}

/// Sessions: lines added in another order. A session ends with a no, so that only lists
/// of which a no comes with the last line in both orders are compared to the end. After a yes
/// the table of the state is the same.
#[test]
fn sessions() {
    let mut chance = Chance::new(142);
    let (mut yes, mut no) = (0, 0);
    for at in 0..600 {
        let (n, lines) = some_list(&mut chance, at);
        if lines.is_empty() || lines.len() > 40 {
            continue;
        }
        let orders = [lines.clone(), rearranged(&mut chance, &lines)];
        let ends = orders.map(|lines| last_answer(&mut chance, n, &lines));
        if let [Some((one, table)), Some((other, same))] = ends {
            let is_yes = matches!(one, Verdict::Yes(_));
            yes += usize::from(is_yes);
            no += usize::from(matches!(one, Verdict::No(_)));
            assert_eq!(apart_from_order(one), apart_from_order(other), "{lines:?}");
            assert!(!is_yes || table == same, "{lines:?}");
        }
    }
    assert!(yes >= 100 && no >= 10, "{yes} {no}");
}

/// The answer to the last line, and the table then; none where a line before it was answered
/// with a no.
fn last_answer(chance: &mut Chance, n: u64, lines: &[Line]) -> Option<(Verdict, Vec<i64>)> {
    let mut session = session_calls::Pair::start(chance, n);
    for (at, &line) in lines.iter().enumerate() {
        let verdict = session.add(chance, line);
        if at + 1 == lines.len() {
            let table = FRONT..session.second.room();
            return Some((verdict, session.numbers()[table].to_vec()));
        }
        if let Verdict::No(_) = verdict {
            return None;
        }
    }
    None
}

/// Each variable as far above the one before as a bound says, the first that far above 0.
fn chain() -> Vec<Line> {
    let most = LARGEST_BOUND as i32;
    let mut lines = vec![lone(-1, 0, -most)];
    lines.extend((1..=LAST_VARIABLE).map(|x| line(1, x - 1, -1, x, -most)));
    identified(&lines)
}

/// The sizes that are reached: of a chain of all variables, turned round too.
#[test]
fn the_sizes_are_reached() {
    let mut chance = Chance::new(143);
    let farthest = MOST_N as i64 * LARGEST_BOUND;
    let last = LAST_VARIABLE as usize;
    for sign in [1, -1] {
        let turned = |mut line: Line| {
            line[0] *= sign;
            line[2] *= sign;
            line
        };
        let lines: Vec<Line> = chain().into_iter().map(turned).collect();
        let Verdict::Yes(Solved { model, bounds, .. }) =
            decide(&mut chance, MOST_N, &lines).verdict
        else {
            panic!("a chain is a yes");
        };
        let farthest = farthest * i64::from(sign);
        assert_eq!(model[last], farthest);
        assert!(bounds[2 * last..].contains(&farthest));
        let Pair::Sums(sums) = pair(&mut chance, MOST_N, &lines, last, last) else {
            panic!("a chain has solutions");
        };
        assert!(sums.contains(&(-2 * farthest.abs())), "{sums:?}");
    }
    // With no lines, the line that says most is broken by one more.
    let asked = lone(1, 0, LARGEST_BOUND as i32);
    let broken = implied(&mut chance, 1, &[], asked);
    assert_eq!(broken, Implied::No(vec![LARGEST_BOUND + 1]));
}

/// And none is passed: lists of the largest bounds.
#[test]
fn no_size_is_passed() {
    let mut chance = Chance::new(144);
    let mut far = 0;
    for _ in 0..2_000 {
        let n = 1 + chance.below(6) as u64;
        let count = chance.below(3 * n as usize + 2);
        let lines: Vec<Line> = (0..count).map(|_| extreme(&mut chance, n)).collect();
        let most = n as i64 * LARGEST_BOUND;
        if let Verdict::Yes(solved) = decide(&mut chance, n, &lines).verdict {
            far += usize::from(solved.model.iter().any(|value| value.abs() > LARGEST_BOUND));
            let there = |bound: &&i64| ![i64::MIN, i64::MAX].contains(*bound);
            let bounds = solved.bounds.iter().filter(there);
            let small = solved.model.iter().chain(bounds).all(|z| z.abs() <= most);
            assert!(small, "{solved:?}\n{lines:?}");
        }
        let [x, y] = [chance.below(n as usize), chance.below(n as usize)];
        if let Pair::Sums(sums) = pair(&mut chance, n, &lines, x, y) {
            let small = |&sum: &i64| sum == i64::MAX || sum.abs() <= 2 * most;
            assert!(sums.iter().all(small), "{sums:?}\n{lines:?}");
        }
        let asked = extreme(&mut chance, n);
        if let Implied::No(model) = implied(&mut chance, n, &lines, asked) {
            let most = n as i64 * (LARGEST_BOUND + 1);
            assert!(
                model.iter().all(|z| z.abs() <= most),
                "{model:?}\n{lines:?}"
            );
        }
    }
    assert!(far >= 100, "{far}");
}

/// A line whose bound is at a limit, most often the lower one, or near 0.
fn extreme(chance: &mut Chance, n: u64) -> Line {
    let most = LARGEST_BOUND as i32;
    let bound = chance.pick(&[-most, -most, -most, most, most, 0, -1, 1 - most]);
    let mut term = || [chance.pick(&[-1, 1]), chance.below(n as usize) as i32];
    let [one, two] = [term(), term()];
    if chance.one_in(3) {
        return lone(one[0], one[1], bound);
    }
    line(one[0], one[1], two[0], two[1], bound)
}
