//! Conditions with alternatives: every choice of trees over small lists against a search
//! through all values, and the tree against its formula; larger ones against another method;
//! lines picked twice, empty nodes, the most choices; and choices that pick more lines.

use utvpi_tests::chance::Chance;
use utvpi_tests::decision::{decide, own_groups, Decision, Reason, Solved, Verdict};
use utvpi_tests::document::largest;
use utvpi_tests::limits::{LARGEST_BOUND, MOST_CHOICES, MOST_DEPTH, MOST_LINES, MOST_N};
use utvpi_tests::lines::{identified, line, lone, of_message, zero, Line, BOUND};
use utvpi_tests::make::left_side;
use utvpi_tests::make_lists::{near_zero, small, tied};
use utvpi_tests::make_trees::{list_to_pick_from, Shape};
use utvpi_tests::tree_calls::{lines_of, Asked, First};
use utvpi_tests::trees::{all_lines, any_line, deepest, Picked, Tree};
use utvpi_tests::{brute, closure, make_lists};

/// A way to decide lists.
type Way = fn(usize, &[Line]) -> Verdict;

/// How often each sort of answer was seen.
#[derive(Clone, Copy, Debug, Default)]
struct Seen {
    trees: usize,
    /// Choices that can be met, and those that can't, by the kind of their refutation.
    yes: usize,
    no: [usize; 3],
    /// Trees whose first choice that can be met is the first, a later one, or none.
    at_once: usize,
    later: usize,
    never: usize,
}

impl Seen {
    fn choice(&mut self, verdict: &Verdict) {
        match verdict {
            Verdict::Yes(_) => self.yes += 1,
            Verdict::No(Reason::ClosedWalk) => self.no[0] += 1,
            Verdict::No(Reason::HalvedWalks) => self.no[1] += 1,
            Verdict::No(Reason::FalseLine(_)) => self.no[2] += 1,
            Verdict::Refused(..) => panic!("{verdict:?}"),
        }
    }

    fn first(&mut self, first: &First) {
        self.trees += 1;
        match first {
            First::Yes(0, _) => self.at_once += 1,
            First::Yes(..) => self.later += 1,
            First::No => self.never += 1,
            First::Refused(..) => panic!("{first:?}"),
        }
    }

    /// Fails if some sort was seen less often than this.
    fn must_have(&self, each: usize) {
        println!("{self:?}");
        let [closed, halved, with_false] = self.no;
        let counts = [closed, halved, with_false, self.yes];
        let firsts = [self.at_once, self.later, self.never];
        let all = [&counts[..], &firsts].concat();
        assert!(all.iter().all(|&count| count >= each), "{self:?}");
    }
}

/// What is due to a choice by a way to decide lists, which is given the lines picked alone.
/// A false line has its own number.
fn due(way: Way, n: u64, lines: &[Line], picked: &Picked) -> Verdict {
    match way(n as usize, &lines_of(lines, picked)) {
        Verdict::No(Reason::FalseLine(at)) => {
            Verdict::No(Reason::FalseLine(*picked.iter().nth(at).unwrap()))
        }
        verdict => verdict,
    }
}

/// Decides all choices of a tree, each as is due by a way to decide lists; and the first
/// that can be met must be the one found, with its model. There is no choice behind the
/// last.
fn all_choices(
    chance: &mut Chance,
    seen: &mut Seen,
    way: Way,
    (n, lines): (u64, &[Line]),
    tree: &Tree,
) -> Vec<Decision> {
    let numbers = tree.numbers();
    let asked = Asked {
        n,
        list: lines.as_flattened(),
        tree: &numbers,
    };
    let choices = asked.choices().unwrap();
    let mut decisions = Vec::new();
    for (choice, picked) in choices.iter().enumerate() {
        let decision = asked.decide(chance, choice);
        let due = due(way, n, lines, picked);
        assert_eq!(decision.verdict, due, "choice {choice}, {asked:?}");
        seen.choice(&decision.verdict);
        decisions.push(decision);
    }
    let model = |decision: &Decision| match &decision.verdict {
        Verdict::Yes(solved) => Some(solved.model.clone()),
        _ => None,
    };
    let mut models = decisions.iter().map(model).enumerate();
    let due = models.find_map(|(choice, model)| Some(First::Yes(choice, model?)));
    let first = asked.first(chance);
    assert_eq!(first, due.unwrap_or(First::No), "{asked:?}");
    seen.first(&first);
    let behind = asked.decide(chance, choices.len()).verdict;
    assert_eq!(behind, Verdict::Refused(43, 0), "{asked:?}");
    decisions
}

/// Whether some values meet the condition, found by trying all within n·D, where D is at
/// least 1 and at least every |d|: where lines that are picked can be met, values within
/// that meet them.
fn can_hold(n: usize, lines: &[Line], tree: &Tree) -> bool {
    let bounds = lines.iter().map(|line| i64::from(line[BOUND]).abs());
    let reach = n as i64 * bounds.max().unwrap_or(1).max(1);
    let width = 2 * reach + 1;
    (0..width.pow(n as u32)).any(|number| {
        let mut rest = number;
        let values: Vec<i64> = (0..n)
            .map(|_| {
                let value = rest % width - reach;
                rest /= width;
                value
            })
            .collect();
        let met = |line: &Line| left_side(line, &values) <= i64::from(line[BOUND]);
        let met: Vec<bool> = lines.iter().map(met).collect();
        tree.holds(&met)
    })
}

/// Small lists and trees over them, with all values tried.
#[test]
fn small_trees_by_all_values() {
    let mut chance = Chance::new(200);
    let mut seen = Seen::default();
    for _ in 0..1_500 {
        let (n, lines) = small(&mut chance);
        let (count, shape) = (lines.len(), Shape::of(&mut chance, lines.len()));
        let tree = shape.full_tree(&mut chance, count, 24);
        let list = (n, &lines[..]);
        let decisions = all_choices(&mut chance, &mut seen, brute::verdict, list, &tree);
        let some = decisions
            .iter()
            .any(|decision| matches!(decision.verdict, Verdict::Yes(_)));
        assert_eq!(some, can_hold(n as usize, &lines, &tree), "{tree:?}");
    }
    seen.must_have(10);
}

/// The same with lists of few lines that clash in pairs, so that choices differ.
#[test]
fn clashing_pairs_by_all_values() {
    let mut chance = Chance::new(201);
    let mut seen = Seen::default();
    for _ in 0..800 {
        let n = chance.pick(&[1, 2, 2]);
        let mut lines: Vec<Line> = Vec::new();
        for _ in 0..4 {
            let mut term = || [chance.pick(&[-1, 1]), chance.below(n) as i32];
            let ([a, x], [b, y]) = (term(), term());
            lines.push(lone(a, x, -1));
            lines.push(line(a, x, b, y, -1));
            lines.push(line(b, y, b, y, chance.pick(&[-1, 1, 1])));
        }
        lines.push(zero(-1));
        let lines = identified(&lines);
        let shape = Shape {
            lines: lines.len(),
            depth: chance.pick(&[3, 4, 5]),
            children: 4,
        };
        let tree = shape.tree(&mut chance);
        let counts = tree.counts();
        if counts.iter().all(|&count| count <= 40) {
            let list = (n as u64, &lines[..]);
            all_choices(&mut chance, &mut seen, brute::verdict, list, &tree);
        }
    }
    seen.must_have(20);
}

/// Larger lists, compared with another method and with deciding the lines picked by
/// themselves.
#[test]
fn larger_trees() {
    let mut chance = Chance::new(202);
    let mut seen = Seen::default();
    for round in 0..400 {
        let n = chance.pick(&[2, 3, 5, 8, 13]);
        let (lines, own) = list_to_pick_from(&mut chance, n, round % 2 == 1);
        let shape = Shape::of(&mut chance, lines.len());
        let tree = shape.full_tree(&mut chance, own, MOST_CHOICES);
        let list = (n, &lines[..]);
        let decisions = all_choices(&mut chance, &mut seen, closure::verdict, list, &tree);
        for (choice, picked) in tree.choices().iter().enumerate().take(3) {
            let alone = decide(&mut chance, n, &lines_of(&lines, picked)).verdict;
            match (&decisions[choice].verdict, alone) {
                (Verdict::Yes(solved), Verdict::Yes(alone)) => assert_eq!(*solved, alone),
                (Verdict::No(_), Verdict::No(_)) => {}
                verdicts => panic!("{verdicts:?}"),
            }
        }
    }
    seen.must_have(15);
}

/// The answers to all choices of a tree over a list, which another method shares.
fn verdicts(n: u64, lines: &[Line], tree: &Tree) -> Vec<Verdict> {
    let mut chance = Chance::new(203);
    let mut seen = Seen::default();
    let list = (n, lines);
    all_choices(&mut chance, &mut seen, closure::verdict, list, tree)
        .into_iter()
        .map(|decision| decision.verdict)
        .collect()
}

/// The values of one variable, given by its least and its greatest.
fn between(least: i64, greatest: i64) -> Verdict {
    let nearest = 0.clamp(least, greatest);
    Verdict::Yes(Solved {
        model: vec![nearest],
        bounds: vec![least, greatest],
        groups: own_groups(1),
    })
}

/// The order of choices, by hand: x is between the bounds that a choice picks. Lines 0 and 1
/// are lower bounds, 2 to 4 upper ones; the last child changes fastest.
#[test]
fn the_order_of_choices() {
    let lines = identified(&[
        lone(-1, 0, -10),
        lone(-1, 0, -20),
        lone(1, 0, 30),
        lone(1, 0, 40),
        lone(1, 0, 50),
    ]);
    let tree = Tree::AllOf(vec![any_line(&[0, 1]), any_line(&[2, 3, 4])]);
    let due = [(10, 30), (10, 40), (10, 50), (20, 30), (20, 40), (20, 50)];
    assert_eq!(
        verdicts(1, &lines, &tree),
        due.map(|(least, greatest)| between(least, greatest))
    );
    // The any-of in the first branch goes through its own before the next branch comes.
    let inner = Tree::AllOf(vec![any_line(&[4, 3]), Tree::Line(1)]);
    let tree = Tree::AllOf(vec![Tree::AnyOf(vec![inner, Tree::Line(2)]), Tree::Line(0)]);
    let due = [(20, 50), (20, 40), (10, 30)];
    assert_eq!(
        verdicts(1, &lines, &tree),
        due.map(|(least, greatest)| between(least, greatest))
    );
}

/// The example of the header: line 0, and line 1 or both line 2 and line 3.
#[test]
fn the_numbers_of_a_tree() {
    let inner = Tree::AnyOf(vec![Tree::Line(1), all_lines(&[2, 3])]);
    let tree = Tree::AllOf(vec![Tree::Line(0), inner]);
    assert_eq!(tree.numbers(), [1, 2, 3, 0, 2, 2, 3, 1, 1, 2, 3, 2, 3, 3]);
    let picked = [vec![0, 1], vec![0, 2, 3]].map(Picked::from_iter);
    assert_eq!(tree.choices(), picked);
}

/// Nodes without children: an all-of of nothing holds, and an any-of of nothing does not,
/// nor what it stands in.
#[test]
fn empty_nodes() {
    let lines = identified(&[lone(1, 0, -5), lone(-1, 0, -5)]);
    let anything = between(i64::MIN, i64::MAX);
    let low = between(i64::MIN, -5);
    let [all, any] = [Tree::AllOf, Tree::AnyOf];
    let nothing = || all(vec![]);
    let never = || any(vec![]);
    let line = || Tree::Line(0);
    for (tree, due) in [
        (nothing(), vec![anything.clone()]),
        (all(vec![never()]), vec![]),
        (all(vec![line(), never()]), vec![]),
        (all(vec![never(), line()]), vec![]),
        (all(vec![any(vec![nothing()])]), vec![anything.clone()]),
        (
            all(vec![any(vec![nothing(), line()])]),
            vec![anything.clone(), low.clone()],
        ),
        (
            all(vec![any(vec![all(vec![never()]), line()])]),
            vec![low.clone()],
        ),
        (
            all(vec![any(vec![all(vec![line(), never()]), nothing()])]),
            vec![anything],
        ),
    ] {
        assert_eq!(verdicts(1, &lines, &tree), due, "{tree:?}");
    }
    // Without variables and lines.
    let nothing_written = Verdict::Yes(Solved {
        model: vec![],
        bounds: vec![],
        groups: vec![],
    });
    assert_eq!(verdicts(0, &[], &nothing()), [nothing_written]);
    assert_eq!(verdicts(0, &[], &all(vec![never()])), []);
}

/// A line counts once, however often it is picked; equal lines are two. The refutation names
/// the line that was picked.
#[test]
fn lines_picked_twice() {
    let mut chance = Chance::new(204);
    let mut seen = Seen::default();
    let lines = [lone(1, 0, 3), lone(1, 0, 3), lone(-1, 0, -4)];
    let lines: Vec<Line> = (0..3)
        .map(|at| of_message(lines[at], 100 + at as i32))
        .collect();
    let twice = Tree::AllOf(vec![
        Tree::Line(1),
        any_line(&[1, 2]),
        Tree::AnyOf(vec![all_lines(&[1, 1, 1]), Tree::Line(2)]),
    ]);
    let list = (1, &lines[..]);
    let decisions = all_choices(&mut chance, &mut seen, brute::verdict, list, &twice);
    assert_eq!(decisions[0].verdict, between(i64::MIN, 3));
    for decision in &decisions[1..] {
        assert_eq!(decision.verdict, Verdict::No(Reason::ClosedWalk));
        let mut steps = decision.refutation[3..].to_vec();
        let mut identifiers = decision.identifiers.clone();
        steps.sort();
        identifiers.sort();
        assert_eq!((steps, identifiers), (vec![2, 4], vec![101, 102]));
    }
}

/// Of false lines the lowest that is picked is named, with its number in the whole list.
#[test]
fn false_lines() {
    let lines = identified(&[zero(-1), zero(-2), zero(0), zero(-3)]);
    let tree = Tree::AllOf(vec![Tree::AnyOf(vec![
        all_lines(&[3, 1]),
        Tree::Line(3),
        Tree::Line(2),
        all_lines(&[2, 3, 0]),
    ])]);
    let no = |line| Verdict::No(Reason::FalseLine(line));
    let nothing = Verdict::Yes(Solved {
        model: vec![],
        bounds: vec![],
        groups: vec![],
    });
    assert_eq!(verdicts(0, &lines, &tree), [no(1), no(3), nothing, no(0)]);
}

/// Trees with exactly the most choices, of which only the last can be met: as one any-of, as
/// products, and both. Choice c is the one whose lines say x = c.
#[test]
fn the_most_choices() {
    let mut chance = Chance::new(205);
    let last = MOST_CHOICES as i32 - 1;
    let mut lines: Vec<Line> = (0..=last).map(|value| lone(1, 0, value)).collect();
    lines.push(lone(-1, 0, -last));
    let lines = identified(&lines);
    let list = lines.as_flattened();
    let each: Vec<usize> = (0..MOST_CHOICES).collect();
    let first = |tree: &Tree| {
        let numbers = tree.numbers();
        let tree = &numbers;
        let asked = Asked { n: 1, list, tree };
        let mut chance = Chance::new(206);
        let behind = asked.decide(&mut chance, MOST_CHOICES).verdict;
        assert_eq!(behind, Verdict::Refused(43, 0));
        assert_eq!(asked.choices().unwrap().len(), MOST_CHOICES);
        asked.first(&mut chance)
    };
    let at_last = First::Yes(MOST_CHOICES - 1, vec![i64::from(last)]);
    let upper = Tree::Line(MOST_CHOICES);
    let one = Tree::AllOf(vec![upper.clone(), any_line(&each)]);
    assert_eq!(first(&one), at_last);
    // A product of any-ofs of two, each a line that can be met only as the last.
    let halves = MOST_CHOICES.ilog2() as usize;
    assert_eq!(1 << halves, MOST_CHOICES);
    let two = any_line(&[0, MOST_CHOICES - 1]);
    let product = Tree::AllOf([vec![two; halves], vec![upper.clone()]].concat());
    assert_eq!(first(&product), at_last);
    // Branches of which each is a product.
    let half = Tree::AllOf(vec![
        any_line(&each[..2]),
        any_line(&each[..MOST_CHOICES / 4]),
    ]);
    let sum = Tree::AllOf(vec![Tree::AnyOf(vec![half.clone(), half]), upper]);
    assert_eq!(first(&sum), First::No);
    let numbers = one.numbers();
    let tree = &numbers;
    for choice in each {
        let decided = Asked { n: 1, list, tree }
            .decide(&mut chance, choice)
            .verdict;
        let due = if choice + 1 < MOST_CHOICES {
            Verdict::No(Reason::ClosedWalk)
        } else {
            between(i64::from(last), i64::from(last))
        };
        assert_eq!(decided, due);
    }
}

/// As deep as may be: a row of nodes with one child each, down to a line.
#[test]
fn the_deepest_line() {
    let lines = identified(&[lone(1, 0, -5)]);
    let tree = deepest(Tree::Line(0), 1);
    assert_eq!(tree.numbers().len(), 2 * MOST_DEPTH);
    assert_eq!(verdicts(1, &lines, &tree), [between(i64::MIN, -5)]);
}

/// The largest list, and trees over all of its lines and over few of them.
#[test]
fn the_largest_list() {
    let mut chance = Chance::new(207);
    let lines = largest();
    let list = lines.as_flattened();
    let every: Vec<usize> = (0..MOST_LINES).collect();
    let branches = vec![
        all_lines(&every),
        all_lines(&every[..9]),
        Tree::AllOf(vec![]),
    ];
    let tree = Tree::AllOf(vec![Tree::AnyOf(branches)]);
    let numbers = tree.numbers();
    let asked = Asked {
        n: MOST_N,
        list,
        tree: &numbers,
    };
    for (choice, picked) in tree.choices().iter().enumerate() {
        let verdict = asked.decide(&mut chance, choice).verdict;
        assert_eq!(verdict, due(closure::verdict, MOST_N, &lines, picked));
    }
    let Verdict::Yes(solved) = asked.decide(&mut chance, 0).verdict else {
        panic!("the list can be met");
    };
    assert_eq!(asked.first(&mut chance), First::Yes(0, solved.model));
}

/// Two choices of one tree, of which the second picks all lines of the first and others with
/// higher numbers: what was learned stays. An accepted refutation of the first stands in
/// lines of the second, bounds only tighten, groups stay, and the model is the same exactly
/// if it meets the lines that came.
#[test]
fn choices_that_pick_more() {
    let mut chance = Chance::new(208);
    let (mut both_yes, mut turned, mut same) = (0, 0, 0);
    for _ in 0..400 {
        let n = chance.between(1, 6) as u64;
        let values = near_zero(&mut chance, n);
        let mut lines = tied(&mut chance, &values);
        let largest = chance.pick(&[2, 9, LARGEST_BOUND]);
        let shape = make_lists::Shape {
            n,
            count: 6,
            largest,
        };
        lines.extend(shape.list(&mut chance));
        let few: Vec<usize> = (0..lines.len()).filter(|_| chance.one_in(3)).collect();
        let last = few.last().map_or(0, |last| last + 1);
        let more: Vec<usize> = (last..lines.len()).filter(|_| chance.one_in(3)).collect();
        let longer = [&few[..], &more].concat();
        let tree = Tree::AllOf(vec![Tree::AnyOf(vec![all_lines(&few), all_lines(&longer)])]);
        let numbers = tree.numbers();
        let asked = Asked {
            n,
            list: lines.as_flattened(),
            tree: &numbers,
        };
        let [before, after] = [0, 1].map(|choice| asked.decide(&mut chance, choice));
        match (&before.verdict, &after.verdict) {
            (Verdict::Yes(before), Verdict::Yes(after)) => {
                both_yes += 1;
                stays(before, after);
                let met = |&line: &usize| {
                    let line = &lines[line];
                    left_side(line, &before.model) <= i64::from(line[BOUND])
                };
                assert_eq!(before.model == after.model, more.iter().all(met));
                same += usize::from(before.model == after.model && !more.is_empty());
            }
            (Verdict::Yes(_), Verdict::No(_)) => turned += 1,
            (Verdict::No(_), Verdict::No(_)) => {
                let picked = |&step: &u32| longer.contains(&(step as usize / 2));
                assert!(before.refutation[3..].iter().all(picked));
            }
            verdicts => panic!("{verdicts:?}, {asked:?}"),
        }
    }
    println!("{both_yes} twice a yes, {turned} turned to a no, {same} models stay");
    assert!(both_yes > 100 && turned > 5 && same > 20);
}

/// Bounds stay or tighten, and who shares a group goes on sharing one, equal or mirrored as
/// before, unless both are always 0.
fn stays(before: &Solved, after: &Solved) {
    let n = before.model.len();
    for x in 0..n {
        assert!(before.bounds[2 * x] <= after.bounds[2 * x]);
        assert!(before.bounds[2 * x + 1] >= after.bounds[2 * x + 1]);
        for y in 0..n {
            if before.groups[x][0] == before.groups[y][0] {
                assert_eq!(after.groups[x][0], after.groups[y][0]);
                let relative = |of: &Solved| of.groups[x][1] == of.groups[y][1];
                let zero = after.bounds[2 * x..2 * x + 2] == [0, 0];
                assert!(zero || relative(before) == relative(after));
            }
        }
    }
}
