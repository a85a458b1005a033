//! What the two calls on trees refuse, and which refusal is given where several apply: trees
//! that are cut, damaged, too deep or of too many choices, choices that are not there, short
//! buffers. A refusal changes nothing, which every call here makes sure of.

use utvpi_tests::buffers::{cut_by, needed, Buffers, BUFFERS, OUTPUTS};
use utvpi_tests::chance::Chance;
use utvpi_tests::damage::{damaged_list, refused_lists};
use utvpi_tests::decision::Verdict;
use utvpi_tests::implied::rooms;
use utvpi_tests::limits::{LINE_NUMBERS, MOST_CHOICES, MOST_DEPTH, MOST_LINES, MOST_N};
use utvpi_tests::limits::{REFUSAL_UNIT, UNSOLVABLE};
use utvpi_tests::lines::{identified, lone, zero, Line};
use utvpi_tests::make_lists::small;
use utvpi_tests::make_trees::{damaged, Shape};
use utvpi_tests::session_calls::within_a_minute;
use utvpi_tests::tree_calls::{Asked, First};
use utvpi_tests::trees::{all_lines, any_line, read, taken, Refusal, Tree, ALL_OF, ANY_OF, LEAF};

/// Numbers that are no choice of a tree with few, though some have the low bits of one.
const NO_CHOICES: [u64; 5] = [1 << 8, 1 << 32, 1 << 63, u64::MAX - 1, u64::MAX];

/// Asks both calls about a tree over so many lines that say nothing. What both refuse must
/// be the same; none where they answer, which the second implementation must agree to.
fn both(chance: &mut Chance, lines: usize, tree: &[u32]) -> Option<Refusal> {
    let list = vec![zero(0); lines].concat();
    let asked = Asked {
        n: 1,
        list: &list,
        tree,
    };
    let first = asked.first(chance);
    let found = match asked.decide(chance, 0).verdict {
        Verdict::Refused(43, 0) => {
            assert_eq!(first, First::No, "{tree:?}");
            return None;
        }
        Verdict::Refused(number, place) => Some((number, place)),
        _ => None,
    };
    match first {
        First::Refused(number, place) => assert_eq!(found, Some((number, place)), "{tree:?}"),
        _ => assert_eq!(found, None, "{tree:?}"),
    }
    found
}

/// Asks for a tree over three lines, and expects this refusal.
fn refused(tree: &[u32], due: Refusal) {
    let mut chance = Chance::new(210);
    assert_eq!(both(&mut chance, 3, tree), Some(due), "{tree:?}");
}
fn answered(tree: &[u32]) {
    let mut chance = Chance::new(211);
    assert_eq!(both(&mut chance, 3, tree), None, "{tree:?}");
}

/// The numbers of a tree that goes down by nodes of one child each to this depth, where these
/// numbers follow.
fn down_to(depth: usize, last: &[u32]) -> Vec<u32> {
    let kind = |level: usize| if level % 2 == 1 { ALL_OF } else { ANY_OF };
    let above = (1..depth).flat_map(|level| [kind(level), 1]);
    above.chain(last.iter().copied()).collect()
}

/// A cut: at the length, wherever it is.
#[test]
fn cuts() {
    refused(&[], (41, 0));
    refused(&[1], (41, 1));
    refused(&[1, 1], (41, 2));
    refused(&[1, 1, 3], (41, 3));
    refused(&[1, 2, 3, 0], (41, 4));
    refused(&[1, 1, 2], (41, 3));
    refused(&[1, 1, 2, 1], (41, 4));
    refused(&[1, 1, 2, 1, 1, 1], (41, 6));
    refused(&[1, 2, 2, 0, 2, 0, 3], (41, 6));
    refused(&[1, 2, 2, 0], (41, 4));
    answered(&[1, 0]);
    answered(&[1, 1, 3, 2]);
    answered(&[1, 2, 2, 0, 2, 0]);
}

/// Kinds that there are not, at the first number of the node.
#[test]
fn no_kinds() {
    for kind in [0, 4, 5, 256, 257, 1 << 16, (1 << 16) + 1, 1 << 31, u32::MAX] {
        refused(&[kind], (41, 0));
        refused(&[kind, 0], (41, 0));
        refused(&[1, 1, kind], (41, 2));
        refused(&[1, 1, kind, 0], (41, 2));
        refused(&[1, 2, 3, 0, kind, 0], (41, 4));
        refused(&[1, 1, 2, 1, kind, 7], (41, 4));
    }
}

/// Nodes in the wrong place: the root is all-of, and nodes of one kind don't stand in each
/// other.
#[test]
fn wrong_places() {
    for root in [2, 3] {
        for second in [0, 1, 2, 9] {
            refused(&[root, second], (41, 0));
            refused(&[root, second, 3, 0], (41, 0));
        }
        refused(&[root], (41, 0));
    }
    refused(&[1, 1, 1, 0], (41, 2));
    refused(&[1, 1, 1], (41, 2));
    refused(&[1, 2, 3, 0, 1, 0], (41, 4));
    refused(&[1, 1, 2, 1, 2, 0], (41, 4));
    refused(&[1, 1, 2, 2, 3, 1, 2, 0], (41, 6));
    refused(&[1, 1, 2, 1, 1, 1, 1, 0], (41, 6));
}

/// Lines that are not in the list, at the line's number; without lines every one.
#[test]
fn no_lines() {
    let mut chance = Chance::new(212);
    for line in [3, 4, 255, 256, 1 << 16, 1 << 31, u32::MAX - 1, u32::MAX] {
        refused(&[1, 1, 3, line], (41, 3));
        refused(&[1, 2, 3, line, 3, 0], (41, 3));
        refused(&[1, 2, 3, 0, 3, line], (41, 5));
        refused(&[1, 1, 2, 1, 3, line], (41, 5));
        assert_eq!(both(&mut chance, 0, &[1, 1, 3, line]), Some((41, 3)));
    }
    assert_eq!(both(&mut chance, 0, &[1, 1, 3, 0]), Some((41, 3)));
    let last = MOST_LINES as u32 - 1;
    assert_eq!(both(&mut chance, MOST_LINES, &[1, 1, 3, last]), None);
    let behind = [1, 1, 3, last + 1];
    assert_eq!(both(&mut chance, MOST_LINES, &behind), Some((41, 3)));
}

/// Numbers left over, at the first of them.
#[test]
fn left_over() {
    refused(&[1, 0, 0], (41, 2));
    refused(&[1, 0, 1, 0], (41, 2));
    refused(&[1, 0, 9, 9, 9, 9], (41, 2));
    refused(&[1, 1, 3, 0, 3, 1], (41, 4));
    refused(&[1, 1, 2, 1, 3, 0, 3, 1], (41, 6));
    refused(&[1, 1, 2, 0, 2], (41, 4));
}

/// Too deep, at the first number of the node, whatever that is; but a node that should stand
/// at the length is a cut.
#[test]
fn too_deep() {
    let at = 2 * MOST_DEPTH;
    let above = down_to(MOST_DEPTH + 1, &[]);
    refused(&above, (41, at));
    for first in [0, 1, 2, 3, 4, u32::MAX] {
        refused(&down_to(MOST_DEPTH + 1, &[first]), (42, at));
        for second in [0, 1, 3, u32::MAX] {
            refused(&down_to(MOST_DEPTH + 1, &[first, second]), (42, at));
            refused(&down_to(MOST_DEPTH + 1, &[first, second, 0, 0]), (42, at));
        }
    }
    // The deepest level itself: a line, a node without children, and a cut there.
    let deepest = if MOST_DEPTH % 2 == 1 { ALL_OF } else { ANY_OF };
    answered(&down_to(MOST_DEPTH, &[LEAF, 2]));
    answered(&down_to(MOST_DEPTH, &[deepest, 0]));
    refused(&down_to(MOST_DEPTH, &[LEAF]), (41, at - 1));
    refused(&down_to(MOST_DEPTH, &[LEAF, 3]), (41, at - 1));
    refused(&down_to(MOST_DEPTH, &[3 - deepest, 0]), (41, at - 2));
    // A fault before it goes first, one behind it does not.
    let mut early = down_to(MOST_DEPTH + 1, &[LEAF, 9]);
    early[at - 2] = 0;
    refused(&early, (41, at - 2));
    // Beside nodes that are not too deep.
    let mut wide = down_to(MOST_DEPTH + 1, &[LEAF, 0]);
    wide.splice(0..2, [1, 2, 3, 0]);
    refused(&wide, (42, at + 2));
    refused(&[&wide[..], &[7, 7]].concat(), (42, at + 2));
}

/// Every row of few numbers, each from 0 to 4: both calls against the second implementation.
#[test]
fn every_short_row() {
    let mut chance = Chance::new(213);
    let mut seen = [0; 44];
    let mut tree = Vec::new();
    for length in 0..=6 {
        for number in 0..5_u32.pow(length) {
            tree.clear();
            tree.extend((0..length).map(|at| number / 5_u32.pow(at) % 5));
            let found = both(&mut chance, 2, &tree);
            assert_eq!(found, taken(&tree, 2).err(), "{tree:?}");
            seen[found.map_or(0, |(number, _)| usize::from(number))] += 1;
        }
    }
    println!("{} trees, {} refused as 41", seen[0], seen[41]);
    assert!(seen[0] >= 15);
}

/// Every cut of some trees, every number more, and every number changed.
#[test]
fn every_damage_of_one_number() {
    let mut chance = Chance::new(214);
    let inner = Tree::AllOf(vec![any_line(&[0, 1]), Tree::Line(2)]);
    let some = Tree::AllOf(vec![
        Tree::Line(1),
        Tree::AnyOf(vec![inner, Tree::Line(0), Tree::AllOf(vec![])]),
    ]);
    for numbers in [some.numbers(), down_to(MOST_DEPTH, &[LEAF, 0])] {
        assert_eq!(both(&mut chance, 3, &numbers), None);
        for cut in 0..numbers.len() {
            assert_eq!(both(&mut chance, 3, &numbers[..cut]), Some((41, cut)));
        }
        for at in 0..numbers.len() {
            for to in [0, 1, 2, 3, 4, 5, 1 << 8, 1 << 31, u32::MAX] {
                let mut changed = numbers.clone();
                changed[at] = to;
                let due = taken(&changed, 3).err();
                assert_eq!(both(&mut chance, 3, &changed), due, "{changed:?}");
                let longer = [&numbers[..at], &[to], &numbers[at..]].concat();
                let due = taken(&longer, 3).err();
                assert_eq!(both(&mut chance, 3, &longer), due, "{longer:?}");
            }
        }
    }
}

/// Damaged trees at random, over lists of any sort. What stands behind a fault changes
/// nothing, as long as it is no cut.
#[test]
fn damaged_trees() {
    let mut chance = Chance::new(215);
    let mut seen = [0; 44];
    for _ in 0..30_000 {
        let lines = chance.below(5);
        let mut shape = Shape::of(&mut chance, lines);
        let wide = chance.one_in(4);
        if wide {
            (shape.depth, shape.children) = (4, 9);
        }
        let mut tree = shape.tree(&mut chance).numbers();
        if !(wide && chance.one_in(2)) {
            tree = damaged(&mut chance, &tree, lines);
        }
        let found = both(&mut chance, lines, &tree);
        assert_eq!(found, taken(&tree, lines).err(), "{tree:?}");
        seen[found.map_or(0, |(number, _)| usize::from(number))] += 1;
        if let Some((number @ (41 | 42), place)) = found {
            if place < tree.len() {
                let more = chance.below(5);
                let behind = (0..more).map(|_| chance.below(5) as u32);
                let other = [&tree[..=place], &behind.collect::<Vec<_>>()].concat();
                assert_eq!(both(&mut chance, lines, &other), Some((number, place)));
            }
        }
    }
    println!("taken {}, refused {:?}", seen[0], &seen[40..]);
    assert!(seen[0] > 1_000 && seen[40..43].iter().all(|&times| times > 150));
}

/// A row of any-of nodes of these many lines each.
fn rows(counts: &[usize]) -> Vec<Tree> {
    counts
        .iter()
        .map(|&count| any_line(&vec![0; count]))
        .collect()
}

/// As many choices as may be, and one more: in sums, in products, at the root and below it;
/// the place is the first node with too many.
#[test]
fn most_choices_and_one_more() {
    let most = MOST_CHOICES;
    let all = Tree::AllOf;
    let any = Tree::AnyOf;
    let root = |children: Vec<Tree>| all(children).numbers();
    answered(&root(rows(&[most])));
    refused(&root(rows(&[most + 1])), (40, 0));
    answered(&root(rows(&[most / 2, 2])));
    refused(&root(rows(&[most / 2 + 1, 2])), (40, 0));
    refused(&root(rows(&[most, 2])), (40, 0));
    refused(&root(rows(&[2, most])), (40, 0));
    answered(&root(rows(&[1, most, 1, 1])));
    answered(&root(rows(&vec![2; most.ilog2() as usize])));
    refused(&root(rows(&vec![2; most.ilog2() as usize + 1])), (40, 0));
    answered(&root(rows(&vec![1; 4 * most])));
    // Sums of products.
    let half = all(rows(&[most / 4, 2]));
    answered(&root(vec![any(vec![half.clone(), half.clone()])]));
    let more = any(vec![half.clone(), half, Tree::Line(0)]);
    refused(&root(vec![more]), (40, 0));
}

/// Products that pass every width of a number are too many, and none of them wraps to few.
#[test]
fn counts_that_would_wrap() {
    for twos in [8, 9, 16, 31, 32, 33, 63, 64, 65, 128, 1_000] {
        let tree = Tree::AllOf(rows(&vec![2; twos])).numbers();
        if 1_usize.checked_shl(twos as u32).unwrap_or(0) == MOST_CHOICES {
            answered(&tree);
        } else {
            refused(&tree, (40, 0));
        }
    }
    // 257 to the power of 8 is 1 and more modulo 2 to the power of 64; and the sum of as many
    // branches as a byte has numbers.
    for (count, times) in [(257, 8), (MOST_CHOICES, 4), (1 << 16, 1), (1 << 16, 4)] {
        refused(&Tree::AllOf(rows(&vec![count; times])).numbers(), (40, 0));
    }
    let square = Tree::AllOf(rows(&[16, 16]));
    for branches in [2, 255, 256, 257, 512] {
        let sum = Tree::AnyOf(vec![square.clone(); branches]);
        refused(&Tree::AllOf(vec![sum]).numbers(), (40, 0));
    }
}

/// A node without a choice leaves none to what it stands in, however many the others have;
/// but a node of its own with too many is refused, before the root and behind it.
#[test]
fn products_with_nothing() {
    let most = MOST_CHOICES;
    let all = Tree::AllOf;
    let any = Tree::AnyOf;
    let root = |children: Vec<Tree>| all(children).numbers();
    for zero_at in 0..=6 {
        let mut counts = vec![most; 6];
        counts.insert(zero_at, 0);
        answered(&root(rows(&counts)));
        // Of these the first too large one is named, not the root.
        for over_at in 0..=7 {
            let mut counts = counts.clone();
            counts.insert(over_at, most + 1);
            let before: usize = counts[..over_at].iter().map(|count| 1 + count).sum();
            refused(&root(rows(&counts)), (40, 2 + 2 * before));
        }
    }
    // Too many only in a product below, and a sum above it that is not.
    let many = all(rows(&[most, 2]));
    let nothing = any(vec![]);
    refused(
        &root(vec![nothing.clone(), any(vec![many.clone()])]),
        (40, 4),
    );
    let hidden = any(vec![all(vec![any(vec![many.clone()]), nothing.clone()])]);
    refused(&root(vec![hidden]), (40, 6));
    // A product with nothing, in a sum with the most choices.
    let zero = all(vec![nothing, any_line(&vec![0; most])]);
    let sum = any([vec![zero], vec![Tree::Line(0); most]].concat());
    answered(&root(vec![sum.clone()]));
    let Tree::AnyOf(children) = sum else {
        unreachable!()
    };
    let one_more = any([children, vec![Tree::Line(0)]].concat());
    refused(&root(vec![one_more]), (40, 0));
}

/// A count of children may be any number: the call ends as soon as the numbers do.
#[test]
fn huge_counts() {
    within_a_minute(|| {
        for count in [u32::MAX, u32::MAX - 1, 1 << 31, 1 << 24] {
            refused(&[1, count], (41, 2));
            refused(&[1, count, 3, 0], (41, 4));
            refused(&[1, 1, 2, count], (41, 4));
            refused(&[1, 2, 2, count, 3, 0], (41, 6));
            refused(&[1, 1, 2, 1, 1, count, 3, 2], (41, 8));
            refused(&[1, count, 2, count, 1, count], (41, 6));
            let deepest = down_to(MOST_DEPTH + 1, &[]);
            let last = deepest.len() - 1;
            let huge = [&deepest[..last], &[count]].concat();
            refused(&huge, (41, huge.len()));
            refused(&[&huge[..], &[3, 0]].concat(), (42, huge.len()));
        }
    });
}

/// Wide trees, whose places pass what a result in one number has room for.
#[test]
fn large_places() {
    let mut chance = Chance::new(216);
    let count = 2 * UNSOLVABLE / LINE_NUMBERS;
    let mut tree = all_lines(&vec![1; count]).numbers();
    assert!(tree.len() > REFUSAL_UNIT && tree.len() > UNSOLVABLE / 2);
    assert_eq!(both(&mut chance, 3, &tree), None);
    let last = tree.len() - 1;
    tree[last] = 3;
    assert_eq!(both(&mut chance, 3, &tree), Some((41, last)));
    tree[last - 1] = 1;
    assert_eq!(both(&mut chance, 3, &tree), Some((41, last - 1)));
    tree.truncate(last);
    assert_eq!(both(&mut chance, 3, &tree), Some((41, last - 1)));
    tree[1] -= 1;
    assert_eq!(both(&mut chance, 3, &tree), Some((41, last - 1)));
    // The first node with too many choices, behind an any-of without children.
    let wide = [vec![0; count], vec![MOST_CHOICES + 1]].concat();
    let tree = Tree::AllOf(rows(&wide)).numbers();
    assert_eq!(both(&mut chance, 3, &tree), Some((40, 2 + 2 * count)));
}

/// Numbers of choices that are not there.
#[test]
fn no_such_choices() {
    let mut chance = Chance::new(217);
    for count in [0, 1, 2, 7, MOST_CHOICES] {
        let tree = Tree::AllOf(rows(&[count])).numbers();
        let list = vec![zero(0); 2].concat();
        let asked = Asked {
            n: 2,
            list: &list,
            tree: &tree,
        };
        let next = (count as u64..).take(3);
        for choice in next
            .chain(NO_CHOICES)
            .filter(|&choice| choice >= count as u64)
        {
            let mut buffers = Buffers::enough(&mut chance, 2);
            let verdict = asked.decide_in(&mut buffers, choice).verdict;
            assert_eq!(verdict, Verdict::Refused(43, 0));
        }
        for choice in 0..count as u64 {
            let mut buffers = Buffers::enough(&mut chance, 2);
            let verdict = asked.decide_in(&mut buffers, choice).verdict;
            assert!(matches!(verdict, Verdict::Yes(_)));
        }
    }
}

/// Every list that is refused is so first, whatever the tree, the choice and the buffers are.
#[test]
fn lists_that_are_refused() {
    let mut chance = Chance::new(218);
    let many = Tree::AllOf(rows(&[MOST_CHOICES + 1])).numbers();
    let trees = [
        vec![],
        vec![1, 0],
        vec![7],
        down_to(MOST_DEPTH + 1, &[3]),
        many,
    ];
    for (n, list, (number, place)) in refused_lists() {
        for tree in &trees {
            let asked = Asked {
                n,
                list: &list,
                tree,
            };
            for short in [false, true] {
                let full = needed(n.min(MOST_N));
                let lengths = if short { [0; BUFFERS] } else { full };
                let first = asked.first_in(&mut chance, [lengths[0], lengths[OUTPUTS]]);
                assert_eq!(first, First::Refused(number, place));
                for choice in [0, u64::MAX] {
                    let mut buffers = Buffers::new(&mut chance, lengths);
                    let verdict = asked.decide_in(&mut buffers, choice).verdict;
                    assert_eq!(verdict, Verdict::Refused(number, place));
                }
            }
        }
    }
}

/// The order behind the list: 41 and 42, then 40, then 43, then the buffers, each short or
/// not, the first that is short, and last the work area.
#[test]
fn the_order() {
    let mut chance = Chance::new(219);
    let list = identified(&[lone(1, 0, 3), lone(-1, 1, -2)]).concat();
    let n = 2;
    let full = needed(n);
    let many = Tree::AllOf(rows(&[MOST_CHOICES + 1]));
    for wrong in 0..1 << 3 {
        let [broken, over, missing] = [0, 1, 2].map(|bit| wrong >> bit & 1 == 1);
        let mut tree = if over {
            many.clone()
        } else {
            all_lines(&[0, 1])
        }
        .numbers();
        let length = tree.len();
        if broken {
            tree.push(0);
        }
        let asked = Asked {
            n,
            list: &list,
            tree: &tree,
        };
        for short in 0..1 << BUFFERS {
            let choice = if missing { chance.pick(&NO_CHOICES) } else { 0 };
            let lengths = cut_by(full, short);
            let mut buffers = Buffers::new(&mut chance, lengths);
            let of_tree = match (broken, over, missing) {
                (true, ..) => Some((41, length)),
                (_, true, _) => Some((40, 0)),
                (.., true) => Some((43, 0)),
                _ => None,
            };
            let of_buffers = match (0..BUFFERS).find(|at| short >> at & 1 == 1) {
                Some(OUTPUTS) => Some((8, 0)),
                Some(output) => Some((7, output + 1)),
                None => None,
            };
            match (
                asked.decide_in(&mut buffers, choice).verdict,
                of_tree.or(of_buffers),
            ) {
                (Verdict::Refused(number, place), Some(due)) => assert_eq!((number, place), due),
                (verdict, due) => assert!(matches!(verdict, Verdict::Yes(_)) && due.is_none()),
            }
            let first = asked.first_in(&mut chance, [lengths[0], lengths[OUTPUTS]]);
            let due = match (of_tree, short & 1, short >> OUTPUTS) {
                (Some((43, _)) | None, 1, _) => Some((7, 1)),
                (Some((43, _)) | None, _, 1) => Some((8, 0)),
                (Some((43, _)) | None, ..) => None,
                (of_tree, ..) => of_tree,
            };
            match (first, due) {
                (First::Refused(number, place), Some(due)) => assert_eq!((number, place), due),
                (first, due) => assert!(matches!(first, First::Yes(0, _)) && due.is_none()),
            }
        }
    }
}

/// Every length up to the rooms, some beyond: what lies there is left alone, on a yes, on a
/// no, and where there is no choice at all.
#[test]
fn short_and_long_buffers() {
    let mut chance = Chance::new(220);
    let lines: Vec<Line> = identified(&[lone(1, 0, 3), lone(-1, 0, -4)]);
    let (yes, no) = (any_line(&[1, 0]), all_lines(&[0, 1]));
    let trees = [
        Tree::AllOf(vec![yes]),
        no,
        Tree::AllOf(vec![Tree::AnyOf(vec![])]),
    ];
    for n in [1, 2] {
        let [model, work] = rooms(n);
        for tree in &trees {
            let numbers = tree.numbers();
            let asked = Asked {
                n,
                list: lines.as_flattened(),
                tree: &numbers,
            };
            for length in (0..work + 9).filter(|length| length + 4 > work || length % 7 == 0) {
                for model_length in 0..model + 3 {
                    let first = asked.first_in(&mut chance, [model_length, length]);
                    match (model_length < model, length < work) {
                        (true, _) => assert_eq!(first, First::Refused(7, 1)),
                        (_, true) => assert_eq!(first, First::Refused(8, 0)),
                        _ => assert!(!matches!(first, First::Refused(..))),
                    }
                }
            }
            for at in 0..BUFFERS {
                for length in 0..needed(n)[at] + 9 {
                    let mut lengths = needed(n);
                    lengths[at] = length;
                    let mut buffers = Buffers::new(&mut chance, lengths);
                    asked.decide_in(&mut buffers, 0);
                }
            }
        }
    }
}

/// Damaged lists with damaged trees: a refusal is given exactly where the second
/// implementation has one, and is the same.
#[test]
fn damaged_lists_and_trees() {
    let mut chance = Chance::new(221);
    let mut seen = [0; 44];
    for _ in 0..6_000 {
        let (n, lines) = small(&mut chance);
        let count = lines.len();
        let shape = Shape::of(&mut chance, count);
        let mut tree = shape.tree(&mut chance).numbers();
        let (mut n, mut list) = (n, lines.concat());
        if chance.one_in(2) {
            (n, list) = damaged_list(&mut chance, n, &list);
        }
        if chance.one_in(2) {
            tree = damaged(&mut chance, &tree, count);
        }
        // A list of many variables takes long, and is refused as one of few is.
        if n <= 8 || n > MOST_N {
            let asked = Asked {
                n,
                list: &list,
                tree: &tree,
            };
            let choice = chance.pick(&[0, 0, 0, 1, 2, u64::MAX]);
            let room = if n > MOST_N { 0 } else { n };
            let mut buffers = Buffers::enough(&mut chance, room);
            let number = match asked.decide_in(&mut buffers, choice).verdict {
                Verdict::Refused(number, _) => usize::from(number),
                _ => 0,
            };
            seen[number] += 1;
            asked.first_in(&mut chance, rooms(room));
        }
    }
    println!("{seen:?}");
    for number in [0, 1, 2, 4, 5, 6, 12, 13, 40, 41, 42, 43] {
        assert!(
            seen[number] > 10,
            "{number} was given {} times",
            seen[number]
        );
    }
}

/// The second implementation itself, on trees written from it: reading gives each back.
#[test]
fn numbers_read_back() {
    let mut chance = Chance::new(222);
    for _ in 0..3_000 {
        let lines = chance.below(6);
        let tree = Shape::of(&mut chance, lines).tree(&mut chance);
        assert_eq!(read(&tree.numbers(), lines), Ok(tree));
    }
}
