//! The identifiers of the messages that lines came from: which are let in, where one
//! is refused and before what, that they change nothing else, and that deciding hands
//! over those of a refutation's steps, whole.

use std::collections::BTreeSet;

use utvpi_tests::bytes;
use utvpi_tests::chance::Chance;
use utvpi_tests::damage::{all_faults, faulty_line, first_fault};
use utvpi_tests::decision::{decide, Decision, Verdict};
use utvpi_tests::document::{largest, CASE_4};
use utvpi_tests::library;
use utvpi_tests::limits::{EDGE_IDENTIFIERS, LAST_IDENTIFIER, LAST_SHORT, LAST_VARIABLE};
use utvpi_tests::limits::{MOST_LINES, MOST_N, NO_IDENTIFIERS, NUMBER_BYTES};
use utvpi_tests::lines::{identified, identifier, identify, line, lone, of_message, zero};
use utvpi_tests::lines::{Line, BOUND, IDENTIFIER};
use utvpi_tests::make_cases::{some_case, some_values};
use utvpi_tests::make_lists::{small, Shape};
use utvpi_tests::second::Answer::{self, No, Refused, Yes};
use utvpi_tests::seen::Seen;

/// What these lines are refused with by deciding, both checks on bytes and the check in
/// pieces, which must all say the same; none where they are let in.
fn refused(chance: &mut Chance, n: u64, lines: &[Line]) -> Option<(u8, usize)> {
    let (list, numbers) = (bytes::list(lines), lines.concat());
    let proposed = [1, 1, 0, 0];
    let values = bytes::model(&vec![0; n as usize]);
    let whole = utvpi_tests::refutation(n, &list, &bytes::refutation(&proposed));
    let answers = [
        match decide(chance, n, lines).verdict {
            Verdict::Refused(number, place) => Refused(number, place),
            _ => Yes,
        },
        utvpi_tests::model(n, &list, &values),
        whole,
    ];
    let in_pieces = library::refutation_in_pieces(n, &numbers, &proposed);
    assert_eq!(in_pieces, whole.code(), "n {n}, {lines:?}");
    let [one, two, three] = answers.map(|answer| match answer {
        Refused(number, place) => Some((number, place)),
        _ => None,
    });
    assert!(one == two && two == three, "{answers:?}, n {n}, {lines:?}");
    one
}

/// Lists of two variables or fewer: a yes, and a no of each kind.
fn lists() -> [Vec<Line>; 5] {
    [
        vec![line(1, 0, -1, 1, 5), lone(-1, 1, 2), zero(0)],
        vec![line(1, 0, -1, 1, -1), line(1, 1, -1, 0, 0)],
        vec![lone(1, 1, 3), lone(-1, 1, -4)],
        vec![line(1, 0, 1, 0, 1), line(-1, 0, -1, 0, -1)],
        vec![zero(0), zero(-1), lone(1, 0, -1), lone(-1, 0, 0)],
    ]
}

/// An identifier in each line of a list: all that there are from 0 to the last are let
/// in and change nothing, and all others are refused at their line.
#[test]
fn at_the_limits() {
    let mut chance = Chance::new(130);
    let mut handed_over = 0;
    for lines in lists() {
        let verdict = decide(&mut chance, 2, &lines).verdict;
        for at in 0..lines.len() {
            let mut with = |identifier: i32| {
                let mut lines = identified(&lines);
                lines[at][IDENTIFIER] = identifier;
                let decision = decide(&mut chance, 2, &lines);
                (refused(&mut chance, 2, &lines), decision)
            };
            for identifier in EDGE_IDENTIFIERS {
                let (refused, decision) = with(identifier);
                assert_eq!(refused, None, "{identifier} at {at}");
                assert_eq!(decision.verdict, verdict, "{identifier} at {at}");
                // Where the line has a step in the refutation, its identifier is there.
                let steps = decision.refutation.iter().skip(3);
                for (&step, &named) in steps.zip(&decision.identifiers) {
                    if step as usize / 2 == at {
                        assert_eq!(named as i32, identifier, "{decision:?}");
                        handed_over += 1;
                    }
                }
            }
            for identifier in NO_IDENTIFIERS {
                let (refused, decision) = with(identifier);
                assert_eq!(refused, Some((13, at)), "{identifier}");
                assert_eq!(decision.verdict, Verdict::Refused(13, at));
            }
        }
    }
    // Seven lines that a refutation must take: one of kind 3, two of each other list.
    assert!(handed_over >= 7 * EDGE_IDENTIFIERS.len());
}

/// A number that is no identifier, in each line of short lists and in many of the
/// longest; and a second one in a later line, which is not reached.
#[test]
fn in_every_line() {
    let mut chance = Chance::new(131);
    let longest = largest();
    assert_eq!(refused(&mut chance, MOST_N, &longest), None);
    let many = (0..MOST_LINES).step_by(97).chain([MOST_LINES - 1]);
    let few = [1, 2, 3, 20].map(|count| (count, (0..count).collect::<Vec<usize>>()));
    let all = few.into_iter().chain([(MOST_LINES, many.collect())]);
    for (count, places) in all {
        for at in places {
            let mut lines = longest[..count].to_vec();
            lines[at][IDENTIFIER] = chance.pick(&NO_IDENTIFIERS);
            assert_eq!(refused(&mut chance, MOST_N, &lines), Some((13, at)));
            let later = at + chance.below(count - at);
            lines[later][IDENTIFIER] = chance.pick(&NO_IDENTIFIERS);
            assert_eq!(refused(&mut chance, MOST_N, &lines), Some((13, at)));
        }
    }
}

/// Two lines with any faults, behind another that has none: the first faulty line is
/// named, with the first of 4, 5, 12, 6 and 13 that it has.
#[test]
fn the_order_within_a_line() {
    let mut chance = Chance::new(132);
    for (one, two) in all_faults() {
        for _ in 0..4 {
            let lines = [0, one, two].map(|faults| faulty_line(&mut chance, faults));
            let first = first_fault(one).map(|number| (number, 1));
            let due = first.or(first_fault(two).map(|number| (number, 2)));
            assert_eq!(refused(&mut chance, 2, &lines), due, "{lines:?}");
        }
    }
}

/// A number that names a line with a bad identifier is wrong as it is taken, just as
/// one that names a line with another fault: the states are the same.
#[test]
fn taken_on_a_bad_line() {
    let good = identified(&[zero(0), line(1, 0, -1, 0, -1), zero(1)]);
    let numbers = [1, 1, 0, 2];
    let states = |list: &[i32]| -> Vec<library::Progress> {
        let mut kept = library::refutation_begin();
        let take = |&number: &u32| {
            kept = library::refutation_take(kept, list, number);
            kept
        };
        numbers.iter().map(take).collect()
    };
    assert!(states(&good.concat()).iter().all(|kept| kept.good == 1));
    for at in 0..good.len() {
        let with = |place: usize, number: i32| {
            let mut bad = good.clone();
            bad[at][place] = number;
            states(&bad.concat())
        };
        let due = with(BOUND, i32::MIN);
        // The first number that names the line, if one does, with the place of it.
        let first = numbers.iter().position(|&number| number as usize / 2 == at);
        let last = due.last().unwrap();
        assert_eq!(last.good == 0, first.is_some());
        assert_eq!(last.wrong, first.unwrap_or(0));
        for identifier in NO_IDENTIFIERS {
            assert_eq!(with(IDENTIFIER, identifier), due, "{identifier} at {at}");
        }
        for identifier in EDGE_IDENTIFIERS {
            let kept = with(IDENTIFIER, identifier);
            assert!(kept.iter().all(|kept| kept.good == 1), "{identifier}");
        }
    }
}

/// A list that is a yes or a no, of any size up to some.
fn some_list(chance: &mut Chance) -> (u64, Vec<Line>) {
    if chance.one_in(8) {
        let n = chance.between(1, 24) as u64;
        (n, Shape::of(chance, n).list(chance))
    } else {
        small(chance)
    }
}

/// The same lines with other identifiers: all others, or few.
fn renamed(chance: &mut Chance, lines: &[Line]) -> Vec<Line> {
    let mut others = lines.to_vec();
    if chance.one_in(2) {
        identify(chance, &mut others);
    } else if !others.is_empty() {
        let at = chance.below(others.len());
        others[at][IDENTIFIER] = identifier(chance);
    }
    others
}

/// The same list with other identifiers is answered alike: a yes with the same model,
/// bounds and groups, a no with a refutation of the same kind, which both checks accept
/// for either list.
#[test]
fn another_identifier_decides_nothing() {
    let mut chance = Chance::new(133);
    let (mut yes, mut no) = (0, [0; 4]);
    for _ in 0..20_000 {
        let (n, lines) = some_list(&mut chance);
        let others = renamed(&mut chance, &lines);
        let [one, two] = [&lines, &others].map(|lines| decide(&mut chance, n, lines));
        assert_eq!(one.verdict, two.verdict, "{n} {lines:?} {others:?}");
        match &one.verdict {
            Verdict::Yes(solved) => {
                yes += 1;
                let model = bytes::model(&solved.model);
                assert_eq!(utvpi_tests::model(n, &bytes::list(&others), &model), Yes);
            }
            _ => no[one.refutation[0] as usize] += 1,
        }
        if let Verdict::No(_) = one.verdict {
            for (lines, decision) in [(&lines, &two), (&others, &one)] {
                accepted(n, lines, decision);
            }
        }
    }
    println!("{yes} yes, no by kind {:?}", &no[1..]);
    assert!(yes >= 1_000 && no[1..].iter().all(|&times| times >= 100));
}

/// Both checks accept the refutation of this decision for these lines.
fn accepted(n: u64, lines: &[Line], decision: &Decision) {
    let packed = bytes::refutation(&decision.refutation);
    let whole = utvpi_tests::refutation(n, &bytes::list(lines), &packed);
    assert_eq!(whole, Yes, "{n} {lines:?} {decision:?}");
    let numbers = lines.concat();
    let in_pieces = library::refutation_in_pieces(n, &numbers, &decision.refutation);
    assert_eq!(in_pieces, Yes.code(), "{n} {lines:?} {decision:?}");
}

/// Right and wrong models and refutations of the same list with other identifiers: the
/// checks answer alike, with the same place of a no, and keep the same state between
/// two numbers.
#[test]
fn another_identifier_checks_nothing() {
    let mut chance = Chance::new(134);
    let mut seen = Seen::default();
    for _ in 0..20_000 {
        let case = some_case(&mut chance);
        let (n, lines) = (case.n, &case.lines);
        let others = renamed(&mut chance, lines);
        let [one, two] = [lines, &others].map(|lines| bytes::list(lines));
        let values = match &case.solution {
            Some(values) if chance.one_in(2) => values.clone(),
            _ => some_values(&mut chance, n),
        };
        let values = bytes::model(&values);
        let [of_one, of_two] = [&one, &two].map(|list| utvpi_tests::model(n, list, &values));
        assert_eq!(of_one, of_two, "{n} {lines:?} {others:?}");
        seen.count(of_one);
        for input in case.inputs(&mut chance) {
            // Only what was proposed is damaged here.
            let [of_one, of_two] =
                [&one, &two].map(|list| utvpi_tests::refutation(n, list, &input.proposed));
            assert_eq!(of_one, of_two, "{n} {lines:?} {others:?}");
            seen.count(of_one);
            same_states(&input.proposed, lines, &others);
        }
    }
    seen.must_include(&[], 160_000);
}

/// The states between the numbers of a refutation are the same for both lists.
fn same_states(proposed: &[u8], lines: &[Line], others: &[Line]) {
    let (list, other) = (lines.concat(), others.concat());
    let mut kept = library::refutation_begin();
    for four in proposed.chunks_exact(NUMBER_BYTES) {
        let number = u32::from_le_bytes(four.try_into().unwrap());
        let next = library::refutation_take(kept, &list, number);
        assert_eq!(library::refutation_take(kept, &other, number), next);
        kept = next;
    }
}

/// Pairs of identifiers whose low eleven bits are the same: each higher bit alone, and
/// some at random.
fn pairs(chance: &mut Chance) -> Vec<(i32, i32)> {
    let mut pairs = Vec::new();
    let high = |bit: &i32| LAST_SHORT < *bit && *bit <= LAST_IDENTIFIER;
    for bit in (0..31).map(|at| 1 << at).filter(high) {
        for low in [0, 1, LAST_SHORT / 2, LAST_SHORT] {
            pairs.extend([(low, low | bit), (low | bit, low)]);
            pairs.push((low | bit, LAST_IDENTIFIER & !LAST_SHORT & !bit | low));
        }
    }
    while pairs.len() < 1_000 {
        let [one, two] = [identifier(chance), identifier(chance)];
        let two = two & !LAST_SHORT | one & LAST_SHORT;
        if one != two {
            pairs.push((one, two));
        }
    }
    pairs
}

/// Two messages whose identifiers have the same low eleven bits stay two: of a no that
/// takes a line of each, both are handed over, each with its steps.
#[test]
fn the_same_low_eleven_bits() {
    let mut chance = Chance::new(135);
    for (one, two) in pairs(&mut chance) {
        assert_eq!(one & LAST_SHORT, two & LAST_SHORT);
        let named = |lines: &[Line]| -> Vec<Line> {
            let by_turns = [one, two].into_iter().cycle();
            let named = lines.iter().zip(by_turns);
            named.map(|(&line, by)| of_message(line, by)).collect()
        };
        let mut handed_over = |n: u64, lines: &[Line]| -> Vec<u32> {
            let decision = decide(&mut chance, n, &named(lines));
            assert!(matches!(decision.verdict, Verdict::No(_)));
            decision.identifiers
        };
        let [one, two] = [one as u32, two as u32];
        // Kinds 1 and 2: no line can be left out, and the walks may pass it again.
        let both = BTreeSet::from([one, two]);
        let bounds = handed_over(1, &[lone(1, 0, 3), lone(-1, 0, -4)]);
        assert_eq!(bounds.into_iter().collect::<BTreeSet<u32>>(), both);
        let halves = handed_over(3, &CASE_4);
        assert_eq!(halves.into_iter().collect::<BTreeSet<u32>>(), both);
        // Kind 3: the lower line.
        assert_eq!(handed_over(0, &[zero(-1), zero(-1)]), [one]);
        assert_eq!(handed_over(0, &[zero(0), zero(-1), zero(-1)]), [two]);
    }
}

/// A no with as many steps as there may be, each line from its own message: every step
/// has its own, in the order of the walk.
#[test]
fn a_message_for_each_line() {
    let mut chance = Chance::new(136);
    for n in [1, 2, 17, LAST_VARIABLE + 1] {
        // x0 at least 1, each one above the one before it, the last below n.
        let mut lines = vec![lone(-1, 0, -1)];
        lines.extend((1..n).map(|x| line(1, x - 1, -1, x, -1)));
        lines.push(lone(1, n - 1, n - 1));
        let mut names: Vec<i32> = Vec::new();
        while names.len() < lines.len() {
            let name = identifier(&mut chance);
            if !names.contains(&name) {
                names.push(name);
            }
        }
        for (line, &name) in lines.iter_mut().zip(&names) {
            line[IDENTIFIER] = name;
        }
        let decision = decide(&mut chance, n as u64, &lines);
        assert!(matches!(decision.verdict, Verdict::No(_)));
        let steps = &decision.refutation[3..];
        assert!(steps.len() >= 2 * n as usize, "there is no shorter one");
        let back = |named: &u32| {
            let line = names.iter().position(|&name| name as u32 == *named);
            line.unwrap() as u32
        };
        let lines: Vec<u32> = decision.identifiers.iter().map(back).collect();
        let due: Vec<u32> = steps.iter().map(|step| step / 2).collect();
        assert_eq!(lines, due);
    }
}

/// The answers to lists with no variable: the identifiers' buffer has room for the one
/// of a false line.
#[test]
fn no_variables() {
    let mut chance = Chance::new(137);
    for identifier in EDGE_IDENTIFIERS {
        let lines = [zero(5), of_message(zero(-5), identifier), zero(-6)];
        let decision = decide(&mut chance, 0, &lines);
        assert_eq!(decision.refutation, [3, 1, 0, 2]);
        assert_eq!(decision.identifiers, [identifier as u32]);
        let answer: Answer = utvpi_tests::model(0, &bytes::list(&lines), &[]);
        assert_eq!(answer, No(1));
    }
}
