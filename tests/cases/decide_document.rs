//! The cases that docs/SPECIFICATION.md names, decided: verdict, model,
//! bounds, groups and the refutation's kind; and the limits.

use utvpi_tests::buffers::{needed, Buffers};
use utvpi_tests::chance::Chance;
use utvpi_tests::decision::{
    decide, decide_in, own_groups, Decision, Reason, Solved, Verdict, PLUS,
};
use utvpi_tests::document::{largest, CASE_4};
use utvpi_tests::limits::{LARGEST_BOUND, LAST_VARIABLE, MOST_LINES, MOST_N, MOST_VARIABLES};
use utvpi_tests::limits::{NO_IDENTIFIERS, SMALL_VARIABLES};
use utvpi_tests::lines::{
    identified, identify, line, lone, misplaced, zero, Line, BOUND, IDENTIFIER, X, Y,
};
use utvpi_tests::{brute, closure};

/// The numbers that stand for no least and no greatest value.
const NO_LEAST: i64 = i64::MIN;
const NO_GREATEST: i64 = i64::MAX;

/// The decision, the same from buffers with different rubbish, and the same but for
/// the walks with other identifiers.
fn decided(n: u64, lines: &[Line]) -> Decision {
    let mut chance = Chance::new(n + lines.len() as u64);
    let first = decide(&mut chance, n, lines);
    // Large lists may take long.
    let again = match n as usize {
        0..=8 => 20,
        9..=SMALL_VARIABLES => 2,
        _ => 0,
    };
    for _ in 0..again {
        assert_eq!(decide(&mut chance, n, lines), first);
        let mut others = lines.to_vec();
        identify(&mut chance, &mut others);
        let verdict = decide(&mut chance, n, &others).verdict;
        assert_eq!(verdict, first.verdict, "{others:?}");
    }
    first
}

/// A yes with these variables of the groups: the sign of each is plus.
fn yes(n: u64, lines: &[Line], model: &[i64], bounds: &[i64], groups: &[u32]) {
    let due = Verdict::Yes(Solved {
        model: model.to_vec(),
        bounds: bounds.to_vec(),
        groups: groups.iter().map(|&group| [group, PLUS]).collect(),
    });
    assert_eq!(decided(n, lines).verdict, due, "{lines:?}");
    // The other two ways to decide are held to the same cases.
    assert_eq!(closure::verdict(n as usize, lines), due, "{lines:?}");
    assert_eq!(brute::verdict(n as usize, lines), due, "{lines:?}");
}

/// The refutation of a list that has no solution, for this reason.
fn no(n: u64, lines: &[Line], reason: Reason) -> Vec<u32> {
    let decision = decided(n, lines);
    assert_eq!(decision.verdict, Verdict::No(reason), "{lines:?}");
    assert_eq!(closure::verdict(n as usize, lines), decision.verdict);
    assert_eq!(brute::verdict(n as usize, lines), decision.verdict);
    decision.refutation
}

#[test]
fn case_1_nothing_asked_of_nothing() {
    yes(0, &[], &[], &[], &[]);
}

#[test]
fn case_2_nothing_asked() {
    yes(1, &[], &[0], &[NO_LEAST, NO_GREATEST], &[0]);
    let small = 0..=SMALL_VARIABLES as u32;
    for n in small.chain([MOST_VARIABLES as u32 - 1, MOST_VARIABLES as u32]) {
        let due = Solved {
            model: vec![0; n as usize],
            bounds: [NO_LEAST, NO_GREATEST].repeat(n as usize),
            groups: own_groups(n as usize),
        };
        assert_eq!(decided(u64::from(n), &[]).verdict, Verdict::Yes(due));
    }
}

#[test]
fn case_3_a_false_line() {
    let refutation = no(0, &[zero(-1)], Reason::FalseLine(0));
    assert_eq!(refutation, [3, 1, 0, 0]);
    yes(0, &[zero(0)], &[], &[], &[]);
    // The lowest of several, and before every walk.
    let lines = [line(1, 0, -1, 0, -1), zero(0), zero(-3), zero(-9)];
    assert_eq!(no(1, &lines, Reason::FalseLine(2)), [3, 1, 0, 4]);
}

#[test]
fn case_4_only_halves_would_solve_it() {
    let refutation = no(3, &CASE_4, Reason::HalvedWalks);
    assert_eq!(refutation[0], 2);
}

#[test]
fn case_5_case_4_without_its_last_line() {
    let bounds = [NO_LEAST, 0, NO_LEAST, NO_GREATEST, 4, NO_GREATEST];
    yes(3, &CASE_4[..3], &[0, -1, 4], &bounds, &[0, 1, 2]);
}

#[test]
fn case_6_equal_without_a_cycle_of_sum_0() {
    let lines = [
        line(1, 0, 1, 0, 1),
        line(-1, 0, -1, 0, 1),
        line(1, 1, 1, 1, 1),
        line(-1, 1, -1, 1, 1),
    ];
    yes(2, &lines, &[0, 0], &[0; 4], &[0, 0]);
}

#[test]
fn case_7_a_variable_below_itself() {
    let refutation = no(1, &[line(1, 0, -1, 0, -1)], Reason::ClosedWalk);
    assert_eq!(refutation[0], 1);
    yes(
        1,
        &[line(1, 0, -1, 0, 0)],
        &[0],
        &[NO_LEAST, NO_GREATEST],
        &[0],
    );
}

#[test]
fn case_8_one_variable_between_two_bounds() {
    no(1, &[lone(1, 0, 3), lone(-1, 0, -4)], Reason::ClosedWalk);
    yes(1, &[lone(1, 0, 3), lone(-1, 0, -3)], &[3], &[3, 3], &[0]);
    // The same lines with the variable in the other place.
    let other = identified(&[lone(1, 0, 3), misplaced(-1, 0, -4)]);
    assert_eq!(decided(1, &other).verdict, Verdict::Refused(12, 1));
}

#[test]
fn cases_9_and_10_halving_and_equal_variables() {
    yes(1, &[line(-1, 0, -1, 0, -7)], &[4], &[4, NO_GREATEST], &[0]);
    // Halving down on the other side of zero, too.
    yes(1, &[line(1, 0, 1, 0, -7)], &[-4], &[NO_LEAST, -4], &[0]);
    let equal = [line(1, 0, -1, 1, 0), line(-1, 0, 1, 1, 0)];
    let bounds = [NO_LEAST, NO_GREATEST, NO_LEAST, NO_GREATEST];
    yes(2, &equal, &[0, 0], &bounds, &[0, 0]);
}

/// What a list given as numbers is refused with, in buffers for the most variables.
fn refused(n: u64, list: &[i32]) -> Verdict {
    let mut buffers = Buffers::new(&mut Chance::new(n), needed(MOST_N));
    decide_in(&mut buffers, n, list).verdict
}

#[test]
fn case_11_the_limits() {
    let lines = largest();
    let due = closure::verdict(MOST_VARIABLES, &lines);
    assert!(matches!(due, Verdict::Yes(_)));
    assert_eq!(decided(MOST_N, &lines).verdict, due);

    assert_eq!(refused(MOST_N + 1, &lines.concat()), Verdict::Refused(1, 0));
    assert_eq!(refused(u64::MAX, &[]), Verdict::Refused(1, 0));
    assert_eq!(refused(1 << 32, &[]), Verdict::Refused(1, 0));
    let mut longer = lines.clone();
    longer.push(lines[0]);
    assert_eq!(refused(MOST_N, &longer.concat()), Verdict::Refused(3, 0));
    // One number more than a line.
    let broken = [&identified(&[line(1, 0, 1, 0, 5)]).concat()[..], &[1]].concat();
    assert_eq!(refused(MOST_N, &broken), Verdict::Refused(2, 0));
    for at in [0, 1, MOST_LINES / 2, MOST_LINES - 1] {
        for bound in [1_000_001, -1_000_001, i32::MAX, i32::MIN] {
            let mut lines = lines.clone();
            lines[at][BOUND] = bound;
            assert_eq!(refused(MOST_N, &lines.concat()), Verdict::Refused(6, at));
        }
        for identifier in NO_IDENTIFIERS {
            let mut lines = lines.clone();
            lines[at][IDENTIFIER] = identifier;
            assert_eq!(refused(MOST_N, &lines.concat()), Verdict::Refused(13, at));
        }
    }
}

/// A chain of the largest bounds, so that the sums are as far from zero as can
/// be: each variable at least 1,000,000 above the one before.
#[test]
fn case_11_the_largest_sums() {
    let most = LARGEST_BOUND as i32;
    let mut lines = vec![lone(-1, 0, -most)];
    lines.extend((1..=LAST_VARIABLE).map(|x| line(1, x - 1, -1, x, -most)));
    let model: Vec<i64> = (1..=MOST_N as i64).map(|x| LARGEST_BOUND * x).collect();
    let due = Verdict::Yes(Solved {
        bounds: model
            .iter()
            .flat_map(|&least| [least, NO_GREATEST])
            .collect(),
        model,
        groups: own_groups(MOST_VARIABLES),
    });
    lines.reverse();
    assert_eq!(decided(MOST_N, &identified(&lines)).verdict, due);
    // The last one at most 1,000,000 above the first.
    lines.push(line(1, LAST_VARIABLE, -1, 0, most));
    let verdict = decided(MOST_N, &identified(&lines)).verdict;
    assert_eq!(verdict, Verdict::No(Reason::ClosedWalk));
}

/// The lines with identifiers, in some order, and of not too many variables as they are
/// and turned round too: which walks are found late depends on it.
fn orders(n: i32, lines: &[Line]) -> Vec<Vec<Line>> {
    let lines = identified(lines);
    let order = Chance::new(9).order(lines.len());
    let mut orders = vec![order.iter().map(|&at| lines[at]).collect()];
    if n as usize <= SMALL_VARIABLES {
        orders.push(lines.to_vec());
        orders.push(lines.iter().rev().copied().collect());
    }
    orders
}

/// Each variable at least one above the one before it, the first at least 1: the
/// walk that says so of the last one passes all points, as does the closed walk if
/// the last one is to be below n.
fn longest_walks(n: i32) {
    let mut lines = vec![lone(-1, 0, -1)];
    lines.extend((1..n).map(|x| line(1, x - 1, -1, x, -1)));
    lines.push(lone(1, n - 1, n));
    let model: Vec<i64> = (1..=i64::from(n)).collect();
    let due = Verdict::Yes(Solved {
        bounds: model.iter().flat_map(|&value| [value, value]).collect(),
        model,
        groups: own_groups(n as usize),
    });
    for lines in orders(n, &lines) {
        assert_eq!(decided(n as u64, &lines).verdict, due);
    }
    lines[n as usize][BOUND] = n - 1;
    for lines in orders(n, &lines) {
        let decision = decided(n as u64, &lines);
        assert_eq!(decision.verdict, Verdict::No(Reason::ClosedWalk));
        let steps = decision.refutation[1];
        assert_eq!(steps, 2 * n as u32, "there is no shorter one");
    }
}

#[test]
fn the_longest_walks() {
    longest_walks(SMALL_VARIABLES as i32);
    longest_walks(MOST_VARIABLES as i32);
}

/// All variables equal, and the last one 3 or, if halves counted, three and a
/// half: from the first one's points there and back it is 4n - 2 steps.
fn longest_halved_walks(n: i32) {
    let last = n - 1;
    let mut lines = vec![line(1, last, 1, last, 7), line(-1, last, -1, last, -6)];
    for x in 1..n {
        lines.extend([line(1, x - 1, -1, x, 0), line(-1, x - 1, 1, x, 0)]);
    }
    let due = Verdict::Yes(Solved {
        model: vec![3; n as usize],
        bounds: vec![3; 2 * n as usize],
        groups: vec![[0, PLUS]; n as usize],
    });
    for lines in orders(n, &lines) {
        assert_eq!(decided(n as u64, &lines).verdict, due);
    }
    lines[1][BOUND] = -7;
    for lines in orders(n, &lines) {
        let verdict = decided(n as u64, &lines).verdict;
        assert_eq!(verdict, Verdict::No(Reason::HalvedWalks));
    }
}

#[test]
fn the_longest_halved_walks() {
    longest_halved_walks(SMALL_VARIABLES as i32);
    longest_halved_walks(MOST_VARIABLES as i32);
}

#[test]
fn case_12_which_refusal() {
    for at in [X, Y] {
        let mut line = identified(&[line(1, 0, 1, 0, 5)])[0];
        // The specification's n, and the most.
        for n in [64, MOST_VARIABLES] {
            line[at] = n as i32;
            assert_eq!(refused(n as u64, &line), Verdict::Refused(5, 0));
            line[at] = n as i32 - 1;
            assert_eq!(refused(n as u64, &line), closure::verdict(n, &[line]));
        }
        line[at - 1] = 2;
        line[at] = 99;
        assert_eq!(refused(64, &line), Verdict::Refused(4, 0));
    }
    let two = identified(&[line(1, 0, 1, 0, 1_000_001), line(2, 0, 1, 0, 0)]);
    assert_eq!(refused(64, &two.concat()), Verdict::Refused(6, 0));
}
