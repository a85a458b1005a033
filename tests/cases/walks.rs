//! Refutations whose sums, halves, lengths or ends are at the edge of what is
//! accepted.

use utvpi_tests::bytes;
use utvpi_tests::limits::MOST_REFUTATION;
use utvpi_tests::lines::{identified, line, lone, zero, Line};
use utvpi_tests::second::Answer::{self, No, Yes};

/// As many steps as a refutation has room for.
const MOST_STEPS: usize = MOST_REFUTATION - 3;

fn refutation(n: u64, lines: &[Line], numbers: &[u32]) -> Answer {
    let list = bytes::list(&identified(lines));
    utvpi_tests::refutation(n, &list, &bytes::refutation(numbers))
}

fn kind_1(n: u64, lines: &[Line], walk: &[u32]) -> Answer {
    refutation(n, lines, &[&[1, walk.len() as u32, 0], walk].concat())
}

fn kind_2(n: u64, lines: &[Line], first: &[u32], second: &[u32]) -> Answer {
    let counts = [2, first.len() as u32, second.len() as u32];
    refutation(n, lines, &[&counts[..], first, second].concat())
}

/// Yes, or else a no at this place.
fn yes_or(place: usize, yes: bool) -> Answer {
    if yes {
        Yes
    } else {
        No(place)
    }
}

/// Yes, or else a no for the sums of so many steps in all, at the last of them.
fn yes_if_low(steps: usize, low: bool) -> Answer {
    yes_or(2 + steps, low)
}

#[test]
fn halving_goes_toward_minus_infinity() {
    // 2x ≤ s and -2x ≤ t: a walk from x+ to x- of sum s, and one back of sum t.
    // They refute the two lines exactly where no whole number x meets both.
    for s in -9..=9 {
        for t in -9..=9 {
            let lines = [line(1, 0, 1, 0, s), line(-1, 0, -1, 0, t)];
            let solvable = (-9..=9).any(|x| 2 * x <= s && -2 * x <= t);
            for (there, back) in [(0, 2), (0, 3), (1, 2), (1, 3)] {
                assert_eq!(
                    kind_2(1, &lines, &[there], &[back]),
                    yes_if_low(2, !solvable),
                    "{s} {t}"
                );
                assert_eq!(
                    kind_2(1, &lines, &[back], &[there]),
                    yes_if_low(2, !solvable),
                    "{s} {t}"
                );
                assert_eq!(
                    kind_1(1, &lines, &[there, back]),
                    yes_if_low(2, s + t < 0),
                    "{s} {t}"
                );
            }
        }
    }
}

#[test]
fn halves_that_are_named() {
    let halved = |s, t| kind_2(1, &[line(1, 0, 1, 0, s), line(-1, 0, -1, 0, t)], &[0], &[2]);
    // Only with -7 halved to -4: toward zero 3 - 3 is not below 0.
    assert_eq!(halved(7, -7), Yes);
    assert_eq!(halved(6, -7), Yes);
    assert_eq!(halved(-1, 1), Yes);
    assert_eq!(halved(999_999, -999_999), Yes);
    assert_eq!(halved(-999_999, 999_998), Yes);
    // -7 halved is -4 and no less, 8 halved is 4, 9 halved is 4 and no more.
    assert_eq!(halved(8, -7), No(4));
    assert_eq!(halved(9, -7), No(4));
    assert_eq!(halved(8, -8), No(4));
    assert_eq!(halved(0, 0), No(4));
    assert_eq!(halved(1, 0), No(4));
    assert_eq!(halved(1, 1), No(4));
    assert_eq!(halved(-1_000_000, 1_000_000), No(4));
    assert_eq!(halved(-999_999, 1_000_000), No(4));
}

#[test]
fn a_lone_variable_counts_twice() {
    for s in -3..=3 {
        for t in -3..=3 {
            let lines = [lone(1, 0, s), lone(-1, 0, t)];
            assert_eq!(kind_1(1, &lines, &[0, 2]), yes_if_low(2, s + t < 0));
            assert_eq!(kind_2(1, &lines, &[0], &[2]), yes_if_low(2, s + t < 0));
            // x ≤ s and -2x ≤ t.
            let mixed = [lone(1, 0, s), line(-1, 0, -1, 0, t)];
            assert_eq!(kind_1(1, &mixed, &[0, 2]), yes_if_low(2, 2 * s + t < 0));
            let solvable = (-9..=9).any(|x| x <= s && -2 * x <= t);
            assert_eq!(kind_2(1, &mixed, &[0], &[2]), yes_if_low(2, !solvable));
        }
    }
}

/// Lists and refutations that are a yes, to be spoiled.
fn accepted() -> [(u64, Vec<Line>, Vec<u32>); 5] {
    let lines = vec![
        line(1, 0, -1, 1, -1),
        line(1, 1, -1, 2, 0),
        line(-1, 0, 1, 2, 0),
        zero(-1),
        zero(0),
        lone(1, 1, 4),
        lone(-1, 1, -5),
        line(1, 2, 1, 2, 1),
        line(-1, 2, -1, 2, -1),
    ];
    [
        // x to y to z to x.
        (3, lines.clone(), vec![1, 3, 0, 0, 2, 5]),
        // The same the other way, from -x.
        (3, lines.clone(), vec![1, 3, 0, 4, 3, 1]),
        // z to -z and back, with a sum of 0 in all.
        (3, lines.clone(), vec![2, 1, 1, 14, 17]),
        // y to -y and back, with a sum below 0 in all.
        (3, lines.clone(), vec![2, 1, 1, 10, 12]),
        // The false line.
        (3, lines, vec![3, 1, 0, 6]),
    ]
}

#[test]
fn every_other_kind_or_count_is_a_no() {
    for (n, lines, right) in accepted() {
        assert_eq!(refutation(n, &lines, &right), Yes, "{right:?}");
        for kind in [
            0,
            1,
            2,
            3,
            4,
            5,
            255,
            256,
            257,
            258,
            259,
            1 << 16,
            1 << 31,
            (1 << 31) + 1,
            u32::MAX,
        ] {
            let other = [&[kind], &right[1..]].concat();
            let place = match (kind, right[0]) {
                // The counts do, but the false line is no step.
                (1, 3) => 3,
                (1..=3, _) => 1,
                _ => 0,
            };
            assert_eq!(
                refutation(n, &lines, &other),
                yes_or(place, kind == right[0]),
                "{other:?}"
            );
        }
        // Small counts, and such as add up to small ones if high bits are dropped.
        let starts = [0, 1 << 8, 1 << 16, 1 << 31, u32::MAX - 5];
        let counts = starts
            .map(|start| [0, 1, 2, 3, 4, 5].map(|more| start + more))
            .concat();
        for &p in &counts {
            for &q in &counts {
                let other = [&[right[0], p, q], &right[3..]].concat();
                let suits = match right[0] {
                    1 => p > 0 && q == 0,
                    2 => p > 0 && q > 0,
                    _ => (p, q) == (1, 0),
                };
                assert_eq!(
                    refutation(n, &lines, &other),
                    yes_or(1 + usize::from(suits), (p, q) == (right[1], right[2])),
                    "{other:?}"
                );
            }
        }
    }
}

#[test]
fn every_other_length_is_a_no() {
    for (n, lines, right) in accepted() {
        for length in 0..right.len() {
            assert_eq!(
                refutation(n, &lines, &right[..length]),
                No(if length < 3 { 0 } else { 2 }),
                "{length} of {right:?}"
            );
        }
        for more in 1..=4 {
            for number in [0, 2, 6, *right.last().unwrap(), u32::MAX] {
                let longer = [&right[..], &vec![number; more]].concat();
                assert_eq!(refutation(n, &lines, &longer), No(2), "{longer:?}");
            }
        }
    }
    // Counts that match an empty rest.
    for kind in 0..=4 {
        let place = usize::from((1..=3).contains(&kind));
        let answer = refutation(3, &accepted()[0].1, &[kind, 0, 0]);
        assert_eq!(answer, No(place), "{kind}");
    }
}

#[test]
fn a_step_that_is_none_or_leads_elsewhere_is_a_no() {
    for (n, lines, right) in accepted() {
        for at in 3..right.len() {
            // The lines' steps, some beyond, and some that are the right step
            // if high bits are dropped.
            let high = [1 << 8, 1 << 10, 1 << 16, 1 << 31].map(|high| right[at] + high);
            for number in (0..20).chain(high).chain([u32::MAX - 1, u32::MAX]) {
                let mut other = right.clone();
                other[at] = number;
                // Both sides of the lines on 2z are one and the same step.
                let same = number == right[at] || (right[at] >= 14 && number == right[at] ^ 1);
                let answer = refutation(n, &lines, &other);
                match answer {
                    Yes => assert!(same, "{other:?}"),
                    // A number that names no step is itself the place.
                    No(place) if number >= 18 || right[0] == 3 => assert_eq!(place, at),
                    No(place) => assert!(!same && at <= place && place < right.len()),
                    Answer::Refused(..) => panic!("{other:?} is refused"),
                }
                assert_eq!(answer == Yes, same, "{other:?}");
            }
        }
    }
}

#[test]
fn walks_that_do_not_meet_are_a_no() {
    let lines = accepted()[0].1.clone();
    // Open: x to y to z.
    assert_eq!(kind_1(3, &lines, &[0, 2]), No(4));
    // Closed, but two walks that do not meet: x to y to z to x, then z to -z.
    assert_eq!(kind_1(3, &lines, &[0, 2, 5, 14]), No(6));
    // Kind 2 from z to -z and from -y to y, each of a sum that would do.
    assert_eq!(kind_2(3, &lines, &[14], &[12]), No(4));
    // Kind 2 whose second walk begins elsewhere, or whose first ends elsewhere.
    assert_eq!(kind_2(3, &lines, &[14], &[0, 2]), No(4));
    assert_eq!(kind_2(3, &lines, &[5], &[17]), No(3));
    // Kind 2 from -z to z twice, and from a point to itself twice.
    assert_eq!(kind_2(3, &lines, &[17], &[17]), No(4));
    assert_eq!(kind_2(3, &lines, &[0, 2, 5], &[0, 2, 5]), No(5));
    // Kind 2 with closed walks of negative sums: not from a point to its opposite.
    assert_eq!(kind_2(3, &lines, &[0, 2, 5], &[4, 3, 1]), No(5));
    // A false line is no step of a walk, and a true one refutes nothing.
    assert_eq!(kind_1(3, &lines, &[6]), No(3));
    assert_eq!(kind_1(3, &lines, &[7]), No(3));
    assert_eq!(refutation(3, &lines, &[3, 1, 0, 7]), No(3));
    assert_eq!(refutation(3, &lines, &[3, 1, 0, 8]), No(3));
    assert_eq!(refutation(3, &lines, &[3, 2, 0, 6, 6]), No(1));
    assert_eq!(refutation(3, &lines, &[3, 1, 1, 6, 6]), No(1));
    assert_eq!(refutation(3, &lines, &[3, 0, 1, 6]), No(1));
    // Below 0 in its bound, but not without variables.
    assert_eq!(refutation(3, &lines, &[3, 1, 0, 0]), No(3));
    // From y to -y and back.
    assert_eq!(kind_2(3, &lines, &[10], &[12]), Yes);
    assert_eq!(kind_1(3, &lines, &[10, 12]), Yes);
    assert_eq!(kind_1(3, &lines, &[12, 10]), Yes);
}

#[test]
fn long_walks_of_the_largest_weights() {
    for sign in [-1, 1] {
        // x - x ≤ d: from x to x.
        let same = [line(1, 0, -1, 0, sign * 1_000_000)];
        for steps in [
            1,
            2,
            2147,
            2148,
            4294,
            4295,
            4296,
            MOST_STEPS / 2,
            MOST_STEPS - 1,
            MOST_STEPS,
        ] {
            assert_eq!(
                kind_1(1, &same, &vec![0; steps]),
                yes_if_low(steps, sign < 0),
                "{steps}"
            );
            assert_eq!(
                kind_1(1, &same, &vec![1; steps]),
                yes_if_low(steps, sign < 0),
                "{steps}"
            );
        }
        // x ≤ d and -x ≤ d, there and back, with the weight 2d.
        let lone = [lone(1, 0, sign * 1_000_000), lone(-1, 0, sign * 1_000_000)];
        for rounds in [
            1,
            536,
            537,
            1073,
            1074,
            1075,
            MOST_STEPS / 4,
            MOST_STEPS / 2,
        ] {
            let walk = [0, 2].repeat(rounds);
            let due = yes_if_low(2 * rounds, sign < 0);
            assert_eq!(kind_1(1, &lone, &walk), due, "{rounds}");
            for turn in [1, rounds | 1, 2 * rounds - 1] {
                assert_eq!(
                    kind_2(1, &lone, &walk[..turn], &walk[turn..]),
                    due,
                    "{rounds}"
                );
            }
        }
    }
}

#[test]
fn long_walks_round_a_cycle() {
    // 13 variables in a ring; 13 divides the largest number of steps.
    let ring = |last: i32| -> Vec<Line> {
        let bound = |at| {
            if at == 12 {
                last
            } else {
                [1_000_000, -1_000_000][at as usize % 2]
            }
        };
        (0..13)
            .map(|at| line(1, at, -1, (at + 1) % 13, bound(at)))
            .collect()
    };
    let round: Vec<u32> = (0..13).map(|at| 2 * at).collect();
    let back: Vec<u32> = (0..13).rev().map(|at| 2 * at + 1).collect();
    for last in [-1_000_000, -1, 0, 1, 1_000_000] {
        for walk in [&round, &back] {
            let long = walk.repeat(MOST_STEPS / 13);
            assert_eq!(long.len(), MOST_STEPS);
            let due = yes_if_low(MOST_STEPS, last < 0);
            assert_eq!(kind_1(13, &ring(last), &long), due, "{last}");
            // One step less, one more in place of another, one too many.
            assert_eq!(kind_1(13, &ring(last), &long[1..]), No(1 + MOST_STEPS));
            let mut wrong = long.clone();
            wrong[MOST_STEPS / 2] ^= 1;
            assert_eq!(kind_1(13, &ring(last), &wrong), No(3 + MOST_STEPS / 2));
            wrong = long.clone();
            wrong[MOST_STEPS - 1] = long[0];
            assert_eq!(kind_1(13, &ring(last), &wrong), No(2 + MOST_STEPS));
        }
    }
}

#[test]
fn long_walks_of_kind_2() {
    // x - x ≤ ±999,999 to go round at a point, 2x ≤ s and -2x ≤ t to change it.
    let lines = |s, t| {
        [
            line(1, 0, -1, 0, 999_999),
            line(1, 0, -1, 0, -999_999),
            line(1, 0, 1, 0, s),
            line(-1, 0, -1, 0, t),
        ]
    };
    // Up in one walk as often as down in the other.
    let most = MOST_STEPS / 2 - 1;
    for rounds in [0, 1, 2, 2147, 2148, 4294, 4295, most - 1, most] {
        let up = vec![0; rounds];
        let down = vec![3; rounds];
        for s in -3..=3 {
            for t in -3..=3 {
                let sums = (rounds as i64 * 999_999 + s, rounds as i64 * -999_999 + t);
                let below = sums.0.div_euclid(2) + sums.1.div_euclid(2) < 0;
                let there = [&up[..], &[4]].concat();
                let back = [&[6], &down[..]].concat();
                // The steps of `up` lead from x to x, those of `down` as well if
                // they come after the change back.
                let down_at_x: Vec<u32> = back
                    .iter()
                    .map(|&step| if step == 3 { 2 } else { step })
                    .collect();
                let lines = lines(s as i32, t as i32);
                assert_eq!(
                    kind_2(1, &lines, &there, &down_at_x),
                    yes_if_low(2 * rounds + 2, below),
                    "{rounds} {s} {t}"
                );
                // The first step of `down` itself does not begin at x.
                let place = 4 + rounds + usize::from(rounds > 0);
                assert_eq!(
                    kind_2(1, &lines, &there, &back),
                    yes_or(place, below && rounds == 0)
                );
                // The same from -x: there over -x, back over x.
                let there = [&down[..], &[6]].concat();
                let back = [&[5], &up.iter().map(|_| 1).collect::<Vec<u32>>()[..]].concat();
                assert_eq!(
                    kind_2(1, &lines, &there, &back),
                    yes_if_low(2 * rounds + 2, below),
                    "{rounds} {s} {t}"
                );
            }
        }
    }
    // As many steps as there is room for, all in one walk or the other.
    for sign in [-1, 1] {
        let step = if sign < 0 { 2 } else { 0 };
        let many = vec![step; MOST_STEPS - 2];
        let first = [&many[..], &[4]].concat();
        let second = [&[6], &many[..]].concat();
        let due = yes_if_low(MOST_STEPS, sign < 0);
        assert_eq!(kind_2(1, &lines(0, 0), &first, &[6]), due);
        assert_eq!(kind_2(1, &lines(0, 0), &[4], &second), due);
        let both = [&first[..], &[6]].concat();
        assert_eq!(kind_1(1, &lines(0, 0), &both), due);
    }
}
