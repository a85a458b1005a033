//! What the two questions of what a list implies refuse, and which refusal is given where
//! several apply; the limits, which the opposite line may pass by one; short buffers. A
//! refusal changes nothing, which every call here makes sure of.

use utvpi_tests::chance::Chance;
use utvpi_tests::closure;
use utvpi_tests::damage::{damaged_list, fault_sets, faulty_line, first_fault, refused_lists};
use utvpi_tests::document::largest;
use utvpi_tests::implied::{due, implied, implied_in, pair, pair_in, rooms, Implied, Pair};
use utvpi_tests::limits::{LARGEST_BOUND, LINE_NUMBERS, MOST_LINES, MOST_N, MOST_VARIABLES};
use utvpi_tests::lines::{identified, line, lone, zero, Line};
use utvpi_tests::make_lists::small;

/// Numbers that are no variable of two.
const NO_VARIABLES: [u64; 6] = [2, 3, MOST_N, 1 << 32, 1 << 63, u64::MAX];

/// Every list that is refused, whatever else is wrong.
#[test]
fn lists_that_are_refused() {
    let mut chance = Chance::new(170);
    for (n, list, (number, place)) in refused_lists() {
        for work in [0, rooms(n.min(MOST_N))[1]] {
            for variables in [[0, 0], [0, 9], [u64::MAX, 0]] {
                let pair = pair_in(&mut chance, n, &list, variables, work);
                assert_eq!(pair, Pair::Refused(number, place));
            }
            for faults in [0, 1, fault_sets().end - 1] {
                for model in [0, rooms(n.min(MOST_N))[0]] {
                    let line = faulty_line(&mut chance, faults);
                    let implied = implied_in(&mut chance, n, &list, line, [model, work]);
                    assert_eq!(implied, Implied::Refused(number, place));
                }
            }
        }
    }
}

/// A pair: the list is looked at first, then x, then y, then the work area.
#[test]
fn the_order_for_a_pair() {
    let mut chance = Chance::new(171);
    let fine = identified(&[lone(1, 0, 3), line(1, 0, -1, 1, 2)]);
    let bad = [&fine[..], &[lone(1, 2, 3)]].concat();
    let room = rooms(2)[1];
    for wrong in 0..1 << 4 {
        let [list, x, y, work] = [0, 1, 2, 3].map(|bit| wrong >> bit & 1 == 1);
        let lines = if list { &bad } else { &fine };
        let mut variable = |bad| {
            if bad {
                chance.pick(&NO_VARIABLES)
            } else {
                chance.below(2) as u64
            }
        };
        let variables = [variable(x), variable(y)];
        let length = if work { room - 1 } else { room };
        let answer = pair_in(&mut chance, 2, lines.as_flattened(), variables, length);
        match (list, x, y, work) {
            (true, ..) => assert_eq!(answer, Pair::Refused(5, 2)),
            (_, true, ..) => assert_eq!(answer, Pair::Refused(5, 0)),
            (_, _, true, _) => assert_eq!(answer, Pair::Refused(5, 1)),
            (.., true) => assert_eq!(answer, Pair::Refused(8, 0)),
            _ => assert!(matches!(answer, Pair::Sums(_))),
        }
    }
}

/// No variable at all: every number is out of range.
#[test]
fn no_variables() {
    let mut chance = Chance::new(172);
    let room = rooms(0)[1];
    for x in [0, 1, u64::MAX] {
        let answer = pair_in(&mut chance, 0, &[], [x, 0], room);
        assert_eq!(answer, Pair::Refused(5, 0));
    }
    let answer = implied_in(&mut chance, 0, &[], lone(1, 0, 0), [0, room]);
    assert_eq!(answer, Implied::Refused(5, 0));
}

/// A line: all sets of its faults, with the buffers long enough and short. Its place is
/// the number of lines.
#[test]
fn the_order_for_a_line() {
    let mut chance = Chance::new(173);
    let [model, work] = rooms(2);
    for count in [0, 1, 2, 5] {
        let list = vec![lone(1, 0, 3); count].concat();
        for faults in fault_sets() {
            for short in 0..1 << 2 {
                let line = faulty_line(&mut chance, faults);
                let lengths = [model - (short & 1), work - (short >> 1)];
                let answer = implied_in(&mut chance, 2, &list, line, lengths);
                let short = match short {
                    0 => None,
                    2 => Some((8, 0)),
                    _ => Some((7, 1)),
                };
                let number = first_fault(faults).map(|number| (number, count));
                match number.or(short) {
                    Some((number, place)) => assert_eq!(answer, Implied::Refused(number, place)),
                    None => assert!(matches!(answer, Implied::No(_)), "{answer:?}"),
                }
            }
        }
    }
}

/// The most lines are no fault of the line that is asked about: its place is that of one
/// more.
#[test]
fn the_place_behind_the_most_lines() {
    let mut chance = Chance::new(174);
    let list = vec![zero(0); MOST_LINES];
    for faults in fault_sets().skip(1) {
        let line = faulty_line(&mut chance, faults);
        let due = Implied::Refused(first_fault(faults).unwrap(), MOST_LINES);
        assert_eq!(implied(&mut chance, 2, &list, line), due);
    }
    assert_eq!(implied(&mut chance, 2, &list, zero(0)), Implied::Yes);
    assert!(matches!(pair(&mut chance, 2, &list, 0, 1), Pair::Sums(_)));
}

/// Every length up to the room, some beyond it: what lies there is left alone.
#[test]
fn short_and_long_buffers() {
    let mut chance = Chance::new(175);
    for n in [1, 2, 3] {
        let lines = identified(&[lone(1, 0, 3), lone(-1, 0, -2)]);
        let [model, work] = rooms(n);
        for length in (0..work + 9).filter(|length| *length + 4 > work || length % 7 == 0) {
            let answer = pair_in(&mut chance, n, lines.as_flattened(), [0, n - 1], length);
            assert_eq!(answer == Pair::Refused(8, 0), length < work);
            for model_length in 0..model + 3 {
                let lengths = [model_length, length];
                let answer = implied_in(&mut chance, n, lines.as_flattened(), zero(-1), lengths);
                match (model_length < model, length < work) {
                    (true, _) => assert_eq!(answer, Implied::Refused(7, 1)),
                    (_, true) => assert_eq!(answer, Implied::Refused(8, 0)),
                    _ => assert!(matches!(answer, Implied::No(_))),
                }
            }
        }
    }
}

/// Damaged lists, with x, y and lines in range or not: a refusal is given exactly where the
/// second implementation has one, and is the same.
#[test]
fn damaged_lists() {
    let mut chance = Chance::new(176);
    let (mut refused, mut answered) = (0, 0);
    for _ in 0..4_000 {
        let (n, lines) = small(&mut chance);
        let (n, list) = damaged_list(&mut chance, n, lines.as_flattened());
        let [model, work] = rooms(if n > MOST_N { 0 } else { n });
        let variables = [(); 2].map(|()| chance.next() % n.clamp(1, 4) + chance.below(2) as u64);
        let faults = chance.pick(&[0, 0, 0, 1, 2, 4, 8, 16]);
        let line = faulty_line(&mut chance, faults);
        // A list of many variables takes long, and is refused as one of few is.
        if n <= 8 || n > MOST_N {
            let answers = [
                matches!(
                    pair_in(&mut chance, n, &list, variables, work),
                    Pair::Refused(..)
                ),
                matches!(
                    implied_in(&mut chance, n, &list, line, [model, work]),
                    Implied::Refused(..)
                ),
            ];
            refused += answers.iter().filter(|&&refused| refused).count();
            answered += answers.iter().filter(|&&refused| !refused).count();
        }
    }
    println!("{refused} refused, {answered} answered");
    assert!(refused > 1_000 && answered > 500);
}

/// Bounds at the limits: the opposite line may pass them by one.
#[test]
fn bounds_passed_by_one() {
    let mut chance = Chance::new(177);
    let largest = LARGEST_BOUND as i32;
    let beyond = LARGEST_BOUND + 1;
    let no = |model: [i64; 2]| Implied::No(model.to_vec());
    for (asked, answer) in [
        (lone(1, 0, largest), no([beyond, 0])),
        (lone(-1, 0, largest), no([-beyond, 0])),
        (lone(1, 1, -largest), no([0, 0])),
        (lone(-1, 1, -largest), no([0, 0])),
        (line(1, 0, 1, 1, largest), no([0, beyond])),
        (line(1, 0, -1, 1, largest), no([0, -beyond])),
        (line(-1, 0, -1, 1, largest), no([0, -beyond])),
        (line(1, 0, 1, 0, largest), no([beyond / 2 + 1, 0])),
        (line(-1, 0, 1, 1, -largest), no([0, 0])),
        (line(1, 0, -1, 0, largest), Implied::Yes),
        (zero(largest), Implied::Yes),
        (zero(-largest), no([0, 0])),
    ] {
        assert_eq!(implied(&mut chance, 2, &[], asked), answer, "{asked:?}");
        assert_eq!(due(closure::verdict, 2, &[], asked), answer, "{asked:?}");
    }
    let tight = identified(&[lone(1, 0, largest), lone(-1, 1, largest)]);
    for asked in [tight[0], tight[1], line(1, 0, -1, 0, 0)] {
        assert_eq!(implied(&mut chance, 2, &tight, asked), Implied::Yes);
    }
    let answer = implied(&mut chance, 2, &tight, lone(1, 0, largest - 1));
    assert_eq!(answer, no([LARGEST_BOUND, 0]));
}

/// The most lines over the most variables: with the opposite line there is one more.
#[test]
fn lines_passed_by_one() {
    let mut chance = Chance::new(178);
    let lines = largest();
    let n = MOST_VARIABLES as i32;
    let (first, last) = (lines[0], lines[MOST_LINES - 1]);
    let high = LARGEST_BOUND as i32;
    let others = [
        lone(1, n - 1, high),
        lone(-1, 0, high),
        line(-1, 3, 1, n - 2, 5),
    ];
    for asked in [first, last].into_iter().chain(others) {
        let answer = implied(&mut chance, MOST_N, &lines, asked);
        assert_eq!(
            answer,
            due(closure::verdict, MOST_N, &lines, asked),
            "{asked:?}"
        );
    }
    let distances = closure::distances(MOST_VARIABLES, &lines).unwrap();
    for [x, y] in [[0, 0], [0, MOST_VARIABLES - 1], [MOST_VARIABLES - 1, 7]] {
        let sums = Pair::Sums(distances.sums(x, y));
        assert_eq!(pair(&mut chance, MOST_N, &lines, x, y), sums);
    }
    // One line more is too many for the list itself.
    let more: Vec<Line> = [&lines[..], &[zero(0)]].concat();
    assert_eq!(more.as_flattened().len(), LINE_NUMBERS * (MOST_LINES + 1));
    let refused = Implied::Refused(3, 0);
    assert_eq!(implied(&mut chance, MOST_N, &more, zero(0)), refused);
    assert_eq!(pair(&mut chance, MOST_N, &more, 0, 1), Pair::Refused(3, 0));
}
