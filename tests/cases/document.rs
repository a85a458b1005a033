//! The cases that docs/SPECIFICATION.md names, and its table of steps.

use utvpi_tests::bytes;
use utvpi_tests::document::{largest, CASE_4};
use utvpi_tests::limits::NO_IDENTIFIERS;
use utvpi_tests::limits::{LINE_BYTES, LINE_NUMBERS, MOST_LINES, MOST_N, MOST_VARIABLES};
use utvpi_tests::lines::{identified, line, lone, misplaced, zero, Line, BOUND, IDENTIFIER};
use utvpi_tests::second::Answer::{self, No, Refused, Yes};

/// The answer that is given to these lines as they are, and to the same ones with other
/// identifiers.
fn both(lines: &[Line], answer: impl Fn(&[u8]) -> Answer) -> Answer {
    let [one, other] = [lines, &identified(lines)].map(|lines| answer(&bytes::list(lines)));
    assert_eq!(one, other, "{lines:?}");
    one
}

fn model(n: u64, lines: &[Line], values: &[i64]) -> Answer {
    both(lines, |list| {
        utvpi_tests::model(n, list, &bytes::model(values))
    })
}

fn refutation(n: u64, lines: &[Line], numbers: &[u32]) -> Answer {
    both(lines, |list| {
        utvpi_tests::refutation(n, list, &bytes::refutation(numbers))
    })
}

#[test]
fn cases_1_and_2_nothing_asked() {
    for n in 0..=MOST_N {
        assert_eq!(model(n, &[], &vec![0; n as usize]), Yes);
        assert_eq!(refutation(n, &[], &[3, 1, 0, 0]), No(3));
        assert_eq!(refutation(n, &[], &[]), No(0));
    }
}

#[test]
fn case_3_a_false_line() {
    assert_eq!(refutation(0, &[zero(-1)], &[3, 1, 0, 0]), Yes);
    assert_eq!(model(0, &[zero(-1)], &[]), No(0));
    assert_eq!(refutation(0, &[zero(0)], &[3, 1, 0, 0]), No(3));
    assert_eq!(model(0, &[zero(0)], &[]), Yes);
}

#[test]
fn case_4_only_halves_would_solve_it() {
    assert_eq!(refutation(3, &CASE_4, &[2, 2, 2, 0, 3, 4, 7]), Yes);
    // With S = 1 and T = -1 the sum of both is 0, so one walk is not enough.
    assert_eq!(refutation(3, &CASE_4, &[1, 4, 0, 0, 3, 4, 7]), No(6));
    // The variant without the last line, and one with its bound raised.
    assert_eq!(refutation(3, &CASE_4[..3], &[2, 2, 2, 0, 3, 4, 7]), No(6));
    let mut raised = CASE_4;
    raised[3][BOUND] = 4;
    assert_eq!(refutation(3, &raised, &[2, 2, 2, 0, 3, 4, 7]), No(6));
    assert_eq!(model(3, &raised, &[0, -1, 4]), Yes);
}

#[test]
fn case_5_case_4_without_its_last_line() {
    assert_eq!(model(3, &CASE_4[..3], &[0, -1, 4]), Yes);
    assert_eq!(model(3, &CASE_4, &[0, -1, 4]), No(3));
    assert_eq!(model(3, &CASE_4[..3], &[0, -1, 3]), No(2));
    assert_eq!(model(3, &CASE_4[..3], &[0, 0, 3]), No(1));
    assert_eq!(model(3, &CASE_4[..3], &[1, -2, 3]), No(0));
}

#[test]
fn case_6_equal_without_a_cycle_of_sum_0() {
    let lines = [
        line(1, 0, 1, 0, 1),
        line(-1, 0, -1, 0, 1),
        line(1, 1, 1, 1, 1),
        line(-1, 1, -1, 1, 1),
    ];
    assert_eq!(model(2, &lines, &[0, 0]), Yes);
    assert_eq!(model(2, &lines, &[1, 1]), No(0));
    assert_eq!(model(2, &lines, &[-1, 1]), No(1));
    assert_eq!(model(2, &lines, &[0, 1]), No(2));
    assert_eq!(model(2, &lines, &[0, -1]), No(3));
}

#[test]
fn case_7_a_variable_below_itself() {
    assert_eq!(refutation(1, &[line(1, 0, -1, 0, -1)], &[1, 1, 0, 0]), Yes);
    assert_eq!(refutation(1, &[line(1, 0, -1, 0, -1)], &[1, 1, 0, 1]), Yes);
    assert_eq!(refutation(1, &[line(1, 0, -1, 0, 0)], &[1, 1, 0, 0]), No(3));
    assert_eq!(model(1, &[line(1, 0, -1, 0, 0)], &[5]), Yes);
    assert_eq!(model(1, &[line(1, 0, -1, 0, -1)], &[5]), No(0));
}

#[test]
fn case_8_one_variable_between_two_bounds() {
    let no = [lone(1, 0, 3), lone(-1, 0, -4)];
    let yes = [lone(1, 0, 3), lone(-1, 0, -3)];
    assert_eq!(refutation(1, &no, &[1, 2, 0, 0, 2]), Yes);
    assert_eq!(refutation(1, &no, &[2, 1, 1, 0, 2]), Yes);
    assert_eq!(refutation(1, &yes, &[1, 2, 0, 0, 2]), No(4));
    assert_eq!(refutation(1, &yes, &[2, 1, 1, 0, 2]), No(4));
    assert_eq!(model(1, &yes, &[3]), Yes);
    assert_eq!(model(1, &yes, &[4]), No(0));
    assert_eq!(model(1, &yes, &[2]), No(1));
    // The same lines with the variable in the other place.
    let other = [lone(1, 0, 3), misplaced(-1, 0, -4)];
    assert_eq!(refutation(1, &other, &[1, 2, 0, 2, 0]), Refused(12, 1));
    assert_eq!(model(1, &other, &[3]), Refused(12, 1));
}

#[test]
fn cases_9_and_10_models() {
    assert_eq!(model(1, &[line(-1, 0, -1, 0, -7)], &[4]), Yes);
    assert_eq!(model(1, &[line(-1, 0, -1, 0, -7)], &[3]), No(0));
    let equal = [line(1, 0, -1, 1, 0), line(-1, 0, 1, 1, 0)];
    assert_eq!(model(2, &equal, &[0, 0]), Yes);
    assert_eq!(model(2, &equal, &[1, 0]), No(0));
    assert_eq!(model(2, &equal, &[0, 1]), No(1));
}

#[test]
fn case_11_the_largest_list() {
    let lines = largest();
    assert_eq!(model(MOST_N, &lines, &[500_000; MOST_VARIABLES]), Yes);
    assert_eq!(model(MOST_N, &lines, &[500_001; MOST_VARIABLES]), No(0));
    assert_eq!(refutation(MOST_N, &lines, &[1, 1, 0, 0]), No(3));
    let mut refuted = lines.clone();
    let last = MOST_LINES - 1;
    refuted[last] = zero(-1_000_000);
    let step = 2 * last as u32;
    assert_eq!(refutation(MOST_N, &refuted, &[3, 1, 0, step]), Yes);
    assert_eq!(
        model(MOST_N, &refuted, &[500_000; MOST_VARIABLES]),
        No(last)
    );
}

/// What both checkers answer to a list that they refuse.
fn refused(n: u64, list: &[u8]) -> Answer {
    let values = vec![0; n.min(MOST_N + 1) as usize];
    let answer = utvpi_tests::model(n, list, &bytes::model(&values));
    assert_eq!(
        answer,
        utvpi_tests::refutation(n, list, &bytes::refutation(&[1, 1, 0, 0]))
    );
    answer
}

#[test]
fn case_11_just_too_much() {
    let lines = largest();
    assert_eq!(refused(MOST_N + 1, &bytes::list(&lines)), Refused(1, 0));
    let longer = [&lines[..], &[zero(0)]].concat();
    assert_eq!(refused(MOST_N, &bytes::list(&longer)), Refused(3, 0));
    for line in [0, 1, 255, 256, MOST_LINES - 1] {
        for d in [-1_000_001, 1_000_001, i32::MIN, i32::MAX] {
            let mut high = lines.clone();
            high[line][BOUND] = d;
            assert_eq!(refused(MOST_N, &bytes::list(&high)), Refused(6, line));
        }
        for identifier in NO_IDENTIFIERS {
            let mut other = lines.clone();
            other[line][IDENTIFIER] = identifier;
            assert_eq!(refused(MOST_N, &bytes::list(&other)), Refused(13, line));
        }
    }
}

#[test]
fn case_11_a_broken_length() {
    assert_eq!(
        refused(1, &bytes::numbers(&[0; LINE_NUMBERS + 1])),
        Refused(2, 0)
    );
    for bytes in (0..10 * LINE_BYTES).filter(|bytes| bytes % LINE_BYTES != 0) {
        assert_eq!(refused(1, &vec![0; bytes]), Refused(2, 0), "{bytes} bytes");
    }
    let most = LINE_BYTES * MOST_LINES;
    let longer = most + LINE_BYTES;
    for bytes in [most - 1, most + 1, longer - 1, longer + 1, 1_000_001] {
        assert_eq!(refused(1, &vec![0; bytes]), Refused(2, 0), "{bytes} bytes");
    }
}

#[test]
fn case_12_variables_and_coefficients() {
    let list = |lines: &[Line]| bytes::list(&identified(lines));
    // Variable n of n, never taken as variable 0, and others with high bits: for
    // the specification's n, and for the most.
    for n in [64, MOST_VARIABLES as i32] {
        for variable in [n, n + 1, 2 * n, 4 * n, 1 << 16, 1 << 24, 1 << 30, i32::MAX]
            .into_iter()
            .chain([i32::MIN, -1, -n])
        {
            for line in [
                lone(1, variable, 0),
                misplaced(1, variable, 0),
                line(-1, 0, -1, variable, 0),
                line(0, variable, 1, 0, 0),
            ] {
                assert_eq!(refused(n as u64, &list(&[line])), Refused(5, 0));
            }
        }
    }
    // A coefficient that is no coefficient, and a variable that is none.
    assert_eq!(refused(64, &list(&[lone(2, 99, 0)])), Refused(4, 0));
    assert_eq!(refused(64, &list(&[line(1, 99, 2, 0, 0)])), Refused(4, 0));
    // A bad bound in line 0 and a bad coefficient in line 1.
    assert_eq!(
        refused(64, &list(&[lone(1, 0, 1_000_001), lone(2, 0, 0)])),
        Refused(6, 0)
    );
}

#[test]
fn case_13_the_second_walk_breaks() {
    // The last step begins at -x, where z is due.
    assert_eq!(refutation(3, &CASE_4, &[2, 2, 2, 0, 3, 4, 6]), No(6));
}

/// A point: a variable, and 1 for it or -1 for its negative.
type Point = (i32, i32);

/// The specification's table, with 0 as x and 1 as y: a, b, then start and end
/// of side 0, of side 1, and the factor of d in the weight.
type Row = (
    i32,
    i32,
    Option<(Point, Point)>,
    Option<(Point, Point)>,
    i32,
);
const X: Point = (0, 1);
const Y: Point = (1, 1);
const NOT_X: Point = (0, -1);
const NOT_Y: Point = (1, -1);
const TABLE: [Row; 7] = [
    (1, 1, Some((X, NOT_Y)), Some((Y, NOT_X)), 1),
    (1, -1, Some((X, Y)), Some((NOT_Y, NOT_X)), 1),
    (-1, 1, Some((NOT_X, NOT_Y)), Some((Y, X)), 1),
    (-1, -1, Some((NOT_X, Y)), Some((NOT_Y, X)), 1),
    (1, 0, Some((X, NOT_X)), None, 2),
    (-1, 0, Some((NOT_X, X)), None, 2),
    (0, 0, None, None, 1),
];

/// Tries step `number` of line 1 against every pair of points: line 0 leads back
/// from the second to the first, and closes the walk only if the step is `due`.
/// The place of a no tells a step that is none from one that leads elsewhere.
fn try_step(tried: Line, number: u32, due: Option<(Point, Point)>, weight: i32) {
    let points = [X, Y, NOT_X, NOT_Y];
    for (from, to) in points.map(|from| points.map(|to| (from, to))).concat() {
        for sum in [-1, 0] {
            let back = line(to.1, to.0, -from.1, from.0, sum - weight);
            let expected = match due {
                None => No(3),
                Some(step) if step == (from, to) && sum < 0 => Yes,
                Some(_) => No(4),
            };
            let answer = refutation(2, &[back, tried], &[1, 2, 0, number, 0]);
            assert_eq!(answer, expected, "{tried:?} {number} {from:?} {to:?}");
        }
    }
}

#[test]
fn the_table_of_steps() {
    for (a, b, side_0, side_1, factor) in TABLE {
        // x and y as two variables, in either order, and as the same one.
        for (x, y) in [(0, 1), (1, 0), (0, 0), (1, 1)] {
            let name = |(variable, sign): Point| ([x, y][variable as usize], sign);
            let due = |(from, to): (Point, Point)| (name(from), name(to));
            for d in [-1_000, -3, 0, 7] {
                let line = line(a, a.abs() * x, b, b.abs() * y, d);
                try_step(line, 2, side_0.map(due), factor * d);
                try_step(line, 3, side_1.map(due), factor * d);
            }
        }
    }
}
