//! Which input is refused, with what number and place, and which refusal is
//! given where several apply; and which line a model's no names.

use utvpi_tests::bytes;
use utvpi_tests::limits::{LARGEST_VALUE, LAST_IDENTIFIER, LAST_VARIABLE, LINE_BYTES, MOST_LINES};
use utvpi_tests::limits::{MOST_N, MOST_REFUTATION, MOST_VARIABLES};
use utvpi_tests::lines::{identified, line, lone, misplaced, zero, Line, BOUND, IDENTIFIER, X, Y};
use utvpi_tests::make;
use utvpi_tests::second::Answer::{self, No, Refused, Yes};
use utvpi_tests::{model, refutation};

/// What is wrong with an input. The order here is the order in which the
/// refusals are given, but that a line's faults go by line first.
#[derive(Clone, Copy, Debug, PartialEq, Eq)]
enum Fault {
    Variables,
    ListLength,
    Lines,
    Coefficient(usize),
    Variable(usize),
    Misplaced(usize),
    Bound(usize),
    Identifier(usize),
    ModelLength,
    ModelValue(usize),
    LongRefutation,
}
use Fault::*;

impl Fault {
    /// The refusal, and a key by which the first one to be given is the least.
    fn refusal(self) -> ((u8, usize, u8), Answer) {
        match self {
            Variables => ((1, 0, 0), Refused(1, 0)),
            ListLength => ((2, 0, 0), Refused(2, 0)),
            Lines => ((3, 0, 0), Refused(3, 0)),
            Coefficient(line) => ((4, line, 0), Refused(4, line)),
            Variable(line) => ((4, line, 1), Refused(5, line)),
            Misplaced(line) => ((4, line, 2), Refused(12, line)),
            Bound(line) => ((4, line, 3), Refused(6, line)),
            Identifier(line) => ((4, line, 4), Refused(13, line)),
            ModelLength => ((9, 0, 0), Refused(9, 0)),
            ModelValue(index) => ((10, index, 0), Refused(10, index)),
            LongRefutation => ((11, 0, 0), Refused(11, 0)),
        }
    }
}

const FAULTS: [Fault; 21] = [
    Variables,
    ListLength,
    Lines,
    Coefficient(0),
    Variable(0),
    Misplaced(0),
    Bound(0),
    Identifier(0),
    Coefficient(1),
    Variable(1),
    Misplaced(1),
    Bound(1),
    Identifier(1),
    Coefficient(MOST_LINES - 1),
    Misplaced(MOST_LINES - 1),
    Bound(MOST_LINES - 1),
    Identifier(MOST_LINES - 1),
    ModelLength,
    ModelValue(0),
    ModelValue(MOST_VARIABLES - 1),
    LongRefutation,
];

/// The bytes of these lines with identifiers.
fn list(lines: &[Line]) -> Vec<u8> {
    bytes::list(&identified(lines))
}

/// Both checkers' answers to an input with just these faults.
fn answers(faults: &[Fault]) -> [Answer; 2] {
    let has = |fault| faults.contains(&fault);
    let more = |fault| usize::from(has(fault));
    let line = line(1, LAST_VARIABLE, -1, 0, 5);
    let mut lines = identified(&vec![line; MOST_LINES + more(Lines)]);
    let mut values = vec![LARGEST_VALUE; MOST_VARIABLES];
    for fault in faults {
        match *fault {
            Coefficient(line) => lines[line][2] = 2,
            Variable(line) => lines[line][Y] = 2 * LAST_VARIABLE,
            Misplaced(line) => lines[line][..=X].fill(0),
            Bound(line) => lines[line][BOUND] = -1_000_001,
            Identifier(line) => lines[line][IDENTIFIER] = LAST_IDENTIFIER + 1,
            ModelValue(index) => values[index] = -LARGEST_VALUE - 1,
            _ => {}
        }
    }
    if has(ModelLength) {
        values.push(0);
    }
    let mut list = bytes::list(&lines);
    if has(ListLength) {
        list.push(0);
    }
    let n = MOST_N + u64::from(has(Variables));
    let numbers = MOST_REFUTATION + more(LongRefutation);
    [
        model(n, &list, &bytes::model(&values)),
        refutation(n, &list, &vec![0; 4 * numbers]),
    ]
}

#[test]
fn the_first_of_several_refusals() {
    assert_eq!(answers(&[]), [Yes, No(0)]);
    let mut sets: Vec<Vec<Fault>> = vec![FAULTS.to_vec()];
    for (one, first) in FAULTS.iter().enumerate() {
        for (two, second) in FAULTS.iter().enumerate().skip(one) {
            sets.push(vec![*first, *second]);
            sets.extend(
                FAULTS[two..]
                    .iter()
                    .map(|third| vec![*first, *second, *third]),
            );
        }
    }
    for set in sets {
        let due = |mut faults: Vec<Fault>, otherwise| {
            faults.sort_by_key(|fault| fault.refusal().0);
            faults.first().map_or(otherwise, |fault| fault.refusal().1)
        };
        let of_model = |fault: &Fault| *fault != LongRefutation;
        let of_refutation = |fault: &Fault| !matches!(*fault, ModelLength | ModelValue(_));
        let expected = [
            due(set.iter().copied().filter(of_model).collect(), Yes),
            due(set.iter().copied().filter(of_refutation).collect(), No(0)),
        ];
        assert_eq!(answers(&set), expected, "{set:?}");
    }
}

#[test]
fn too_many_variables() {
    for n in [
        MOST_N + 1,
        MOST_N + 2,
        2 * MOST_N - 1,
        2 * MOST_N,
        1 << 16,
        1 << 31,
        1 << 32,
        (1 << 32) + 1,
        1 << 61,
        1 << 63,
        u64::MAX,
    ] {
        // The list is otherwise right, empty, of a broken length, or too long.
        for list in [
            vec![0; LINE_BYTES],
            vec![],
            vec![0; LINE_BYTES - 1],
            vec![9; LINE_BYTES * (MOST_LINES + 1)],
            vec![255; LINE_BYTES],
        ] {
            for bytes in [0, 8, 12, 8 * (MOST_VARIABLES + 1)] {
                assert_eq!(model(n, &list, &vec![0; bytes]), Refused(1, 0));
                assert_eq!(refutation(n, &list, &vec![0; bytes]), Refused(1, 0));
            }
        }
    }
    for n in 0..=MOST_N {
        assert_eq!(model(n, &[], &vec![0; 8 * n as usize]), Yes);
        assert_eq!(refutation(n, &[], &[]), No(0));
    }
}

#[test]
fn coefficients_and_variables() {
    for coefficient in [
        -2,
        2,
        3,
        127,
        128,
        255,
        256,
        257,
        65_535,
        65_537,
        i32::MIN,
        i32::MIN + 1,
        i32::MAX,
    ] {
        for bad in [
            lone(coefficient, 0, 0),
            misplaced(coefficient, 0, 0),
            line(1, 7, coefficient, 99, i32::MAX),
        ] {
            let packed = list(&[line(1, 0, 1, 1, 0), bad]);
            assert_eq!(model(2, &packed, &[0; 16]), Refused(4, 1));
            assert_eq!(refutation(2, &packed, &[]), Refused(4, 1));
        }
    }
    // Every number of variables, with variable numbers about both ends of its range.
    for n in 0..=LAST_VARIABLE + 1 {
        for variable in (-1..=2)
            .chain(n - 2..=n + 2)
            .chain([LAST_VARIABLE, 2 * LAST_VARIABLE])
        {
            let there = variable >= 0 && variable < n;
            for sign in [-1, 1] {
                for (line, otherwise) in [
                    (lone(sign, variable, 0), Yes),
                    (misplaced(sign, variable, 0), Refused(12, 0)),
                ] {
                    let expected = if there { otherwise } else { Refused(5, 0) };
                    let values = vec![0; 8 * n as usize];
                    assert_eq!(model(n as u64, &list(&[line]), &values), expected);
                }
            }
            // Beside the coefficient 0 only the number 0 stands, even if n is 0.
            for line in [line(0, variable, 0, 0, 0), line(0, 0, 0, variable, 0)] {
                let expected = if variable == 0 { No(0) } else { Refused(5, 0) };
                assert_eq!(refutation(n as u64, &list(&[line]), &[]), expected);
            }
        }
    }
}

#[test]
fn bounds_at_their_limits() {
    for d in [-1_000_000, -999_999, 999_999, 1_000_000] {
        assert_eq!(refutation(1, &list(&[line(1, 0, 1, 0, d)]), &[]), No(0));
    }
    for d in [
        -1_000_001,
        1_000_001,
        -(1 << 24),
        1 << 24,
        i32::MIN,
        i32::MAX,
    ] {
        assert_eq!(
            refutation(1, &list(&[line(1, 0, 1, 0, d)]), &[]),
            Refused(6, 0)
        );
        assert_eq!(model(1, &list(&[zero(d)]), &[0; 8]), Refused(6, 0));
    }
}

#[test]
fn the_length_of_a_model() {
    for n in 0..=MOST_N {
        let right = 8 * n as usize;
        for bytes in [
            0,
            1,
            4,
            7,
            8,
            9,
            right.saturating_sub(1),
            right,
            right + 1,
            right + 8,
            2 * right,
            16 * MOST_VARIABLES,
        ] {
            let expected = if bytes == right { Yes } else { Refused(9, 0) };
            assert_eq!(model(n, &list(&[zero(0)]), &vec![0; bytes]), expected);
            // Values beyond the limits come after the length.
            if bytes != right {
                assert_eq!(model(n, &[], &vec![127; bytes]), Refused(9, 0));
            }
        }
    }
}

#[test]
fn the_values_of_a_model() {
    let line = list(&[line(1, 0, -1, LAST_VARIABLE, 0)]);
    let model_of = |values: &[i64]| model(MOST_N, &line, &bytes::model(values));
    for value in [LARGEST_VALUE, -LARGEST_VALUE] {
        assert_eq!(model_of(&[value; MOST_VARIABLES]), Yes);
    }
    for value in [
        LARGEST_VALUE + 1,
        -LARGEST_VALUE - 1,
        i64::MAX,
        i64::MIN,
        1 << 40,
        1 << 62,
    ] {
        for index in 0..MOST_VARIABLES {
            let mut values = [0; MOST_VARIABLES];
            values[index] = value;
            assert_eq!(model_of(&values), Refused(10, index));
            // The lowest index is given, whatever stands above it.
            values[index..].fill(value);
            assert_eq!(model_of(&values), Refused(10, index));
            values[MOST_VARIABLES - 1] = -value.max(-i64::MAX);
            values[index] = value;
            assert_eq!(model_of(&values), Refused(10, index));
        }
    }
}

#[test]
fn the_length_of_a_refutation() {
    let lines = list(&[zero(-1)]);
    let bad = list(&[zero(-1), line(0, 1, 0, 0, 0)]);
    let right = bytes::refutation(&[3, 1, 0, 0]);
    // Bytes that are no multiple of four: a no, and after the list's refusals.
    for bytes in 0..40 {
        let mut proposed = right.clone();
        proposed.resize(bytes, 0);
        let expected = match bytes {
            16 => Yes,
            // Whole numbers, the first three among them, but not as many as due.
            12.. if bytes % 4 == 0 => No(2),
            _ => No(0),
        };
        assert_eq!(refutation(0, &lines, &proposed), expected, "{bytes} bytes");
        assert_eq!(
            refutation(0, &bad, &proposed),
            Refused(5, 1),
            "{bytes} bytes"
        );
    }
    let most = 4 * MOST_REFUTATION;
    for bytes in [most - 7, most - 4, most - 3, most - 2, most - 1, most] {
        assert_eq!(
            refutation(0, &lines, &vec![0; bytes]),
            No(0),
            "{bytes} bytes"
        );
        assert_eq!(
            refutation(0, &bad, &vec![0; bytes]),
            Refused(5, 1),
            "{bytes} bytes"
        );
    }
    for bytes in [most + 1, most + 2, most + 3, most + 4, most + 5, 2 * most] {
        assert_eq!(
            refutation(0, &lines, &vec![0; bytes]),
            Refused(11, 0),
            "{bytes} bytes"
        );
        assert_eq!(
            refutation(0, &bad, &vec![0; bytes]),
            Refused(5, 1),
            "{bytes} bytes"
        );
        assert_eq!(
            refutation(0, &lines[..LINE_BYTES - 1], &vec![0; bytes]),
            Refused(2, 0),
            "{bytes} bytes"
        );
    }
}

#[test]
fn the_first_line_that_a_model_fails() {
    for first in (0..MOST_LINES).step_by(13).chain([MOST_LINES - 1]) {
        let mut lines: Vec<Line> = vec![line(1, 0, 1, 1, 0); MOST_LINES];
        lines[first] = lone(-1, 0, -1);
        assert_eq!(model(2, &list(&lines), &[0; 16]), No(first));
        lines[first..].fill(line(-1, 0, 1, 1, -1));
        assert_eq!(model(2, &list(&lines), &[0; 16]), No(first));
    }
}

#[test]
fn the_left_side_of_a_line() {
    let values = [LARGEST_VALUE, -LARGEST_VALUE, 999_999, -500_000, 1, 0];
    for a in [-1, 0, 1] {
        for b in if a == 0 { 0..=0 } else { -1..=1 } {
            for x in 0..if a == 0 { 1 } else { 6 } {
                for y in 0..if b == 0 { 1 } else { 6 } {
                    let left = make::left_side(&line(a, x, b, y, 0), &values);
                    for d in [left - 1, left, left + 1, -1_000_000, 1_000_000] {
                        if d.abs() <= 1_000_000 {
                            let packed = list(&[zero(0), line(a, x, b, y, d as i32)]);
                            let expected = if left <= d { Yes } else { No(1) };
                            assert_eq!(model(6, &packed, &bytes::model(&values)), expected);
                        }
                    }
                }
            }
        }
    }
}
