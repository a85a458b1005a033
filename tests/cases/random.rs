//! Random input, right, nearly right and damaged: the library must answer as
//! the second implementation does, and never accept a refutation of a list that
//! has a solution. Each test counts the answers that it saw.

use std::hint::black_box;
use std::thread;

use utvpi_tests::bytes;
use utvpi_tests::chance::Chance;
use utvpi_tests::damage::Input;
use utvpi_tests::library::{self, Check};
use utvpi_tests::limits::{LINE_NUMBERS, MOST_LINES, MOST_REFUTATION, NUMBER_BYTES};
use utvpi_tests::make;
use utvpi_tests::make_cases::{some_case, some_lines, some_values, Case};
use utvpi_tests::second::{self, Answer};
use utvpi_tests::seen::Seen;

#[test]
fn models() {
    let mut chance = Chance::new(1);
    let mut seen = Seen::default();
    for _ in 0..60_000 {
        let n = make::variables(&mut chance);
        let count = some_lines(&mut chance);
        let values = some_values(&mut chance, n);
        let lines = make::lines_met_by(&mut chance, &values, count);
        let right = Input {
            n,
            list: bytes::list(&lines),
            proposed: bytes::model(&values),
        };
        let answer = utvpi_tests::model(n, &right.list, &right.proposed);
        assert_eq!(answer == Answer::Yes, count <= MOST_LINES, "{answer:?}");
        seen.count(answer);

        // Another list with the same model, and another model of the same list.
        let other_list = bytes::list(&make::lines(&mut chance, n, count));
        seen.count(utvpi_tests::model(n, &other_list, &right.proposed));
        let other_values = bytes::model(&some_values(&mut chance, n));
        seen.count(utvpi_tests::model(n, &right.list, &other_values));
        for _ in 0..5 {
            let Input { n, list, proposed } = right.damaged(&mut chance, 8);
            seen.count(utvpi_tests::model(n, &list, &proposed));
        }
    }
    seen.must_include(&[1, 2, 3, 4, 5, 6, 9, 10, 12, 13], 480_000);
}

/// Whether small values of at most two variables meet the list.
fn has_small_solution(n: u64, list: &[u8]) -> bool {
    let values = |x, y| bytes::model(&[x, y][..n as usize]);
    (-6..=6).any(|x| (-6..=6).any(|y| second::check_model(n, list, &values(x, y)) == Answer::Yes))
}

#[test]
fn refutations() {
    let mut chance = Chance::new(2);
    let mut seen = Seen::default();
    let (mut yes_of_kind, mut solvable) = ([0; 4], 0);
    for round in 0..100_000 {
        let case = some_case(&mut chance);
        let mut inputs = case.inputs(&mut chance);
        if round % 50 == 0 {
            let mut long = inputs[0].clone();
            let bytes = 4 * MOST_REFUTATION - 3 + chance.below(9);
            long.proposed.resize(bytes, 0);
            inputs.push(long);
        }
        for Input { n, list, proposed } in inputs {
            let answer = utvpi_tests::refutation(n, &list, &proposed);
            seen.count(answer);
            let known = case.solution.as_ref().is_some_and(|values| {
                second::check_model(n, &list, &bytes::model(values)) == Answer::Yes
            });
            solvable += usize::from(known);
            if answer == Answer::Yes {
                yes_of_kind[proposed[0] as usize] += 1;
                let shown = bytes::show(&list, NUMBER_BYTES);
                assert!(
                    !known,
                    "{:?} solves n {n}, list {shown}, refuted by {proposed:?}",
                    case.solution
                );
                if n <= 2 {
                    assert!(
                        !has_small_solution(n, &list),
                        "n {n}, list {shown}, {proposed:?}"
                    );
                }
            }
        }
    }
    println!(
        "yes by kind {:?}, {solvable} inputs with a known solution",
        &yes_of_kind[1..]
    );
    seen.must_include(&[1, 2, 3, 4, 5, 6, 11, 12, 13], 700_000);
    assert!(solvable >= 50_000);
    assert!(
        yes_of_kind[1..].iter().all(|&times| times >= 1_000),
        "{yes_of_kind:?}"
    );
}

/// Numbers with no thought behind them, and bytes with none.
#[test]
fn noise() {
    let mut chance = Chance::new(3);
    let mut seen = Seen::default();
    for _ in 0..20_000 {
        let n = chance.between(0, 3) as u64;
        let list: Vec<i32> = (0..chance.below(6 * LINE_NUMBERS + 2))
            .map(|_| chance.between(-2, 2) as i32)
            .collect();
        let some: Vec<u32> = (0..chance.below(9))
            .map(|_| chance.below(4) as u32)
            .collect();
        let mut list = bytes::numbers(&list);
        let mut some = bytes::refutation(&some);
        seen.count(utvpi_tests::model(n, &list, &some));
        seen.count(utvpi_tests::refutation(n, &list, &some));
        list.iter_mut()
            .chain(&mut some)
            .for_each(|byte| *byte = chance.next() as u8);
        seen.count(utvpi_tests::model(n, &list, &some));
        seen.count(utvpi_tests::refutation(n, &list, &some));
    }
    assert!(
        seen.inputs == 80_000 && seen.no >= 100,
        "{} inputs, {} no",
        seen.inputs,
        seen.no
    );
}

/// Calls the function on copies of the bytes that begin at any alignment, lie
/// between other bytes, and must be left as they were.
fn result_elsewhere(chance: &mut Chance, check: Check, input: &Input) -> i64 {
    let around = chance.pick(&[0, 1, 255]);
    let mut copy = |bytes: &[u8]| {
        let before = chance.below(9);
        let copy = [&vec![around; before], bytes, &[around; 32]].concat();
        (copy, before..before + bytes.len())
    };
    let (list, list_part) = copy(&input.list);
    let (proposed, proposed_part) = copy(&input.proposed);
    let result = check(
        input.n,
        &list[list_part.clone()],
        &proposed[proposed_part.clone()],
    );
    let unchanged = |whole: Vec<u8>, part: std::ops::Range<usize>, old: &[u8]| {
        let whole = black_box(whole);
        whole[part.clone()] == *old
            && whole[..part.start].iter().all(|&byte| byte == around)
            && whole[part.end..].iter().all(|&byte| byte == around)
    };
    assert!(
        unchanged(list, list_part, &input.list),
        "the list was written to"
    );
    assert!(
        unchanged(proposed, proposed_part, &input.proposed),
        "the proposal was written to"
    );
    result
}

/// The same answers at any alignment, from several threads, and whatever was
/// asked before; and nothing is written.
#[test]
fn calls_do_not_disturb_anything() {
    let mut chance = Chance::new(4);
    let mut asked: Vec<(Check, Input, i64)> = Vec::new();
    for _ in 0..2_000 {
        let Case {
            n, lines, proposal, ..
        } = some_case(&mut chance);
        let (list, values) = (bytes::list(&lines), some_values(&mut chance, n));
        let refutation = bytes::refutation(&proposal.numbers());
        let input = Input {
            n,
            list: list.clone(),
            proposed: refutation,
        };
        for input in [input.damaged(&mut chance, NUMBER_BYTES), input] {
            let due = second::check_refutation(input.n, &input.list, &input.proposed).code();
            asked.push((library::check_refutation, input, due));
        }
        let input = Input {
            n,
            list,
            proposed: bytes::model(&values),
        };
        for input in [input.damaged(&mut chance, 8), input] {
            let due = second::check_model(input.n, &input.list, &input.proposed).code();
            asked.push((library::check_model, input, due));
        }
    }
    thread::scope(|scope| {
        for seed in 10..14 {
            let asked = &asked;
            scope.spawn(move || {
                let mut chance = Chance::new(seed);
                for at in chance.order(asked.len()) {
                    let (check, input, due) = &asked[at];
                    assert_eq!(result_elsewhere(&mut chance, *check, input), *due);
                    assert_eq!(check(input.n, &input.list, &input.proposed), *due);
                }
            });
        }
    });
}
