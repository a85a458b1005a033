//! What deciding does with the memory that it is lent: which buffers are too
//! short, what is written and what is left alone, and that nothing that stood
//! there before counts. Damaged lists are refused as the second implementation
//! refuses them, and nothing is written.

use std::thread;

use utvpi_tests::buffers::{needed, Buffers};
use utvpi_tests::chance::Chance;
use utvpi_tests::closure;
use utvpi_tests::damage::damaged_list;
use utvpi_tests::decision::{decide, decide_in, Decision, Verdict};
use utvpi_tests::limits::{LINE_NUMBERS, MOST_N, SMALL_VARIABLES};
use utvpi_tests::lines::{identified, zero, Line};
use utvpi_tests::make_lists::{small, Shape};
use utvpi_tests::short_buffers::Engine;

/// Some lists for these tests: most tiny, few larger.
fn some_list(chance: &mut Chance) -> (u64, Vec<Line>) {
    match chance.below(200) {
        0 => {
            let n = SMALL_VARIABLES as u64;
            (n, Shape::of(chance, n).list(chance))
        }
        1..=30 => {
            let n = chance.between(1, 12) as u64;
            (n, Shape::of(chance, n).list(chance))
        }
        _ => small(chance),
    }
}

const ENGINE: Engine = Engine { needed, decide_in };

#[test]
fn which_buffer_is_short() {
    let mut chance = Chance::new(70);
    let lists = [vec![], vec![zero(-1)], vec![zero(1)]].map(|lines| identified(&lines).concat());
    for n in [0, 1, 2, 5, MOST_N] {
        ENGINE.names_the_first_short(&mut chance, n, &lists);
    }
}

#[test]
fn empty_buffers() {
    ENGINE.names_an_empty_one(&mut Chance::new(71));
}

#[test]
fn list_refusals_go_first() {
    ENGINE.looks_at_the_list_first(&mut Chance::new(72));
}

/// Lists damaged in every way, in buffers of which some are short: the refusal
/// is the second implementation's, and a list that is still valid is decided.
#[test]
fn damaged_lists() {
    let mut chance = Chance::new(73);
    let mut refused = [0; 14];
    let mut decided = 0;
    for _ in 0..60_000 {
        let (n, lines) = some_list(&mut chance);
        let lengths = ENGINE.sometimes_short(&mut chance, n);
        let (n, list) = damaged_list(&mut chance, n, &lines.concat());
        let mut buffers = Buffers::new(&mut chance, lengths);
        match decide_in(&mut buffers, n, &list).verdict {
            Verdict::Refused(number, _) => refused[number as usize] += 1,
            verdict => {
                decided += 1;
                let lines: Vec<Line> = list
                    .chunks(LINE_NUMBERS)
                    .map(|l| l.try_into().unwrap())
                    .collect();
                assert_eq!(
                    closure::verdict(n as usize, &lines),
                    verdict,
                    "{n} {lines:?}"
                );
            }
        }
    }
    println!("{decided} decided, refused by number {:?}", &refused[1..]);
    assert!(decided >= 1_000);
    for number in [1, 2, 3, 4, 5, 6, 7, 8, 12, 13] {
        assert!(refused[number] >= 100, "refusal {number} in {refused:?}");
    }
}

/// The same list gets the same answer whatever stood in the buffers, however
/// long they are, and whatever was decided in them before.
#[test]
fn rubbish_does_not_count() {
    let mut chance = Chance::new(74);
    let mut used = Buffers::new(&mut chance, needed(SMALL_VARIABLES as u64));
    for _ in 0..3_000 {
        let (n, lines) = some_list(&mut chance);
        let first = decide(&mut chance, n, &lines);
        for _ in 0..2 {
            assert_eq!(decide(&mut chance, n, &lines), first, "{n} {lines:?}");
        }
        // Stale numbers of other lists, and room for the largest of them.
        let stale = decide_in(&mut used, n, &lines.concat());
        assert_eq!(stale, first, "{n} {lines:?}");
    }
}

/// Several threads decide at once, each in its own buffers.
#[test]
fn several_threads() {
    let mut chance = Chance::new(75);
    let mut asked: Vec<(u64, Vec<Line>, Decision)> = Vec::new();
    for _ in 0..1_000 {
        let (n, lines) = some_list(&mut chance);
        let decision = decide(&mut chance, n, &lines);
        asked.push((n, lines, decision));
    }
    thread::scope(|scope| {
        for seed in 80..84 {
            let asked = &asked;
            scope.spawn(move || {
                let mut chance = Chance::new(seed);
                for at in chance.order(asked.len()) {
                    let (n, lines, due) = &asked[at];
                    assert_eq!(decide(&mut chance, *n, lines), *due);
                }
            });
        }
    });
}
