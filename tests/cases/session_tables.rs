//! States whose table, model or groups are not those of their lines, which no call leaves:
//! any numbers, those at which sums overflow, a table of other lines. Each call ends, is refused as for a state with
//! the right table, changes nothing but what it may, and, handed the same numbers, does the
//! same once more.

use utvpi_tests::buffers::needed;
use utvpi_tests::chance::Chance;
use utvpi_tests::decision::Verdict;
use utvpi_tests::limits::{LARGEST_BOUND, MOST_LINES, MOST_VARIABLES};
use utvpi_tests::lines::{line, lone, zero, Line};
use utvpi_tests::make::some_line;
use utvpi_tests::make_lists::small;
use utvpi_tests::second::Answer::Refused;
use utvpi_tests::session_calls::{add_to, met, standing, withdraw_from, within_a_minute, Pair};
use utvpi_tests::session_questions::{ask, Asked};
use utvpi_tests::sessions::{Session, FRONT};

/// No distance is further from 0 than this: as many steps as there are points, each of twice
/// a bound that may pass the limit by one.
const FURTHEST: i64 = 4 * MOST_VARIABLES as i64 * (LARGEST_BOUND + 1);

/// Numbers at which sums of two or three overflow, or which a distance can just be or not.
const EDGES: [i64; 14] = [
    i64::MIN,
    i64::MIN + 1,
    i64::MIN / 2,
    i64::MIN / 3,
    -FURTHEST - 1,
    -FURTHEST,
    -1,
    0,
    FURTHEST,
    FURTHEST + 1,
    i64::MAX / 3,
    i64::MAX / 2 + 1,
    i64::MAX - 1,
    i64::MAX,
];

/// Calls on states of at most so many variables are made twice.
const TWICE: u64 = 8;

/// Sorts of wrong numbers, each in all that is known of the lines, and in the model and the
/// groups alone.
const SORTS: usize = 2 * OF_NUMBERS;
const OF_NUMBERS: usize = 6;

/// Writes numbers to the table, the model and the groups of a state of n variables that may
/// or may not be those of its lines.
fn spoil(chance: &mut Chance, sort: usize, n: usize, known: &mut [i64]) {
    let points = 2 * n;
    let from = if sort < OF_NUMBERS {
        0
    } else {
        points * points
    };
    spoil_part(chance, sort % OF_NUMBERS, &mut known[from..]);
}

fn spoil_part(chance: &mut Chance, sort: usize, part: &mut [i64]) {
    let one = chance.pick(&EDGES);
    match sort {
        0 => part.fill(one),
        1 => part.fill_with(|| chance.next() as i64),
        2 => part.fill_with(|| chance.pick(&EDGES)),
        3 => part.fill_with(|| chance.between(-3, 3)),
        // A few numbers.
        4 => {
            for _ in 0..chance.below(3).min(part.len()) {
                part[chance.below(part.len())] = chance.pick(&EDGES);
            }
        }
        // One that is a little too low, or too high.
        _ if part.is_empty() => {}
        _ => {
            let entry = &mut part[chance.below(part.len())];
            *entry = entry.saturating_add(chance.pick(&[-2, -1, 1, 2]));
        }
    }
}

/// A line of such a session, at times with a bound at the limits.
fn any_line(chance: &mut Chance, n: u64) -> Line {
    match chance.below(8) {
        _ if n == 0 => zero(0),
        0 => zero(chance.pick(&[0, -1])),
        1 | 2 => {
            let bound = chance.pick(&[-LARGEST_BOUND, LARGEST_BOUND]) as i32;
            let [x, y] = [(); 2].map(|()| chance.below(n as usize) as i32);
            line(1, x, chance.pick(&[-1, 1]), y, bound)
        }
        3 => lone(chance.pick(&[-1, 1]), chance.below(n as usize) as i32, 1),
        _ => some_line(chance, n),
    }
}

/// What is seen of such states.
#[derive(Default)]
struct Seen {
    added: usize,
    no: usize,
    withdrawn: usize,
    refused: usize,
    wrong: usize,
}

/// One call, or two questions, on a state with these numbers, and what it is then.
fn some_call(chance: &mut Chance, numbers: &[i64], seen: &mut Seen) -> Vec<i64> {
    let session = Session::read(numbers).unwrap();
    let n = session.n;
    seen.wrong += usize::from(standing(numbers).is_none());
    let line = any_line(chance, n);
    if chance.one_in(3) {
        let variables = [(); 2].map(|()| chance.below(n as usize + 1) as u64);
        ask(chance, numbers, Asked { line, variables });
        return numbers.to_vec();
    }
    let (result, left) = if chance.one_in(if session.refuted { 2 } else { 4 }) {
        let (result, left) = withdraw_from(chance, numbers);
        if n <= TWICE {
            assert!(withdraw_from(chance, numbers) == (result, left.clone()));
        }
        seen.withdrawn += usize::from(result == 0);
        (result, left)
    } else {
        let due = session.add_refusal(line, needed(n));
        let (result, left) = add_to(chance, numbers, line, needed(n));
        if n <= TWICE {
            assert!(add_to(chance, numbers, line, needed(n)) == (result, left.clone()));
        }
        assert_eq!(due.map(|due| due.code()), (result < 0).then_some(result));
        seen.added += usize::from(result >= 0);
        seen.no += usize::from(result > 0);
        (result, left)
    };
    seen.refused += usize::from(result < 0);
    left
}

/// Sequences of calls on small states with wrong numbers.
#[test]
fn small_states() {
    within_a_minute(|| {
        let mut chance = Chance::new(170);
        let mut seen = Seen::default();
        for at in 0..3_000 {
            let (n, lines) = small(&mut chance);
            let refuted = chance.one_in(6) && !lines.is_empty();
            let mut numbers = Session { n, lines, refuted }.state();
            spoil(&mut chance, at % SORTS, n as usize, &mut numbers[FRONT..]);
            for _ in 0..chance.between(2, 6) {
                numbers = some_call(&mut chance, &numbers, &mut seen);
            }
        }
        let Seen { added, no, .. } = seen;
        println!("{added} added, {no} of them a no, {} wrong", seen.wrong);
        assert!(added - no >= 1_000 && no >= 300 && seen.wrong >= 5_000);
        assert!(seen.withdrawn >= 500 && seen.refused >= 300);
    });
}

/// The same on a few larger ones.
#[test]
fn larger_states() {
    within_a_minute(|| {
        let mut chance = Chance::new(171);
        let mut seen = Seen::default();
        for (n, times) in [(8, 60), (40, 12), (MOST_VARIABLES, 6)] {
            for at in 0..times {
                let values: Vec<i64> = (0..n).map(|_| chance.between(-9, 9)).collect();
                let mut numbers = met(&mut chance, &values, 30).state();
                spoil(&mut chance, at % SORTS, n, &mut numbers[FRONT..]);
                for _ in 0..3 {
                    numbers = some_call(&mut chance, &numbers, &mut seen);
                }
            }
        }
        assert!(seen.added >= 50 && seen.withdrawn >= 20, "{}", seen.added);
    });
}

/// A session that is started where such a state was is as any other.
#[test]
fn started_where_a_wrong_one_was() {
    let mut chance = Chance::new(172);
    for n in [0, 1, 3, 9] {
        let mut pair = Pair::start(&mut chance, n);
        let right = pair.numbers().to_vec();
        for sort in 0..SORTS {
            pair.spoil(|known| spoil(&mut chance, sort, n as usize, known));
            pair.start_again(n);
            assert!(pair.numbers() == right);
            assert!(matches!(pair.add(&mut chance, zero(0)), Verdict::Yes(_)));
            assert_eq!(pair.withdraw(), Ok(()));
        }
    }
}

/// The most lines, in a state with a wrong table: 3 goes by the count alone, and withdrawing
/// ends.
#[test]
fn the_most_lines() {
    within_a_minute(|| {
        let mut chance = Chance::new(173);
        for sort in 0..SORTS {
            let mut numbers = met(&mut chance, &[3, -2], MOST_LINES).state();
            spoil(&mut chance, sort, 2, &mut numbers[FRONT..]);
            let (full, _) = add_to(&mut chance, &numbers, zero(0), needed(2));
            assert_eq!(full, Refused(3, 0).code());
            let (withdrawn, left) = withdraw_from(&mut chance, &numbers);
            assert_eq!(withdrawn, 0);
            let (added, _) = add_to(&mut chance, &left, zero(0), needed(2));
            assert!(added >= 0, "{added}");
        }
    });
}
