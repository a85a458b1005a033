//! States that no call left: numbers that are no state, states with lines that no rule
//! allows, and any numbers. Each call ends, with what is due, and a refusal changes
//! nothing. `session_tables.rs` has states whose table is not that of their lines.

use utvpi_tests::buffers::{cut_by, needed, OUTPUTS};
use utvpi_tests::chance::Chance;
use utvpi_tests::damage::{fault_sets, faulty_line, first_fault};
use utvpi_tests::decision::Verdict;
use utvpi_tests::implied::{self, Implied};
use utvpi_tests::limits::{session_room, LINE_NUMBERS, MOST_LINES, MOST_VARIABLES};
use utvpi_tests::lines::{lone, misplaced, zero, X};
use utvpi_tests::make_lists::small;
use utvpi_tests::second::Answer::{self, Refused};
use utvpi_tests::session_calls::{both_calls, met, standing, within_a_minute, Pair};
use utvpi_tests::session_questions::{ask, Answers, Asked};
use utvpi_tests::sessions::{Head, Session, COUNT, FLAG, HEAD, NO_STATE, VARIABLES};

/// Numbers that do not fit 32 bits, some of which have low bits that look fine.
const WIDE: [i64; 8] = [
    1 << 31,
    -(1 << 31) - 1,
    1 << 32,
    (1 << 32) + 1,
    -(1 << 32),
    1 << 62,
    i64::MIN,
    i64::MAX,
];

/// Numbers that may not stand at these places of a state, beside the wide ones. Some
/// counts have as many numbers as fit where their high bits are dropped.
const WRONG: [(usize, i64); 13] = [
    (VARIABLES, -1),
    (VARIABLES, -2),
    (VARIABLES, MOST_VARIABLES as i64 + 1),
    (VARIABLES, i32::MAX as i64),
    (COUNT, -1),
    (COUNT, MOST_LINES as i64 + 1),
    (COUNT, i64::MIN + 1),
    (COUNT, i64::MAX / LINE_NUMBERS as i64),
    (COUNT, i64::MAX / LINE_NUMBERS as i64 + 1),
    (FLAG, 2),
    (FLAG, -1),
    (FLAG, i32::MIN as i64),
    (FLAG, i32::MAX as i64),
];

/// Numbers that are no state, each made of one by a single change.
fn no_states(chance: &mut Chance) -> Vec<Vec<i64>> {
    let mut all = Vec::new();
    for count in [0, 1, 5, MOST_LINES] {
        let good = met(chance, &[3, -2], count).state();
        for length in [0, 1, HEAD - 1, HEAD, HEAD + LINE_NUMBERS, good.len() - 1] {
            all.push(good[..length].to_vec());
        }
        let lines = HEAD + LINE_NUMBERS * count;
        let places = (0..lines).filter(|&at| at < 40 || at + LINE_NUMBERS >= lines);
        let wide = places.flat_map(|at| WIDE.map(|number| (at, number)));
        // The same low bits as what was there.
        let places = (0..lines.min(40)).chain([lines - 1]);
        let same_low = places.map(|at| (at, good[at] + (1 << 32)));
        for (at, number) in wide.chain(same_low).chain(WRONG) {
            let mut numbers = good.clone();
            numbers[at] = number;
            all.push(numbers);
        }
    }
    all
}

/// Numbers that are no state are refused as 7 at place 6, whatever else is wrong; by the
/// questions, which look at no line, where the first three or how many there are show it.
#[test]
fn numbers_that_are_no_state() {
    within_a_minute(|| {
        let mut chance = Chance::new(154);
        for numbers in no_states(&mut chance) {
            for (line, short) in [(zero(0), 0), (zero(-1), 1), (lone(2, -1, 0), 1 << OUTPUTS)] {
                let lengths = cut_by(needed(2), short);
                let results = both_calls(&mut chance, &numbers, line, lengths);
                let head = numbers.get(..HEAD);
                assert_eq!(results, [NO_STATE.code(); 2], "{head:?}");
                let variables = [short as u64, u64::MAX];
                let answers = ask(&mut chance, &numbers, Asked { line, variables });
                let refused = Answers {
                    line: Implied::Refused(7, 6),
                    pair: implied::Pair::Refused(7, 6),
                };
                let shown = Head::read(&numbers).is_none();
                assert_eq!(answers == refused, shown, "{head:?}");
            }
        }
    });
}

/// Lines in a state that no rule allows: an add is refused at the lowest of them, unless
/// 30 or 3 go before, and they can be withdrawn.
#[test]
fn states_with_bad_lines() {
    let mut chance = Chance::new(155);
    for faults in fault_sets().skip(1) {
        for count in [1, 2, 9, MOST_LINES - 1, MOST_LINES] {
            for refuted in [false, true] {
                let mut session = met(&mut chance, &[3, -2], count);
                let at = chance.below(count);
                session.lines[at] = faulty_line(&mut chance, faults);
                session.refuted = refuted;
                let due = if refuted {
                    Verdict::Refused(30, 0)
                } else if count == MOST_LINES {
                    Verdict::Refused(3, 0)
                } else {
                    Verdict::Refused(first_fault(faults).unwrap(), at)
                };
                let mut pair = Pair::at(&mut chance, session);
                for line in [zero(0), zero(-1), lone(2, 0, 0), misplaced(1, 0, 0)] {
                    assert_eq!(pair.add(&mut chance, line), due);
                }
                for _ in 0..count.min(9) {
                    assert_eq!(pair.withdraw(), Ok(()));
                }
            }
        }
    }
}

/// A number that may stand in a state, or may not.
fn some_number(chance: &mut Chance) -> i64 {
    match chance.below(6) {
        0 => chance.pick(&WIDE),
        1 => chance.pick(&WRONG).1,
        2 => chance.next() as i64,
        3 => i64::from(chance.next() as i32),
        _ => chance.between(-2, 3),
    }
}

/// A state with some numbers changed, most of them where they are looked at.
fn changed(chance: &mut Chance) -> Vec<i64> {
    let (n, lines) = small(chance);
    let refuted = chance.one_in(8);
    let count = lines.len();
    let mut numbers = Session { n, lines, refuted }.state();
    for _ in 0..chance.between(1, 3) {
        let at = match chance.below(4) {
            0 => chance.below(HEAD),
            1 => chance.below(numbers.len()),
            _ => HEAD + chance.below(LINE_NUMBERS * (count + 1)),
        };
        numbers[at] = some_number(chance);
    }
    // The first coefficient of a line and its variable are 0.
    if count > 0 && chance.one_in(8) {
        let at = HEAD + LINE_NUMBERS * chance.below(count);
        numbers[at..=at + X].fill(0);
    }
    if chance.one_in(16) {
        numbers.truncate(chance.below(numbers.len()));
    }
    // The table of the lines that stand there now.
    if chance.one_in(2) {
        if let Some(session) = Session::read(&numbers) {
            session.write(&mut numbers);
        }
    }
    numbers
}

/// Numbers at random, with a right head at times.
fn rubbish(chance: &mut Chance) -> Vec<i64> {
    let small = chance.one_in(2);
    let mut number = || match small {
        true => some_number(chance),
        false => chance.next() as i64,
    };
    let mut numbers: Vec<i64> = (0..session_room(2)).map(|_| number()).collect();
    if chance.one_in(2) {
        let count = chance.pick(&[0, 1, 2, MOST_LINES as i64]);
        numbers[..HEAD].copy_from_slice(&[2, count, 0]);
    }
    numbers
}

/// Makes sure that all calls on a state with these numbers end, with what is due, and that a
/// refusal changes nothing; gives back the number of that of adding a line, if it is one.
fn all_calls(chance: &mut Chance, numbers: &[i64]) -> Option<u8> {
    let line = faulty_line(chance, 0);
    let read = Session::read(numbers);
    let lengths = needed(read.as_ref().map_or(2, |session| session.n));
    let due = read
        .as_ref()
        .map_or(Some(NO_STATE), |session| session.add_refusal(line, lengths));
    let [added, withdrawn] = both_calls(chance, numbers, line, lengths);
    let variables = [0, 1].map(|_| chance.below(4) as u64);
    ask(chance, numbers, Asked { line, variables });
    let taken = read.map_or(Err(NO_STATE), |mut session| session.withdraw());
    assert_eq!(withdrawn, taken.map_or_else(Answer::code, |()| 0));
    match due {
        Some(Refused(number, place)) => {
            assert_eq!(added, Refused(number, place).code());
            Some(number)
        }
        _ => {
            assert!(added >= 0, "{added}");
            None
        }
    }
}

/// All calls on states that were changed, and on rubbish.
#[test]
fn any_numbers() {
    within_a_minute(|| {
        let mut chance = Chance::new(156);
        let (mut refused, mut answered, mut right) = ([0; 32], 0, 0);
        for at in 0..8_000 {
            let numbers = match at % 16 {
                0 => rubbish(&mut chance),
                _ => changed(&mut chance),
            };
            if let Some(number) = all_calls(&mut chance, &numbers) {
                refused[usize::from(number)] += 1;
            } else {
                answered += 1;
                right += usize::from(standing(&numbers).is_some());
            }
        }
        println!("{answered} answered, {right} of them right, refused by number {refused:?}");
        assert!(right >= 400 && answered - right >= 400);
        for number in [4, 5, 6, 7, 12, 13, 30] {
            assert!(refused[number] >= 40, "refusal {number} in {refused:?}");
        }
    });
}
