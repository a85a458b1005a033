//! What the two calls that write seconds refuse, and which refusal is given where several
//! apply; short buffers and long ones. A refusal changes nothing, which every call here
//! makes sure of.

use utvpi_tests::chance::Chance;
use utvpi_tests::library::Events;
use utvpi_tests::limits::MOST_RECORDERS;
use utvpi_tests::seconds::{events_in, model_in, some_clock, some_count};
use utvpi_tests::seconds::{Table, FORMS, LARGEST_COUNT, NO_RATES};

/// Forms that no clock has, and counts that no float need hold.
const NO_FORMS: [u32; 5] = [2, 3, 256, 1 << 31, u32::MAX];
const NO_COUNTS: [i64; 6] = [
    LARGEST_COUNT + 1,
    LARGEST_COUNT + 2,
    -LARGEST_COUNT - 1,
    1 << 62,
    i64::MAX,
    i64::MIN,
];

/// Clocks that can't be used, whatever the counts and the room are.
#[test]
fn clocks() {
    let mut chance = Chance::new(190);
    for counts in [&[][..], &[1], &[i64::MAX]] {
        for room in [0, 1, 2] {
            for form in FORMS {
                for rate in NO_RATES {
                    let due = model_in(&mut chance, (form, rate), counts, room);
                    assert_eq!(due, Err((50, 0)), "{rate}");
                }
            }
            for form in NO_FORMS {
                let due = model_in(&mut chance, (form, 1.0), counts, room);
                assert_eq!(due, Err((50, 0)), "form {form}");
            }
        }
    }
}

/// Signalling and quiet NaNs of either sign, with any payload.
#[test]
fn every_sort_of_nan() {
    let mut chance = Chance::new(191);
    for _ in 0..10_000 {
        let rate = f64::from_bits(chance.next() | 0x7FF0_0000_0000_0001);
        let form = chance.pick(&FORMS);
        assert_eq!(model_in(&mut chance, (form, rate), &[1], 1), Err((50, 0)));
    }
}

/// One clock: 50, then 51 at the lowest index, then 52.
#[test]
fn the_order_of_one_clock() {
    let mut chance = Chance::new(192);
    for _ in 0..4_000 {
        for wrong in 0..1 << 3 {
            let [clock, count, room] = [0, 1, 2].map(|bit| wrong >> bit & 1 == 1);
            let mut counts: Vec<i64> = (0..5).map(|_| some_count(&mut chance)).collect();
            let mut lowest = counts.len();
            for _ in 0..if count { 2 } else { 0 } {
                let at = chance.below(counts.len());
                counts[at] = chance.pick(&NO_COUNTS);
                lowest = lowest.min(at);
            }
            let rate = match clock {
                true => (FORMS[0], chance.pick(&NO_RATES)),
                false => some_clock(&mut chance),
            };
            let length = if room {
                chance.below(5)
            } else {
                5 + chance.below(3)
            };
            let answer = model_in(&mut chance, rate, &counts, length);
            match (clock, count, room) {
                (true, ..) => assert_eq!(answer, Err((50, 0))),
                (_, true, _) => assert_eq!(answer, Err((51, lowest))),
                (.., true) => assert_eq!(answer, Err((52, 0))),
                _ => assert_eq!(answer.unwrap().len(), 5),
            }
        }
    }
}

/// The largest counts are taken, and one beyond is not.
#[test]
fn largest_counts() {
    let mut chance = Chance::new(193);
    for form in FORMS {
        for count in [LARGEST_COUNT, -LARGEST_COUNT] {
            let fine = model_in(&mut chance, (form, 1.0), &[0, count], 2);
            assert_eq!(fine, Ok(vec![0.0, count as f64]));
            let beyond = count + count.signum();
            let refused = model_in(&mut chance, (form, 1.0), &[0, beyond], 2);
            assert_eq!(refused, Err((51, 1)));
        }
    }
}

/// Every length of the buffer: what lies beyond the counts is left alone.
#[test]
fn short_and_long_buffers() {
    let mut chance = Chance::new(194);
    let counts: Vec<i64> = (0..40).map(|_| some_count(&mut chance)).collect();
    let table = Table::of(&[(FORMS[0], 0.5), (FORMS[1], 3.0)]);
    for many in 0..counts.len() {
        let counts = &counts[..many];
        let recorders: Vec<u32> = (0..many as u32).map(|at| at % 2).collect();
        for room in 0..many + 9 {
            let clock = some_clock(&mut chance);
            let one = model_in(&mut chance, clock, counts, room);
            let all = events_in(&mut chance, table.events(&recorders, counts), room);
            for answer in [one, all] {
                assert_eq!(answer == Err((52, 0)), room < many);
            }
        }
    }
}

/// Events of a table, and where it has a clock that can't be used, an event that names no
/// recorder, and a count outside its limit, as far as these are wrong.
struct Case {
    table: Table,
    recorders: Vec<u32>,
    counts: Vec<i64>,
    places: [usize; 3],
}

fn some_case(chance: &mut Chance, wrong: [bool; 3]) -> Case {
    let size = 1 + chance.below(MOST_RECORDERS);
    let mut clocks: Vec<_> = (0..size).map(|_| some_clock(chance)).collect();
    let mut recorders: Vec<u32> = (0..6).map(|_| chance.below(size) as u32).collect();
    let mut counts: Vec<i64> = (0..6).map(|_| some_count(chance)).collect();
    let places = [size, 6, 6].map(|below| chance.below(below));
    if wrong[0] {
        let no_form = (chance.pick(&NO_FORMS), 1.0);
        let no_rate = (chance.pick(&FORMS), chance.pick(&NO_RATES));
        clocks[places[0]] = chance.pick(&[no_form, no_rate]);
    }
    if wrong[1] {
        recorders[places[1]] = chance.pick(&[size as u32, 1 << 31, u32::MAX]);
    }
    if wrong[2] {
        counts[places[2]] = chance.pick(&NO_COUNTS);
    }
    Case {
        table: Table::of(&clocks),
        recorders,
        counts,
        places,
    }
}

/// A table: 54, then 50 at the lowest recorder, 53 at the lowest event, 51, 52.
#[test]
fn the_order_of_a_table() {
    let mut chance = Chance::new(195);
    for wrong in (0..1 << 5).cycle().take(32_000) {
        let [table, clock, recorder, count, room] =
            [0, 1, 2, 3, 4].map(|bit| wrong >> bit & 1 == 1);
        let case = some_case(&mut chance, [clock, recorder, count]);
        let recorders = &case.recorders[usize::from(table)..];
        let length = if room { 0 } else { 6 } + chance.below(6);
        let events = case.table.events(recorders, &case.counts);
        let answer = events_in(&mut chance, events, length);
        match (table, clock, recorder, count, room) {
            (true, ..) => assert_eq!(answer, Err((54, 0))),
            (_, true, ..) => assert_eq!(answer, Err((50, case.places[0]))),
            (_, _, true, ..) => assert_eq!(answer, Err((53, case.places[1]))),
            (.., true, _) => assert_eq!(answer, Err((51, case.places[2]))),
            (.., true) => assert_eq!(answer, Err((52, 0))),
            _ => assert_eq!(answer.unwrap().len(), 6),
        }
    }
}

/// The lowest of several: recorders, events, counts.
#[test]
fn the_lowest_place() {
    let mut chance = Chance::new(196);
    let fine = (FORMS[0], 1.0);
    for low in 0..MOST_RECORDERS {
        let mut clocks = [fine; MOST_RECORDERS];
        clocks[low..].fill((FORMS[1], f64::NAN));
        let table = Table::of(&clocks);
        let answer = events_in(&mut chance, table.events(&[99], &[i64::MAX]), 0);
        assert_eq!(answer, Err((50, low)));
        let table = Table::of(&[fine; 3]);
        let mut recorders = [2; MOST_RECORDERS];
        recorders[low..].fill(3);
        let mut counts = [7; MOST_RECORDERS];
        counts[low..].fill(LARGEST_COUNT + 1);
        let answer = events_in(&mut chance, table.events(&recorders, &counts), 0);
        assert_eq!(answer, Err((53, low)));
        let answer = events_in(&mut chance, table.events(&[1; MOST_RECORDERS], &counts), 0);
        assert_eq!(answer, Err((51, low)));
    }
}

/// What is no table: too many recorders, forms and rates, or recorders of events and
/// counts, that are not as many.
#[test]
fn no_tables() {
    let mut chance = Chance::new(197);
    let (forms, rates) = (vec![FORMS[0]; 40], vec![0.25; 40]);
    let (recorders, counts) = (vec![0; 40], vec![4; 40]);
    for size in 0..forms.len() {
        for other in [size, size.saturating_sub(1), size + 1, 0, 40] {
            for events in [0, 1, 5] {
                for also in [events, events + 1, 0] {
                    let answer = events_in(
                        &mut chance,
                        Events {
                            forms: &forms[..size],
                            rates: &rates[..other],
                            recorders: &recorders[..events],
                            counts: &counts[..also],
                        },
                        6,
                    );
                    let is_table = size == other && size <= MOST_RECORDERS && events == also;
                    assert_eq!(answer == Err((54, 0)), !is_table);
                    if is_table && size > 0 {
                        assert_eq!(answer, Ok(vec![1.0; events]));
                    }
                }
            }
        }
    }
}

/// Without recorders only no events have seconds.
#[test]
fn empty_tables() {
    let mut chance = Chance::new(198);
    let empty = Table::of(&[]);
    assert_eq!(
        events_in(&mut chance, empty.events(&[], &[]), 3),
        Ok(vec![])
    );
    assert_eq!(
        events_in(&mut chance, empty.events(&[0], &[1]), 3),
        Err((53, 0))
    );
    assert_eq!(model_in(&mut chance, (FORMS[0], 1.0), &[], 3), Ok(vec![]));
}
