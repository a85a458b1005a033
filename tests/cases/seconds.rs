//! Models in seconds: the bits of each number, compared with Rust's own operations, on many
//! counts and clocks and at the edges; the order that is kept.

use utvpi_tests::chance::Chance;
use utvpi_tests::limits::MOST_RECORDERS;
use utvpi_tests::seconds::{events_in, model_in, seconds_of, some_clock, some_count, some_rate};
use utvpi_tests::seconds::{Clock, Table, FORMS, LARGEST_COUNT};

const PER_TICK: u32 = FORMS[0];
const PER_SECOND: u32 = FORMS[1];

/// The seconds of some counts of one clock.
fn seconds(chance: &mut Chance, clock: Clock, counts: &[i64]) -> Vec<f64> {
    model_in(chance, clock, counts, counts.len()).unwrap()
}

/// The forms are those that C callers write as numbers.
#[test]
fn forms() {
    assert_eq!(FORMS, [0, 1]);
    assert_eq!(LARGEST_COUNT, 1 << f64::MANTISSA_DIGITS);
    assert_eq!(MOST_RECORDERS, 16);
}

/// A million counts of one clock each, four to a call.
#[test]
fn a_million_of_one_clock() {
    let mut chance = Chance::new(180);
    let (mut divided, mut subnormal, mut infinite, mut zero) = (0, 0, 0, 0);
    for _ in 0..250_000 {
        let clock = some_clock(&mut chance);
        let counts = [(); 4].map(|()| some_count(&mut chance));
        for number in seconds(&mut chance, clock, &counts) {
            divided += usize::from(clock.0 == PER_SECOND);
            subnormal += usize::from(number.is_subnormal());
            infinite += usize::from(number.is_infinite());
            zero += usize::from(number == 0.0);
        }
    }
    println!("{divided} divided, {subnormal} subnormal, {infinite} infinite, {zero} zero");
    assert!(divided > 400_000 && divided < 600_000);
    assert!(subnormal > 10_000 && infinite > 10_000 && zero > 10_000);
}

/// A million counts of events, each by its recorder's clock.
#[test]
fn a_million_of_tables() {
    let mut chance = Chance::new(181);
    for round in 0..10_000 {
        let size = 1 + round % MOST_RECORDERS;
        let clocks: Vec<Clock> = (0..size).map(|_| some_clock(&mut chance)).collect();
        let table = Table::of(&clocks);
        let counts: Vec<i64> = (0..100).map(|_| some_count(&mut chance)).collect();
        let recorders: Vec<u32> = (0..100).map(|_| chance.below(size) as u32).collect();
        let events = table.events(&recorders, &counts);
        let room = 100 + chance.pick(&[0, 1, 9]);
        assert!(events_in(&mut chance, events, room).is_ok());
    }
}

/// Whole seconds, and those that people would work out by hand.
#[test]
fn known_seconds() {
    let mut chance = Chance::new(182);
    for (clock, count, due) in [
        ((PER_TICK, 0.5), 3, 1.5),
        ((PER_TICK, 1.0), -7, -7.0),
        ((PER_SECOND, 100_000.0), 250_000, 2.5),
        ((PER_SECOND, 8.0), -1, -0.125),
        // Ten microseconds are no float: the product shows it, the quotient does not.
        ((PER_TICK, 1e-5), 3, 3.0000000000000004e-5),
        ((PER_SECOND, 1e5), 3, 3e-5),
        ((PER_SECOND, 49.0), 49, 1.0),
        // The reciprocal of 49, multiplied, would give less than 1.
        ((PER_TICK, 1.0 / 49.0), 49, 0.9999999999999999),
    ] {
        assert_eq!(seconds(&mut chance, clock, &[count]), [due], "{clock:?}");
    }
}

/// 0 ticks are 0.0, with a plus, and no other count has 0 seconds: the least quotient is
/// that by the greatest float, and the least product that with the least one.
#[test]
fn signs_of_zero() {
    let mut chance = Chance::new(183);
    for form in FORMS {
        for rate in [5e-324, 1e-5, 1.0, f64::MAX] {
            let found = seconds(&mut chance, (form, rate), &[0, -1, 1]);
            assert_eq!(found[0].to_bits(), 0);
            assert!(found[1] < 0.0 && found[2] == -found[1]);
        }
    }
    let least = seconds(&mut chance, (PER_SECOND, f64::MAX), &[-1])[0];
    assert!(least.is_subnormal());
    let least = seconds(&mut chance, (PER_TICK, 5e-324), &[-1])[0];
    assert_eq!(least.to_bits(), (-0.0_f64).to_bits() + 1);
}

/// Whether a product lies in the middle between two floats: its lowest bit is the first
/// that no float has room for.
fn is_tie(product: i128) -> bool {
    128 - product.leading_zeros() - product.trailing_zeros() == f64::MANTISSA_DIGITS + 1
}

/// Of two floats that are as near, the one whose last bit is 0. Only products can lie so:
/// a quotient that did would make a count of more than 53 bits.
#[test]
fn ties_to_even() {
    let mut chance = Chance::new(184);
    let largest = LARGEST_COUNT - 1;
    let (mut down, mut up) = (0, 0);
    for count in largest - 4_000..=largest {
        for rate in [2, 3, 5, 6, 7, 9, 11, 13] {
            let exact = i128::from(count) * i128::from(rate);
            if is_tie(exact) {
                let number = seconds(&mut chance, (PER_TICK, rate as f64), &[count, -count]);
                assert_eq!(number[0], -number[1]);
                assert_eq!(number[0].to_bits() & 1, 0, "{count} * {rate}");
                down += usize::from((number[0] as i128) < exact);
                up += usize::from((number[0] as i128) > exact);
            }
        }
    }
    println!("{down} down, {up} up");
    assert!(down > 100 && up > 100);
}

/// Subnormal clocks, and seconds that are subnormal, infinite or 0.
#[test]
fn edges_of_floats() {
    let mut chance = Chance::new(185);
    let counts = [LARGEST_COUNT, LARGEST_COUNT - 1, 1, 0, -1, -LARGEST_COUNT];
    for exponent in 0..2_047_u64 {
        for fraction in [0, 1, (1 << 52) - 1, 1 << 51] {
            let rate = f64::from_bits(exponent << 52 | fraction);
            for form in FORMS.into_iter().filter(|_| rate > 0.0) {
                seconds(&mut chance, (form, rate), &counts);
            }
        }
    }
    let great = seconds(&mut chance, (PER_TICK, f64::MAX), &[2, -2, 1]);
    assert_eq!(great, [f64::INFINITY, f64::NEG_INFINITY, f64::MAX]);
    let great = seconds(&mut chance, (PER_SECOND, 5e-324), &[1, -1, 0]);
    assert_eq!(great, [f64::INFINITY, f64::NEG_INFINITY, 0.0]);
}

/// A smaller count never has more seconds: no effect before its cause.
#[test]
fn order_is_kept() {
    let mut chance = Chance::new(186);
    let mut rounded_together = 0;
    for _ in 0..200_000 {
        let clock = some_clock(&mut chance);
        let cause = some_count(&mut chance);
        let effect = if chance.one_in(2) {
            (cause + chance.between(0, 3)).min(LARGEST_COUNT)
        } else {
            some_count(&mut chance)
        };
        let (first, last) = (cause.min(effect), cause.max(effect));
        let table = Table::of(&[clock, (PER_TICK, some_rate(&mut chance))]);
        let found = seconds(&mut chance, clock, &[first, last]);
        let counts = [last, 5, first];
        let in_table = events_in(&mut chance, table.events(&[0, 1, 0], &counts), 3).unwrap();
        assert!(found[0] <= found[1], "{clock:?}: {first}, {last}");
        assert_eq!([in_table[2], in_table[0]], [found[0], found[1]]);
        rounded_together += usize::from(first < last && found[0] == found[1]);
    }
    println!("{rounded_together} pairs rounded together");
    assert!(rounded_together > 1_000);
}

/// The comparison itself tells one operation from another: multiplying by the reciprocal
/// gives other bits on many counts, and so does the other form.
#[test]
fn other_operations_differ() {
    let mut chance = Chance::new(187);
    let mut other = 0;
    for _ in 0..10_000 {
        let (count, rate) = (some_count(&mut chance), some_rate(&mut chance));
        let divided = seconds(&mut chance, (PER_SECOND, rate), &[count])[0];
        let reciprocal = seconds_of((PER_TICK, 1.0 / rate), count);
        other += usize::from(divided.to_bits() != reciprocal.to_bits());
    }
    println!("{other} of 10,000 differ");
    assert!(other > 1_000);
}
