//! Models in seconds: a second implementation of both calls, and the calls in a buffer
//! between guards. Each call is made sure to answer as that implementation does, to write
//! the same bits, and to leave all else as it was.

use crate::buffers::Guarded;
use crate::chance::Chance;
use crate::library::{self, Events, SecondsWritten};
use crate::limits::{MOST_COUNT, MOST_RECORDERS, SECONDS_PER_TICK, TICKS_PER_SECOND};

/// The forms of a clock: seconds per tick, and ticks per second.
pub const FORMS: [u32; 2] = [SECONDS_PER_TICK as u32, TICKS_PER_SECOND as u32];

/// A count lies within plus and minus this.
pub const LARGEST_COUNT: i64 = MOST_COUNT as i64;

/// The form and the rate of a clock.
pub type Clock = (u32, f64);

/// Numbers that no clock has.
pub const NO_RATES: [f64; 9] = [
    f64::NAN,
    -f64::NAN,
    f64::INFINITY,
    f64::NEG_INFINITY,
    0.0,
    -0.0,
    -1.0,
    -5e-324,
    f64::MIN,
];

/// What is due: the seconds, or the number and the place of a refusal.
pub type Due = Result<Vec<f64>, (u64, usize)>;

/// The seconds of a count.
pub fn seconds_of((form, rate): Clock, count: i64) -> f64 {
    if form == FORMS[0] {
        count as f64 * rate
    } else {
        count as f64 / rate
    }
}

fn is_usable((form, rate): Clock) -> bool {
    FORMS.contains(&form) && rate.is_finite() && rate > 0.0
}

/// 51, then 52; else the seconds, each by its own clock.
fn due_of_counts(clocks: impl Fn(usize) -> Clock, counts: &[i64], room: usize) -> Due {
    let within = -LARGEST_COUNT..=LARGEST_COUNT;
    match counts.iter().position(|count| !within.contains(count)) {
        Some(place) => Err((51, place)),
        None if room < counts.len() => Err((52, 0)),
        None => Ok((0..counts.len())
            .map(|at| seconds_of(clocks(at), counts[at]))
            .collect()),
    }
}

/// What is due of one clock.
pub fn due(clock: Clock, counts: &[i64], room: usize) -> Due {
    if !is_usable(clock) {
        return Err((50, 0));
    }
    due_of_counts(|_| clock, counts, room)
}

/// What is due of a table.
pub fn due_of_events(events: &Events, room: usize) -> Due {
    let size = events.forms.len();
    if size > MOST_RECORDERS
        || size != events.rates.len()
        || events.recorders.len() != events.counts.len()
    {
        return Err((54, 0));
    }
    let clock = |r: usize| (events.forms[r], events.rates[r]);
    if let Some(recorder) = (0..size).find(|&r| !is_usable(clock(r))) {
        return Err((50, recorder));
    }
    let none = |&r: &u32| r as usize >= size;
    if let Some(event) = events.recorders.iter().position(none) {
        return Err((53, event));
    }
    due_of_counts(
        |at| clock(events.recorders[at] as usize),
        events.counts,
        room,
    )
}

/// A table of recorders.
pub struct Table {
    pub forms: Vec<u32>,
    pub rates: Vec<f64>,
}

impl Table {
    pub fn of(clocks: &[Clock]) -> Table {
        let (forms, rates) = clocks.iter().copied().unzip();
        Table { forms, rates }
    }

    /// Events of these recorders, with these counts.
    pub fn events<'a>(&'a self, recorders: &'a [u32], counts: &'a [i64]) -> Events<'a> {
        Events {
            forms: &self.forms,
            rates: &self.rates,
            recorders,
            counts,
        }
    }
}

fn bits(numbers: &[f64]) -> Vec<u64> {
    numbers.iter().map(|number| number.to_bits()).collect()
}

/// Makes sure that a call in a buffer of this length, full of rubbish, does what is due.
fn answers(
    chance: &mut Chance,
    room: usize,
    due: Due,
    call: impl FnOnce(&mut [f64]) -> SecondsWritten,
) -> Due {
    let before = Guarded::new(room, || f64::from_bits(chance.next()));
    let mut after = before.clone();
    let written = call(after.lent_mut());
    let (refusal, place) = *due.as_ref().err().unwrap_or(&(0, 0));
    assert_eq!((written.refusal, written.place), (refusal, place as u64));
    let count = due.as_ref().map_or(0, Vec::len);
    let seconds = due.as_deref().unwrap_or(&[]);
    assert_eq!(bits(&after.lent()[..count]), bits(seconds));
    assert_eq!(bits(after.before()), bits(before.before()));
    assert_eq!(bits(after.behind(count)), bits(before.behind(count)));
    due
}

/// The counts of one clock in seconds, in a buffer of this length.
pub fn model_in(chance: &mut Chance, clock: Clock, counts: &[i64], room: usize) -> Due {
    answers(chance, room, due(clock, counts, room), |seconds| {
        library::model_seconds(clock.0, clock.1, counts, seconds)
    })
}

/// The counts of events in seconds, in a buffer of this length.
pub fn events_in(chance: &mut Chance, events: Events, room: usize) -> Due {
    let due = due_of_events(&events, room);
    answers(chance, room, due, |seconds| {
        library::events_seconds(events, seconds)
    })
}

/// A count of some size: every number of bits is as likely as another.
pub fn some_count(chance: &mut Chance) -> i64 {
    let size = (chance.next() >> (11 + chance.below(53))) as i64;
    match chance.below(16) {
        0 => chance.pick(&[LARGEST_COUNT, -LARGEST_COUNT, LARGEST_COUNT - 1, 0, 1, -1]),
        1..=7 => -size,
        _ => size,
    }
}

/// A number that a clock can have: any float, one beside a power of two, a subnormal one,
/// or one that people write.
pub fn some_rate(chance: &mut Chance) -> f64 {
    let any = f64::from_bits(chance.next() >> 1);
    let rate = match chance.below(8) {
        0 => f64::from_bits(chance.next() >> 12),
        1 => chance.pick(&[5e-324, f64::MIN_POSITIVE, f64::MAX, 1.0, f64::EPSILON]),
        2 => chance.pick(&[1e-5, 1e-6, 1e-3, 0.1, 100_000.0, 1e6, 44_100.0, 32_768.0]),
        3 => f64::from_bits((chance.next() >> 53 << 52).wrapping_sub(chance.next() & 1)),
        _ => any,
    };
    if is_usable((FORMS[0], rate)) {
        rate
    } else {
        1.0 / 3.0
    }
}

/// A clock of either form.
pub fn some_clock(chance: &mut Chance) -> Clock {
    (chance.pick(&FORMS), some_rate(chance))
}
