//! Damages input in all the ways in which a file or a program may get it wrong.

use std::ops::Range;

use crate::chance::Chance;
use crate::limits::{EDGE_IDENTIFIERS, LAST_IDENTIFIER, NO_IDENTIFIERS};
use crate::limits::{LARGEST_BOUND, LARGEST_VALUE, LAST_VARIABLE, LINE_BYTES, LINE_NUMBERS};
use crate::limits::{MOST_LINES, MOST_N, MOST_NUMBERS, NUMBER_BYTES};
use crate::lines::{
    identifier, line, lone, misplaced, of_message, zero, Line, BOUND, IDENTIFIER, X, Y,
};

/// Numbers at which a wrong width or a wrong limit shows.
const EXTREMES: [i64; 12] = [
    0,
    -1,
    1 << 16,
    1 << 30,
    (1 << 31) - 1,
    1 << 31,
    i64::MIN,
    i64::MAX,
    -LARGEST_VALUE - 1,
    -LARGEST_VALUE,
    LARGEST_VALUE,
    LARGEST_VALUE + 1,
];

/// Bounds at the limits and just beyond.
const BOUNDS: [i32; 4] = {
    let largest = LARGEST_BOUND as i32;
    [-largest - 1, -largest, largest, largest + 1]
};

/// Bytes, and numbers, that are cut or added: up to a line and one number.
const SOME_BYTES: usize = LINE_BYTES + NUMBER_BYTES;
const SOME_NUMBERS: usize = LINE_NUMBERS + 1;

/// What one call is given: the model or the refutation is `proposed`.
#[derive(Clone)]
pub struct Input {
    pub n: u64,
    pub list: Vec<u8>,
    pub proposed: Vec<u8>,
}

impl Input {
    /// The same with one damage, at times two. A number in `proposed` takes
    /// `width` bytes.
    pub fn damaged(&self, chance: &mut Chance, width: usize) -> Input {
        let mut input = self.clone();
        loop {
            match chance.below(10) {
                0 => input.n = other_count(chance, input.n),
                1..=4 => damage_list(chance, &mut input.list),
                _ => damage_numbers(chance, &mut input.proposed, width),
            }
            if !chance.one_in(4) {
                return input;
            }
        }
    }
}

/// Another number of variables.
fn other_count(chance: &mut Chance, n: u64) -> u64 {
    // With 2^61 more, 8n is the same if its high bits are dropped.
    match chance.below(4) {
        0 => n.wrapping_add(1),
        1 => n.wrapping_sub(1),
        2 => n.wrapping_add(chance.pick(&[256, 1 << 32, 1 << 61, 1 << 63])),
        _ => chance.pick(&[0, MOST_N, MOST_N + 1, u64::MAX]),
    }
}

/// Another identifier, at the limits or beyond.
fn other_identifier(chance: &mut Chance) -> i32 {
    chance.pick(&[&EDGE_IDENTIFIERS[..], &NO_IDENTIFIERS].concat())
}

/// Damages whole lines, or numbers.
fn damage_list(chance: &mut Chance, list: &mut Vec<u8>) {
    let lines = list.len() / LINE_BYTES;
    if lines == 0 || !chance.one_in(4) {
        return damage_numbers(chance, list, NUMBER_BYTES);
    }
    let at = LINE_BYTES * chance.below(lines);
    let line: Vec<u8> = list[at..at + LINE_BYTES].to_vec();
    match chance.below(8) {
        0 => drop(list.drain(at..at + LINE_BYTES)),
        1 => drop(list.splice(at..at, line)),
        2 => swap(list, at, LINE_BYTES * chance.below(lines), LINE_BYTES),
        // As many copies of a line as are let in, or a few more.
        3 => {
            let count = MOST_LINES - 1 + chance.below(4);
            *list = [&list[..], &line.repeat(count.saturating_sub(lines))].concat();
        }
        // A bound at the limits or just beyond.
        4 => {
            let bound = chance.pick(&BOUNDS);
            put(list, at + NUMBER_BYTES * BOUND, bound);
        }
        // The same for an identifier.
        5 => {
            let identifier = other_identifier(chance);
            put(list, at + NUMBER_BYTES * IDENTIFIER, identifier);
        }
        // The first coefficient and its variable are 0.
        6 => list[at..at + NUMBER_BYTES * (X + 1)].fill(0),
        // The number of a variable that is just not there, or of one beside 0.
        _ => {
            let place = at + NUMBER_BYTES * chance.pick(&[X, Y]);
            let last = LAST_VARIABLE;
            let variable = chance.pick(&[-1, 1, last, last + 1, last + 2, 1 << 8, 1 << 16]);
            put(list, place, variable);
        }
    }
}

/// Puts a number of a line at this byte.
fn put(list: &mut [u8], at: usize, number: i32) {
    list[at..at + NUMBER_BYTES].copy_from_slice(&number.to_le_bytes());
}

/// Damages numbers of `width` bytes each.
fn damage_numbers(chance: &mut Chance, bytes: &mut Vec<u8>, width: usize) {
    let numbers = bytes.len() / width;
    if numbers == 0 || chance.one_in(8) {
        let count = if chance.one_in(2) {
            width
        } else {
            chance.below(SOME_BYTES)
        };
        let more = (0..count).map(|_| chance.next() as u8 & 3);
        return bytes.extend(more.collect::<Vec<u8>>());
    }
    let at = width * chance.below(numbers);
    let other = width * chance.below(numbers);
    let number: Vec<u8> = bytes[at..at + width].to_vec();
    match chance.below(14) {
        0 => bytes.truncate(bytes.len() - 1 - chance.below(bytes.len().min(SOME_BYTES))),
        1 => drop(bytes.drain(at..at + chance.between(1, width as i64) as usize)),
        2 => drop(bytes.drain(at.min(other)..at.max(other))),
        3 => bytes.insert(at, chance.next() as u8),
        4 => bytes[at + chance.below(width)] ^= 1 << chance.below(8),
        5 => bytes[at + chance.below(width)] = chance.next() as u8,
        6 | 7 => add(bytes, at, width, chance.pick(&[1, -1])),
        8 => swap(bytes, at, other, width),
        9 => drop(bytes.splice(at..at, number)),
        10 => drop(bytes.drain(at..at + width)),
        11 => bytes[at..at + width].reverse(),
        12 => {
            let extreme = chance.pick(&EXTREMES);
            bytes[at..at + width].copy_from_slice(&extreme.to_le_bytes()[..width]);
        }
        _ => bytes[at..].fill(chance.pick(&[0, 255])),
    }
}

/// Adds to the number at this byte.
fn add(bytes: &mut [u8], at: usize, width: usize, what: i64) {
    let mut eight = [0; 8];
    eight[..width].copy_from_slice(&bytes[at..at + width]);
    let number = i64::from_le_bytes(eight).wrapping_add(what);
    bytes[at..at + width].copy_from_slice(&number.to_le_bytes()[..width]);
}

/// Swaps two stretches, which are one and the same or lie apart.
fn swap(bytes: &mut [u8], one: usize, other: usize, width: usize) {
    for at in 0..width {
        bytes.swap(one + at, other + at);
    }
}

/// A list and its n with one damage, at times several. The numbers of a list
/// that is lent as numbers are whole; lengths, values and n are not safe.
pub fn damaged_list(chance: &mut Chance, n: u64, list: &[i32]) -> (u64, Vec<i32>) {
    let (mut n, mut list) = (n, list.to_vec());
    loop {
        match chance.below(8) {
            0 => n = other_count(chance, n),
            1 => damage_length(chance, &mut list),
            _ => damage_number(chance, n, &mut list),
        }
        if !chance.one_in(4) {
            return (n, list);
        }
    }
}

/// Cuts a list, adds to it, or makes it as long as is let in, or longer.
fn damage_length(chance: &mut Chance, list: &mut Vec<i32>) {
    let (most, longer) = (MOST_NUMBERS, MOST_NUMBERS + LINE_NUMBERS);
    match chance.below(10) {
        0 | 1 => list.truncate(list.len().saturating_sub(1 + chance.below(SOME_NUMBERS))),
        2 | 3 => list.extend((0..=chance.below(SOME_NUMBERS)).map(|at| at as i32 % 2)),
        4 | 5 => drop(list.drain(..chance.below(list.len().min(SOME_NUMBERS) + 1))),
        6 | 7 => list.insert(chance.below(list.len() + 1), 0),
        // A length that is too long and broken is refused for being broken.
        8 => list.resize(
            chance.pick(&[most - 1, most + 1, longer - 1, longer + 1]),
            0,
        ),
        _ => list.resize(
            chance.pick(&[most - LINE_NUMBERS, most, longer, 2 * most]),
            0,
        ),
    }
}

/// Changes one number or two, in a place where the change is most likely wrong.
fn damage_number(chance: &mut Chance, n: u64, list: &mut [i32]) {
    if list.len() < LINE_NUMBERS {
        return;
    }
    let line = LINE_NUMBERS * chance.below(list.len() / LINE_NUMBERS);
    let variable = line + chance.pick(&[X, Y]);
    let coefficient = variable - 1;
    let n = n as i32;
    match chance.below(11) {
        0 => list[coefficient] = chance.pick(&[2, -2, 3, 255, 257, 65_537, i32::MIN, i32::MAX]),
        1 => list[variable] = chance.pick(&[n, n.wrapping_add(1), -1, LAST_VARIABLE + 1, 1 << 16]),
        2 => list[variable] = chance.pick(&[i32::MIN, i32::MAX, 1 << 24, -1 << 16]),
        3 => list[coefficient] = 0,
        4 => (list[coefficient], list[variable]) = (0, chance.pick(&[1, -1, n, i32::MIN])),
        5 => list[line + BOUND] = chance.pick(&BOUNDS),
        6 => list[line + BOUND] = chance.pick(&[i32::MIN, i32::MAX, 1 << 30, -1 << 24]),
        7 => list[line + IDENTIFIER] = other_identifier(chance),
        8 => list[line..=line + X].fill(0),
        9 => list[chance.below(LINE_NUMBERS) + line] ^= 1 << chance.below(32),
        _ => list.swap(line + chance.below(LINE_NUMBERS), chance.below(list.len())),
    }
}

/// The refusals of a line, in the order in which they are given. A set of them is a
/// number with a bit for each.
const LINE_REFUSALS: [u8; 5] = [4, 5, 12, 6, 13];

/// All sets, the empty one first.
pub fn fault_sets() -> Range<usize> {
    0..1 << LINE_REFUSALS.len()
}

/// Every two sets.
pub fn all_faults() -> impl Iterator<Item = (usize, usize)> {
    fault_sets().flat_map(|one| fault_sets().map(move |two| (one, two)))
}

/// The first refusal of a set.
pub fn first_fault(faults: usize) -> Option<u8> {
    let found = (0..LINE_REFUSALS.len()).find(|at| faults >> at & 1 == 1);
    found.map(|at| LINE_REFUSALS[at])
}

/// A line of two variables with just these faults.
pub fn faulty_line(chance: &mut Chance, faults: usize) -> Line {
    let mut line = of_message(line(1, 0, -1, 1, 7), identifier(chance));
    let has = |refusal| {
        let at = LINE_REFUSALS.iter().position(|&one| one == refusal);
        faults >> at.unwrap() & 1 == 1
    };
    // With a lone coefficient in the second place, what else is wrong is wrong there.
    let variable = if has(12) { Y } else { chance.pick(&[X, Y]) };
    let coefficient = variable - 1;
    for refusal in LINE_REFUSALS {
        if has(refusal) {
            match refusal {
                4 => line[coefficient] = chance.pick(&[2, -2, i32::MIN, i32::MAX]),
                5 => line[variable] = chance.pick(&[-1, 2, LAST_VARIABLE + 1, i32::MIN, i32::MAX]),
                12 => line[..=X].fill(0),
                6 => line[BOUND] = chance.pick(&[BOUNDS[0], BOUNDS[3], i32::MIN, i32::MAX]),
                _ => line[IDENTIFIER] = chance.pick(&NO_IDENTIFIERS),
            }
        }
    }
    line
}

/// Lists that are refused, each with its n, and the refusal's number and place.
pub fn refused_lists() -> [(u64, Vec<i32>, (u8, usize)); 15] {
    let low = |line| of_message(line, -1);
    let high = |line| of_message(line, LAST_IDENTIFIER + 1);
    [
        (MOST_N + 1, vec![0; LINE_NUMBERS - 2], (1, 0)),
        (MOST_N, vec![0; MOST_NUMBERS + LINE_NUMBERS + 1], (2, 0)),
        (MOST_N, vec![0; MOST_NUMBERS + LINE_NUMBERS], (3, 0)),
        (2, [zero(0), lone(2, 9, 0)].concat(), (4, 1)),
        (2, lone(1, 2, 1_000_001).to_vec(), (5, 0)),
        (2, line(0, 0, 0, 1, 1_000_001).to_vec(), (5, 0)),
        (2, misplaced(1, 2, 0).to_vec(), (5, 0)),
        (2, misplaced(-1, 0, 0).to_vec(), (12, 0)),
        (2, low(misplaced(1, 1, 1_000_001)).to_vec(), (12, 0)),
        (2, [misplaced(1, 1, 0), lone(2, 0, 0)].concat(), (12, 0)),
        (2, [zero(1_000_001), lone(2, 0, 0)].concat(), (6, 0)),
        (2, low(zero(1_000_001)).to_vec(), (6, 0)),
        (2, high(zero(0)).to_vec(), (13, 0)),
        (2, [high(zero(0)), lone(2, 0, 0)].concat(), (13, 0)),
        (2, [zero(0), low(lone(1, 1, 0))].concat(), (13, 1)),
    ]
}
