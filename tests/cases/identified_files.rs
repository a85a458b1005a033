//! Files whose lines have identifiers: records of both kinds in every order, what is
//! refused and where, and that messages stay apart on the way through a file, deciding
//! and back.

use std::collections::BTreeSet;

use utvpi_tests::chance::Chance;
use utvpi_tests::damage::{all_faults, faulty_line, first_fault};
use utvpi_tests::decision::{decide, Verdict};
use utvpi_tests::document::{largest, CASE_4};
use utvpi_tests::files::{read, write};
use utvpi_tests::limits::{file_size, record_at, EDGE_IDENTIFIERS, LAST_IDENTIFIER, LAST_SHORT};
use utvpi_tests::limits::{BARE_LINE_BYTES, LINE_BYTES, LINE_NUMBERS, MOST_FILE, MOST_LINES};
use utvpi_tests::limits::{KIND_IDENTIFIED_LINE, KIND_LINE, RECORD_HEAD};
use utvpi_tests::limits::{MOST_N, MOST_NUMBERS, NO_IDENTIFIERS};
use utvpi_tests::lines::{identified, identifier, line, lone, of_message, zero, Line, IDENTIFIER};
use utvpi_tests::make;
use utvpi_tests::records::{self, bare_line, end, identified_line, pack, packed, variables, List};

/// The lines of a list that was read.
fn lines_of(list: &List) -> Vec<Line> {
    let lines = list.numbers.chunks(LINE_NUMBERS);
    lines.map(|line| line.try_into().unwrap()).collect()
}

/// The file of these lines, written with just enough room, after making sure that the
/// lines come back from it.
fn there_and_back(chance: &mut Chance, n: u64, lines: &[Line]) -> Vec<u8> {
    let numbers = lines.concat();
    let bare = lines.iter().filter(|line| line[IDENTIFIER] == 0).count();
    let size = file_size(bare, lines.len() - bare);
    let file = write(chance, n, &numbers, size).unwrap();
    assert_eq!(file.len(), size);
    let short = write(chance, n, &numbers, size - 1);
    assert_eq!(short, Err((25, 0)));
    let back = read(chance, &file, numbers.len());
    assert_eq!(back, Ok(List { n, numbers }));
    file
}

/// An identifier in each line of a list: all that there are from 0 to the last are
/// written and read back, and all others are refused at their line, by both.
#[test]
fn at_the_limits() {
    let mut chance = Chance::new(140);
    let lines = identified(&[line(1, 0, -1, 1, 5), lone(-1, 1, 2), zero(0), zero(-1)]);
    for at in 0..lines.len() {
        let with = |identifier: i32| {
            let mut lines = lines.clone();
            lines[at][IDENTIFIER] = identifier;
            lines
        };
        for identifier in EDGE_IDENTIFIERS {
            there_and_back(&mut chance, 2, &with(identifier));
        }
        for identifier in NO_IDENTIFIERS {
            let numbers = with(identifier).concat();
            for room in [0, records::size(&numbers), MOST_FILE] {
                let refused = write(&mut chance, 2, &numbers, room);
                assert_eq!(refused, Err((13, at as u64)), "{identifier}");
            }
            // Whatever else the file has, it is of kind 4.
            let mut records: Vec<Vec<u8>> = lines.iter().map(|line| records::line(line)).collect();
            records[at] = identified_line(&with(identifier)[at]);
            let file = [variables(2), records.concat(), end()].concat();
            let refused = read(&mut chance, &file, numbers.len());
            assert_eq!(refused, Err((13, at as u64)), "{identifier}");
            let longer = read(&mut chance, &[&file[..], &[0]].concat(), numbers.len());
            assert_eq!(longer, Err((24, file.len() as u64)));
        }
    }
}

/// The longest lists: the most bytes of all, the least, and both kinds by turns; and a
/// number that is no identifier in some line.
#[test]
fn the_longest() {
    let mut chance = Chance::new(141);
    let named = |names: [i32; 2]| -> Vec<Line> {
        let lines = largest().into_iter().zip(names.into_iter().cycle());
        lines.map(|(line, name)| of_message(line, name)).collect()
    };
    let (half, last) = (MOST_LINES / 2, LAST_IDENTIFIER);
    for (names, size) in [
        ([1, last], MOST_FILE),
        ([0, 0], file_size(MOST_LINES, 0)),
        ([0, last], file_size(MOST_LINES - half, half)),
        ([last, 0], file_size(half, MOST_LINES - half)),
    ] {
        let mut lines = named(names);
        let file = there_and_back(&mut chance, MOST_N, &lines);
        assert_eq!(file.len(), size);
        for at in [0, 1, half, MOST_LINES - 2, MOST_LINES - 1] {
            let old = lines[at];
            lines[at][IDENTIFIER] = chance.pick(&NO_IDENTIFIERS);
            let numbers = lines.concat();
            let refused = write(&mut chance, MOST_N, &numbers, MOST_FILE);
            assert_eq!(refused, Err((13, at as u64)));
            let file = pack(MOST_N as u32, &numbers).concat();
            let refused = read(&mut chance, &file, MOST_NUMBERS);
            assert_eq!(refused, Err((13, at as u64)));
            lines[at] = old;
        }
    }
}

/// Two lines with any faults, behind another that has none: the first faulty line is
/// named, with the first of 4, 5, 12, 6 and 13 that it has, in writing and in reading.
#[test]
fn the_order_within_a_line() {
    let mut chance = Chance::new(148);
    for (one, two) in all_faults() {
        for _ in 0..4 {
            let lines = [0, one, two].map(|faults| faulty_line(&mut chance, faults));
            let numbers = lines.concat();
            let first = first_fault(one).map(|number| (number.into(), 1));
            let due = first.or(first_fault(two).map(|number| (number.into(), 2)));
            let written = write(&mut chance, 2, &numbers, MOST_FILE);
            assert_eq!(written.err(), due, "{lines:?}");
            let file = pack(2, &numbers).concat();
            let back = read(&mut chance, &file, numbers.len());
            assert_eq!(back.err(), due, "{lines:?}");
        }
    }
}

/// Up to so many lines of both kinds are put in every order.
const MOST_MIXED: usize = 8;

/// Both kinds of records in every order: each file is the one that was put together
/// here, is read back, and has its records where they should be.
#[test]
fn both_kinds_in_every_order() {
    let mut chance = Chance::new(142);
    let mut orders = 0;
    for count in 0..=MOST_MIXED {
        for order in 0..1 << count {
            let n = 1 + chance.below(3) as u64;
            let is_named = |at: usize| order >> at & 1 == 1;
            let line = |at: usize| {
                let line = make::some_line(&mut chance, n);
                let name = match is_named(at) {
                    true => identifier(&mut chance).max(1),
                    false => 0,
                };
                of_message(line, name)
            };
            let lines: Vec<Line> = (0..count).map(line).collect();
            let numbers = lines.concat();
            let mut due = variables(n as u32);
            let mut places = Vec::new();
            for (at, line) in lines.iter().enumerate() {
                places.push(due.len());
                due.extend(match is_named(at) {
                    true => identified_line(line),
                    false => bare_line(line),
                });
            }
            due.extend(end());
            let file = there_and_back(&mut chance, n, &lines);
            assert_eq!(file, due, "{lines:?}");
            // No room for a line: its record is named.
            for (at, &place) in places.iter().enumerate() {
                let room = LINE_NUMBERS * (at + 1) - 1;
                let short = read(&mut chance, &file, room);
                assert_eq!(short, Err((25, place as u64)), "{lines:?}");
            }
            // A file cut off: the record at its end is.
            for length in 0..file.len() {
                let cut = read(&mut chance, &file[..length], numbers.len());
                let mut starts = places.iter().copied().chain([file.len() - RECORD_HEAD]);
                let last = starts.rfind(|&at| at <= length).unwrap_or(0);
                assert_eq!(cut, Err((20, last as u64)), "{length} of {lines:?}");
            }
            orders += 1;
        }
    }
    assert_eq!(orders, (2 << MOST_MIXED) - 1);
}

/// A kind with the length of the other, and a body as long as either asks for.
#[test]
fn the_length_of_the_other_kind() {
    let mut chance = Chance::new(143);
    let bodies = [BARE_LINE_BYTES, LINE_BYTES];
    for (kind, length) in [
        (KIND_LINE, LINE_BYTES),
        (KIND_IDENTIFIED_LINE, BARE_LINE_BYTES),
    ] {
        for (before, body) in [0, 1, 2].into_iter().flat_map(|k| bodies.map(|b| (k, b))) {
            let lines = identified(&vec![lone(1, 0, 5); before]).concat();
            let mut records = pack(1, &lines);
            records.insert(1 + before, packed(length, kind, &vec![1; body]));
            let file = records.concat();
            let refused = read(&mut chance, &file, LINE_NUMBERS * (before + 1));
            assert_eq!(refused, Err((22, records::place(&lines, before) as u64)));
        }
    }
}

/// A line of kind 4 whose identifier is 0, in each place among lines of both kinds: it
/// is refused at its record, whether or not there is room for it, whatever its numbers
/// are and whatever comes behind it; but not before what comes before it.
#[test]
fn kind_4_with_zero() {
    let mut chance = Chance::new(144);
    for round in 0..2_000 {
        let (n, count) = (2, 1 + chance.below(6));
        let lines = make::lines(&mut chance, n, count);
        let at = chance.below(count);
        let mut zeroed = of_message(lines[at], 0);
        if chance.one_in(2) {
            zeroed = of_message([chance.next() as i32; LINE_NUMBERS], 0);
        }
        let mut records = pack(n as u32, &lines.concat());
        records[1 + at] = identified_line(&zeroed);
        let place = records[..1 + at].concat().len() as u64;
        let full = LINE_NUMBERS * count;
        let refused = |chance: &mut Chance, records: &[Vec<u8>], room: usize| {
            let answer = read(chance, &records.concat(), room);
            answer.expect_err("a line of kind 4 without its identifier is read")
        };
        // Room for all, for the lines before it, and for all but one number of it.
        for room in [full, LINE_NUMBERS * at, LINE_NUMBERS * (at + 1) - 1] {
            assert_eq!(refused(&mut chance, &records, room), (26, place));
        }
        // No room for a line before it.
        if at > 0 {
            let before = records[..at].concat().len() as u64;
            let room = LINE_NUMBERS * at - 1;
            assert_eq!(refused(&mut chance, &records, room), (25, before));
        }
        // Behind it anything, and before it a line that is none.
        let mut others = records.clone();
        others.truncate(2 + at);
        others.push(
            chance
                .pick(&[&[0][..], &[1, 2, 3, 4, 5], &[0, 0, 3, 0, 0]])
                .to_vec(),
        );
        assert_eq!(refused(&mut chance, &others, full), (26, place));
        let mut others = records.clone();
        others[0] = variables(MOST_N as u32 + 1);
        assert_eq!(refused(&mut chance, &others, full), (26, place));
        // Another record of its sort in front of it: the first is named.
        let mut others = records.clone();
        let earlier = 1 + chance.below(at + 1);
        let first = records[..earlier].concat().len() as u64;
        others.insert(earlier, identified_line(&zero(round)));
        assert_eq!(refused(&mut chance, &others, full), (26, first));
        // Out of place, and cut.
        others = records.split_off(1 + at);
        assert_eq!(refused(&mut chance, &others, full), (23, 0));
        others[0].pop();
        assert_eq!(refused(&mut chance, &others[..1], full), (20, 0));
        records.push(others[0].clone());
        assert_eq!(refused(&mut chance, &records, full), (20, place));
    }
}

/// What is read from a line of kind 2 has the identifier 0, and the same line of kind 4
/// is another: lists that differ in one identifier have different files.
#[test]
fn another_identifier_is_another_file() {
    let mut chance = Chance::new(145);
    // One line, with each identifier at the limits: as many files.
    let file_of = |chance: &mut Chance, name: i32| {
        let line = of_message(line(1, 0, -1, 1, -3), name);
        there_and_back(chance, 2, &[line])
    };
    let files: BTreeSet<Vec<u8>> = EDGE_IDENTIFIERS
        .iter()
        .map(|&name| file_of(&mut chance, name))
        .collect();
    assert_eq!(files.len(), EDGE_IDENTIFIERS.len());
    // Each bit of an identifier alone.
    let bits = (0..31).map(|at| 1 << at);
    let bits: Vec<i32> = bits.filter(|&bit| bit <= LAST_IDENTIFIER).collect();
    let files: BTreeSet<Vec<u8>> = [0]
        .iter()
        .chain(&bits)
        .map(|&name| file_of(&mut chance, name))
        .collect();
    assert_eq!(files.len(), 1 + bits.len());
    // Lists at random, and one identifier in them.
    let (mut same_kind, mut other_kind) = (0, 0);
    for _ in 0..5_000 {
        let (n, count) = (1 + chance.below(3) as u64, 1 + chance.below(8));
        let lines = make::lines(&mut chance, n, count);
        let mut others = lines.clone();
        let at = chance.below(count);
        others[at][IDENTIFIER] = identifier(&mut chance);
        let [one, two] = [&lines, &others].map(|lines| there_and_back(&mut chance, n, lines));
        assert_eq!(one == two, lines == others, "{lines:?} {others:?}");
        same_kind += usize::from(one != two && one.len() == two.len());
        other_kind += usize::from(one.len() != two.len());
    }
    println!("{same_kind} pairs of one length, {other_kind} of two");
    assert!(same_kind >= 500 && other_kind >= 500);
}

/// Two messages whose identifiers have the same low eleven bits stay two, in a list
/// that is written, read and decided: each identifier that is handed over is that of
/// one of the two, and both are.
#[test]
fn the_same_low_eleven_bits() {
    let mut chance = Chance::new(146);
    let bits = (0..31).map(|at| 1 << at);
    let high = bits.filter(|&bit| LAST_SHORT < bit && bit <= LAST_IDENTIFIER);
    let mut pairs: Vec<(i32, i32)> = high.flat_map(|bit| [(0, bit), (1 | bit, 1)]).collect();
    while pairs.len() < 500 {
        let [one, two] = [identifier(&mut chance), identifier(&mut chance)];
        pairs.push((one, two & !LAST_SHORT | one & LAST_SHORT));
    }
    pairs.retain(|(one, two)| one != two);
    assert!(pairs.len() >= 300);
    for (one, two) in pairs {
        assert_eq!(one & LAST_SHORT, two & LAST_SHORT);
        for (n, lines) in [(1, &[lone(1, 0, 3), lone(-1, 0, -4)][..]), (3, &CASE_4)] {
            let by_turns = lines.iter().zip([one, two].into_iter().cycle());
            let lines: Vec<Line> = by_turns.map(|(&line, by)| of_message(line, by)).collect();
            let file = there_and_back(&mut chance, n, &lines);
            let swapped: Vec<Line> = lines
                .iter()
                .map(|line| of_message(*line, line[IDENTIFIER] ^ one ^ two))
                .collect();
            assert_ne!(there_and_back(&mut chance, n, &swapped), file);
            let list = read(&mut chance, &file, lines.concat().len()).unwrap();
            let decision = decide(&mut chance, list.n, &lines_of(&list));
            assert!(matches!(decision.verdict, Verdict::No(_)));
            let handed_over: BTreeSet<u32> = decision.identifiers.into_iter().collect();
            assert_eq!(handed_over, BTreeSet::from([one as u32, two as u32]));
            // Back to the lines: those of either message.
            for name in handed_over {
                let of_name = lines.iter().filter(|line| line[IDENTIFIER] as u32 == name);
                assert_eq!(of_name.count(), lines.len() / 2);
            }
        }
    }
}

/// The sizes that the header's formula gives are those of the longest records.
#[test]
fn the_size_of_a_file() {
    let mut chance = Chance::new(147);
    for count in [0, 1, 2, 9, 100] {
        let lines = make::lines(&mut chance, 2, count);
        for name in [0, 1, LAST_IDENTIFIER] {
            let lines: Vec<Line> = lines.iter().map(|&line| of_message(line, name)).collect();
            let file = there_and_back(&mut chance, 2, &lines);
            let due = match name {
                0 => file_size(count, 0),
                _ => file_size(0, count),
            };
            assert_eq!(file.len(), due);
            assert_eq!(
                file.len() - RECORD_HEAD,
                records::place(&lines.concat(), count)
            );
        }
    }
    assert_eq!(
        record_at(0, 1) - record_at(1, 0),
        LINE_BYTES - BARE_LINE_BYTES
    );
}
