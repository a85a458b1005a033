//! Files for lists: what is read and written, what is refused and where, and
//! what is left alone; on lists up to the limits, on files damaged in every small
//! way, and on files with records in any order.

use std::iter;

use utvpi_tests::chance::Chance;
use utvpi_tests::damage::{damaged_list, refused_lists};
use utvpi_tests::files::{read, write};
use utvpi_tests::limits::{file_size, record_at, BARE_LINE_BYTES, LINE_BYTES, LINE_NUMBERS};
use utvpi_tests::limits::{KIND_END, KIND_IDENTIFIED_LINE, KIND_LINE, KIND_VARIABLES};
use utvpi_tests::limits::{LAST_IDENTIFIER, LAST_SHORT, LAST_VARIABLE, MOST_FILE};
use utvpi_tests::limits::{MOST_LINES, MOST_N, NUMBER_BYTES, RECORD_HEAD, VARIABLES_BYTES};
use utvpi_tests::lines::{identified, line, lone, misplaced, of_message, zero, Line, Y};
use utvpi_tests::make;
use utvpi_tests::records::{self, end, pack, packed, variables, List, Refusal};

/// The file of one variable with x <= 5, byte by byte, as docs/SPECIFICATION.md has it.
fn at_most_5() -> Vec<u8> {
    let records: [&[u8]; 4] = [
        &[0x04, 0x00, 0x01, 0x00, 0x01, 0x00, 0x00, 0x00],
        &[BARE_LINE_BYTES as u8, 0x00, 0x02, 0x00],
        &X_AT_MOST_5,
        &[0x00, 0x00, 0x03, 0x00],
    ];
    records.concat()
}

/// The same from the message 0x18DAF110.
fn at_most_5_named() -> Vec<u8> {
    let records: [&[u8]; 5] = [
        &[0x04, 0x00, 0x01, 0x00, 0x01, 0x00, 0x00, 0x00],
        &[LINE_BYTES as u8, 0x00, 0x04, 0x00],
        &X_AT_MOST_5,
        &[0x10, 0xF1, 0xDA, 0x18],
        &[0x00, 0x00, 0x03, 0x00],
    ];
    records.concat()
}

/// The numbers of x <= 5, byte by byte, but for the identifier.
const X_AT_MOST_5: [u8; BARE_LINE_BYTES] = [
    0x01, 0x00, 0x00, 0x00, 0x00, 0x00, 0x00, 0x00, 0x00, 0x00, 0x00, 0x00, 0x00, 0x00, 0x00, 0x00,
    0x05, 0x00, 0x00, 0x00,
];

/// The largest number that two bytes hold, for lengths and kinds.
const MOST_OF_TWO_BYTES: usize = u16::MAX as usize;

/// The lowest kind above those that there are.
const UNKNOWN_KIND: usize = KIND_IDENTIFIED_LINE + 1;

/// How often each refusal was seen, by number; 0 for none.
#[derive(Default)]
struct Times([usize; 27]);

impl Times {
    fn count<T>(&mut self, answer: Result<T, Refusal>) {
        let number = answer.err().map_or(0, |(number, _)| number);
        self.0[number as usize] += 1;
    }

    /// Fails if one of these was rarely seen, so that the test tested too little.
    fn must_include(&self, numbers: &[usize]) {
        println!(
            "none {}, {:?}, 12 and 13: {:?}, {:?}",
            self.0[0],
            &self.0[1..7],
            &self.0[12..14],
            &self.0[20..]
        );
        for &number in numbers {
            let times = self.0[number];
            assert!(times >= 100, "refusal {number} seen only {times} times");
        }
    }
}

/// A valid list: mostly short, at times as large as is let in.
fn some_list(chance: &mut Chance) -> (u64, Vec<i32>) {
    let (n, count) = match chance.below(800) {
        0 => (MOST_N, MOST_LINES),
        1..=3 => (
            chance.pick(&[0, 1, MOST_N - 1, MOST_N]),
            MOST_LINES - chance.below(23),
        ),
        4..=79 => (make::variables(chance), chance.below(100)),
        _ => (make::variables(chance), chance.below(9)),
    };
    (n, make::lines(chance, n, count).concat())
}

/// The one file that the specification writes out, and the same with an identifier.
#[test]
fn the_file_of_the_specification() {
    let mut chance = Chance::new(90);
    let (bare, named) = (at_most_5(), at_most_5_named());
    assert_eq!(bare.len(), file_size(1, 0));
    assert_eq!(named.len(), file_size(0, 1));
    one_line(&mut chance, lone(1, 0, 5), &bare);
    one_line(&mut chance, of_message(lone(1, 0, 5), 0x18DA_F110), &named);
}

/// A file as it was written while a lone coefficient could stand in either place: with one
/// in the second place it is refused at that line, and so is its list, to be written.
#[test]
fn a_lone_coefficient_in_the_second_place() {
    let mut chance = Chance::new(97);
    let mut old = at_most_5();
    // The first coefficient's lowest byte, and the second's.
    let first = record_at(0, 0) + RECORD_HEAD;
    old.swap(first, first + NUMBER_BYTES * (Y - 1));
    assert_eq!(old, pack(1, &misplaced(1, 0, 5)).concat());
    assert_eq!(read(&mut chance, &old, LINE_NUMBERS), Err((12, 0)));
    for at in 0..4 {
        for name in [0, LAST_IDENTIFIER] {
            let mut lines = [of_message(lone(-1, 1, 5), name); 4];
            lines[at] = of_message(misplaced(-1, 1, 5), name);
            let numbers = lines.concat();
            let file = pack(2, &numbers).concat();
            let read = read(&mut chance, &file, numbers.len());
            assert_eq!(read, Err((12, at as u64)));
            let written = write(&mut chance, 2, &numbers, MOST_FILE);
            assert_eq!(written, Err((12, at as u64)));
        }
    }
}

/// A list of one line and its file.
fn one_line(chance: &mut Chance, line: Line, file: &[u8]) {
    let list = List {
        n: 1,
        numbers: line.to_vec(),
    };
    for more in 0..8 {
        let whole = read(chance, file, LINE_NUMBERS + more);
        assert_eq!(whole, Ok(list.clone()));
        let written = write(chance, 1, &list.numbers, file.len() + more);
        assert_eq!(written, Ok(file.to_vec()));
    }
    for room in 0..LINE_NUMBERS {
        let short = read(chance, file, room);
        assert_eq!(short, Err((25, record_at(0, 0) as u64)));
    }
    for room in 0..file.len() {
        let written = write(chance, 1, &list.numbers, room);
        assert_eq!(written, Err((25, 0)));
    }
    for length in 0..file.len() {
        let records = [0, record_at(0, 0), file.len() - RECORD_HEAD];
        let last = records.into_iter().rfind(|&at| at <= length).unwrap();
        let cut = read(chance, &file[..length], LINE_NUMBERS);
        assert_eq!(cut, Err((20, last as u64)));
    }
}

/// Files with their refusals, told by hand: each refusal, at each sort of record,
/// and the first of several. The lines are from a message with this identifier, so
/// that the records of all are of one kind and length.
fn told_by_hand(identifier: i32) -> Vec<(Vec<Vec<u8>>, Refusal)> {
    let n = variables;
    let too_large = MOST_N as u32 + 1;
    let (kind, body, other_body) = match identifier {
        0 => (KIND_LINE, BARE_LINE_BYTES, LINE_BYTES),
        _ => (KIND_IDENTIFIED_LINE, LINE_BYTES, BARE_LINE_BYTES),
    };
    let record = |line: Line| records::line(&of_message(line, identifier));
    let good = || record(line(1, 0, -1, 1, 7));
    let bad = || record([9; LINE_NUMBERS]);
    // A record of this length and kind, whose body is as long and of this byte.
    let filled = |length, kind, byte| packed(length, kind, &vec![byte; length]);
    // A line whose last byte is missing.
    let cut = |byte| packed(body, kind, &vec![byte; body - 1]);
    // A line of kind 4 whose identifier is 0, and ones whose identifier is none.
    let nameless = || records::identified_line(&line(1, 0, -1, 1, 7));
    let below = |line| records::line(&of_message(line, -1));
    let beyond = |line| records::line(&of_message(line, LAST_IDENTIFIER + 1));
    let [first, second, fourth] = [0, 1, 3].map(|lines| all_alike(identifier, lines) as u64);
    let [after_none, after_one] = [first, second].map(|end| end + RECORD_HEAD as u64);
    vec![
        // The first record.
        (vec![], (20, 0)),
        (vec![vec![4, 0, 1]], (20, 0)),
        (
            vec![packed(VARIABLES_BYTES, KIND_VARIABLES, &[2, 0, 0])],
            (20, 0),
        ),
        (vec![packed(VARIABLES_BYTES, 0, &[])], (21, 0)),
        (vec![filled(VARIABLES_BYTES, UNKNOWN_KIND, 0)], (21, 0)),
        (vec![filled(VARIABLES_BYTES, 0x0101, 0)], (21, 0)),
        (vec![packed(body, KIND_VARIABLES, &[])], (22, 0)),
        (
            vec![packed(0x0100 + VARIABLES_BYTES, KIND_VARIABLES, &[0; 4])],
            (22, 0),
        ),
        (vec![packed(VARIABLES_BYTES, kind, &[])], (22, 0)),
        (vec![packed(VARIABLES_BYTES, KIND_END, &[])], (22, 0)),
        (vec![cut(0)], (20, 0)),
        (vec![good(), n(2), end()], (23, 0)),
        (vec![end()], (23, 0)),
        (vec![end(), n(2)], (23, 0)),
        // The others.
        (vec![n(2)], (20, first)),
        (vec![n(2), good()], (20, second)),
        (vec![n(2), good(), vec![0, 0, 3]], (20, second)),
        (vec![n(2), cut(2)], (20, first)),
        (
            vec![n(2), good(), filled(body, UNKNOWN_KIND, 2)],
            (21, second),
        ),
        (vec![n(2), good(), filled(body + 1, kind, 2)], (22, second)),
        (
            vec![n(2), good(), filled(other_body, kind, 2), end()],
            (22, second),
        ),
        (vec![n(2), good(), filled(1, KIND_END, 0)], (22, second)),
        (vec![n(2), n(2), end()], (23, first)),
        (vec![n(2), good(), n(3), end()], (23, second)),
        (
            vec![n(2), packed(VARIABLES_BYTES, KIND_VARIABLES, &[9, 9, 9])],
            (20, first),
        ),
        // The fourth line has no room, whatever stands behind it.
        (
            vec![n(2), good(), good(), good(), good(), end()],
            (25, fourth),
        ),
        (
            vec![n(2), good(), good(), good(), good(), n(2)],
            (25, fourth),
        ),
        (
            vec![n(2), good(), good(), good(), good(), nameless()],
            (25, fourth),
        ),
        (
            vec![n(too_large), good(), good(), good(), bad()],
            (25, fourth),
        ),
        (
            vec![n(2), good(), good(), good(), vec![body as u8]],
            (20, fourth),
        ),
        (vec![n(2), good(), good(), good(), n(2)], (23, fourth)),
        // A line of kind 4 without its identifier, which goes before its room.
        (vec![nameless()], (23, 0)),
        (vec![n(2), nameless(), end()], (26, first)),
        (vec![n(2), nameless(), nameless()], (26, first)),
        (vec![n(2), nameless(), n(2)], (26, first)),
        (vec![n(2), good(), nameless(), vec![0]], (26, second)),
        (
            vec![n(2), good(), good(), good(), nameless(), end()],
            (26, fourth),
        ),
        (
            vec![n(2), nameless()[..RECORD_HEAD + LINE_BYTES - 1].to_vec()],
            (20, first),
        ),
        // A line's own faults come after those of all records.
        (vec![n(2), bad(), vec![0]], (20, second)),
        (
            vec![n(too_large), bad(), packed(0, UNKNOWN_KIND, &[])],
            (21, second),
        ),
        (vec![n(too_large), bad(), nameless(), end()], (26, second)),
        (
            vec![n(2), records::identified_line(&lone(2, 9, 0)), end()],
            (26, first),
        ),
        // After the end.
        (vec![n(2), end(), vec![0]], (24, after_none)),
        (vec![n(2), end(), nameless()], (24, after_none)),
        (vec![n(too_large), bad(), end(), end()], (24, after_one)),
        (vec![n(2), good(), end(), good(), good()], (24, after_one)),
        // The list's own, where all else is right.
        (vec![n(too_large), bad(), end()], (1, 0)),
        (vec![n(1 << 31), end()], (1, 0)),
        (vec![n(1 << 16), end()], (1, 0)),
        (vec![n(u32::MAX), end()], (1, 0)),
        (
            vec![n(2), good(), record(lone(2, 9, 1 << 30)), end()],
            (4, 1),
        ),
        (
            vec![n(2), good(), record(lone(1, 2, 1 << 30)), end()],
            (5, 1),
        ),
        (vec![n(2), record(zero(1_000_001)), bad(), end()], (6, 0)),
        (vec![n(2), good(), below(zero(0)), bad(), end()], (13, 1)),
        (vec![n(2), good(), beyond(lone(1, 1, 0)), end()], (13, 1)),
        (vec![n(2), beyond(lone(2, 9, 1 << 30)), end()], (4, 0)),
        (vec![n(2), beyond(lone(1, 9, 1 << 30)), end()], (5, 0)),
        (vec![n(2), below(lone(1, 1, 1 << 30)), end()], (6, 0)),
    ]
}

/// Where the record stands that follows so many lines with this identifier.
fn all_alike(identifier: i32, lines: usize) -> usize {
    match identifier {
        0 => record_at(lines, 0),
        _ => record_at(0, lines),
    }
}

/// Identifiers for lines that are all alike: none, and some.
const SOME_IDENTIFIERS: [i32; 4] = [0, 1, LAST_SHORT + 1, LAST_IDENTIFIER];

#[test]
fn refusals_by_hand() {
    let mut chance = Chance::new(91);
    for identifier in SOME_IDENTIFIERS {
        for (records, due) in told_by_hand(identifier) {
            // Room for three lines and all but one number of a fourth.
            let answer = read(&mut chance, &records.concat(), 4 * LINE_NUMBERS - 1);
            assert_eq!(answer, Err(due), "{records:?}");
        }
    }
    // A line that is out of place and has no room is out of place.
    for file in [at_most_5(), at_most_5_named()] {
        let headless = &file[record_at(0, 0)..];
        assert_eq!(read(&mut chance, headless, 0), Err((23, 0)));
    }
}

/// Lines beyond the limit: no room for one, or room for all.
#[test]
fn too_many_lines() {
    let mut chance = Chance::new(97);
    for identifier in SOME_IDENTIFIERS {
        for count in [MOST_LINES, MOST_LINES + 1, 6 * MOST_LINES] {
            let lines = of_message(line(1, 0, -1, 1, 7), identifier).repeat(count);
            let file = pack(2, &lines).concat();
            let many = read(&mut chance, &file, lines.len()).err();
            assert_eq!(many, (count > MOST_LINES).then_some((3, 0)));
            let last = all_alike(identifier, count - 1) as u64;
            let short = read(&mut chance, &file, lines.len() - 1);
            assert_eq!(short, Err((25, last)));
            let cut = &file[..all_alike(identifier, count) - 1];
            let cut = read(&mut chance, cut, lines.len());
            assert_eq!(cut, Err((20, last)));
            let longer = read(&mut chance, &[&file[..], &[0]].concat(), lines.len());
            assert_eq!(longer, Err((24, file.len() as u64)));
            let too_large = pack(MOST_N as u32 + 1, &lines).concat();
            let too_many = read(&mut chance, &too_large, lines.len());
            assert_eq!(too_many, Err((1, 0)));
        }
    }
}

/// A list that is written is read back, with just enough room or more; with one
/// byte or one number less there is no room.
#[test]
fn written_and_read_back() {
    let mut chance = Chance::new(92);
    let mut largest = 0;
    for _ in 0..20_000 {
        let (n, numbers) = some_list(&mut chance);
        let lines = numbers.len() / LINE_NUMBERS;
        largest += usize::from(n == MOST_N && lines == MOST_LINES);
        let size = records::size(&numbers);
        assert!(file_size(lines, 0) <= size && size <= file_size(0, lines));
        let file = write(&mut chance, n, &numbers, size).unwrap();
        assert_eq!(file.len(), size);
        let list = List { n, numbers };
        let room = list.numbers.len();
        assert_eq!(read(&mut chance, &file, room).as_ref(), Ok(&list));
        // More room, of any length; what lies beyond is checked in the call.
        let more = 1 + chance.below(30);
        let longer = write(&mut chance, n, &list.numbers, size + more);
        assert_eq!(longer.as_ref(), Ok(&file));
        let longer = read(&mut chance, &file, room + more);
        assert_eq!(longer.as_ref(), Ok(&list));
        // One less, or many less.
        for shorter in [size - 1, chance.below(size)] {
            let short = write(&mut chance, n, &list.numbers, shorter);
            assert_eq!(short, Err((25, 0)));
        }
        if lines > 0 {
            for shorter in [room - 1, chance.below(room)] {
                let short = read(&mut chance, &file, shorter);
                let first_out = records::place(&list.numbers, shorter / LINE_NUMBERS);
                assert_eq!(short, Err((25, first_out as u64)));
            }
        }
    }
    println!("{largest} with the most variables and lines");
    assert!(largest >= 10);
}

/// Small files with one byte changed, put in or left out in every way, cut at
/// every length, or with another header, in rooms of several lengths.
#[test]
fn every_small_damage() {
    let mut chance = Chance::new(93);
    let mut times = Times::default();
    let lists: [(u32, &[Line]); 8] = [
        (0, &[]),
        (MOST_N as u32, &[]),
        (1, &[lone(1, 0, 5)]),
        (0, &[zero(-1_000_000)]),
        (MOST_N as u32, &[line(-1, LAST_VARIABLE, 1, 0, 1_000_000)]),
        (2, &[line(1, 0, -1, 1, 0), lone(-1, 1, -3)]),
        (2, &[lone(1, 0, 300), line(1, 1, 1, 1, -1)]),
        (
            3,
            &[
                line(1, 0, 1, 1, 4),
                lone(-1, 2, 2),
                line(-1, 1, -1, 2, 70_000),
            ],
        ),
    ];
    // Without identifiers, and with some, of which some are 0.
    let others = lists.map(|(n, lines)| (n, identified(lines)));
    let all = lists.map(|(n, lines)| (n, lines.to_vec()));
    for (n, lines) in all.into_iter().chain(others) {
        let numbers = lines.concat();
        let file = pack(n, &numbers).concat();
        let room = LINE_NUMBERS * lines.len();
        let mut judge = |file: &[u8]| {
            for room in [
                room,
                room + LINE_NUMBERS + 1,
                room.saturating_sub(1),
                LINE_NUMBERS - 1,
            ] {
                times.count(read(&mut chance, file, room));
            }
        };
        judge(&file);
        for at in 0..file.len() {
            // What is cut off still stands behind the part that is lent.
            judge(&file[..at]);
            judge(&[&file[..at], &file[at + 1..]].concat());
            let mut changed = file.clone();
            for other in 1..=255 {
                changed[at] = file[at] ^ other;
                judge(&changed);
            }
        }
        // Every header that is nearly right, in the place of each.
        let places = (0..=lines.len()).map(|line| records::place(&numbers, line));
        for at in iter::once(0).chain(places) {
            let lengths = 0..=LINE_BYTES + 5;
            let kinds = 0..=UNKNOWN_KIND;
            for (length, kind) in lengths.flat_map(|l| kinds.clone().map(move |k| (l, k))) {
                let header = packed(length, kind, &[]);
                judge(&[&file[..at], &header, &file[at + RECORD_HEAD..]].concat());
            }
        }
        for at in 0..=file.len() {
            for byte in 0..=255 {
                judge(&[&file[..at], &[byte], &file[at..]].concat());
            }
        }
    }
    times.must_include(&[0, 1, 4, 5, 6, 13, 20, 21, 22, 24, 25]);
}

/// Every row of up to five of these records, in rooms of several lengths.
#[test]
fn records_in_every_order() {
    let mut chance = Chance::new(96);
    let mut times = Times::default();
    let records = [
        variables(1),
        variables(MOST_N as u32 + 1),
        records::line(&lone(1, 0, 5)),
        records::line(&line(1, 0, 0, 1, 5)),
        records::line(&of_message(lone(1, 0, 5), LAST_IDENTIFIER)),
        records::line(&of_message(lone(1, 0, 5), LAST_IDENTIFIER + 1)),
        records::identified_line(&lone(1, 0, 5)),
        end(),
        packed(0, UNKNOWN_KIND, &[]),
        packed(0, KIND_LINE, &[]),
        vec![0],
    ];
    let mut rows: Vec<Vec<u8>> = vec![vec![]];
    let mut next = 0;
    for _ in 0..5 {
        let last = next..rows.len();
        next = rows.len();
        for row in last {
            for record in &records {
                rows.push([&rows[row][..], record].concat());
            }
        }
    }
    for file in rows {
        for room in [0, LINE_NUMBERS, 3 * LINE_NUMBERS - 1, 4 * LINE_NUMBERS] {
            times.count(read(&mut chance, &file, room));
        }
    }
    times.must_include(&[20, 21, 22, 23, 24, 25, 26]);
}

/// A record of any kind and length, mostly ones that go together; the body is at
/// times cut. Where all is right, the line is valid at times.
fn some_record(chance: &mut Chance) -> Vec<u8> {
    // The body of a line and one number more.
    let longest = LINE_BYTES + NUMBER_BYTES;
    let kind = match chance.below(16) {
        0 => chance.pick(&[0, UNKNOWN_KIND, 256, 257, 260, 512, MOST_OF_TWO_BYTES]),
        1 => KIND_VARIABLES,
        2 => KIND_END,
        3..=9 => KIND_LINE,
        _ => KIND_IDENTIFIED_LINE,
    };
    let length = if chance.one_in(8) {
        chance.pick(&[
            0,
            VARIABLES_BYTES,
            VARIABLES_BYTES + 1,
            BARE_LINE_BYTES - 1,
            BARE_LINE_BYTES,
            BARE_LINE_BYTES + 1,
            LINE_BYTES - 1,
            LINE_BYTES,
            LINE_BYTES + 1,
            longest,
            256 + VARIABLES_BYTES,
            256 + BARE_LINE_BYTES,
            256 + LINE_BYTES,
            MOST_OF_TWO_BYTES,
        ])
    } else {
        records::body_bytes(kind).unwrap_or(0)
    };
    let body: Vec<u8> = match chance.below(3) {
        0 => {
            let line = make::some_line(chance, 3);
            [records::identified_line(&line), end()].concat()[RECORD_HEAD..].to_vec()
        }
        1 => [1, 0, 0, 0].repeat(LINE_NUMBERS + 1),
        _ => (0..longest).map(|_| chance.next() as u8 & 3).collect(),
    };
    let cut = if chance.one_in(12) {
        chance.below(4)
    } else {
        0
    };
    let size = length.min(longest).saturating_sub(cut);
    packed(length, kind, &body[..size])
}

/// Damages the records of a file: one is lost, repeated, moved, changed or put
/// in, or some byte somewhere is.
fn damage_records(chance: &mut Chance, records: &mut Vec<Vec<u8>>) {
    if records.is_empty() {
        return records.push(some_record(chance));
    }
    let (at, any) = (chance.below(records.len()), chance.below(records.len()));
    let other = chance.pick(&[0, records.len() - 1, any]);
    let one = records[other].clone();
    match chance.below(10) {
        0 => drop(records.remove(other)),
        1 => records.insert(at, one),
        2 => records.push(one),
        3 => records.swap(at, other),
        4 => records[other] = some_record(chance),
        5 => records.insert(at, some_record(chance)),
        6 => drop(records.drain(at.min(other)..at.max(other))),
        7 => {
            let length = chance.below(one.len() + 1);
            records[other].truncate(length);
        }
        8 if !one.is_empty() => records[other][chance.below(one.len())] ^= 1 << chance.below(8),
        _ => records[other].push(chance.next() as u8 & 3),
    }
}

/// Room for so many lines, or a few numbers more or less.
fn some_room(chance: &mut Chance, lines: usize) -> usize {
    let room = LINE_NUMBERS * lines;
    match chance.below(8) {
        0 => room.saturating_sub(1 + chance.below(LINE_NUMBERS + 1)),
        1 => chance.below(room + 1),
        2 => room,
        _ => room + chance.below(40),
    }
}

/// Files of damaged lists, with damaged records, or both; and records in any
/// order at all.
#[test]
fn files_damaged_at_random() {
    let mut chance = Chance::new(94);
    let mut times = Times::default();
    for _ in 0..100_000 {
        let (mut n, mut numbers) = some_list(&mut chance);
        if chance.one_in(3) {
            (n, numbers) = damaged_list(&mut chance, n, &numbers);
            // A file has whole lines, and four bytes for n.
            numbers.truncate(numbers.len() / LINE_NUMBERS * LINE_NUMBERS);
        }
        let mut records = pack(n as u32, &numbers);
        while chance.one_in(2) {
            damage_records(&mut chance, &mut records);
        }
        let room = some_room(&mut chance, numbers.len() / LINE_NUMBERS);
        times.count(read(&mut chance, &records.concat(), room));
    }
    for _ in 0..100_000 {
        let count = chance.below(6);
        let mut records = vec![variables(chance.below(4) as u32)];
        records.extend((0..count).map(|_| some_record(&mut chance)));
        if chance.one_in(2) {
            records.push(end());
        }
        if chance.one_in(8) {
            damage_records(&mut chance, &mut records);
        }
        let room = some_room(&mut chance, count);
        times.count(read(&mut chance, &records.concat(), room));
    }
    times.must_include(&[0, 1, 3, 4, 5, 6, 12, 13, 20, 21, 22, 23, 24, 25, 26]);
}

/// Damaged lists, in enough room or not: the list's refusals go before the room,
/// and a list that is still valid is written and read back.
#[test]
fn damaged_lists_written() {
    let mut chance = Chance::new(95);
    for (n, list, (number, place)) in refused_lists() {
        for room in [
            0,
            file_size(0, 0) - 1,
            file_size(0, 0),
            file_size(0, 2),
            2 * MOST_FILE,
        ] {
            let refused = write(&mut chance, n, &list, room);
            assert_eq!(refused, Err((number.into(), place as u64)), "{list:?}");
        }
    }
    let mut times = Times::default();
    for _ in 0..60_000 {
        let (n, numbers) = some_list(&mut chance);
        let (n, numbers) = damaged_list(&mut chance, n, &numbers);
        let size = records::size(&numbers);
        let room = match chance.below(4) {
            0 => chance.below(size),
            1 => size,
            _ => size + chance.below(40),
        };
        let written = write(&mut chance, n, &numbers, room);
        if let Ok(file) = &written {
            let again = read(&mut chance, file, numbers.len());
            assert_eq!(again, Ok(List { n, numbers }));
        }
        times.count(written);
    }
    times.must_include(&[0, 1, 2, 3, 4, 5, 6, 12, 13, 25]);
}
