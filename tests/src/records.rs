//! A second reader and writer of files for lists, written from the description
//! of such files alone and sharing nothing with the library.

use crate::bytes;
use crate::limits::{record_at, RECORD_HEAD, VARIABLES_BYTES};
use crate::limits::{BARE_LINE_BYTES, LINE_BYTES, LINE_NUMBERS, NUMBER_BYTES};
use crate::limits::{KIND_END, KIND_IDENTIFIED_LINE, KIND_LINE, KIND_VARIABLES};
use crate::lines::IDENTIFIER;
use crate::second::{self, Answer};

/// A list: its n and its numbers, line by line.
#[derive(Clone, Debug, PartialEq, Eq)]
pub struct List {
    pub n: u64,
    pub numbers: Vec<i32>,
}

/// A refusal's number and its place.
pub type Refusal = (u64, u64);

/// The list in a file, or what the file is refused with where there is room for
/// so many numbers.
pub fn read(file: &[u8], room: usize) -> Result<List, Refusal> {
    let mut n = 0;
    let mut numbers = Vec::new();
    let mut at = 0;
    loop {
        let (kind, body) = record(&file[at..]).map_err(|number| (number, at as u64))?;
        // The first record gives n, and no other does.
        if (kind == KIND_VARIABLES) != (at == 0) {
            return Err((23, at as u64));
        }
        let words = body
            .chunks(NUMBER_BYTES)
            .map(|four| four.try_into().unwrap());
        match kind {
            KIND_VARIABLES => words.for_each(|four| n = u64::from(u32::from_le_bytes(four))),
            KIND_END => {}
            _ => {
                let mut line: Vec<i32> = words.map(i32::from_le_bytes).collect();
                // A line of kind 4 has its identifier, which is not 0.
                if kind == KIND_IDENTIFIED_LINE && line[IDENTIFIER] == 0 {
                    return Err((26, at as u64));
                }
                line.resize(LINE_NUMBERS, 0);
                if numbers.len() + line.len() > room {
                    return Err((25, at as u64));
                }
                numbers.extend(line);
            }
        }
        at += RECORD_HEAD + body.len();
        if kind == KIND_END {
            break;
        }
    }
    if at < file.len() {
        return Err((24, at as u64));
    }
    match refusal(n, &numbers) {
        Some(refused) => Err(refused),
        None => Ok(List { n, numbers }),
    }
}

/// The kind and the body of the record at the front of these bytes, or the
/// number of its refusal.
fn record(bytes: &[u8]) -> Result<(usize, &[u8]), u64> {
    let two = |at: usize| usize::from(u16::from_le_bytes([bytes[at], bytes[at + 1]]));
    if bytes.len() < RECORD_HEAD {
        return Err(20);
    }
    let (length, kind) = (two(0), two(2));
    let Some(due) = body_bytes(kind) else {
        return Err(21);
    };
    if length != due {
        return Err(22);
    }
    let body = bytes.get(RECORD_HEAD..RECORD_HEAD + length);
    body.map(|body| (kind, body)).ok_or(20)
}

/// The length of a kind's body, if there is such a kind.
pub fn body_bytes(kind: usize) -> Option<usize> {
    match kind {
        KIND_VARIABLES => Some(VARIABLES_BYTES),
        KIND_LINE => Some(BARE_LINE_BYTES),
        KIND_END => Some(0),
        KIND_IDENTIFIED_LINE => Some(LINE_BYTES),
        _ => None,
    }
}

/// What the list itself is refused with, if it is.
fn refusal(n: u64, numbers: &[i32]) -> Option<Refusal> {
    match second::list_refusal(n, numbers)? {
        Answer::Refused(number, place) => Some((number.into(), place as u64)),
        answer => unreachable!("{answer:?}"),
    }
}

/// The file of a list, or what the list is refused with where there is room for
/// so many bytes.
pub fn write(n: u64, numbers: &[i32], room: usize) -> Result<Vec<u8>, Refusal> {
    if let Some(refused) = refusal(n, numbers) {
        return Err(refused);
    }
    let file = pack(n as u32, numbers).concat();
    if file.len() > room {
        return Err((25, 0));
    }
    Ok(file)
}

/// The records of a list, which need not be valid but has whole lines.
pub fn pack(n: u32, numbers: &[i32]) -> Vec<Vec<u8>> {
    let mut records = vec![variables(n)];
    records.extend(numbers.chunks(LINE_NUMBERS).map(line));
    records.push(end());
    records
}

/// The record of n, of a line and of the end.
pub fn variables(n: u32) -> Vec<u8> {
    packed(VARIABLES_BYTES, KIND_VARIABLES, &n.to_le_bytes())
}
pub fn line(numbers: &[i32]) -> Vec<u8> {
    match numbers[IDENTIFIER] {
        0 => bare_line(numbers),
        _ => identified_line(numbers),
    }
}
pub fn end() -> Vec<u8> {
    packed(0, KIND_END, &[])
}

/// The record of a line without its identifier, or with it, whatever it is.
pub fn bare_line(numbers: &[i32]) -> Vec<u8> {
    let body = bytes::numbers(&numbers[..IDENTIFIER]);
    packed(BARE_LINE_BYTES, KIND_LINE, &body)
}
pub fn identified_line(numbers: &[i32]) -> Vec<u8> {
    let body = bytes::numbers(numbers);
    packed(LINE_BYTES, KIND_IDENTIFIED_LINE, &body)
}

/// Where in a file the record of this line begins, or the end's behind so many lines.
pub fn place(numbers: &[i32], line: usize) -> usize {
    let before = numbers.chunks_exact(LINE_NUMBERS).take(line);
    let bare = before.clone().filter(|line| line[IDENTIFIER] == 0).count();
    record_at(bare, before.count() - bare)
}

/// The length of the file of these lines.
pub fn size(numbers: &[i32]) -> usize {
    place(numbers, usize::MAX) + RECORD_HEAD
}

/// A record with this length, kind and body, which need not fit together. Length and
/// kind have two bytes each.
pub fn packed(length: usize, kind: usize, body: &[u8]) -> Vec<u8> {
    let two = |number: usize| u16::try_from(number).unwrap().to_le_bytes();
    [&two(length), &two(kind), body].concat()
}
