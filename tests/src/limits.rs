//! The library's limits and lengths, as its header has them, and what follows from
//! them.

// MOST_VARIABLES, MOST_LINES, MOST_REFUTATION, MOST_BOUND and MOST_IDENTIFIER;
// MOST_STACK, the most bytes of stack that a call takes; of trees MOST_DEPTH, MOST_CHOICES
// and the kinds ALL_OF, ANY_OF and LEAF; of seconds MOST_COUNT, MOST_RECORDERS and the forms
// SECONDS_PER_TICK and TICKS_PER_SECOND; of two refutations
// SHORTER_NEITHER, SHORTER_FIRST and SHORTER_SECOND; LINE_NUMBERS; of files
// RECORD_HEAD, VARIABLES_BYTES, KIND_VARIABLES, KIND_LINE, KIND_END and
// KIND_IDENTIFIED_LINE; of results NO, UNSOLVABLE and REFUSAL_UNIT; rooms(n), the room
// that each buffer of deciding needs, in their order; differences_work_room(n), that of the
// work area for differences; session_room(n), that of a session's state; and
// most_shown_bound(n), the greatest bound of a shown line: build.rs reads them.
include!(concat!(env!("OUT_DIR"), "/limits.rs"));

/// The most variables, as n is given, and the number of the last of them.
pub const MOST_N: u64 = MOST_VARIABLES as u64;
pub const LAST_VARIABLE: i32 = MOST_VARIABLES as i32 - 1;

/// The greatest identifier as a line has it, and the greatest that has eleven bits.
pub const LAST_IDENTIFIER: i32 = MOST_IDENTIFIER as i32;
pub const LAST_SHORT: i32 = (1 << 11) - 1;
const _: () = assert!(0 < LAST_SHORT && LAST_SHORT < LAST_IDENTIFIER);

/// Identifiers at these two and at 0; and numbers that are none, of which some have the
/// low bits of one.
pub const EDGE_IDENTIFIERS: [i32; 6] = [
    0,
    1,
    LAST_SHORT,
    LAST_SHORT + 1,
    LAST_IDENTIFIER - 1,
    LAST_IDENTIFIER,
];
pub const NO_IDENTIFIERS: [i32; 7] = [
    i32::MIN,
    -LAST_IDENTIFIER,
    -1,
    LAST_IDENTIFIER + 1,
    LAST_IDENTIFIER + 1 + LAST_SHORT,
    1 << 30,
    i32::MAX,
];

/// The bytes of a number of a line or a refutation, of a line, and of one without its
/// identifier.
pub const NUMBER_BYTES: usize = 4;
pub const LINE_BYTES: usize = NUMBER_BYTES * LINE_NUMBERS;
pub const BARE_LINE_BYTES: usize = LINE_BYTES - NUMBER_BYTES;

/// Of a file: the offset of the record that follows so many lines whose identifier is
/// 0 and so many others; and the length of all.
pub const fn record_at(bare: usize, identified: usize) -> usize {
    let lines = (RECORD_HEAD + BARE_LINE_BYTES) * bare + (RECORD_HEAD + LINE_BYTES) * identified;
    RECORD_HEAD + VARIABLES_BYTES + lines
}
pub const fn file_size(bare: usize, identified: usize) -> usize {
    record_at(bare, identified) + RECORD_HEAD
}

/// The numbers of the longest list, and the bytes of its file where no identifier is 0.
pub const MOST_NUMBERS: usize = LINE_NUMBERS * MOST_LINES;
pub const MOST_FILE: usize = file_size(0, MOST_LINES);

/// A line's bound lies within plus and minus the one, a model's value within the
/// other.
pub const LARGEST_BOUND: i64 = MOST_BOUND as i64;
pub const LARGEST_VALUE: i64 = 1_000_000_000_000;

/// Where many lists are decided they are no larger than this, as deciding one of
/// the largest takes as long as deciding thousands of these. `cases/largest.rs`
/// decides the largest.
pub const SMALL_VARIABLES: usize = 64;
pub const SMALL_LINES: usize = 512;
const _: () = assert!(SMALL_VARIABLES <= MOST_VARIABLES && SMALL_LINES <= MOST_LINES);
