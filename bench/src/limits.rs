//! The limits that the library's header defines.

// MOST_VARIABLES, MOST_LINES and MOST_IDENTIFIER; LINE_NUMBERS; NO, of results;
// rooms(n), the room that each buffer of deciding needs, in their order;
// differences_work_room(n), that of the work area for differences; and session_room(n),
// that of a session's state: build.rs reads them.
include!(concat!(env!("OUT_DIR"), "/limits.rs"));

/// The greatest bound of a line.
pub const GREATEST_BOUND: i32 = 1_000_000;
