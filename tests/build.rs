//! Tells the linker where the static library is, and reads the limits, the lengths and
//! the rooms of the buffers from the library's header, so that the tests have them from
//! there alone.

#[path = "../examples/rust/header.rs"]
mod header;

/// The limits, lengths, kinds and parts of results that the header defines, by their
/// names without UTVPI_.
const LIMITS: [&str; 28] = [
    "MOST_VARIABLES",
    "MOST_LINES",
    "MOST_REFUTATION",
    "MOST_BOUND",
    "MOST_IDENTIFIER",
    "MOST_STACK",
    "MOST_DEPTH",
    "MOST_CHOICES",
    "ALL_OF",
    "ANY_OF",
    "LEAF",
    "MOST_COUNT",
    "MOST_RECORDERS",
    "SECONDS_PER_TICK",
    "TICKS_PER_SECOND",
    "SHORTER_NEITHER",
    "SHORTER_FIRST",
    "SHORTER_SECOND",
    "LINE_NUMBERS",
    "RECORD_HEAD",
    "VARIABLES_BYTES",
    "KIND_VARIABLES",
    "KIND_LINE",
    "KIND_END",
    "KIND_IDENTIFIED_LINE",
    "NO",
    "UNSOLVABLE",
    "REFUSAL_UNIT",
];

fn main() {
    header::link();
    header::write_limits(&LIMITS);
}
