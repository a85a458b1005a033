//! Tells the linker where the static library is, and the benchmark the limits of a list,
//! the numbers of a line, a no and the rooms of the buffers and of a session's state, from
//! the header, by the same code as the tests.

#[path = "../examples/rust/header.rs"]
mod header;

/// What the header defines, by its names without UTVPI_.
const LIMITS: [&str; 5] = [
    "MOST_VARIABLES",
    "MOST_LINES",
    "MOST_IDENTIFIER",
    "LINE_NUMBERS",
    "NO",
];

fn main() {
    header::link();
    header::write_limits(&LIMITS);
}
