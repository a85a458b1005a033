//! Decides a list of three lines and explains the answer, as examples/decide.c does. With an
//! argument the last line asks for more than the others allow.

use std::ffi::{c_char, c_int, CStr};

/// Numbers and rooms of the library's header, as the build script found them there.
#[allow(dead_code)]
mod limits {
    include!(concat!(env!("OUT_DIR"), "/limits.rs"));
}

extern "C" {
    fn utvpi_decide(
        n: u64,
        list: *const i32,
        list_len: usize,
        model: *mut i32,
        model_len: usize,
        bounds: *mut i64,
        bounds_len: usize,
        groups: *mut u32,
        groups_len: usize,
        refutation: *mut u32,
        refutation_len: usize,
        identifiers: *mut u32,
        identifiers_len: usize,
        work: *mut i64,
        work_len: usize,
    ) -> i64;
    fn utvpi_refusal_text(number: c_int) -> *const c_char;
}

/// A line a*x + b*y <= d, and the identifier of its message.
type Line = [i32; limits::LINE_NUMBERS];

/// What the library says of a list.
enum Answer {
    /// A value for each variable, and its least and greatest.
    Yes { model: Vec<i32>, bounds: Vec<i64> },
    /// The clash: for each step its line, and the line's identifier.
    No { steps: Vec<(u32, u32)> },
    /// Why there is no answer, and the place.
    Refused { text: String, place: i64 },
}

/// Decides a list of n variables. The lists and buffers that the library is lent are as long
/// as it is told, and no two of them overlap: so this is safe.
fn decide(n: usize, lines: &[Line]) -> Answer {
    let rooms = limits::rooms(n);
    let (mut model, mut bounds) = (vec![0; rooms[0]], vec![0; rooms[1]]);
    let (mut groups, mut refutation) = (vec![0; rooms[2]], vec![0; rooms[3]]);
    let (mut identifiers, mut work) = (vec![0; rooms[4]], vec![0; rooms[5]]);
    let list = lines.concat();
    let result = unsafe {
        utvpi_decide(
            n as u64,
            list.as_ptr(),
            list.len(),
            model.as_mut_ptr(),
            model.len(),
            bounds.as_mut_ptr(),
            bounds.len(),
            groups.as_mut_ptr(),
            groups.len(),
            refutation.as_mut_ptr(),
            refutation.len(),
            identifiers.as_mut_ptr(),
            identifiers.len(),
            work.as_mut_ptr(),
            work.len(),
        )
    };
    let unit = limits::REFUSAL_UNIT as i64;
    if result == 0 {
        Answer::Yes { model, bounds }
    } else if result == limits::NO as i64 {
        let count = (refutation[1] + refutation[2]) as usize;
        let lines = refutation[3..3 + count].iter().map(|step| step / 2);
        let steps = lines.zip(identifiers).collect();
        Answer::No { steps }
    } else {
        let text = unsafe { CStr::from_ptr(utvpi_refusal_text((-result / unit) as c_int)) };
        let text = text.to_string_lossy().into_owned();
        let place = -result % unit;
        Answer::Refused { text, place }
    }
}

fn main() {
    let (cause, brake) = (0, 1);
    let latest = if std::env::args().count() > 1 { 40 } else { 45 };
    let list = [
        [1, cause, -1, brake, -1, 0x18DA10F1], // cause - brake <= -1: the brake is later
        [-1, cause, 0, 0, -40, 0],             // -cause <= -40: the cause is at 40 or later
        [1, brake, 0, 0, latest, 0],           // brake <= 45, or brake <= 40
    ];
    match decide(2, &list) {
        Answer::Yes { model, bounds } => println!(
            "Yes: the cause at {} and the brake at {}, which can be from {} to {}.",
            model[0], model[1], bounds[2], bounds[3]
        ),
        Answer::No { steps } => {
            for (line, identifier) in steps {
                println!("No: line {line}, of message 0x{identifier:08X}, is part of the clash.");
            }
        }
        Answer::Refused { text, place } => println!("refused at place {place}: {text}"),
    }
}
