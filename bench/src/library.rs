//! The library's functions.

use crate::buffers::Buffers;
use crate::lines::Line;

/// A line, as a session is handed it.
#[repr(C)]
struct LineByValue {
    a: i32,
    x: i32,
    b: i32,
    y: i32,
    d: i32,
    identifier: i32,
}

extern "C" {
    fn utvpi_decide(
        n: u64,
        list: *const i32,
        list_len: usize,
        model: *mut i32,
        model_len: usize,
        bounds: *mut i64,
        bounds_len: usize,
        groups: *mut u32,
        groups_len: usize,
        refutation: *mut u32,
        refutation_len: usize,
        identifiers: *mut u32,
        identifiers_len: usize,
        work: *mut i64,
        work_len: usize,
    ) -> i64;
    fn utvpi_decide_differences(
        n: u64,
        list: *const i32,
        list_len: usize,
        model: *mut i32,
        model_len: usize,
        bounds: *mut i64,
        bounds_len: usize,
        groups: *mut u32,
        groups_len: usize,
        refutation: *mut u32,
        refutation_len: usize,
        identifiers: *mut u32,
        identifiers_len: usize,
        work: *mut i64,
        work_len: usize,
    ) -> i64;
    fn utvpi_session_start(n: u64, state: *mut i64, state_len: usize) -> i64;
    fn utvpi_session_add(
        state: *mut i64,
        state_len: usize,
        line: LineByValue,
        model: *mut i32,
        model_len: usize,
        bounds: *mut i64,
        bounds_len: usize,
        groups: *mut u32,
        groups_len: usize,
        refutation: *mut u32,
        refutation_len: usize,
        identifiers: *mut u32,
        identifiers_len: usize,
        work: *mut i64,
        work_len: usize,
    ) -> i64;
    fn utvpi_session_withdraw(state: *mut i64, state_len: usize) -> i64;
    fn utvpi_check_refutation(
        n: u64,
        list: *const u8,
        list_len: usize,
        refutation: *const u8,
        refutation_len: usize,
    ) -> i64;
}

/// What both functions that decide take and return.
type Deciding = unsafe extern "C" fn(
    u64,
    *const i32,
    usize,
    *mut i32,
    usize,
    *mut i64,
    usize,
    *mut u32,
    usize,
    *mut u32,
    usize,
    *mut u32,
    usize,
    *mut i64,
    usize,
) -> i64;

/// Decides a list by the one or the other. It must not be refused.
fn decide_by(function: Deciding, n: usize, list: &[Line], out: &mut Buffers) -> i64 {
    let list = list.as_flattened();
    // The function stays within the lengths and keeps no pointer.
    let result = unsafe {
        function(
            n as u64,
            list.as_ptr(),
            list.len(),
            out.model.as_mut_ptr(),
            out.model.len(),
            out.bounds.as_mut_ptr(),
            out.bounds.len(),
            out.groups.as_mut_ptr(),
            out.groups.len(),
            out.refutation.as_mut_ptr(),
            out.refutation.len(),
            out.identifiers.as_mut_ptr(),
            out.identifiers.len(),
            out.work.as_mut_ptr(),
            out.work.len(),
        )
    };
    assert!(result >= 0, "the library refuses with {result}");
    result
}

/// Decides a list that must not be refused.
pub fn decide(n: usize, list: &[Line], out: &mut Buffers) -> i64 {
    decide_by(utvpi_decide, n, list, out)
}

/// Decides a list of differences that must not be refused.
pub fn decide_differences(n: usize, list: &[Line], out: &mut Buffers) -> i64 {
    decide_by(utvpi_decide_differences, n, list, out)
}

/// Starts a session of n variables in this state, which has its room.
pub fn start(n: usize, state: &mut [i64]) {
    // The function stays within the length and keeps no pointer.
    let result = unsafe { utvpi_session_start(n as u64, state.as_mut_ptr(), state.len()) };
    assert!(result == 0, "the library refuses a start with {result}");
}

/// Adds a line that must not be refused to the session with this state.
pub fn add(state: &mut [i64], line: Line, out: &mut Buffers) -> i64 {
    let [a, x, b, y, d, identifier] = line;
    let line = LineByValue {
        a,
        x,
        b,
        y,
        d,
        identifier,
    };
    // The function stays within the lengths and keeps no pointer.
    let result = unsafe {
        utvpi_session_add(
            state.as_mut_ptr(),
            state.len(),
            line,
            out.model.as_mut_ptr(),
            out.model.len(),
            out.bounds.as_mut_ptr(),
            out.bounds.len(),
            out.groups.as_mut_ptr(),
            out.groups.len(),
            out.refutation.as_mut_ptr(),
            out.refutation.len(),
            out.identifiers.as_mut_ptr(),
            out.identifiers.len(),
            out.work.as_mut_ptr(),
            out.work.len(),
        )
    };
    assert!(result >= 0, "the library refuses a line with {result}");
    result
}

/// Takes the last line of a session away, which must have one.
pub fn withdraw(state: &mut [i64]) {
    // The function stays within the length and keeps no pointer.
    let result = unsafe { utvpi_session_withdraw(state.as_mut_ptr(), state.len()) };
    assert!(
        result == 0,
        "the library withdraws no line but refuses with {result}"
    );
}

/// Whether the checker accepts the refutation at the buffer's front.
pub fn refutes(n: usize, list: &[Line], buffer: &[u32]) -> bool {
    let count = 3 + buffer[1] as usize + buffer[2] as usize;
    let numbers = list.as_flattened().iter();
    let list: Vec<u8> = numbers.flat_map(|one| one.to_le_bytes()).collect();
    let numbers = buffer[..count].iter();
    let refutation: Vec<u8> = numbers.flat_map(|one| one.to_le_bytes()).collect();
    // The function stays within the lengths and keeps no pointer.
    let result = unsafe {
        utvpi_check_refutation(
            n as u64,
            list.as_ptr(),
            list.len(),
            refutation.as_ptr(),
            refutation.len(),
        )
    };
    result == 0
}
