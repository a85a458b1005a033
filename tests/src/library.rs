//! The library under test: its C functions, and safe functions over them.

use crate::lines::Line;

/// What the check of a refutation keeps between two numbers. `good` is 1 as long as
/// nothing was wrong.
#[repr(C)]
#[derive(Clone, Copy, PartialEq, Debug)]
pub struct Progress {
    pub read: usize,
    pub kind: usize,
    pub p: usize,
    pub q: usize,
    pub u: usize,
    pub here: usize,
    pub first: i64,
    pub second: i64,
    pub good: u8,
    pub wrong: usize,
}

/// What reading a file returns.
#[repr(C)]
#[derive(Clone, Copy, PartialEq, Debug)]
pub struct FileRead {
    pub refusal: u64,
    pub place: u64,
    pub n: u64,
    pub lines: u64,
}

/// What writing a file returns.
#[repr(C)]
#[derive(Clone, Copy, PartialEq, Debug)]
pub struct FileWritten {
    pub refusal: u64,
    pub place: u64,
    pub bytes: u64,
}

/// What asking for two variables returns: `plus` has x + y and x - y, `minus` -x + y and
/// -x - y.
#[repr(C)]
#[derive(Clone, Copy, PartialEq, Debug)]
pub struct ImpliedPair {
    pub result: i64,
    pub plus: [i64; 2],
    pub minus: [i64; 2],
}

/// What asking for a choice of a tree returns, or for the first that can be met.
#[repr(C)]
#[derive(Clone, Copy, PartialEq, Debug)]
pub struct ChoiceFound {
    pub result: i64,
    pub refusal: u64,
    pub place: u64,
    pub choice: u64,
}

/// What writing seconds returns.
#[repr(C)]
#[derive(Clone, Copy, PartialEq, Debug)]
pub struct SecondsWritten {
    pub refusal: u64,
    pub place: u64,
}

/// What asking for the shorter of two refutations returns: which it is, and how many
/// numbers from the front of its slice it has.
#[repr(C)]
#[derive(Clone, Copy, PartialEq, Debug)]
pub struct Part {
    pub which: u64,
    pub length: u64,
}

/// A line, as a session and the question of a line are handed it.
#[repr(C)]
struct LineByValue {
    a: i32,
    x: i32,
    b: i32,
    y: i32,
    d: i32,
    identifier: i32,
}

extern "C" {
    fn utvpi_check_model(
        n: u64,
        list: *const u8,
        list_len: usize,
        model: *const u8,
        model_len: usize,
    ) -> i64;

    fn utvpi_check_refutation(
        n: u64,
        list: *const u8,
        list_len: usize,
        refutation: *const u8,
        refutation_len: usize,
    ) -> i64;

    fn utvpi_decide(
        n: u64,
        list: *const i32,
        list_len: usize,
        model: *mut i32,
        model_len: usize,
        bounds: *mut i64,
        bounds_len: usize,
        groups: *mut u32,
        groups_len: usize,
        refutation: *mut u32,
        refutation_len: usize,
        identifiers: *mut u32,
        identifiers_len: usize,
        work: *mut i64,
        work_len: usize,
    ) -> i64;

    fn utvpi_decide_differences(
        n: u64,
        list: *const i32,
        list_len: usize,
        model: *mut i32,
        model_len: usize,
        bounds: *mut i64,
        bounds_len: usize,
        groups: *mut u32,
        groups_len: usize,
        refutation: *mut u32,
        refutation_len: usize,
        identifiers: *mut u32,
        identifiers_len: usize,
        work: *mut i64,
        work_len: usize,
    ) -> i64;

    fn utvpi_session_start(n: u64, state: *mut i64, state_len: usize) -> i64;

    fn utvpi_session_add(
        state: *mut i64,
        state_len: usize,
        line: LineByValue,
        model: *mut i32,
        model_len: usize,
        bounds: *mut i64,
        bounds_len: usize,
        groups: *mut u32,
        groups_len: usize,
        refutation: *mut u32,
        refutation_len: usize,
        identifiers: *mut u32,
        identifiers_len: usize,
        work: *mut i64,
        work_len: usize,
    ) -> i64;

    fn utvpi_session_withdraw(state: *mut i64, state_len: usize) -> i64;

    fn utvpi_session_pair(state: *const i64, state_len: usize, x: u64, y: u64) -> ImpliedPair;

    fn utvpi_session_implied(state: *const i64, state_len: usize, line: LineByValue) -> i64;

    fn utvpi_implied_pair(
        n: u64,
        list: *const i32,
        list_len: usize,
        x: u64,
        y: u64,
        work: *mut i64,
        work_len: usize,
    ) -> ImpliedPair;

    fn utvpi_implied_line(
        n: u64,
        list: *const i32,
        list_len: usize,
        line: LineByValue,
        model: *mut i32,
        model_len: usize,
        work: *mut i64,
        work_len: usize,
    ) -> i64;

    fn utvpi_show_line(
        n: u64,
        list: *const i32,
        list_len: usize,
        line: LineByValue,
        refutation: *mut u32,
        refutation_len: usize,
        identifiers: *mut u32,
        identifiers_len: usize,
        work: *mut i64,
        work_len: usize,
    ) -> i64;

    fn utvpi_check_shown(
        n: u64,
        list: *const u8,
        list_len: usize,
        line: *const u8,
        line_len: usize,
        showing: *const u8,
        showing_len: usize,
    ) -> i64;

    fn utvpi_tree_first(
        n: u64,
        list: *const i32,
        list_len: usize,
        tree: *const u32,
        tree_len: usize,
        model: *mut i32,
        model_len: usize,
        work: *mut i64,
        work_len: usize,
    ) -> ChoiceFound;

    fn utvpi_tree_decide(
        n: u64,
        list: *const i32,
        list_len: usize,
        tree: *const u32,
        tree_len: usize,
        choice: u64,
        model: *mut i32,
        model_len: usize,
        bounds: *mut i64,
        bounds_len: usize,
        groups: *mut u32,
        groups_len: usize,
        refutation: *mut u32,
        refutation_len: usize,
        identifiers: *mut u32,
        identifiers_len: usize,
        work: *mut i64,
        work_len: usize,
    ) -> ChoiceFound;

    fn utvpi_model_seconds(
        form: u32,
        rate: f64,
        counts: *const i64,
        counts_len: usize,
        seconds: *mut f64,
        seconds_len: usize,
    ) -> SecondsWritten;

    fn utvpi_events_seconds(
        forms: *const u32,
        forms_len: usize,
        rates: *const f64,
        rates_len: usize,
        recorders: *const u32,
        recorders_len: usize,
        counts: *const i64,
        counts_len: usize,
        seconds: *mut f64,
        seconds_len: usize,
    ) -> SecondsWritten;

    fn utvpi_refutation_begin() -> Progress;

    fn utvpi_refutation_take(
        kept: Progress,
        list: *const i32,
        list_len: usize,
        number: u32,
    ) -> Progress;

    fn utvpi_refutation_end(kept: Progress, n: u64, list: *const i32, list_len: usize) -> i64;

    fn utvpi_shorter(
        n: u64,
        list: *const i32,
        list_len: usize,
        first: *const u32,
        first_len: usize,
        second: *const u32,
        second_len: usize,
    ) -> Part;

    fn utvpi_read_list(
        bytes: *const u8,
        bytes_len: usize,
        numbers: *mut i32,
        numbers_len: usize,
    ) -> FileRead;

    fn utvpi_write_list(
        n: u64,
        list: *const i32,
        list_len: usize,
        out: *mut u8,
        out_len: usize,
    ) -> FileWritten;
}

impl LineByValue {
    fn new([a, x, b, y, d, identifier]: Line) -> LineByValue {
        LineByValue {
            a,
            x,
            b,
            y,
            d,
            identifier,
        }
    }
}

/// One of the two checkers: n, list and what is proposed in, the result out.
pub type Check = fn(u64, &[u8], &[u8]) -> i64;

/// The result of `utvpi_check_model`.
pub fn check_model(n: u64, list: &[u8], model: &[u8]) -> i64 {
    // The function reads both slices within their lengths and keeps neither.
    unsafe { utvpi_check_model(n, list.as_ptr(), list.len(), model.as_ptr(), model.len()) }
}

/// The result of `utvpi_check_refutation`.
pub fn check_refutation(n: u64, list: &[u8], refutation: &[u8]) -> i64 {
    // The function reads both slices within their lengths and keeps neither.
    unsafe {
        utvpi_check_refutation(
            n,
            list.as_ptr(),
            list.len(),
            refutation.as_ptr(),
            refutation.len(),
        )
    }
}

/// The buffers that deciding is lent.
pub struct Lent<'a> {
    pub model: &'a mut [i32],
    pub bounds: &'a mut [i64],
    pub groups: &'a mut [u32],
    pub refutation: &'a mut [u32],
    pub identifiers: &'a mut [u32],
    pub work: &'a mut [i64],
}

/// What both functions that decide take and return.
type Deciding = unsafe extern "C" fn(
    u64,
    *const i32,
    usize,
    *mut i32,
    usize,
    *mut i64,
    usize,
    *mut u32,
    usize,
    *mut u32,
    usize,
    *mut u32,
    usize,
    *mut i64,
    usize,
) -> i64;

/// The result of the one or the other.
fn decide_by(function: Deciding, n: u64, list: &[i32], lent: Lent) -> i64 {
    // The function stays within the lengths and keeps no pointer.
    unsafe {
        function(
            n,
            list.as_ptr(),
            list.len(),
            lent.model.as_mut_ptr(),
            lent.model.len(),
            lent.bounds.as_mut_ptr(),
            lent.bounds.len(),
            lent.groups.as_mut_ptr(),
            lent.groups.len(),
            lent.refutation.as_mut_ptr(),
            lent.refutation.len(),
            lent.identifiers.as_mut_ptr(),
            lent.identifiers.len(),
            lent.work.as_mut_ptr(),
            lent.work.len(),
        )
    }
}

/// The result of `utvpi_decide`.
pub fn decide(n: u64, list: &[i32], lent: Lent) -> i64 {
    decide_by(utvpi_decide, n, list, lent)
}

/// The result of `utvpi_decide_differences`.
pub fn decide_differences(n: u64, list: &[i32], lent: Lent) -> i64 {
    decide_by(utvpi_decide_differences, n, list, lent)
}

/// The result of `utvpi_session_start`.
pub fn session_start(n: u64, state: &mut [i64]) -> i64 {
    // The function stays within the length and keeps no pointer.
    unsafe { utvpi_session_start(n, state.as_mut_ptr(), state.len()) }
}

/// The result of `utvpi_session_add`.
pub fn session_add(state: &mut [i64], line: Line, lent: Lent) -> i64 {
    // The function stays within the lengths and keeps no pointer.
    unsafe {
        utvpi_session_add(
            state.as_mut_ptr(),
            state.len(),
            LineByValue::new(line),
            lent.model.as_mut_ptr(),
            lent.model.len(),
            lent.bounds.as_mut_ptr(),
            lent.bounds.len(),
            lent.groups.as_mut_ptr(),
            lent.groups.len(),
            lent.refutation.as_mut_ptr(),
            lent.refutation.len(),
            lent.identifiers.as_mut_ptr(),
            lent.identifiers.len(),
            lent.work.as_mut_ptr(),
            lent.work.len(),
        )
    }
}

/// The result of `utvpi_session_withdraw`.
pub fn session_withdraw(state: &mut [i64]) -> i64 {
    // The function stays within the length and keeps no pointer.
    unsafe { utvpi_session_withdraw(state.as_mut_ptr(), state.len()) }
}

/// What `utvpi_session_pair` returns.
pub fn session_pair(state: &[i64], x: u64, y: u64) -> ImpliedPair {
    // The function stays within the length and keeps no pointer.
    unsafe { utvpi_session_pair(state.as_ptr(), state.len(), x, y) }
}

/// The result of `utvpi_session_implied`.
pub fn session_implied(state: &[i64], line: Line) -> i64 {
    // The function stays within the length and keeps no pointer.
    unsafe { utvpi_session_implied(state.as_ptr(), state.len(), LineByValue::new(line)) }
}

/// What `utvpi_implied_pair` returns.
pub fn implied_pair(n: u64, list: &[i32], x: u64, y: u64, work: &mut [i64]) -> ImpliedPair {
    // The function stays within the lengths and keeps no pointer.
    unsafe {
        utvpi_implied_pair(
            n,
            list.as_ptr(),
            list.len(),
            x,
            y,
            work.as_mut_ptr(),
            work.len(),
        )
    }
}

/// The result of `utvpi_implied_line`.
pub fn implied_line(n: u64, list: &[i32], line: Line, model: &mut [i32], work: &mut [i64]) -> i64 {
    // The function stays within the lengths and keeps no pointer.
    unsafe {
        utvpi_implied_line(
            n,
            list.as_ptr(),
            list.len(),
            LineByValue::new(line),
            model.as_mut_ptr(),
            model.len(),
            work.as_mut_ptr(),
            work.len(),
        )
    }
}

/// The result of `utvpi_show_line`.
pub fn show_line(
    n: u64,
    list: &[i32],
    line: Line,
    refutation: &mut [u32],
    identifiers: &mut [u32],
    work: &mut [i64],
) -> i64 {
    // The function stays within the lengths and keeps no pointer.
    unsafe {
        utvpi_show_line(
            n,
            list.as_ptr(),
            list.len(),
            LineByValue::new(line),
            refutation.as_mut_ptr(),
            refutation.len(),
            identifiers.as_mut_ptr(),
            identifiers.len(),
            work.as_mut_ptr(),
            work.len(),
        )
    }
}

/// The result of `utvpi_check_shown`.
pub fn check_shown(n: u64, list: &[u8], line: &[u8], showing: &[u8]) -> i64 {
    // The function only reads, within the lengths.
    unsafe {
        utvpi_check_shown(
            n,
            list.as_ptr(),
            list.len(),
            line.as_ptr(),
            line.len(),
            showing.as_ptr(),
            showing.len(),
        )
    }
}

/// What `utvpi_tree_first` returns.
pub fn tree_first(
    n: u64,
    list: &[i32],
    tree: &[u32],
    model: &mut [i32],
    work: &mut [i64],
) -> ChoiceFound {
    // The function stays within the lengths and keeps no pointer.
    unsafe {
        utvpi_tree_first(
            n,
            list.as_ptr(),
            list.len(),
            tree.as_ptr(),
            tree.len(),
            model.as_mut_ptr(),
            model.len(),
            work.as_mut_ptr(),
            work.len(),
        )
    }
}

/// What `utvpi_tree_decide` returns.
pub fn tree_decide(n: u64, list: &[i32], tree: &[u32], choice: u64, lent: Lent) -> ChoiceFound {
    // The function stays within the lengths and keeps no pointer.
    unsafe {
        utvpi_tree_decide(
            n,
            list.as_ptr(),
            list.len(),
            tree.as_ptr(),
            tree.len(),
            choice,
            lent.model.as_mut_ptr(),
            lent.model.len(),
            lent.bounds.as_mut_ptr(),
            lent.bounds.len(),
            lent.groups.as_mut_ptr(),
            lent.groups.len(),
            lent.refutation.as_mut_ptr(),
            lent.refutation.len(),
            lent.identifiers.as_mut_ptr(),
            lent.identifiers.len(),
            lent.work.as_mut_ptr(),
            lent.work.len(),
        )
    }
}

/// What `utvpi_model_seconds` returns.
pub fn model_seconds(form: u32, rate: f64, counts: &[i64], seconds: &mut [f64]) -> SecondsWritten {
    // The function stays within the lengths and keeps no pointer.
    unsafe {
        utvpi_model_seconds(
            form,
            rate,
            counts.as_ptr(),
            counts.len(),
            seconds.as_mut_ptr(),
            seconds.len(),
        )
    }
}

/// A table of recorders, each with the form and the rate of its clock; for each event its
/// recorder, and its count.
pub struct Events<'a> {
    pub forms: &'a [u32],
    pub rates: &'a [f64],
    pub recorders: &'a [u32],
    pub counts: &'a [i64],
}

/// What `utvpi_events_seconds` returns.
pub fn events_seconds(events: Events, seconds: &mut [f64]) -> SecondsWritten {
    // The function stays within the lengths and keeps no pointer.
    unsafe {
        utvpi_events_seconds(
            events.forms.as_ptr(),
            events.forms.len(),
            events.rates.as_ptr(),
            events.rates.len(),
            events.recorders.as_ptr(),
            events.recorders.len(),
            events.counts.as_ptr(),
            events.counts.len(),
            seconds.as_mut_ptr(),
            seconds.len(),
        )
    }
}

/// The result of `utvpi_refutation_begin`.
pub fn refutation_begin() -> Progress {
    // The function is given nothing.
    unsafe { utvpi_refutation_begin() }
}

/// The result of `utvpi_refutation_take`.
pub fn refutation_take(kept: Progress, list: &[i32], number: u32) -> Progress {
    // The function reads the list within its length and keeps no pointer.
    unsafe { utvpi_refutation_take(kept, list.as_ptr(), list.len(), number) }
}

/// The result of `utvpi_refutation_end`.
pub fn refutation_end(kept: Progress, n: u64, list: &[i32]) -> i64 {
    // The function reads the list within its length and keeps no pointer.
    unsafe { utvpi_refutation_end(kept, n, list.as_ptr(), list.len()) }
}

/// The same after all these numbers, taken one by one.
pub fn refutation_in_pieces(n: u64, list: &[i32], numbers: &[u32]) -> i64 {
    let take = |kept, &number: &u32| refutation_take(kept, list, number);
    let kept = numbers.iter().fold(refutation_begin(), take);
    refutation_end(kept, n, list)
}

/// What `utvpi_shorter` returns.
pub fn shorter(n: u64, list: &[i32], first: &[u32], second: &[u32]) -> Part {
    // The function reads the slices within their lengths and keeps no pointer.
    unsafe {
        utvpi_shorter(
            n,
            list.as_ptr(),
            list.len(),
            first.as_ptr(),
            first.len(),
            second.as_ptr(),
            second.len(),
        )
    }
}

/// The result of `utvpi_read_list`.
pub fn read_list(file: &[u8], numbers: &mut [i32]) -> FileRead {
    // The function stays within the lengths and keeps no pointer.
    unsafe {
        utvpi_read_list(
            file.as_ptr(),
            file.len(),
            numbers.as_mut_ptr(),
            numbers.len(),
        )
    }
}

/// The result of `utvpi_write_list`.
pub fn write_list(n: u64, list: &[i32], out: &mut [u8]) -> FileWritten {
    // The function stays within the lengths and keeps no pointer.
    unsafe { utvpi_write_list(n, list.as_ptr(), list.len(), out.as_mut_ptr(), out.len()) }
}
