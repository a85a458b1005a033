//! What the tests share: the library under test, a second implementation to
//! hold it to, and the means to make input for both and to damage it.

pub mod brute;
pub mod brute_sums;
pub mod buffers;
pub mod bytes;
pub mod chance;
pub mod closure;
pub mod damage;
pub mod decision;
pub mod differences;
pub mod document;
pub mod files;
pub mod implied;
pub mod library;
pub mod limits;
pub mod lines;
pub mod make;
pub mod make_cases;
pub mod make_lists;
pub mod make_trees;
pub mod records;
pub mod second;
pub mod seconds;
pub mod seen;
pub mod session_calls;
pub mod session_questions;
pub mod sessions;
pub mod short_buffers;
pub mod shorter;
pub mod showing;
pub mod stack;
pub mod tree_calls;
pub mod trees;

use limits::NUMBER_BYTES;
use second::Answer;

/// The answer on a model, after making sure that the library and the second
/// implementation agree on it.
pub fn model(n: u64, list: &[u8], model: &[u8]) -> Answer {
    let answer = second::check_model(n, list, model);
    let result = library::check_model(n, list, model);
    if result != answer.code() {
        differ(result, answer, n, list, "model", bytes::show(model, 8));
    }
    answer
}

/// The answer on a refutation, after making sure that the library and the
/// second implementation agree on it.
pub fn refutation(n: u64, list: &[u8], refutation: &[u8]) -> Answer {
    let answer = second::check_refutation(n, list, refutation);
    let result = library::check_refutation(n, list, refutation);
    if result != answer.code() {
        differ(
            result,
            answer,
            n,
            list,
            "refutation",
            bytes::show(refutation, NUMBER_BYTES),
        );
    }
    answer
}

/// The answer on a showing, after making sure that the library and the second
/// implementation agree on it.
pub fn shown(n: u64, list: &[u8], line: &[u8], showing: &[u8]) -> Answer {
    let answer = second::check_shown(n, list, line, showing);
    let result = library::check_shown(n, list, line, showing);
    if result != answer.code() {
        let proposed = [line, showing].map(|bytes| bytes::show(bytes, NUMBER_BYTES));
        differ(
            result,
            answer,
            n,
            list,
            "line and showing",
            proposed.join("; "),
        );
    }
    answer
}

fn differ(result: i64, answer: Answer, n: u64, list: &[u8], name: &str, proposed: String) -> ! {
    panic!(
        "the library returns {result} and the second implementation {} ({answer:?})\n\
         n: {n}\nlist: {}\n{name}: {proposed}",
        answer.code(),
        bytes::show(list, NUMBER_BYTES)
    );
}
