//! Times deciding: the library and some ways in plain Rust, on the same lists, in
//! one run. All of them write all outputs, the identifiers of a refutation's steps
//! among them, and clear the work area, and each answer is compared. Multiples are of
//! the library's time to the others'. Then sessions, each line added to those before it, by
//! the library and in plain Rust, beside deciding all lines once; and lists of differences
//! by both engines of the library.

mod bars;
mod buffers;
mod chance;
mod clock;
mod differences;
mod elimination;
mod families;
mod finish;
mod hub;
mod johnson;
mod library;
mod limits;
mod lines;
mod lists;
mod multiples;
mod order;
mod outgoing;
mod potentials;
mod pushing;
mod reduced;
mod refutation;
mod report;
mod rounds;
mod rows;
mod sessions;
mod steps;
mod table;
mod three_loops;
mod timing;
mod ways;

use std::env;
use std::process::exit;

use bars::Bars;
use families::families;
use timing::times;

/// The most lists of a family: all, or what `--lists` says.
fn most_lists() -> usize {
    let words: Vec<String> = env::args().skip(1).collect();
    let most = match &words[..] {
        [] => Some(usize::MAX),
        [option, count] if option == "--lists" => count.parse().ok(),
        _ => None,
    };
    most.filter(|&most| most > 0).unwrap_or_else(|| {
        eprintln!("usage: bench/run [--lists N], at most N lists of each family");
        exit(2)
    })
}

fn main() {
    let most = most_lists();
    let mut bars = Bars::default();
    let families = families(most);
    report::print_head();
    for family in &families {
        let timed = family.lists.iter().map(|list| times(family.n, list));
        let lists: Vec<_> = timed.collect();
        for row in report::rows(family, &lists) {
            row.print();
            bars.note(&row);
        }
    }
    println!();
    bars.print();
    println!();
    sessions::print(&families);
    println!();
    differences::print(most);
}
