//! Lists of differences by the engine for all lists and by the one for differences alone: a
//! table of its own.

use std::hint::black_box;

use crate::buffers::Buffers;
use crate::clock::{seconds, timed};
use crate::families::{differences, Family};
use crate::library;
use crate::lines::Line;
use crate::multiples::{milliseconds, shown};
use crate::timing::{answer, LONG, TRIES};

/// The engines that are timed, and the seconds that each takes.
const ENGINES: usize = 2;
type Times = [f64; ENGINES];

/// Prints a row for each family, with at most so many lists, and one for each verdict where
/// its lists have both.
pub fn print(most: usize) {
    let columns = [
        "Variables",
        "Lines",
        "Lists of differences",
        "Count",
        "Engine for all lists",
        "Engine for differences",
        "Multiple",
    ];
    println!("| {} |", columns.join(" | "));
    println!("|{}", "---|".repeat(columns.len()));
    for family in differences(most) {
        let timed = family.lists.iter().map(|list| times(family.n, list));
        let lists: Vec<(bool, Times)> = timed.collect();
        let of = |verdict: bool| lists.iter().filter(move |(holds, _)| *holds == verdict);
        let parts = [(", can hold", true), (", can't", false)];
        print_row(&family, "", lists.iter());
        if parts.iter().all(|&(_, verdict)| of(verdict).count() > 0) {
            for (part, verdict) in parts {
                print_row(&family, part, of(verdict));
            }
        }
    }
}

fn print_row<'a>(family: &Family, part: &str, lists: impl Iterator<Item = &'a (bool, Times)>) {
    let lists: Vec<Times> = lists.map(|(_, times)| *times).collect();
    let mean = |engine: usize| {
        let sum: f64 = lists.iter().map(|times| times[engine]).sum();
        sum / lists.len() as f64
    };
    let [all, plain] = [0, 1].map(mean);
    println!(
        "| {} | {} | {}{part} | {} | {} | {} | {} |",
        family.n,
        family.lists[0].len(),
        family.name,
        lists.len(),
        milliseconds(all),
        milliseconds(plain),
        shown(plain / all),
    );
}

/// Whether a list can hold, and the seconds of both engines: the least of some tries, in
/// turn. Their answers must be equal.
fn times(n: usize, list: &[Line]) -> (bool, Times) {
    let (mut out, mut small) = (Buffers::new(n), Buffers::for_differences(n));
    let mut least = [f64::MAX; ENGINES];
    let mut holds = false;
    let began = seconds();
    for _ in 0..TRIES {
        out.fill();
        let result = timed(&mut least[0], || {
            library::decide(n, black_box(list), &mut out)
        });
        let due = answer("the engine for all lists", n, list, result, &out);
        small.fill();
        let result = timed(&mut least[1], || {
            library::decide_differences(n, black_box(list), &mut small)
        });
        let found = answer("the engine for differences", n, list, result, &small);
        assert!(found == due, "the engine for differences answers otherwise");
        holds = result == 0;
        if seconds() - began >= LONG * ENGINES as f64 {
            break;
        }
    }
    (holds, least)
}
