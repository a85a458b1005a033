//! Sessions of the most variables, one line added after the other, by the library and in
//! plain Rust, beside deciding all lines once: a table of its own, and its bar.

use std::hint::black_box;

use crate::buffers::Buffers;
use crate::clock::{seconds, timed};
use crate::families::{Family, OF_SESSIONS, SPARSE};
use crate::library;
use crate::limits::{session_room, MOST_VARIABLES};
use crate::lines::Line;
use crate::multiples::{milliseconds, shown};
use crate::pushing::Pushing;
use crate::timing::{answer, LONG, TRIES};

/// The most sessions of a family, each so often: of each add the least time counts.
const MOST_SESSIONS: usize = 3;
const PASSES: usize = 4;

/// The seconds of the adds of a session: in all, and those of the slowest.
#[derive(Clone, Copy, Default)]
struct Adds {
    all: f64,
    slowest: f64,
}

/// The seconds of a session: of deciding all its lines once, of clearing the work area alone,
/// which every add does, of the library's adds and of plain Rust's, and of the library's last
/// line withdrawn.
struct Times {
    decided: f64,
    cleared: f64,
    library: Adds,
    plain: Adds,
    withdrawn: f64,
}

/// As multiples of deciding all lines once: an add on average, the slowest, plain Rust's on
/// average, and clearing the work area alone.
struct Multiples {
    mean: f64,
    slowest: f64,
    plain: f64,
    cleared: f64,
}

/// Prints a row for each family whose lists may be those of a session, and what the bar
/// comes to.
pub fn print(families: &[Family]) {
    print_head();
    let ours = |family: &&Family| family.n == MOST_VARIABLES && OF_SESSIONS.contains(&family.name);
    let rows = families.iter().filter(ours);
    let rows: Vec<(&str, Multiples)> = rows
        .map(|family| (family.name, print_row(family)))
        .collect();
    println!();
    println!("| Bar | Measured |");
    println!("|---|---|");
    for (_, sparse) in rows.iter().filter(|(name, _)| *name == SPARSE) {
        println!(
            "| Sparse sessions of {MOST_VARIABLES} variables, an add as a multiple of deciding \
             all lines once, at most 0.10 | {}; the slowest {} |",
            shown(sparse.mean),
            shown(sparse.slowest)
        );
        println!(
            "| The same, plain Rust | {}; clearing the work area alone {} |",
            shown(sparse.plain),
            shown(sparse.cleared)
        );
    }
}

fn print_head() {
    let columns = [
        "Variables",
        "Lines",
        "Sessions",
        "Count",
        "Deciding all lines once",
        "An add",
        "Multiple",
        "Slowest add",
        "All adds",
        "Plain Rust, an add",
        "Slowest add",
        "All adds",
        "Withdrawing the last line",
    ];
    println!("| {} |", columns.join(" | "));
    println!("|{}", "---|".repeat(columns.len()));
}

/// Prints the row of a family.
fn print_row(family: &Family) -> Multiples {
    let lists = family.lists.iter();
    let sessions: Vec<Times> = lists
        .filter_map(|list| times(family.n, list))
        .take(MOST_SESSIONS)
        .collect();
    let count = sessions.len();
    let mean = |of: fn(&Times) -> f64| sessions.iter().map(of).sum::<f64>() / count as f64;
    let most = |of: fn(&Times) -> f64| sessions.iter().map(of).fold(0.0, f64::max);
    let lines = family.lists[0].len() as f64;
    let decided = mean(|times| times.decided);
    let (all, slowest) = (
        mean(|times| times.library.all),
        most(|times| times.library.slowest),
    );
    let plain_all = mean(|times| times.plain.all);
    let plain_slowest = most(|times| times.plain.slowest);
    let multiples = Multiples {
        mean: all / lines / decided,
        slowest: slowest / decided,
        plain: plain_all / lines / decided,
        cleared: mean(|times| times.cleared) / decided,
    };
    let cells = [
        milliseconds(decided),
        milliseconds(all / lines),
        shown(multiples.mean),
        milliseconds(slowest),
        milliseconds(all),
        milliseconds(plain_all / lines),
        milliseconds(plain_slowest),
        milliseconds(plain_all),
        milliseconds(mean(|times| times.withdrawn)),
    ];
    let (n, name, cells) = (family.n, family.name, cells.join(" | "));
    println!("| {n} | {lines} | {name} | {count} | {cells} |");
    multiples
}

/// The times of a session with the lines of a list, where it can hold.
fn times(n: usize, list: &[Line]) -> Option<Times> {
    let mut out = Buffers::new(n);
    let decided = decided(n, list, &mut out)?;
    let cleared = cleared(&mut out);
    let mut least = vec![[f64::MAX; 2]; list.len()];
    let mut state = vec![0; session_room(n)];
    for _ in 0..PASSES {
        add_all(n, list, &mut state, &mut least);
    }
    let mut withdrawn = f64::MAX;
    timed(&mut withdrawn, || library::withdraw(&mut state));
    let adds = |way: usize| Adds {
        all: least.iter().map(|add| add[way]).sum(),
        slowest: least.iter().map(|add| add[way]).fold(0.0, f64::max),
    };
    Some(Times {
        decided,
        cleared,
        library: adds(0),
        plain: adds(1),
        withdrawn,
    })
}

/// The seconds of deciding a list, the least of some tries, where it can hold.
fn decided(n: usize, list: &[Line], out: &mut Buffers) -> Option<f64> {
    let mut least = f64::MAX;
    let began = seconds();
    for _ in 0..TRIES {
        out.fill();
        let result = timed(&mut least, || library::decide(n, black_box(list), out));
        if result != 0 {
            return None;
        }
        if seconds() - began >= LONG {
            break;
        }
    }
    Some(least)
}

/// The seconds of clearing the work area, the least of some tries.
fn cleared(out: &mut Buffers) -> f64 {
    let mut least = f64::MAX;
    for _ in 0..TRIES {
        out.fill();
        timed(&mut least, || black_box(&mut out.work).fill(0));
    }
    least
}

/// Adds all lines of a list to a session that starts here, by the library and in plain Rust
/// in turn; both answers to each must be equal, and the last that of deciding.
fn add_all(n: usize, list: &[Line], state: &mut [i64], least: &mut [[f64; 2]]) {
    library::start(n, state);
    let mut plain = Pushing::new(n);
    let (mut out, mut other) = (Buffers::new(n), Buffers::new(n));
    for (at, (&line, least)) in list.iter().zip(least).enumerate() {
        out.fill();
        let result = timed(&mut least[0], || library::add(state, line, &mut out));
        let lines = &list[..=at];
        let due = answer("the session", n, lines, result, &out);
        other.fill();
        let result = timed(&mut least[1], || plain.add(line, &mut other));
        let found = answer("plain Rust", n, lines, result, &other);
        assert!(found == due, "plain Rust answers otherwise");
    }
    other.fill();
    let result = library::decide(n, list, &mut other);
    let found = answer("deciding", n, list, result, &other);
    let due = answer("the session", n, list, 0, &out);
    assert!(found == due, "the session answers otherwise");
}
