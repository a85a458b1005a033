//! What the whole table comes to.

use crate::families::SPARSE;
use crate::limits::MOST_VARIABLES;
use crate::multiples::{best, milliseconds, multiple, shown, sum};
use crate::report::Row;
use crate::ways::{LIBRARY, SAME_METHOD, THREE_LOOPS};

#[derive(Default)]
pub struct Bars {
    /// How many variables sparse lists have, and their multiple of the faster of the
    /// same method and three loops.
    sparse: Vec<(usize, f64)>,
    /// The greatest multiple of the best plain way, and of which row.
    worst: (f64, String),
    /// The seconds of the library and of three loops for the list of the most
    /// variables that takes the library longest, and of which row it is.
    slowest: (f64, f64, String),
}

impl Bars {
    /// Takes a row in.
    pub fn note(&mut self, row: &Row) {
        let (n, sum) = (row.family.n, sum(&row.lists));
        let name = format!("{n} variables, {}", row.name);
        if row.family.name == SPARSE && row.lists.len() == row.family.lists.len() {
            let of_faster = multiple(&sum, SAME_METHOD).max(multiple(&sum, THREE_LOOPS));
            self.sparse.push((n, of_faster));
        }
        let of_best = multiple(&sum, best(&sum));
        if of_best > self.worst.0 {
            self.worst = (of_best, name.clone());
        }
        let longest = row
            .lists
            .iter()
            .max_by(|x, y| x[LIBRARY].total_cmp(&y[LIBRARY]));
        if let Some(times) = longest.filter(|_| n == MOST_VARIABLES) {
            if times[LIBRARY] > self.slowest.0 {
                self.slowest = (times[LIBRARY], times[THREE_LOOPS], name);
            }
        }
    }

    pub fn print(&self) {
        println!("| Bar | Measured |");
        println!("|---|---|");
        for (n, of_faster) in &self.sparse {
            println!(
                "| Sparse lists of {n} variables, multiple of the faster of same method and \
                 three loops | {} |",
                shown(*of_faster)
            );
        }
        let (of_best, name) = &self.worst;
        println!(
            "| Worst multiple of the best plain way | {} ({name}) |",
            shown(*of_best)
        );
        let (library, loops, name) = &self.slowest;
        println!(
            "| Slowest list of {MOST_VARIABLES} variables | {} ({name}); three loops {} |",
            milliseconds(*library),
            milliseconds(*loops)
        );
    }
}
