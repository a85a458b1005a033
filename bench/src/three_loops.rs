//! Three nested loops over all points, in plain Rust.

use crate::potentials::{potentials, NegativeWalk};
use crate::steps::{Step, NONE};
use crate::table::{lower, two_rows, FAR};

/// More than any sum, and less than what `FAR` and a sum come to.
const ABSENT: i64 = FAR / 2;

pub fn sums(steps: &[Step], points: usize, work: &mut [i64]) -> Result<(), NegativeWalk> {
    let table = &mut work[..points * points];
    put(steps, points, table);
    for middle in 0..points {
        for from in (0..points).filter(|&from| from != middle) {
            let sum = table[from * points + middle];
            if sum < ABSENT {
                let (row, by) = two_rows(table, points, from, middle);
                lower(row, sum, by);
            }
            // Sums would double on and on past a negative closed walk.
            if table[from * points + from] < 0 {
                return potentials(steps, points).map(|_| ());
            }
        }
    }
    for entry in table.iter_mut().filter(|entry| **entry > ABSENT) {
        *entry = NONE;
    }
    Ok(())
}

/// Writes what single steps say.
fn put(steps: &[Step], points: usize, table: &mut [i64]) {
    table.fill(FAR);
    for point in 0..points {
        table[point * points + point] = 0;
    }
    for step in steps {
        let entry = &mut table[step.from * points + step.to];
        *entry = step.weight.min(*entry);
    }
}
