//! The library's method in plain Rust: variables are eliminated one after another
//! from a table of reduced sums, and brought back.

use crate::order::places;
use crate::potentials::NegativeWalk;
use crate::reduced::{Numbers, Reduced};
use crate::steps::{opposite, Step};
use crate::table::{lower, FAR};

pub fn sums(steps: &[Step], points: usize, work: &mut [i64]) -> Result<(), NegativeWalk> {
    let numbers = Numbers::new(steps, points)?;
    let (table, rest) = work.split_at_mut(points * points);
    let places = places(steps, points);
    let mut reduced = Reduced::new(&numbers.reduced(steps), places, rest);
    for first in (0..points).step_by(2) {
        eliminate(&mut reduced, first);
    }
    let mut row = vec![FAR; points];
    for first in (0..points).step_by(2).rev() {
        restore(&mut reduced, first, &mut row);
    }
    reduced.write(&numbers, table);
    Ok(())
}

/// Gives the points behind a variable's two all walks through these. A row is kept
/// up from the column of its own variable on: the rest is mirrors.
fn eliminate(table: &mut Reduced, first: usize) {
    let (points, width, behind) = (table.points, table.width, first + 2);
    let (rows, later) = table.entries.split_at_mut(behind * width);
    let (up, down) = rows[first * width..].split_at_mut(width);
    let (there, back) = (up[first + 1], down[first]);
    if there < FAR {
        lower(&mut up[behind..points], there, &down[behind..points]);
    }
    if back < FAR {
        lower(&mut down[behind..points], back, &up[behind..points]);
    }
    for (row, point) in later.chunks_exact_mut(width).zip(behind..) {
        let from = point & !1;
        let row = &mut row[from..points];
        // A walk to a point is the mirror of one from its opposite.
        let (to_up, to_down) = (down[opposite(point)], up[opposite(point)]);
        if to_up < FAR {
            lower(row, to_up, &up[from..points]);
        }
        if to_down < FAR {
            lower(row, to_down, &down[from..points]);
        }
    }
}

/// Completes rows and columns of a variable's two points, where the table of those
/// behind them is complete. The row is room for one.
fn restore(table: &mut Reduced, first: usize, row: &mut [i64]) {
    let (points, width, behind) = (table.points, table.width, first + 2);
    let (rows, later) = table.entries.split_at_mut(behind * width);
    let row = &mut row[behind..];
    for point in [first, first + 1] {
        let old = &mut rows[point * width..][..points];
        row.fill(FAR);
        for (by, next) in later.chunks_exact(width).zip(behind..) {
            if old[next] < row[next - behind] {
                lower(row, old[next], &by[behind..points]);
            }
        }
        old[behind..].copy_from_slice(row);
        // To the opposite also by a walk and the mirror of one.
        let joined = row.chunks_exact(2).map(|pair| pair[0] + pair[1]);
        old[opposite(point)] = joined.fold(old[opposite(point)], i64::min);
    }
    let (up, down) = rows[first * width..].split_at(width);
    for (row, point) in later.chunks_exact_mut(width).zip(behind..) {
        row[first] = down[opposite(point)];
        row[first + 1] = up[opposite(point)];
    }
}
