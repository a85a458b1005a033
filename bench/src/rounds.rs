//! Rounds over a whole table in place, in plain Rust: rows in the order of their
//! points' numbers, each lowered by the rows that its steps lead to.

use crate::outgoing::Outgoing;
use crate::potentials::NegativeWalk;
use crate::reduced::{Numbers, Reduced};
use crate::steps::Step;
use crate::table::{lower, two_rows};

pub fn sums(steps: &[Step], points: usize, work: &mut [i64]) -> Result<(), NegativeWalk> {
    let numbers = Numbers::new(steps, points)?;
    let mut order: Vec<usize> = (0..points).collect();
    order.sort_by_key(|&point| numbers.at(point));
    let steps = numbers.reduced(steps);
    let (table, rest) = work.split_at_mut(points * points);
    let mut reduced = Reduced::new(&steps, (0..points).collect(), rest);
    let mut rounds = Rounds {
        outgoing: Outgoing::new(&steps, points),
        changed: vec![1; points],
        seen: vec![0; points],
        now: 1,
    };
    while rounds.round(&order, &mut reduced) {}
    reduced.write(&numbers, table);
    Ok(())
}

/// When each row was last changed, and when it was last lowered by those that its
/// steps lead to.
struct Rounds {
    outgoing: Outgoing,
    changed: Vec<usize>,
    seen: Vec<usize>,
    now: usize,
}

impl Rounds {
    /// One round, and whether it changed anything. A row that has not changed since
    /// it was last seen lowers nothing, nor does a step that a walk beats.
    fn round(&mut self, order: &[usize], table: &mut Reduced) -> bool {
        let mut any = false;
        for &point in order {
            let mut lowered = false;
            for step in self.outgoing.from(point) {
                if step.to == point || self.changed[step.to] <= self.seen[point] {
                    continue;
                }
                let (row, by) = two_rows(table.entries, table.width, point, step.to);
                if row[step.to] >= step.weight {
                    lowered |= lower(row, step.weight, by);
                }
            }
            self.now += 1;
            self.seen[point] = self.now;
            if lowered {
                self.now += 1;
                self.changed[point] = self.now;
                any = true;
            }
        }
        any
    }
}
