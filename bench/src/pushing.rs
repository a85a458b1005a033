//! A session in plain Rust: the lines in a vector, and a closed table of least sums, into
//! which the steps of each line are put as it comes, with the model and the groups as long
//! as they stay.

use crate::buffers::Buffers;
use crate::finish::{contradiction, decide, halves, write_bounds, write_yes};
use crate::lines::{Line, List};
use crate::steps::{false_line, steps, Step, ABSENT};
use crate::three_loops;

/// Stands for no walk in the table: what as many lines as there may be add to it, or take
/// off, is far less than what it is above `ABSENT`.
const FAR: i64 = 1 << 60;

/// The greatest sum of a closed walk that can make two variables equal, or fix one.
const EQUAL_SLACK: i64 = 2;

pub struct Pushing {
    n: usize,
    lines: List,
    /// In the row of a point the least sums of walks from it.
    table: Vec<i64>,
    model: Vec<i32>,
    groups: Vec<u32>,
}

impl Pushing {
    /// A session of n variables and no lines.
    pub fn new(n: usize) -> Pushing {
        let points = 2 * n;
        let mut table = vec![FAR; points * points];
        for point in 0..points {
            table[point * points + point] = 0;
        }
        Pushing {
            n,
            lines: List::new(),
            table,
            model: vec![0; n],
            groups: (0..n as u32).flat_map(|x| [x, 0]).collect(),
        }
    }

    /// Adds a line and answers to all of them: from what is kept as long as they can hold,
    /// and else by deciding them. A session ends with that.
    pub fn add(&mut self, line: Line, out: &mut Buffers) -> i64 {
        self.lines.push(line);
        if !self.stands(line) || !self.answer(line, out) {
            return decide(self.n, &self.lines, three_loops::sums, out);
        }
        out.work.fill(0);
        0
    }

    /// Writes the outputs, unless whole numbers contradict the table. The model stays where
    /// it meets the line, and the groups where the line's steps leave them slack; else they
    /// are read off the table.
    fn answer(&mut self, line: Line, out: &mut Buffers) -> bool {
        let points = 2 * self.n;
        let halves = halves(points, &self.table);
        if contradiction(&halves).is_some() {
            return false;
        }
        write_bounds(&halves, &mut out.bounds);
        if !self.meets(line) || !self.is_wide(line) {
            let (model, groups) = (&mut self.model, &mut self.groups);
            if write_yes(points, &self.table, model, &mut out.bounds, groups).is_err() {
                return false;
            }
        }
        out.model[..self.n].copy_from_slice(&self.model);
        out.groups[..points].copy_from_slice(&self.groups);
        true
    }

    fn meets(&self, [a, x, b, y, d, ..]: Line) -> bool {
        let term = |a: i32, x: i32| i64::from(a) * i64::from(self.model[x as usize]);
        term(a, x) + term(b, y) <= i64::from(d)
    }

    /// Whether each closed walk through a step of the line has more than the slack.
    fn is_wide(&self, line: Line) -> bool {
        let back = |step: &Step| self.table[step.to * 2 * self.n + step.from];
        let wide = |step: &Step| back(step) + step.weight > EQUAL_SLACK;
        steps(&[line]).iter().all(wide)
    }

    /// Whether no line is false and no closed walk negative with this one, whose steps are
    /// put into the table then.
    fn stands(&mut self, line: Line) -> bool {
        false_line(&[line]).is_none() && steps(&[line]).iter().all(|step| self.put(step))
    }

    /// Puts a step in, unless a closed walk through it has a negative sum: in the rows and
    /// the columns in which it leads on a shorter way.
    fn put(
        &mut self,
        &Step {
            from, to, weight, ..
        }: &Step,
    ) -> bool {
        let points = 2 * self.n;
        let at = |row: usize, column: usize| row * points + column;
        if self.table[at(to, from)] + weight < 0 {
            return false;
        }
        let along = |column: usize| (column, self.table[at(to, column)] + weight);
        let shorter =
            |&(column, sum): &(usize, i64)| sum < self.table[at(from, column)].min(ABSENT);
        let columns: Vec<(usize, i64)> = (0..points).map(along).filter(shorter).collect();
        for row in self.table.chunks_exact_mut(points) {
            let before = row[from];
            if before < ABSENT && before + weight < row[to] {
                for &(column, sum) in &columns {
                    row[column] = row[column].min(before + sum);
                }
            }
        }
        true
    }
}
