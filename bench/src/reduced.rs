//! Sums made no less than 0 by potentials, and a table of them.

use crate::potentials::{potentials, NegativeWalk};
use crate::steps::{Step, NONE};
use crate::table::FAR;

/// So many numbers behind each row keep the entries of a column from meeting in one
/// set of the cache.
const SPARE: usize = 8;

/// Numbers of points, opposite at opposite points. The reduced sum of a walk is
/// twice its sum, and its start's number less its end's: never below 0, and the same
/// for its mirror, which leads back through the opposite points.
pub struct Numbers(Vec<i64>);

impl Numbers {
    pub fn new(steps: &[Step], points: usize) -> Result<Numbers, NegativeWalk> {
        let mut numbers = potentials(steps, points)?;
        for pair in numbers.chunks_exact_mut(2) {
            let difference = pair[0] - pair[1];
            pair.copy_from_slice(&[difference, -difference]);
        }
        Ok(Numbers(numbers))
    }

    pub fn at(&self, point: usize) -> i64 {
        self.0[point]
    }

    /// The steps with reduced weights.
    pub fn reduced(&self, steps: &[Step]) -> Vec<Step> {
        let reduced = |step: &Step| Step {
            weight: 2 * step.weight + self.at(step.from) - self.at(step.to),
            ..*step
        };
        steps.iter().map(reduced).collect()
    }

    /// The sum of a walk between two points that has this reduced sum.
    pub fn sum(&self, reduced: i64, from: usize, to: usize) -> i64 {
        sum(reduced, self.at(from), self.at(to))
    }
}

/// The sum of a walk that has this reduced sum, from the numbers of its ends.
fn sum(reduced: i64, start: i64, end: i64) -> i64 {
    (reduced - start + end) >> 1
}

/// A row for each point, with the reduced sums of walks from it.
pub struct Reduced<'a> {
    pub points: usize,
    /// From the start of a row to that of the next.
    pub width: usize,
    pub entries: &'a mut [i64],
    /// Where rows and columns of the points stand.
    places: Vec<usize>,
}

impl Reduced<'_> {
    /// What single steps say, their weights reduced.
    pub fn new<'a>(steps: &[Step], places: Vec<usize>, room: &'a mut [i64]) -> Reduced<'a> {
        let points = places.len();
        let width = points + SPARE;
        let entries = &mut room[..points * width];
        entries.fill(FAR);
        for point in 0..points {
            entries[point * width + point] = 0;
        }
        for step in steps {
            let entry = &mut entries[places[step.from] * width + places[step.to]];
            *entry = step.weight.min(*entry);
        }
        Reduced {
            points,
            width,
            entries,
            places,
        }
    }

    /// Writes the sums themselves.
    pub fn write(&self, numbers: &Numbers, table: &mut [i64]) {
        for (from, sums) in table.chunks_exact_mut(self.points).enumerate() {
            let row = &self.entries[self.places[from] * self.width..][..self.points];
            let start = numbers.at(from);
            let ends = self.places.iter().zip(&numbers.0);
            for (entry, (&place, &end)) in sums.iter_mut().zip(ends) {
                *entry = match row[place] {
                    FAR => NONE,
                    reduced => sum(reduced, start, end),
                };
            }
        }
    }
}
