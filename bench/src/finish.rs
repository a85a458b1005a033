//! From the table of least sums to an answer: what every plain way does at its end.

use crate::buffers::Buffers;
use crate::limits::NO;
use crate::lines::Line;
use crate::potentials::NegativeWalk;
use crate::refutation::Refutation;
use crate::rows::least_walk;
use crate::steps::{false_line, opposite, steps, Step, ABSENT, NONE};

/// Writes the least sums between all points to the front of the work area, in the
/// row of a point those from it; or finds a closed walk of negative sum.
pub type Sums = fn(&[Step], usize, &mut [i64]) -> Result<(), NegativeWalk>;

/// Decides a valid list: 0 for yes, `NO` for no.
pub fn decide(n: usize, list: &[Line], sums: Sums, out: &mut Buffers) -> i64 {
    let answer = solve(2 * n, list, sums, out);
    out.work.fill(0);
    match answer {
        Ok(()) => 0,
        Err(refutation) => {
            refutation.write(list, out);
            NO as i64
        }
    }
}

/// Writes model, bounds and groups, or finds a refutation.
fn solve(points: usize, list: &[Line], sums: Sums, out: &mut Buffers) -> Result<(), Refutation> {
    if let Some(line) = false_line(list) {
        return Err(Refutation::false_line(line));
    }
    let steps = steps(list);
    sums(&steps, points, &mut out.work).map_err(|NegativeWalk(walk)| Refutation::closed(walk))?;
    let Buffers {
        model,
        bounds,
        groups,
        work,
        ..
    } = out;
    let table = &work[..points * points];
    write_yes(points, table, model, bounds, groups).map_err(|Contradiction(point)| {
        let walk = |from| least_walk(&steps, points, from, opposite(from));
        Refutation::halved(walk(point), walk(opposite(point)))
    })
}

/// A point whose least value passes its greatest.
pub struct Contradiction(usize);

/// Writes model, bounds and groups from a table of least sums, unless whole numbers
/// contradict it.
pub fn write_yes(
    points: usize,
    table: &[i64],
    model: &mut [i32],
    bounds: &mut [i64],
    groups: &mut [u32],
) -> Result<(), Contradiction> {
    let halves = halves(points, table);
    if let Some(point) = contradiction(&halves) {
        return Err(Contradiction(point));
    }
    write_bounds(&halves, bounds);
    for x in 0..points / 2 {
        let up = &table[2 * x * points..][..2 * x];
        let down = &table[(2 * x + 1) * points..][..2 * x];
        let lowest = group(x, up, down, &halves);
        groups[2 * x] = (lowest / 2) as u32;
        groups[2 * x + 1] = (lowest % 2) as u32;
        let greatest = limit(up, halves[2 * x], model);
        let least = limit(down, halves[2 * x + 1], model);
        model[x] = greatest.min(0).max(least.saturating_neg()) as i32;
    }
    Ok(())
}

/// The greatest value of each point.
pub fn halves(points: usize, table: &[i64]) -> Vec<i64> {
    let half = |point| match table[point * points + opposite(point)] {
        ABSENT.. => NONE,
        sum => sum >> 1,
    };
    (0..points).map(half).collect()
}

/// The first point whose least value passes its greatest.
pub fn contradiction(halves: &[i64]) -> Option<usize> {
    let both = halves.chunks_exact(2);
    let passes = |pair: &[i64]| pair[0] != NONE && pair[1] != NONE && pair[0] + pair[1] < 0;
    both.map(passes).position(|found| found).map(|x| 2 * x)
}

pub fn write_bounds(halves: &[i64], bounds: &mut [i64]) {
    for (own, both) in halves.chunks_exact(2).zip(bounds.chunks_exact_mut(2)) {
        both[0] = if own[1] == NONE { i64::MIN } else { -own[1] };
        both[1] = own[0];
    }
}

/// The greatest value of a point beside the values chosen so far, from its own bound
/// and its sums to the points before it. Bounds of those need no look: the values
/// chosen lie within them.
fn limit(sums: &[i64], half: i64, model: &[i32]) -> i64 {
    let mut least = half;
    for (pair, &value) in sums.chunks_exact(2).zip(model) {
        let value = i64::from(value);
        for (&sum, value) in pair.iter().zip([value, -value]) {
            if sum < ABSENT {
                least = least.min(sum + value);
            }
        }
    }
    least
}

/// The lowest point that always has the value of x, whose two points have these sums to
/// the points before them: by walks both ways, or since both are fixed at one value.
fn group(x: usize, up: &[i64], down: &[i64], halves: &[i64]) -> usize {
    let own = [halves[2 * x], halves[2 * x + 1]];
    let turned = [own[1], own[0]];
    let fixed = own[0] != NONE && own[1] != NONE && own[0] + own[1] == 0;
    let (up, down) = (up.chunks_exact(2), down.chunks_exact(2));
    let before = up.zip(down).zip(halves.chunks_exact(2)).enumerate();
    let mut same = before.filter_map(|(y, ((up, down), other))| {
        let equal = up[0] <= 0 && down[1] <= 0 || fixed && own == other;
        let mirrored = up[1] <= 0 && down[0] <= 0 || fixed && turned == other;
        match (equal, mirrored) {
            (true, _) => Some(2 * y),
            (false, true) => Some(2 * y + 1),
            (false, false) => None,
        }
    });
    same.next().unwrap_or(2 * x)
}
