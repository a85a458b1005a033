//! Lists with one hub in plain Rust: each line speaks of one variable, or of the first and
//! one other. Their answers need no table of least sums.

use crate::buffers::Buffers;
use crate::lines::Line;
use crate::steps::{false_line, opposite, steps, ABSENT, NONE};

/// Stands for no step: half of it, and what a few weights add to it or take off, is not
/// below `ABSENT`.
const FAR: i64 = 1 << 60;

/// The hub's two points are the first two.
const HUB: usize = 2;

/// The row of the least weights to a point's opposite, behind those to the hub's points.
const OWN: usize = 2;
const ROWS: usize = 3;

/// Writes model, bounds and groups and clears the work area, if the list has one hub and can
/// hold, and each other variable can have another value than in the model while the rest keep
/// theirs.
pub fn answered(n: usize, list: &[Line], out: &mut Buffers) -> bool {
    let points = 2 * n;
    let (rows, _) = out.work.split_at_mut(ROWS * points);
    if !lay(points, list, rows) || false_line(list).is_some() {
        return false;
    }
    let weights = Weights { points, rows };
    let Some(seen) = weights.seen() else {
        return false;
    };
    weights.write(&seen, &mut out.model, &mut out.bounds);
    for (x, group) in out.groups.chunks_exact_mut(2).take(n).enumerate() {
        group.copy_from_slice(&[x as u32, 0]);
    }
    out.work.fill(0);
    true
}

/// Lays the least weights of the steps from each point, unless the list has not one hub.
fn lay(points: usize, list: &[Line], rows: &mut [i64]) -> bool {
    rows.fill(FAR);
    for step in steps(list) {
        let own = step.to == opposite(step.from);
        if step.from == step.to || !(own || step.from < HUB || step.to < HUB) {
            return false;
        }
        let mut lower = |row: usize| {
            let weight = &mut rows[row * points + step.from];
            *weight = step.weight.min(*weight);
        };
        if step.to < HUB {
            lower(step.to);
        }
        if own {
            lower(OWN);
        }
    }
    points > 0
}

struct Weights<'a> {
    points: usize,
    rows: &'a [i64],
}

/// The greatest values of the hub's two points, and its value in the model.
struct Seen {
    limits: [i64; HUB],
    value: i64,
}

/// The value nearest zero that is at most `up` and not below `-low`.
fn near(up: i64, low: i64) -> i64 {
    up.min(0).max(-low)
}

impl Weights<'_> {
    fn to(&self, hub: usize, point: usize) -> i64 {
        self.rows[hub * self.points + point]
    }

    /// The greatest value of a point by itself.
    fn own(&self, point: usize) -> i64 {
        self.rows[OWN * self.points + point] >> 1
    }

    /// The greatest value of a point where the hub has this value.
    fn cap(&self, value: i64, point: usize) -> i64 {
        let by_hub = (self.to(0, point) + value).min(self.to(1, point) - value);
        self.own(point).min(by_hub)
    }

    /// What a point of another variable leaves the hub's point.
    fn leaves(&self, hub: usize, point: usize) -> i64 {
        let back = self.to(opposite(hub), opposite(point));
        let both = (self.to(opposite(hub), point) + back) >> 1;
        both.min(self.own(point) + back)
    }

    /// The greatest value of a point, where the hub's have these.
    fn greatest(&self, limits: &[i64; HUB], point: usize) -> i64 {
        if point < HUB {
            return limits[point];
        }
        let to = [self.to(0, point), self.to(1, point)];
        let by_limits = (to[0] + limits[0]).min(to[1] + limits[1]);
        let by_hub = by_limits.min((to[0] + to[1]) >> 1);
        self.own(point).min(by_hub)
    }

    /// What the answers are read off, where that can be done.
    fn seen(&self) -> Option<Seen> {
        let others = || HUB..self.points;
        let sound = |p| {
            let q = opposite(p);
            self.own(p) + self.own(q) >= 0 && self.to(0, p) + self.to(1, q) >= 0
        };
        let limit = |hub| others().fold(self.own(hub), |least, p| least.min(self.leaves(hub, p)));
        let limits = [limit(0), limit(1)];
        if !others().all(sound) || limits[0] + limits[1] < 0 {
            return None;
        }
        let value = near(limits[0], limits[1]);
        let loose = |p| self.cap(value, p) + self.cap(value, opposite(p)) > 0;
        others().all(loose).then_some(Seen { limits, value })
    }

    fn write(&self, seen: &Seen, model: &mut [i32], bounds: &mut [i64]) {
        let or_none = |number: i64, none| if number < ABSENT { number } else { none };
        model[0] = seen.value as i32;
        for x in 0..self.points / 2 {
            let (up, down) = (2 * x, 2 * x + 1);
            if x > 0 {
                model[x] = near(self.cap(seen.value, up), self.cap(seen.value, down)) as i32;
            }
            let least = or_none(self.greatest(&seen.limits, down), i64::MIN);
            bounds[up] = least.wrapping_neg();
            bounds[down] = or_none(self.greatest(&seen.limits, up), NONE);
        }
    }
}
