//! Makes valid lists to decide: tiny ones with small bounds, ones of any size that
//! are solvable, just solvable, just not, or solvable by halves only, and ones in
//! which many variables are equal or mirrored.

use crate::chance::Chance;
use crate::limits::{LARGEST_BOUND, MOST_LINES, SMALL_LINES};
use crate::lines::{identify, line, lone, zero, Line, BOUND, X, Y};
use crate::make::left_side;

/// A line with both variables, at times with one, and the bound 0.
fn some_line(chance: &mut Chance, n: u64) -> Line {
    let mut term = || [chance.pick(&[-1, 1]), chance.below(n as usize) as i32];
    let [one, two] = [term(), term()];
    match chance.below(12) {
        0 | 1 => lone(one[0], one[1], 0),
        _ => line(one[0], one[1], two[0], two[1], 0),
    }
}

/// A list over at most three variables with bounds within ±4.
pub fn small(chance: &mut Chance) -> (u64, Vec<Line>) {
    let n = chance.pick(&[0, 1, 2, 2, 3, 3, 3, 3]);
    let count = chance.below(4 + 2 * n as usize);
    let largest = chance.between(1, 2);
    let shape = Shape { n, count, largest };
    let mut lines = match chance.below(12) {
        _ if n == 0 => small_free(chance, n, count),
        0 => shape.met(chance, 1),
        1 | 2 => shape.met(chance, 2),
        3 | 4 => shape.met_but_one(chance),
        5 => Shape { count: 0, ..shape }.round_walk(chance),
        6 | 7 => Shape { count: 0, ..shape }.odd_walks(chance),
        _ => small_free(chance, n, count),
    };
    for line in &mut lines {
        line[BOUND] = line[BOUND].clamp(-4, 4);
    }
    identify(chance, &mut lines);
    (n, lines)
}

/// Lines with bounds at random. Lists that lean to high bounds are solvable even
/// where they are long.
fn small_free(chance: &mut Chance, n: u64, count: usize) -> Vec<Line> {
    let largest = chance.between(0, 4);
    let lowest = chance.pick(&[-largest, -largest, -largest.min(1), 0]);
    let lines = (0..count).map(|_| {
        let nothing = n == 0 || chance.one_in(30);
        let mut line = if nothing {
            zero(0)
        } else {
            some_line(chance, n)
        };
        line[BOUND] = chance.between(lowest, largest) as i32;
        line
    });
    lines.collect()
}

/// The lines that say a·x + b·y = 0.
pub fn tie(a: i32, x: i32, b: i32, y: i32) -> [Line; 2] {
    [line(a, x, b, y, 0), line(-a, x, -b, y, 0)]
}

/// The lines that say x = value: with nothing to spare, or only as x is whole.
pub fn fixed(x: i32, value: i32) -> [Line; 2] {
    [lone(1, x, value), lone(-1, x, -value)]
}
pub fn fixed_by_halves(x: i32, value: i32) -> [Line; 2] {
    let twice = 2 * value;
    [line(1, x, 1, x, twice + 1), line(-1, x, -1, x, 1 - twice)]
}

/// Values from -1 to 1 for lists of many ties, often all 0.
pub fn near_zero(chance: &mut Chance, n: u64) -> Vec<i32> {
    let zero = chance.one_in(3);
    let mut value = || if zero { 0 } else { chance.pick(&[-1, 0, 1, 1]) };
    (0..n).map(|_| value()).collect()
}

/// A list in which many of at least one variable are equal or mirrored: by lines between
/// them, by walks through a third, or by the values that each alone has. But for a few
/// lists, these values meet it, which are from -1 to 1.
pub fn tied(chance: &mut Chance, values: &[i32]) -> Vec<Line> {
    let n = values.len();
    let mut lines: Vec<Line> = Vec::new();
    for _ in 0..chance.below(n + 2) {
        let [x, y, z] = [(); 3].map(|()| chance.below(n));
        let [a, any, c] = [(); 3].map(|()| chance.pick(&[-1, 1]));
        // The sign with which the two sum to 0: either, where both are 0.
        let b = match values[x] * values[y] {
            0 => any,
            product => -a * product,
        };
        if values[x].abs() != values[y].abs() && !chance.one_in(30) {
            continue;
        }
        let [x, y, z, third] = [x as i32, y as i32, z as i32, c * values[z]];
        let [first, second] = tie(a, x, b, y);
        match chance.below(8) {
            // a·x + b·y is at most 0 by a walk through z.
            0 => {
                let sum = a * values[x as usize] + third;
                lines.extend([line(a, x, c, z, sum), line(b, y, -c, z, -sum), second]);
            }
            1 => {
                lines.extend(fixed_by_halves(x, values[x as usize]));
                lines.extend(fixed_by_halves(y, values[y as usize]));
            }
            2 => {
                lines.extend(fixed(x, values[x as usize]));
                lines.extend(fixed_by_halves(y, values[y as usize]));
            }
            // Half of a tie, and a line that is not tight.
            3 => lines.extend([first, line(-a, x, -b, y, 1)]),
            _ => lines.extend([first, second]),
        }
    }
    if chance.one_in(4) {
        let mut line = some_line(chance, n as u64);
        line[BOUND] = chance.between(-1, 2) as i32;
        lines.push(line);
    }
    identify(chance, &mut lines);
    let order = chance.order(lines.len());
    order.iter().map(|&at| lines[at]).collect()
}

/// A list with one hub: each line is of one variable, or of variable 0 and one other; at
/// times one is of any two. Values that are whole numbers, or halves of such, meet all lines,
/// many with nothing to spare, or all but one.
pub fn around_hub(chance: &mut Chance, shape: &Shape) -> Vec<Line> {
    let divisor = chance.pick(&[1, 1, 2]);
    let high = divisor * shape.largest / 2;
    let values: Vec<i64> = (0..shape.n).map(|_| chance.between(-high, high)).collect();
    let often = chance.between(1, 8) as usize;
    let other = chance.one_in(4).then(|| chance.below(shape.count.max(1)));
    let mut some = |at: usize| {
        let mut line = some_line(chance, shape.n);
        if Some(at) != other {
            line[chance.pick(&[X, Y])] = 0;
            if line[X] == line[Y] {
                line = lone(line[0], line[X], 0);
            }
        }
        let least = -(-left_side(&line, &values)).div_euclid(divisor);
        let spare = chance.between(0, 1 + shape.largest / 2);
        let bound = least + if chance.one_in(often) { 0 } else { spare };
        line[BOUND] = bound.min(LARGEST_BOUND) as i32;
        line
    };
    let mut lines: Vec<Line> = (0..shape.count).map(&mut some).collect();
    if chance.one_in(4) && !lines.is_empty() {
        let at = chance.below(lines.len());
        lines[at][BOUND] = (lines[at][BOUND] - 1).max(-LARGEST_BOUND as i32);
    }
    identify(chance, &mut lines);
    lines
}

/// What a list is made of.
pub struct Shape {
    pub n: u64,
    pub count: usize,
    pub largest: i64,
}

impl Shape {
    /// From few lines to many, from small bounds to the largest.
    pub fn of(chance: &mut Chance, n: u64) -> Shape {
        let points = n as usize;
        let counts = [1, 2, 4, 8, 16].map(|halves| halves * points / 2);
        let most = SMALL_LINES;
        let count = chance.pick(&[&counts[..], &[most]].concat()) + chance.below(4);
        Shape {
            n,
            count: count.min(most),
            largest: chance.pick(&[0, 1, 3, 20, 1_000, 30_000, LARGEST_BOUND]),
        }
    }

    /// A list of this shape, n at least 1, made in one of the ways below.
    pub fn list(&self, chance: &mut Chance) -> Vec<Line> {
        let mut lines = match chance.below(10) {
            0 => self.free(chance),
            1..=3 => self.met(chance, 1),
            4 | 5 => self.met(chance, 2),
            6 => self.met_but_one(chance),
            7 => self.round_walk(chance),
            _ => self.odd_walks(chance),
        };
        for line in &mut lines {
            if chance.one_in(2_000) {
                *line = zero(chance.pick(&[-1, 0, 1, -LARGEST_BOUND]) as i32);
            }
        }
        identify(chance, &mut lines);
        chance
            .order(lines.len())
            .iter()
            .map(|&at| lines[at])
            .collect()
    }

    /// Bounds at random, the lowest of them at times near zero.
    fn free(&self, chance: &mut Chance) -> Vec<Line> {
        let lowest = -self.largest / chance.pick(&[1, 4, 16, 64]);
        let lines = (0..self.count).map(|_| {
            let mut line = some_line(chance, self.n);
            line[BOUND] = chance.between(lowest, self.largest) as i32;
            line
        });
        lines.collect()
    }

    /// Lines that are met by values that are whole numbers divided by `divisor`,
    /// many of them with nothing to spare.
    pub fn met(&self, chance: &mut Chance, divisor: i64) -> Vec<Line> {
        let high = divisor * self.largest / 2;
        let values: Vec<i64> = (0..self.n).map(|_| chance.between(-high, high)).collect();
        let often = chance.between(1, 4) as usize;
        let lines = (0..self.count).map(|_| {
            let mut line = some_line(chance, self.n);
            let least = -(-left_side(&line, &values)).div_euclid(divisor);
            let spare = chance.between(0, 1 + self.largest / 2);
            let bound = least + if chance.one_in(often) { 0 } else { spare };
            line[BOUND] = bound.min(LARGEST_BOUND) as i32;
            line
        });
        lines.collect()
    }

    /// The same with one bound a little lower than it may safely be.
    fn met_but_one(&self, chance: &mut Chance) -> Vec<Line> {
        let mut lines = self.met(chance, 1);
        if !lines.is_empty() {
            let at = chance.below(lines.len());
            let lower = chance.between(1, 3) as i32;
            lines[at][BOUND] = (lines[at][BOUND] - lower).max(-LARGEST_BOUND as i32);
        }
        lines
    }

    /// One closed walk through all variables, of a sum near 0, and other lines
    /// that add little.
    fn round_walk(&self, chance: &mut Chance) -> Vec<Line> {
        let mut walk: Vec<Line> = Vec::new();
        let order = chance.order(self.n as usize);
        let signs: Vec<i32> = order.iter().map(|_| chance.pick(&[-1, 1])).collect();
        for at in 0..order.len() {
            let next = (at + 1) % order.len();
            walk.push(line(
                signs[at],
                order[at] as i32,
                -signs[next],
                order[next] as i32,
                0,
            ));
        }
        let sum = chance.between(-1, 1);
        self.settle(chance, &mut walk, sum);
        self.with_others(chance, walk)
    }

    /// A walk through all variables to a variable's opposite and back to it,
    /// each of an odd sum, where both sums are 0 or near it.
    fn odd_walks(&self, chance: &mut Chance) -> Vec<Line> {
        let order = chance.order(self.n as usize);
        let turn = order.len().div_ceil(2);
        let mut lines = Vec::new();
        let half = chance.between(-self.largest / 4, self.largest / 4);
        let over = chance.between(-1, 0);
        for (part, sign, sum) in [
            (&order[..turn], 1, 2 * half + 1),
            (&order[turn..], -1, 2 * (over - half) + 1),
        ] {
            let mut at = (order[0] as i32, sign);
            let mut walk: Vec<Line> = Vec::new();
            for &variable in part.iter().filter(|&&variable| variable != order[0]) {
                let next = (variable as i32, chance.pick(&[-1, 1]));
                walk.push(line(at.1, at.0, -next.1, next.0, 0));
                at = next;
            }
            walk.push(line(at.1, at.0, sign, order[0] as i32, 0));
            self.settle(chance, &mut walk, sum);
            lines.extend(walk);
        }
        self.with_others(chance, lines)
    }

    /// Chooses bounds of lines with two terms that sum to `sum`, or near it.
    fn settle(&self, chance: &mut Chance, lines: &mut [Line], sum: i64) {
        let mut missing = sum;
        for line in lines.iter_mut() {
            let bound = chance.between(-self.largest, self.largest);
            missing -= bound;
            line[BOUND] = bound as i32;
        }
        for line in lines {
            let new = (i64::from(line[BOUND]) + missing).clamp(-LARGEST_BOUND, LARGEST_BOUND);
            missing -= new - i64::from(line[BOUND]);
            line[BOUND] = new as i32;
        }
    }

    /// These lines and others with high bounds, up to the count.
    fn with_others(&self, chance: &mut Chance, mut lines: Vec<Line>) -> Vec<Line> {
        lines.truncate(MOST_LINES);
        while lines.len() < self.count {
            let mut line = some_line(chance, self.n);
            line[BOUND] = chance.between(LARGEST_BOUND / 2, LARGEST_BOUND) as i32;
            lines.push(line);
        }
        lines
    }
}
