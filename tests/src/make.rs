//! Makes lists, models and refutations at random: right ones, and ones that
//! just fail to be right.

use crate::chance::Chance;
use crate::limits::{LARGEST_BOUND, MOST_N, MOST_REFUTATION, MOST_VARIABLES};
use crate::lines::{identifier, line, lone, of_message, zero, Line, BOUND, IDENTIFIER, X, Y};

/// A point: a variable's number, and 1 for the variable or -1 for its negative.
type Point = (i32, i32);

fn opposite((variable, sign): Point) -> Point {
    (variable, -sign)
}

/// A refutation before it is packed.
#[derive(Clone, Debug)]
pub struct Proposal {
    pub kind: u32,
    pub first: Vec<u32>,
    pub second: Vec<u32>,
}

impl Proposal {
    pub fn numbers(&self) -> Vec<u32> {
        let counts = [self.kind, self.first.len() as u32, self.second.len() as u32];
        [&counts[..], &self.first, &self.second].concat()
    }
}

/// A number of variables, often small.
pub fn variables(chance: &mut Chance) -> u64 {
    match chance.below(8) {
        0 => chance.below(MOST_VARIABLES + 1) as u64,
        1 => chance.pick(&[0, MOST_N - 1, MOST_N]),
        _ => chance.between(1, 4) as u64,
    }
}

/// A bound within the limits: mostly small, at times extreme.
pub fn bound(chance: &mut Chance) -> i32 {
    let bound = match chance.below(8) {
        0 => chance.pick(&[
            -LARGEST_BOUND,
            1 - LARGEST_BOUND,
            LARGEST_BOUND - 1,
            LARGEST_BOUND,
        ]),
        1 => chance.between(-LARGEST_BOUND, LARGEST_BOUND),
        _ => chance.between(-4, 4),
    };
    bound as i32
}

/// A valid line of any of the seven coefficient pairs, with a bound and an identifier.
pub fn some_line(chance: &mut Chance, n: u64) -> Line {
    let mut line = of_message(zero(bound(chance)), identifier(chance));
    let terms = match chance.below(16) {
        _ if n == 0 => 0,
        0 => 0,
        1..=6 => 1,
        _ => 2,
    };
    for place in [0, 2].into_iter().take(terms) {
        line[place] = chance.pick(&[-1, 1]);
        line[place + 1] = chance.below(n as usize) as i32;
    }
    line
}

/// Valid lines, with whatever bounds.
pub fn lines(chance: &mut Chance, n: u64, count: usize) -> Vec<Line> {
    (0..count).map(|_| some_line(chance, n)).collect()
}

/// The left side of a line.
pub fn left_side(line: &Line, values: &[i64]) -> i64 {
    let term = |c: i32, v: i32| {
        if c == 0 {
            0
        } else {
            i64::from(c) * values[v as usize]
        }
    };
    term(line[0], line[X]) + term(line[2], line[Y])
}

/// Valid lines that these values meet, many of them with nothing to spare.
pub fn lines_met_by(chance: &mut Chance, values: &[i64], count: usize) -> Vec<Line> {
    let mut lines = lines(chance, values.len() as u64, count);
    for line in &mut lines {
        if left_side(line, values) > LARGEST_BOUND {
            line[0] = -line[0];
            line[2] = -line[2];
        }
        let spare = if chance.one_in(2) {
            0
        } else {
            chance.between(0, 5)
        };
        let least = left_side(line, values).max(-LARGEST_BOUND);
        line[BOUND] = (least + spare).min(LARGEST_BOUND) as i32;
    }
    lines
}

/// A line that has a step between these points, from any message, and the step's side.
fn line_between(chance: &mut Chance, from: Point, to: Point) -> (Line, u32) {
    let ((v, s), (w, t)) = (from, to);
    let (mut line, side) = if to == opposite(from) && chance.one_in(2) {
        (lone(s, v, 0), 0)
    } else {
        chance.pick(&[(line(s, v, -t, w, 0), 0), (line(-t, w, s, v, 0), 1)])
    };
    line[IDENTIFIER] = identifier(chance);
    (line, side)
}

/// How often d counts in the weight of a line's steps.
fn factor(line: &Line) -> i64 {
    if line[0] != 0 && line[2] != 0 {
        1
    } else {
        2
    }
}

/// The sum of the weights of these steps.
fn sum(lines: &[Line], steps: &[u32]) -> i64 {
    let weight = |&step: &u32| {
        let line = &lines[step as usize / 2];
        factor(line) * i64::from(line[BOUND])
    };
    steps.iter().map(weight).sum()
}

/// Adds a line for each step of a new walk between these points.
fn add_walk(
    chance: &mut Chance,
    lines: &mut Vec<Line>,
    n: u64,
    from: Point,
    to: Point,
) -> Vec<u32> {
    let length = if chance.one_in(8) {
        chance.between(1, 30)
    } else {
        chance.between(1, 5)
    };
    let mut steps = Vec::new();
    let mut at = from;
    for left in (0..length).rev() {
        let next = if left == 0 { to } else { point(chance, n) };
        let (line, side) = line_between(chance, at, next);
        steps.push(2 * lines.len() as u32 + side);
        lines.push(line);
        at = next;
    }
    steps
}

fn point(chance: &mut Chance, n: u64) -> Point {
    (chance.below(n as usize) as i32, chance.pick(&[-1, 1]))
}

/// Chooses the bounds along a walk anew, so that the weights sum to `target` or
/// as near to it as can be. Each step has a line of its own.
fn settle(chance: &mut Chance, lines: &mut [Line], steps: &[u32], target: i64) {
    for &step in steps {
        lines[step as usize / 2][BOUND] = bound(chance);
    }
    let mut missing = target - sum(lines, steps);
    for &step in steps {
        let line = &mut lines[step as usize / 2];
        let old = i64::from(line[BOUND]);
        let new = (old + missing.div_euclid(factor(line))).clamp(-LARGEST_BOUND, LARGEST_BOUND);
        missing -= factor(line) * (new - old);
        line[BOUND] = new as i32;
    }
}

/// Lines, n at least 1, and a refutation of kind 1 or 2 whose walks are right
/// and whose sums are just low enough or just too high.
pub fn near_refutation(chance: &mut Chance, n: u64) -> (Vec<Line>, Proposal) {
    let extra = chance.below(6);
    let mut lines = lines(chance, n, extra);
    let start = point(chance, n);
    let (kind, mut first, mut second) = if chance.one_in(2) {
        let walk = add_walk(chance, &mut lines, n, start, start);
        let target = chance.between(-2, 1);
        settle(chance, &mut lines, &walk, target);
        (1, walk, Vec::new())
    } else {
        let there = add_walk(chance, &mut lines, n, start, opposite(start));
        let back = add_walk(chance, &mut lines, n, opposite(start), start);
        let half = if chance.one_in(4) {
            chance.between(-900_000, 900_000)
        } else {
            chance.between(-3, 3)
        };
        let (there_odd, back_odd) = (chance.between(0, 1), chance.between(0, 1));
        let over = chance.between(-2, 1);
        settle(chance, &mut lines, &there, 2 * half + there_odd);
        settle(chance, &mut lines, &back, 2 * (over - half) + back_odd);
        (2, there, back)
    };
    if chance.one_in(4) {
        if kind == 1 {
            first = first.repeat(chance.between(2, 9) as usize);
        } else {
            first = [&first[..], &second, &first].concat();
        }
    }
    // The lines in another order, and the steps numbered to match.
    let order = chance.order(lines.len());
    let mut place = vec![0; order.len()];
    for (new, &old) in order.iter().enumerate() {
        place[old] = new as u32;
    }
    for step in first.iter_mut().chain(&mut second) {
        *step = 2 * place[*step as usize / 2] + *step % 2;
    }
    (
        order.iter().map(|&old| lines[old]).collect(),
        Proposal {
            kind,
            first,
            second,
        },
    )
}

/// A step of a list, for walking about in it.
struct Step {
    number: u32,
    from: Point,
    to: Point,
}

/// All steps. A line a·x + b·y ≤ d leads from a·x to -b·y, and from b·y to -a·x.
fn steps(lines: &[Line]) -> Vec<Step> {
    let mut steps = Vec::new();
    for (at, &[a, x, b, y, ..]) in lines.iter().enumerate() {
        let number = 2 * at as u32;
        match (a != 0, b != 0) {
            (true, true) => {
                steps.push(Step {
                    number,
                    from: (x, a),
                    to: (y, -b),
                });
                steps.push(Step {
                    number: number + 1,
                    from: (y, b),
                    to: (x, -a),
                });
            }
            (true, false) => steps.push(Step {
                number,
                from: (x, a),
                to: (x, -a),
            }),
            (false, true) => steps.push(Step {
                number,
                from: (y, b),
                to: (y, -b),
            }),
            (false, false) => {}
        }
    }
    steps
}

/// Adds a line, n at least 1, that leads from where this step begins to any point,
/// most likely another than where the step ends, and gives the new step. None
/// where the number names no step.
pub fn detour(chance: &mut Chance, n: u64, lines: &mut Vec<Line>, number: u32) -> Option<u32> {
    let from = steps(lines).iter().find(|step| step.number == number)?.from;
    let to = point(chance, n);
    let (mut line, side) = line_between(chance, from, to);
    line[BOUND] = bound(chance);
    lines.push(line);
    Some(2 * (lines.len() as u32 - 1) + side)
}

/// A walk, taken at random along the lines' steps, that comes back to where it
/// began: as kind 1, or as kind 2 where it passed the opposite point. None
/// where it didn't come back soon.
pub fn stroll(chance: &mut Chance, lines: &[Line]) -> Option<Proposal> {
    let steps = steps(lines);
    if steps.is_empty() {
        return None;
    }
    let start = steps[chance.below(steps.len())].from;
    let (mut at, mut walk, mut turn) = (start, Vec::new(), None);
    for _ in 0..60 {
        let ways: Vec<&Step> = steps.iter().filter(|step| step.from == at).collect();
        if ways.is_empty() {
            return None;
        }
        let step = chance.pick(&ways);
        walk.push(step.number);
        at = step.to;
        if at == opposite(start) && (turn.is_none() || chance.one_in(3)) {
            turn = Some(walk.len());
        }
        if at == start && chance.one_in(2) {
            break;
        }
    }
    match turn {
        _ if at != start => None,
        Some(turn) if !chance.one_in(4) => {
            let second = walk.split_off(turn);
            Some(Proposal {
                kind: 2,
                first: walk,
                second,
            })
        }
        _ => Some(Proposal {
            kind: 1,
            first: walk,
            second: Vec::new(),
        }),
    }
}

/// A refutation of kind 3 for one of the lines, right where that line is false,
/// and the lines with one such line at least.
pub fn near_false_line(chance: &mut Chance, n: u64) -> (Vec<Line>, Proposal) {
    let count = chance.between(1, 6) as usize;
    let mut lines = lines(chance, n, count);
    let at = chance.below(count);
    let d = chance.pick(&[-1_000_000, -2, -1, -1, 0, 1]);
    lines[at] = of_message(zero(d), identifier(chance));
    let named = if chance.one_in(4) {
        chance.below(count)
    } else {
        at
    };
    (
        lines,
        Proposal {
            kind: 3,
            first: vec![2 * named as u32],
            second: Vec::new(),
        },
    )
}

/// The same step numbers under another kind or other counts.
pub fn miscount(chance: &mut Chance, proposal: &Proposal) -> Vec<u32> {
    let mut numbers = proposal.numbers();
    let (p, q) = (numbers[1], numbers[2]);
    match chance.below(9) {
        0 => numbers[0] = chance.pick(&[0, 1, 2, 3, 4, 5, 255, 257, u32::MAX]),
        1 => numbers.swap(1, 2),
        2 => (numbers[1], numbers[2]) = (p + q, 0),
        3 => (numbers[1], numbers[2]) = (0, p + q),
        // The same count in all, split elsewhere.
        4 => (numbers[1], numbers[2]) = (p.wrapping_sub(1), q.wrapping_add(1)),
        5 => (numbers[1], numbers[2]) = (p.wrapping_add(1), q.wrapping_sub(1)),
        // The same count in all if the high bits of the sum are dropped.
        6 => (numbers[1], numbers[2]) = (p.wrapping_add(1 << 31), q.wrapping_add(1 << 31)),
        7 => {
            let most = MOST_REFUTATION as u32;
            numbers[chance.pick(&[1, 2])] = chance.pick(&[u32::MAX, 1 << 31, most - 2, most]);
        }
        _ => {
            let place = chance.pick(&[1, 2]);
            numbers[place] = numbers[place].wrapping_add(chance.pick(&[1, u32::MAX]));
        }
    }
    numbers
}
