//! Decides lists up to the limits by closing a square of distances with three
//! nested loops, and again after each value of the model: another way than rows
//! of least sums by rounds, so that the two don't share a mistake.

use crate::decision::{Group, Reason, Solved, Verdict, MINUS, PLUS};
use crate::implied::Sums;
use crate::lines::{Line, BOUND};

/// No walk. Far below where sums of two would overflow.
const NONE: i64 = i64::MAX / 4;

/// For each two points u and v the greatest value(u) - value(v) that the lines
/// seen so far allow. Variable x has the points 2x and, for its negative, 2x + 1.
struct Square {
    points: usize,
    cells: Vec<i64>,
}

/// What deciding is to answer to a valid list.
pub fn verdict(n: usize, lines: &[Line]) -> Verdict {
    let is_false = |line: &Line| line[0] == 0 && line[2] == 0 && line[BOUND] < 0;
    if let Some(first) = lines.iter().position(is_false) {
        return Verdict::No(Reason::FalseLine(first));
    }
    let mut square = Square::new(n, lines);
    if !square.close() {
        return Verdict::No(Reason::ClosedWalk);
    }
    if !square.tighten() {
        return Verdict::No(Reason::HalvedWalks);
    }
    let bounds = (0..n).flat_map(|x| square.bounds(x)).collect();
    let groups = (0..n).map(|x| square.group(x)).collect();
    Verdict::Yes(Solved {
        model: (0..n).map(|x| square.choose(x)).collect(),
        bounds,
        groups,
    })
}

/// What the lines of a valid list allow, where it has a solution.
pub struct Distances(Square);

/// These, or none where the list has no solution.
pub fn distances(n: usize, lines: &[Line]) -> Option<Distances> {
    let mut square = Square::new(n, lines);
    let is_true = |line: &Line| line[0] != 0 || line[2] != 0 || line[BOUND] >= 0;
    let solvable = lines.iter().all(is_true) && square.close() && square.tighten();
    solvable.then_some(Distances(square))
}

/// The least sums of walks between all points, in the row of a point those to it, with the
/// highest number where there is no walk; none where a closed walk is negative.
pub fn table(n: usize, lines: &[Line]) -> Option<Vec<i64>> {
    let mut square = Square::new(n, lines);
    if !square.close() {
        return None;
    }
    let ends = (0..2 * n).flat_map(|to| (0..2 * n).map(move |from| (from, to)));
    let sums = ends.map(|(from, to)| match square.at(from, to) {
        NONE => i64::MAX,
        sum => sum,
    });
    Some(sums.collect())
}

impl Distances {
    /// The greatest x + y, x - y, -x + y and -x - y: of a point and the opposite of another.
    pub fn sums(&self, x: usize, y: usize) -> Sums {
        let (x, y) = ([2 * x, 2 * x + 1], [2 * y + 1, 2 * y]);
        let ends = [[x[0], y[0]], [x[0], y[1]], [x[1], y[0]], [x[1], y[1]]];
        ends.map(|[from, to]| match self.0.at(from, to) {
            NONE => i64::MAX,
            greatest => greatest,
        })
    }
}

impl Square {
    fn new(n: usize, lines: &[Line]) -> Square {
        let points = 2 * n;
        let mut cells = vec![NONE; points * points];
        for point in 0..points {
            cells[point * points + point] = 0;
        }
        let mut square = Square { points, cells };
        let point = |sign: i32, x: i32| 2 * x as usize + usize::from(sign < 0);
        for &[a, x, b, y, d, ..] in lines {
            let d = i64::from(d);
            match (a, b) {
                (0, 0) => {}
                (_, 0) => square.lower(point(a, x), point(-a, x), 2 * d),
                (0, _) => unreachable!("a lone coefficient stands in the first place"),
                _ => {
                    square.lower(point(a, x), point(-b, y), d);
                    square.lower(point(b, y), point(-a, x), d);
                }
            }
        }
        square
    }

    fn at(&self, from: usize, to: usize) -> i64 {
        self.cells[from * self.points + to]
    }

    fn lower(&mut self, from: usize, to: usize, value: i64) {
        let cell = &mut self.cells[from * self.points + to];
        *cell = value.min(*cell);
    }

    /// Adds what follows from a step from `from` to `to` where the rest is
    /// closed, or, with a weight of 0 at one point, from walks through it.
    fn pass(&mut self, from: usize, to: usize, weight: i64) {
        let row: Vec<i64> = (0..self.points).map(|end| self.at(to, end)).collect();
        for start in 0..self.points {
            let there = self.at(start, from);
            if there == NONE {
                continue;
            }
            let cells = &mut self.cells[start * self.points..][..self.points];
            for (cell, &back) in cells.iter_mut().zip(&row) {
                if back != NONE {
                    *cell = (*cell).min(there + weight + back);
                }
            }
        }
    }

    /// False where a closed walk is negative. The look at the diagonal after
    /// each point keeps the sums from doubling on and on.
    fn close(&mut self) -> bool {
        (0..self.points).all(|middle| {
            self.pass(middle, middle, 0);
            (0..self.points).all(|point| self.at(point, point) >= 0)
        })
    }

    /// Twice a whole number is even, and two bounds bound a difference. False
    /// where a least value passes a greatest.
    fn tighten(&mut self) -> bool {
        let own = |point: usize| (point, point ^ 1);
        for point in 0..self.points {
            let (from, to) = own(point);
            if self.at(from, to) != NONE {
                let even = 2 * self.at(from, to).div_euclid(2);
                self.lower(from, to, even);
            }
        }
        let twice: Vec<i64> = (0..self.points).map(|u| self.at(u, u ^ 1)).collect();
        for (u, &left) in twice.iter().enumerate() {
            if left == NONE {
                continue;
            }
            if twice[u ^ 1] != NONE && left + twice[u ^ 1] < 0 {
                return false;
            }
            for v in 0..self.points {
                if twice[v ^ 1] != NONE {
                    self.lower(u, v, (left + twice[v ^ 1]) / 2);
                }
            }
        }
        true
    }

    /// The least and the greatest value.
    fn bounds(&self, x: usize) -> [i64; 2] {
        let (up, down) = (self.at(2 * x, 2 * x + 1), self.at(2 * x + 1, 2 * x));
        [
            if down == NONE { i64::MIN } else { -down / 2 },
            if up == NONE { i64::MAX } else { up / 2 },
        ]
    }

    /// The lowest variable of which this one can be neither above nor below the value,
    /// or else neither above nor below the negative.
    fn group(&self, x: usize) -> Group {
        let tied = |u: usize| self.at(2 * x, u) <= 0 && self.at(u, 2 * x) <= 0;
        let by = |y: usize, sign: u32| tied(2 * y + sign as usize).then_some([y as u32, sign]);
        let lowest = (0..x).find_map(|y| by(y, PLUS).or(by(y, MINUS)));
        lowest.unwrap_or([x as u32, PLUS])
    }

    /// Gives a variable its value nearest zero, and closes the square again with
    /// the two lines that say so.
    fn choose(&mut self, x: usize) -> i64 {
        let [least, greatest] = self.bounds(x);
        let value = 0.clamp(least, greatest);
        self.pass(2 * x, 2 * x + 1, 2 * value);
        self.pass(2 * x + 1, 2 * x, -2 * value);
        let consistent = self.tighten() && (0..self.points).all(|u| self.at(u, u) >= 0);
        assert!(consistent, "value {value} of variable {x}");
        value
    }
}
