//! Lists of many shapes.

use crate::chance::Chance;
use crate::limits::GREATEST_BOUND;
use crate::lines::{line, lone, Line, List};

/// The greatest bound of most lists, and the greatest hidden value.
const HIGH: i32 = 1_000;

/// Four lines for each variable: it and another one, either sign, any bound from
/// the lowest on.
pub fn sparse(chance: &mut Chance, n: usize, lowest: i32) -> List {
    let variables = (0..n).flat_map(|x| [x; 4]);
    let lines = variables.map(|x| {
        let other = (x + 1 + chance.below(n - 1)) % n;
        let bound = chance.between(lowest, HIGH);
        line(chance.sign(), x, chance.sign(), other, bound)
    });
    lines.collect()
}

/// Any differences, with bounds that hidden values meet with some room.
pub fn met_differences(chance: &mut Chance, n: usize, lines: usize) -> List {
    let hidden: Vec<i32> = (0..n).map(|_| chance.between(-HIGH, HIGH)).collect();
    let mut any = || {
        let (x, y, sign) = (chance.below(n), chance.below(n), chance.sign());
        let bound = sign * (hidden[x] - hidden[y]) + chance.between(0, HIGH);
        line(sign, x, -sign, y, bound)
    };
    (0..lines).map(|_| any()).collect()
}

/// These lines of two terms as differences: each second term gets the other sign than the
/// first.
pub fn made_differences(mut list: List) -> List {
    for line in &mut list {
        line[2] = -line[0];
    }
    list
}

/// A line over any two variables, either sign.
fn any_pair(chance: &mut Chance, n: usize, bound: i32) -> Line {
    let (x, y) = (chance.below(n), chance.below(n));
    line(chance.sign(), x, chance.sign(), y, bound)
}

/// In which order the lines of a chain stand.
#[derive(Clone, Copy)]
pub enum Order {
    Forward,
    Backward,
    /// Each second line first, so that neither direction is served.
    Mixed,
    /// Lines and variables in any order.
    Shuffled,
}

/// A chain from a variable through all others and back through their negatives,
/// among lines that never count in the end. At least as many lines as variables.
pub fn chain(chance: &mut Chance, n: usize, lines: usize, order: Order) -> List {
    let links = links(chance, n, order);
    let gap = lines / n;
    let place = |at: usize| match links.get(at / gap) {
        Some(link) if at.is_multiple_of(gap) => *link,
        _ => any_pair(chance, n, GREATEST_BOUND),
    };
    (0..lines).map(place).collect()
}

/// The lines of the chain itself.
fn links(chance: &mut Chance, n: usize, order: Order) -> List {
    let variables = match order {
        Order::Shuffled => chance.order(n),
        _ => (0..n).collect(),
    };
    let next = variables.windows(2);
    let mut links: List = next.map(|pair| line(1, pair[0], -1, pair[1], -1)).collect();
    links.push(lone(1, variables[n - 1], n as i32));
    match order {
        Order::Forward => {}
        Order::Backward => links.reverse(),
        Order::Mixed => {
            let part = |odd| links.iter().copied().skip(odd).step_by(2).rev();
            links = part(0).chain(part(1)).collect();
        }
        Order::Shuffled => chance.shuffle(&mut links),
    }
    links
}

/// Any pairs, with bounds so near to each other that no walk of two lines says as
/// much as a line.
pub fn all_count(chance: &mut Chance, n: usize, lines: usize) -> List {
    let mut any = || {
        let bound = chance.between(HIGH / 2 + 1, HIGH);
        any_pair(chance, n, bound)
    };
    (0..lines).map(|_| any()).collect()
}

/// What hidden values may be, doubled: even for whole numbers, odd for halves.
#[derive(Clone, Copy)]
pub enum Hidden {
    Whole,
    Halves,
}

/// Any pairs, with bounds that hidden values meet with so much room at most.
pub fn met(chance: &mut Chance, n: usize, lines: usize, hidden: Hidden, room: i32) -> List {
    let odd = i32::from(matches!(hidden, Hidden::Halves));
    let doubled: Vec<i32> = (0..n)
        .map(|_| 2 * chance.between(-HIGH / 2, HIGH / 2) + odd)
        .collect();
    let mut any = || {
        let (x, y) = (chance.below(n), chance.below(n));
        let (a, b) = (chance.sign(), chance.sign());
        let least = (a * doubled[x] + b * doubled[y]) / 2;
        line(a, x, b, y, least + chance.between(0, room))
    };
    (0..lines).map(|_| any()).collect()
}

/// All lines between the first variable and each other.
pub fn hub(chance: &mut Chance, n: usize) -> List {
    let signs = [(1, 1), (1, -1), (-1, 1), (-1, -1)];
    let pairs = (1..n).flat_map(|x| signs.map(|(a, b)| (a, b, x)));
    let mut list: List = pairs
        .map(|(a, b, x)| line(a, 0, b, x, chance.between(0, HIGH)))
        .collect();
    chance.shuffle(&mut list);
    list
}

/// Variables in a square, each near its neighbours, some with a bound.
pub fn grid(chance: &mut Chance, n: usize) -> List {
    let side = n.isqrt();
    let hidden: Vec<i32> = (0..n).map(|_| chance.between(-HIGH, HIGH)).collect();
    let mut list = List::new();
    for x in 0..side * side {
        let right = (x % side + 1 < side).then_some(x + 1);
        let below = (x + side < side * side).then_some(x + side);
        for y in right.into_iter().chain(below) {
            for sign in [1, -1] {
                let bound = sign * (hidden[x] - hidden[y]) + chance.between(0, HIGH / 10);
                list.push(line(sign, x, -sign, y, bound));
            }
        }
    }
    for _ in 0..n / 8 {
        let x = chance.below(n);
        list.push(lone(1, x, hidden[x] + HIGH / 20));
    }
    chance.shuffle(&mut list);
    list
}

/// Lines of one variable.
pub fn lone_lines(chance: &mut Chance, n: usize, lines: usize) -> List {
    let mut any = || {
        let bound = chance.between(0, HIGH);
        lone(chance.sign(), chance.below(n), bound)
    };
    (0..lines).map(|_| any()).collect()
}

/// Groups of so many variables each, in which each equals or mirrors the next.
const GROUP: usize = 4;

/// Variables in groups, some of them fixed, among lines that never count.
pub fn tied(chance: &mut Chance, n: usize, lines: usize) -> List {
    let variables = chance.order(n);
    let mut list = List::new();
    for group in variables.chunks(GROUP) {
        for pair in group.windows(2) {
            let b = chance.sign();
            list.extend([1, -1].map(|sign| line(sign, pair[0], sign * b, pair[1], 0)));
        }
        // Of one value or of three, by halves, and at times of the same as another group.
        if chance.below(2) == 0 {
            let (x, value) = (group[0], chance.between(-HIGH / 100, HIGH / 100));
            let least = value - 2 * chance.between(0, 1);
            list.push(line(1, x, 1, x, 2 * value + 1));
            list.push(line(-1, x, -1, x, 1 - 2 * least));
        }
    }
    list.resize_with(lines.max(list.len()), || {
        any_pair(chance, n, GREATEST_BOUND)
    });
    chance.shuffle(&mut list);
    list
}

/// A closed walk through so many variables, of sum -1, among lines that hidden
/// values meet with much room.
pub fn negative_cycle(chance: &mut Chance, n: usize, lines: usize, length: usize) -> List {
    let hidden: Vec<i32> = (0..n).map(|_| chance.between(-HIGH, HIGH)).collect();
    let variables = chance.order(n);
    let mut list = List::new();
    for at in 0..length {
        let (x, y) = (variables[at], variables[(at + 1) % length]);
        let bound = hidden[x] - hidden[y] - i32::from(at == 0);
        list.push(line(1, x, -1, y, bound));
    }
    while list.len() < lines {
        let (x, y) = (chance.below(n), chance.below(n));
        let (a, b) = (chance.sign(), chance.sign());
        let bound = a * hidden[x] + b * hidden[y] + chance.between(3 * HIGH, 6 * HIGH);
        list.push(line(a, x, b, y, bound));
    }
    chance.shuffle(&mut list);
    list
}

/// All variables equal, and the first and the last together 1, which walks through
/// all of them show to be met by halves alone, among lines that never count.
pub fn halves_apart(chance: &mut Chance, n: usize, lines: usize) -> List {
    let variables = chance.order(n);
    let (first, last) = (variables[0], variables[n - 1]);
    let mut list = List::new();
    for sign in [1, -1] {
        let next = variables.windows(2);
        list.extend(next.map(|pair| line(sign, pair[0], -sign, pair[1], 0)));
        list.push(line(sign, first, sign, last, sign));
    }
    list.resize_with(lines, || any_pair(chance, n, GREATEST_BOUND));
    chance.shuffle(&mut list);
    list
}
