//! Where a refutation breaks: the place that a no carries, rule by rule, after
//! random damage at every sort of place, and after changes behind the place.

use std::collections::BTreeMap;

use utvpi_tests::bytes;
use utvpi_tests::chance::Chance;
use utvpi_tests::library;
use utvpi_tests::limits::MOST_REFUTATION;
use utvpi_tests::lines::{identified, identify, line, lone, zero, Line, BOUND};
use utvpi_tests::make;
use utvpi_tests::second::{self, Answer, Fault};

/// Two variables, x and y. The steps are given with their weights.
const LINES: [Line; 7] = [
    // 0: x to y, 1: -y to -x, -1.
    line(1, 0, -1, 1, -1),
    // 2: -x to -y, 3: y to x, 0.
    line(-1, 0, 1, 1, 0),
    // 4: x to -x, 6; 5 is none.
    lone(1, 0, 3),
    // 6: -x to x, -8; 7 is none.
    lone(-1, 0, -4),
    // 8 and 9 are none; the line is false.
    zero(-1),
    // 10 and 11 are none; the line is true.
    zero(0),
    // 12: -x to x, -6; 13 is none.
    lone(-1, 0, -3),
];

/// Refutations of these lines that are right.
const RIGHT: [&[u32]; 5] = [
    &[1, 2, 0, 0, 3],
    &[1, 2, 0, 4, 6],
    &[2, 1, 1, 4, 6],
    &[2, 3, 1, 0, 3, 4, 12],
    &[3, 1, 0, 8],
];

/// Refutations of these lines that are not, with the places worked out by hand.
const BROKEN: [(&[u32], usize); 50] = [
    // Fewer than three numbers.
    (&[], 0),
    (&[1], 0),
    (&[2, 0], 0),
    (&[3, 1], 0),
    // A bad kind, whatever else is wrong.
    (&[0, 2, 0, 0, 3], 0),
    (&[4, 1, 0, 8], 0),
    (&[257, 2, 0, 0, 3], 0),
    (&[u32::MAX, 0, 9, 99], 0),
    // Counts that do not suit the kind, whatever comes behind them.
    (&[1, 0, 0], 1),
    (&[1, 0, 0, 0, 3], 1),
    (&[1, 1, 1, 4, 6], 1),
    (&[1, 0, 2, 4, 6], 1),
    (&[2, 2, 0, 4, 6], 1),
    (&[2, 0, 2, 4, 6], 1),
    (&[3, 2, 0, 8, 8], 1),
    (&[3, 1, 1, 8, 8], 1),
    (&[3, 0, 1, 99], 1),
    // More or fewer numbers than the counts ask for, whatever the steps are.
    (&[1, 1, 0], 2),
    (&[1, 3, 0, 0, 3], 2),
    (&[1, 1, 0, 0, 3], 2),
    (&[1, 2, 0, 99], 2),
    (&[2, 1, 1, 4, 6, 4], 2),
    (&[2, 1 << 31, 1 << 31], 2),
    (&[1, u32::MAX, 0, 0, 3], 2),
    (&[3, 1, 0, 8, 8], 2),
    // A line that is not in the list; the first of two.
    (&[1, 2, 0, 14, 3], 3),
    (&[1, 2, 0, 0, 14], 4),
    (&[1, 3, 0, 0, 99, 99], 4),
    // A side that is none.
    (&[1, 2, 0, 5, 6], 3),
    (&[2, 1, 1, 4, 7], 4),
    // A line without variables, false or not.
    (&[1, 1, 0, 8], 3),
    (&[1, 2, 0, 0, 11], 4),
    // A step that does not join.
    (&[1, 2, 0, 0, 2], 4),
    (&[1, 4, 0, 0, 3, 3, 99], 5),
    (&[1, 4, 0, 4, 12, 12, 4], 5),
    // A second walk that begins at u, or elsewhere, and not at its opposite.
    (&[2, 1, 2, 4, 0, 3], 4),
    (&[2, 1, 1, 4, 1], 4),
    // A first walk that ends at u, or elsewhere, before the second is read.
    (&[2, 2, 1, 4, 6, 6], 4),
    (&[2, 1, 1, 0, 99], 3),
    // A last walk that ends elsewhere than at u; its sum would do.
    (&[1, 1, 0, 0], 3),
    (&[1, 3, 0, 4, 6, 0], 5),
    (&[2, 1, 2, 4, 6, 4], 5),
    (&[2, 1, 2, 6, 0, 3], 5),
    // Sums that are not low enough.
    (&[1, 2, 0, 4, 12], 4),
    (&[1, 4, 0, 4, 12, 4, 12], 6),
    (&[2, 1, 3, 4, 12, 4, 12], 6),
    // Kind 3: side 1, a true line, a line with variables, no line.
    (&[3, 1, 0, 9], 3),
    (&[3, 1, 0, 10], 3),
    (&[3, 1, 0, 0], 3),
    (&[3, 1, 0, 14], 3),
];

/// What the end answers to these numbers, taken one by one.
fn taken(n: u64, lines: &[Line], numbers: &[u32]) -> i64 {
    library::refutation_in_pieces(n, &lines.concat(), numbers)
}

#[test]
fn places_worked_out_by_hand() {
    let lines = identified(&LINES);
    let list = bytes::list(&lines);
    for right in RIGHT {
        let packed = bytes::refutation(right);
        let answer = utvpi_tests::refutation(2, &list, &packed);
        assert_eq!(answer, Answer::Yes, "{right:?}");
        assert_eq!(taken(2, &lines, right), 0, "{right:?}");
    }
    for (numbers, place) in BROKEN {
        let mut packed = bytes::refutation(numbers);
        let result = library::check_refutation(2, &list, &packed);
        assert_eq!(result, Answer::No(place).code(), "{numbers:?}");
        assert_eq!(taken(2, &lines, numbers), result, "{numbers:?}");
        let answer = utvpi_tests::refutation(2, &list, &packed);
        assert_eq!(answer, Answer::No(place), "{numbers:?}");
        // Bytes beyond whole numbers leave no place to name.
        for _ in 0..3 {
            packed.push(0);
            let answer = utvpi_tests::refutation(2, &list, &packed);
            assert_eq!(answer, Answer::No(0), "{numbers:?} and more");
        }
    }
}

/// All refutations with up to four steps of a short list, right heads and wrong.
#[test]
fn all_short_refutations() {
    // x ≤ 0, 2x ≥ 1, a false line, and one that leads nowhere else.
    let lines = [
        lone(1, 0, 0),
        line(-1, 0, -1, 0, -1),
        zero(-1),
        line(1, 0, -1, 0, 0),
    ];
    let list = bytes::list(&identified(&lines));
    let (mut yes, mut no_at) = (0, [0; 7]);
    for head in 0..5 * 5 * 5 {
        let head = [head / 25, head / 5 % 5, head % 5];
        for steps in 0..=4 {
            for rest in 0..9_u32.pow(steps) {
                let step = |at| rest / 9_u32.pow(at) % 9;
                let numbers: Vec<u32> = head.into_iter().chain((0..steps).map(step)).collect();
                match utvpi_tests::refutation(1, &list, &bytes::refutation(&numbers)) {
                    Answer::No(place) => no_at[place] += 1,
                    answer => yes += usize::from(answer == Answer::Yes),
                }
            }
        }
    }
    println!("{yes} yes, no by place {no_at:?}");
    assert!(yes >= 50 && no_at.iter().all(|&times| times >= 200));
}

/// A list and a refutation of it.
#[derive(Clone, Debug)]
struct Refuted {
    n: u64,
    lines: Vec<Line>,
    numbers: Vec<u32>,
}

/// A list and a right refutation of it, once in `long` times a long one. The
/// list has a line with one variable and one with none.
fn some_right(chance: &mut Chance, long: usize) -> Refuted {
    loop {
        let n = make::variables(chance).max(1);
        let (mut lines, mut proposal) = if chance.one_in(8) {
            make::near_false_line(chance, n)
        } else {
            make::near_refutation(chance, n)
        };
        let (sign, variable) = (chance.pick(&[-1, 1]), chance.below(n as usize) as i32);
        lines.push(lone(sign, variable, 0));
        lines.push(zero(make::bound(chance)));
        identify(chance, &mut lines);
        if chance.one_in(long) && proposal.kind != 3 {
            // Round and round, as often as there is room.
            let round = [&proposal.second[..], &proposal.first].concat();
            let room = MOST_REFUTATION - proposal.numbers().len();
            let most = (room / round.len()).min(chance.pick(&[100, 1_000, MOST_REFUTATION]));
            proposal.first.extend(round.repeat(chance.below(most + 1)));
        }
        let numbers = proposal.numbers();
        let packed = bytes::refutation(&numbers);
        if second::check_refutation(n, &bytes::list(&lines), &packed) == Answer::Yes {
            return Refuted { n, lines, numbers };
        }
    }
}

impl Refuted {
    /// The same with one damage, at times more.
    fn damaged(&self, chance: &mut Chance) -> Refuted {
        let mut damaged = self.clone();
        loop {
            match chance.below(16) {
                0 => damaged.numbers.truncate(chance.below(3)),
                1..=3 => damaged.damage_head(chance),
                4 => drop(damaged.numbers.pop()),
                5 => damaged.numbers.push(chance.below(9) as u32),
                6 | 7 => damaged.raise_a_bound(chance),
                8 => damaged.drop_a_step(chance),
                _ => damaged.damage_a_step(chance),
            }
            if !chance.one_in(4) {
                return damaged;
            }
        }
    }

    fn damage_head(&mut self, chance: &mut Chance) {
        if self.numbers.len() < 3 {
            return;
        }
        let place = chance.below(3);
        self.numbers[place] = match place {
            0 => chance.pick(&[0, 1, 2, 3, 4, 5, 256, 257, 1 << 31, u32::MAX]),
            _ => match chance.below(4) {
                0 => chance.pick(&[0, 1, 2]),
                1 => self.numbers[place] ^ chance.pick(&[1 << 16, 1 << 31]),
                _ => self.numbers[place].wrapping_add(chance.pick(&[1, u32::MAX])),
            },
        };
    }

    /// The index of a step, often the first or the last of a walk.
    fn some_index(&self, chance: &mut Chance) -> Option<usize> {
        let steps = self
            .numbers
            .len()
            .checked_sub(3)
            .filter(|&steps| steps > 0)?;
        let turn = 3 + self.numbers[1] as usize;
        let index = match chance.below(6) {
            0 => 3,
            1 => turn - 1,
            2 => turn,
            3 => self.numbers.len() - 1,
            _ => 3 + chance.below(steps),
        };
        (3..self.numbers.len()).contains(&index).then_some(index)
    }

    /// A higher bound for the line of some step.
    fn raise_a_bound(&mut self, chance: &mut Chance) {
        let Some(at) = self.some_index(chance) else {
            return;
        };
        if let Some(line) = self.lines.get_mut(self.numbers[at] as usize / 2) {
            line[BOUND] = (line[BOUND] + chance.between(1, 4) as i32).min(1_000_000);
        }
    }

    /// One step less, and counted as one less.
    fn drop_a_step(&mut self, chance: &mut Chance) {
        if let Some(at) = self.some_index(chance) {
            let count = if at < 3 + self.numbers[1] as usize {
                1
            } else {
                2
            };
            self.numbers[count] = self.numbers[count].saturating_sub(1);
            self.numbers.remove(at);
        }
    }

    /// Another number in place of a step's: one that names no step, for each of
    /// the reasons there are, or one that leads elsewhere.
    fn damage_a_step(&mut self, chance: &mut Chance) {
        let Some(at) = self.some_index(chance) else {
            return;
        };
        let old = self.numbers[at];
        let beyond = 2 * self.lines.len() as u32;
        let terms = |line: &Line| usize::from(line[0] != 0) + usize::from(line[2] != 0);
        let with = |count| {
            let place = self.lines.iter().rposition(|line| terms(line) == count);
            2 * place.unwrap() as u32
        };
        self.numbers[at] = match chance.below(10) {
            0 => beyond + chance.below(3) as u32,
            1 => old.wrapping_add(chance.pick(&[1 << 10, 1 << 16, 1 << 31])),
            2 => with(1) + 1,
            3 => with(0) + chance.below(2) as u32,
            4 => old ^ 1,
            5 => chance.below(beyond as usize) as u32,
            6 => chance.pick(&self.numbers[3..]),
            _ => make::detour(chance, self.n, &mut self.lines, old).unwrap_or(old),
        };
    }

    fn list(&self) -> Vec<u8> {
        bytes::list(&self.lines)
    }
}

/// The parts of a refutation in which a place may lie.
#[derive(Clone, Copy, Debug, PartialEq, Eq, PartialOrd, Ord)]
enum Part {
    Head,
    FalseLine,
    FirstStep,
    MiddleStep,
    OnlyWalksEnd,
    FirstWalksEnd,
    SecondWalksStart,
    SecondWalksEnd,
}
use Part::*;

/// The parts in which this place lies: a walk's one step is its first and last.
fn parts(numbers: &[u32], place: usize) -> Vec<Part> {
    if place < 3 {
        return vec![Head];
    }
    if numbers[0] == 3 {
        return vec![FalseLine];
    }
    let (turn, last) = (3 + numbers[1] as usize, numbers.len() - 1);
    let ends = if numbers[0] == 1 {
        vec![(3, FirstStep), (last, OnlyWalksEnd)]
    } else {
        vec![
            (3, FirstStep),
            (turn - 1, FirstWalksEnd),
            (turn, SecondWalksStart),
            (last, SecondWalksEnd),
        ]
    };
    let ends = ends.into_iter().filter(|&(at, _)| at == place);
    let parts: Vec<Part> = ends.map(|(_, part)| part).collect();
    if parts.is_empty() {
        vec![MiddleStep]
    } else {
        parts
    }
}

/// Every part with every fault that it can have. A walk's first step can have
/// the faults of its last, but the first step of all joins whatever it is.
fn all_sorts() -> Vec<(Part, Fault)> {
    use Fault::*;
    let sorts: [(Part, &[Fault]); 8] = [
        (Head, &[Bytes, Short, Kind, Counts, Total]),
        (FalseLine, &[NoLine, NotFalse]),
        (FirstStep, &[NoLine, NoSide, ZeroLine, End, Sums]),
        (MiddleStep, &[NoLine, NoSide, ZeroLine, Apart]),
        (OnlyWalksEnd, &[NoLine, NoSide, ZeroLine, Apart, End, Sums]),
        (FirstWalksEnd, &[NoLine, NoSide, ZeroLine, Apart, End]),
        (
            SecondWalksStart,
            &[NoLine, NoSide, ZeroLine, Apart, End, Sums],
        ),
        (
            SecondWalksEnd,
            &[NoLine, NoSide, ZeroLine, Apart, End, Sums],
        ),
    ];
    let mut all = Vec::new();
    for (part, faults) in sorts {
        all.extend(faults.iter().map(|&fault| (part, fault)));
    }
    all
}

/// Right refutations, damaged at every sort of place for every reason: the
/// library names the place that the second implementation does.
#[test]
fn damage_at_every_place() {
    let mut chance = Chance::new(90);
    let mut seen: BTreeMap<(Part, Fault), usize> = BTreeMap::new();
    let (mut yes, mut far) = (0, 0);
    for _ in 0..60_000 {
        let right = some_right(&mut chance, 60);
        for _ in 0..4 {
            let damaged = right.damaged(&mut chance);
            let list = damaged.list();
            let mut packed = bytes::refutation(&damaged.numbers);
            if chance.one_in(40) {
                packed.truncate(packed.len().saturating_sub(chance.below(4)));
            }
            match utvpi_tests::refutation(damaged.n, &list, &packed) {
                Answer::Yes => yes += 1,
                Answer::No(place) => {
                    let (at, fault) = second::where_it_breaks(damaged.n, &list, &packed).unwrap();
                    assert_eq!(at, place);
                    far += usize::from(place >= 10_000);
                    for part in parts(&damaged.numbers, place) {
                        *seen.entry((part, fault)).or_default() += 1;
                    }
                }
                refused => panic!("{refused:?} to {damaged:?}"),
            }
        }
    }
    println!("{yes} yes, {far} far away, no by part and reason {seen:?}");
    for sort in all_sorts() {
        let times = seen.remove(&sort).unwrap_or(0);
        assert!(times >= 200, "{sort:?} seen only {times} times");
    }
    assert!(seen.is_empty(), "of no sort: {seen:?}");
    assert!(yes >= 200 && far >= 200);
}

/// The library's place on a refutation that is not accepted.
fn place_of(n: u64, list: &[u8], numbers: &[u32]) -> Option<usize> {
    let result = library::check_refutation(n, list, &bytes::refutation(numbers));
    let place = usize::try_from(result - Answer::No(0).code()).ok();
    assert!(place.is_some() || result == 0, "the result is {result}");
    place
}

/// Other numbers from this index on, or some others among them: those of the
/// right refutation where it has them, steps of the list, or anything.
fn change_from(chance: &mut Chance, broken: &Refuted, right: &Refuted, from: usize) -> Vec<u32> {
    let mut numbers = broken.numbers.clone();
    let often = chance.pick(&[1, 1, 2, 8]);
    let sort = chance.below(4);
    for (at, number) in numbers.iter_mut().enumerate().skip(from) {
        if chance.one_in(often) {
            *number = match (sort, right.numbers.get(at)) {
                (0 | 1, Some(&right)) => right,
                (2, _) => chance.next() as u32,
                _ => chance.below(2 * broken.lines.len() + 2) as u32,
            };
        }
    }
    numbers
}

/// A refutation that is not accepted has its place among its numbers. Whatever
/// is changed behind the place and the head, it is not accepted, and its place
/// stays: it is neither smaller nor greater.
#[test]
fn changes_behind_the_place() {
    let mut chance = Chance::new(91);
    let (mut short, mut in_head, mut in_steps, mut mended, mut moved) = (0, 0, 0, 0, 0);
    for _ in 0..40_000 {
        let right = some_right(&mut chance, 400);
        let broken = right.damaged(&mut chance);
        let (n, list, numbers) = (broken.n, broken.list(), &broken.numbers);
        let Some(place) = place_of(n, &list, numbers) else {
            continue;
        };
        if numbers.len() < 3 {
            assert_eq!(place, 0, "{broken:?}");
            short += 1;
            continue;
        }
        assert!(place < numbers.len(), "{place}, {broken:?}");
        for _ in 0..4 {
            let changed = change_from(&mut chance, &broken, &right, 3.max(place + 1));
            if changed != *numbers {
                let after = place_of(n, &list, &changed);
                assert_eq!(after, Some(place), "{changed:?} for {broken:?}");
                *(if place < 3 {
                    &mut in_head
                } else {
                    &mut in_steps
                }) += 1;
            }
        }
        // At the place itself a change may well matter.
        if place >= 3 {
            let changed = change_from(&mut chance, &broken, &right, place);
            match place_of(n, &list, &changed) {
                None => mended += 1,
                Some(after) => {
                    assert!(after >= 3, "{after} after {place}, {changed:?}, {broken:?}");
                    moved += usize::from(after > place);
                }
            }
        }
    }
    println!("{short} short, {in_head} with the place in the head, {in_steps} behind it;");
    println!("with the place changed too {mended} were mended, {moved} broke further on");
    for times in [short, in_head, in_steps, mended, moved] {
        assert!(times >= 200);
    }
}

/// Another length, the head left as it is: a bad kind and bad counts are named
/// as before, and all else breaks for its length.
#[test]
fn another_length() {
    let mut chance = Chance::new(92);
    let mut seen = [0; 4];
    for _ in 0..20_000 {
        let right = some_right(&mut chance, 400);
        for refuted in [right.damaged(&mut chance), right] {
            let (n, list, numbers) = (refuted.n, refuted.list(), &refuted.numbers);
            let place = place_of(n, &list, numbers);
            if numbers.len() < 3 || place == Some(2) {
                continue;
            }
            let mut other = numbers.clone();
            let length = match chance.below(3) {
                0 => 3 + chance.below(numbers.len() - 2),
                _ => (numbers.len() + chance.between(1, 9) as usize).min(MOST_REFUTATION),
            };
            other.resize_with(length, || chance.below(9) as u32);
            if length != numbers.len() {
                let due = place.map_or(2, |place| place.min(2));
                let after = place_of(n, &list, &other);
                assert_eq!(after, Some(due), "{other:?} for {refuted:?}");
                seen[place.map_or(3, |place| place.min(2))] += 1;
            }
        }
    }
    println!("places 0, 1 and higher, and none: {seen:?}");
    assert!(seen.iter().all(|&times| times >= 200), "{seen:?}");
}
