//! The shorter of two refutations, each compared with the second implementation: right
//! ones and nearly right ones, with rubbish behind them, cut and damaged, with counts far
//! beyond what is there, against lists that are refused, and as long as may be.

use utvpi_tests::chance::Chance;
use utvpi_tests::damage::{damaged_list, fault_sets, faulty_line, first_fault, refused_lists};
use utvpi_tests::decision::{decide, Verdict};
use utvpi_tests::document::CASE_4;
use utvpi_tests::library;
use utvpi_tests::limits::{LINE_NUMBERS, MOST_REFUTATION};
use utvpi_tests::limits::{SHORTER_FIRST, SHORTER_NEITHER, SHORTER_SECOND};
use utvpi_tests::lines::{identified, line, lone, zero, Line};
use utvpi_tests::make::{self, Proposal};
use utvpi_tests::shorter::{accepted, shorter, Shorter};

/// Each is the number that C callers may write.
#[test]
fn which() {
    let all = [SHORTER_NEITHER, SHORTER_FIRST, SHORTER_SECOND];
    assert_eq!(all, [0, 1, 2]);
}

/// Lines with refutations of 4, 5 and 7 numbers: two false lines, x <= 3 and x >= 4, and
/// case 4 of the specification behind them.
fn several() -> Vec<Line> {
    let mut lines = vec![zero(-1), zero(-2), lone(1, 0, 3), lone(-1, 0, -4)];
    lines.extend(CASE_4);
    identified(&lines)
}

/// So many of them name no variable but the first.
const FEW: usize = 4;

const FALSE: [u32; 4] = [3, 1, 0, 0];
const ALSO_FALSE: [u32; 4] = [3, 1, 0, 2];
const CLOSED: [u32; 5] = [1, 2, 0, 4, 6];
const HALVES: [u32; 7] = [2, 2, 2, 8, 11, 12, 15];

/// What is due is written out here.
#[test]
fn known_pairs() {
    let mut chance = Chance::new(200);
    let list = several().concat();
    let behind = [&FALSE[..], &[7, 7, 7]].concat();
    let wrong = [3, 1, 0, 1];
    let cases: [(&[u32], &[u32], Shorter); 14] = [
        (&FALSE, &CLOSED, Shorter::First(4)),
        (&CLOSED, &FALSE, Shorter::Second(4)),
        (&HALVES, &CLOSED, Shorter::Second(5)),
        (&CLOSED, &HALVES, Shorter::First(5)),
        // A tie goes to the first, also where both are the same.
        (&FALSE, &ALSO_FALSE, Shorter::First(4)),
        (&ALSO_FALSE, &FALSE, Shorter::First(4)),
        (&HALVES, &HALVES, Shorter::First(7)),
        // A shorter one that is not accepted does not count.
        (&HALVES, &wrong, Shorter::First(7)),
        (&wrong, &HALVES, Shorter::Second(7)),
        (&[], &HALVES, Shorter::Second(7)),
        (&HALVES[..6], &[1, 0, 0], Shorter::Neither),
        (&[], &[], Shorter::Neither),
        // What lies behind is no part of it, and makes it no longer.
        (&behind, &CLOSED, Shorter::First(4)),
        (&behind, &ALSO_FALSE, Shorter::First(4)),
    ];
    for (first, second, due) in cases {
        assert_eq!(shorter(&mut chance, 3, &list, [first, second]), due);
    }
}

/// The first numbers of one that is accepted are not: each of them, beside another that is
/// longer, and beside none.
#[test]
fn every_cut() {
    let mut chance = Chance::new(201);
    let list = several().concat();
    for whole in [&FALSE[..], &CLOSED, &HALVES] {
        for cut in 0..whole.len() {
            let of = |chance: &mut Chance, lent| shorter(chance, 3, &list, lent);
            let other = [&CLOSED[..], &HALVES].concat();
            let both = [&whole[..cut], &other];
            assert_eq!(of(&mut chance, both), Shorter::Second(CLOSED.len()));
            let both = [&other, &whole[..cut]];
            assert_eq!(of(&mut chance, both), Shorter::First(CLOSED.len()));
            let both = [&whole[..cut], &[]];
            assert_eq!(of(&mut chance, both), Shorter::Neither);
        }
    }
}

/// Counts whose sum is far beyond what is there, many of which would fit if its high bits
/// were dropped: nothing beyond is read, and none is accepted.
#[test]
fn huge_counts() {
    let mut chance = Chance::new(202);
    // x - x <= -1: walks of any number of steps are low enough.
    let list = line(1, 0, -1, 0, -1);
    let largest = [1 << 16, 1 << 31, u32::MAX - 1, u32::MAX];
    let mut tried = 0;
    for room in [3, 4, 5, 8, 40] {
        for kind in 1..=3 {
            for p in (0..9).chain(largest) {
                let fits = (room as u32 - 3).wrapping_sub(p);
                for q in (0..9).chain(largest).chain([fits]) {
                    let mut huge = vec![0; room];
                    huge[..3].copy_from_slice(&[kind, p, q]);
                    let due = accepted(1, &list, &huge);
                    assert!(due.is_none() || u64::from(p) + u64::from(q) <= room as u64 - 3);
                    tried += usize::from(due.is_none());
                    let long = [&[1, 30, 0][..], &[0; 30]].concat();
                    shorter(&mut chance, 1, &list, [&huge, &long]);
                    shorter(&mut chance, 1, &list, [&long, &huge]);
                }
            }
        }
    }
    println!("{tried} that are not accepted");
    assert!(tried > 1_000);
}

/// So many steps of x - x <= -1.
fn rounds(steps: usize) -> Vec<u32> {
    [&[1, steps as u32, 0][..], &vec![0; steps]].concat()
}

/// As many numbers as a refutation may have, and one more; and what is lent may be longer.
#[test]
fn the_longest() {
    let mut chance = Chance::new(203);
    let list = line(1, 0, -1, 0, -1);
    let most = MOST_REFUTATION - 3;
    let (longest, longer) = (rounds(most), rounds(most + 1));
    let mut check = |first: &[u32], second: &[u32], due| {
        assert_eq!(shorter(&mut chance, 1, &list, [first, second]), due);
    };
    check(&longest, &longer, Shorter::First(MOST_REFUTATION));
    check(&longer, &longest, Shorter::Second(MOST_REFUTATION));
    check(&longer, &longer, Shorter::Neither);
    check(&longest, &longest, Shorter::First(MOST_REFUTATION));
    check(
        &longest,
        &rounds(most - 1),
        Shorter::Second(MOST_REFUTATION - 1),
    );
    let behind = |part: &[u32]| [part, &longer].concat();
    check(&behind(&longest), &longer, Shorter::First(MOST_REFUTATION));
    check(&behind(&longest), &behind(&rounds(1)), Shorter::Second(4));
}

/// The refutation after a line was put in at this place.
fn moved(numbers: &[u32], at: usize) -> Vec<u32> {
    let behind = |step| step + 2 * u32::from(step as usize / 2 >= at);
    let (head, steps) = numbers.split_at(3);
    let steps = steps.iter().map(|&step| behind(step));
    head.iter().copied().chain(steps).collect()
}

/// A list that is refused, with lines that would be refuted: every refusal, at each place.
#[test]
fn refused() {
    let mut chance = Chance::new(204);
    for (n, list, _) in refused_lists() {
        let due = shorter(&mut chance, n, &list, [&FALSE, &ALSO_FALSE]);
        assert_eq!(due, Shorter::Neither);
    }
    // Lines of one variable: a faulty line is one of two.
    let some = &several()[..FEW];
    for faults in fault_sets() {
        for at in 0..=some.len() {
            let mut lines = some.to_vec();
            lines.insert(at, faulty_line(&mut chance, faults));
            let both = [&CLOSED[..], &ALSO_FALSE].map(|numbers| moved(numbers, at));
            let due = shorter(&mut chance, 2, &lines.concat(), [&both[0], &both[1]]);
            assert_eq!(due == Shorter::Neither, first_fault(faults).is_some());
        }
    }
    let list = several().concat();
    for length in 0..list.len() {
        let due = shorter(&mut chance, 3, &list[..length], [&FALSE, &HALVES]);
        assert_eq!(
            due != Shorter::Neither,
            length > 0 && length % LINE_NUMBERS == 0
        );
    }
}

/// Both may be lent in one piece, one within the other or the same.
#[test]
fn overlapping() {
    let list = several().concat();
    let numbers = [&HALVES[..], &FALSE, &CLOSED].concat();
    let before = numbers.clone();
    let part = |first: &[u32], second: &[u32]| {
        let part = library::shorter(3, &list, first, second);
        (part.which as usize, part.length)
    };
    assert_eq!(part(&numbers, &numbers), (SHORTER_FIRST, 7));
    assert_eq!(part(&numbers, &numbers[7..]), (SHORTER_SECOND, 4));
    assert_eq!(part(&numbers[7..], &numbers), (SHORTER_FIRST, 4));
    assert_eq!(part(&numbers[11..], &numbers[..11]), (SHORTER_FIRST, 5));
    assert_eq!(part(&numbers[1..], &numbers[2..]), (SHORTER_NEITHER, 0));
    assert_eq!(numbers, before);
}

/// A refutation of this list, n at least 1, with the lines for it behind those that are
/// there: right, or just not right.
fn proposed(chance: &mut Chance, n: u64, lines: &mut Vec<Line>) -> Proposal {
    let (more, mut proposal) = if chance.one_in(5) {
        make::near_false_line(chance, n)
    } else {
        make::near_refutation(chance, n)
    };
    let from = 2 * lines.len() as u32;
    lines.extend(more);
    for step in proposal.first.iter_mut().chain(&mut proposal.second) {
        *step += from;
    }
    proposal
}

/// The same walk begun at another step, or gone several times; or its numbers with another
/// head, or one of them changed.
fn varied(chance: &mut Chance, mut proposal: Proposal) -> Vec<u32> {
    let steps = proposal.first.len();
    match chance.below(8) {
        0 if proposal.kind == 1 => proposal.first.rotate_left(chance.below(steps)),
        1 if proposal.kind == 1 => proposal.first = proposal.first.repeat(2),
        2 => return make::miscount(chance, &proposal),
        3 => {
            let mut numbers = proposal.numbers();
            let at = chance.below(numbers.len());
            numbers[at] = chance.pick(&[0, 1, 2, numbers[at] ^ 1, u32::MAX]);
            return numbers;
        }
        _ => {}
    }
    proposal.numbers()
}

/// With rubbish behind it or its end cut off, or neither.
fn lent(chance: &mut Chance, mut numbers: Vec<u32>) -> Vec<u32> {
    match chance.below(6) {
        0 => numbers.truncate(chance.below(numbers.len())),
        1 | 2 => {
            let count = chance.below(12);
            numbers.extend((0..count).map(|_| chance.pick(&[0, 1, 3, 1 << 31, u32::MAX])));
        }
        _ => {}
    }
    numbers
}

/// How often each thing was seen.
#[derive(Default, Debug)]
struct Seen {
    neither: usize,
    first: usize,
    second: usize,
    both: usize,
    ties: usize,
    shorter_but_wrong: usize,
}

impl Seen {
    fn count(&mut self, n: u64, list: &[i32], lent: [&[u32]; 2], answer: Shorter) {
        match answer {
            Shorter::Neither => self.neither += 1,
            Shorter::First(_) => self.first += 1,
            Shorter::Second(_) => self.second += 1,
        }
        match lent.map(|lent| accepted(n, list, lent)) {
            [Some(one), Some(two)] => {
                self.both += 1;
                self.ties += usize::from(one == two);
            }
            [Some(one), None] => {
                self.shorter_but_wrong += usize::from(lent[1].len() < one);
            }
            [None, Some(two)] => {
                self.shorter_but_wrong += usize::from(lent[0].len() < two);
            }
            [None, None] => {}
        }
    }
}

/// Two refutations with lines of their own, or two forms of one; at times the list is
/// damaged. Each pair is asked for both ways round.
#[test]
fn random_pairs() {
    let mut chance = Chance::new(205);
    let mut seen = Seen::default();
    for _ in 0..60_000 {
        let n = make::variables(&mut chance).max(1);
        let mut lines = Vec::new();
        let one = proposed(&mut chance, n, &mut lines);
        let two = if chance.one_in(3) {
            one.clone()
        } else {
            proposed(&mut chance, n, &mut lines)
        };
        let [one, two] = [one, two].map(|proposal| {
            let numbers = varied(&mut chance, proposal);
            lent(&mut chance, numbers)
        });
        let (n, list) = if chance.one_in(6) {
            damaged_list(&mut chance, n, &lines.concat())
        } else {
            (n, lines.concat())
        };
        for both in [[&one[..], &two], [&two, &one]] {
            let answer = shorter(&mut chance, n, &list, both);
            seen.count(n, &list, both, answer);
        }
    }
    println!("{seen:?}");
    assert!(seen.neither > 20_000 && seen.first > 20_000 && seen.second > 20_000);
    assert!(seen.both > 10_000 && seen.ties > 2_000 && seen.shorter_but_wrong > 2_000);
}

/// The refutation that deciding leaves, in its buffer, beside one that was proposed.
#[test]
fn beside_deciding() {
    let mut chance = Chance::new(206);
    let mut seen = Seen::default();
    for _ in 0..5_000 {
        let n = chance.between(1, 6) as u64;
        let mut lines = Vec::new();
        let proposal = proposed(&mut chance, n, &mut lines);
        let decision = decide(&mut chance, n, &lines);
        if !matches!(decision.verdict, Verdict::No(_)) {
            continue;
        }
        let own = lent(&mut chance, decision.refutation);
        let other = varied(&mut chance, proposal);
        let list = lines.concat();
        for both in [[&own[..], &other], [&other, &own]] {
            let answer = shorter(&mut chance, n, &list, both);
            seen.count(n, &list, both, answer);
        }
    }
    println!("{seen:?}");
    assert!(seen.both > 2_000 && seen.ties > 500);
}

/// Numbers with no thought behind them.
#[test]
fn noise() {
    let mut chance = Chance::new(207);
    let list = several().concat();
    let mut seen = Seen::default();
    for _ in 0..100_000 {
        let [one, two] = [(); 2].map(|()| {
            let count = chance.below(9);
            let small = [4, 3, 2];
            let number = |at: usize| chance.below(*small.get(at).unwrap_or(&16)) as u32;
            (0..count).map(number).collect::<Vec<u32>>()
        });
        let answer = shorter(&mut chance, 3, &list, [&one, &two]);
        seen.count(3, &list, [&one, &two], answer);
    }
    println!("{seen:?}");
    assert!(seen.first > 100 && seen.second > 100);
}
