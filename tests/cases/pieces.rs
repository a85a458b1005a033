//! Refutations that arrive in pieces: however they are cut, and whatever was
//! stopped and resumed between two pieces, the end answers as the check of the
//! whole does; and any state at all gets an answer.

use std::mem::size_of;

use utvpi_tests::bytes;
use utvpi_tests::chance::Chance;
use utvpi_tests::damage::{self, Input};
use utvpi_tests::document::CASE_4;
use utvpi_tests::library::{self, Progress};
use utvpi_tests::limits::NUMBER_BYTES;
use utvpi_tests::limits::{LARGEST_BOUND, MOST_LINES, MOST_REFUTATION, MOST_VARIABLES};
use utvpi_tests::lines::{identified, line, lone, zero, Line, BOUND};
use utvpi_tests::make_cases::some_case;
use utvpi_tests::second;
use utvpi_tests::second::Answer::{self, No, Refused, Yes};
use utvpi_tests::seen::Seen;

/// Many more numbers than a refutation may have.
const TOO_MANY: usize = MOST_REFUTATION + MOST_REFUTATION / 16;

/// The largest sum of so many steps: a line of one variable counts twice.
const LARGEST_SUM: i64 = MOST_REFUTATION as i64 * 2 * LARGEST_BOUND;

/// A state as it is stored while no checker runs: its numbers as they stand in the
/// struct, eight bytes each, but for `good`, which is one byte before seven that
/// hold nothing.
type Stored = [u8; size_of::<Progress>()];

fn store(kept: Progress) -> Stored {
    let Progress {
        read,
        kind,
        p,
        q,
        u,
        here,
        first,
        second,
        good,
        wrong,
    } = kept;
    let counts = [read, kind, p, q, u, here].map(|number| (number as u64).to_le_bytes());
    let sums = [first, second].map(i64::to_le_bytes);
    let end = [u64::from(good), wrong as u64].map(u64::to_le_bytes);
    let bytes = [counts.concat(), sums.concat(), end.concat()].concat();
    bytes.try_into().unwrap()
}

fn restore(stored: &Stored) -> Progress {
    let number = |at: usize| u64::from_le_bytes(stored[8 * at..8 * at + 8].try_into().unwrap());
    let count = |at| number(at) as usize;
    let sum = |at| number(at) as i64;
    Progress {
        read: count(0),
        kind: count(1),
        p: count(2),
        q: count(3),
        u: count(4),
        here: count(5),
        first: sum(6),
        second: sum(7),
        good: stored[8 * 8],
        wrong: count(9),
    }
}

/// A refutation on its way: what is stored after the last piece, and the places
/// where the pieces ended.
struct Reading {
    n: u64,
    list: Vec<i32>,
    numbers: Vec<u32>,
    stored: Stored,
    ends: Vec<usize>,
}

impl Reading {
    fn begin(n: u64, list: &[i32], numbers: &[u32]) -> Reading {
        Reading {
            n,
            list: list.to_vec(),
            numbers: numbers.to_vec(),
            stored: store(library::refutation_begin()),
            ends: Vec::new(),
        }
    }

    /// How many numbers were read.
    fn read(&self) -> usize {
        self.ends.last().copied().unwrap_or(0)
    }

    /// Resumes, takes the numbers up to this place, and stops again. All that is
    /// there for it is the stored state, a new copy of the list, and these
    /// numbers.
    fn take_up_to(&mut self, end: usize) {
        self.list = self.list.clone();
        let mut kept = restore(&self.stored);
        for &number in &self.numbers[self.read()..end] {
            kept = library::refutation_take(kept, &self.list, number);
        }
        self.stored = store(kept);
        self.ends.push(end);
    }

    /// What the end answers now, after making sure that both checks of the whole
    /// answer so on the numbers that were read.
    fn answer(&self) -> Answer {
        let kept = restore(&self.stored);
        let result = library::refutation_end(kept, self.n, &self.list);
        let list = bytes::numbers(&self.list);
        let read = bytes::refutation(&self.numbers[..self.read()]);
        let answer = utvpi_tests::refutation(self.n, &list, &read);
        assert_eq!(
            result,
            answer.code(),
            "{answer:?} on the whole, {kept:?}\nn: {}\nlist: {}\nrefutation: {}\n{} pieces: {:?}",
            self.n,
            bytes::show(&list, NUMBER_BYTES),
            bytes::show(&read, NUMBER_BYTES),
            self.ends.len(),
            &self.ends[..self.ends.len().min(1000)]
        );
        answer
    }
}

/// The reading of an input, without what its bytes have beyond whole numbers.
fn reading(input: &Input) -> Reading {
    let fours = |bytes: &[u8]| -> Vec<[u8; NUMBER_BYTES]> {
        let fours = bytes.chunks_exact(NUMBER_BYTES);
        fours.map(|four| four.try_into().unwrap()).collect()
    };
    let list: Vec<i32> = fours(&input.list)
        .into_iter()
        .map(i32::from_le_bytes)
        .collect();
    let numbers: Vec<u32> = fours(&input.proposed)
        .into_iter()
        .map(u32::from_le_bytes)
        .collect();
    Reading::begin(input.n, &list, &numbers)
}

/// The length of the next piece, where so many numbers are left.
fn some_length(chance: &mut Chance, left: usize) -> usize {
    match chance.below(8) {
        0 => 0,
        1..=4 => left.min(chance.between(1, 3) as usize),
        5 | 6 => chance.below(left + 1),
        _ => left,
    }
}

/// How many accepted refutations were cut in each way.
#[derive(Default, Debug)]
struct Cuts {
    nowhere: usize,
    into_an_empty_piece: usize,
    in_the_head: usize,
    in_a_walk: usize,
    between_the_walks: usize,
    at_the_end: usize,
}

impl Cuts {
    fn count(&mut self, reading: &Reading) {
        let length = reading.numbers.len();
        let turn = 3 + reading.numbers[1] as usize;
        let (_, cuts) = reading.ends.split_last().unwrap();
        let cut = |wanted: &dyn Fn(usize) -> bool| usize::from(cuts.iter().any(|&at| wanted(at)));
        let mut starts = [&[0], cuts].concat().into_iter().zip(&reading.ends);
        let empty = starts.any(|(start, &end)| start == end && end < length);
        self.nowhere += usize::from(cuts.is_empty());
        self.into_an_empty_piece += usize::from(empty);
        self.in_the_head += cut(&|at| 0 < at && at < 3);
        self.in_a_walk += cut(&|at| 3 < at && at < length && at != turn);
        self.between_the_walks += cut(&|at| at == turn && at < length);
        self.at_the_end += cut(&|at| at == length);
    }

    fn all(&self) -> [usize; 6] {
        [
            self.nowhere,
            self.into_an_empty_piece,
            self.in_the_head,
            self.in_a_walk,
            self.between_the_walks,
            self.at_the_end,
        ]
    }
}

/// Right, nearly right and damaged refutations in random pieces. Several are on
/// their way at once and take turns, and at times the end is asked early.
#[test]
fn random_pieces() {
    let mut chance = Chance::new(80);
    let (mut seen, mut cuts, mut early) = (Seen::default(), Cuts::default(), Seen::default());
    for round in 0..20_000 {
        let mut inputs = some_case(&mut chance).inputs(&mut chance);
        if round % 25 == 0 {
            let mut long = inputs[chance.below(inputs.len())].clone();
            let numbers = MOST_REFUTATION + chance.below(4) - 1;
            long.proposed.resize(4 * numbers, 0);
            inputs.push(long);
        }
        let mut under_way: Vec<Reading> = inputs.iter().map(reading).collect();
        while !under_way.is_empty() {
            let turn = chance.below(under_way.len());
            let reading = &mut under_way[turn];
            let left = reading.numbers.len() - reading.read();
            let end = reading.read() + some_length(&mut chance, left);
            reading.take_up_to(end);
            if end == reading.numbers.len() && !chance.one_in(4) {
                let answer = reading.answer();
                seen.count(answer);
                if answer == Yes {
                    cuts.count(reading);
                }
                under_way.swap_remove(turn);
            } else if chance.one_in(4) {
                early.count(reading.answer());
            }
        }
    }
    seen.must_include(&[1, 2, 3, 4, 5, 6, 11, 12, 13], 140_000);
    println!("accepted when cut {cuts:?}, {} asked early", early.inputs);
    assert!(cuts.all().iter().all(|&times| times >= 500), "{cuts:?}");
    assert!(early.inputs >= 50_000 && early.yes >= 500 && early.no >= 10_000);
}

/// The specification's short refutations, cut in every way there is, empty pieces
/// at either end among them. A part of one that comes before its end has no head
/// yet, or too few numbers for its counts, whatever its steps are.
#[test]
fn all_ways_to_cut() {
    let bounds = |d| vec![lone(1, 0, 3), lone(-1, 0, d)];
    let mut raised = CASE_4.to_vec();
    raised[3][BOUND] = 4;
    let cases: [(u64, Vec<Line>, &[u32], Answer); 15] = [
        // Case 3.
        (0, vec![zero(-1)], &[3, 1, 0, 0], Yes),
        (0, vec![zero(0)], &[3, 1, 0, 0], No(3)),
        // Case 4, and case 13 on the same list.
        (3, CASE_4.to_vec(), &[2, 2, 2, 0, 3, 4, 7], Yes),
        (3, CASE_4.to_vec(), &[1, 4, 0, 0, 3, 4, 7], No(6)),
        (3, CASE_4.to_vec(), &[2, 2, 2, 0, 3, 4, 6], No(6)),
        (3, CASE_4[..3].to_vec(), &[2, 2, 2, 0, 3, 4, 7], No(6)),
        (3, raised, &[2, 2, 2, 0, 3, 4, 7], No(6)),
        // Case 7.
        (1, vec![line(1, 0, -1, 0, -1)], &[1, 1, 0, 0], Yes),
        (1, vec![line(1, 0, -1, 0, -1)], &[1, 1, 0, 1], Yes),
        (1, vec![line(1, 0, -1, 0, 0)], &[1, 1, 0, 0], No(3)),
        // Case 8.
        (1, bounds(-4), &[1, 2, 0, 0, 2], Yes),
        (1, bounds(-4), &[2, 1, 1, 0, 2], Yes),
        (1, bounds(-3), &[1, 2, 0, 0, 2], No(4)),
        (1, bounds(-3), &[2, 1, 1, 0, 2], No(4)),
        // A list that is refused, under a refutation that is read all the same.
        (0, vec![line(1, 0, -1, 0, -1)], &[1, 1, 0, 0], Refused(5, 0)),
    ];
    for (n, lines, numbers, due) in cases {
        let due_after = |read: usize| match due {
            Refused(..) => due,
            _ if read == numbers.len() => due,
            _ if read < 3 => No(0),
            _ => No(2),
        };
        for way in 0..2 << (numbers.len() + 1) {
            // The identifiers that the specification has, or others.
            let lines = match way % 2 {
                0 => lines.clone(),
                _ => identified(&lines),
            };
            let way = way / 2;
            let mut reading = Reading::begin(n, &lines.concat(), numbers);
            for place in (0..=numbers.len()).filter(|place| way >> place & 1 == 1) {
                reading.take_up_to(place);
                assert_eq!(reading.answer(), due_after(place));
            }
            reading.take_up_to(numbers.len());
            assert_eq!(reading.answer(), due, "{numbers:?} cut at {way:b}");
        }
    }
}

/// The answer on these numbers, the same where they are cut near the limit, near
/// the ends, or into pieces of equal lengths.
fn answer_if_long(n: u64, list: &[i32], numbers: &[u32]) -> Answer {
    let every = |length: usize| (0..numbers.len()).step_by(length).collect();
    let ways: [Vec<usize>; 5] = [
        vec![],
        vec![MOST_REFUTATION - 1, MOST_REFUTATION, MOST_REFUTATION + 1],
        vec![MOST_REFUTATION, MOST_REFUTATION, TOO_MANY - 1],
        vec![0, 1, 2, 3, 4, numbers.len() - 1, numbers.len()],
        every(9_973),
    ];
    let answers = ways.map(|mut way| {
        way.sort();
        let mut reading = Reading::begin(n, list, numbers);
        for place in way.into_iter().filter(|&place| place <= numbers.len()) {
            reading.take_up_to(place);
            reading.answer();
        }
        reading.take_up_to(numbers.len());
        reading.answer()
    });
    assert!(answers.iter().all(|&answer| answer == answers[0]));
    answers[0]
}

/// Kind 1 with this first count and so many numbers in all, all steps 0.
fn of_length(p: usize, length: usize) -> Vec<u32> {
    [&[1, p as u32, 0], &vec![0; length - 3][..]].concat()
}

/// As many numbers as are let in, one less, one more and many more.
const LENGTHS: [usize; 4] = [
    MOST_REFUTATION - 1,
    MOST_REFUTATION,
    MOST_REFUTATION + 1,
    TOO_MANY,
];

/// The answer that is due on so many numbers, where it is this unless they are
/// too many.
fn unless_long(length: usize, answer: Answer) -> Answer {
    if length > MOST_REFUTATION {
        Refused(11, 0)
    } else {
        answer
    }
}

/// A list whose steps each lead from x to x, or from -x to -x: x - x ≤ d.
fn round(d: i32) -> Vec<i32> {
    identified(&[line(1, 0, -1, 0, d)]).concat()
}

/// One walk as long as is let in, or about so long: refusal 11 comes with the
/// first number too many and stays.
#[test]
fn lengths_of_one_walk() {
    for length in LENGTHS {
        let right = of_length(length - 3, length);
        // The 32 low bits of 65,533 times -983,040 are those of a number above 0.
        for d in [-1_000_000, -983_040, -1, 0] {
            let due = unless_long(length, if d < 0 { Yes } else { No(length - 1) });
            assert_eq!(answer_if_long(1, &round(d), &right), due, "{d}");
        }
        let list = round(-1);
        // Counts that are right where as many numbers are read as are let in.
        let most = of_length(MOST_REFUTATION - 3, length);
        let due = unless_long(
            length,
            if length == MOST_REFUTATION {
                Yes
            } else {
                No(2)
            },
        );
        assert_eq!(answer_if_long(1, &list, &most), due, "{length}");
        // A step that is none, at either end and in the middle.
        for place in [3, length / 2, length - 1] {
            let mut wrong = right.clone();
            wrong[place] = 2;
            let due = unless_long(length, No(place));
            assert_eq!(answer_if_long(1, &list, &wrong), due, "{place}");
        }
    }
}

/// The same from x to -x and back all the time, as one walk and as two.
#[test]
fn lengths_of_two_walks() {
    // 2x ≤ 0 and -2x ≤ -1; and x ≤ d and -x ≤ d with the largest sums there are.
    let halves = [line(1, 0, 1, 0, 0), line(-1, 0, -1, 0, -1)];
    let largest = [lone(1, 0, -1_000_000), lone(-1, 0, -1_000_000)];
    for length in LENGTHS {
        let steps = length - 3;
        let mut numbers = of_length(steps, length);
        for (at, step) in numbers[3..].iter_mut().enumerate() {
            *step = 2 * (at as u32 % 2);
        }
        for list in [halves, largest].map(|lines| identified(&lines).concat()) {
            numbers[..3].copy_from_slice(&[1, steps as u32, 0]);
            let end = if steps % 2 == 0 { Yes } else { No(length - 1) };
            let due = unless_long(length, end);
            assert_eq!(answer_if_long(1, &list, &numbers), due, "{length}");
            for p in [1, MOST_REFUTATION / 2 - 1, steps - 2, steps - 1] {
                numbers[..3].copy_from_slice(&[2, p as u32, (steps - p) as u32]);
                let due = unless_long(length, if p % 2 == 1 { end } else { No(2 + p) });
                assert_eq!(answer_if_long(1, &list, &numbers), due, "{length}, {p}");
            }
        }
    }
}

/// A list that is refused is refused first, however long the refutation is, and
/// also where the steps of the refutation are those of a line that is valid.
#[test]
fn list_refusals_go_first() {
    for (n, list, (number, place)) in damage::refused_lists() {
        let after_a_line = [&round(-1)[..], &list].concat();
        let shift = usize::from(number >= 4);
        for length in [4, MOST_REFUTATION, MOST_REFUTATION + 1, TOO_MANY] {
            let numbers = of_length(length - 3, length);
            let alone = answer_if_long(n, &list, &numbers);
            assert_eq!(alone, Refused(number, place), "{list:?}");
            let after = answer_if_long(n, &after_a_line, &numbers);
            assert_eq!(after, Refused(number, place + shift), "{list:?}");
        }
    }
}

/// A number that a state might hold and no refutation leads to, or a usual one.
fn wild_count(chance: &mut Chance) -> usize {
    match chance.below(4) {
        0 => chance.next() as usize,
        1 => chance.below(8),
        _ => chance.pick(&[
            2 * MOST_VARIABLES - 1,
            2 * MOST_VARIABLES,
            MOST_REFUTATION - 3,
            MOST_REFUTATION - 1,
            MOST_REFUTATION,
            MOST_REFUTATION + 1,
            u32::MAX as usize,
            1 << 32,
            1 << 63,
            usize::MAX - 2,
            usize::MAX,
        ]),
    }
}

/// The same for a sum, and about the largest of as many steps as are let in.
fn wild_sum(chance: &mut Chance) -> i64 {
    match chance.below(4) {
        0 => chance.next() as i64,
        1 => chance.between(-4, 4),
        _ => chance.pick(&[
            i64::MIN,
            i64::MIN + 1,
            -LARGEST_SUM - 1,
            -LARGEST_SUM,
            LARGEST_SUM,
            LARGEST_SUM + 1,
            i64::MAX - 1,
            i64::MAX,
        ]),
    }
}

/// Numbers beside 0 and 1, which every call takes for 0.
const NEITHER: [u8; 6] = [2, 3, 127, 128, 254, u8::MAX];

/// The state with few of its numbers changed, or many, or all. At times the
/// counts fit again, the walk is closed and nothing was wrong.
fn made_wild(chance: &mut Chance, mut kept: Progress) -> Progress {
    let often = chance.pick(&[1, 2, 8, 30]);
    let counts = [
        &mut kept.read,
        &mut kept.kind,
        &mut kept.p,
        &mut kept.q,
        &mut kept.u,
        &mut kept.here,
        &mut kept.wrong,
    ];
    for count in counts {
        if chance.one_in(often) {
            *count = wild_count(chance);
        }
    }
    for sum in [&mut kept.first, &mut kept.second] {
        if chance.one_in(often) {
            *sum = wild_sum(chance);
        }
    }
    if chance.one_in(often) {
        kept.good = match chance.below(4) {
            0 => chance.next() as u8,
            1 => chance.pick(&NEITHER),
            _ => chance.below(2) as u8,
        };
    }
    if chance.one_in(3) {
        kept.kind = chance.pick(&[1, 2, 3]);
        if chance.one_in(2) {
            (kept.p, kept.q) = (chance.below(MOST_REFUTATION - 2), 0);
        }
        kept.read = kept.p.wrapping_add(kept.q).wrapping_add(3);
        kept.here = kept.u;
        kept.good = 1;
        kept.wrong = chance.pick(&[0, kept.wrong, kept.read]);
    }
    kept
}

/// Whether nothing was wrong in this state.
fn is_good(kept: &Progress) -> bool {
    kept.good == 1
}

/// The same state, with 0 for a number in `good` that is neither 0 nor 1.
fn read_as(kept: Progress) -> Progress {
    Progress {
        good: u8::from(is_good(&kept)),
        ..kept
    }
}

/// Takes the numbers. In any state one number more is counted, up to one more
/// than are let in. What was wrong stays wrong, and the place of it stays too: it
/// changes only as something turns wrong, and then to the number just taken. What
/// is neither 0 nor 1 in `good` is as good as 0, and none such is returned.
fn take_all(mut kept: Progress, list: &[i32], numbers: &[u32]) -> Progress {
    for &number in numbers {
        let next = library::refutation_take(kept, list, number);
        let plain = library::refutation_take(read_as(kept), list, number);
        assert_eq!(next, plain, "{kept:?}, {number}");
        assert!(next.good <= 1, "{kept:?}, {number}, {next:?}");
        let due = kept.read.min(MOST_REFUTATION) + 1;
        assert_eq!(next.read, due, "{kept:?}, {number}");
        let (was_good, good) = (is_good(&kept), is_good(&next));
        assert!(was_good || !good, "{kept:?}, {number}");
        let turned = was_good && !good && next.wrong == kept.read;
        let same = next.wrong == kept.wrong;
        assert!(same || turned, "{kept:?}, {number}, {next:?}");
        // After the head nothing turns wrong without its place.
        let placed = turned || was_good == good || kept.read < 3;
        assert!(placed, "{kept:?}, {number}, {next:?}");
        kept = next;
    }
    kept
}

/// What the end answers to any state: the list's refusal as the second
/// implementation gives it, then 11 where too many numbers were read, then yes
/// or no. A yes has all its numbers and nothing wrong. A no's place is not beyond
/// what was read; past the head it has all its numbers, and its place is the one
/// that is kept, or the last number's where nothing was wrong before the end.
fn answer_to(kept: Progress, n: u64, list: &[i32]) -> Answer {
    let result = library::refutation_end(kept, n, list);
    let plain = library::refutation_end(read_as(kept), n, list);
    assert_eq!(result, plain, "{kept:?}, n {n}, {list:?}");
    let answer = match second::check_refutation(n, &bytes::numbers(list), &[]) {
        Refused(number, place) => Refused(number, place),
        _ if kept.read > MOST_REFUTATION => Refused(11, 0),
        _ if result == 0 => Yes,
        _ => No(usize::try_from(result - No(0).code()).unwrap_or(usize::MAX)),
    };
    let shown = || format!("{kept:?}, n {n}, {list:?}: {result}");
    assert_eq!(result, answer.code(), "{}", shown());
    let steps = kept.p.checked_add(kept.q);
    let whole = steps.and_then(|steps| steps.checked_add(3)) == Some(kept.read);
    match answer {
        Yes => assert!(whole && is_good(&kept), "{}", shown()),
        No(0..=2) => assert!(kept.read <= MOST_REFUTATION, "{}", shown()),
        No(place) => {
            let last = kept.read.wrapping_sub(1);
            let due = if is_good(&kept) { last } else { kept.wrong };
            assert!(whole && place == due && place <= kept.read, "{}", shown());
        }
        Refused(..) => {}
    }
    answer
}

/// States with numbers that no refutation leads to, on lists of which many are
/// damaged: each call returns, each answer is one of those that there are, and a
/// state in which something was wrong is never accepted. While nothing is wrong,
/// the place that is kept means nothing, as long as it is not beyond what was
/// read.
#[test]
fn any_state() {
    let mut chance = Chance::new(81);
    let mut seen = Seen::default();
    let (mut changed, mut changed_yes) = (0, 0);
    let (mut at_kept_place, mut at_last_number) = (0, 0);
    for _ in 0..200_000 {
        let case = some_case(&mut chance);
        let (mut n, mut list) = (case.n, case.lines.concat());
        let numbers = case.proposal.numbers();
        let left = if chance.one_in(4) {
            chance.below(numbers.len())
        } else {
            0
        };
        let (read, left) = numbers.split_at(numbers.len() - left);
        let state = take_all(library::refutation_begin(), &list, read);
        let wild = made_wild(&mut chance, state);
        changed += usize::from(wild != state);
        if chance.one_in(3) {
            (n, list) = damage::damaged_list(&mut chance, n, &list);
        }
        let mut more = left.to_vec();
        // The first step number that no list has.
        let beyond = 2 * MOST_LINES as u32;
        for _ in 0..chance.pick(&[0, 0, 0, 0, 1, 4]) {
            more.push(match chance.below(3) {
                0 => chance.next() as u32,
                1 => chance.pick(&[beyond - 2, beyond - 1, beyond, 1 << 31, u32::MAX]),
                _ => chance.below(2 * case.lines.len() + 2) as u32,
            });
        }
        let end = take_all(wild, &list, &more);
        let answer = answer_to(end, n, &list);
        seen.count(answer);
        at_last_number += usize::from(is_good(&end) && matches!(answer, No(3..)));
        changed_yes += usize::from(wild != state && answer == Yes);

        // The same after something was wrong.
        let wrong = Progress {
            good: chance.pick(&[0, 0, 2, 128, u8::MAX]),
            ..wild
        };
        let after = answer_to(take_all(wrong, &list, &more), n, &list);
        assert_ne!(after, Yes, "{wrong:?}, n {n}, {list:?}, {more:?}");
        at_kept_place += usize::from(matches!(after, No(3..)));

        // The same with nothing wrong, and one place or another.
        let [one, other] = [0, chance.below(wild.read.min(MOST_REFUTATION) + 1)].map(|wrong| {
            let right = Progress {
                good: 1,
                wrong,
                ..wild
            };
            answer_to(take_all(right, &list, &more), n, &list)
        });
        assert_eq!(one, other, "{wild:?}, n {n}, {list:?}, {more:?}");
    }
    println!("{changed} states were changed, of which {changed_yes} were accepted");
    println!("{at_kept_place} broke at the place kept, {at_last_number} at the last number");
    assert!(at_kept_place >= 1_000 && at_last_number >= 1_000);
    seen.must_include(&[1, 2, 3, 4, 5, 6, 11, 12, 13], 200_000);
    assert!(changed >= 100_000 && changed_yes >= 1_000);
}

/// Case 4's refutation, with another number in `good` after any of its numbers: it
/// turns from accepted to a no, at the place kept, as it does with 0.
#[test]
fn any_number_for_good() {
    assert_eq!(size_of::<Progress>(), 80, "ten places of eight bytes");
    let list = CASE_4.concat();
    let numbers = [2, 2, 2, 0, 3, 4, 7];
    for cut in 0..=numbers.len() {
        let (read, left) = numbers.split_at(cut);
        let kept = take_all(library::refutation_begin(), &list, read);
        assert_eq!(kept.good, 1);
        let ends = |good: u8| {
            let end = take_all(Progress { good, ..kept }, &list, left);
            answer_to(end, 3, &list)
        };
        assert_eq!(ends(1), Yes);
        assert_eq!(ends(0), No(0));
        for good in NEITHER {
            assert_eq!(ends(good), No(0), "{good} after {cut}");
        }
    }
}

/// Any eighty bytes at all for the state: each call returns, and a state with
/// larger numbers than it can have left breaks at once. What is returned is taken
/// on again, and goes on as the same state does with 0 in `good`.
#[test]
fn any_bytes() {
    let mut chance = Chance::new(82);
    let list = identified(&CASE_4).concat();
    let (mut broken, mut too_long) = (0, 0);
    for round in 0..200_000 {
        let mut bytes: Stored = std::array::from_fn(|_| chance.next() as u8);
        // At times few bytes beside zeros, or as many numbers read as may be.
        if round % 2 == 0 {
            let keep = chance.below(12);
            for byte in bytes.iter_mut().filter(|_| chance.below(12) >= keep) {
                *byte = 0;
            }
        }
        if round % 4 < 2 {
            let most = MOST_REFUTATION as u64;
            bytes[..8].copy_from_slice(&(chance.next() % (most + 2)).to_le_bytes());
        }
        let kept = restore(&bytes);
        assert_eq!(restore(&store(kept)), kept);
        let most = 2 * LARGEST_BOUND as u128 * kept.read as u128;
        let is_sum = |sum: i64| u128::from(sum.unsigned_abs()) <= most;
        let counts = [kept.p, kept.q];
        let small = is_sum(kept.first)
            && is_sum(kept.second)
            && counts.iter().all(|&count| count <= u32::MAX as usize)
            && kept.wrong <= kept.read;
        match answer_to(kept, 3, &list) {
            Refused(11, 0) => too_long += 1,
            answer if !small => {
                assert_eq!(answer, No(0), "{kept:?}");
                broken += 1;
            }
            _ => {}
        }
        let more: [u32; 4] = std::array::from_fn(|_| chance.below(9) as u32);
        answer_to(take_all(kept, &list, &more), 3, &list);
    }
    println!("{broken} broke at once, {too_long} were too long");
    assert!(broken >= 20_000 && too_long >= 20_000);
}
