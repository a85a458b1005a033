//! Lists of the most variables and the most lines: decided and compared with
//! another method, written to a file and read back, their refutations taken in
//! pieces; and how much stack every call on one of them takes, that for differences
//! too, those of a session, those on trees, and those for seconds.

use std::hint::black_box;

use utvpi_tests::buffers::{needed, Buffers};
use utvpi_tests::bytes;
use utvpi_tests::chance::Chance;
use utvpi_tests::closure;
use utvpi_tests::decision::{decide, own_groups, Decision, Reason, Solved, Verdict};
use utvpi_tests::decision::{MINUS, PLUS};
use utvpi_tests::differences::{self, NOT_DIFFERENCE};
use utvpi_tests::document::largest;
use utvpi_tests::files::{read, write};
use utvpi_tests::library;
use utvpi_tests::limits::{rooms, SHORTER_NEITHER};
use utvpi_tests::limits::{LARGEST_BOUND, LAST_VARIABLE, LINE_BYTES, MOST_FILE, MOST_LINES};
use utvpi_tests::limits::{MOST_N, MOST_NUMBERS, MOST_RECORDERS, MOST_STACK, MOST_VARIABLES, NO};
use utvpi_tests::lines::{identify, line, lone, zero, Line};
use utvpi_tests::make_lists::Shape;
use utvpi_tests::records::{self, List};
use utvpi_tests::second::Answer;
use utvpi_tests::seconds::{Table, FORMS, LARGEST_COUNT};
use utvpi_tests::sessions::Session;
use utvpi_tests::stack;
use utvpi_tests::trees::{deepest, Tree};

/// The decision on a list of the most variables and lines, which both checkers
/// have accepted, after making sure that another method answers the same, that
/// the list comes back from its file, and that its refutation is accepted in
/// pieces.
fn decided(chance: &mut Chance, lines: &[Line]) -> Decision {
    assert_eq!(lines.len(), MOST_LINES);
    let numbers = lines.concat();
    let file = write(chance, MOST_N, &numbers, MOST_FILE).unwrap();
    assert_eq!(file.len(), records::size(&numbers));
    let list = read(chance, &file, MOST_NUMBERS).unwrap();
    let decision = decide(chance, MOST_N, lines);
    assert_eq!(decision.verdict, closure::verdict(MOST_VARIABLES, lines));
    if let Verdict::No(_) = decision.verdict {
        let take = |kept, &number: &u32| library::refutation_take(kept, &list.numbers, number);
        let (first, last) = decision.refutation.split_at(decision.refutation.len() - 1);
        let kept = first.iter().fold(library::refutation_begin(), take);
        // Cut by its last step, it has fewer numbers than its counts ask for.
        assert_eq!(
            library::refutation_end(kept, MOST_N, &list.numbers),
            Answer::No(2).code()
        );
        let kept = last.iter().fold(kept, take);
        assert_eq!(library::refutation_end(kept, MOST_N, &list.numbers), 0);
    }
    let n = MOST_N;
    assert_eq!(list, List { n, numbers });
    decision
}

/// Of each variable, 1 where its clock counts up and -1 where it counts down: two
/// and two in turn, so that neighbours have all four pairs of signs.
fn direction(x: i32) -> i32 {
    [1, 1, -1, -1][x as usize % 4]
}

/// These lines and others that the values ±n to n meet with much to spare, up to
/// the most, with identifiers and in some order.
fn filled(chance: &mut Chance, mut lines: Vec<Line>) -> Vec<Line> {
    while lines.len() < MOST_LINES {
        let mut term = || [chance.pick(&[-1, 1]), chance.below(MOST_VARIABLES) as i32];
        let [[a, x], [b, y]] = [term(), term()];
        let bound = chance.between(LARGEST_BOUND / 2, LARGEST_BOUND) as i32;
        lines.push(line(a, x, b, y, bound));
    }
    identify(chance, &mut lines);
    let order = chance.order(lines.len());
    order.iter().map(|&at| lines[at]).collect()
}

/// A chain through all variables, by the clocks: the first is at least 1, each is
/// at least one above the one before it, and the last is at most this.
fn chain(chance: &mut Chance, most: i32) -> Vec<Line> {
    let mut lines = vec![lone(-direction(0), 0, -1)];
    for x in 1..=LAST_VARIABLE {
        lines.push(line(direction(x - 1), x - 1, -direction(x), x, -1));
    }
    lines.push(lone(direction(LAST_VARIABLE), LAST_VARIABLE, most));
    filled(chance, lines)
}

#[test]
fn a_chain_that_holds() {
    let mut chance = Chance::new(110);
    let lines = chain(&mut chance, LAST_VARIABLE + 1);
    let values = (0..=LAST_VARIABLE).map(|x| i64::from(direction(x) * (x + 1)));
    let due = Solved {
        model: values.clone().collect(),
        bounds: values.flat_map(|value| [value, value]).collect(),
        groups: own_groups(MOST_VARIABLES),
    };
    assert_eq!(decided(&mut chance, &lines).verdict, Verdict::Yes(due));
}

#[test]
fn a_chain_that_does_not() {
    let mut chance = Chance::new(111);
    let lines = chain(&mut chance, LAST_VARIABLE);
    let decision = decided(&mut chance, &lines);
    assert_eq!(decision.verdict, Verdict::No(Reason::ClosedWalk));
    let points = 2 * MOST_VARIABLES as u32;
    assert_eq!(decision.refutation[1], points, "there is no shorter one");
}

/// A walk is not gone twice: of two rules that clash, each stands once.
#[test]
fn a_clash_of_two() {
    let mut chance = Chance::new(115);
    let lines = filled(
        &mut chance,
        vec![line(1, 0, -1, 1, -1), line(1, 1, -1, 0, 0)],
    );
    let decision = decided(&mut chance, &lines);
    assert_eq!(decision.verdict, Verdict::No(Reason::ClosedWalk));
    assert_eq!(decision.refutation[1], 2);
}

/// All variables equal by their clocks, and twice the last one at most 7 and at least
/// this.
fn level(chance: &mut Chance, least: i32) -> Vec<Line> {
    let last = LAST_VARIABLE;
    let mut lines = vec![line(1, last, 1, last, 7), line(-1, last, -1, last, -least)];
    for x in 1..=last {
        let (a, b) = (direction(x - 1), direction(x));
        lines.push(line(a, x - 1, -b, x, 0));
        lines.push(line(-a, x - 1, b, x, 0));
    }
    filled(chance, lines)
}

/// All are three, or minus three: one group, whose signs are those of the clocks.
#[test]
fn all_equal_or_mirrored() {
    let mut chance = Chance::new(116);
    let lines = level(&mut chance, 5);
    let values = (0..=LAST_VARIABLE).map(|x| i64::from(-3 * direction(x)));
    let sign = |x: i32| if direction(x) == 1 { PLUS } else { MINUS };
    let due = Solved {
        model: values.clone().collect(),
        bounds: values.flat_map(|value| [value, value]).collect(),
        groups: (0..=LAST_VARIABLE).map(|x| [0, sign(x)]).collect(),
    };
    assert_eq!(decided(&mut chance, &lines).verdict, Verdict::Yes(due));
}

/// The last one is three and a half.
#[test]
fn only_halves_would_do() {
    let mut chance = Chance::new(112);
    let lines = level(&mut chance, 7);
    let verdict = decided(&mut chance, &lines).verdict;
    assert_eq!(verdict, Verdict::No(Reason::HalvedWalks));
}

/// Sums and differences that some values meet, many with nothing to spare; and the
/// same with one line more, that a variable is above its greatest value.
#[test]
fn random_lists() {
    for seed in 120..124 {
        let mut chance = Chance::new(seed);
        let shape = Shape {
            n: MOST_N,
            count: MOST_LINES - 1,
            largest: LARGEST_BOUND,
        };
        let mut lines = shape.met(&mut chance, 1);
        lines.push(zero(0));
        identify(&mut chance, &mut lines);
        let Verdict::Yes(solved) = decided(&mut chance, &lines).verdict else {
            panic!("values meet the list, but it is a no");
        };
        let near = |x: &usize| solved.bounds[2 * x + 1].abs() < LARGEST_BOUND;
        let x = (0..MOST_VARIABLES).find(near).unwrap();
        let greatest = solved.bounds[2 * x + 1] as i32;
        lines[MOST_LINES - 1] = lone(-1, x as i32, -greatest - 1);
        identify(&mut chance, &mut lines);
        let verdict = decided(&mut chance, &lines).verdict;
        assert!(matches!(verdict, Verdict::No(_)), "{verdict:?}");
    }
}

/// What this does, which takes no more stack than this, to the byte; what stands here
/// between the thread and the call counts with it.
fn within_stack<T: Send>(most: usize, calls: impl FnOnce() -> T + Send) -> T {
    let (result, taken) = stack::taken(2 * MOST_STACK, calls);
    println!("{taken} bytes of stack, of {most}");
    assert!(taken <= most, "{taken} bytes of stack");
    result
}

/// The same with no more than the header says.
fn with_little_stack<T: Send>(calls: impl FnOnce() -> T + Send) -> T {
    within_stack(MOST_STACK, calls)
}

/// The stack that the header has for all else than a list, marks of its lines and a
/// refutation.
const LAST_PART: usize = MOST_STACK
    - size_of::<Line>() * (MOST_LINES + 1)
    - MOST_LINES
    - size_of::<u32>() * rooms(MOST_VARIABLES)[3];

/// The calls that hold none of these take no more than that: deciding among them, a yes and
/// both noes.
#[test]
fn the_least_stack() {
    let mut chance = Chance::new(131);
    let lists = [
        largest(),
        chain(&mut chance, LAST_VARIABLE),
        level(&mut chance, 7),
    ];
    let mut buffers = Buffers::new(&mut chance, needed(MOST_N));
    for lines in lists {
        let numbers = lines.concat();
        within_stack(LAST_PART, || buffers.call(MOST_N, &numbers));
        let refutation = buffers.refutation.lent();
        let mut file = vec![0; records::size(&numbers)];
        within_stack(LAST_PART, || {
            let kept = library::refutation_take(library::refutation_begin(), &numbers, 1);
            library::refutation_end(kept, MOST_N, &numbers);
            library::shorter(MOST_N, &numbers, refutation, refutation);
            library::write_list(MOST_N, &numbers, &mut file);
        });
    }
}

/// What is measured is there: arrays that a function fills.
#[test]
fn stack_is_measured() {
    fn filled<const SIZE: usize>() -> usize {
        let array = black_box([SIZE as u8; SIZE]);
        array.iter().map(|&byte| usize::from(byte)).sum()
    }
    let (_, few) = stack::taken(MOST_STACK, filled::<8_192>);
    let (_, many) = stack::taken(MOST_STACK, filled::<40_960>);
    assert!((8_192..12_288 + 8_192).contains(&few), "{few}");
    assert!(many - few >= 40_960 - 8_192, "{few} {many}");
}

/// Every call on the largest list.
#[test]
fn little_stack() {
    let lines = largest();
    let (numbers, packed) = (lines.concat(), bytes::list(&lines));
    let values = bytes::model(&[0; MOST_VARIABLES]);
    let walk = [1, 1, 0, 0];
    let proposed = bytes::refutation(&walk);
    let size = records::size(&numbers);
    let mut file = vec![0; size];
    let mut again = vec![0; MOST_NUMBERS];
    let mut buffers = Buffers::new(&mut Chance::new(114), needed(MOST_N));
    let mut other = Buffers::new(&mut Chance::new(118), needed(MOST_N));
    let results = with_little_stack(|| {
        let kept = library::refutation_take(library::refutation_begin(), &numbers, 1);
        [
            library::check_model(MOST_N, &packed, &values),
            library::check_refutation(MOST_N, &packed, &proposed),
            library::refutation_end(kept, MOST_N, &numbers),
            library::write_list(MOST_N, &numbers, &mut file).bytes as i64,
            library::read_list(&file, &mut again).lines as i64,
            buffers.call(MOST_N, &numbers),
            other.implied_pair(MOST_N, &numbers, [0, 1]).result,
            other.implied_line(MOST_N, &numbers, lines[0]),
            other.implied_line(MOST_N, &numbers, zero(-1)),
            other.show_line(MOST_N, &numbers, lines[0]),
            other.show_line(MOST_N, &numbers, zero(-1)),
            library::check_shown(MOST_N, &packed, &packed[..LINE_BYTES], &proposed),
            library::shorter(MOST_N, &numbers, &walk, &walk).which as i64,
        ]
    });
    let [at_0, at_3] = [0, 3].map(|place| Answer::No(place).code());
    let files = [size as i64, MOST_LINES as i64];
    let shown = [0, at_0, at_3];
    let neither = SHORTER_NEITHER as i64;
    let due = [
        &[0, at_3, at_0],
        &files[..],
        &[0, 0, 0, at_0],
        &shown,
        &[neither],
    ]
    .concat();
    assert_eq!(results[..], due);
    assert_eq!(again, numbers);
}

/// Deciding differences: a list that can be met, one that can't, and one that is refused.
#[test]
fn little_stack_for_differences() {
    let shape = differences::Shape {
        n: MOST_VARIABLES,
        count: MOST_LINES,
        largest: LARGEST_BOUND,
    };
    let mut chance = Chance::new(130);
    let met = shape.met(&mut chance);
    let mut clashing = shape.round_walk(&mut chance);
    clashing[1] = line(1, 0, -1, 0, -1);
    let refused = Answer::Refused(NOT_DIFFERENCE, 0).code();
    for (lines, due) in [(met, 0), (clashing, NO as i64), (largest(), refused)] {
        let numbers = lines.concat();
        let mut buffers = Buffers::new(&mut chance, differences::needed(MOST_N));
        let result = within_stack(LAST_PART, || buffers.differences(MOST_N, &numbers));
        assert_eq!(result, due);
    }
}

/// The calls of a session: its start, the last line that it may have, and one that makes a
/// no; its start and its questions hold no list.
#[test]
fn little_stack_in_a_session() {
    let mut lines = largest();
    let last = lines.pop().unwrap();
    let mut session = Session::new(MOST_N);
    let mut started = vec![-1; session.room()];
    session.lines = lines;
    let mut state = session.state();
    let mut buffers = Buffers::new(&mut Chance::new(117), needed(MOST_N));
    let results = with_little_stack(|| {
        [
            library::session_start(MOST_N, &mut started),
            buffers.add(&mut state, last),
            library::session_withdraw(&mut state),
        ]
    });
    assert_eq!(results, [0; 3]);
    assert!(started == Session::new(MOST_N).state() && state == session.state());
    let clash = with_little_stack(|| buffers.add(&mut state, zero(-1)));
    assert_eq!(clash, NO as i64);
    with_little_stack(|| library::session_withdraw(&mut state));
    let results = within_stack(LAST_PART, || {
        [
            library::session_start(MOST_N, &mut started),
            library::session_implied(&state, zero(0)),
            library::session_pair(&state, 0, 0).result,
        ]
    });
    assert_eq!(results, [0; 3]);
}

/// All lines of the largest list, one of them as deep as a line may stand.
fn deepest_tree() -> Vec<u32> {
    let mut children: Vec<Tree> = (1..MOST_LINES).map(Tree::Line).collect();
    children.push(deepest(Tree::Line(0), 2));
    Tree::AllOf(children).numbers()
}

/// Both calls on trees: with a list that can be met, one that can't, and one that only halves
/// would meet.
#[test]
fn little_stack_for_trees() {
    let mut chance = Chance::new(119);
    let tree = deepest_tree();
    let lists = [
        (largest(), 0),
        (chain(&mut chance, LAST_VARIABLE), NO as i64),
        (level(&mut chance, 7), NO as i64),
    ];
    for (lines, due) in lists {
        let numbers = lines.concat();
        let mut buffers = Buffers::new(&mut chance, needed(MOST_N));
        let found = with_little_stack(|| {
            [
                buffers.tree_first(MOST_N, &numbers, &tree),
                buffers.tree_decide(MOST_N, &numbers, &tree, 0),
            ]
        });
        assert_eq!(found.map(|choice| choice.result), [due; 2]);
    }
}

/// Both calls that write seconds.
#[test]
fn little_stack_for_seconds() {
    let table = Table::of(&[(FORMS[1], 3.0); MOST_RECORDERS]);
    let (recorders, counts) = ([0; MOST_VARIABLES], [LARGEST_COUNT; MOST_VARIABLES]);
    let mut seconds = vec![0.0; MOST_VARIABLES];
    let results = within_stack(LAST_PART, || {
        [
            library::model_seconds(FORMS[0], 0.5, &counts, &mut seconds),
            library::events_seconds(table.events(&recorders, &counts), &mut seconds),
        ]
    });
    assert_eq!(results.map(|written| written.refusal), [0; 2]);
    assert_eq!(seconds, [LARGEST_COUNT as f64 / 3.0; MOST_VARIABLES]);
}
