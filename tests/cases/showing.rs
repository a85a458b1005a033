//! Showings of lines: small lists against a search through all values, everything that
//! deciding and a pair say of larger ones, longer lists, damaged showings, refusals and
//! short buffers. That both checkers accept what is handed over, and that nothing else is
//! written, every call here makes sure of.

use utvpi_tests::chance::Chance;
use utvpi_tests::damage::{fault_sets, faulty_line, first_fault, refused_lists};
use utvpi_tests::decision::{decide, Solved, Verdict, PLUS};
use utvpi_tests::document::CASE_4;
use utvpi_tests::implied::{opposite, pair, Pair};
use utvpi_tests::limits::{
    most_shown_bound, LARGEST_BOUND, LAST_VARIABLE, LINE_BYTES, MOST_LINES, MOST_N,
    MOST_REFUTATION, NUMBER_BYTES, SMALL_VARIABLES,
};
use utvpi_tests::lines::{
    identified, identifier, identify, line, lone, of_message, zero, Line, BOUND,
};
use utvpi_tests::make::{miscount, some_line, Proposal};
use utvpi_tests::make_lists::{small, Shape};
use utvpi_tests::second::Answer;
use utvpi_tests::showing::{checked, rooms, show, show_in, Shown};
use utvpi_tests::{brute, bytes, shown};

/// A line with this bound, which passes no limit of a shown line.
fn with_bound(line: Line, bound: i64) -> Line {
    let mut line = line;
    line[BOUND] = bound as i32;
    line
}

/// A line with a greatest left side is shown with it as the bound, and not with one less.
fn tightest(chance: &mut Chance, n: u64, lines: &[Line], asked: Line, greatest: i64) {
    let asked = of_message(asked, identifier(chance));
    let most = most_shown_bound(n as usize) as i64;
    for (bound, is_shown) in [(greatest, true), (greatest - 1, false)] {
        if bound >= -most {
            let answer = show(chance, n, lines, with_bound(asked, bound));
            let told = || format!("{answer:?}\n{asked:?} at {bound}\n{lines:?}");
            assert_eq!(matches!(answer, Shown::Yes(_)), is_shown, "{}", told());
        }
    }
}

/// Everything that is written on a yes.
fn all_shown(chance: &mut Chance, n: u64, lines: &[Line], solved: &Solved) -> usize {
    let mut count = 0;
    for x in 0..n as usize {
        let v = x as i32;
        let (least, greatest) = (solved.bounds[2 * x], solved.bounds[2 * x + 1]);
        if greatest != i64::MAX {
            tightest(chance, n, lines, lone(1, v, 0), greatest);
            count += 1;
        }
        if least != i64::MIN {
            tightest(chance, n, lines, lone(-1, v, 0), -least);
            count += 1;
        }
        let [r, sign] = solved.groups[x];
        let other = if sign == PLUS { -1 } else { 1 };
        tightest(chance, n, lines, line(1, v, other, r as i32, 0), 0);
        tightest(chance, n, lines, line(-1, v, -other, r as i32, 0), 0);
    }
    count
}

/// The four sums of two variables.
fn sums_shown(chance: &mut Chance, n: u64, lines: &[Line], x: usize, y: usize) {
    let Pair::Sums(sums) = pair(chance, n, lines, x, y) else {
        panic!("{lines:?} has a solution");
    };
    let signs = [(1, 1), (1, -1), (-1, 1), (-1, -1)];
    for ((a, b), greatest) in signs.into_iter().zip(sums) {
        let asked = line(a, x as i32, b, y as i32, 0);
        if greatest == i64::MAX {
            let most = most_shown_bound(n as usize) as i64;
            assert_eq!(show(chance, n, lines, with_bound(asked, most)), Shown::No);
        } else {
            tightest(chance, n, lines, asked, greatest);
        }
    }
}

/// Small lists, with all values tried: a line is shown exactly if the list with the
/// opposite line has no solution.
#[test]
fn small_lists_by_all_values() {
    let mut chance = Chance::new(260);
    let mut both = [0, 0];
    for _ in 0..600 {
        let (n, lines) = small(&mut chance);
        for _ in 0..4 {
            let mut asked = some_line(&mut chance, n);
            // Without variables no other bound than 0 is taken.
            let most = most_shown_bound(n as usize).min(4) as i64;
            asked[BOUND] = chance.between(-most, most) as i32;
            let asked = of_message(asked, identifier(&mut chance));
            let longer = [&lines[..], &[opposite(asked)]].concat();
            let due = matches!(brute::verdict(n as usize, &longer), Verdict::No(_));
            let answer = show(&mut chance, n, &lines, asked);
            let is_shown = matches!(answer, Shown::Yes(_));
            assert_eq!(is_shown, due, "{answer:?}\n{asked:?}\n{lines:?}");
            both[usize::from(due)] += 1;
        }
    }
    assert!(both.iter().all(|&count| count > 200), "{both:?}");
}

/// All that a yes says of lists of some size, and some sums.
#[test]
fn everything_is_shown() {
    let mut chance = Chance::new(261);
    let (mut lists, mut bounds) = (0, 0);
    for _ in 0..80 {
        let n = chance.pick(&[1, 2, 3, 5, 8, 13, SMALL_VARIABLES as u64 / 4]);
        let lines = Shape::of(&mut chance, n).list(&mut chance);
        if let Verdict::Yes(solved) = decide(&mut chance, n, &lines).verdict {
            bounds += all_shown(&mut chance, n, &lines, &solved);
            for _ in 0..3 {
                let [x, y] = [(); 2].map(|()| chance.below(n as usize));
                sums_shown(&mut chance, n, &lines, x, y);
            }
            lists += 1;
        }
    }
    println!("{lists} lists, {bounds} bounds");
    assert!(lists > 20 && bounds > 40);
}

/// A list without a solution shows every line, for each of the three reasons; then its own
/// refutation is a showing.
#[test]
fn without_a_solution() {
    let mut chance = Chance::new(262);
    let closed_walk = [line(1, 0, -1, 1, 3), line(-1, 0, 1, 1, -4)];
    let lists = [
        vec![lone(1, 0, 3), zero(-1)],
        closed_walk.to_vec(),
        CASE_4.to_vec(),
    ];
    for lines in lists.map(|lines| identified(&lines)) {
        let decision = decide(&mut chance, 3, &lines);
        assert!(matches!(decision.verdict, Verdict::No(_)), "{lines:?}");
        for asked in [zero(0), zero(-1), lone(1, 2, -7), line(-1, 0, 1, 2, 5)] {
            assert!(matches!(show(&mut chance, 3, &lines, asked), Shown::Yes(_)));
            let answer = checked(3, lines.as_flattened(), asked, &decision.refutation);
            assert_eq!(answer, Answer::Yes);
        }
    }
}

/// A showing is one for every longer list, up to the most lines, and for no list without
/// one of its lines.
#[test]
fn longer_lists() {
    let mut chance = Chance::new(263);
    let mut seen = 0;
    for _ in 0..60 {
        let n = chance.between(1, 8) as u64;
        let lines = Shape::of(&mut chance, n).met(&mut chance, 1);
        let Some(&own) = lines.first() else { continue };
        let asked = with_bound(own, i64::from(own[BOUND]) + chance.between(0, 2));
        let Shown::Yes(showing) = show(&mut chance, n, &lines, asked) else {
            panic!("{own:?} is a line of the list");
        };
        let mut longer = lines.clone();
        while longer.len() < MOST_LINES {
            longer.push(some_line(&mut chance, n));
        }
        identify(&mut chance, &mut longer[lines.len()..]);
        for count in [lines.len() + 1, lines.len() + 7, MOST_LINES] {
            let list = longer[..count.min(MOST_LINES)].as_flattened();
            assert_eq!(checked(n, list, asked, &showing), Answer::Yes);
        }
        let last = showing[3..].iter().map(|&step| step as usize / 2);
        if let Some(last) = last.filter(|&line| line < MOST_LINES).max() {
            let shorter = lines[..last].as_flattened();
            assert!(matches!(
                checked(n, shorter, asked, &showing),
                Answer::No(_)
            ));
            seen += 1;
        }
    }
    assert!(seen > 20, "{seen}");
}

/// Showings with a number changed, left out or added, with other counts, and of other
/// lines: both checkers say the same of each, and what is accepted holds.
#[test]
fn damaged_showings() {
    let mut chance = Chance::new(264);
    let mut both = [0, 0];
    for _ in 0..400 {
        let (n, lines) = small(&mut chance);
        let mut asked = some_line(&mut chance, n);
        asked[BOUND] = chance.between(-2, 6) as i32;
        let Shown::Yes(mut showing) = show(&mut chance, n, &lines, asked) else {
            continue;
        };
        for _ in 0..6 {
            let mut other = asked;
            let at = chance.below(showing.len());
            match chance.below(7) {
                0 => showing[at] = showing[at].wrapping_add(chance.pick(&[1, u32::MAX, 2])),
                1 => drop(showing.remove(at)),
                2 => showing.insert(at, chance.below(2 * MOST_LINES + 4) as u32),
                3 => showing.swap(at, 0),
                4 => other[BOUND] += chance.pick(&[-1, 1]),
                5 => other = opposite(asked),
                _ => {
                    let steps = showing.get(3..).unwrap_or(&[]).to_vec();
                    let proposal = Proposal {
                        kind: showing[0],
                        first: steps,
                        second: Vec::new(),
                    };
                    showing = miscount(&mut chance, &proposal);
                }
            }
            let answer = checked(n, lines.as_flattened(), other, &showing);
            if answer == Answer::Yes {
                let longer = [&lines[..], &[opposite(other)]].concat();
                let found = brute::verdict(n as usize, &longer);
                assert!(matches!(found, Verdict::No(_)), "{other:?}\n{lines:?}");
            }
            both[usize::from(answer == Answer::Yes)] += 1;
            if showing.is_empty() {
                break;
            }
        }
    }
    println!("{both:?}");
    assert!(both[0] > 300 && both[1] > 50, "{both:?}");
}

/// The bounds of a shown line: up to 2·n·1,000,000 either way, and no further.
#[test]
fn wide_bounds() {
    let mut chance = Chance::new(265);
    for n in [0, 1, 2, 7, MOST_N] {
        let most = most_shown_bound(n as usize) as i64;
        for bound in [-most - 1, -most, most, most + 1] {
            let asked = with_bound(zero(0), bound);
            let answer = show(&mut chance, n, &[], asked);
            let refused = Answer::Refused(6, 0);
            let checked = shown(n, &[], &bytes::numbers(&asked), &[]);
            match bound {
                _ if bound.abs() > most => {
                    assert_eq!((answer, checked), (Shown::Refused(6, 0), refused));
                }
                0.. => assert!(matches!(answer, Shown::Yes(_)) && checked == Answer::No(0)),
                _ => assert_eq!((answer, checked), (Shown::No, Answer::No(0))),
            }
        }
    }
    // The last variable of a chain is at least n·1,000,000, and twice it twice that.
    let (million, last) = (LARGEST_BOUND as i32, LAST_VARIABLE);
    let mut lines = vec![lone(-1, 0, -million)];
    lines.extend((1..=last).map(|x| line(1, x - 1, -1, x, -million)));
    let lines = identified(&lines);
    let far = (i64::from(last) + 1) * LARGEST_BOUND;
    tightest(&mut chance, MOST_N, &lines, lone(-1, last, 0), -far);
    tightest(
        &mut chance,
        MOST_N,
        &lines,
        line(-1, last, -1, last, 0),
        -2 * far,
    );
}

/// A line of two variables with just these faults, a bound at fault being one of a shown
/// line.
fn faulty(chance: &mut Chance, faults: usize) -> Line {
    let mut line = faulty_line(chance, faults);
    let (bound, beyond) = (i64::from(line[BOUND]), most_shown_bound(2) as i64 + 1);
    if bound.abs() > LARGEST_BOUND {
        line[BOUND] = (bound.signum() * beyond) as i32;
    }
    line
}

/// Every list that is refused, whatever else is wrong.
#[test]
fn lists_that_are_refused() {
    let mut chance = Chance::new(266);
    let long = vec![0; NUMBER_BYTES * MOST_REFUTATION + 1];
    for (n, list, (number, place)) in refused_lists() {
        let packed = bytes::numbers(&list);
        for faults in [0, 1, fault_sets().end - 1] {
            let asked = faulty(&mut chance, faults);
            for lengths in [[0; 3], rooms(n.min(MOST_N))] {
                let answer = show_in(&mut chance, n, &list, asked, lengths);
                assert_eq!(answer, Shown::Refused(number, place));
            }
            for line in [&[][..], &bytes::numbers(&asked)] {
                let answer = shown(n, &packed, line, &long);
                assert_eq!(answer, Answer::Refused(number, place));
            }
        }
    }
}

/// Of a valid list the line is looked at first, by its length and its rules; then the
/// buffers in their order, or the length of the showing.
#[test]
fn lines_and_buffers_that_are_refused() {
    let mut chance = Chance::new(267);
    let lines = identified(&[lone(1, 0, 3), line(1, 0, -1, 1, 2)]);
    let (list, packed, full) = (lines.as_flattened(), bytes::list(&lines), rooms(2));
    let long = vec![0; NUMBER_BYTES * MOST_REFUTATION + 1];
    for faults in fault_sets() {
        let asked = faulty(&mut chance, faults);
        let line = bytes::numbers(&asked);
        for short in 0..1 << full.len() {
            let lengths = [0, 1, 2].map(|at| full[at] - (short >> at & 1));
            let answer = show_in(&mut chance, 2, list, asked, lengths);
            match (first_fault(faults), short) {
                (Some(number), _) => assert_eq!(answer, Shown::Refused(number, lines.len())),
                (None, 0) => assert!(!matches!(answer, Shown::Refused(..))),
                (None, _) if short & 1 == 1 => assert_eq!(answer, Shown::Refused(7, 4)),
                (None, _) if short & 2 == 2 => assert_eq!(answer, Shown::Refused(7, 5)),
                (None, _) => assert_eq!(answer, Shown::Refused(8, 0)),
            }
        }
        for showing in [&[][..], &long] {
            let due = match (first_fault(faults), showing.is_empty()) {
                (Some(number), _) => Answer::Refused(number, lines.len()),
                (None, false) => Answer::Refused(11, 0),
                (None, true) => Answer::No(0),
            };
            assert_eq!(shown(2, &packed, &line, showing), due, "{asked:?}");
            let twice = [&line[..], &line].concat();
            for broken in [&[][..], &line[..1], &line[..LINE_BYTES - 1], &twice] {
                let answer = shown(2, &packed, broken, showing);
                assert_eq!(answer, Answer::Refused(2, lines.len()));
            }
        }
    }
}

/// Bytes of a showing that are no multiple of four break at once.
#[test]
fn cut_bytes() {
    let mut chance = Chance::new(268);
    let lines = identified(&[lone(1, 0, 3), line(1, 0, -1, 1, 2)]);
    let asked = lone(1, 0, 5);
    let Shown::Yes(showing) = show(&mut chance, 2, &lines, asked) else {
        panic!("x is at most 3, so at most 5");
    };
    let (packed, line) = (bytes::list(&lines), bytes::numbers(&asked));
    let bytes = bytes::refutation(&showing);
    for length in 0..bytes.len() {
        let answer = shown(2, &packed, &line, &bytes[..length]);
        let place = if length % NUMBER_BYTES == 0 && length >= 3 * NUMBER_BYTES {
            2
        } else {
            0
        };
        assert_eq!(answer, Answer::No(place), "{length} bytes");
    }
    assert_eq!(shown(2, &packed, &line, &bytes), Answer::Yes);
}
