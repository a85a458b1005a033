#!/usr/bin/env python3
"""Tests of utvpi.py: each call of the header is bound, has words and types, and answers as
brute force does on small lists. The last line is 'N passed, M failed'."""

import ctypes
import inspect
import itertools
import random
import sys
import typing
import unittest

import utvpi
from utvpi import Line, No, Refused, Unsolvable, Yes

LIBRARY = utvpi.Library()


def meets(line, values):
    left = line.a * values[line.x] if line.a else 0
    return left + (line.b * values[line.y] if line.b else 0) <= line.d


def lists(count, boxed=False):
    """Random lists of two or three variables, with all whole numbers that meet them, as far
    as they matter: a list that can be met is met by values within n times the greatest
    bound. In a box all of them are within it."""
    rng = random.Random(26)
    for _ in range(count):
        n, most = rng.choice([(2, 3), (3, 2)])
        lines = []
        for _ in range(rng.randrange(9)):
            a, b = rng.choice([-1, 0, 1]), rng.choice([-1, 0, 1])
            a, b = (a, b) if a else (b, 0)
            lines.append(Line(a, rng.randrange(n) if a else 0, b, rng.randrange(n) if b else 0,
                              rng.randint(-most, most), rng.choice([0, 0x18DA10F1, 241])))
        if boxed:
            lines += [Line(sign, v, 0, 0, most) for v in range(n) for sign in (-1, 1)]
        within = range(-n * most, n * most + 1)
        yield n, lines, [values for values in itertools.product(within, repeat=n)
                         if all(meets(line, values) for line in lines)]


class Binding(unittest.TestCase):
    def test_every_call_is_bound(self):
        self.assertEqual(sorted(utvpi.CALLS), sorted(LIBRARY.header.functions))

    def test_every_call_has_words_and_types(self):
        for name in utvpi.CALLS:
            method = getattr(utvpi.Library, name.removeprefix("utvpi_"))
            self.assertTrue(inspect.getdoc(method), name)
            hints = typing.get_type_hints(method)
            for parameter in list(inspect.signature(method).parameters)[1:] + ["return"]:
                self.assertIn(parameter, hints, name)

    def test_every_refusal_has_a_text(self):
        texts = {LIBRARY.refusal_text(number) for number in LIBRARY.header.refusals.values()}
        self.assertGreater(len(texts), 20)
        self.assertEqual(len(texts), len(LIBRARY.header.refusals))
        self.assertNotIn(LIBRARY.refusal_text(0), texts)


class Answers(unittest.TestCase):
    def test_decide_and_checks(self):
        seen = set()
        for n, lines, ways in lists(150):
            answer = LIBRARY.decide(n, lines)
            seen.add(type(answer))
            self.assertEqual(isinstance(answer, Yes), bool(ways), lines)
            if isinstance(answer, Yes):
                self.assertIn(tuple(answer.model), ways)
                self.assertIsNone(LIBRARY.check_model(n, lines, answer.model))
                continue
            self.assertIsNone(LIBRARY.check_refutation(n, lines, answer.refutation))
            self.assertEqual(answer.identifiers, [lines[at].identifier for at in answer.lines()])
            kept = LIBRARY.refutation_begin()
            for number in answer.refutation:
                kept = LIBRARY.refutation_take(kept, lines, number)
            self.assertIsNone(LIBRARY.refutation_end(kept, n, lines))
            self.assertEqual(LIBRARY.check_refutation(n, lines, [4] + answer.refutation[1:]), 0)
        self.assertEqual(seen, {Yes, No})

    def test_differences(self):
        seen = set()
        for n, lines, _ in lists(150):
            turned = [Line(line.a or 1, line.x, -(line.a or 1), line.y, line.d, line.identifier)
                      for line in lines]
            answer, whole = LIBRARY.decide_differences(n, turned), LIBRARY.decide(n, turned)
            seen.add(type(answer))
            if isinstance(whole, Yes):
                self.assertEqual(answer, whole)
                self.assertEqual(answer.bounds, [(None, None)] * n)
                continue
            self.assertIsInstance(answer, No)
            self.assertIsNone(LIBRARY.check_refutation(n, turned, answer.refutation))
            self.assertEqual(answer.identifiers, [turned[at].identifier for at in answer.lines()])
        self.assertEqual(seen, {Yes, No})

    def test_bounds_groups_and_questions(self):
        for n, lines, ways in lists(80, boxed=True):
            if not ways:
                with self.assertRaises(Unsolvable):
                    LIBRARY.implied_pair(n, lines, 0, 1)
                continue
            answer = LIBRARY.decide(n, lines)
            for v in range(n):
                values = [way[v] for way in ways]
                self.assertEqual(answer.bounds[v], (min(values), max(values)))
                first, minus = answer.groups[v]
                self.assertTrue(all(way[v] == (-way[first] if minus else way[first])
                                    for way in ways))
            pair = LIBRARY.implied_pair(n, lines, 0, 1)
            self.assertEqual(pair.plus, tuple(max(x + sign * y for x, y, *_ in ways)
                                              for sign in (1, -1)))
            self.assertEqual(pair.minus, tuple(max(-x + sign * y for x, y, *_ in ways)
                                               for sign in (1, -1)))
            for d in range(-2, 3):
                line = Line(1, 0, -1, 1, d)
                broken = LIBRARY.implied_line(n, lines, line)
                self.assertEqual(broken is None, all(meets(line, way) for way in ways))
                if broken is not None:
                    self.assertIn(tuple(broken), ways)
                    self.assertFalse(meets(line, broken))

    def test_showings(self):
        most, shown = LIBRARY.header.number("MOST_LINES"), 0
        for n, lines, ways in lists(60, boxed=True):
            for d in range(-3, 4):
                line = Line(1, 0, -1, 1, d, 77)
                showing = LIBRARY.show_line(n, lines, line)
                self.assertEqual(showing is not None, all(meets(line, way) for way in ways))
                if showing is None:
                    continue
                shown += 1
                self.assertIsNone(LIBRARY.check_shown(n, lines, line, showing.refutation))
                self.assertIsNone(
                    LIBRARY.check_shown(n, lines + [Line()], line, showing.refutation))
                self.assertEqual(showing.identifiers, [
                    77 if at == most else lines[at].identifier for at in showing.lines()])
                self.assertEqual(
                    LIBRARY.check_shown(n, lines, line, [4] + showing.refutation[1:]), 0)
        self.assertGreater(shown, 60)

    def test_sessions(self):
        for n, lines, _ in lists(40):
            state = LIBRARY.session_start(n)
            for at, line in enumerate(lines):
                before = list(state)
                answer = LIBRARY.session_add(state, line)
                whole = LIBRARY.decide(n, lines[: at + 1])
                self.assertEqual(type(answer), type(whole))
                self.ask_session(n, lines[: at + 1], state)
                if isinstance(answer, No):
                    with self.assertRaises(Refused) as caught:
                        LIBRARY.session_add(state, line)
                    self.assertEqual(caught.exception.number, LIBRARY.header.refusals["AFTER_NO"])
                    LIBRARY.session_withdraw(state)
                    self.assertEqual(list(state), before)
                    break
                self.assertEqual(answer, whole)

    def ask_session(self, n, lines, state):
        """Both questions: they answer as those to the list do, and leave the state alone."""
        before = list(state)
        if isinstance(LIBRARY.decide(n, lines), No):
            with self.assertRaises(Unsolvable):
                LIBRARY.session_pair(state, 0, 1)
            with self.assertRaises(Unsolvable):
                LIBRARY.session_implied(state, lines[0])
        else:
            for x, y in itertools.product(range(n), repeat=2):
                self.assertEqual(LIBRARY.session_pair(state, x, y),
                                 LIBRARY.implied_pair(n, lines, x, y))
            for d in range(-2, 3):
                line = Line(1, 0, -1, 1, d)
                self.assertEqual(LIBRARY.session_implied(state, line),
                                 LIBRARY.implied_line(n, lines, line) is None)
        self.assertEqual(list(state), before)

    def test_trees(self):
        number = LIBRARY.header.number
        for n, lines, _ in lists(40):
            leaves = [(number("LEAF"), at) for at in range(len(lines))]
            nodes = [(number("ALL_OF"), 1), (number("ANY_OF"), len(lines)), *leaves]
            tree = [part for node in nodes for part in node]
            answers = [LIBRARY.decide(n, [line]) for line in lines]
            met = [at for at, answer in enumerate(answers) if isinstance(answer, Yes)]
            self.assertEqual(LIBRARY.tree_first(n, lines, tree),
                             (met[0], answers[met[0]].model) if met else None)
            for at, answer in enumerate(answers):
                found = LIBRARY.tree_decide(n, lines, tree, at)
                if isinstance(answer, Yes):
                    self.assertEqual(found, answer)
                else:
                    self.assertEqual(set(found.lines()), {at})

    def test_shorter(self):
        none = 0
        for n, lines, ways in lists(60):
            answer = LIBRARY.decide(n, lines)
            refutation = answer.refutation if isinstance(answer, No) else [3, 1, 0, 0]
            handed = LIBRARY.shorter(n, lines, [4, 0, 0], refutation + [7])
            self.assertEqual(handed, [] if ways else refutation)
            none += not handed
        self.assertTrue(0 < none < 60)

    def test_absent_bounds(self):
        self.assertEqual(LIBRARY.decide(1, []), Yes([0], [(None, None)], [(0, False)]))
        self.assertEqual(LIBRARY.implied_pair(2, [], 0, 1).plus, (None, None))
        self.assertEqual(LIBRARY.decide(0, []), Yes([], [], []))

    def test_files(self):
        for n, lines, _ in lists(40):
            data = LIBRARY.write_list(n, lines)
            self.assertEqual(LIBRARY.read_list(data), (n, lines))
            with self.assertRaises(Refused) as caught:
                LIBRARY.read_list(data + b"\0")
            self.assertEqual(caught.exception.place, len(data))
        self.assertEqual(LIBRARY.write_list(1, [Line(1, 0, 0, 0, 5)]).hex(" ", 4),
                         "04000100 01000000 14000200 01000000 00000000 00000000 00000000"
                         " 05000000 00000300")

    def test_seconds(self):
        counts = [0, 1, 3, 41250, -7]
        self.assertEqual(LIBRARY.model_seconds(0, 0.0005, counts), [at * 0.0005 for at in counts])
        self.assertEqual(LIBRARY.events_seconds([0, 1], [0.25, 3.0], [0, 1, 1, 0, 1], counts),
                         [0.0, 1 / 3, 1.0, 41250 * 0.25, -7 / 3])

    def test_refusals(self):
        most, numbers = LIBRARY.header.number("MOST_VARIABLES"), LIBRARY.header.refusals
        cases = [
            (lambda: LIBRARY.decide(most + 1, []), "TOO_MANY_VARIABLES", 0),
            (lambda: LIBRARY.decide(10**12, []), "TOO_MANY_VARIABLES", 0),
            (lambda: LIBRARY.implied_pair(10**12, [], 0, 1), "TOO_MANY_VARIABLES", 0),
            (lambda: LIBRARY.decide(1, [Line(), Line(2)]), "BAD_COEFFICIENT", 1),
            (lambda: LIBRARY.decide(1, [Line(1, 1)]), "BAD_VARIABLE", 0),
            (lambda: LIBRARY.implied_pair(1, [], 0, 1), "BAD_VARIABLE", 1),
            (lambda: LIBRARY.decide(1, [Line(0, 0, 1)]), "MISPLACED_COEFFICIENT", 0),
            (lambda: LIBRARY.decide_differences(10**12, []), "TOO_MANY_VARIABLES", 0),
            (lambda: LIBRARY.decide_differences(1, [Line(1, 0, -1), Line(1)]), "NOT_DIFFERENCE", 1),
            (lambda: LIBRARY.write_list(1, [Line(d=1000001)]), "BAD_BOUND", 0),
            (lambda: LIBRARY.implied_line(1, [Line()], Line(identifier=-1)), "BAD_IDENTIFIER", 1),
            (lambda: LIBRARY.show_line(1, [Line()], Line(d=2000001)), "BAD_BOUND", 1),
            (lambda: LIBRARY.check_shown(1, [Line()], Line(2), []), "BAD_COEFFICIENT", 1),
            (lambda: LIBRARY.check_model(1, [], []), "BAD_MODEL_LENGTH", 0),
            (lambda: LIBRARY.read_list(b""), "RECORD_CUT", 0),
            (lambda: LIBRARY.session_withdraw(LIBRARY.session_start(1)), "NO_LINES", 0),
            (lambda: LIBRARY.session_pair(LIBRARY.session_start(1), 0, 1), "BAD_VARIABLE", 1),
            (lambda: LIBRARY.session_implied(LIBRARY.session_start(1), Line(2)),
             "BAD_COEFFICIENT", 0),
            (lambda: LIBRARY.session_pair((ctypes.c_int64 * 3)(), 0, 0), "SHORT_OUTPUT", 6),
            (lambda: LIBRARY.tree_first(1, [], [1, 0, 7]), "BROKEN_TREE", 2),
            (lambda: LIBRARY.tree_decide(1, [], [1, 0], 1), "NO_SUCH_CHOICE", 0),
            (lambda: LIBRARY.model_seconds(0, 0.0, []), "BAD_CLOCK", 0),
            (lambda: LIBRARY.events_seconds([0], [1.0], [0, 1], [0, 0]), "BAD_RECORDER", 1),
        ]
        for call, name, place in cases:
            with self.assertRaises(Refused) as caught:
                call()
            refused = caught.exception
            self.assertEqual((refused.number, refused.place), (numbers[name], place), name)
            self.assertIn(LIBRARY.refusal_text(numbers[name]), str(refused))


if __name__ == "__main__":
    done = unittest.main(exit=False, verbosity=0).result
    wrong = len(done.failures) + len(done.errors)
    print(f"{done.testsRun - wrong} passed, {wrong} failed")
    sys.exit(0 if wrong == 0 and done.testsRun > 0 else 1)
