"""Lists of rules over whole numbers, decided and shown: libutvpi for Python, by ctypes.

    >>> import utvpi
    >>> library = utvpi.Library()
    >>> library.decide(2, [utvpi.Line(1, 0, -1, 1, -1), utvpi.Line(-1, 0, 0, 0, -40)]).model
    [40, 41]

A list has n variables, numbered from 0, and lines a*x + b*y <= d with a and b among -1, 0
and 1; a line may carry the identifier of the message that it came from. utvpi(3) and the
header utvpi.h say what each call means. A refusal is raised as Refused.

The numbers that the header defines, and how long buffers are, are read from it: Library
looks for both files by pkg-config, unless they are named. To bind a further call, add its
row to CALLS and a method to Library.
"""

from __future__ import annotations

import ctypes
import re
import subprocess
from ctypes import POINTER, c_char_p, c_double, c_int, c_int32, c_int64, c_size_t, c_uint8
from ctypes import c_uint32, c_uint64
from dataclasses import dataclass
from typing import Any, Iterable, Optional, Sequence, Union


class Line(ctypes.Structure):
    """A line a*x + b*y <= d, with the identifier of its message, or 0."""

    _fields_ = [(name, c_int32) for name in ("a", "x", "b", "y", "d", "identifier")]

    def numbers(self) -> tuple[int, ...]:
        """The numbers of the line, in order."""
        return tuple(getattr(self, name) for name, _ in self._fields_)

    def __repr__(self) -> str:
        return f"Line{self.numbers()}"

    def __eq__(self, other: object) -> bool:
        return isinstance(other, Line) and self.numbers() == other.numbers()

    __hash__ = None  # type: ignore[assignment]


class Progress(ctypes.Structure):
    """What is kept of a refutation that arrives in pieces. Its numbers are the library's."""

    _fields_ = [(name, c_size_t) for name in ("read", "kind", "p", "q", "u", "here")] + [
        ("first", c_int64), ("second", c_int64), ("good", c_uint8), ("wrong", c_size_t)]


class _Pair(ctypes.Structure):
    _fields_ = [("result", c_int64), ("plus", c_int64 * 2), ("minus", c_int64 * 2)]


class _Choice(ctypes.Structure):
    _fields_ = [("result", c_int64)] + [
        (name, c_uint64) for name in ("refusal", "place", "choice")]


class _Part(ctypes.Structure):
    _fields_ = [(name, c_uint64) for name in ("which", "length")]


class _Seconds(ctypes.Structure):
    _fields_ = [("refusal", c_uint64), ("place", c_uint64)]


class _FileRead(ctypes.Structure):
    _fields_ = [(name, c_uint64) for name in ("refusal", "place", "n", "lines")]


class _FileWritten(ctypes.Structure):
    _fields_ = [(name, c_uint64) for name in ("refusal", "place", "bytes")]


# The numbers of a model; and those that stand for an absent bound, in bounds and sums.
MODEL = c_int32
_NO_LEAST, _NO_GREATEST = -(2**63), 2**63 - 1


def _slice(number: Any) -> list[Any]:
    """A slice of numbers, as the calls take it."""
    return [POINTER(number), c_size_t]


_LIST = [c_uint64, *_slice(c_int32)]
_TREE = [*_LIST, *_slice(c_uint32)]
_BYTES = [c_uint64, *_slice(c_uint8), *_slice(c_uint8)]
_OUTPUTS = [*_slice(MODEL), *_slice(c_int64), *_slice(c_uint32), *_slice(c_uint32),
            *_slice(c_uint32), *_slice(c_int64)]

# Each call of the header: what it returns, and what it takes.
CALLS: dict[str, tuple[Any, list[Any]]] = {
    "utvpi_decide": (c_int64, [*_LIST, *_OUTPUTS]),
    "utvpi_decide_differences": (c_int64, [*_LIST, *_OUTPUTS]),
    "utvpi_check_model": (c_int64, _BYTES),
    "utvpi_check_refutation": (c_int64, _BYTES),
    "utvpi_refutation_begin": (Progress, []),
    "utvpi_refutation_take": (Progress, [Progress, *_slice(c_int32), c_uint32]),
    "utvpi_refutation_end": (c_int64, [Progress, *_LIST]),
    "utvpi_session_start": (c_int64, [c_uint64, *_slice(c_int64)]),
    "utvpi_session_add": (c_int64, [*_slice(c_int64), Line, *_OUTPUTS]),
    "utvpi_session_withdraw": (c_int64, _slice(c_int64)),
    "utvpi_session_pair": (_Pair, [*_slice(c_int64), c_uint64, c_uint64]),
    "utvpi_session_implied": (c_int64, [*_slice(c_int64), Line]),
    "utvpi_implied_pair": (_Pair, [*_LIST, c_uint64, c_uint64, *_slice(c_int64)]),
    "utvpi_implied_line": (c_int64, [*_LIST, Line, *_slice(MODEL), *_slice(c_int64)]),
    "utvpi_show_line": (c_int64, [*_LIST, Line, *_slice(c_uint32), *_slice(c_uint32),
                                  *_slice(c_int64)]),
    "utvpi_check_shown": (c_int64, [*_BYTES, *_slice(c_uint8)]),
    "utvpi_tree_first": (_Choice, [*_TREE, *_slice(MODEL), *_slice(c_int64)]),
    "utvpi_tree_decide": (_Choice, [*_TREE, c_uint64, *_OUTPUTS]),
    "utvpi_shorter": (_Part, [*_LIST, *_slice(c_uint32), *_slice(c_uint32)]),
    "utvpi_model_seconds": (_Seconds, [c_uint32, c_double, *_slice(c_int64), *_slice(c_double)]),
    "utvpi_events_seconds": (_Seconds, [*_slice(c_uint32), *_slice(c_double), *_slice(c_uint32),
                                        *_slice(c_int64), *_slice(c_double)]),
    "utvpi_read_list": (_FileRead, [*_slice(c_uint8), *_slice(c_int32)]),
    "utvpi_write_list": (_FileWritten, [*_LIST, *_slice(c_uint8)]),
    "utvpi_refusal_text": (c_char_p, [c_int]),
}


class Refused(Exception):
    """The library gives no answer: the number of the refusal, its place, and words on both."""

    def __init__(self, number: int, place: int, text: str) -> None:
        super().__init__(f"refused with number {number}, place {place}: {text}")
        self.number, self.place, self.text = number, place, text


class Unsolvable(Exception):
    """The list or the session that something was asked about can't be met."""


@dataclass(frozen=True)
class Yes:
    """Whole numbers meet the list: values, of each variable the least and the greatest, None
    where there is none, and its group: a variable, and whether it is with a minus."""

    model: list[int]
    bounds: list[tuple[Optional[int], Optional[int]]]
    groups: list[tuple[int, bool]]


@dataclass(frozen=True)
class No:
    """No whole numbers meet the list: a refutation, and the identifier of each step's line."""

    refutation: list[int]
    identifiers: list[int]

    def lines(self) -> list[int]:
        """The numbers of the lines that clash, in the order of the steps."""
        return [step // 2 for step in self.refutation[3:]]


@dataclass(frozen=True)
class Pair:
    """The greatest values of x + y and x - y, and of -x + y and -x - y; None where there is
    none."""

    plus: tuple[Optional[int], Optional[int]]
    minus: tuple[Optional[int], Optional[int]]


Answer = Union[Yes, No]


class Header:
    """What utvpi.h defines."""

    def __init__(self, text: str) -> None:
        joined = text.replace("\\\n", " ")
        self._numbers = dict(re.findall(r"^#define UTVPI_(\w+) (.+)$", joined, re.M))
        self._formulas = dict(re.findall(r"^#define UTVPI_(\w+)\(n\) (.+)$", joined, re.M))
        self.functions = re.findall(r"\b(utvpi_[a-z_]+)\(", text)
        refusals = text.split("enum utvpi_refusal {")[1].split("}")[0]
        self.refusals = {name: int(number) for name, number in re.findall(
            r"^    UTVPI_(\w+) = (\d+),?$", refusals, re.M)}

    def number(self, name: str) -> int:
        """A number by its name without UTVPI_."""
        return self._value(self._numbers[name])

    def room(self, name: str, n: int) -> int:
        """How many numbers a buffer needs for n variables, by the name of its formula."""
        return self._value(re.sub(r"\bn\b", str(n), self._formulas[name + "_ROOM"]))

    def _value(self, formula: str) -> int:
        """Works out sums and products of numbers and of other names."""
        formula = formula.replace("(size_t)", "")
        formula = re.sub(r"UTVPI_(\w+)", lambda found: str(self.number(found[1])), formula)
        if not re.fullmatch(r"[0-9 +*()-]+", formula):
            raise ValueError(f"not a sum or product of numbers: {formula}")
        return int(eval(formula))  # only digits, + and * are left  # pylint: disable=eval-used


def _asked(what: str) -> str:
    """What pkg-config says of the installed library."""
    try:
        done = subprocess.run(["pkg-config", f"--variable={what}", "utvpi"], check=True,
                              capture_output=True, text=True)
    except (OSError, subprocess.CalledProcessError) as why:
        raise OSError("pkg-config does not find utvpi: install it, name its folder by"
                      " PKG_CONFIG_PATH, or name library and header") from why
    return done.stdout.strip()


def _bound(value: int) -> Optional[int]:
    """A bound, or None where it is absent."""
    return None if value in (_NO_LEAST, _NO_GREATEST) else value


def _lent(number: Any, count: int) -> tuple[Any, int]:
    """A buffer of so many numbers, and its length."""
    return (number * max(count, 1))(), count


def _read(number: Any, values: Iterable[Any]) -> tuple[Any, int]:
    """Numbers that are only read, and how many there are."""
    values = list(values)
    return (number * max(len(values), 1))(*values), len(values)


class Library:
    """The calls of libutvpi. Lists are sequences of Line. Where library and header are not
    named, pkg-config says where they are."""

    def __init__(self, library: Optional[str] = None, header: Optional[str] = None) -> None:
        library = library or _asked("libdir") + "/libutvpi.so"
        with open(header or _asked("includedir") + "/utvpi.h", encoding="utf-8") as file:
            self.header = Header(file.read())
        loaded = ctypes.CDLL(library)
        self._call: dict[str, Any] = {}
        for name, (returned, taken) in CALLS.items():
            self._call[name] = getattr(loaded, name)
            self._call[name].restype = returned
            self._call[name].argtypes = taken

    def refusal_text(self, number: int) -> str:
        """A refusal in words: what is wrong, a colon, and what to do."""
        text: bytes = self._call["utvpi_refusal_text"](number)
        return text.decode()

    def decide(self, n: int, lines: Sequence[Line]) -> Answer:
        """Are there whole numbers that meet every line of this list of n variables?"""
        outputs = self._outputs(n)
        result = self._call["utvpi_decide"](n, *self._list(lines), *_flat(outputs))
        return self._answer(n, result, outputs)

    def decide_differences(self, n: int, lines: Sequence[Line]) -> Answer:
        """The same for a list of differences, lines with the coefficients 1 and -1 in either
        order, in a smaller work area."""
        outputs = self._outputs(n, "DIFFERENCES_WORK")
        result = self._call["utvpi_decide_differences"](n, *self._list(lines), *_flat(outputs))
        return self._answer(n, result, outputs)

    def check_model(self, n: int, lines: Sequence[Line], model: Sequence[int]) -> Optional[int]:
        """Does this model meet every line? None for a yes, or the first line that it does not
        meet."""
        values = b"".join(value.to_bytes(8, "little", signed=True) for value in model)
        return self._checked(self._call["utvpi_check_model"](
            n, *self._list_bytes(lines), *_read(c_uint8, values)))

    def check_refutation(self, n: int, lines: Sequence[Line],
                         refutation: Sequence[int]) -> Optional[int]:
        """Does this refutation show that the list can't be met? None for a yes, or the index
        of the number where it breaks."""
        return self._checked(self._call["utvpi_check_refutation"](
            n, *self._list_bytes(lines), *_number_bytes(refutation)))

    def refutation_begin(self) -> Progress:
        """Begins to check a refutation that arrives in pieces."""
        begun: Progress = self._call["utvpi_refutation_begin"]()
        return begun

    def refutation_take(self, kept: Progress, lines: Sequence[Line], number: int) -> Progress:
        """Takes the next number of it."""
        taken: Progress = self._call["utvpi_refutation_take"](kept, *self._list(lines), number)
        return taken

    def refutation_end(self, kept: Progress, n: int, lines: Sequence[Line]) -> Optional[int]:
        """The result at its end, as that of check_refutation on the whole."""
        return self._checked(self._call["utvpi_refutation_end"](kept, n, *self._list(lines)))

    def session_start(self, n: int) -> Any:
        """Starts a session of n variables without lines: gives back its state, a buffer."""
        state, room = self._room("SESSION", c_int64, n)
        self._checked(self._call["utvpi_session_start"](n, state, room))
        return state

    def session_add(self, state: Any, line: Line) -> Answer:
        """Adds a line behind those of the session, and decides all of them."""
        n = state[0]
        outputs = self._outputs(n)
        result = self._call["utvpi_session_add"](state, len(state), line, *_flat(outputs))
        return self._answer(n, result, outputs)

    def session_withdraw(self, state: Any) -> None:
        """Withdraws the last line of the session."""
        self._checked(self._call["utvpi_session_withdraw"](state, len(state)))

    def session_pair(self, state: Any, x: int, y: int) -> Pair:
        """What implied_pair says of the list of all lines of the session."""
        return self._pair(self._call["utvpi_session_pair"](state, len(state), x, y))

    def session_implied(self, state: Any, line: Line) -> bool:
        """Does every way to meet the lines of the session meet this line, too?"""
        result = self._call["utvpi_session_implied"](state, len(state), line)
        return self._checked(result) is None

    def implied_pair(self, n: int, lines: Sequence[Line], x: int, y: int) -> Pair:
        """How large can the sum and the difference of two variables be, with either sign?"""
        return self._pair(self._call["utvpi_implied_pair"](
            n, *self._list(lines), x, y, *self._room("WORK", c_int64, n)))

    def implied_line(self, n: int, lines: Sequence[Line], line: Line) -> Optional[list[int]]:
        """Does every way to meet the list meet this line, too? None for a yes, or values that
        meet the list and break the line."""
        model, room = self._room("MODEL", MODEL, n)
        broken = self._checked(self._call["utvpi_implied_line"](
            n, *self._list(lines), line, model, room, *self._room("WORK", c_int64, n)))
        return None if broken is None else list(model[:n])

    def show_line(self, n: int, lines: Sequence[Line], line: Line) -> Optional[No]:
        """Why does every way to meet the list meet this line, too? A refutation of the list
        against the line, in which the opposite line has the number UTVPI_MOST_LINES; None
        where some way to meet the list breaks the line."""
        lent = [self._room(name, c_uint32, n) for name in ("REFUTATION", "IDENTIFIERS")]
        broken = self._checked(self._call["utvpi_show_line"](
            n, *self._list(lines), line, *_flat(lent), *self._room("WORK", c_int64, n)))
        return _refutation(*(buffer for buffer, _ in lent)) if broken is None else None

    def check_shown(self, n: int, lines: Sequence[Line], line: Line,
                    showing: Sequence[int]) -> Optional[int]:
        """Does this showing show that every way to meet the list meets the line? None for a
        yes, or the index of the number where it breaks."""
        return self._checked(self._call["utvpi_check_shown"](
            n, *self._list_bytes(lines), *self._list_bytes([line]), *_number_bytes(showing)))

    def tree_first(self, n: int, lines: Sequence[Line],
                   tree: Sequence[int]) -> Optional[tuple[int, list[int]]]:
        """The number of the first choice of a tree whose lines can be met, and values that meet
        them; None where no choice can be met."""
        model, room = self._room("MODEL", MODEL, n)
        found = self._call["utvpi_tree_first"](n, *self._list(lines), *_read(c_uint32, tree),
                                               model, room, *self._room("WORK", c_int64, n))
        self._written(found)
        return (found.choice, list(model[:n])) if found.result == 0 else None

    def tree_decide(self, n: int, lines: Sequence[Line], tree: Sequence[int],
                    choice: int) -> Answer:
        """Decides the lines that a choice of a tree picks."""
        outputs = self._outputs(n)
        found = self._call["utvpi_tree_decide"](n, *self._list(lines), *_read(c_uint32, tree),
                                                choice, *_flat(outputs))
        self._written(found)
        return self._answer(n, found.result, outputs)

    def shorter(self, n: int, lines: Sequence[Line], first: Sequence[int],
                second: Sequence[int]) -> list[int]:
        """The shorter of two refutations, of those that the checker accepts; empty where it
        accepts neither."""
        part = self._call["utvpi_shorter"](n, *self._list(lines), *_read(c_uint32, first),
                                           *_read(c_uint32, second))
        lent = {self.header.number("SHORTER_FIRST"): first,
                self.header.number("SHORTER_SECOND"): second}
        return list(lent.get(part.which, [])[: part.length])

    def model_seconds(self, form: int, rate: float, counts: Sequence[int]) -> list[float]:
        """Counts of one clock in seconds: form 0 is seconds per tick, 1 ticks per second."""
        seconds, room = _lent(c_double, len(counts))
        self._written(self._call["utvpi_model_seconds"](
            form, rate, *_read(c_int64, counts), seconds, room))
        return list(seconds[:room])

    def events_seconds(self, forms: Sequence[int], rates: Sequence[float],
                       recorders: Sequence[int], counts: Sequence[int]) -> list[float]:
        """Counts of events in seconds, each by the clock of its recorder."""
        seconds, room = _lent(c_double, len(counts))
        self._written(self._call["utvpi_events_seconds"](
            *_read(c_uint32, forms), *_read(c_double, rates), *_read(c_uint32, recorders),
            *_read(c_int64, counts), seconds, room))
        return list(seconds[:room])

    def read_list(self, data: bytes) -> tuple[int, list[Line]]:
        """Reads the list of a file of records: n, and the lines."""
        size, most = self.header.number("LINE_NUMBERS"), self.header.number("MOST_LINES")
        numbers, room = _lent(c_int32, size * most)
        read = self._call["utvpi_read_list"](*_read(c_uint8, data), numbers, room)
        self._written(read)
        lines = [Line(*numbers[size * at : size * (at + 1)]) for at in range(read.lines)]
        return read.n, lines

    def write_list(self, n: int, lines: Sequence[Line]) -> bytes:
        """The file of a list."""
        head = self.header.number("RECORD_HEAD")
        most = self.header.number("BEFORE_LINES") + head + len(lines) * (
            head + self.header.number("LINE_BYTES"))
        out, room = _lent(c_uint8, most)
        written = self._call["utvpi_write_list"](n, *self._list(lines), out, room)
        self._written(written)
        return bytes(out[: written.bytes])

    def _list(self, lines: Sequence[Line]) -> tuple[Any, int]:
        return _read(c_int32, (number for line in lines for number in line.numbers()))

    def _list_bytes(self, lines: Sequence[Line]) -> tuple[Any, int]:
        return _read(c_uint8, b"".join(number.to_bytes(4, "little", signed=True)
                                       for line in lines for number in line.numbers()))

    def _room(self, name: str, number: Any, n: int) -> tuple[Any, int]:
        """A buffer for n variables. With too many of them the library looks at none."""
        return _lent(number, self.header.room(name, min(n, self.header.number("MOST_VARIABLES"))))

    def _outputs(self, n: int, work: str = "WORK") -> list[tuple[Any, int]]:
        """The six buffers that deciding is lent, with a work area of the room so named."""
        kinds = [("MODEL", MODEL), ("BOUNDS", c_int64), ("GROUPS", c_uint32),
                 ("REFUTATION", c_uint32), ("IDENTIFIERS", c_uint32), (work, c_int64)]
        return [self._room(name, number, n) for name, number in kinds]

    def _pair(self, pair: _Pair) -> Pair:
        self._checked(pair.result)
        return Pair((_bound(pair.plus[0]), _bound(pair.plus[1])),
                    (_bound(pair.minus[0]), _bound(pair.minus[1])))

    def _answer(self, n: int, result: int, outputs: list[tuple[Any, int]]) -> Answer:
        model, bounds, groups, refutation, identifiers, _ = (buffer for buffer, _ in outputs)
        if self._checked(result) is None:
            return Yes(list(model[:n]),
                       [(_bound(bounds[2 * v]), _bound(bounds[2 * v + 1])) for v in range(n)],
                       [(groups[2 * v], groups[2 * v + 1] == 1) for v in range(n)])
        return _refutation(refutation, identifiers)

    def _checked(self, result: int) -> Optional[int]:
        """None for a yes, the k of a no; anything else is raised."""
        unit = self.header.number("REFUSAL_UNIT")
        if result < 0:
            number, place = divmod(-result, unit)
            raise Refused(number, place, self.refusal_text(number))
        if result == self.header.number("UNSOLVABLE"):
            raise Unsolvable("no whole numbers meet the lines")
        return None if result == 0 else result - self.header.number("NO")

    def _written(self, written: Any) -> None:
        if written.refusal != 0:
            raise Refused(written.refusal, written.place, self.refusal_text(written.refusal))


def _flat(buffers: Iterable[tuple[Any, int]]) -> list[Any]:
    """Buffers and lengths, one behind the other."""
    return [part for buffer in buffers for part in buffer]


def _number_bytes(numbers: Iterable[int]) -> tuple[Any, int]:
    """The bytes of a refutation's numbers, and how many there are."""
    return _read(c_uint8, b"".join(number.to_bytes(4, "little") for number in numbers))


def _refutation(refutation: Any, identifiers: Any) -> No:
    """What stands in the buffers of a refutation and of its identifiers."""
    steps = refutation[1] + refutation[2]
    return No(list(refutation[: 3 + steps]), list(identifiers[:steps]))
