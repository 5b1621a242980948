#!/usr/bin/env python3
"""symk.py: lists of plans from Python, and whether a list that another planner wrote is right.

    import symk
    for plan in symk.plans("examples/two-switches.sas", 5):
        print(plan.cost, plan.names)

One file and the standard library alone, for Python 3.9 and later: copy it to where it is wanted. A task is a SAS file (version 3), as
Fast Downward's translator writes it. What is said of a list comes of the program, which is proved; nothing here is.

On the command line:

    symk.py TASK --k K [--json] [--plans-to DIR] [what `symk plan` takes] [--seconds S] [--megabytes M]
    symk.py audit TASK LIST|DIR.. [--mode M] [--complete | --bound Q | --quality P]

The program is the one that `program=` names, a path or a list of words; else the one of the environment variable SYMK_PROGRAM; else, where
this file stands in the repository, `.symk/symk`, once it is built, or the script `symk`; else `symk` on the path.
"""
from __future__ import annotations

import argparse
import fcntl
import itertools
import json
import os
import re
import resource
import shlex
import shutil
import signal
import subprocess
import sys
import tempfile
import threading
import time
import weakref
from contextlib import contextmanager
from fractions import Fraction
from functools import lru_cache
from operator import itemgetter
from pathlib import Path
from typing import Any, Callable, ContextManager, Dict, Generator, Iterable, Iterator, List, NamedTuple, Optional, Sequence, Tuple, Union

PathLike = Union[str, "os.PathLike[str]"]
Program = Union[PathLike, Sequence[str], None]
Limits = Tuple[Program, Optional[float], Optional[float]]
MODES = ("topk", "loopless", "unordered")
ENDS = {"reached": 0, "more": 0, "exhausted": 10, "bounded": 13, "cost range": 31, "out of memory": 40, "timed out": 124}
MOST_PLANS = 1_000_000_000
PIECE, SHORT, LONGEST, LONGEST_FOOT = 1 << 16, 1 << 12, 1 << 28, 60
# Where blocks have more characters than this, it is worth a look what they begin alike with.
LONG = 300
# What Linux calls the size of a pipe (Python names it since 3.10), and the greatest that everybody may ask for.
PIPE_SIZE, PIPE = 1031, 1 << 20
REFUSALS = {11: r"bad plan \d+: .+", 14: r"plans miss a plan of cost \d+", 20: r"line \d+: wanted .+|plans line \d+|cert line \d+",
            21: r"usage: (?s:.*)", 22: r"(file|plans|cert) too long", 23: r"(file|plans|cert) unreadable"}


# What comes out.

class Refused(Exception):
    """The program refused what it was given: a task or a list that isn't as it should be, or the words.

    `status` is the program's, `said` its line; `line` and `wanted` are the line of the file and the shape that should stand there, where
    the refusal names them.

    >>> try:
    ...     check("examples/README.md", "list.txt")
    ... except Refused as why:
    ...     print(why.status, why.line, why.wanted)
    20 1 begin_version
    """

    def __init__(self, status: int, said: str):
        super().__init__(said)
        named = re.search(r"\bline (\d+)(?:: wanted (.*))?$", said)
        self.status, self.said = status, said
        self.line = int(named[1]) if named else None
        self.wanted = named[2] if named else None


class Broken(Exception):
    """What came is no list of plans, or the program ended as it never should: by a signal, by an unknown status, in mid-block.

    >>> try:
    ...     list(plans("examples/blocks.sas", 3, program=["false"]))
    ... except Broken as why:
    ...     print(why)
    the program ended with status 1
    """


class Stopped(Exception):
    """A check or a proof came to no answer: it timed out, or was out of memory, as the words of the exception say.

    >>> try:
    ...     check("examples/blocks.sas", [], program=["sh", "-c", "sleep 60"], seconds=0.1)
    ... except Stopped as why:
    ...     print(why)
    timed out
    """


class End(NamedTuple):
    """Why a list ends, and how many plans it has, those of the list that it goes on from included.

    `why` is `reached`, `exhausted`, `more`, `bounded` or `cost range`, as docs/FORMATS.md says; or `timed out` or `out of memory`, and then
    the list has no end of its own: its plans are right, and nothing is said of others.

    >>> End("exhausted", 2).plans, str(End("exhausted", 2))
    (2, 'exhausted 2')
    """

    why: str
    plans: int

    def __str__(self) -> str:
        return "%s %d" % self

    @property
    def line(self) -> str:
        """The line of a list that says so."""
        return "; cost range" if self.why == "cost range" else "; %s %d" % self


class Verdict(NamedTuple):
    """What a check, a proof or an audit says: whether it is so, and the words for it. A verdict is true where it is `good`.

    Of a bad list `plan` is the number of the first plan that fails, and `why` the reason.

    >>> bool(Verdict(False, "not shown: goal"))
    False
    """

    good: bool
    said: str
    plan: Optional[int] = None
    why: Optional[str] = None

    def __bool__(self) -> bool:
        return self.good

    def __str__(self) -> str:
        return self.said


class Plan:
    """A plan: its operators by number and by name, its cost, and its number in the list.

    Two plans are equal where their operators are the same in the same order. When a block comes, its number, its cost and how many lines it
    has are tested; its operators and names are split up, and tested, when they are asked for: then too `Broken` may come.

    >>> plan = next(plans("examples/two-switches.sas", 5))
    >>> plan
    Plan((0, 1), ('a-on', 'b-on'), 2, number=1)
    >>> print(plan.block().decode(), end="")
    ; plan 1
    ; ops 0 1
    (a-on)
    (b-on)
    ; cost = 2 (unit cost)
    """

    __slots__ = ("number", "cost", "unit", "_length", "_operators", "_names", "_shared")

    def __init__(self, operators: Iterable[int], names: Iterable[str], cost: int, number: int = 1, unit: bool = True):
        self.number, self.cost, self.unit = number, cost, unit
        self._operators: Union[str, Tuple[int, ...]] = tuple(operators)
        self._names: Union[str, Tuple[str, ...]] = tuple(names)

    @property
    def operators(self) -> Tuple[int, ...]:
        operators = self._operators
        if type(operators) is str:
            self._operators = operators = self._shared.operators_of(operators) if self._shared else _operators_of(operators)
        return operators

    @property
    def names(self) -> Tuple[str, ...]:
        names = self._names
        if type(names) is str:
            self._names = names = self._shared.names_of(names, self._length) if self._shared else _names_of(names, self._length)
        return names

    def block(self, number: Optional[int] = None) -> bytes:
        """The plan as it stands in a list, by its own number or another."""
        lines = ["; plan %d" % (self.number if number is None else number), "; ops" + "".join(" %d" % one for one in self.operators),
                 *("(%s)" % name for name in self.names), "; cost = %d (%s cost)" % (self.cost, "unit" if self.unit else "general"), ""]
        return "\n".join(lines).encode("utf-8", "surrogateescape")

    def __eq__(self, other: object) -> bool:
        return self.operators == other.operators if isinstance(other, Plan) else NotImplemented

    def __hash__(self) -> int:
        return hash(self.operators)

    def __repr__(self) -> str:
        return "Plan(%r, %r, %d, number=%d%s)" % (self.operators, self.names, self.cost, self.number, "" if self.unit else ", unit=False")


class _Listed(Plan):
    """A plan of a list, not split up yet: `_operators` and `_names` are texts, of so many steps as `_length` says, and `_shared` is what
    they begin with as those of other plans do, if it is known.

    A class of its own, since to call it without words takes a third of the time that `Plan.__new__(Plan)` takes.
    """

    __slots__ = ()
    __init__ = object.__init__


class Plans(Iterator[Plan]):
    """Plans one by one, as a generator gives them, and then `end`; before, and where the loop was left, `end` is None.

    >>> found = plans("examples/two-switches.sas", 5)
    >>> [plan.names for plan in found], found.end
    ([('a-on', 'b-on'), ('b-on', 'a-on')], End(why='exhausted', plans=2))
    """

    def __init__(self, opened: Opened, number: Optional[int]):
        self._ended: List[Optional[End]] = []
        self._kept: Optional[Generator[Plan, None, None]] = _blocks(opened, number, self._ended)
        self._run = weakref.ref(self._kept)

    @property
    def end(self) -> Optional[End]:
        return self._ended[0] if self._ended else None

    def __iter__(self) -> Iterator[Plan]:
        # From here on nobody but the loop holds what runs, so it is closed where the loop is left; and no step passes through a second
        # generator that would close it.
        run, self._kept = self._run(), None
        return iter(()) if run is None else run

    def __next__(self) -> Plan:
        return next(self._run() or iter(()))

    def close(self) -> None:
        """Ends the program, where it runs."""
        run = self._run()
        if run is not None:
            run.close()

    def __enter__(self) -> Plans:
        return self

    def __exit__(self, *_: object) -> None:
        self.close()


# Reading a list.

COST = re.compile(r"([0-9]{1,20}) \((unit|general) cost\)")
END_LINE = re.compile(rb"; (?:(reached|exhausted|more|bounded) (\d{1,20})|(cost range))\r?\n\Z")
END_SHAPES = {0: r"; (reached|more) \d+", 10: r"; exhausted \d+", 13: r"; bounded \d+", 31: "; cost range"}
FRONT = re.compile(rb"; plan \d{1,20}\r?\n; ops([ \d]*)(?:\r?\n|\r?\Z)")
# What stands before the cost of a block.
FOOT = b"\n; cost = "
# How a list is read: a call for the bytes that come next, at most so many, b"" at the end, and one for the end of the list, by what is left
# behind the last block and by the number that a next one would have, where it is known.
Opened = ContextManager[Tuple[Callable[[int], bytes], Callable[[bytes, Optional[int]], Optional[End]]]]


def _plan(lines: List[str], foot: str, number: Optional[int]) -> Plan:
    """The plan of a block: something, its first line, its operators and its steps, and what stands in its last line behind `; cost = `.

    The number is None where it isn't known.
    """
    if foot[-1:] == "\r":
        foot, lines = foot[:-1], [line[:-1] if line[-1:] == "\r" else line for line in "\n".join(lines).replace("\r\n", "\n").split("\n", 3)]
    cost = _cost(foot)
    length = lines[3].count("\n") + 1 if len(lines) == 4 else 0
    if not cost or len(lines) < 3 or lines[2][:5] != "; ops" or lines[2].count(" ") != length + 1:
        raise Broken("this is no block of a plan: %s" % _shown("\n".join([*lines[1:], "; cost = " + foot]).encode("utf-8", "surrogateescape")))
    plan, operators = _Listed(), lines[2]
    plan.cost, plan.unit = cost
    plan.number = number if number and lines[1] == "; plan %d" % number else _number(lines[1], number)
    plan._operators = operators[6:] if operators[:6] == "; ops " else () if operators == "; ops" else operators
    plan._names, plan._length, plan._shared = lines[3] if length else (), length, None
    return plan


# Numbers by their digits, each read once, since the operators of a task are few; at most 65,536 are kept.
NUMBERS: Dict[str, int] = {}


def _number_of(digits: str) -> int:
    number = NUMBERS.get(digits)
    if number is None:
        if not (digits.isdigit() and digits.isascii()):
            raise Broken("these are no operators of a plan: %s" % _shown(digits.encode("utf-8", "surrogateescape")))
        if len(NUMBERS) == 1 << 16:
            NUMBERS.clear()
        number = NUMBERS[digits] = int(digits)
    return number


def _operators_of(text: str) -> Tuple[int, ...]:
    """The numbers of a text, with one space between two."""
    words = text.split(" ")
    try:
        # (which is quicker than a loop over the words; of one word it would make no tuple)
        return itemgetter(*words)(NUMBERS) if len(words) > 1 else (NUMBERS[text],)
    except KeyError:
        # (a line of something else is shown whole)
        return tuple(map(_number_of, [text] if text[:1] == ";" else words))


def _names_of(steps: str, length: int) -> Tuple[str, ...]:
    """The names of so many lines, each in brackets."""
    bare = steps.removeprefix("(").removesuffix(")")
    names = bare.split(")\n(")
    if len(names) != length or len(bare) != len(steps) - 2:
        raise Broken("these are no steps of a plan: %s" % _shown(steps.encode("utf-8", "surrogateescape")))
    return tuple(names)


class _Shared:
    """What plans that came at once begin alike with: plans that follow one another mostly have the same first steps. It is split up once
    for all of them, when it is first asked for.

    `operators` is the text up to a space, and `steps` that up to a line's end, so neither is all that a plan has.
    """

    __slots__ = ("operators", "steps", "spaces", "lines", "_numbers", "_names")

    def __init__(self, operators: str, steps: str):
        self.operators, self.steps, self.spaces, self.lines = operators, steps, operators.count(" "), steps.count("\n")
        self._numbers: Tuple[int, ...] = ()
        self._names: Tuple[str, ...] = ()

    def operators_of(self, text: str) -> Tuple[int, ...]:
        self._numbers = self._numbers or _operators_of(self.operators[:-1])
        return self._numbers + _operators_of(text[len(self.operators):])

    def names_of(self, steps: str, length: int) -> Tuple[str, ...]:
        try:
            self._names = self._names or _names_of(self.steps[:-1], self.lines)
            return self._names + _names_of(steps[len(self.steps):], length - self.lines)
        except Broken:
            return _names_of(steps, length)  # (which shows the plan's first steps)


def _shared(first: str, last: str) -> Optional[_Shared]:
    """What two blocks begin alike with, where that is a quarter of the operators or more."""
    (operators, _, steps), (others, _, other_steps) = (block.partition("\n; ops ")[2].partition("\n") for block in (first, last))
    shared = _Shared(_alike(operators, others, " "), _alike(steps, other_steps, "\n"))
    return shared if shared.lines and 4 * len(shared.operators) > len(operators) else None


def _alike(one: str, other: str, mark: str) -> str:
    """What two texts begin alike with, up to the last mark there, by halves: to compare parts is quicker than to go by characters."""
    least, most = 0, min(len(one), len(other))
    while least < most:
        middle = (least + most + 1) // 2
        if one[least:middle] == other[least:middle]:
            least = middle
        else:
            most = middle - 1
    return one[:one.rfind(mark, 0, least) + 1]


@lru_cache(maxsize=256)
def _cost(foot: str) -> Optional[Tuple[int, bool]]:
    """The cost that a line tells, and whether every operator costs 1; lines of one cost follow one another."""
    told = COST.fullmatch(foot)
    return (int(told[1]), told[2] == "unit") if told and int(told[1]) >> 64 == 0 else None


def _number(line: str, number: Optional[int]) -> int:
    """The number of a block, however it is spelled."""
    told = re.fullmatch("; plan ([0-9]{1,20})", line)
    if not told or number not in (None, int(told[1])):
        shown = _shown(line.encode("utf-8", "surrogateescape"))
        raise Broken("this is no first line of block %s: %s" % ("of a plan" if number is None else number, shown))
    return int(told[1])


def _shown(text: bytes) -> str:
    return ascii(bytes(text[:60]).decode("latin-1")) + (" .." if len(text) > 60 else "")


def _look(held: bytes) -> None:
    """Refuses what no block can begin with, so that rubbish without end isn't held. More than any first line was read."""
    front = FRONT.match(held)
    if not front or held[front.end():front.end() + 1] not in (b"(", b";", b"") or len(held) > LONGEST:
        raise Broken("this is no block of a plan: %s" % _shown(held))
    if held.count(b"\n", front.end()) > front[1].count(b" "):
        raise Broken("this block of a plan has too many lines: %s" % _shown(held))


def _blocks(opened: Opened, number: Optional[int], ended: List[Optional[End]]) -> Generator[Plan, None, None]:
    """The plans of a list, the first of this number, where it is known; at last what ends the list is put into `ended`.

    Nearly every block has the next number and the cost of the one before, so what stands around its operators and steps is known before it
    is looked at: such a block is split up here, since for a short one each call of a function of ours takes as long as a search in its text.
    `_plan` has all others, and says what is wrong with a block.
    """
    number, foot, cost = number or 0, "", None
    with opened as (read, end):
        left = b""
        for text, left in _texts(read):
            # Each part tells the cost of the block before, and then has the next block; `body` is a block's operators and steps.
            block, *parts = ("\n" + text).split("\n; cost = ")
            body = _behind(f"\n; plan {number}\n; ops ", block)
            shared = _shared(block, parts[-2]) if len(parts) > 4 and len(text) > LONG * len(parts) else None
            for part in parts:
                following = part.removeprefix(f"{foot}\n; plan {number + 1}\n; ops ")
                if following == part:
                    following, told = "", part.partition("\n")[0]
                    if told != foot:
                        foot, cost = told, _cost(told)
                        following = _behind(f"{foot}\n; plan {number + 1}\n; ops ", part)
                operators, _, steps = body.partition("\n")
                if shared and not (operators.startswith(shared.operators) and steps.startswith(shared.steps)):
                    shared = None
                if shared:
                    lines = shared.lines + steps.count("\n", len(shared.steps))
                    spaces = shared.spaces + operators.count(" ", len(shared.operators))
                else:
                    lines, spaces = steps.count("\n"), operators.count(" ")
                if cost and steps and lines == spaces:
                    plan = _Listed()
                    plan.number = number
                    plan.cost, plan.unit = cost
                    plan._operators = operators
                    plan._names = steps
                    plan._length = lines + 1
                    plan._shared = shared
                else:
                    plan = _plan(block.split("\n", 3), foot, number or None)
                    number = plan.number
                number += 1
                yield plan
                block, body = part, following
        ended.append(end(left, number or None))


def _behind(front: str, text: str) -> str:
    """What stands in a text behind what it begins with; nothing where it doesn't."""
    return text[len(front):] if text.startswith(front) else ""


def _texts(read: Callable[[int], bytes]) -> Iterator[Tuple[str, bytes]]:
    """The blocks of a list, as many in a text as have come, without the last line's end, and what was read behind them; the last text has
    none. `read` gives b"" at the end."""
    held, seen, looked = b"", 0, SHORT
    while True:
        stop = _whole(held, seen)
        if stop:
            text, held, looked = held[:stop].decode("utf-8", "surrogateescape"), held[stop + 1:], SHORT
            yield text, held
        seen = max(0, len(held) - LONGEST_FOOT)
        if len(held) > looked:
            _look(held)
            looked = 2 * len(held)
        piece = read(PIECE)
        if not piece and (not held or held.endswith(b"\n")):
            yield "", held
            return
        held += piece or b"\n"


def _whole(held: bytes, seen: int) -> int:
    """Where the last whole block of a text ends, with no line's end of its own; 0 where none does. Before `seen` no block ends."""
    at = len(held)
    while at >= 0:
        at = held.rfind(FOOT, seen, at)
        stop = held.find(b"\n", at + len(FOOT)) if at >= 0 else 0
        if stop >= 0:
            return stop
    return 0


def _end_of(left: bytes, number: Optional[int]) -> Optional[End]:
    """The end that a last line says, None where it says none, by the number that a next plan would have had."""
    line = END_LINE.match(left)
    if line and (line[3] or number in (None, int(line[2]) + 1)):
        return End("cost range", (number or 1) - 1) if line[3] else End(line[1].decode(), int(line[2]))
    return None


def read_list(source: Any) -> Plans:
    """The plans of a list that stands in a file: a path, or what was opened for reading bytes. `Broken` where it is no list.

    The text is only split up here; whether it is right is asked of `check` and `audit`. `.end` is None where it has no end line.

    >>> from io import BytesIO
    >>> [plan.cost for plan in read_list(BytesIO(b"; plan 1\\n; ops 0\\n(switch-on)\\n; cost = 1 (unit cost)\\n"))]
    [1]
    """
    return Plans(_reading(source), 1)


@contextmanager
def _reading(source: Any) -> Iterator[Any]:
    file = source if hasattr(source, "read") else open(source, "rb")
    try:
        yield file.read, _end_of_file
    finally:
        if file is not source:
            file.close()


def _end_of_file(left: bytes, number: Optional[int]) -> Optional[End]:
    end = _end_of(left, number)
    if left and not end:
        raise Broken("this is no block of a plan, and no end of a list: %s" % _shown(left))
    return end


# Running the program.

def _words_of(program: Program) -> List[str]:
    """The words that call the program."""
    program = program or os.environ.get("SYMK_PROGRAM") or None
    if program is None:
        top = Path(__file__).resolve().parent.parent
        for path in (top / ".symk" / "symk", top / "symk"):
            if path.is_file() and os.access(path, os.X_OK):
                return [str(path)]
        program = "symk"
    words = [os.fspath(program)] if isinstance(program, (str, os.PathLike)) else [os.fspath(word) for word in program]
    if not shutil.which(words[0]):
        raise FileNotFoundError("no program %r: name one by program= or SYMK_PROGRAM" % words[0])
    return words


@lru_cache(maxsize=None)
def _bound_to_python() -> Tuple[str, ...]:
    """Words by which the system ends a program where Python dies, however it does; none where it has no such command (util-linux)."""
    words = ("setpriv", "--pdeathsig", "KILL")
    try:
        quiet = subprocess.DEVNULL
        return words if subprocess.run([*words, "true"], stdin=quiet, stdout=quiet, stderr=quiet).returncode == 0 else ()
    except OSError:
        return ()


def _kill(process: subprocess.Popen[bytes]) -> None:
    """Ends the program and what it started. Until it is waited for, its number is no other's."""
    if process.returncode is None:
        try:
            os.killpg(process.pid, signal.SIGKILL)
        except ProcessLookupError:
            pass


class _Run:
    """A run of the program, within limits; it has ended where the `with` is left, in whatever way."""

    def __init__(self, words: Sequence[str], program: Program, seconds: Optional[float], megabytes: Optional[float]):
        command = [*_words_of(program), *words]
        if megabytes is not None:
            command = ["/bin/sh", "-c", 'ulimit -v "$0" && exec "$@"', str(int(megabytes * 1_000_000) // 1024), *command]
        # (the system would end it with the thread that began it, so another thread's program isn't bound)
        if threading.current_thread() is threading.main_thread():
            command = [*_bound_to_python(), *command]
        self.late = False
        self.process = subprocess.Popen(command, stdin=subprocess.DEVNULL, stdout=subprocess.PIPE, bufsize=0, start_new_session=True)
        self.read = self.process.stdout.read
        self.ends = weakref.finalize(self, _kill, self.process)
        try:
            # (the program goes on while the loop is at work, or waits for a processor)
            fcntl.fcntl(self.process.stdout, PIPE_SIZE, PIPE)
        except OSError:
            pass
        self.timer = threading.Timer(seconds, self.stop) if seconds is not None else None
        if self.timer:
            self.timer.daemon = True
            self.timer.start()

    def stop(self) -> None:
        self.late = True
        _kill(self.process)

    def __enter__(self) -> _Run:
        return self

    def __exit__(self, *_: object) -> None:
        if self.timer:
            self.timer.cancel()
        self.ends()
        self.process.stdout.close()
        self.process.wait()

    def end_of_list(self, left: bytes, number: Optional[int]) -> End:
        """How the list that it wrote ends, once all its output was read."""
        status, end = self.status(left, END_SHAPES), _end_of(left, number)
        if isinstance(status, str):
            return End(status, (number or 1) - 1)
        if not end:
            raise Broken("this is not how the list can end: %s" % _shown(left))
        return end

    def status(self, said: bytes, answers: Dict[int, str]) -> Union[int, str]:
        """How the run ended, once all its output was read: `timed out` or `out of memory`, or a status of `answers`.

        `said` is what it wrote last; an answer's shape stands beside its status. `Refused` where it refused what it was given.
        """
        status, line = self.process.wait(), said.decode("utf-8", "replace")
        if self.late and status == -signal.SIGKILL:
            return "timed out"
        if status == 40:
            return "out of memory"
        if re.fullmatch(answers.get(status, "(?!)") + "\n", line):
            return status
        if re.fullmatch("(" + REFUSALS.get(status, "(?!)") + ")\n", line):
            raise Refused(status, line[:-1])
        how = "was ended by signal %d" % -status if status < 0 else "ended with status %d" % status
        raise Broken("the program %s%s" % (how, ", having written last " + _shown(said) if said else ""))


def _path(path: PathLike) -> str:
    """A path as a word that is no option."""
    path = os.fspath(path)
    return "./" + path if path.startswith("-") else path


@contextmanager
def _listed(plans: Any) -> Iterator[str]:
    """The path of a list: the path that is given, or that of a file which is made of plans for the time being."""
    if isinstance(plans, (str, os.PathLike)):
        yield _path(plans)
        return
    with tempfile.NamedTemporaryFile(suffix=".plans") as file:
        file.writelines(plan.block(number) for number, plan in enumerate(plans, 1))
        file.flush()
        yield file.name


def plans(task: PathLike, k: int, *, mode: Optional[str] = None, search: Optional[str] = None, more: bool = False,
          bound: Optional[int] = None, quality: Optional[int] = None, after: Any = None, mutex: bool = False,
          program: Program = None, seconds: Optional[float] = None, megabytes: Optional[float] = None) -> Plans:
    """The k cheapest plans of a task, each as soon as it is found, and then `.end`. What the words mean is in docs/USING.md.

    `after` is the path of an earlier list, or its plans. The run takes at most `seconds` by the clock and `megabytes` of memory (10^6 bytes);
    past these `.end` says so, and the plans that came are right. The program begins with the first plan that is asked for, and is ended
    where the loop is left. Only the block at hand is held. `Refused` and `Broken` come from the loop.

    >>> for plan in plans("examples/switch-and-back.sas", 100, bound=4):
    ...     print(plan.cost, *plan.names)
    1 switch-on
    3 switch-on switch-off switch-on
    >>> first = list(plans("examples/switch-and-back.sas", 2))
    >>> [plan.cost for plan in plans("examples/switch-and-back.sas", 2, after=first)]
    [5, 7]
    """
    words = ["plan", _path(task), "--k", str(k)]
    for name, value in (("mode", mode), ("search", search)):
        words += ["--" + name, value] if value is not None else []
    words += ["--more"] if more else []
    for name, number in (("bound", bound), ("quality", quality)):
        words += ["--" + name, str(number)] if number is not None else []
    return Plans(_planning(words, after, mutex, (program, seconds, megabytes)), 1 if after is None else None)


@contextmanager
def _planning(words: List[str], after: Any, mutex: bool, limits: Limits) -> Iterator[Any]:
    with _listed(() if after is None else after) as earlier:
        words = [*words, *([] if after is None else ["--after", earlier]), *(["--mutex"] if mutex else [])]
        with _Run(words, *limits) as run:
            yield run.read, run.end_of_list


def _said(words: List[str], answers: Dict[int, str], limits: Limits) -> Tuple[int, str]:
    """The status and the line of a run that answers in one line, which is as `answers` has it for the status."""
    with _Run(words, *limits) as run:
        said = piece = run.read(PIECE)
        while piece:
            if len(said) > PIECE:
                raise Broken("the program wrote more than a line: %s" % _shown(said))
            piece = run.read(PIECE)
            said += piece
        status = run.status(said, answers)
    if isinstance(status, str):
        raise Stopped(status)
    return status, said.decode("utf-8", "replace")[:-1]


def check(task: PathLike, plans: Any, *, mode: Optional[str] = None, program: Program = None, seconds: Optional[float] = None,
          megabytes: Optional[float] = None) -> Verdict:
    """Whether each plan of a list is one of the mode, none comes twice, and costs never fall. The list is a path, or plans.

    It says nothing of plans that the list lacks: that is what `audit` asks.

    >>> check("examples/switch-and-back.sas", plans("examples/switch-and-back.sas", 3))
    Verdict(good=True, said='good 3', plan=None, why=None)
    >>> check("examples/switch-and-back.sas", plans("examples/switch-and-back.sas", 3), mode="loopless").why
    'loops at step 2'
    """
    with _listed(plans) as path:
        words = ["check", _path(task), path, *(["--mode", mode] if mode is not None else [])]
        status, said = _said(words, {0: r"good \d+", 11: r"bad plan \d+: .+"}, (program, seconds, megabytes))
    return _verdict(said)


def _verdict(said: str) -> Verdict:
    bad = re.match(r"bad plan (\d+): (.*)", said)
    return Verdict(False, said, int(bad[1]), bad[2]) if bad else Verdict(True, said)


def prove(task: PathLike, to: PathLike, *, program: Program = None, seconds: Optional[float] = None,
          megabytes: Optional[float] = None) -> Verdict:
    """Whether a task has no plan. Where it has none, the certificate of that is written to the file `to`; else there is no such file.

    >>> import tempfile
    >>> with tempfile.TemporaryDirectory() as folder:
    ...     print(prove("examples/no-plan.sas", folder + "/cert.txt"), "-", refute("examples/no-plan.sas", folder + "/cert.txt"))
    no plan - no plan
    """
    with open(to, "wb") as file:
        try:
            with _Run(["prove", _path(task)], program, seconds, megabytes) as run:
                said = piece = run.read(PIECE)
                while piece:
                    file.write(piece)
                    piece = run.read(PIECE)
                    said = (said + piece)[-PIECE:]
                status = run.status(said, {0: r"(?s:.*)\nend", 15: "has a plan"})
            if isinstance(status, str):
                raise Stopped(status)
        except BaseException:
            os.unlink(to)
            raise
    if status == 15:
        os.unlink(to)
    return Verdict(status == 0, "no plan" if status == 0 else "has a plan")


def refute(task: PathLike, certificate: PathLike, *, program: Program = None, seconds: Optional[float] = None,
           megabytes: Optional[float] = None) -> Verdict:
    """Whether a certificate, whoever wrote it, shows that a task has no plan. If not, `said` names the first part that fails.

    >>> import tempfile
    >>> with tempfile.NamedTemporaryFile("w") as file:
    ...     print(file.write("symk-cert 1\\nbits 2\\nnodes 0\\nroot 1\\nend\\n") and file.flush() or refute("examples/no-plan.sas", file.name))
    not shown: goal
    """
    words = ["refute", _path(task), _path(certificate)]
    shapes = {0: "no plan", 16: r"not shown: (initial state|operator \d+|goal)"}
    status, said = _said(words, shapes, (program, seconds, megabytes))
    return Verdict(status == 0, said)


# The calls of other packages of planners.

def plan_topk(domain_file: Optional[PathLike] = None, problem_file: Optional[PathLike] = None, number_of_plans_bound: int = 1,
              timeout: Optional[float] = None, **wishes: Any) -> Dict[str, Any]:
    """The cheapest plans of a PDDL problem, as the Python packages of the K* and the forbid-iterative planners answer: a dictionary whose
    `plans` have a `cost` and `actions`, the names of the steps.

    `end` says why the list ends, `unsolvable` whether the task has no plan, `timeout_triggered` whether `timeout` (seconds by the clock,
    the translator's among them) ran out. `wishes` are `sas_file`, a task that is at hand, in the place of the pair; `translator`, the
    words that call Fast Downward's `translate.py`, in place of the environment variable SYMK_TRANSLATE; and those of `plans`.

    >>> plan_topk(sas_file="examples/one-switch.sas", number_of_plans_bound=3)["plans"]
    [{'cost': 1, 'actions': ['switch-on']}]
    """
    return _packaged("topk", domain_file, problem_file, number_of_plans_bound, None, timeout, **wishes)


def plan_topq(domain_file: Optional[PathLike] = None, problem_file: Optional[PathLike] = None, quality_bound: float = 1.0,
              number_of_plans_bound: Optional[int] = None, timeout: Optional[float] = None, **wishes: Any) -> Dict[str, Any]:
    """All plans that cost at most `quality_bound` times the least cost; else as `plan_topk`.

    >>> found = plan_topq(sas_file="examples/switch-and-back.sas", quality_bound=5.5)
    >>> [plan["cost"] for plan in found["plans"]], found["end"]
    ([1, 3, 5], 'bounded 3')
    """
    return _packaged("topk", domain_file, problem_file, number_of_plans_bound, quality_bound, timeout, **wishes)


def plan_unordered_topq(domain_file: Optional[PathLike] = None, problem_file: Optional[PathLike] = None, quality_bound: float = 1.0,
                        number_of_plans_bound: Optional[int] = None, timeout: Optional[float] = None, **wishes: Any) -> Dict[str, Any]:
    """As `plan_topq`, where plans with the same operators, each equally often, count as one.

    >>> len(plan_unordered_topq(sas_file="examples/two-switches.sas")["plans"])
    1
    """
    return _packaged("unordered", domain_file, problem_file, number_of_plans_bound, quality_bound, timeout, **wishes)


def plan_loopless(domain_file: Optional[PathLike] = None, problem_file: Optional[PathLike] = None,
                  number_of_plans_bound: Optional[int] = None, quality_bound: Optional[float] = None, timeout: Optional[float] = None,
                  **wishes: Any) -> Dict[str, Any]:
    """As `plan_topk`, and with `quality_bound` as `plan_topq`, of the plans that visit no state twice.

    >>> plan_loopless(sas_file="examples/switch-and-back.sas", number_of_plans_bound=9)["end"]
    'exhausted 1'
    """
    return _packaged("loopless", domain_file, problem_file, number_of_plans_bound, quality_bound, timeout, **wishes)


def _packaged(mode: str, domain_file: Optional[PathLike], problem_file: Optional[PathLike], most: Optional[int],
              quality: Optional[float], timeout: Optional[float], *, sas_file: Optional[PathLike] = None, translator: Program = None,
              **wishes: Any) -> Dict[str, Any]:
    late = None if timeout is None else time.monotonic() + timeout
    listed: List[Dict[str, Any]] = []
    with tempfile.TemporaryDirectory() as folder:
        try:
            task = sas_file or _translated(domain_file, problem_file, translator, folder, late)
            found = plans(task, most or MOST_PLANS, mode=mode, **_reach(task, quality, late, wishes), seconds=_left(late), **wishes)
            listed.extend({"cost": plan.cost, "actions": list(plan.names)} for plan in found)
            end = found.end
        except (subprocess.TimeoutExpired, Stopped) as why:
            end = End(str(why) if isinstance(why, Stopped) else "timed out", 0)
    return {"plans": listed, "end": str(end), "unsolvable": end == End("exhausted", 0), "timeout_triggered": end.why == "timed out"}


def _left(late: Optional[float]) -> Optional[float]:
    return None if late is None else max(0.0, late - time.monotonic())


def _reach(task: PathLike, quality: Optional[float], late: Optional[float], wishes: Dict[str, Any]) -> Dict[str, int]:
    """The words by which no plan costs more than `quality` times the least cost, whatever fraction that is."""
    if quality is None:
        return {}
    share = Fraction(str(quality))
    if share < 1:
        raise ValueError("quality_bound is a share of the least cost, at least 1.0")
    if (100 * share).denominator == 1 and share <= 100:
        return {"quality": int(100 * share)}
    first = plans(task, 1, seconds=_left(late), **wishes)
    least = [plan.cost for plan in first]
    if first.end is not None and first.end.why in ("timed out", "out of memory"):
        raise Stopped(first.end.why)
    return {"bound": min(int(share * least[0]), (1 << 64) - 1)} if least else {"quality": 100}


def _translated(domain_file: Optional[PathLike], problem_file: Optional[PathLike], translator: Program, folder: str,
                late: Optional[float]) -> str:
    """The SAS file that the translator makes of a domain and a problem."""
    if domain_file is None or problem_file is None:
        raise ValueError("domain_file and problem_file are wanted, or sas_file")
    translator = translator or os.environ.get("SYMK_TRANSLATE")
    if not translator:
        raise ValueError("name Fast Downward's translate.py by translator= or SYMK_TRANSLATE")
    if isinstance(translator, str):
        translator = [translator] if os.path.exists(translator) else shlex.split(translator)
    words = [os.fspath(translator)] if isinstance(translator, os.PathLike) else [os.fspath(word) for word in translator]
    words = [os.path.abspath(word) if os.path.exists(word) else word for word in words]
    words = [sys.executable, *words] if words[0].endswith(".py") else words
    words += [os.path.abspath(domain_file), os.path.abspath(problem_file), "--sas-file", "task.sas", "--keep-unimportant-variables"]
    subprocess.run(words, cwd=folder, stdin=subprocess.DEVNULL, stdout=subprocess.DEVNULL, check=True, timeout=_left(late))
    return os.path.join(folder, "task.sas")


# Tasks, and plan files of other planners.

class Operator(NamedTuple):
    """An operator: its name, the facts that it asks for, of each effect its conditions, variable and value, and what it costs by the metric."""

    name: str
    conditions: List[Tuple[int, int]]
    effects: List[Tuple[List[Tuple[int, int]], int, int]]
    cost: int


class Rule(NamedTuple):
    """A rule: the facts under which a derived variable has a value."""

    conditions: List[Tuple[int, int]]
    variable: int
    value: int


class Task(NamedTuple):
    """A task as its file has it, and of the rules those to values that aren't the default."""

    ranges: List[int]
    layers: List[int]
    initial: Tuple[int, ...]
    goal: List[Tuple[int, int]]
    operators: List[Operator]
    rules: List[Rule]


class _Lines:
    """The lines of a task file, one after the other."""

    def __init__(self, text: str):
        self.rest = iter(text.split("\n"))

    def line(self) -> str:
        line = next(self.rest, "")
        return line[:-1] if line.endswith("\r") else line

    def numbers(self) -> List[int]:
        return [int(word) for word in self.line().split()]

    def number(self) -> int:
        return self.numbers()[0]

    def facts(self) -> List[Tuple[int, int]]:
        return [(fact[0], fact[1]) for fact in (self.numbers() for _ in range(self.number()))]

    def skip(self, *words: str) -> None:
        for word in words:
            found = self.line()
            if found != word:
                raise Broken("the task file has '%s' where '%s' should stand" % (found, word))

    def effect(self) -> Tuple[List[Tuple[int, int]], int, int, int]:
        """The conditions of an effect, its variable, the value it asks for or -1, and the value that it gives."""
        count, *numbers = self.numbers()
        variable, asked, value = numbers[2 * count:]
        return [(numbers[2 * i], numbers[2 * i + 1]) for i in range(count)], variable, asked, value

    def operator(self, unit: bool) -> Operator:
        self.skip("begin_operator")
        name, conditions = self.line(), self.facts()
        effects = [self.effect() for _ in range(self.number())]
        conditions += [(variable, asked) for _, variable, asked, _ in effects if asked != -1]
        cost = self.number()
        self.skip("end_operator")
        return Operator(name, conditions, [(pairs, variable, value) for pairs, variable, _, value in effects], 1 if unit else cost)

    def rule(self) -> Rule:
        self.skip("begin_rule")
        conditions = self.facts()
        variable, _, value = self.numbers()
        self.skip("end_rule")
        return Rule(conditions, variable, value)

    def variable(self) -> Tuple[int, int]:
        """The layer of a variable and how many values it has."""
        self.skip("begin_variable")
        self.line()
        layer, count = self.number(), self.number()
        for _ in range(count):
            self.line()
        self.skip("end_variable")
        return layer, count


def read_task(text: str) -> Task:
    """The task of a file's text. It isn't looked at closely: the program is who refuses a task, and names the line.

    >>> read_task(text_of("examples/one-switch.sas")).operators[0].name
    'switch-on'
    """
    lines = _Lines(text)
    lines.skip("begin_version", "3", "end_version", "begin_metric")
    unit = lines.number() == 0
    lines.skip("end_metric")
    variables = [lines.variable() for _ in range(lines.number())]
    for _ in range(lines.number()):
        lines.skip("begin_mutex_group")
        lines.facts()
        lines.skip("end_mutex_group")
    lines.skip("begin_state")
    initial = tuple(lines.number() for _ in variables)
    lines.skip("end_state", "begin_goal")
    goal = lines.facts()
    lines.skip("end_goal")
    operators = [lines.operator(unit) for _ in range(lines.number())]
    rules = [lines.rule() for _ in range(lines.number())]
    return Task([count for _, count in variables], [layer for layer, _ in variables], initial, goal, operators,
                [rule for rule in rules if rule.value != initial[rule.variable]])


def holds(facts: List[Tuple[int, int]], values: Sequence[int]) -> bool:
    """Whether each fact, a variable and a value, is one of these values.

    >>> holds([(0, 1)], [1, 0]), holds([(0, 1), (1, 1)], [1, 0])
    (True, False)
    """
    return all(values[variable] == value for variable, value in facts)


def closed(task: Task, state: Sequence[int]) -> List[int]:
    """All values in a state: derived variables layer by layer, each layer until no rule of it derives more.

    >>> task = read_task(text_of("examples/axiom.sas"))
    >>> closed(task, (0, 0)), closed(task, (1, 0))
    ([0, 0], [1, 1])
    """
    values = [value if layer == -1 else first for value, first, layer in zip(state, task.initial, task.layers)]
    for layer in sorted({task.layers[rule.variable] for rule in task.rules}):
        rules, grows = [rule for rule in task.rules if task.layers[rule.variable] == layer], True
        while grows:
            grows = False
            for rule in rules:
                if values[rule.variable] != rule.value and holds(rule.conditions, values):
                    values[rule.variable], grows = rule.value, True
    return values


def successor(operator: Operator, state: Sequence[int], values: Sequence[int]) -> Tuple[int, ...]:
    """The state after the operator. Effects fire by the old values, and the later of two on one variable stands.

    >>> task = read_task(text_of("examples/one-switch.sas"))
    >>> successor(task.operators[0], task.initial, closed(task, task.initial))
    (1,)
    """
    following = list(state)
    for conditions, variable, value in operator.effects:
        if holds(conditions, values):
            following[variable] = value
    return tuple(following)


class Unlisted(Exception):
    """Why a plan file can't stand in a list.

    >>> try:
    ...     list(steps_of("switch-on\\n"))
    ... except Unlisted as why:
    ...     print(why)
    line 1 is no step
    """


class PlanFiles:
    """Plan files as plans of a list, by what the task's operators are named.

    A plan file names operators, a list numbers them. Where several have the name of a step, those are taken by which the whole plan can be
    run from the initial state to the goal. Where this leaves more than one way, the first one is taken, by the operators' numbers; of
    files with the same lines each takes the next way. Where no way leads to the goal, the first operator that applies is taken, or else
    the first of the name: a check then says what fails. `say` is told of both. Letters may be large or small.

    >>> files = PlanFiles(read_task(text_of("examples/two-switches.sas")))
    >>> files.plan(steps_of("(B-ON)\\n(a-on) ; a comment\\n"))
    Plan((1, 0), ('b-on', 'a-on'), 2, number=1)
    """

    def __init__(self, task: Task):
        self.task = task
        self.unit = all(operator.cost == 1 for operator in task.operators)
        self.seen: Dict[Tuple[Tuple[int, ...], ...], int] = {}
        self.named: Dict[str, List[int]] = {}
        for number, operator in enumerate(task.operators):
            self.named.setdefault(folded(operator.name), []).append(number)

    def plan(self, names: Iterable[Tuple[int, str]], cost: Optional[int] = None, say: Callable[[str], None] = lambda _: None) -> Plan:
        """The plan of these names, each with its line. Its cost is the one that is stated, or that of its operators."""
        candidates = []
        for line, name in names:
            if folded(name) not in self.named:
                raise Unlisted("line %d: no operator of the task is named (%s)" % (line, folded(name)))
            candidates.append(self.named[folded(name)])
        numbers = self.chosen(candidates, say)
        chosen = [self.task.operators[number] for number in numbers]
        cost = sum(operator.cost for operator in chosen) if cost is None else cost
        if cost >= 1 << 64:
            raise Unlisted("it costs %d, more than 64 bits hold" % cost)
        return Plan(numbers, (operator.name for operator in chosen), cost, unit=self.unit)

    def chosen(self, candidates: List[List[int]], say: Callable[[str], None]) -> List[int]:
        """Of each step's candidates the one that is taken."""
        layers, ends = self.layers(candidates)
        counts = _ways_of(layers, ends)
        ways = counts[0].get(self.task.initial, 0)
        if ways == 0:
            say("no choice of operators of these names leads to the goal")
            return self.first_applying(candidates)
        key = tuple(map(tuple, candidates))
        index = self.seen.get(key, 0)
        self.seen[key] = index + 1
        if ways > 1:
            say("%d ways have these names and lead to the goal; way %d is taken" % (ways, index % ways + 1))
        return _way(self.task.initial, layers, counts, index % ways)

    def layers(self, candidates: List[List[int]]) -> Tuple[List[Dict[Any, List[Any]]], Any]:
        """Step by step the states that the candidates reach, each with those that apply there and where they lead; and the goal states."""
        layer, layers = {self.task.initial}, []
        for numbers in candidates:
            arcs: Dict[Any, List[Any]] = {}
            for state in layer:
                values = closed(self.task, state)
                arcs[state] = [(number, successor(self.task.operators[number], state, values))
                               for number in numbers if holds(self.task.operators[number].conditions, values)]
            layers.append(arcs)
            layer = {after for leads in arcs.values() for _, after in leads}
        return layers, {state for state in layer if holds(self.task.goal, closed(self.task, state))}

    def first_applying(self, candidates: List[List[int]]) -> List[int]:
        state: Sequence[int] = self.task.initial
        chosen: List[int] = []
        for numbers in candidates:
            values = closed(self.task, state)
            applying = [number for number in numbers if holds(self.task.operators[number].conditions, values)]
            chosen.append((applying or numbers)[0])
            state = successor(self.task.operators[chosen[-1]], state, values)
        return chosen


def _ways_of(layers: List[Dict[Any, List[Any]]], ends: Any) -> List[Dict[Any, int]]:
    """For each step and state how many ways lead from there to an end."""
    counts = [{state: 1 for state in ends}]
    for arcs in reversed(layers):
        later = counts[-1]
        counts.append({state: sum(later.get(after, 0) for _, after in leads) for state, leads in arcs.items()})
    return counts[::-1]


def _way(state: Any, layers: List[Dict[Any, List[Any]]], counts: List[Dict[Any, int]], index: int) -> List[int]:
    """The way of this index among those to an end, by the operators' numbers."""
    chosen = []
    for arcs, later in zip(layers, counts[1:]):
        for number, after in arcs[state]:
            if index < later.get(after, 0):
                break
            index -= later.get(after, 0)
        chosen.append(number)
        state = after
    return chosen


def folded(name: str) -> str:
    """A name in small letters, with one space between its words.

    >>> folded(" Unstack  B3 b2")
    'unstack b3 b2'
    """
    return " ".join(name.lower().split())


def steps_of(text: str) -> Iterator[Tuple[int, str]]:
    """The names of a plan file's steps, each with its line's number; `Unlisted` where a line is no step.

    >>> list(steps_of("; a comment\\n(switch-on)\\n"))
    [(2, 'switch-on')]
    """
    for number, line in enumerate(text.split("\n"), 1):
        line = line.split(";")[0].strip()
        if line and not (line.startswith("(") and line.endswith(")")):
            raise Unlisted("line %d is no step" % number)
        if line:
            yield number, line[1:-1]


def text_of(path: PathLike) -> str:
    """The text of a file, in which each byte that is no UTF-8 can be written again.

    >>> text_of("examples/one-switch.sas").split("\\n")[0]
    'begin_version'
    """
    with open(path, encoding="utf-8", errors="surrogateescape", newline="") as file:
        return file.read()


# Is another planner's list right?

def audit(task: PathLike, lists: Any, *, mode: Optional[str] = None, complete: bool = False, bound: Optional[int] = None,
          quality: Optional[int] = None, by_cost: bool = False, program: Program = None, seconds: Optional[float] = None,
          megabytes: Optional[float] = None) -> Iterator[Verdict]:
    """Whether a list is right, whoever wrote it: verdict by verdict, up to the first that isn't good.

    The first says whether each plan is one of the mode, none comes twice and costs never fall; the second, whether no plan is missing that
    is cheaper than the last; with `complete` the third, whether these are all plans of the mode, with `bound` or `quality` all that cost at
    most so much or so many percent of the least cost. `lists` is a list as the program prints it, a plan file, several of these, a folder
    of them (`sas_plan.1`, ..), a JSON file as K* writes it, or plans. With `by_cost` the plans are put in order of their costs first.
    `seconds` and `megabytes` are for each run of the program.

    >>> for verdict in audit("examples/two-switches.sas", plans("examples/two-switches.sas", 1), complete=True):
    ...     print(verdict)
    good: 1 plan, none twice, costs never falling
    none missing: each plan that is cheaper than the last is there
    not complete: the next plan costs 2
    """
    limits: Dict[str, Any] = {"program": program, "seconds": seconds, "megabytes": megabytes}
    try:
        listed, names = _gathered(task, lists, by_cost, limits)
    except Unlisted as why:
        yield _verdict(str(why))
        return
    with _listed(listed) as path:
        verdict = check(task, path, mode=mode, **limits)
        if not verdict:
            yield _verdict("%s (%s)" % (verdict.said, names[verdict.plan - 1])) if names and verdict.plan else verdict
            return
        count = int(verdict.said.split()[1])
        yield Verdict(True, "good: %d plan%s, none twice, costs never falling" % (count, "" if count == 1 else "s"))
        if quality is not None:
            least = [plan.cost for plan in itertools.islice(read_list(path), 1)]
            bound = min(least[0] * quality // 100, (1 << 64) - 1) if least else None
        yield from _rest(task, path, mode, complete or quality is not None, bound, limits)


def _rest(task: PathLike, path: str, mode: Optional[str], complete: bool, bound: Optional[int], limits: Dict[str, Any]) -> Iterator[Verdict]:
    """What a good list lacks, by the one plan with which it goes on."""
    found = plans(task, 1, mode=mode, after=path, **limits)
    try:
        costs = [plan.cost for plan in found]
    except Refused as why:
        if why.status != 14:
            raise
        yield Verdict(False, "missing: a plan of cost %s" % why.said.split()[-1])
        return
    if found.end is None or found.end.why in ("timed out", "out of memory"):
        raise Stopped(found.end.why if found.end else "")
    yield Verdict(True, "none missing: each plan that is cheaper than the last is there")
    if found.end.why == "cost range":
        costs = [1 << 64]
    if bound is not None and not (costs and costs[0] <= bound):
        yield Verdict(True, "complete: there is no other plan of cost at most %d" % bound)
    elif (complete or bound is not None) and costs:
        yield Verdict(False, "not complete: the next plan costs %s" % (costs[0] if costs[0] >> 64 == 0 else "more than 64 bits hold"))
    elif complete:
        yield Verdict(True, "complete: there is no other plan")


def _gathered(task: PathLike, lists: Any, by_cost: bool, limits: Dict[str, Any]) -> Tuple[Any, List[str]]:
    """A list, as its path or its plans, and the names of the plan files that they were, where they were."""
    paths = [lists] if isinstance(lists, (str, os.PathLike)) else list(lists)
    names: List[str] = []
    listed: Any = paths
    if not all(isinstance(one, Plan) for one in paths):
        if len(paths) == 1 and not os.path.isdir(paths[0]) and _is_list(paths[0]):
            listed = paths[0]
        else:
            listed, names = _read_plans(task, [file for path in paths for file in _files_of(path)], limits)
    if by_cost:
        listed = list(read_list(listed)) if isinstance(listed, (str, os.PathLike)) else listed
        order = sorted(range(len(listed)), key=lambda place: listed[place].cost)
        listed, names = [listed[place] for place in order], [names[place] for place in order] if names else names
    return listed, names


def _files_of(path: PathLike) -> List[PathLike]:
    """The plan files of a folder, by the numbers in their names; or the file itself."""
    if not os.path.isdir(path):
        return [path]
    names = [name for name in os.listdir(path) if not name.startswith(".") and os.path.isfile(os.path.join(path, name))]
    names = [name for name in names if name.startswith("sas_plan")] or names
    parts = {name: [(not part.isdigit(), int(part) if part.isdigit() else 0, part) for part in re.split(r"(\d+)", name)] for name in names}
    return [os.path.join(path, name) for name in sorted(names, key=parts.__getitem__)]


def _is_list(path: PathLike) -> bool:
    """Whether a file begins as a list does, as no plan file and no JSON: with a first plan, an end, or nothing."""
    with open(path, "rb") as file:
        return re.match(rb"; (plan|reached|exhausted|more|bounded|cost range)\b|\Z", file.read(SHORT)) is not None


def _read_plans(task: PathLike, files: List[PathLike], limits: Dict[str, Any]) -> Tuple[List[Plan], List[str]]:
    """The plans of plan files and of JSON files, with what each is called."""
    try:
        by_names = PlanFiles(read_task(text_of(task)))
    except (Broken, ValueError, IndexError):
        check(task, [], **limits)
        raise
    found, names = [], []
    for path in files:
        text = text_of(path)
        if text.lstrip().startswith("{"):
            said = json.loads(text)
            if not isinstance(said.get("plans"), list):
                raise Broken("the JSON file has no list `plans`: %s" % os.fspath(path))
            for number, one in enumerate(said["plans"], 1):
                names.append("%s, plan %d" % (os.path.basename(path), number))
                found.append((enumerate((action.strip("()") for action in one["actions"]), 1), one.get("cost")))
        else:
            stated = re.search(r"^; cost = (\d+)\b", text, re.MULTILINE)
            names.append(os.path.basename(path))
            found.append((steps_of(text), int(stated[1]) if stated else None))
    listed = []
    for number, (name, (steps, cost)) in enumerate(zip(names, found), 1):
        try:
            listed.append(by_names.plan(steps, cost))
        except Unlisted as why:
            raise Unlisted("bad plan %d: %s (%s)" % (number, why, name)) from None
    return listed, names


# The command line.

class _Progress:
    """A line on standard error, where that is a terminal: how many plans there are, what the last one costs, and the time."""

    def __init__(self) -> None:
        self.shown, self.count, self.last = sys.stderr.isatty(), 0, 0
        self.start, self.lock, self.over = time.monotonic(), threading.Lock(), threading.Event()
        self.thread = threading.Thread(target=self.tell, daemon=True)

    def __enter__(self) -> _Progress:
        if self.shown:
            self.thread.start()
        return self

    def __exit__(self, *_: object) -> None:
        self.over.set()
        if self.shown:
            self.thread.join()
            print("\r\x1b[K", end="", file=sys.stderr, flush=True)

    def tell(self) -> None:
        while not self.over.wait(0.25):
            said = "%d plans, the last costs %d" % (self.count, self.last) if self.count else "no plan so far"
            with self.lock:
                print("\r\x1b[K%s, %d s" % (said, time.monotonic() - self.start), end="", file=sys.stderr, flush=True)

    def note(self, plan: Plan, text: bytes) -> None:
        """Writes what is said of a plan, past the line."""
        self.count, self.last = self.count + 1, plan.cost
        with self.lock:
            if self.shown and text:
                print("\r\x1b[K", end="", file=sys.stderr, flush=True)
            _write(text)


def _write(text: bytes) -> None:
    sys.stdout.buffer.write(text)
    sys.stdout.buffer.flush()


def _words() -> argparse.ArgumentParser:
    words = argparse.ArgumentParser(prog="symk.py", description="Lists plans of a task; `symk.py audit` judges a list of another planner.")
    words.add_argument("task", metavar="TASK", help="a SAS file, as Fast Downward's translator writes it")
    words.add_argument("--k", type=int, required=True, help="how many plans are listed at most")
    words.add_argument("--mode", choices=MODES)
    words.add_argument("--search", choices=("auto", "forward", "backward", "bidirectional"))
    words.add_argument("--more", action="store_true", help="say after k plans whether there is another")
    words.add_argument("--bound", type=int, metavar="Q", help="plans that cost at most Q")
    words.add_argument("--quality", type=int, metavar="P", help="plans that cost at most P percent of the least cost")
    words.add_argument("--after", metavar="PLANS", help="go on from an earlier list")
    words.add_argument("--mutex", action="store_true", help="use the mutex groups that are shown to hold")
    words.add_argument("--json", action="store_true", help="one JSON object, a plan a line, in place of the list")
    words.add_argument("--plans-to", metavar="DIR", help="a file for each plan, sas_plan.1 and on; those that were there go")
    words.add_argument("--record", metavar="FILE", help="what tools/table.py reads: how the run ended, its seconds and megabytes")
    return _with_limits(words)


def _audit_words() -> argparse.ArgumentParser:
    words = argparse.ArgumentParser(prog="symk.py audit", description="Is a list right, whoever wrote it? One verdict a line. Status 0: "
                                    "each is good; 11: a plan is bad; 14: a plan is missing; 17: the list isn't complete.")
    words.add_argument("task", metavar="TASK")
    words.add_argument("lists", metavar="LIST|DIR", nargs="+", help="a list, plan files, a folder of these, or JSON")
    words.add_argument("--mode", choices=MODES)
    words.add_argument("--complete", action="store_true", help="are these all plans of the mode?")
    words.add_argument("--bound", type=int, metavar="Q", help="are these all of cost at most Q?")
    words.add_argument("--quality", type=int, metavar="P", help="are these all of cost at most P percent of the least cost?")
    words.add_argument("--by-cost", action="store_true", help="put the plans in order of their costs first")
    return _with_limits(words)


def _with_limits(words: argparse.ArgumentParser) -> argparse.ArgumentParser:
    words.add_argument("--seconds", type=float, metavar="S", help="the most time by the clock, of each run of the program")
    words.add_argument("--megabytes", type=float, metavar="M", help="the most memory (10^6 bytes)")
    words.add_argument("--program", help="the program, in place of the one found")
    return words


def _audit_main(words: List[str]) -> int:
    asked = vars(_audit_words().parse_args(words))
    for verdict in audit(asked.pop("task"), asked.pop("lists"), **asked):
        _write(verdict.said.encode("utf-8", "surrogateescape") + b"\n")
        if not verdict:
            return {"bad": 11, "missing:": 14, "not": 17}[verdict.said.split()[0]]
    return 0


def _json_of(plan: Plan, first: bool) -> bytes:
    one = {"cost": plan.cost, "actions": list(plan.names), "operators": list(plan.operators)}
    return (b'{"plans": [\n' if first else b",\n") + json.dumps(one).encode()


def _list_main(words: List[str]) -> int:
    asked = _words().parse_args(words)
    taken = ("mode", "search", "more", "bound", "quality", "after", "mutex", "program", "seconds", "megabytes")
    record = _Record(asked)
    if asked.plans_to:
        os.makedirs(asked.plans_to, exist_ok=True)
        for name in [] if asked.after else os.listdir(asked.plans_to):
            if re.fullmatch(r"sas_plan\.\d+", name):
                os.unlink(os.path.join(asked.plans_to, name))
    found = plans(asked.task, asked.k, **{name: getattr(asked, name) for name in taken})
    with record, _Progress() as progress:
        for plan in found:
            record.note(plan)
            if asked.plans_to:
                Path(asked.plans_to, "sas_plan.%d" % plan.number).write_bytes(plan.block())
            progress.note(plan, _json_of(plan, progress.count == 0) if asked.json else b"" if asked.plans_to else plan.block())
        record.end = end = found.end or End("", 0)
    if asked.json:
        rest = {"end": str(end), "unsolvable": end == End("exhausted", 0), "timeout_triggered": end.why == "timed out"}
        _write((b"\n], " if progress.count else b'{"plans": [], ') + json.dumps(rest)[1:].encode() + b"\n")
    elif end.why in ("timed out", "out of memory"):
        print("symk.py: %s" % end.why, file=sys.stderr)
    else:
        _write((end.line + "\n").encode())
    return ENDS[end.why]


class _Record:
    """What tools/table.py reads of a run: a file of one JSON object, which says `running` until the run has ended."""

    def __init__(self, asked: argparse.Namespace):
        self.path, self.end, self.start = asked.record, End("", 0), time.monotonic()
        self.used = resource.getrusage(resource.RUSAGE_CHILDREN)
        self.said: Dict[str, Any] = {"task": asked.task, "k": asked.k, "mode": asked.mode or "topk", "end": "running", "plans": 0,
                                     "first": None, "last": None}

    def __enter__(self) -> _Record:
        self.write()
        return self

    def note(self, plan: Plan) -> None:
        self.said.update(plans=self.said["plans"] + 1, last=plan.cost, first=plan.cost if self.said["first"] is None else self.said["first"])

    def __exit__(self, kind: Any, why: Any, _: object) -> None:
        used = resource.getrusage(resource.RUSAGE_CHILDREN)
        seconds = used.ru_utime + used.ru_stime - self.used.ru_utime - self.used.ru_stime
        if why is None:
            end = self.end.why
        elif isinstance(why, Refused):
            end = "refused: " + why.said.split("\n")[0]
        else:
            end = "interrupted" if isinstance(why, (SystemExit, KeyboardInterrupt)) else kind.__name__.lower()
        self.said.update(end=end, seconds=round(seconds, 2), clock=round(time.monotonic() - self.start, 2),
                         megabytes=round(used.ru_maxrss * 1024 / 1_000_000))
        self.write()

    def write(self) -> None:
        if self.path:
            Path(self.path + ".new").write_text(json.dumps(self.said) + "\n")
            os.replace(self.path + ".new", self.path)


def main(words: List[str]) -> int:
    """The command line: its words after the program's name; the status that it ends with."""
    for number in (signal.SIGTERM, signal.SIGHUP):
        if signal.getsignal(number) == signal.SIG_DFL:
            signal.signal(number, lambda number, _: sys.exit(128 + number))
    try:
        return _audit_main(words[1:]) if words[:1] == ["audit"] else _list_main(words)
    except Refused as why:
        print("symk.py: the program refused it: %s" % why, file=sys.stderr)
        return why.status
    except Stopped as why:
        print("symk.py: %s" % why, file=sys.stderr)
        return ENDS[str(why)]
    except KeyboardInterrupt:
        return 130
    except BrokenPipeError:
        os.dup2(os.open(os.devnull, os.O_WRONLY), sys.stdout.fileno())
        return 24
    except (Broken, OSError, ValueError, KeyError) as why:
        print("symk.py: %s" % why, file=sys.stderr)
        return 70


if __name__ == "__main__":
    sys.exit(main(sys.argv[1:]))
