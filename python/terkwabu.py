"""Terkwabu for designers' scripts: the proved calls of the library, with Python's numbers, fractions and exceptions.

    reduce(table)                     the regions, their blocks, the totals by label, and the listing
    pair(table, r, s)                 whether two regions share a block
    place(table, location, values)    the region of a state; exact, no floats
    judge(table, proposal)            whether a proposed partition is a bisimulation
    graph(table)                      the regions alone
    listing(table)                    the printed model
    library_version()                 the library's version, which must be __version__

A table is bytes (docs/FORMAT.md says which); models/assemble writes it from a model text. What the library refuses is raised as Refused,
with document 01's number and place. What a call cannot take at all is raised before the call: a number that is negative, or 2**64 or more,
is a ValueError, and what is of the wrong kind a TypeError.

Numbers and lists. A number is an int, or what Python takes for an index (numpy's whole numbers are such): no float, and no bool, though
Python takes True for 1. A list of numbers or of clock values may be any sequence: a tuple, a range, an array of one dimension. What has no
order (a set), can be read once only (an iterator, a generator), or spells numbers (text and bytes) is a TypeError. judge also takes a
mapping, by key.

The library is the file that the environment variable TERKWABU_LIBRARY names, or else build/libterkwabu.so of this project. The first call
has ./library make that, which takes a moment (gcc is needed), or look whether it is that of the sources, and loads it; where the sources
were changed it is proved anew first, for many minutes. One of another version than this module is not used: LibraryMissing says which
versions they are.

Threads. A call keeps nothing and holds no lock of Python's while it runs, so calls run side by side. reduce, pair and judge want a thread
with 2 MB of stack. Most systems give threads 8 MB; where less is set, call threading.stack_size(4 * 1024 * 1024) before
the threads are started. A thread whose stack is too small gets a RuntimeError in place of the call, where the system tells the size of the
stack (glibc and musl do). It tells the whole stack: a thread deep in its own recursion needs more.
"""

from __future__ import annotations

import ctypes
import enum
import functools
import math
import numbers
import operator
import os
import re
import subprocess
import sys
import threading
from collections import Counter
from collections.abc import Set
from dataclasses import dataclass, fields
from decimal import Decimal
from fractions import Fraction
from pathlib import Path
from typing import Any, Dict, List, Mapping, NamedTuple, Optional, Sequence, Tuple, Union

__all__ = ["graph", "judge", "library_version", "listing", "pair", "place", "reduce"]
__all__ += ["Block", "Clock", "LibraryMissing", "MAX_REGIONS", "OVER", "Over", "Reduced", "Refused", "Region", "Step", "Total"]

__version__ = "1.2.0"
"""Names the version of this module, and of the library that it uses: TERKWABU_VERSION_MAJOR, _MINOR and _PATCH of the header."""

MAX_REGIONS = 4096
"""No model with more regions is accepted; so many entries are lent unless a call is told otherwise."""

Table = Union[bytes, bytearray, memoryview]
Value = Union[int, Fraction, Decimal, str]
Proposal = Union[Sequence[int], Mapping[int, int]]

_CLOCKS = 4
_ENTRY_BYTES = 1 + 2 * _CLOCKS  # location, integer parts, ranks
_OVER_BYTE = 16  # the integer part of a clock that is over
_LARGEST = 2**64 - 1
_PART_BYTES = 65536  # enough for every part of a listing
_LINE_BYTES = 128  # enough for every refusal's line


# Refusals.


_MEANINGS = {
    1: "the table is longer than 16,384 bytes",
    2: "the table ends at byte {place}, where another record should begin",
    3: "the record at byte {place} is of no known kind: its first byte is none of 1 to 7",
    4: "the record at byte {place} runs past the end of the table",
    5: "the record at byte {place} breaks the order: header, as many locations as it says, invariant atoms, edges (each followed by its "
    "guard atoms, then its branches), end",
    6: "the header at byte {place} has not 0 to 4 clocks or not 1 to 64 locations, or its initial location is not one of them",
    7: "the record at byte {place} names a location, a clock or a bit of the reset mask that the model does not have",
    8: "the atom at byte {place} has an unknown comparison; an invariant atom takes < and <= only",
    9: "the atom at byte {place} has a constant above 15",
    10: "the edge at byte {place} has a denominator W of 0 or above 60,000, or the branch at byte {place} has a weight of 0",
    11: "the record at byte {place} is one too many: at most 128 invariant atoms, 128 edges, 8 guard atoms and 8 branches to an edge",
    12: "the edge at byte {place} has branches whose weights do not sum to its denominator W, or no branches",
    13: "bytes follow the end record, the first of them at byte {place}",
    14: "the model begins outside the invariant of its initial location",
    15: "the model has more regions than entries were lent, or more than 4,096",
    16: "one of the two lent block lists has fewer numbers than the model has regions",
    17: "the proposed partition has not exactly one number for each region",
    18: "the proposed partition is no bisimulation",
    19: "an asked region number is not below the count of regions",
    20: "the state names a location that the model does not have, its values have a common denominator of 0 or above 1,000,000, or a "
    "clock that the model does not have is not 0",
    21: "the state lies in a region that the model does not reach",
}


class Refused(Exception):
    """The library refuses what it was asked.

    number   which refusal of document 01's list, 1 to 21
    place    for 2 to 13 a byte of the table, counted from 0: where the record begins that is refused (2: where it should begin; 12: where
             the edge begins; 13: the first byte after the end); for 1, and from 14 on, 0
    meaning  the refusal in words
    """

    def __init__(self, number: int, place: int) -> None:
        super().__init__(number, place)
        self.number = number
        self.place = place

    @property
    def meaning(self) -> str:
        known = _MEANINGS.get(self.number, "a refusal that this module does not know: the library is newer")
        return known.format(place=self.place)

    def line(self) -> str:
        """The line that stands for the listing, such as "refused 5 place 0" and a line feed."""
        buffer = _Lent(ctypes.c_uint8, _LINE_BYTES)
        return _text(_call("terkwabu_refusal_line", self.number, self.place, buffer), buffer)

    def __str__(self) -> str:
        return f"refused {self.number} place {self.place}: {self.meaning}"


# What a designer gets.


class Over(enum.Enum):
    """A clock above the largest constant of the table: nothing more is known of it. OVER is the one value."""

    OVER = ">"

    def __str__(self) -> str:
        return ">"

    def __repr__(self) -> str:
        return "OVER"


OVER = Over.OVER


class Clock(NamedTuple):
    """A clock that is not over: its integer part, and the rank of its fraction.

    Rank 0 is a fraction of zero. Otherwise the rank is the fraction's place among the different non-zero fractions of clocks that are not
    over, from 1, smallest first: clocks with equal ranks have equal fractions.
    """

    whole: int
    rank: int

    def __str__(self) -> str:
        return f"{self.whole}+{self.rank}" if self.rank else f"{self.whole}"


class Region(NamedTuple):
    """A region: its location, and the model's clocks in order, each a Clock or OVER."""

    location: int
    clocks: Tuple[Union[Clock, Over], ...]

    def __str__(self) -> str:
        return " ".join([f"location {self.location}", *map(str, self.clocks)])


class Step(NamedTuple):
    """An edge that is available in a block: its action, and each block landed in with its share in ten-thousandths.

    Each share is rounded to the nearest by itself, an exact half to the even one: 1/20,000 is 0 and 3/20,000 is 2. So a share may be 0
    though the block is landed in, and the shares need not sum to 10,000.
    """

    action: int
    shares: Dict[int, int]


class Block(NamedTuple):
    """A block: its label, its regions, the other blocks that it reaches by delay, and its steps in table order.

    Delays and steps are those of the block's lowest region, as in the listing.
    """

    number: int
    label: int
    members: Tuple[int, ...]
    delays: Tuple[int, ...]
    steps: Tuple[Step, ...]


class Total(NamedTuple):
    """The totals of a label: how many regions bear it, and how many blocks are those whose regions bear it."""

    regions: int
    blocks: int


@dataclass(frozen=True, repr=False)
class Reduced:
    """A reduced model, as reduce gives it."""

    table: bytes
    """The table that was reduced."""
    regions: Tuple[Region, ...]
    """The regions; a region's number is its index."""
    blocks: int
    """How many blocks there are."""
    rounds: int
    """After how many rounds nothing changes any more."""
    block_of: Tuple[int, ...]
    """The block number of each region."""
    _entries: bytes

    def members(self, block: int) -> Tuple[int, ...]:
        """The numbers of the block's regions, rising."""
        number = self._known(block)
        return tuple(region for region, its in enumerate(self.block_of) if its == number)

    def block(self, block: int) -> Block:
        """What the listing says of a block."""
        number = self._known(block)
        words = [line.split() for line in self._texts()[1][number].splitlines()]
        return Block(
            number=number,
            label=int(words[0][2]),
            members=self.members(number),
            delays=tuple(int(word) for line in words if line[0] == "delay" for word in line[2:]),
            steps=tuple(_step(line) for line in words if line[0] == "step"),
        )

    def totals(self) -> Dict[int, Total]:
        """Returns the totals at the foot of the listing: the counts of each label that a region bears, labels rising.

        They sum to len(regions) and blocks, which the listing's last line says.
        """
        # The part with the totals begins with "label"; its last line begins with "all".
        lines = [line.split() for text in self._texts()[0] if text.startswith("label ") for line in text.splitlines()]
        if not lines:
            raise RuntimeError("the library wrote no totals, though a listing has some")
        return {int(words[1]): _total(words) for words in lines if words[0] == "label"}

    def listing(self) -> str:
        """The printed model, as the program prints it."""
        return "".join(self._texts()[0])

    def _known(self, block: int) -> int:
        number = _whole(block, "a block number")
        if not 0 <= number < self.blocks:
            raise IndexError(f"there is no block {number}: the blocks are 0 to {self.blocks - 1}")
        return number

    def _texts(self) -> Tuple[List[str], Dict[int, str]]:
        """The parts of the listing, and those of blocks by number, asked for once.

        No lock is held: threads that ask at the same time make the same texts side by side, and one of these stays.
        """
        if "_made" not in self.__dict__:
            texts = self._parts()
            # A block's part begins with "block" and its number.
            self.__dict__["_made"] = texts, {int(text.split()[1]): text for text in texts if text.startswith("block ")}
        return self.__dict__["_made"]

    def _parts(self) -> List[str]:
        """The parts of the listing, from part 0 until the call says that there are no more."""
        left = self.table, self._entries, _lent_numbers(self.block_of, "block_of"), len(self.regions), self.blocks, self.rounds
        buffer = _Lent(ctypes.c_uint8, _PART_BYTES)
        texts: List[str] = []
        while not _is_end(answer := _call("terkwabu_part", *left, len(texts), buffer)):
            texts.append(_text(answer, buffer))
        if not texts:
            raise RuntimeError("the library wrote no text, though a listing has some")
        return texts

    def __getstate__(self) -> Dict[str, Any]:
        """The fields alone, to be sent elsewhere: texts are asked of the library that is there."""
        return {field.name: getattr(self, field.name) for field in fields(self)}

    def __repr__(self) -> str:
        return f"<Reduced: regions {len(self.regions)} blocks {self.blocks} rounds {self.rounds}>"


def _step(words: List[str]) -> Step:
    """Of the words of a step line: "step", the block, the action, then block:share."""
    return Step(int(words[2]), {int(block): int(share) for block, share in (word.split(":") for word in words[3:])})


def _total(words: List[str]) -> Total:
    """Reads the words of a label's line: "label", the label, "regions", their count, "blocks", their count."""
    return Total(int(words[3]), int(words[5]))


# The calls for scripts.


def reduce(table: Table, *, entries: int = MAX_REGIONS) -> Reduced:
    """Explores the model's regions and finds the coarsest bisimulation: as few blocks as there can be.

    entries is how many regions there is room for; a model that has more is refused with 15. The program ./reduce has room for 2,048.
    """
    data = _table(table)
    lent = _lent_entries(entries)
    first, second = _Lent(ctypes.c_uint64, MAX_REGIONS), _Lent(ctypes.c_uint64, MAX_REGIONS)
    answer = _accepted(_call("terkwabu_reduce", data, lent, first, second))
    return Reduced(
        table=data,
        regions=_regions(data, lent, answer.value),
        blocks=answer.blocks,
        rounds=answer.rounds,
        block_of=first.as_numbers(answer.value),
        _entries=lent.as_bytes(answer.value * _ENTRY_BYTES),
    )


def pair(table: Table, r: int, s: int, *, entries: int = MAX_REGIONS) -> bool:
    """Whether the regions numbered r and s share a block, which is so exactly where some bisimulation relates their states.

    A number that is not below the count of regions is refused with 19. To ask of many pairs, compare block_of of reduce.
    """
    data = _table(table)
    asked = _number(r, "a region number"), _number(s, "a region number")
    first, second = _Lent(ctypes.c_uint64, MAX_REGIONS), _Lent(ctypes.c_uint64, MAX_REGIONS)
    return _accepted(_call("terkwabu_pair", data, _lent_entries(entries), first, second, *asked)).value == 1


def place(table: Table, location: int, values: Sequence[Value] = (), *, entries: int = MAX_REGIONS) -> int:
    """The number of the region in which a state lies: at a location, with a value for each clock, clock 0 first.

    A value is exact: an int, a Fraction, a Decimal, or a string such as "3", "0.25" or "1/3". A float is a TypeError: 0.1 is not 1/10.
    Clocks left out are 0. The values are a list or another sequence, and no mapping. Refused with 20 where the values' common denominator
    is above 1,000,000, where the location is not one of the model's, or where a clock that the model does not have is not 0; with 21 where
    the model does not reach the state's region.
    """
    data = _table(table)
    whole, denominator = _common(values)
    state = _number(location, "a location"), *whole, denominator
    return _accepted(_call("terkwabu_place", data, _lent_entries(entries), *state)).value


def judge(table: Table, proposal: Proposal, *, entries: int = MAX_REGIONS) -> bool:
    """True where a proposed partition is a bisimulation; Refused where it is not.

    The proposal has a number for each region: a sequence in their order, or a mapping from the region numbers, in any order. The keys of a
    mapping with N items must be exactly 0 to N - 1: a ValueError says which is missing, and which is none of them. Equal numbers mean
    related, and which numbers they are does not matter; so conditions will do as well, True and False being two groups. Refused with 17
    where there are not as many numbers as regions, with 18 where the partition is no bisimulation.

    Both are refusals in document 01, and both are raised here, so that a script which does not look at the answer stops at a wrong
    partition and does not go on with it.
    """
    data = _table(table)
    lent = _lent_numbers(_proposed(proposal), "the proposal")
    return _accepted(_call("terkwabu_judge", data, _lent_entries(entries), lent)).value == 1


def graph(table: Table, *, entries: int = MAX_REGIONS) -> Tuple[Region, ...]:
    """The regions that the model reaches, in document 01's order: a region's number is its index."""
    data = _table(table)
    lent = _lent_entries(entries)
    return _regions(data, lent, _accepted(_call("terkwabu_graph", data, lent)).value)


def listing(table: Table, *, entries: int = MAX_REGIONS) -> str:
    """The printed model. With entries=2048 it is what ./reduce prints; the line that it prints for a refusal is Refused.line()."""
    return reduce(table, entries=entries).listing()


# From Python's values to what a call takes, and back.


def _whole(value: Any, what: str) -> int:
    """Takes a whole number of any size. A bool is none: where a comparison stands by mistake it would name region 0 or 1."""
    try:
        if not isinstance(value, bool):
            return operator.index(value)
    except TypeError:
        pass
    raise TypeError(f"{what} must be a whole number, not {value!r}")


def _number(value: Any, what: str, largest: int = _LARGEST) -> int:
    """Takes a whole number, 0 to the largest: that of 64 bits, if no other is given."""
    number = _whole(value, what)
    if not 0 <= number <= largest:
        raise ValueError(f"{what} must be 0 to {largest}, not {number}")
    return number


def _table(table: Table) -> bytes:
    """Copies the bytes. A view of larger items would give the bytes that they have in memory, which nobody means by a table."""
    if not isinstance(table, (bytes, bytearray, memoryview)):
        raise TypeError(f"a table must be bytes, not {type(table).__name__}; open its file with 'rb'")
    if isinstance(table, memoryview) and table.itemsize != 1:
        raise TypeError(f"a table must be bytes, not a memoryview of items of {table.itemsize} bytes")
    return bytes(table)


# Names what can be read item by item, but gives other numbers than were meant: letters, bytes of a text, members without order, fields.
_NO_LISTS = (str, bytes, bytearray, Set, Clock, Region, Step, Block, Total)


def _items(values: Any, what: str) -> List[Any]:
    """Reads a sequence in its order. Arrays need not be registered as such: what has a length, and items by number, is taken."""
    listed = hasattr(values, "__len__") and hasattr(values, "__getitem__") and not _is_mapping(values)
    if isinstance(values, memoryview):
        listed = values.ndim == 1 and values.itemsize > 1
    if isinstance(values, _NO_LISTS) or not listed:
        raise TypeError(f"{what} must be a list, or another sequence of numbers in order, not {type(values).__name__}")
    try:
        return list(values)
    except NotImplementedError as trouble:  # a memoryview of items that Python cannot read
        raise TypeError(f"{what} cannot be read: {trouble}") from None


def _is_mapping(values: Any) -> bool:
    """Tells as dict() does, by keys(): not all mappings are registered as such (a Series of pandas is not)."""
    return callable(getattr(values, "keys", None))


def _by_key(proposal: Any) -> List[Any]:
    """Reads a mapping in the order of its keys, which must be 0 to one less than their count."""
    keys = list(proposal.keys())
    numbers = [_whole(key, "a key of the proposal") for key in keys]
    key_of = dict(zip(numbers, keys))
    for wanted in range(len(keys)):
        if wanted not in key_of:
            # Names a key that stands in its place: there is one, since the keys are as many as those wanted.
            foreign = [f"{number} is none of them" for number in numbers if not 0 <= number < len(keys)]
            doubled = [f"{number} is there twice" for number, times in Counter(numbers).items() if times > 1]
            told = f"{wanted} is missing, and {(foreign + doubled)[0]}"
            raise ValueError(f"the proposal's {len(keys)} keys must be the region numbers 0 to {len(keys) - 1}: {told}")
    return [proposal[key_of[number]] for number in range(len(keys))]


def _proposed(proposal: Proposal) -> List[Any]:
    """Puts a proposal into the order of the regions. Its numbers are only compared with each other: True and False are two of them."""
    ordered = _by_key(proposal) if _is_mapping(proposal) else _items(proposal, "the proposal")
    return [int(number) if isinstance(number, bool) else number for number in ordered]


def _fraction(value: Any) -> Fraction:
    """Makes a fraction of Python's own numbers: those of numpy would stay such in it, and wrap round at 64 bits."""
    if isinstance(value, numbers.Rational):
        return Fraction(operator.index(value.numerator), operator.index(value.denominator))
    return Fraction(value)


_DECIMAL_TEXT = re.compile(r"[0-9]+(\.[0-9]+|/[0-9]+)?")


def _exact(value: Any) -> Fraction:
    """Makes a fraction of a clock's value, 0 or more."""
    if isinstance(value, str):
        if not _DECIMAL_TEXT.fullmatch(value.strip()):
            raise ValueError(f'a clock\'s value must look like "3", "0.25" or "1/3", not {value!r}')
    elif isinstance(value, Decimal):
        # A short Decimal such as 1E+999999999 stands for more digits than there is memory for.
        if not value.is_finite() or (value and abs(value.adjusted()) > 40):
            raise ValueError(f"a clock's value does not fit a call: {value!r}")
    elif isinstance(value, bool) or not isinstance(value, numbers.Rational):
        raise TypeError(f"a clock's value must be exact (int, Fraction, Decimal or str), not {value!r}")
    try:
        exact = _fraction(value)
    except ZeroDivisionError:
        raise ValueError(f"a clock's value must not be over 0: {value!r}") from None
    if exact < 0:
        raise ValueError(f"a clock's value must be 0 or more, not {value!r}")
    return exact


def _common(values: Sequence[Value]) -> Tuple[List[int], int]:
    """Finds four whole numbers, and the least denominator with which they are the values."""
    exact = [_exact(value) for value in _items(values, "the values")]
    if len(exact) > _CLOCKS:
        raise ValueError(f"a model has at most {_CLOCKS} clocks: {len(exact)} values are too many")
    exact += [Fraction(0)] * (_CLOCKS - len(exact))
    denominator = math.lcm(*(value.denominator for value in exact))
    whole = [int(value * denominator) for value in exact]
    if max(denominator, *whole) > _LARGEST:
        raise ValueError(f"over their common denominator, {denominator}, the values do not fit a call: numbers go to {_LARGEST}")
    return whole, denominator


class _Lent:
    """Memory lent to a call: count numbers of one kind, and behind them one more that the call is not told of.

    For its sake the pointer is valid also where count is 0; and where it changes, a call has written past the end.
    """

    def __init__(self, kind: Any, count: int, fill: int = 0) -> None:
        self.count = count
        self.memory = (kind * (count + 1))()
        if fill:
            self.memory[:] = [fill] * (count + 1)

    def as_numbers(self, count: int) -> Tuple[int, ...]:
        """The first numbers."""
        return tuple(self.memory[:count])

    def as_bytes(self, count: int) -> bytes:
        """The bytes of the first numbers."""
        return memoryview(self.memory)[:count].tobytes()

    def behind(self) -> int:
        """The number that the call is not told of."""
        return self.memory[self.count]


def _lent_entries(entries: int) -> _Lent:
    return _Lent(ctypes.c_uint8, _number(entries, "entries", MAX_REGIONS) * _ENTRY_BYTES)


def _lent_numbers(values: Sequence[int], what: str) -> _Lent:
    checked = [_number(value, f"a number of {what}") for value in _items(values, what)]
    lent = _Lent(ctypes.c_uint64, len(checked))
    lent.memory[: len(checked)] = checked
    return lent


def _regions(table: bytes, lent: _Lent, count: int) -> Tuple[Region, ...]:
    """The first regions of the lent entries. The table is accepted: its second byte is the count of clocks."""
    entries, clocks = lent.as_bytes(count * _ENTRY_BYTES), table[1]
    return tuple(_region(entries[at : at + _ENTRY_BYTES], clocks) for at in range(0, len(entries), _ENTRY_BYTES))


def _region(entry: bytes, clocks: int) -> Region:
    parts, ranks = entry[1 : 1 + clocks], entry[1 + _CLOCKS : 1 + _CLOCKS + clocks]
    return Region(entry[0], tuple(OVER if part == _OVER_BYTE else Clock(part, rank) for part, rank in zip(parts, ranks)))


# The library.


class LibraryMissing(OSError):
    """The library is not there, or is none that this module can use: of another version, say."""


class _Answer(ctypes.Structure):
    """terkwabu_answer of include/terkwabu.h."""

    _fields_ = [(name, ctypes.c_uint64) for name in ("refusal", "place", "value", "blocks", "rounds")]


_READ = (ctypes.c_char_p, ctypes.c_size_t)  # bytes that a call only reads
_BYTES = (ctypes.POINTER(ctypes.c_uint8), ctypes.c_size_t)
_NUMBERS = (ctypes.POINTER(ctypes.c_uint64), ctypes.c_size_t)
_NUMBER = (ctypes.c_uint64,)
_KB = 1024

# Each call: what it takes, in the header's order, and the stack that a thread needs for it, with room for Python.
_CALLS = {
    "terkwabu_graph": (_READ + _BYTES, 256 * _KB),
    "terkwabu_place": (_READ + _BYTES + 6 * _NUMBER, 256 * _KB),
    "terkwabu_reduce": (_READ + _BYTES + _NUMBERS + _NUMBERS, 2048 * _KB),
    "terkwabu_pair": (_READ + _BYTES + _NUMBERS + _NUMBERS + 2 * _NUMBER, 2048 * _KB),
    "terkwabu_judge": (_READ + _BYTES + _NUMBERS, 2048 * _KB),
    "terkwabu_part": (_READ + _READ + _NUMBERS + 4 * _NUMBER + _BYTES, 256 * _KB),
    "terkwabu_refusal_line": (2 * _NUMBER + _BYTES, 64 * _KB),
}


def _run_library(script: Path) -> None:
    """Runs ./library, which sees to it that the library is that of the sources, and passes on what it says: it may have to prove."""
    said = ["it says nothing"]
    try:
        with subprocess.Popen([str(script)], stdin=subprocess.DEVNULL, stdout=subprocess.DEVNULL, stderr=subprocess.PIPE, text=True) as run:
            for line in run.stderr or ():
                said.append(line.strip())
                if not line.startswith("library: "):
                    print(line, end="", file=sys.stderr, flush=True)
    except OSError as trouble:
        raise LibraryMissing(f"{script} cannot be run ({trouble})") from trouble
    if run.returncode != 0:
        raise LibraryMissing(f"{script} made no library: {said[-1]}")


def _library_path() -> Path:
    """Finds the file of the library, and has it made where none is named."""
    named = os.environ.get("TERKWABU_LIBRARY")
    root = Path(__file__).resolve().parent.parent
    path = Path(named) if named else root / "build" / "libterkwabu.so"
    if not named and (root / "library").is_file():
        _run_library(root / "library")
    if not path.is_file():
        raise LibraryMissing(
            f"{path} is not there: build the library with ./library, which needs gcc, or name another in TERKWABU_LIBRARY"
        )
    return path.resolve()


def _opened() -> Tuple[Path, ctypes.CDLL]:
    """Opens the library, of whatever version. CDLL lets other threads of Python run during a call."""
    path = _library_path()
    try:
        return path, ctypes.CDLL(str(path))
    except OSError as trouble:
        raise LibraryMissing(f"{path} cannot be used ({trouble}): build it anew with ./library") from trouble


def _declare(path: Path, library: ctypes.CDLL) -> None:
    """Tells ctypes what each call takes. Without one of them it is another library."""
    try:
        for name, (takes, _) in _CALLS.items():
            call = getattr(library, name)
            call.argtypes, call.restype = takes, _Answer
    except AttributeError as trouble:
        raise LibraryMissing(f"{path} cannot be used ({trouble}): build it anew with ./library") from trouble


def _version_of(path: Path, library: ctypes.CDLL) -> str:
    """Asks for the version. A library that has the other calls, and not this one, is from the time before."""
    try:
        ask = library.terkwabu_version
    except AttributeError:
        _declare(path, library)
        raise LibraryMissing(
            f"{path} does not tell its version, so it is older than 1.0.0, and this module is version {__version__}: "
            "build it anew with ./library"
        ) from None
    ask.argtypes, ask.restype = (), ctypes.c_uint64
    number = ask()
    return f"{number // 1_000_000}.{number // 1_000 % 1_000}.{number % 1_000}"


@functools.lru_cache(maxsize=None)
def _library() -> ctypes.CDLL:
    """Opens the library for the calls. The version comes first: it explains why a call is missing."""
    path, library = _opened()
    version = _version_of(path, library)
    if version != __version__:
        raise LibraryMissing(
            f"{path} is version {version}, and this module is version {__version__}: "
            "build it anew with ./library of the project that the module is from"
        )
    _declare(path, library)
    return library


def library_version() -> str:
    """Asks the library for its version, such as "1.2.0": also where it is not the module's, and the other functions do not use it."""
    return _version_of(*_opened())


def _call(name: str, *arguments: Union[bytes, _Lent, int]) -> _Answer:
    """A call as the header has it. A slice is one argument here, so that no pointer goes with a wrong length, and none is null."""
    call = getattr(_library(), name)
    _look_at_stack(name, _CALLS[name][1])
    given: List[Any] = []
    for argument in arguments:
        if isinstance(argument, bytes):
            given += argument, len(argument)
        elif isinstance(argument, _Lent):
            given += argument.memory, argument.count
        else:
            given.append(_number(argument, "a number for a call"))  # ctypes by itself would cut it to 64 bits
    return call(*given)


def _accepted(answer: _Answer) -> _Answer:
    if answer.refusal:
        raise Refused(answer.refusal, answer.place)
    return answer


def _is_end(answer: _Answer) -> bool:
    """Whether a part call says that there are no more parts."""
    return (answer.refusal, answer.place, answer.value) == (0, 0, 0)


def _text(answer: _Answer, buffer: _Lent) -> str:
    """What a call wrote into a buffer that is never too short: some text."""
    if _accepted(answer).value == 0:
        raise RuntimeError(f"the library wrote no text, though there is some: its answer has value 0 and place {answer.place}")
    return buffer.as_bytes(answer.value).decode("ascii")


# The stack of the thread that calls.


_this_thread = threading.local()


def _look_at_stack(name: str, wanted: int) -> None:
    if not hasattr(_this_thread, "stack"):
        _this_thread.stack = _stack_size()
    size = _this_thread.stack
    # The size told may lack the guard page, or what stood on the stack when the program began.
    if size is not None and size < wanted - wanted // 32:
        raise RuntimeError(
            f"{name} wants a thread with {wanted // _KB} KB of stack, and this one has {size // _KB} KB: "
            "call threading.stack_size(4 * 1024 * 1024) before the thread is started, or raise the limit of the main thread (ulimit -s)"
        )


def _stack_size() -> Optional[int]:
    """The bytes of stack that this thread has in all, or None where the system does not tell."""
    system = ctypes.CDLL(None)
    try:
        ask, destroy = system.pthread_getattr_np, system.pthread_attr_destroy
    except AttributeError:
        return None
    system.pthread_self.restype = ctypes.c_void_p
    ask.argtypes = ctypes.c_void_p, ctypes.c_void_p
    attributes = (ctypes.c_uint64 * 32)()  # several times a pthread_attr_t
    if ask(system.pthread_self(), attributes) != 0:
        return None
    size = ctypes.c_size_t()
    told = system.pthread_attr_getstacksize(attributes, ctypes.byref(size)) == 0
    destroy(attributes)
    return size.value if told else None
