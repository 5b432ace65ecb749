#!/usr/bin/env python3
"""Tests of the Python module: python3 python/test_terkwabu.py, or python3 -m unittest discover -s python.

What is expected comes from tests/vectors and models/listings, which other implementations made from documents 01 and 02, or from these
themselves; nothing is taken from the library's own answers. The library must be built (./library). gcc reads the header's constants, and
makes small libraries of other versions.
"""

import _ctypes
import array
import collections
import collections.abc
import ctypes
import dataclasses
import doctest
import hashlib
import json
import math
import numbers
import os
import pickle
import re
import struct
import subprocess
import sys
import tempfile
import threading
import time
import types
import unittest
from concurrent.futures import ThreadPoolExecutor
from decimal import Decimal
from fractions import Fraction
from pathlib import Path
from typing import NamedTuple
from unittest import mock

import terkwabu

HERE = Path(__file__).resolve().parent
ROOT = HERE.parent
HEADER = ROOT / "include" / "terkwabu.h"

# Document 01's example, and what the document prints for it, with the totals of document 02 (Job 1).
EXAMPLE = bytes.fromhex("01010200 0205 0209 0300000101 0400030300 05000301 0601000100 0602000001 07")
EXAMPLE_LISTING = """\
regions 5 blocks 3 rounds 1
region 0 0 0 0
region 1 0 0 0+1
region 2 0 1 1
region 3 1 2 1
region 4 1 2 >
block 0 5 2
delay 0 1
block 1 5 1
step 1 3 0:6667 2:3333
block 2 9 2
label 5 regions 3 blocks 2
label 9 regions 2 blocks 1
all regions 5 blocks 3
"""

# Each function for scripts, with what it takes beside a table.
EACH_FUNCTION = [
    (terkwabu.graph,),
    (terkwabu.reduce,),
    (terkwabu.listing,),
    (terkwabu.pair, 0, 0),
    (terkwabu.place, 0),
    (terkwabu.judge, [0, 0, 1, 2, 2]),
]


class Vector(NamedTuple):
    """Holds a line of a file of vectors; messages say where it stands."""

    where: str
    ask: dict
    answer: dict

    @property
    def table(self):
        return bytes.fromhex(self.ask["table"])


def vector_files():
    """Returns the files by name, so that their lines come in the same order everywhere."""
    return sorted((ROOT / "tests" / "vectors").glob("*.jsonl"))


def vectors_in(path):
    """Reads each line of a file; the note that some lines have is for people."""
    with open(path, encoding="utf-8") as lines:
        for number, line in enumerate(lines, start=1):
            members = json.loads(line)
            yield Vector(f"{path.name}, line {number}", members["ask"], members["answer"])


def vectors(call):
    """Returns the lines of a call from every file: a file may mix calls, and its name need not say which."""
    return [vector for path in vector_files() for vector in vectors_in(path) if vector.ask["call"] == call]


def expect_text(test, text, answer):
    """Compares a listing or a refusal's line with an answer, which gives a long one by its length and SHA-256 only."""
    if "text" in answer:
        test.assertEqual(text, answer["text"])
    else:
        printed = text.encode("ascii")
        test.assertEqual((len(printed), hashlib.sha256(printed).hexdigest()), (answer["text_bytes"], answer["text_sha256"]))


def sample_models():
    """The name, table and expected listing of each sample model."""
    for expected in sorted((ROOT / "models" / "listings").glob("*.txt")):
        model = ROOT / "models" / f"{expected.stem}.model"
        table = subprocess.run([sys.executable, str(ROOT / "models" / "assemble"), str(model)], check=True, stdout=subprocess.PIPE).stdout
        yield expected.stem, table, expected.read_text(encoding="ascii")


def lines_of(listing, word):
    """The fields of the lines of a listing that begin with the word, the word left out."""
    return [line.split()[1:] for line in listing.splitlines() if line.split()[0] == word]


def totals_of(listing):
    """Reads the totals at the foot of a listing: of each label in turn, and of all."""
    labels = [(int(label), (int(regions), int(blocks))) for label, _, regions, _, blocks in lines_of(listing, "label")]
    [[_, regions, _, blocks]] = lines_of(listing, "all")
    return labels, (int(regions), int(blocks))


def clock_of(text):
    """A clock as a listing prints it."""
    whole, _, rank = text.partition("+")
    return terkwabu.OVER if text == ">" else terkwabu.Clock(int(whole), int(rank or 0))


def run_python(program, module=HERE, **environment):
    """Runs a program in a Python of its own, so that no thread has run there before.

    The module's folder comes before all others: Python would look into the working directory first, where there may be another."""
    found = f"import sys\nsys.path.insert(0, {str(module)!r})\n" + program
    known = {**os.environ, **environment}
    return subprocess.run([sys.executable, "-c", found], stdout=subprocess.PIPE, stderr=subprocess.PIPE, env=known, text=True)


def header_numbers():
    """Asks the compiler for the header's constants, TERKWABU_ left out: they may be written as products, or by each other.

    Other macros have neither digits nor names of constants in them."""
    listed = subprocess.run(["gcc", "-E", "-dM", str(HEADER)], check=True, stdout=subprocess.PIPE, text=True).stdout
    names = re.findall(r"^#define TERKWABU_(\w+) (?=.*(?:\d|TERKWABU_))", listed, flags=re.M)
    prints = "\n".join(f'printf("{name} %llu\\n", (unsigned long long)(TERKWABU_{name}));' for name in names)
    with tempfile.TemporaryDirectory() as folder:
        source, program = Path(folder, "numbers.c"), Path(folder, "numbers")
        source.write_text(f'#include <stdio.h>\n#include "terkwabu.h"\nint main(void) {{\n{prints}\nreturn 0;\n}}\n')
        subprocess.run(["gcc", f"-I{HEADER.parent}", "-o", str(program), str(source)], check=True)
        printed = subprocess.run([str(program)], check=True, stdout=subprocess.PIPE, text=True).stdout
    return {name: int(number) for name, number in map(str.split, printed.splitlines())}


def shuffled(items):
    """Makes a dictionary by index, the odd ones first: neither its order nor the other way round is that of the items."""
    return {at: items[at] for at in [*range(1, len(items), 2), *range(0, len(items), 2)]}


class Whole:
    """Stands for a whole number of numpy: Python may take it for an index, and nothing else is known of it."""

    def __init__(self, number):
        self.number = number

    def __index__(self):
        return self.number


class Array:
    """Stands for an array of numpy, which is not registered as a sequence."""

    def __init__(self, *items):
        self.items = items

    def __len__(self):
        return len(self.items)

    def __getitem__(self, at):
        return self.items[at]


class Ordered(Array, collections.abc.Set):
    """Stands for a set that keeps an order, as some packages have: it gives items by number, each once only."""

    def __contains__(self, item):
        return item in self.items

    def __iter__(self):
        return iter(self.items)


class Labelled(Array):
    """Stands for a Series of pandas, which is not registered as a mapping, and gives its items, not its keys, when it is read through."""

    def __init__(self, items):
        super().__init__(*items.values())
        self.labels = items

    def __iter__(self):
        return iter(self.items)

    def keys(self):
        return list(self.labels)

    def __getitem__(self, label):
        return self.labels[label]


class FilesOfVectors(unittest.TestCase):
    def test_no_file_is_empty(self):
        for path in vector_files():
            with self.subTest(file=path.name):
                self.assertNotEqual(list(vectors_in(path)), [])

    def test_every_call_is_covered(self):
        """Finds lines that no test would take: CallsAgainstVectors must have a test named after the call."""
        covered = {name[len("test_") :] for name in unittest.defaultTestLoader.getTestCaseNames(CallsAgainstVectors)}
        for path in vector_files():
            for vector in vectors_in(path):
                with self.subTest(where=vector.where):
                    self.assertIn(vector.ask["call"], covered)


class CallsAgainstVectors(unittest.TestCase):
    """Makes the call of each line of each file, with the lengths and fills that it asks for, and compares the answer and every byte of
    what was lent.

    Where a line gives a SHA-256 in place of the bytes, that is compared. Each test is named after its call and says how many lines the
    call has at least, so that a file that gets lost is noticed."""

    def lend_entries(self, ask):
        return terkwabu._Lent(ctypes.c_uint8, ask["entries"], ask["fill"])

    def lend_lists(self, ask):
        return [terkwabu._Lent(ctypes.c_uint64, length, ask["list_fill"]) for length in ask["lists"]]

    def expect_entries(self, lent, ask, answer):
        held = lent.as_bytes(lent.count)
        self.assertEqual(len(held), ask["entries"])
        if "entries" in answer:
            self.assertEqual(held.hex(), answer["entries"])
        else:
            self.assertEqual(hashlib.sha256(held).hexdigest(), answer["entries_sha256"])
        self.assertEqual(lent.behind(), ask["fill"], "written past the end of the entries")

    def expect_list(self, lent, ask, answer, name):
        held = lent.as_numbers(lent.count)
        if name in answer:
            self.assertEqual(list(held), answer[name])
        else:
            packed = struct.pack(f"<{len(held)}Q", *held)
            self.assertEqual(hashlib.sha256(packed).hexdigest(), answer[f"{name}_sha256"])
        self.assertEqual(lent.behind(), ask["list_fill"], "written past the end of a list")

    def expect_answer(self, got, answer, result):
        """The numbers of an answer: the refusal and place, or the result as (value, blocks, rounds)."""
        expected = (*answer["refused"], 0, 0, 0) if "refused" in answer else (0, 0, *result(answer["result"]))
        self.assertEqual((got.refusal, got.place, got.value, got.blocks, got.rounds), expected)

    def check(self, call, least, one):
        found = vectors(call)
        self.assertGreaterEqual(len(found), least)
        for vector in found:
            with self.subTest(where=vector.where):
                one(vector.ask, vector.table, vector.answer)

    def one_graph(self, ask, table, answer):
        entries = self.lend_entries(ask)
        got = terkwabu._call("terkwabu_graph", table, entries)
        self.expect_answer(got, answer, lambda regions: (regions, 0, 0))
        self.expect_entries(entries, ask, answer)

    def one_partition(self, ask, table, answer):
        entries, (first, second) = self.lend_entries(ask), self.lend_lists(ask)
        got = terkwabu._call("terkwabu_reduce", table, entries, first, second)
        self.expect_answer(got, answer, tuple)
        self.expect_entries(entries, ask, answer)
        self.expect_list(first, ask, answer, "list1")
        self.expect_list(second, ask, answer, "list2")

    def one_pair(self, ask, table, answer):
        entries, (first, second) = self.lend_entries(ask), self.lend_lists(ask)
        got = terkwabu._call("terkwabu_pair", table, entries, first, second, *ask["asked"])
        self.expect_answer(got, answer, lambda shared: (int(shared), 0, 0))
        self.expect_entries(entries, ask, answer)
        self.expect_list(first, ask, answer, "list1")
        self.expect_list(second, ask, answer, "list2")

    def one_judgement(self, ask, table, answer):
        entries, proposal = self.lend_entries(ask), terkwabu._lent_numbers(ask["proposal"], "a number")
        got = terkwabu._call("terkwabu_judge", table, entries, proposal)
        self.expect_answer(got, answer, lambda accepted: (int(accepted), 0, 0))
        self.expect_entries(entries, ask, answer)
        self.assertEqual(list(proposal.as_numbers(proposal.count)), ask["proposal"])

    def one_place(self, ask, table, answer):
        entries = self.lend_entries(ask)
        got = terkwabu._call("terkwabu_place", table, entries, *ask["state"])
        self.expect_answer(got, answer, lambda region: (region, 0, 0))
        self.expect_entries(entries, ask, answer)

    def one_listing(self, ask, table, answer):
        entries = terkwabu._Lent(ctypes.c_uint8, 9 * ask["lent"])
        first, second = (terkwabu._Lent(ctypes.c_uint64, ask["lent"]) for _ in range(2))
        got = terkwabu._call("terkwabu_reduce", table, entries, first, second)
        buffer = terkwabu._Lent(ctypes.c_uint8, 65536)
        if got.refusal:
            end = terkwabu._call("terkwabu_refusal_line", got.refusal, got.place, buffer)
            text = buffer.as_bytes(end.value)
        else:
            text = b"".join(self.parts(table, entries, second, got, buffer))
        expect_text(self, text.decode("ascii"), answer)

    def test_graph(self):
        self.check("graph", 640, self.one_graph)

    def test_partition(self):
        self.check("partition", 160, self.one_partition)

    def test_pair(self):
        self.check("pair", 160, self.one_pair)

    def test_judge(self):
        self.check("judge", 160, self.one_judgement)

    def test_place(self):
        self.check("place", 480, self.one_place)

    def test_listing(self):
        self.check("listing", 410, self.one_listing)

    def parts(self, table, entries, blocks, left, buffer):
        """The parts of a listing by the loop that the header gives: until refusal, value and place are 0."""
        for part in range(2 * 4096 + 3):  # the first line, regions, blocks, the totals, and the end
            counts = left.value, left.blocks, left.rounds
            got = terkwabu._call("terkwabu_part", table, entries.as_bytes(entries.count), blocks, *counts, part, buffer)
            self.assertEqual((got.refusal, got.place, got.blocks, got.rounds), (0, 0, 0, 0))
            if got.value == 0:
                return
            yield buffer.as_bytes(got.value)
        self.fail("the parts do not end")


class FunctionsAgainstVectors(unittest.TestCase):
    """The same lines through the functions for scripts, where these can ask what the line asks."""

    def answer_of(self, function, *arguments, **named):
        """The result, or the number and place of the refusal."""
        try:
            return "result", function(*arguments, **named)
        except terkwabu.Refused as refusal:
            return "refused", [refusal.number, refusal.place]

    def entries(self, ask):
        return min(ask["entries"] // 9, 4096)

    def numbers(self, regions):
        """Location, integer parts and ranks of regions, as an entry has them."""
        return [
            [region.location]
            + [16 if clock is terkwabu.OVER else clock.whole for clock in region.clocks]
            + [0] * (4 - len(region.clocks))
            + [0 if clock is terkwabu.OVER else clock.rank for clock in region.clocks]
            + [0] * (4 - len(region.clocks))
            for region in regions
        ]

    def expect_regions(self, regions, vector):
        """The regions hold what the entries of an answer say, and have as many clocks as the header of the table."""
        self.assertEqual({len(region.clocks) for region in regions}, {vector.table[1]})
        if "entries" in vector.answer:
            held = bytes.fromhex(vector.answer["entries"])
            self.assertEqual(self.numbers(regions), [list(held[9 * at : 9 * at + 9]) for at in range(len(regions))])

    def test_graph(self):
        for vector in vectors("graph"):
            with self.subTest(where=vector.where):
                kind, got = self.answer_of(terkwabu.graph, vector.table, entries=self.entries(vector.ask))
                self.assertIn(kind, vector.answer)
                if kind == "refused":
                    self.assertEqual(got, vector.answer["refused"])
                else:
                    self.assertEqual(len(got), vector.answer["result"])
                    self.expect_regions(got, vector)

    def test_reduce(self):
        looked = 0
        for vector in vectors("partition"):
            answer = vector.answer
            if answer.get("refused") == [16, 0]:
                continue  # the module lends lists that are never too short
            with self.subTest(where=vector.where):
                kind, got = self.answer_of(terkwabu.reduce, vector.table, entries=self.entries(vector.ask))
                self.assertIn(kind, answer)
                if kind == "refused":
                    self.assertEqual(got, answer["refused"])
                else:
                    self.assertEqual([len(got.regions), got.blocks, got.rounds], answer["result"])
                    self.expect_regions(got.regions, vector)
                    self.assertEqual(len(got.block_of), len(got.regions))
                    if "list1" in answer:
                        self.assertEqual(list(got.block_of), answer["list1"][: len(got.regions)])
                looked += 1
        self.assertGreater(looked, 100)

    def test_pair(self):
        looked = 0
        for vector in vectors("pair"):
            if vector.answer.get("refused") == [16, 0]:
                continue
            with self.subTest(where=vector.where):
                kind, got = self.answer_of(terkwabu.pair, vector.table, *vector.ask["asked"], entries=self.entries(vector.ask))
                self.assertEqual(got, vector.answer.get(kind))
                looked += 1
        self.assertGreater(looked, 100)

    def test_judge(self):
        for vector in vectors("judge"):
            with self.subTest(where=vector.where):
                kind, got = self.answer_of(terkwabu.judge, vector.table, vector.ask["proposal"], entries=self.entries(vector.ask))
                self.assertEqual(got, vector.answer.get(kind))

    def test_place(self):
        """With fractions, which have their least denominator: where the line refuses a larger one, there is nothing to compare."""
        looked = 0
        for vector in vectors("place"):
            location, *numbers, denominator = vector.ask["state"]
            if denominator == 0:
                continue
            values = [Fraction(number, denominator) for number in numbers]
            if vector.answer.get("refused") == [20, 0] and math.lcm(*(value.denominator for value in values)) != denominator:
                continue
            with self.subTest(where=vector.where):
                kind, got = self.answer_of(terkwabu.place, vector.table, location, values, entries=self.entries(vector.ask))
                self.assertEqual(got, vector.answer.get(kind))
                looked += 1
        self.assertGreater(looked, 300)

    def test_listing(self):
        for vector in vectors("listing"):
            with self.subTest(where=vector.where):
                try:
                    text = terkwabu.listing(vector.table, entries=vector.ask["lent"])
                except terkwabu.Refused as refusal:
                    text = refusal.line()
                expect_text(self, text, vector.answer)


class Shares(unittest.TestCase):
    """Shares in ten-thousandths, as document 02 (Job 7) has them: to the nearest, an exact half to the even one."""

    HALVES = bytes.fromhex("01000200 0201 0202 040004204e 0601000100 061f4e0000 040005204e 0603000100 061d4e0000 07")

    def test_steps(self):
        """Reads the steps of each block off the listings of the vectors: all that were asked for in full."""
        looked = 0
        for vector in vectors("listing"):
            lines = lines_of(vector.answer.get("text", ""), "step")
            if not lines:
                continue
            with self.subTest(where=vector.where):
                reduced = terkwabu.reduce(vector.table, entries=vector.ask["lent"])
                found = [
                    [str(number), str(step.action), *(f"{block}:{share}" for block, share in step.shares.items())]
                    for number in range(reduced.blocks)
                    for step in reduced.block(number).steps
                ]
                self.assertEqual(found, lines)
            looked += any(word.endswith(":0") for line in lines for word in line)
        self.assertGreater(looked, 20)

    def test_halves(self):
        """Takes 1/20,000 and 3/20,000 of two edges, and what is left of each."""
        steps = terkwabu.reduce(self.HALVES).block(0).steps
        self.assertEqual(steps, (terkwabu.Step(4, {0: 10000, 1: 0}), terkwabu.Step(5, {0: 9998, 1: 2})))


class Totals(unittest.TestCase):
    """Regions and blocks by label, as document 02 (Job 1) has them at the foot of the listing."""

    # Has locations with the labels 255, 0, 7 and 255, of which edges lead from the first to the second, and on to the last.
    BYTES = bytes.fromhex("01000400 02ff 0200 0207 02ff 0400010100 0601000100 0401010100 0601000300 07")

    # Has 64 locations, each with one region and another label, from 255 down: edges lead from one to the next.
    FALLING = bytes([1, 0, 64, 0]) + b"".join(bytes([2, 255 - 4 * at]) for at in range(64)) + b"".join(
        bytes([4, at, 1, 1, 0, 6, 1, 0, at + 1, 0]) for at in range(63)
    ) + b"\x07"

    def expect(self, reduced, listing):
        """Holds the totals to a listing: to its last lines, and to what its block lines sum to."""
        labels, of_all = totals_of(listing)
        found = reduced.totals()
        self.assertEqual(list(found.items()), labels)
        self.assertEqual(list(found), sorted(set(found)))
        self.assertEqual({type(total) for total in found.values()}, {terkwabu.Total})
        blocks = [(int(label), int(size)) for _, label, size in lines_of(listing, "block")]
        for label, total in found.items():
            sizes = [size for its, size in blocks if its == label]
            self.assertEqual((total.regions, total.blocks), (sum(sizes), len(sizes)))
        sums = sum(total.regions for total in found.values()), sum(total.blocks for total in found.values())
        self.assertEqual([sums, (len(reduced.regions), reduced.blocks)], [of_all, of_all])
        self.assertEqual(reduced.listing().splitlines()[-1], "all regions {} blocks {}".format(*of_all))

    def test_vectors(self):
        """Takes all listings of the vectors that are given in full; the least and the largest label are among theirs."""
        looked, labels = 0, set()
        for vector in vectors("listing"):
            text = vector.answer.get("text", "refused")
            if text.startswith("refused"):
                continue
            with self.subTest(where=vector.where):
                reduced = terkwabu.reduce(vector.table, entries=vector.ask["lent"])
                self.expect(reduced, text)
                labels.update(reduced.totals())
            looked += 1
        self.assertGreater(looked, 330)
        self.assertLessEqual({0, 255}, labels)

    def test_sample_models(self):
        for name, table, expected in sample_models():
            with self.subTest(model=name):
                self.expect(terkwabu.reduce(table), expected)

    def test_example(self):
        self.assertEqual(terkwabu.reduce(EXAMPLE).totals(), {5: terkwabu.Total(3, 2), 9: terkwabu.Total(2, 1)})

    def test_bytes(self):
        """Takes the least and the largest label, and one that only a location bears that is not reached."""
        reduced = terkwabu.reduce(self.BYTES)
        self.assertEqual(reduced.totals(), {0: terkwabu.Total(1, 1), 255: terkwabu.Total(2, 2)})
        last = ["label 0 regions 1 blocks 1", "label 255 regions 2 blocks 2", "all regions 3 blocks 3"]
        self.assertEqual(reduced.listing().splitlines()[-4:], ["block 2 255 1", *last])

    def test_rising(self):
        """Takes as many labels as a model can have, met from the largest down."""
        expected = [(label, terkwabu.Total(1, 1)) for label in range(3, 256, 4)]
        self.assertEqual(list(terkwabu.reduce(self.FALLING).totals().items()), expected)

    def test_refused(self):
        """Gives no totals for a table that is refused, and no line after the refusal's."""
        refused = [(b"", 5, "refused 2 place 0\n"), (EXAMPLE + b"\0", 5, "refused 13 place 33\n"), (EXAMPLE, 4, "refused 15 place 0\n")]
        for table, entries, line in refused:
            with self.subTest(line=line):
                with self.assertRaises(terkwabu.Refused) as caught:
                    terkwabu.reduce(table, entries=entries).totals()
                self.assertEqual(caught.exception.line(), line)


class SampleModels(unittest.TestCase):
    """The sample models against the listings that the independent implementation printed."""

    @classmethod
    def setUpClass(cls):
        cls.models = list(sample_models())

    def check(self, one):
        self.assertEqual(len(self.models), 6)
        for name, table, expected in self.models:
            with self.subTest(model=name):
                one(table, expected)

    def one_listing(self, table, expected):
        self.assertEqual(terkwabu.listing(table), expected)
        self.assertEqual(terkwabu.reduce(table).listing(), expected)

    def one_graph(self, table, expected):
        reduced = terkwabu.reduce(table)
        lines = lines_of(expected, "region")
        self.assertEqual(reduced.regions, tuple((int(line[1]), tuple(map(clock_of, line[3:]))) for line in lines))
        self.assertEqual(reduced.regions, terkwabu.graph(table))
        self.assertEqual(reduced.block_of, tuple(int(line[2]) for line in lines))
        self.assertEqual([str(region).split()[1:] for region in reduced.regions], [[line[1], *line[3:]] for line in lines])

    def one_blocks(self, table, expected):
        reduced = terkwabu.reduce(table)
        regions, blocks = lines_of(expected, "region"), lines_of(expected, "block")
        self.assertEqual([[str(reduced.blocks), str(reduced.rounds)]], [line[2::2] for line in lines_of(expected, "regions")])
        self.assertEqual(reduced.blocks, len(blocks))
        for number, label, size in blocks:
            members = tuple(int(line[0]) for line in regions if line[2] == number)
            delays = tuple(int(word) for line in lines_of(expected, "delay") if line[0] == number for word in line[1:])
            steps = [line[1:] for line in lines_of(expected, "step") if line[0] == number]
            block = reduced.block(int(number))
            self.assertEqual((block.number, block.label, block.members, block.delays), (int(number), int(label), members, delays))
            self.assertEqual(
                [[str(step.action), *(f"{landed}:{share}" for landed, share in step.shares.items())] for step in block.steps], steps
            )
            self.assertEqual(len(block.members), int(size))
            self.assertEqual(reduced.members(int(number)), members)

    def one_pair(self, table, expected):
        """Each of the first forty regions with region 0, with itself, and with the one before it."""
        blocks = [line[2] for line in lines_of(expected, "region")][:40]
        for region, block in enumerate(blocks):
            for other in (0, region, max(region - 1, 0)):
                self.assertIs(terkwabu.pair(table, region, other), block == blocks[other])

    def one_judge(self, table, expected):
        """The blocks are a bisimulation, under any numbers; so is equality; what relates regions of two blocks is none."""
        blocks = [int(line[2]) for line in lines_of(expected, "region")]
        self.assertIs(terkwabu.judge(table, blocks), True)
        self.assertIs(terkwabu.judge(table, [2**64 - 1 - block for block in blocks]), True)
        self.assertIs(terkwabu.judge(table, shuffled(blocks)), True)
        self.assertIs(terkwabu.judge(table, range(len(blocks))), True)
        for merged in range(1, 1 + max(blocks)):
            with self.assertRaises(terkwabu.Refused) as caught:
                terkwabu.judge(table, [0 if block == merged else block for block in blocks])
            self.assertEqual((caught.exception.number, caught.exception.place), (18, 0))

    def one_place(self, table, expected):
        """A state in each region: fractions spread evenly by rank, and 16 for a clock that is over, since no constant is above 15."""
        for number, location, _, *clocks in lines_of(expected, "region"):
            clocks = [clock_of(clock) for clock in clocks]
            parts = 1 + max([0] + [clock.rank for clock in clocks if clock is not terkwabu.OVER])
            values = [16 if clock is terkwabu.OVER else clock.whole + Fraction(clock.rank, parts) for clock in clocks]
            self.assertEqual(terkwabu.place(table, int(location), values), int(number))
            self.assertEqual(terkwabu.place(table, int(location), [str(value) for value in values]), int(number))

    def test_listing(self):
        self.check(self.one_listing)

    def test_graph(self):
        self.check(self.one_graph)

    def test_blocks(self):
        self.check(self.one_blocks)

    def test_pair(self):
        self.check(self.one_pair)

    def test_judge(self):
        self.check(self.one_judge)

    def test_place(self):
        self.check(self.one_place)


class DocumentExample(unittest.TestCase):
    """The example and the points of document 01."""

    def test_listing(self):
        self.assertEqual(terkwabu.listing(EXAMPLE), EXAMPLE_LISTING)

    def test_table_of_any_bytes(self):
        self.assertEqual(terkwabu.listing(bytearray(EXAMPLE)), EXAMPLE_LISTING)
        self.assertEqual(terkwabu.listing(memoryview(EXAMPLE + b"?")[:-1]), EXAMPLE_LISTING)
        doubled = b"".join(bytes([byte, 0xFF]) for byte in EXAMPLE)
        self.assertEqual(terkwabu.listing(memoryview(doubled)[::2]), EXAMPLE_LISTING)

    def test_entries(self):
        """With 5 entries it is accepted; with 4 it gets 15 and four regions."""
        self.assertEqual(len(terkwabu.graph(EXAMPLE, entries=5)), 5)
        for function, *arguments in EACH_FUNCTION:
            for few in (4, 0):
                with self.subTest(function=function.__name__, entries=few), self.assertRaises(terkwabu.Refused) as caught:
                    function(EXAMPLE, *arguments, entries=few)
                self.assertEqual((caught.exception.number, caught.exception.place), (15, 0))
        entries = terkwabu._Lent(ctypes.c_uint8, 4 * 9 + 8, 0xA5)
        self.assertEqual(terkwabu._call("terkwabu_graph", EXAMPLE, entries).refusal, 15)
        regions = [(0, 0, 0), (0, 0, 1), (0, 1, 0), (1, 1, 0)]  # location, integer part and rank, from the listing
        expected = b"".join(bytes([location, part, 0, 0, 0, rank, 0, 0, 0]) for location, part, rank in regions)
        self.assertEqual(entries.as_bytes(entries.count), expected + 8 * b"\xa5")

    def test_borders_of_the_table(self):
        points = [(b"", 2, 0), (b"\x07", 5, 0), (bytes(16384), 3, 0), (bytes(16385), 1, 0)]
        points += [(bytes([1, 5, 1, 0]), 6, 0), (bytes([1, 4, 1, 0]), 2, 4)]
        for table, number, place in points:
            with self.subTest(table=table[:8]), self.assertRaises(terkwabu.Refused) as caught:
                terkwabu.reduce(table)
            self.assertEqual((caught.exception.number, caught.exception.place), (number, place))

    def test_states(self):
        """M is 1, so that 2/2 is 1 and 3/2 is over; the invariant of location 0 ends at 1."""
        states = [(0, [], 0), (0, ["0"], 0), (0, ["1/2"], 1), (0, ["2/2"], 2), (1, [1], 3), (1, ["3/2"], 4), (1, [2**64 - 1], 4)]
        for location, values, region in states:
            with self.subTest(location=location, values=values):
                self.assertEqual(terkwabu.place(EXAMPLE, location, values), region)
        refused = [(0, ["3/2"], 21), (1, ["1/2"], 21), (2, [0], 20), (0, [0, 1], 20), (0, [0, 0, 0, "1/2"], 20), (0, ["1/1000001"], 20)]
        for location, values, number in refused:
            with self.subTest(location=location, values=values), self.assertRaises(terkwabu.Refused) as caught:
                terkwabu.place(EXAMPLE, location, values)
            self.assertEqual((caught.exception.number, caught.exception.place), (number, 0))
        self.assertEqual(terkwabu.place(EXAMPLE, 0, ["1/1000000"]), 1)

    def test_values_are_exact(self):
        """The same value in each form that is taken; and values next to 1 that a float could not tell from it."""
        for value in (Fraction(1, 4), Decimal("0.25"), "0.25", "1/4", " 0.250 ", "2/8", Decimal("25E-2")):
            with self.subTest(value=value):
                self.assertEqual(terkwabu._common([value, 3]), ([1, 12, 0, 0], 4))
        self.assertEqual(terkwabu._common(["1/6", Decimal("0.1"), 2]), ([5, 3, 60, 0], 30))
        self.assertEqual(terkwabu._common([Decimal("0E+999999999"), Decimal("-0.0")]), ([0, 0, 0, 0], 1))
        below, above = (2**64 - 2, 2**64 - 1), (2**64 - 1, 2**64 - 2)
        self.assertEqual(terkwabu._common([Fraction(*below)]), ([below[0], 0, 0, 0], below[1]))
        self.assertEqual(terkwabu._common([Fraction(*above)]), ([above[0], 0, 0, 0], above[1]))
        self.assertEqual(terkwabu.place(EXAMPLE, 0, ["0.999999"]), 1)
        self.assertEqual(terkwabu.place(EXAMPLE, 1, ["1.000001"]), 4)

    def test_reduced_can_be_kept(self):
        """What reduce gave can be compared, and sent to another process, and prints its listing there."""
        reduced = terkwabu.reduce(EXAMPLE)
        before = pickle.dumps(reduced)
        reduced.block(1)
        copy = pickle.loads(pickle.dumps(reduced))
        self.assertEqual(copy, reduced)
        self.assertEqual(pickle.dumps(copy), before)
        self.assertEqual(copy.listing(), EXAMPLE_LISTING)
        self.assertEqual(copy.totals(), reduced.totals())
        self.assertIs(copy.regions[4].clocks[0], terkwabu.OVER)
        self.assertNotEqual(reduced, terkwabu.reduce(EXAMPLE[:5] + b"\x09" + EXAMPLE[6:]))

    def test_no_such_block(self):
        reduced = terkwabu.reduce(EXAMPLE)
        for ask in (reduced.block, reduced.members):
            for number in (3, -1, 2**64):
                with self.subTest(ask=ask.__name__, number=number), self.assertRaises(IndexError):
                    ask(number)
            for wrong in (1.0, "1", None, [1]):
                with self.subTest(ask=ask.__name__, number=wrong), self.assertRaisesRegex(TypeError, "a block number"):
                    ask(wrong)


class PartsAndLines(unittest.TestCase):
    """The two calls that write text, with buffers that are too short, and with what they cannot use."""

    def setUp(self):
        lines = EXAMPLE_LISTING.splitlines(keepends=True)
        # The first line, five regions, the blocks (block 0 has a delay line, block 1 a step line), and the totals.
        self.parts = [*lines[:6], "".join(lines[6:8]), "".join(lines[8:10]), lines[10], "".join(lines[11:])]
        self.entries = terkwabu._Lent(ctypes.c_uint8, 45)
        self.first, second = (terkwabu._Lent(ctypes.c_uint64, 5) for _ in range(2))
        terkwabu._call("terkwabu_reduce", EXAMPLE, self.entries, self.first, second)

    def part(self, number, buffer, counts=(5, 3, 1), table=EXAMPLE):
        got = terkwabu._call("terkwabu_part", table, self.entries.as_bytes(45), self.first, *counts, number, buffer)
        self.assertEqual((got.blocks, got.rounds), (0, 0))
        return got.refusal, got.place, got.value

    def test_part(self):
        for number, text in enumerate(self.parts):
            with self.subTest(part=number):
                exact = terkwabu._Lent(ctypes.c_uint8, len(text), 0xA5)
                self.assertEqual(self.part(number, exact), (0, 0, len(text)))
                self.assertEqual(exact.as_bytes(exact.count), text.encode())
                self.assertEqual(exact.behind(), 0xA5)
                short = terkwabu._Lent(ctypes.c_uint8, len(text) - 1, 0xA5)
                self.assertEqual(self.part(number, short), (0, len(text), 0))
                self.assertEqual(short.as_bytes(len(text)), len(text) * b"\xa5")

    def test_no_part(self):
        asked = [(10, (5, 3, 1)), (2**64 - 1, (5, 3, 1)), (0, (6, 3, 1)), (0, (4097, 3, 1)), (0, (5, 0, 1)), (0, (5, 6, 1))]
        asked += [(10, (6, 3, 1)), (4101, (4097, 3, 1)), (6, (5, 0, 1)), (12, (5, 6, 1))]  # where such counts would have their totals
        for number, counts in asked:
            with self.subTest(part=number, counts=counts):
                buffer = terkwabu._Lent(ctypes.c_uint8, 65536, 0xA5)
                self.assertEqual(self.part(number, buffer, counts), (0, 0, 0))
                self.assertEqual(buffer.as_bytes(65537), 65537 * b"\xa5")

    def telling(self, told):
        """A part call that tells these texts, and the parts that it was asked for."""
        asked = []

        def part_call(name, *arguments):
            *_, part, buffer = arguments
            asked.append((name, part))
            if part == len(told):
                return terkwabu._Answer()
            buffer.memory[: len(told[part])] = told[part].encode()
            return terkwabu._Answer(value=len(told[part]))

        return part_call, asked

    def test_parts_until_the_call_says_end(self):
        """The parts are asked for in turn, and the call alone says how many there are: not the counts of regions and blocks."""
        for told in ([], self.parts[:1], self.parts[:5], [*self.parts, "more\n"], [*self.parts, "block 7 5 1\n", "more\n"]):
            reduced = terkwabu.reduce(EXAMPLE)
            part_call, asked = self.telling(told)
            with self.subTest(told=told), mock.patch.object(terkwabu, "_call", part_call):
                if told:
                    self.assertEqual(reduced.listing(), "".join(told))
                else:
                    with self.assertRaisesRegex(RuntimeError, "no text"):
                        reduced.listing()
            self.assertEqual(asked, [("terkwabu_part", part) for part in range(len(told) + 1)])

    def test_blocks_by_what_their_parts_say(self):
        """A block is found by its number in the text, not by a part number that was computed."""
        expected = [terkwabu.reduce(EXAMPLE).block(number) for number in range(3)]
        for told in (self.parts, [*self.parts[:6], "more\n", *self.parts[6:]], self.parts[6:], [*self.parts[:6], *self.parts[:5:-1]]):
            reduced = terkwabu.reduce(EXAMPLE)
            part_call, asked = self.telling(told)
            with self.subTest(told=told), mock.patch.object(terkwabu, "_call", part_call):
                self.assertEqual([reduced.block(number) for number in (2, 0, 1)], [expected[number] for number in (2, 0, 1)])
            self.assertEqual(asked, [("terkwabu_part", part) for part in range(len(told) + 1)])

    def test_totals_by_what_their_part_says(self):
        """The totals are read off their part, wherever it stands, and not counted anew; the parts are asked for once."""
        example = {5: terkwabu.Total(3, 2), 9: terkwabu.Total(2, 1)}
        other = ["label 7 regions 70 blocks 4\nlabel 8 regions 1 blocks 90\nall regions 71 blocks 94\n"]
        for told, expected in (
            (self.parts, example),
            ([*self.parts, "more\n"], example),
            (self.parts[::-1], example),
            (self.parts[:-1] + other, {7: terkwabu.Total(70, 4), 8: terkwabu.Total(1, 90)}),
            (self.parts[:-1], None),
            ([*self.parts[:-1], "all regions 5 blocks 3\n"], None),
        ):
            reduced = terkwabu.reduce(EXAMPLE)
            part_call, asked = self.telling(told)
            with self.subTest(told=told), mock.patch.object(terkwabu, "_call", part_call):
                if expected is None:
                    with self.assertRaisesRegex(RuntimeError, "no totals"):
                        reduced.totals()
                else:
                    self.assertEqual(reduced.totals(), expected)
                self.assertEqual(reduced.listing(), "".join(told))
            self.assertEqual(asked, [("terkwabu_part", part) for part in range(len(told) + 1)])

    def test_listings_side_by_side(self):
        """Threads that print different models do not wait for each other: each comes to its first part while the other is at it."""
        at_part = threading.Barrier(2, timeout=20)
        plain_call = terkwabu._call

        def part_call(name, *arguments):
            if name == "terkwabu_part" and arguments[-2] == 0:
                at_part.wait()
            return plain_call(name, *arguments)

        both = [terkwabu.reduce(EXAMPLE), terkwabu.reduce(EXAMPLE)]
        with mock.patch.object(terkwabu, "_call", part_call), ThreadPoolExecutor(2) as pool:
            self.assertEqual(list(pool.map(lambda reduced: reduced.listing(), both)), 2 * [EXAMPLE_LISTING])

    def test_no_text_is_no_listing(self):
        """Counts that cannot be those of the model: a listing with nothing in it would be wrong."""
        for counts in ({"blocks": 6}, {"blocks": 0}):
            wrong = dataclasses.replace(terkwabu.reduce(EXAMPLE), **counts)
            with self.subTest(counts=counts), self.assertRaisesRegex(RuntimeError, "no text"):
                wrong.listing()

    def test_part_of_a_refused_table(self):
        buffer = terkwabu._Lent(ctypes.c_uint8, 100, 0xA5)
        for number in (0, len(self.parts) - 1):
            with self.subTest(part=number):
                self.assertEqual(self.part(number, buffer, table=b"\x07"), (5, 0, 0))
                self.assertEqual(buffer.as_bytes(101), 101 * b"\xa5")

    def test_refusal_line(self):
        for number, place in ((5, 0), (12, 13), (0, 0), (2**64 - 1, 2**64 - 1)):
            with self.subTest(number=number):
                text = f"refused {number} place {place}\n".encode()
                exact, short = (terkwabu._Lent(ctypes.c_uint8, length, 0xA5) for length in (len(text), len(text) - 1))
                got = terkwabu._call("terkwabu_refusal_line", number, place, exact)
                self.assertEqual((got.refusal, got.place, got.value), (0, 0, len(text)))
                self.assertEqual(exact.as_bytes(len(text) + 1), text + b"\xa5")
                got = terkwabu._call("terkwabu_refusal_line", number, place, short)
                self.assertEqual((got.refusal, got.place, got.value), (0, len(text), 0))
                self.assertEqual(short.as_bytes(len(text)), len(text) * b"\xa5")
                self.assertEqual(terkwabu.Refused(number, place).line().encode(), text)


class Refusals(unittest.TestCase):
    # What the meaning of each must speak of, from document 01's list.
    SPEAKS_OF = {
        1: "16,384", 2: "ends", 3: "1 to 7", 4: "past the end", 5: "order", 6: "header", 7: "mask", 8: "comparison", 9: "15", 10: "60,000",
        11: "one too many", 12: "sum to", 13: "follow the end", 14: "invariant", 15: "4,096", 16: "block lists", 17: "one number for each",
        18: "no bisimulation", 19: "region number", 20: "1,000,000", 21: "not reach",
    }

    def test_meanings(self):
        for number in range(1, 22):
            with self.subTest(number=number):
                refusal = terkwabu.Refused(number, 4711)
                self.assertIn(self.SPEAKS_OF[number], refusal.meaning)
                self.assertEqual(str(refusal), f"refused {number} place 4711: {refusal.meaning}")
                # The place is a byte of the table for 2 to 13, and says nothing for the others.
                self.assertIs("byte 4711" in refusal.meaning, 2 <= number <= 13)
        self.assertEqual(sorted(terkwabu._MEANINGS), list(range(1, 22)))
        self.assertIn("does not know", terkwabu.Refused(22, 0).meaning)

    def test_refusal_can_be_kept(self):
        """It can be sent to another process, as a pool of processes does with what a worker raises."""
        copy = pickle.loads(pickle.dumps(terkwabu.Refused(12, 13)))
        self.assertEqual((copy.number, copy.place, str(copy)), (12, 13, str(terkwabu.Refused(12, 13))))

    def test_weights_that_do_not_sum(self):
        """The example with a weight of 3 in its second branch: the edge begins at byte 13."""
        with self.assertRaises(terkwabu.Refused) as caught:
            terkwabu.reduce(EXAMPLE[:28] + b"\x03" + EXAMPLE[29:])
        self.assertEqual((caught.exception.number, caught.exception.place), (12, 13))
        self.assertIn("the edge at byte 13", str(caught.exception))
        self.assertEqual(caught.exception.line(), "refused 12 place 13\n")

    def test_asked_and_proposed(self):
        """17 before 18, and 19 of either number, up to the largest."""
        asked = [(terkwabu.judge, 17, [0, 0, 1, 2]), (terkwabu.judge, 17, []), (terkwabu.judge, 18, [0] * 5), (terkwabu.judge, 17, [0] * 6)]
        asked += [(terkwabu.pair, 19, 5, 0), (terkwabu.pair, 19, 0, 5), (terkwabu.pair, 19, 2**64 - 1, 2**64 - 1)]
        for function, number, *arguments in asked:
            with self.subTest(function=function.__name__, arguments=arguments), self.assertRaises(terkwabu.Refused) as caught:
                function(EXAMPLE, *arguments)
            self.assertEqual((caught.exception.number, caught.exception.place), (number, 0))


class ListsAndMappings(unittest.TestCase):
    """Hands a proposal, and clock values, over as scripts may hold them: read otherwise than meant, they would get another answer."""

    # Takes the blocks of the example, and relates two regions whose labels differ.
    RIGHT, WRONG = [0, 0, 1, 2, 2], [0, 0, 1, 2, 1]

    def expect_judged(self, made):
        """Judges what a function makes of the right numbers and of the wrong ones."""
        self.assertIs(terkwabu.judge(EXAMPLE, made(self.RIGHT)), True)
        self.expect_refused(18, made(self.WRONG))

    def expect_refused(self, number, proposal):
        with self.assertRaises(terkwabu.Refused) as caught:
            terkwabu.judge(EXAMPLE, proposal)
        self.assertEqual((caught.exception.number, caught.exception.place), (number, 0))

    SEQUENCES = {
        "list": list,
        "tuple": tuple,
        "deque": collections.deque,
        "UserList": collections.UserList,
        "array of bytes": lambda items: array.array("B", items),
        "array": lambda items: array.array("Q", items),
        "memoryview": lambda items: memoryview(array.array("l", items)),
        "memoryview with steps": lambda items: memoryview(array.array("I", [n for item in items for n in (item, 9)]))[::2],
        "ctypes": lambda items: (ctypes.c_uint16 * len(items))(*items),
        "array of others": lambda items: Array(*items),
    }

    MAPPINGS = {
        "in order": lambda items: dict(enumerate(items)),
        "out of order": lambda items: shuffled(items),
        "OrderedDict": lambda items: collections.OrderedDict(shuffled(items)),
        "defaultdict": lambda items: collections.defaultdict(int, shuffled(items)),
        "ChainMap": lambda items: collections.ChainMap({0: items[0]}, shuffled(items)),
        "UserDict": lambda items: collections.UserDict(shuffled(items)),
        "read only": lambda items: types.MappingProxyType(shuffled(items)),
        "not registered": lambda items: Labelled(shuffled(items)),
        "with other whole numbers": lambda items: {Whole(at): Whole(item) for at, item in shuffled(items).items()},
    }

    def test_proposals(self):
        for name, made in [*self.SEQUENCES.items(), *self.MAPPINGS.items()]:
            with self.subTest(kind=name):
                self.expect_judged(made)
        self.expect_judged(lambda items: Array(*map(Whole, items)))
        self.assertIs(terkwabu.judge(EXAMPLE, range(5)), True)
        self.expect_refused(17, range(6))

    def test_mapping_is_not_its_keys(self):
        """Relates all regions: the keys by themselves, each another number, would be accepted."""
        self.expect_refused(18, dict.fromkeys(range(5), 0))

    def test_mapping_of_another_model(self):
        """Leaves it to the call to say that the length is wrong: the keys are those of some model."""
        for count in (0, 1, 4, 6, 5000):
            with self.subTest(count=count):
                self.expect_refused(17, dict.fromkeys(range(count), 0))
        with self.assertRaises(terkwabu.Refused) as caught:
            terkwabu.judge(b"", {0: 0})
        self.assertEqual((caught.exception.number, caught.exception.place), (2, 0))

    def test_mapping_stays_as_it_is(self):
        proposal = collections.defaultdict(int, {0: 1})
        self.expect_refused(17, proposal)
        self.assertEqual(proposal, {0: 1})

    def test_conditions(self):
        """Groups regions by a condition; True and 1 are the same group. The two locations have different labels."""
        table = bytes([1, 0, 2, 0, 2, 5, 2, 9, 4, 0, 3, 1, 0, 6, 1, 0, 1, 0, 7])
        regions = terkwabu.graph(table)
        self.assertEqual([region.location for region in regions], [0, 1])
        for apart in ([region.location == 1 for region in regions], {1: False, 0: True}, [False, 1], [True, 2]):
            with self.subTest(proposal=apart):
                self.assertIs(terkwabu.judge(table, apart), True)
        for related in ([region.location < 2 for region in regions], {1: False, 0: False}, [False, 0], [1, True]):
            with self.subTest(proposal=related), self.assertRaises(terkwabu.Refused) as caught:
                terkwabu.judge(table, related)
            self.assertEqual((caught.exception.number, caught.exception.place), (18, 0))

    def test_values(self):
        """Takes values from each kind of sequence, all of them different, so that their order shows."""
        for name, made in self.SEQUENCES.items():
            with self.subTest(kind=name):
                self.assertEqual(terkwabu._common(made([3, 0, 1, 7])), ([3, 0, 1, 7], 1))
                self.assertEqual(terkwabu.place(EXAMPLE, 1, made([1])), 3)
        self.assertEqual(terkwabu._common(collections.deque(["1/2", Fraction(1, 3)])), ([3, 2, 0, 0], 6))
        self.assertEqual(terkwabu._common(range(2, 5)), ([2, 3, 4, 0], 1))

    def test_other_whole_numbers(self):
        """Hands over numbers like those of numpy wherever one is taken; Python's own come back."""
        self.assertIs(terkwabu.pair(EXAMPLE, Whole(3), Whole(4), entries=Whole(5)), True)
        self.assertEqual(terkwabu.place(EXAMPLE, Whole(1), ["1.25"]), 4)
        reduced = terkwabu.reduce(EXAMPLE)
        self.assertEqual(reduced.members(Whole(2)), (3, 4))
        self.assertEqual(reduced.block(Whole(2)), reduced.block(2))
        self.assertIs(type(reduced.block(Whole(2)).number), int)

    def test_values_do_not_wrap_round(self):
        """Multiplies a value of 64 bits: a product of numpy's would have 64 bits too, and be another number."""

        class Narrow(Whole):
            denominator = 1

            @property
            def numerator(self):
                return self

        numbers.Integral.register(Narrow)
        self.assertEqual(terkwabu._common([Narrow(2**62), "1/3"]), ([3 * 2**62, 1, 0, 0], 3))


class WhatACallCannotTake(unittest.TestCase):
    """Nothing is called, and nothing is cut to 64 bits."""

    def expect(self, kind, function, *arguments, says="", **named):
        with self.subTest(function=function.__name__, arguments=arguments, named=named):
            with mock.patch.object(terkwabu, "_library", side_effect=AssertionError("the library was called")):
                with self.assertRaisesRegex(kind, says):
                    function(*arguments, **named)

    def no_lists(self):
        """Makes all that is no sequence of the five numbers of the example's blocks, or spells them, or is another thing altogether."""
        blocks = [0, 0, 1, 2, 2]
        yield from ({0, 1, 2}, frozenset(blocks), set(), Ordered(0, 1, 2), collections.Counter(blocks).keys())
        by_region = dict(enumerate(blocks))
        yield from (by_region.keys(), by_region.values(), by_region.items())
        yield from (iter(blocks), (block for block in blocks), map(int, blocks), zip(blocks), enumerate(blocks), reversed(blocks))
        yield from ("00122", "", b"00122", bytes(blocks), b"", bytearray(blocks), memoryview(bytes(blocks)))
        yield memoryview(bytes(40)).cast("Q", [5, 1])  # has two dimensions
        yield memoryview((ctypes.c_uint64 * 5)(*blocks))  # has items that Python cannot read: their format says an order of bytes
        yield from (None, 5, 0.5, Fraction(1, 2), object(), list, dict, terkwabu.OVER, Whole(1))
        yield from (terkwabu.Clock(0, 1), terkwabu.Region(0, ()), terkwabu.Step(0, {}), terkwabu.Block(0, 5, (0, 1), (1,), ()))
        yield terkwabu.Total(0, 0)
        yield ctypes.pointer(ctypes.c_uint64(0))  # gives items by number, and has no end

    def test_no_lists(self):
        for wrong in self.no_lists():
            self.expect(TypeError, terkwabu.judge, EXAMPLE, wrong)
            self.expect(TypeError, terkwabu.place, EXAMPLE, 0, wrong)
        for wrong in ({1, 2}, iter([0]), "00122"):
            self.expect(TypeError, terkwabu.judge, EXAMPLE, wrong, says=f"the proposal must be a list.* not {type(wrong).__name__}$")
        for wrong in ({0: 1}, {}, collections.OrderedDict({0: "1/2"}), Labelled({0: 1}), {0}, "1/2"):
            self.expect(TypeError, terkwabu.place, EXAMPLE, 0, wrong, says=f"the values must be a list.* not {type(wrong).__name__}$")
        for wrong in ({0: 0}, {0, 1}, iter([0, 1])):
            reduced = dataclasses.replace(terkwabu.reduce(EXAMPLE), block_of=wrong)
            self.expect(TypeError, reduced.listing, says="block_of must be a list")

    def test_nested(self):
        for wrong in ([[0, 1], [2], [3, 4]], [{0, 1}, {2}], [[0, 0, 1, 2, 2]], [(0,), (0,), (1,), (2,), (2,)], [b"0"] * 5, ["0"] * 5):
            self.expect(TypeError, terkwabu.judge, EXAMPLE, wrong, says="a number of the proposal must be a whole number")
            self.expect(TypeError, terkwabu.judge, EXAMPLE, dict(enumerate(wrong)), says="a number of the proposal must be a whole number")
        self.expect(TypeError, terkwabu.judge, EXAMPLE, array.array("d", [0, 0, 1, 2, 2]))
        self.expect(TypeError, terkwabu.place, EXAMPLE, 0, array.array("d", [0]))
        self.expect(TypeError, terkwabu.judge, EXAMPLE, terkwabu.reduce(EXAMPLE).regions)
        for region in terkwabu.graph(EXAMPLE):
            self.expect(TypeError, terkwabu.place, EXAMPLE, *region)  # its clocks are no values
        for wrong in ([[0]], [{0: 1}], [{1}], [(1, 2)], [iter([1])]):
            self.expect(TypeError, terkwabu.place, EXAMPLE, 0, wrong)

    def test_keys(self):
        """Names the key that is missing, and one that should not be there."""
        for keys, missing, foreign in (
            ([1, 2, 3, 4, 5], 0, "5 is none"),
            ([5, 4, 3, 2, 1], 0, "5 is none"),
            ([0, 1, 2, 4, 5], 3, "5 is none"),
            ([0, 1, 2, 3, -1], 4, "-1 is none"),
            ([0, 1, 2, 3, 2**64], 4, f"{2**64} is none"),
            ([2**64, 1, 2, 3, 4], 0, f"{2**64} is none"),
            ([7], 0, "7 is none"),
            ([0, 1, 2, 3, Whole(2)], 4, "2 is there twice"),
        ):
            told = f"{len(keys)} keys .* 0 to {len(keys) - 1}: {missing} is missing, and {foreign}"
            self.expect(ValueError, terkwabu.judge, EXAMPLE, dict.fromkeys(keys, 0), says=told)
        for wrong in ("0", 0.0, False, None, (0,), Fraction(0), b"0", terkwabu.Region(0, ())):
            for keys in ([wrong, 1, 2, 3, 4], [4, 3, 2, 1, wrong], [wrong]):
                told = re.escape(f"a key of the proposal must be a whole number, not {wrong!r}")
                self.expect(TypeError, terkwabu.judge, EXAMPLE, dict.fromkeys(keys, 0), says=told)
        for wrong, kind in ((-1, ValueError), (2**64, ValueError), (1.0, TypeError), ("2", TypeError), (None, TypeError)):
            self.expect(kind, terkwabu.judge, EXAMPLE, {0: 0, 1: 0, 2: 1, 3: 2, 4: wrong}, says="a number of the proposal")

    def test_conditions(self):
        """Refuses True where a number counts or points, though it is 1 to Python."""
        reduced = terkwabu.reduce(EXAMPLE)
        for wrong in (True, False):
            self.expect(TypeError, terkwabu.pair, EXAMPLE, wrong, 0, says="a region number")
            self.expect(TypeError, terkwabu.pair, EXAMPLE, 0, wrong, says="a region number")
            self.expect(TypeError, terkwabu.place, EXAMPLE, wrong, says="a location")
            self.expect(TypeError, terkwabu.place, EXAMPLE, 0, [wrong], says="a clock's value")
            self.expect(TypeError, reduced.block, wrong, says="a block number")
            self.expect(TypeError, reduced.members, wrong, says="a block number")
            for function, *arguments in EACH_FUNCTION:
                self.expect(TypeError, function, EXAMPLE, *arguments, entries=wrong, says="entries")

    def test_tables(self):
        wide = array.array("Q", list(EXAMPLE))
        for table in ("01010200", None, 5, [1, 2], EXAMPLE.hex(), Path("x.table"), array.array("B", EXAMPLE), wide, memoryview(wide)):
            for function, *arguments in EACH_FUNCTION:
                self.expect(TypeError, function, table, *arguments)

    def test_numbers(self):
        for wrong in (-1, 2**64, 2**64 + 1, 1.0, "1", None, b"1", [1], (1,), {1: 1}, {1}, Fraction(1), Decimal(1), terkwabu.Region(1, ())):
            kind = ValueError if isinstance(wrong, int) else TypeError
            self.expect(kind, terkwabu.pair, EXAMPLE, wrong, 0)
            self.expect(kind, terkwabu.pair, EXAMPLE, 0, wrong)
            self.expect(kind, terkwabu.place, EXAMPLE, wrong, [0])
            self.expect(kind, terkwabu.judge, EXAMPLE, [0, 0, 1, 2, wrong])
        for wrong in (-1, 4097, 2**64, 5.0, None):
            kind = ValueError if isinstance(wrong, int) else TypeError
            for function, *arguments in EACH_FUNCTION:
                self.expect(kind, function, EXAMPLE, *arguments, entries=wrong)

    def test_values(self):
        for wrong in (0.5, 1.0, float("nan"), None, b"1", 1j, [1]):
            self.expect(TypeError, terkwabu.place, EXAMPLE, 0, [wrong])
        for wrong in ("", "x", "-1", "1e3", "1/2/3", "0x10", ".5", "1.", "1/0", "½", "1_0", "nan"):
            self.expect(ValueError, terkwabu.place, EXAMPLE, 0, [wrong])
        for wrong in (-1, Fraction(-1, 2), 2**64, Fraction(1, 2**64)):
            self.expect(ValueError, terkwabu.place, EXAMPLE, 0, [wrong])
        for wrong in ("NaN", "Infinity", "-0.5", "1E+30", "1E-30", "1E+999999999", "1E-999999999"):
            self.expect(ValueError, terkwabu.place, EXAMPLE, 0, [Decimal(wrong)])
        self.expect(ValueError, terkwabu.place, EXAMPLE, 0, [2**63, "1/3"])  # 3 * 2**63 thirds
        self.expect(ValueError, terkwabu.place, EXAMPLE, 0, [0, 0, 0, 0, 0])
        self.expect(TypeError, terkwabu.place, EXAMPLE, 0, "0")
        self.expect(TypeError, terkwabu.place, EXAMPLE, 0, 1)

    def test_the_call_itself(self):
        """The layer beneath does not cut numbers either, and takes no null and no memory of the wrong kind."""
        entries, first, second = (terkwabu._Lent(kind, 45) for kind in (ctypes.c_uint8, ctypes.c_uint64, ctypes.c_uint64))
        for wrong, kind in ((-1, ValueError), (2**64, ValueError), (1.0, TypeError)):
            with self.subTest(wrong=wrong), self.assertRaises(kind):
                terkwabu._call("terkwabu_pair", EXAMPLE, entries, first, second, 0, wrong)
        for arguments in ((None, entries), (EXAMPLE, None), (EXAMPLE, first), (EXAMPLE,)):
            with self.subTest(arguments=arguments), self.assertRaises((TypeError, ctypes.ArgumentError)):
                terkwabu._call("terkwabu_graph", *arguments)


class Threads(unittest.TestCase):
    # 128 edges of 8 branches at one location, four clocks: exploring as many regions as there is room for takes a while.
    SLOW = bytes([1, 4, 1, 0, 2, 0, 3, 0, 0, 1, 15]) + b"".join(
        bytes([4, 0, edge, 8, 0]) + b"".join(bytes([6, 1, 0, 0, (edge + branch) % 16]) for branch in range(8)) for edge in range(128)
    ) + b"\x07"

    def test_side_by_side(self):
        """Calls of all kinds at once, each with its own answer."""
        wanted = [vector for vector in vectors("partition") if vector.answer.get("refused") != [16, 0]] * 2

        def differs(vector):
            table = vector.table
            try:
                reduced = terkwabu.reduce(table, entries=min(vector.ask["entries"] // 9, 4096))
                got = {"result": [len(reduced.regions), reduced.blocks, reduced.rounds]}
                judged = terkwabu.judge(table, reduced.block_of)
                placed = terkwabu.place(table, reduced.regions[0].location)
                listed = int(reduced.listing().split()[3])
                if (judged, placed, listed) != (True, 0, reduced.blocks):
                    return True
            except terkwabu.Refused as refusal:
                got = {"refused": [refusal.number, refusal.place]}
            return not got.items() <= vector.answer.items()

        with ThreadPoolExecutor(8) as pool:
            self.assertEqual([vector.where for vector, wrong in zip(wanted, pool.map(differs, wanted)) if wrong], [])

    def test_python_runs_on_meanwhile(self):
        """Other threads of Python get their turns while a call runs."""
        state = []

        def call():
            state.append("begun")
            try:
                terkwabu.graph(self.SLOW)
            except terkwabu.Refused as refusal:
                state.append(refusal.number)

        thread, turns = threading.Thread(target=call), 0
        thread.start()
        while len(state) < 2 and thread.is_alive():
            time.sleep(0.001)
            turns += len(state) == 1
        thread.join()
        self.assertEqual(state, ["begun", 15])
        self.assertGreater(turns, 10)

    # Runs its calls on a thread with so many KB of stack, and prints what came of each.
    ON_A_SMALL_STACK = """
import threading, terkwabu
table = bytes.fromhex("{table}")
def tried(function, *arguments):
    try:
        print("took", function(*arguments))
    except terkwabu.Refused as refusal:
        print("refused", refusal.number)
    except RuntimeError as error:
        print("stack", "threading.stack_size" in str(error))
def calls():
    tried(lambda: len(terkwabu.graph(table)))
    tried(terkwabu.place, table, table[3])
    tried(lambda: terkwabu.reduce(table).blocks)
    tried(terkwabu.pair, table, 0, 0)
    tried(terkwabu.judge, table, [0, 0, 1, 2, 2])
threading.stack_size({size} * 1024)
thread = threading.Thread(target=calls)
thread.start()
thread.join()
"""

    def on_a_stack(self, size, table=EXAMPLE):
        done = run_python(self.ON_A_SMALL_STACK.format(table=table.hex(), size=size))
        self.assertEqual((done.returncode, done.stderr), (0, ""))
        return done.stdout.split("\n")[:-1]

    def test_small_stacks(self):
        """Too small a stack is found before the call, not by a crash."""
        took = ["took 5", "took 0", "took 3", "took True", "took True"]
        self.assertEqual(self.on_a_stack(2048), took)
        self.assertEqual(self.on_a_stack(4096), took)
        self.assertEqual(self.on_a_stack(1024), took[:2] + 3 * ["stack True"])
        self.assertEqual(self.on_a_stack(256), took[:2] + 3 * ["stack True"])
        self.assertEqual(self.on_a_stack(128), 5 * ["stack True"])

    def test_stack_that_is_enough(self):
        """The largest model of the vectors, and one with too many regions, on just the stack that is asked for."""
        largest = max(vectors("partition"), key=lambda vector: vector.answer.get("result", [0])[0])
        regions, blocks, _ = largest.answer["result"]
        self.assertGreater(regions, 500)
        took = [f"took {regions}", "took 0", f"took {blocks}", "took True", "refused 17"]
        self.assertEqual(self.on_a_stack(2048, largest.table), took)
        self.assertEqual(self.on_a_stack(2048, self.SLOW), 5 * ["refused 15"])

    def test_main_thread(self):
        program = f"import terkwabu\nprint(terkwabu.reduce(bytes.fromhex('{EXAMPLE.hex()}')).blocks)"
        for limit, expected in ((1024, "RuntimeError"), (2048, "3\n")):
            command = f'ulimit -s {limit} && exec "$0" -c "$1"'
            known = {**os.environ, "PYTHONPATH": str(HERE)}
            done = subprocess.run(
                ["sh", "-c", command, sys.executable, program], stdout=subprocess.PIPE, stderr=subprocess.PIPE, env=known, text=True
            )
            with self.subTest(limit=limit):
                self.assertIn(expected, done.stdout + done.stderr)


class TheLibrary(unittest.TestCase):
    ASK = f"import terkwabu\nprint(terkwabu.reduce(bytes.fromhex('{EXAMPLE.hex()}')).blocks)"

    def test_named(self):
        """Another copy, named by the environment; the one beside the project is then not looked at."""
        with tempfile.TemporaryDirectory() as folder:
            copy = Path(folder, "another.so")
            copy.write_bytes(terkwabu._library_path().read_bytes())
            done = run_python(self.ASK + "\nprint(terkwabu._library()._name)", TERKWABU_LIBRARY=str(copy))
            self.assertEqual((done.stdout, done.stderr), (f"3\n{copy.resolve()}\n", ""))

    def test_missing(self):
        """The module can be imported without the library; the first call says how to build it."""
        with tempfile.TemporaryDirectory() as folder:
            text = Path(folder, "text.so")
            text.write_text("no library")
            another = _ctypes.__file__  # a library, but not this one
            for named in (f"{folder}/none.so", str(text), another, folder):
                with self.subTest(named=named):
                    done = run_python(self.ASK, TERKWABU_LIBRARY=named)
                    self.assertEqual(done.stdout, "")
                    trouble = "cannot be used" if named in (str(text), another) else "is not there"
                    last = done.stderr.splitlines()[-1]
                    self.assertRegex(last, rf"^terkwabu\.LibraryMissing: {re.escape(named)} {trouble}.*\./library")

    def test_not_built(self):
        """Puts the module into a project where nothing was built."""
        with tempfile.TemporaryDirectory() as folder:
            Path(folder, "python").mkdir()
            Path(folder, "python", "terkwabu.py").write_bytes((HERE / "terkwabu.py").read_bytes())
            done = run_python(self.ASK, Path(folder, "python"), TERKWABU_LIBRARY="")
            self.assertRegex(done.stderr.splitlines()[-1], r"^terkwabu\.LibraryMissing: .*build/libterkwabu\.so is not there.*\./library")

    def test_not_made(self):
        """Has a ./library that fails: the exception has its last words, and what it said on the way is passed on."""
        words = "library: gcc is missing, and without it there is no build/libterkwabu.so"
        with tempfile.TemporaryDirectory() as folder:
            Path(folder, "python").mkdir()
            Path(folder, "python", "terkwabu.py").write_bytes((HERE / "terkwabu.py").read_bytes())
            script = Path(folder, "library")
            script.write_text(f"#!/bin/sh\necho 'one crate proved' >&2\necho '{words}' >&2\nexit 1\n")
            for mode, told in ((0o755, f"{script} made no library: {words}"), (0o644, f"{script} cannot be run")):
                with self.subTest(mode=mode):
                    script.chmod(mode)
                    done = run_python(self.ASK, Path(folder, "python"), TERKWABU_LIBRARY="")
                    self.assertTrue(done.stderr.splitlines()[-1].startswith(f"terkwabu.LibraryMissing: {told}"), done.stderr)
                    self.assertEqual("one crate proved" in done.stderr.splitlines(), mode == 0o755)

    # The C types of the header, as ctypes has them.
    TYPES = {
        "const uint8_t *": (ctypes.c_char_p, ctypes.POINTER(ctypes.c_uint8)),
        "uint8_t *": (ctypes.POINTER(ctypes.c_uint8),),
        "const uint64_t *": (ctypes.POINTER(ctypes.c_uint64),),
        "uint64_t *": (ctypes.POINTER(ctypes.c_uint64),),
        "size_t ": (ctypes.c_size_t,),
        "uint64_t ": (ctypes.c_uint64,),
    }

    def test_header(self):
        """Compares the declarations of the calls with the header's."""
        plain = re.sub(r"/\*.*?\*/|\bTERKWABU_RESTRICT ", "", HEADER.read_text(encoding="utf-8"), flags=re.S)
        calls = dict(re.findall(r"^terkwabu_answer (\w+)\(([^)]*)\);", plain, flags=re.M))
        self.assertEqual(sorted(calls), sorted(terkwabu._CALLS))
        for name, text in calls.items():
            with self.subTest(call=name):
                declared = [re.sub(r"\w+$", "", " ".join(one.split())) for one in text.split(",")]
                takes = terkwabu._CALLS[name][0]
                self.assertEqual(len(takes), len(declared))
                for kind, one in zip(takes, declared):
                    self.assertIn(kind, self.TYPES[one])
        fields = re.search(r"uint64_t ([\w, ]+);\s*\} terkwabu_answer", plain)
        self.assertEqual([name for name, _ in terkwabu._Answer._fields_], fields[1].split(", "))
        self.assertRegex(plain, r"(?m)^uint64_t terkwabu_version\(void\);")

    def test_header_numbers(self):
        """Compares all numbers but the sizes of stacks, for which the module has its own."""
        major, minor, patch = map(int, terkwabu.__version__.split("."))
        module = {
            "ENTRY_BYTES": terkwabu._ENTRY_BYTES,
            "MAX_REGIONS": terkwabu.MAX_REGIONS,
            "PART_BYTES": terkwabu._PART_BYTES,
            "LINE_BYTES": terkwabu._LINE_BYTES,
            "VERSION_MAJOR": major,
            "VERSION_MINOR": minor,
            "VERSION_PATCH": patch,
            "VERSION": 1_000_000 * major + 1_000 * minor + patch,
        }
        self.assertEqual({name: number for name, number in header_numbers().items() if not name.startswith("STACK_")}, module)

    def test_header_stacks(self):
        """Gives a thread just the stack that the header wants for a call, which is too little: Python takes some of it too."""
        sizes = {f"terkwabu_{name[6:].lower()}": size for name, size in header_numbers().items() if name.startswith("STACK_")}
        sizes.pop("terkwabu_version", None)  # runs once, when the library is loaded
        self.assertEqual(sorted(sizes), sorted(terkwabu._CALLS))
        for name, size in sizes.items():
            with self.subTest(call=name), mock.patch.object(terkwabu._this_thread, "stack", size, create=True):
                with self.assertRaisesRegex(RuntimeError, f"^{name} wants a thread with"):
                    terkwabu._look_at_stack(name, terkwabu._CALLS[name][1])


class Versions(unittest.TestCase):
    """Puts small libraries made for this in the library's place."""

    ASK, ASK_VERSION = TheLibrary.ASK, "import terkwabu\nprint(terkwabu.library_version())"
    VERSION = "unsigned long long terkwabu_version(void) {{ return {}; }}\n"

    def answer_of(self, source, program):
        """Runs a program with a library of a few lines of C; returns the library's path, what was printed, and the last line of errors."""
        with tempfile.TemporaryDirectory() as folder:
            text, library = Path(folder, "stub.c"), Path(folder, "stub.so")
            text.write_text(source)
            subprocess.run(["gcc", "-shared", "-fPIC", "-o", str(library), str(text)], check=True)
            done = run_python(program, TERKWABU_LIBRARY=str(library))
            return str(library.resolve()), done.stdout, (done.stderr.splitlines() or [""])[-1]

    def calls(self, but=""):
        """Writes calls with the names of the library's, which do nothing."""
        return "".join(f"void {name}(void) {{}}\n" for name in terkwabu._CALLS if name != but)

    def test_the_same(self):
        self.assertEqual(terkwabu.library_version(), terkwabu.__version__)

    def test_another(self):
        """Names both versions, also where the other library has not the same calls."""
        for number, version in ((2003004, "2.3.4"), (1000001, "1.0.1"), (999999, "0.999.999"), (12345678, "12.345.678"), (0, "0.0.0")):
            for calls in (self.calls(), ""):
                with self.subTest(version=version, calls=bool(calls)):
                    path, printed, error = self.answer_of(self.VERSION.format(number) + calls, self.ASK)
                    told = f"terkwabu.LibraryMissing: {path} is version {version}, and this module is version {terkwabu.__version__}: "
                    self.assertEqual((printed, error[: len(told)]), ("", told))
                    self.assertIn("./library", error)

    def test_another_can_be_asked(self):
        _, printed, error = self.answer_of(self.VERSION.format(2003004), self.ASK_VERSION)
        self.assertEqual((printed, error), ("2.3.4\n", ""))

    def test_none_of_ours(self):
        """Does not call a library older that has none of the calls."""
        for program in (self.ASK, self.ASK_VERSION):
            path, printed, error = self.answer_of("int other(void) { return 0; }\n", program)
            self.assertEqual(printed, "")
            self.assertRegex(error, rf"^terkwabu\.LibraryMissing: {re.escape(path)} cannot be used \(.*\): .*\./library")

    def test_older(self):
        """Takes a library from before there were versions."""
        for program in (self.ASK, self.ASK_VERSION):
            path, printed, error = self.answer_of(self.calls(), program)
            self.assertEqual(printed, "")
            told = f"{re.escape(path)} .* older than 1.0.0, and this module is version {re.escape(terkwabu.__version__)}: .*\\./library"
            self.assertRegex(error, f"^terkwabu.LibraryMissing: {told}")

    def test_a_call_is_missing(self):
        """Finds a missing call where the version is the same."""
        major, minor, patch = terkwabu.__version__.split(".")
        version = self.VERSION.format(f"{major} * 1000000 + {minor} * 1000 + {patch}")
        for name in terkwabu._CALLS:
            with self.subTest(call=name):
                path, printed, error = self.answer_of(version + self.calls(but=name), self.ASK)
                self.assertEqual(printed, "")
                self.assertRegex(error, rf"^terkwabu.LibraryMissing: {re.escape(path)} cannot be used \(.*{name}\).*\./library")


class ReadmeAndExamples(unittest.TestCase):
    def test_readme(self):
        """The examples in the README give what stands there."""
        text = (HERE / "README.md").read_text(encoding="utf-8")
        fenced = re.sub(r"^```.*$", "", text, flags=re.M)
        examples = doctest.DocTestParser().get_doctest(fenced, {}, "README.md", "python/README.md", 0)
        self.assertGreater(len(examples.examples), 10)
        report = []
        doctest.DocTestRunner(verbose=False).run(examples, out=report.append)
        self.assertEqual("".join(report), "")

    def alike(self, *pairs):
        command = [sys.executable, str(HERE / "examples" / "alike.py"), str(ROOT / "models" / "handover.model"), *pairs]
        done = subprocess.run(command, stdout=subprocess.PIPE, stderr=subprocess.PIPE, text=True)
        return done.returncode, done.stdout.splitlines(), done.stderr

    def test_alike(self):
        """The blocks are those of the listing. The stations are alike; a good link and a weak one have different labels."""
        expected = (ROOT / "models" / "listings" / "handover.txt").read_text(encoding="ascii")
        names = re.findall(r"^location (\S+)", (ROOT / "models" / "handover.model").read_text(encoding="utf-8"), flags=re.M)
        regions = lines_of(expected, "region")
        shown = {region: " ".join([names[int(location)], *clocks]) for region, location, _, *clocks in regions}
        blocks = [f"{len(regions)} regions in {len(lines_of(expected, 'block'))} blocks"] + [
            f"block {block}, label {label}: " + ", ".join(shown[line[0]] for line in regions if line[2] == block)
            for block, label, _ in lines_of(expected, "block")
        ]
        stations = {"good-b": "good-a", "weak-b": "weak-a", "b-to-a": "a-to-b"}
        groups = {(stations.get(names[int(line[1])], names[int(line[1])]), *line[3:]) for line in regions}

        status, lines, errors = self.alike("good-a=good-b", "weak-a=weak-b", "a-to-b=b-to-a")
        self.assertEqual((status, errors), (0, ""))
        self.assertEqual(lines, [*blocks, f"accepted: the {len(groups)} proposed groups are a bisimulation"])

        status, lines, errors = self.alike("good-a=weak-a")
        self.assertEqual((status, errors, lines[: len(blocks)]), (1, "", blocks))
        self.assertTrue(lines[-2].startswith("refused 18 place 0: "))
        told = re.fullmatch(r"for instance good-a (.+) and weak-a (.+) can be told apart", lines[-1])
        self.assertEqual(told[1], told[2])

        # One station's good link alone: beacons then lead from related regions to weak-a and weak-b, which are not related.
        status, lines, errors = self.alike("good-a=good-b")
        self.assertEqual((status, errors), (1, ""))
        self.assertEqual(lines[-1], "what it relates can never be told apart: relate more, and it is accepted")

        status, lines, errors = self.alike("good-a=nowhere")
        self.assertEqual((status, lines), (1, []))
        self.assertIn("good-a=nowhere", errors)


if __name__ == "__main__":
    unittest.main()
