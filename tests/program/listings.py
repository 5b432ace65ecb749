"""Holds the program to the listings of the outside vectors, and to build/reference on tables at its limits."""

import hashlib
import json
import os
import re
import sys

from calls import ROOT, Did, call, hold
from tables import borders, long_part

PROGRAM = os.path.join(ROOT, "dist", "x86_64-linux", "reduce")
REFERENCE = os.path.join(ROOT, "build", "reference")
LENT = 2048  # entries, by the program
LEAST_LISTINGS = 370  # of the outside vectors, with so many lent
LEAST_PART = 11000  # bytes, of the longest block


def expected(table):
    """Gives what the independent implementation prints."""
    did = call([REFERENCE, "list", "-"], table)
    hold("build/reference", (did.status, did.message), (0, ""))
    return did.output


def listings():
    """Reads the listings from all files of outside vectors, which may mix calls: file and line, what is asked, and the answer."""
    folder = os.path.join(ROOT, "tests", "vectors")
    for name in sorted(name for name in os.listdir(folder) if name.endswith(".jsonl")):
        with open(os.path.join(folder, name), encoding="utf-8") as lines:
            for number, line in enumerate(lines, start=1):
                vector = json.loads(line)
                if vector["ask"]["call"] == "listing":
                    yield f"{name}, line {number}", vector["ask"], vector["answer"]


def hold_listing(where, table, answer):
    """Stops all where the program prints something else. The answer gives a long text by its length and SHA-256 only."""
    did = call([PROGRAM], table)
    if "text" in answer:
        hold(where, did, Did(0, answer["text"].encode(), ""))
        return
    found = did.status, len(did.output), hashlib.sha256(did.output).hexdigest(), did.message
    hold(where, found, (0, answer["text_bytes"], answer["text_sha256"], ""))


def hold_vectors():
    """Runs the program on the listings that lend as much as it does; returns how many these are, and how many are passed over."""
    held = passed_over = 0
    for where, ask, answer in listings():
        if ask["lent"] == LENT:
            hold_listing(where, bytes.fromhex(ask["table"]), answer)
            held += 1
        else:
            passed_over += 1
    if held < LEAST_LISTINGS:
        sys.exit(f"{held} vectors of the listing lend {LENT:,} entries, {passed_over} do not; at least {LEAST_LISTINGS} must")
    return held, passed_over


def longest_part(listing):
    """Finds the length of the longest part of a block: its line, that of its delays and those of its steps. The totals are none."""
    blocks = listing[listing.index(b"\nblock ") : listing.index(b"\nlabel ")].split(b"\nblock ")
    return max(len(b"block " + rest + b"\n") for rest in blocks[1:])


def hold_limits():
    """Runs the program on both sides of its limits; returns how often."""
    tables = borders()
    for name, table, form in tables:
        output = expected(table)
        if not re.fullmatch(form, output.decode(), re.DOTALL):
            sys.exit(f"build/reference: {name}:\nwanted {form}\ngot    {output[:100]} ... {output[-3000:]}")
        hold(name, call([PROGRAM], table), Did(0, output, ""))
    output = expected(long_part())
    if longest_part(output) < LEAST_PART:
        sys.exit(f"build/reference: the longest part of a block has {longest_part(output)} bytes, not {LEAST_PART}")
    hold("a long part", call([PROGRAM], long_part()), Did(0, output, ""))
    return len(tables) + 1
