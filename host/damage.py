#!/usr/bin/env python3
"""Makes damaged tables of sound ones, the same at each run.

usage: damage.py FOLDER TABLE ...

Writes 160 tables into FOLDER, each named by a number, what was done and the table it was done to: cuts, changed bytes, records
that are left out, doubled or exchanged, bytes at the end, too many records, constants that make the model large, tables that are too long,
and random bytes.
"""

import pathlib
import sys

BODY = {1: 3, 2: 1, 3: 4, 4: 4, 5: 3, 6: 4, 7: 0}


class Chance:
    """Numbers that look random and are the same on each machine."""

    def __init__(self, seed):
        self.state = seed

    def below(self, bound):
        self.state = (self.state * 6364136223846793005 + 1442695040888963407) % 2**64
        return (self.state >> 33) % bound

    def of(self, items):
        return items[self.below(len(items))]

    def bytes(self, count):
        return bytes(self.below(256) for _ in range(count))


def records(table):
    """The records of a sound table."""
    found, at = [], 0
    while at < len(table):
        found.append(table[at : at + 1 + BODY[table[at]]])
        at += len(found[-1])
    return found


def joined(parts):
    return b"".join(parts)


# ---- Damages. Each takes a table and gives another.


def cut(chance, table):
    return table[: chance.below(len(table))]


def changed(chance, table):
    bytes_ = bytearray(table)
    for _ in range(1 + chance.below(3)):
        bytes_[chance.below(len(bytes_))] = chance.of([0, 1, 2, 4, 15, 16, 255, chance.below(256)])
    return bytes(bytes_)


def left_out(chance, table):
    parts = records(table)
    del parts[chance.below(len(parts))]
    return joined(parts)


def doubled(chance, table):
    parts = records(table)
    at = chance.below(len(parts))
    return joined(parts[: at + 1] + parts[at:])


def exchanged(chance, table):
    parts = records(table)
    a, b = chance.below(len(parts)), chance.below(len(parts))
    parts[a], parts[b] = parts[b], parts[a]
    return joined(parts)


def lengthened(chance, table):
    return table + chance.bytes(1 + chance.below(9))


def constant(chance, table):
    """A constant that is the largest, or one too large; the largest makes many regions."""
    parts = records(table)
    at = chance.of([i for i, part in enumerate(parts) if part[0] in (3, 5)])
    parts[at] = parts[at][:-1] + bytes([chance.of([15, 15, 15, 16])])
    return joined(parts)


def broken_start(chance, table):
    """An invariant that no clock value meets, often at the initial location."""
    parts = records(table)
    location = chance.of([table[3], table[3], chance.below(table[2])])
    at = 1 + table[2]
    return joined(parts[:at] + [bytes([3, location, 0, 0, 0])] + parts[at:])


def too_many(chance, table):
    """As many records of one sort as are allowed, and perhaps one more."""
    parts = records(table)
    kind, most = chance.of([(3, 128), (5, 8), (6, 8), (4, 128)])
    at = chance.of([i for i, part in enumerate(parts) if part[0] == kind])
    end = at + 1
    while kind == 4 and parts[end][0] in (5, 6):
        end += 1
    there = sum(part[0] == kind for part in parts) if kind in (3, 4) else run_length(parts, at)
    return joined(parts[:end] + parts[at:end] * (most - there + chance.below(2)) + parts[end:])


def run_length(parts, at):
    """How many records of the same kind stand together around a place."""
    first = last = at
    while parts[first - 1][0] == parts[at][0]:
        first -= 1
    while parts[last + 1][0] == parts[at][0]:
        last += 1
    return last + 1 - first


def random_bytes(chance, table):
    return chance.of([b"", table[:4]]) + chance.bytes(chance.below(60))


DAMAGES = [cut, changed, changed, changed, left_out, doubled, exchanged, lengthened, constant, broken_start, too_many, random_bytes]


# Four clocks that are compared with 15, each reset by itself: far more than 4,096 regions.
LARGE = bytes.fromhex("01040100 0200 0400000400 0601000001 0601000002 0601000004 0601000008 0400010100 0500030f 0601000000 07")


def borders(table):
    """Tables around the limits of length, a sound one that is filled up with zeros, and a large model."""
    yield "empty", b""
    yield "end", b"\x07"
    yield "most-zeros", bytes(16384)
    yield "too-long", bytes(16385)
    yield "filled", table + bytes(16384 - len(table))
    yield "overfilled", table + bytes(20000 - len(table))
    yield "large", LARGE


def main(folder, paths):
    tables = [(path.stem, path.read_bytes()) for path in paths]
    # The longer half of the tables takes most of the time, and is damaged less often.
    smaller = sorted(tables, key=lambda named: len(named[1]))[: (len(tables) + 1) // 2]
    chance = Chance(20240117)
    found = list(borders(tables[0][1]))
    while len(found) < 160:
        damage = DAMAGES[len(found) % len(DAMAGES)]
        name, table = chance.of(smaller if chance.below(4) else tables)
        found.append((damage.__name__.replace("_", "-") + "-" + name, damage(chance, table)))
    for i, (name, table) in enumerate(found):
        (folder / "{:03}-{}.table".format(i, name)).write_bytes(table)


if __name__ == "__main__":
    if len(sys.argv) < 3:
        sys.exit(__doc__)
    main(pathlib.Path(sys.argv[1]), [pathlib.Path(path) for path in sys.argv[2:]])
