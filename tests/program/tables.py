"""Makes tables at the program's limits. docs/FORMAT.md describes the bytes."""

from calls import EXAMPLE

AT_MOST, MORE, AT_LEAST, EQUAL = 1, 2, 3, 4  # comparisons


def edge(source, action, guards, branches):
    """Makes an edge of guards (clock, comparison, constant) and branches (target, mask), all of the same weight."""
    made = bytes([4, source, action, len(branches), 0])
    made += b"".join(bytes([5, *guard]) for guard in guards)
    return made + b"".join(bytes([6, 1, 0, *branch]) for branch in branches)


def begin(clocks, labels):
    """Makes the header and the locations, the first of which is the initial one."""
    return bytes([1, clocks, len(labels), 0]) + b"".join(bytes([2, label]) for label in labels)


def chain(locations, clocks=1, mask=0, bounded=False):
    """Makes a chain of locations that are left at any time. One clock and constants up to 15 give each location 32 regions, and 31 where
    an invariant bounds the clock."""
    table = begin(clocks, [0] * locations)
    if bounded:
        table += bytes([3, locations - 1, 0, 1, 15])
    table += b"".join(edge(at, 1, [], [(at + 1, mask)]) for at in range(locations - 1))
    return table + edge(0, 1, [(0, AT_LEAST, 15)], [(0, 0)]) + bytes([7])


def all_apart():
    """Makes 2,048 regions of which no two share a block: a chain of 64 locations with labels of their own. Each region of the last one
    lets one edge more be taken than the region before, and each of another leads to the same one at the next location."""
    table = begin(1, range(64))
    table += b"".join(edge(at, 0, [], [(at + 1, 0)]) for at in range(63))
    for constant in range(16):
        table += edge(63, 2 * constant, [(0, AT_LEAST, constant)], [(63, 0)])
        table += edge(63, 2 * constant + 1, [(0, MORE, constant)], [(63, 0)])
    return table + bytes([7])


def long_part():
    """Makes a block whose part has some 11,700 bytes: 125 edges with eight branches each, all blocks with numbers of four digits.

    Location 0 has the first 1,400 blocks, by two clocks that are reset at any time. Location 1 is reached late, where one clock is 15 and
    the other 7. Its edges lead to 62 further locations, which an invariant keeps at one region each; fewer can be taken the more time
    has passed, so that its block has a long line of delays too.
    """
    reset_all, edges = 3, 125
    table = begin(2, range(255, 255 - 64, -1))
    table += b"".join(bytes([3, at, 0, AT_MOST, 0]) for at in range(2, 64))
    table += edge(0, 1, [(1, AT_MOST, 15)], [(0, 2)]) + edge(0, 1, [(0, AT_MOST, 15)], [(0, 1)])
    table += edge(0, 3, [(0, EQUAL, 15), (1, EQUAL, 7)], [(1, reset_all)])
    for at in range(edges):
        targets = [(2 + (8 * at + other) % 62, reset_all) for other in range(8)]
        table += edge(1, 255 - at, [(0, AT_MOST, 16 * at // edges)], targets)
    return table + bytes([7])


def borders():
    """Lists tables on both sides of the program's limits, each with the form of its listing: a refusal's line and nothing after it, or a
    first line, and totals at the end that say the same. The tables that are accepted have one label, or 64 with equal counts."""
    one_label = "regions {0} blocks (\\d+) rounds .*\nlabel 0 regions {0} blocks \\1\nall regions {0} blocks \\1\n"
    each_label = "".join(f"label {label} regions 32 blocks 32\n" for label in range(64))
    return [
        ("no byte", b"", "refused 2 place 0\n"),
        ("16,384 bytes", EXAMPLE + bytes(16384 - len(EXAMPLE)), "refused 13 place 33\n"),
        ("16,385 bytes", EXAMPLE + bytes(16385 - len(EXAMPLE)), "refused 1 place 0\n"),
        ("100,000 bytes", EXAMPLE + bytes(100000 - len(EXAMPLE)), "refused 1 place 0\n"),
        ("2,047 regions", chain(64, bounded=True), one_label.format(2047)),
        ("2,048 regions", chain(64), one_label.format(2048)),
        ("2,048 blocks", all_apart(), f"regions 2048 blocks 2048 rounds .*\n{each_label}all regions 2048 blocks 2048\n"),
        ("more than 2,048 regions", chain(64, clocks=2, mask=2), "refused 15 place 0\n"),
    ]
