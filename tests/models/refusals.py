"""Holds texts that assemble and whose tables are refused: number and place, worked out by hand, and what a person is told.

A header has 4 bytes, a location 2, an invariant 5, an edge 5, a guard 4, a branch 5 and the end 1; the sums behind a row add them up. In
MADE are the refusals that come of a text, in NEVER those that an assembled table does not get, and in OTHER refusals that are not about
the text.
"""

from typing import NamedTuple


class Refusal(NamedTuple):
    number: int
    place: int
    told: str  # what follows the name of the text: ':LINE: WORDS', or ': WORDS'
    text: str

    @property
    def line(self):
        """Gives what the product prints in place of a listing."""
        return f"refused {self.number} place {self.place}"


CLOCKS = "clocks x\n"
LOCATION = "location a label 1\n"
INITIAL = "initial a\n"
EDGE = "edge a action 1\n"
BRANCH = "branch 1 -> a\n"

TOO_LONG = ": the table exceeds 16,384 bytes with this line"
UNKNOWN = ": the comparison is unknown: an invariant takes < and <= only"
BROKEN = ": the model starts with all clocks 0, which breaks this invariant of its initial location"

# Makes a table of 6 + 1,638 * 10 + 1 bytes. Edge number i begins at 6 + 10 i and line 3 + 2 i, its branch at 11 + 10 i and line 4 + 2 i:
# byte 16,384 is in the branch of edge 1,637, at 16,381 to 16,385.
MANY_EDGES = LOCATION + INITIAL + (EDGE + BRANCH) * 1638
# Makes a table of 6 + 1,637 * 10 + 2 * 4 = 16,384 bytes, and the end, the byte too many. Lines: 3, two guards, 1,637 * 2.
LONG_BY_THE_END = CLOCKS + LOCATION + INITIAL + EDGE + "guard x < 1\n" * 2 + BRANCH + (EDGE + BRANCH) * 1636
# Has its invariants before its edge in the table, if not in the text. Invariant number i begins at 8 + 5 i and line 7 + i: byte 16,384 is
# in number 3,275, at 16,383 to 16,387.
MANY_INVARIANTS = CLOCKS + LOCATION + INITIAL + EDGE + BRANCH + "location b label 2\n" + "invariant x < 1\n" * 3300

LENGTH_AND_HEADER = [
    Refusal(1, 0, ":3278" + TOO_LONG, MANY_EDGES),
    Refusal(1, 0, ":3279" + TOO_LONG, LONG_BY_THE_END),
    Refusal(1, 0, ":3282" + TOO_LONG, MANY_INVARIANTS),
    Refusal(6, 0, ":2: there are more than 4 clocks", "# five\nclocks a b c d e\n" + LOCATION + INITIAL),
    Refusal(
        6, 0, ":66: there are more than 64 locations", "initial a0\n" + "".join(f"location a{at} label 1\n" for at in range(70))
    ),
    Refusal(
        6,
        0,
        ":71: there are more than 4 clocks",
        "".join(f"location a{at} label 1\n" for at in range(70)) + "clocks a b c d e\ninitial a0\n",
    ),
]

ATOMS = [
    # 4 + 2
    Refusal(8, 6, ":3" + UNKNOWN, CLOCKS + LOCATION + "invariant x > 1\n" + INITIAL),
    Refusal(8, 6, ":3" + UNKNOWN, CLOCKS + LOCATION + "invariant x >= 16\n" + INITIAL),
    # 4 + 2 * 2 + 5
    Refusal(8, 13, ":5" + UNKNOWN, CLOCKS + LOCATION + "invariant x <= 1\nlocation b label 2\ninvariant x = 1\n" + INITIAL),
    # 4 + 2
    Refusal(9, 6, ":3: the constant exceeds 15", CLOCKS + LOCATION + "  invariant x <= 16\n" + INITIAL),
    # 4 + 2 + 5 + 4: the second guard, behind a comment and a blank line
    Refusal(
        9,
        15,
        ":8: the constant exceeds 15",
        CLOCKS + LOCATION + INITIAL + EDGE + "guard x < 15\n# next\n\nguard x >= 255\n" + BRANCH,
    ),
]

OVER_2 = LOCATION + INITIAL + "edge a action 1 over 2\n"

WEIGHTS = [
    # 4 + 2
    Refusal(10, 6, ":3: the denominator is 0, not 1 to 60,000", LOCATION + INITIAL + "edge a action 1 over 0\n" + BRANCH),
    Refusal(10, 6, ":3: the denominator is 0, not 1 to 60,000", LOCATION + INITIAL + "edge a action 1 over 0\n"),
    Refusal(10, 6, ":3: the denominator is 60001, not 1 to 60,000", LOCATION + INITIAL + "edge a action 1 over 60001\n" + BRANCH),
    Refusal(
        10,
        6,
        ":3: the sum of the weights is 60001, not 1 to 60,000",
        LOCATION + INITIAL + EDGE + "branch 60000 -> a\n" + BRANCH,
    ),
    Refusal(10, 6, ":3: the sum of the weights is 0, not 1 to 60,000", LOCATION + INITIAL + EDGE + "branch 0 -> a\n"),
    Refusal(10, 6, ":3: the edge has no branches", LOCATION + INITIAL + EDGE),
    # 4 + 2 + 5 + 5
    Refusal(10, 16, ":5: the weight is 0", LOCATION + INITIAL + EDGE + BRANCH + "branch 0 -> a\n"),
    # 4 + 2 + 5 + 5: the second edge, which the end finishes
    Refusal(
        12,
        16,
        ":5: the weights sum to 99, not to the denominator 100",
        LOCATION + INITIAL + EDGE + BRANCH + "edge a action 2 over 100\nbranch 90 -> a\nbranch 9 -> a\n",
    ),
    # 4 + 2: the first edge, which the second finishes
    Refusal(12, 6, ":3: the weights sum to 1, not to the denominator 2", OVER_2 + BRANCH + EDGE + BRANCH),
    Refusal(12, 6, ":3: the edge has no branches", OVER_2),
    # 4 + 2 + 5 + 5: the record of the second edge would be refused with 12 for the first, but 10 is lower
    Refusal(10, 16, ":5: the edge has no branches", OVER_2 + BRANCH + EDGE),
]

MAXIMA = [
    # 4 + 2 + 128 * 5; lines: 2 before the first
    Refusal(11, 646, ":131: there are more than 128 invariants", CLOCKS + LOCATION + "invariant x < 9\n" * 129 + INITIAL),
    # 4 + 2 + 128 * 10; lines: 2 before the first, two to an edge
    Refusal(11, 1286, ":259: there are more than 128 edges", LOCATION + INITIAL + (EDGE + BRANCH) * 129),
    # 4 + 2 + 5 + 8 * 4; lines: 4 before the first
    Refusal(
        11, 43, ":13: there are more than 8 guards to the edge", CLOCKS + LOCATION + INITIAL + EDGE + "guard x < 9\n" * 9 + BRANCH
    ),
    # 4 + 2 + 5 + 8 * 5; lines: 3 before the first
    Refusal(11, 51, ":12: there are more than 8 branches to the edge", LOCATION + INITIAL + EDGE + BRANCH * 9),
    # 4 + 2 + 2 * (5 + 8 * 5) + 5 + 8 * 5: the third edge; lines: 2, two edges of 9, and 9 more
    Refusal(11, 141, ":30: there are more than 8 branches to the edge", LOCATION + INITIAL + (EDGE + BRANCH * 8) * 3 + BRANCH),
]

# Starts at location b, line 4. At line 3 is a location's that it does not start at, and at line 8 a second one that does not hold.
START = (
    CLOCKS
    + LOCATION
    + "invariant x < 0\nlocation b label 2\ninvariant x <= 0\ninvariant x < 1\ninvariant x < 0\ninvariant x < 0\ninitial b\n"
)
# Resets each of three clocks at any time: with constants up to 15 these are far more than 2,048 regions.
MANY_REGIONS = (
    "clocks x y z\n"
    + LOCATION
    + INITIAL
    + "".join(f"edge a action 1\nguard {name} <= 15\nbranch 1 -> a reset {name}\n" for name in "xyz")
)
ROOM = ": the model has more regions than there is room for; ./reduce has room for 2,048"

MADE = LENGTH_AND_HEADER + ATOMS + WEIGHTS + MAXIMA + [Refusal(14, 0, ":7" + BROKEN, START), Refusal(15, 0, ROOM, MANY_REGIONS)]

# Has a table of 33 bytes, document 01's example: header 0, locations 4 and 6, invariant 8, edge 13, guard 18, branches 22 and 27, end 32.
EXAMPLE = """\
clocks x
location idle label 5
  invariant x <= 1
location sent label 9
initial idle
edge idle action 3 over 3
  guard x >= 1
  branch 1 -> sent
  branch 2 -> idle reset x
"""

NEVER = [
    Refusal(2, 33, ":9: the table ends where a record should begin", EXAMPLE),
    Refusal(3, 0, ":5: the kind of the record is none of 1 to 7", EXAMPLE),
    Refusal(4, 32, ":9: the record runs past the table's end", EXAMPLE),
    Refusal(5, 6, ":4: the record breaks the order", EXAMPLE),
    Refusal(7, 22, ":8: a location, clock or mask bit that does not exist is named", EXAMPLE),
    Refusal(13, 33, ":9: bytes follow the table's end", EXAMPLE),
]

# Makes a table of 6 + 5 + 3 * 4 + 2 * 5 + 1,635 * 10 + 1 = 16,384 bytes.
AS_LONG_AS_MAY_BE = CLOCKS + LOCATION + INITIAL + EDGE + "guard x < 1\n" * 3 + BRANCH * 2 + (EDGE + BRANCH) * 1635
# Has its invariant at 6 and its guard at 4 + 2 + 5 + 5.
FIFTEEN = CLOCKS + LOCATION + "invariant x <= 15\n" + INITIAL + EDGE + "guard x <= 15\n" + BRANCH

OTHER = [
    (1, 0, EXAMPLE),
    (1, 0, AS_LONG_AS_MAY_BE),
    (1, 5, MANY_EDGES),
    (6, 0, EXAMPLE),
    (6, 0, "clocks a b c d\ninitial a0\n" + "".join(f"location a{at} label 1\n" for at in range(64))),
    (8, 8, EXAMPLE),  # <=
    (8, 18, EXAMPLE),  # >=, which a guard takes
    (8, 16, FIFTEEN),
    (9, 8, EXAMPLE),
    (9, 6, FIFTEEN),
    (9, 16, FIFTEEN),
    (9, 12, CLOCKS + LOCATION + "invariant x <= 1\ninvariant x <= 16\n" + INITIAL),  # within the record of the second
    (9, 4, EXAMPLE),  # a location
    (10, 13, EXAMPLE),
    (10, 22, EXAMPLE),
    (11, 4, EXAMPLE),  # a location
    (11, 13, EXAMPLE),
    (11, 32, EXAMPLE),  # the end
    (11, 641, MAXIMA[0].text),  # the 128th invariant
    (11, 1276, MAXIMA[1].text),  # the 128th edge
    (11, 39, MAXIMA[2].text),  # the eighth guard
    (11, 46, MAXIMA[3].text),  # the eighth branch
    # 4 + 2 + 5 + 8 * 4 + 5 + 5: the ninth guard of the text, but the first of its edge
    (11, 53, CLOCKS + LOCATION + INITIAL + (EDGE + "guard x < 9\n" * 8 + BRANCH) * 2),
    # 4 + 2 + 5 + 8 * 5 + 5: the same with branches
    (11, 56, LOCATION + INITIAL + (EDGE + BRANCH * 8) * 2),
    (12, 13, EXAMPLE),
    (12, 22, EXAMPLE),  # a branch
    (14, 0, EXAMPLE),
    (14, 0, CLOCKS + LOCATION + "invariant x < 0\nlocation b label 2\ninvariant x <= 0\ninitial b\n"),
]
