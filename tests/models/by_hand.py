"""Holds model texts with the bytes of their tables, which were made by hand, record by record, from docs/FORMAT.md.

Each byte string is hexadecimal with comments; the number that begins a comment is the place of the record. Nothing here was taken from
what the assembler writes. Places, numbers and constants differ as far as they can, so that two that are swapped are seen.
"""

from typing import NamedTuple


class ByHand(NamedTuple):
    name: str
    text: str
    table: str  # hexadecimal, with comments


EVERY_TEXT = """\
# Every statement, in every form.
clocks x y-2 Z_ w            # clocks 0, 1, 2 and 3

initial middle               # a location that is stated further down

location first label 0
  invariant x < 15
\t  invariant y-2 <= 0       # a tab, and deeper than the line above

edge first action 0          # without 'over': W is 2 + 256
  guard x < 0
  guard x <= 1
  # a comment between two guards
  guard y-2 > 2
guard Z_ >= 14               # not indented at all

  guard w = 015
  branch 2 -> last           # stated further down, too
  branch 256 -> first reset w
location middle label 255
location last label 000000010
  invariant Z_ <= 3
edge last action 255 over 60000
  branch 59998 -> middle reset x y-2 Z_ w
  branch 2 -> last reset Z_ x Z_
edge middle action 7 over 1#a comment without a blank before it
  branch 1 -> middle
"""

EVERY_TABLE = """
01 04 03 01      # 0   header: 4 clocks, 3 locations, the initial one is location 1 (middle)
02 00            # 4   location 0 (first): label 0
02 ff            # 6   location 1 (middle): label 255
02 0a            # 8   location 2 (last): label 10
03 00 00 00 0f   # 10  at location 0: clock 0 (x), comparison 0 is <, constant 15
03 00 01 01 00   # 15  at location 0: clock 1 (y-2), comparison 1 is <=, constant 0
03 02 02 01 03   # 20  at location 2: clock 2 (Z_), <=, constant 3
04 00 00 02 01   # 25  edge 0: from location 0, action 0, W = 258, which is 2 + 1 * 256, low byte first
05 00 00 00      # 30  guard: clock 0, comparison 0 is <, constant 0
05 00 01 01      # 34  guard: clock 0, comparison 1 is <=, constant 1
05 01 02 02      # 38  guard: clock 1, comparison 2 is >, constant 2
05 02 03 0e      # 42  guard: clock 2, comparison 3 is >=, constant 14
05 03 04 0f      # 46  guard: clock 3, comparison 4 is =, constant 15
06 02 00 02 00   # 50  branch: weight 2, to location 2, no reset
06 00 01 00 08   # 55  branch: weight 256, to location 0, mask 8 is bit 3, clock 3 (w)
04 02 ff 60 ea   # 60  edge 1: from location 2, action 255, W = 60,000, which is 96 + 234 * 256
06 5e ea 01 0f   # 65  branch: weight 59,998, which is 94 + 234 * 256, to location 1, bits 0 to 3: all four clocks
06 02 00 02 05   # 70  branch: weight 2, to location 2, mask 5: bit 2 (Z_, named twice) and bit 0 (x)
04 01 07 01 00   # 75  edge 2: from location 1, action 7, W = 1
06 01 00 01 00   # 80  branch: weight 1, to location 1, no reset
07               # 85  end; the table has 86 bytes
"""

WITHOUT_CLOCKS_TEXT = """\
location a label 9
location b label 8
edge b action 1
  branch 3 -> b
  branch 4 -> a
edge a action 2 over 5
  branch 5 -> b
initial b
"""

WITHOUT_CLOCKS_TABLE = """
01 00 02 01      # 0   header: no clocks, 2 locations, the initial one is location 1 (b)
02 09            # 4   location 0 (a): label 9
02 08            # 6   location 1 (b): label 8
04 01 01 07 00   # 8   edge 0: from location 1, action 1, W = 3 + 4
06 03 00 01 00   # 13  branch: weight 3, to location 1
06 04 00 00 00   # 18  branch: weight 4, to location 0
04 00 02 05 00   # 23  edge 1: from location 0, action 2, W = 5
06 05 00 01 00   # 28  branch: weight 5, to location 1
07               # 33  end
"""

# Holds numbers that the product refuses, and that the assembler is to hand on as they are: five clocks, a constant of 255, a comparison
# that no invariant takes, a weight of 0, W = 65,535, and weights that do not sum to it.
HANDED_ON_TEXT = """\
clocks a b c d e
location only label 1
  invariant e > 255
initial only
edge only action 1 over 65535
  branch 0 -> only reset e
edge only action 2
"""

HANDED_ON_TABLE = """
01 05 01 00      # 0   header: 5 clocks, 1 location, the initial one is location 0
02 01            # 4   location 0: label 1
03 00 04 02 ff   # 6   at location 0: clock 4 (e), comparison 2 is >, constant 255
04 00 01 ff ff   # 11  edge 0: from location 0, action 1, W = 65,535
06 00 00 00 10   # 16  branch: weight 0, to location 0, mask 16 is bit 4, clock 4
04 00 02 00 00   # 21  edge 1: from location 0, action 2, no branches, so W is their sum 0
07               # 26  end
"""

BY_HAND = [
    ByHand("every statement", EVERY_TEXT, EVERY_TABLE),
    ByHand("no clocks", WITHOUT_CLOCKS_TEXT, WITHOUT_CLOCKS_TABLE),
    ByHand("clocks without a name", "clocks\n" + WITHOUT_CLOCKS_TEXT, WITHOUT_CLOCKS_TABLE),
    ByHand("what the product refuses", HANDED_ON_TEXT, HANDED_ON_TABLE),
    ByHand("a location and no more", "initial a\nlocation a label 5\n", "01 00 01 00  02 05  07"),
]


def table_of(case):
    """Takes the comments out, and gives the bytes."""
    return bytes.fromhex("".join(line.split("#", 1)[0] for line in case.table.splitlines()))
