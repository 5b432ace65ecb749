"""Holds slips in model texts, each with the line and the words of its message; every message about a text is in here."""

from typing import NamedTuple


class Slip(NamedTuple):
    text: str
    message: str  # what follows the name of the text: ':LINE: WORDS', or ': WORDS'


LOCATION = "location a label 1\n"
INITIAL = "initial a\n"
EDGE = "edge a action 1\n"
KINDS = "clocks, location, invariant, initial, edge, guard, branch"
LONG = "x" * 50

# Words that are not understood.
NOT_UNDERSTOOD = [
    Slip("clock x\n", f":1: unknown word 'clock' at the beginning of a line: one of {KINDS}"),
    Slip("\n# a comment\n  Clocks x\n", f":3: unknown word 'Clocks' at the beginning of a line: one of {KINDS}"),
    Slip("größe 1\n", f":1: unknown word 'größe' at the beginning of a line: one of {KINDS}"),
    Slip("\ufeff\ufeffclocks\n", rf":1: unknown word '\ufeffclocks' at the beginning of a line: one of {KINDS}"),
    Slip(LONG + "\n", f":1: unknown word '{'x' * 40}...' at the beginning of a line: one of {KINDS}"),
    Slip("location a\n", ":1: the line must be: location NAME label NUMBER"),
    Slip("location a lable 1\n", ":1: the line must be: location NAME label NUMBER"),
    Slip("location a label 1 2\n", ":1: the line must be: location NAME label NUMBER"),
    Slip("clocks x\n" + LOCATION + "invariant x<=1\n", ":3: the line must be: invariant CLOCK COMPARISON CONSTANT"),
    Slip(LOCATION + "initial\n", ":2: the line must be: initial LOCATION"),
    Slip(LOCATION + "initial a b\n", ":2: the line must be: initial LOCATION"),
    Slip(LOCATION + "edge a\n", ":2: the line must be: edge LOCATION action NUMBER [over NUMBER]"),
    Slip(LOCATION + "edge a action 1 over\n", ":2: the line must be: edge LOCATION action NUMBER [over NUMBER]"),
    Slip("clocks x\n" + LOCATION + EDGE + "guard x <=\n", ":4: the line must be: guard CLOCK COMPARISON CONSTANT"),
    Slip(LOCATION + EDGE + "branch 1 a\n", ":3: the line must be: branch WEIGHT -> LOCATION [reset CLOCK ...]"),
    Slip(LOCATION + EDGE + "branch 1 -> a reset\n", ":3: the line must be: branch WEIGHT -> LOCATION [reset CLOCK ...]"),
    Slip(LOCATION + EDGE + "branch 1 -> a a\n", ":3: the line must be: branch WEIGHT -> LOCATION [reset CLOCK ...]"),
]

# Names, and where a statement stands.
NAMES = [
    Slip("clocks x 2y\n", ":1: '2y' is no name: a letter, then letters, digits, '-' and '_'"),
    Slip("location a.b label 1\n", ":1: 'a.b' is no name: a letter, then letters, digits, '-' and '_'"),
    Slip("location größe label 1\n", ":1: 'größe' is no name: a letter, then letters, digits, '-' and '_'"),
    Slip("clocks x y x\n", ":1: clock 'x' is there twice"),
    Slip(LOCATION + "\nlocation a label 2\n", ":3: location 'a' is there twice"),
    Slip("clocks x\nclocks y\n", ":2: the clocks are there twice"),
    Slip(LOCATION + INITIAL + INITIAL, ":3: the initial location is there twice"),
    Slip(LOCATION + "invariant x < 1\nclocks x\n", ":2: unknown clock 'x'"),
    Slip("clocks x\n" + LOCATION + EDGE + "guard y < 1\n", ":4: unknown clock 'y'"),
    Slip("clocks x\n" + LOCATION + EDGE + "branch 1 -> a reset x y\n", ":4: unknown clock 'y'"),
    Slip(LOCATION + "initial b\n", ":2: unknown location 'b'"),
    Slip("initial a\n", ":1: unknown location 'a'"),
    Slip(LOCATION + INITIAL + "edge b action 1\n", ":3: unknown location 'b'"),
    Slip(LOCATION + INITIAL + EDGE + "branch 1 -> b\n", ":4: unknown location 'b'"),
    Slip("clocks x\n" + LOCATION + "invariant x == 1\n", ":3: unknown comparison '==': one of < <= > >= ="),
    Slip("clocks x\n" + LOCATION + EDGE + "guard x != 1\n", ":4: unknown comparison '!=': one of < <= > >= ="),
    Slip("clocks x\ninvariant x < 1\n", ":2: an invariant belongs directly below its location"),
    Slip("clocks x\n" + LOCATION + INITIAL + "invariant x < 1\n", ":4: an invariant belongs directly below its location"),
    Slip("clocks x\n" + LOCATION + "guard x < 1\n", ":3: a guard belongs directly below its edge"),
    Slip(LOCATION + EDGE + INITIAL + "branch 1 -> a\n", ":4: a branch belongs directly below its edge"),
    Slip("clocks x\n" + LOCATION + EDGE + "branch 1 -> a\nguard x < 1\n", ":5: an edge's guards come before its branches"),
    Slip("", ":1: the text ends without an initial location"),
    Slip("\n", ":1: the text ends without an initial location"),
    Slip(LOCATION + "# no more", ":2: the text ends without an initial location"),
    Slip(LOCATION + "# no more\n", ":2: the text ends without an initial location"),
]

# Numbers, on the far side of what their bytes hold.
NUMBERS = [
    Slip("location a label one\n", ":1: the label must be a number, not 'one'"),
    Slip("location a label -1\n", ":1: the label must be a number, not '-1'"),
    Slip("location a label ٣\n", ":1: the label must be a number, not '٣'"),
    Slip("location a label 256\n", ":1: the label 256 does not fit: at most 255"),
    Slip("location a label " + "9" * 5000 + "\n", f":1: the label {'9' * 40}... does not fit: at most 255"),
    Slip(LOCATION + "edge a action 0x1\n", ":2: the action must be a number, not '0x1'"),
    Slip(LOCATION + "edge a action 256\n", ":2: the action 256 does not fit: at most 255"),
    Slip(LOCATION + "edge a action 1 over 1e3\n", ":2: the denominator must be a number, not '1e3'"),
    Slip(LOCATION + "edge a action 1 over 65536\n", ":2: the denominator 65536 does not fit: at most 65535"),
    Slip(LOCATION + EDGE + "branch 1/2 -> a\n", ":3: the weight must be a number, not '1/2'"),
    Slip(LOCATION + EDGE + "branch 65536 -> a\n", ":3: the weight 65536 does not fit: at most 65535"),
    Slip("clocks x\n" + LOCATION + "invariant x < 1.5\n", ":3: the constant must be a number, not '1.5'"),
    Slip("clocks x\n" + LOCATION + EDGE + "guard x < 256\n", ":4: the constant 256 does not fit: at most 255"),
    Slip(
        LOCATION + INITIAL + EDGE + "branch 65535 -> a\nbranch 1 -> a\n",
        ":3: the sum of the weights, 65536, does not fit: at most 65535",
    ),
    Slip("clocks" + "".join(f" x{at}" for at in range(256)) + "\n", ":1: the count of clocks does not fit: at most 255"),
    Slip("".join(f"location a{at} label 1\n" for at in range(256)), ":256: the count of locations does not fit: at most 255"),
    Slip(
        "clocks a b c d e f g h i\n" + LOCATION + EDGE + "branch 1 -> a reset i\n",
        ":4: the reset does not fit: only the first eight clocks have a bit",
    ),
]

# What is no text. A surrogate stands for the byte that it escapes.
NO_TEXT = [
    Slip(LOCATION + "location b\0 label 1\n", ":2: this is no text: it has a control character (00 hexadecimal)"),
    Slip(LOCATION + "# \x1b[31m\n", ":2: this is no text: it has a control character (1b hexadecimal)"),
    Slip(LOCATION + "# old line ends\rinitial a\n", ":2: this is no text: it has a control character (0d hexadecimal)"),
    Slip(LOCATION + "# \udcff\n", ":2: this is no text (UTF-8)"),
    Slip("\udcff\udcfeclocks\n", ":1: this is no text (UTF-8)"),
    Slip("#" * (1 << 20) + "#", ": the text is longer than 1,048,576 bytes"),
]

SLIPS = NOT_UNDERSTOOD + NAMES + NUMBERS + NO_TEXT
