"""Holds the command ./reduce to the sample models, and to what it must say and how it must end where something is in its way.

It works in the current folder, and calls the command of the project, which takes the program of dist/.
"""

import fcntl
import os
import re
import resource
import signal
import socket
import struct
import sys
import termios
import threading
import time

import refusals
from calls import CALLS, EXAMPLE, ROOT, SECONDS, Did, begin, call, end, environment, header_version, hold, hold_own, link_tools, read, write
from tables import all_apart

COMMAND = os.path.join(ROOT, "reduce")
MODELS = os.path.join(ROOT, "models")
ASSEMBLE = os.path.join(MODELS, "assemble")
MODEL = read(os.path.join(MODELS, "example.model"))
GOOD = Did(0, read(os.path.join(MODELS, "listings", "example.txt")), "")
FORMS = [("bytes", [], EXAMPLE), ("-x", ["-x"], EXAMPLE.hex().encode()), ("-m", ["-m"], MODEL)]
LONGEST_TEXT = 1048576
TOO_LONG = f"the text is longer than {LONGEST_TEXT} bytes"


def reduce(*words, given=b"", **rest):
    """Calls the command, which gets these bytes on standard input."""
    return call([COMMAND, *words], given, **rest)


def failed(message):
    """Gives what a call that fails must do."""
    return Did(2, b"", f"reduce: {message}\n")


# What is printed.


def hold_version():
    """Stops all where dist/ is not of these sources, before anything would be proved."""
    did = reduce("--version")
    lines = did.output.decode().splitlines()
    hold("--version", (did.status, did.message, len(lines)), (0, "", 3))
    hold("the version", lines[0], f"terkwabu {header_version(ROOT)}")
    if not re.fullmatch(r"sources [0-9a-f]{64}", lines[1]) or not re.fullmatch(r"proved by the gate with rt \S.*", lines[2]):
        sys.exit(f"./reduce --version prints\n{did.output.decode()}")


def hold_models():
    """Hands over each sample model in each form."""
    for name in sorted(name[: -len(".model")] for name in os.listdir(MODELS) if name.endswith(".model")):
        model = os.path.join(MODELS, name + ".model")
        good = Did(0, read(os.path.join(MODELS, "listings", name + ".txt")), "")
        hold(f"-m {name}", reduce("-m", model), good)
        hold(f"-x {name}", reduce("-x", given=call([ASSEMBLE, "--hex", model]).output), good)
        hold(f"bytes of {name}", reduce(given=call([ASSEMBLE, model]).output), good)


# Two edges whose shares are exact halves, and what document 02 (Job 7) has printed for them.
HALVES = """
location idle label 1
location lost label 2
initial idle
edge idle action 4 over 20000
  branch 1 -> lost
  branch 19999 -> idle
edge idle action 5 over 20000
  branch 3 -> lost
  branch 19997 -> idle
"""
HALVES_LISTING = """\
regions 2 blocks 2 rounds 0
region 0 0 0
region 1 1 1
block 0 1 1
step 0 4 0:10000 1:0
step 0 5 0:9998 1:2
block 1 2 1
label 1 regions 1 blocks 1
label 2 regions 1 blocks 1
all regions 2 blocks 2
"""


def hold_halves():
    """Hands over a model text whose shares are exact halves of a ten-thousandth."""
    hold("exact halves", reduce("-m", given=HALVES.encode()), Did(0, HALVES_LISTING.encode(), ""))


# Locations with the least label, the largest one, and one that is not reached, and what document 02 (Job 1) has printed for them.
LABELS = """
location idle label 255
location busy label 0
location spare label 7
location done label 255
initial idle
edge idle action 1
  branch 1 -> busy
  branch 1 -> done
edge busy action 1
  branch 1 -> done
"""
LABELS_LISTING = """\
regions 3 blocks 3 rounds 1
region 0 0 0
region 1 1 1
region 2 3 2
block 0 255 1
step 0 1 1:5000 2:5000
block 1 0 1
step 1 1 2:10000
block 2 255 1
label 0 regions 1 blocks 1
label 255 regions 2 blocks 2
all regions 3 blocks 3
"""


def hold_totals():
    """Hands over a model text whose labels are met from the largest down."""
    hold("totals", reduce("-m", given=LABELS.encode()), Did(0, LABELS_LISTING.encode(), ""))


def refused(case, name):
    """Gives what a call on a text must do whose table is refused: the listing's line, and the line of the text on standard error."""
    return Did(0, f"{case.line}\n".encode(), f"{name}{case.told} ({case.line})\n")


def hold_refusals():
    """Hands over all model texts whose tables are refused, the last one also on standard input, and tables of no model."""
    for case in refusals.MADE:
        write("my.model", case.text.encode())
        hold(f"{case.line}, {case.told}", reduce("-m", "my.model"), refused(case, "my.model"))
    hold("a refusal on standard input", reduce("-m", given=case.text.encode()), refused(case, "standard input"))
    for words, data in ([], bytes(3)), (["-x"], b"000000"):
        hold(f"{words}, a refusal", reduce(*words, given=data), Did(0, b"refused 3 place 0\n", ""))


# How it is called.


def hold_calls():
    """Calls it in each right and wrong way."""
    shown = reduce("-h")
    usage = shown.output.decode()
    hold("-h", (shown.status, shown.message, usage.startswith("usage: reduce [FILE] ")), (0, "", True))
    for option in "-x", "-m", "--prove", "--version", "-h":
        hold(f"-h names {option}", f"\n       reduce {option} " in usage, True)
    hold("--help", reduce("--help"), shown)
    for words in ["a", "b"], ["-q"], ["--hex"], ["-xm"], ["-x", "a", "b"], ["a", "-x"], ["--", "-x", "a"]:
        hold(f"wrong use: {words}", reduce(*words, given=EXAMPLE), Did(2, b"", usage))
    terminal, inner = os.openpty()
    hold("a terminal, where nothing is typed", reduce(stdin=inner), Did(2, b"", usage))
    os.close(terminal)
    os.close(inner)


def hold_names():
    """Hands over the example under names that are odd, and from other folders."""
    os.makedirs("folder/of tables")
    os.symlink(COMMAND, "folder/link")
    for name in "-x", "a b\nc", "*", "$(false)", "größe":
        write(name, EXAMPLE)
        hold(f"a file {name!r}", reduce("--", name), GOOD)
    write("folder/of tables/1", EXAMPLE.hex().encode())
    hold("a file of another folder", reduce("-x", "../of tables/1", cwd="folder/of tables"), GOOD)
    hold("a link to the command", call(["./link", "-x", "of tables/1"], cwd="folder"), GOOD)
    for name, words, data in FORMS:
        hold(f"standard input as -, {name}", reduce(*words, "-", given=data), GOOD)


def hold_without_rt():
    """Calls it where there are the tools that it needs and no rt, and where there is no python3 either."""
    tools = environment(PATH=link_tools("without-rt"))
    for name, words, data in FORMS:
        hold(f"no rt, {name}", reduce(*words, given=data, env=tools), GOOD)
    tools = environment(PATH=link_tools("without-python", without=["python3"]))
    hold("no python3", reduce(given=EXAMPLE, env=tools), GOOD)
    hold("-m, no python3", reduce("-m", given=MODEL, env=tools), failed("a model text needs python3, which is not on the PATH"))


# What is read.


def hold_hex():
    """Hands over hexadecimal text."""
    text = EXAMPLE.hex()
    for name, given, wanted in (
        ("capitals", text.upper(), GOOD),
        ("blanks, tabs and both kinds of line ends", " " + "\r\n".join("\t".join(text)) + " \n\n", GOOD),
        ("nothing", "", Did(0, b"refused 2 place 0\n", "")),
        ("blanks only", " \n\t\r\n", Did(0, b"refused 2 place 0\n", "")),
        ("16,384 bytes", text + "\n00" * (16384 - len(EXAMPLE)), Did(0, b"refused 13 place 33\n", "")),
        ("16,385 bytes", text + "00" * (16385 - len(EXAMPLE)), Did(0, b"refused 1 place 0\n", "")),
        ("100,000 bytes", text + "00" * (100000 - len(EXAMPLE)), Did(0, b"refused 1 place 0\n", "")),
        ("text as long as it may be", text.ljust(LONGEST_TEXT), GOOD),
        ("text that is longer", text.ljust(LONGEST_TEXT + 1), failed(f"standard input: {TOO_LONG}")),
        ("an odd count", "01 010 20", failed("standard input: the count of hexadecimal digits is odd (7)")),
        ("one digit more", text + "\n0", failed(f"standard input: the count of hexadecimal digits is odd ({len(text) + 1})")),
    ):
        hold(f"-x, {name}", reduce("-x", given=given.encode()), wanted)


def hold_slips():
    """Hands over text that is not hexadecimal, or no model. The message names the line."""
    for given, line in (
        (b"01 0g", 1),
        (b"01\n\n02 zz\nyy", 3),
        (b"0x01", 1),
        (b"01\n\\x02", 2),
        (b"01\0", 1),
        (b"01\n02 \0\n03", 2),
        (b"01\n\n\0\0", 3),
        (b"01\n\xff", 2),
        (b"01\v02", 1),
        (b"01" * 20000 + b"\nz", 2),
    ):
        wanted = failed(f"standard input: line {line} has something that is no hexadecimal digit")
        hold(f"-x, {given[:20]!r}", reduce("-x", given=given), wanted)
    did = reduce("-m", given=b"\nclock x\n")
    hold("-m, another text", (did.status, did.output), (2, b""))
    hold("-m, another text", re.sub(r": one of .*", "", did.message), "standard input:2: unknown word 'clock' at the beginning of a line\n")


def feed(pipe, data):
    """Writes into a pipe, once somebody reads it."""
    with open(pipe, "wb") as file:
        file.write(data)


def hold_pipes():
    """Hands over pipes with a name, and files without an end."""
    os.mkfifo("pipe")
    for name, words, data in FORMS:
        writer = threading.Thread(target=feed, args=("pipe", data), daemon=True)
        writer.start()
        hold(f"a pipe with a name, {name}", reduce(*words, "pipe"), GOOD)
        writer.join()
    hold("bytes without an end", reduce("/dev/zero"), Did(0, b"refused 1 place 0\n", ""))
    for option in "-x", "-m":
        hold(f"text without an end, {option}", reduce(option, "/dev/zero"), failed(f"/dev/zero: {TOO_LONG}"))


def hold_files():
    """Names what is no file that can be read. For root a file is read whatever its mode."""
    os.mkdir("below")
    listener = socket.socket(socket.AF_UNIX)
    listener.bind("socket")
    write("closed", EXAMPLE, mode=0)
    rows = [("none", "there is no such file"), ("below", "this is a folder"), ("socket", "cannot be read")]
    rows += [("closed", "cannot be read")] if os.geteuid() != 0 else []
    for _, words, _ in FORMS:
        for name, message in rows:
            hold(f"{words} {name}", reduce(*words, name), failed(f"{name}: {message}"))
    listener.close()


def hold_inputs():
    """Hands over inputs that fail while they are read, which is no end of the table."""
    wanted = failed("standard input: cannot be read")
    for name, words, data in FORMS:
        closed = call(["sh", "-c", 'exec "$@" <&-', "sh", COMMAND, *words], stdin=None)
        hold_own(f"no input, {name}", closed, wanted)
        folder = os.open("below", os.O_RDONLY)
        hold_own(f"a folder as input, {name}", reduce(*words, stdin=folder), wanted)
        os.close(folder)
        reading, writing = os.pipe()
        os.set_blocking(reading, False)
        os.write(writing, data)  # is a whole table by itself, but more may come
        hold_own(f"an input that does not wait, {name}", reduce(*words, stdin=reading), wanted)
        os.close(reading)
        os.close(writing)


# What is in its way.


def hold_outputs():
    """Takes the output away in several ways."""
    write("table", EXAMPLE)
    wanted = failed("standard output: cannot be written")
    for words in ["table"], ["-h"], ["--version"]:
        with open("/dev/full", "wb", buffering=0) as full:
            hold_own(f"{words}, a full device", reduce(*words, stdout=full), wanted)
        hold_own(f"{words}, no output", call(["sh", "-c", 'exec "$@" >&-', "sh", COMMAND, *words]), wanted)
    write("long", all_apart())
    shell = ["bash", "-c", '"$@" | head -n 1; echo "${PIPESTATUS[@]}"', "bash", COMMAND, "long"]
    hold("a reader that goes early", call(shell), Did(0, b"regions 2048 blocks 2048 rounds 64\n141 0\n", ""))


def little_room():
    """Lets files have 4,096 bytes and no more; a write that goes beyond fails as on a full device."""
    signal.signal(signal.SIGXFSZ, signal.SIG_IGN)
    resource.setrlimit(resource.RLIMIT_FSIZE, (4096, 4096))


def hold_temporary():
    """Makes the temporary files fail, and then has them in a folder that is named from here."""
    for name, words, data in FORMS:
        did = reduce(*words, given=data, env=environment(TMPDIR="/nonexistent"))
        hold_own(f"no temporary file, {name}", did, failed("no temporary file can be made"))
    did = reduce("long", preexec_fn=little_room, restore_signals=False)
    hold_own("no room for the listing", did, failed("the program was stopped, or its listing cannot be kept"))
    os.mkdir("here")
    for name, words, data in FORMS:
        hold(f"a folder that is named from here, {name}", reduce(*words, given=data, env=environment(TMPDIR="here")), GOOD)
    hold("temporary files that are left", os.listdir("here"), [])


def unread(pipe):
    """Counts the bytes in a pipe that nobody has read."""
    return struct.unpack("i", fcntl.ioctl(pipe, termios.FIONREAD, bytes(4)))[0]


def hold_signal():
    """Ends it while it waits for more of its input. The shell may tell of the signal or not."""
    process = begin([COMMAND])
    process.stdin.write(EXAMPLE)
    process.stdin.flush()
    until = time.monotonic() + SECONDS
    while unread(process.stdin) > 0 and time.monotonic() < until:
        time.sleep(0.01)
    os.killpg(process.pid, signal.SIGTERM)
    hold("a signal", end(process)._replace(message=""), Did(128 + signal.SIGTERM, b"", ""))


def hold_command():
    """Does all of this; returns how often the command was called."""
    hold_version()
    for step in hold_models, hold_halves, hold_totals, hold_refusals, hold_calls, hold_names, hold_without_rt, hold_hex, hold_slips:
        step()
    for step in hold_pipes, hold_files, hold_inputs, hold_outputs, hold_temporary, hold_signal:
        step()
    hold("temporary files that are left", os.listdir(os.environ["TMPDIR"]), [])
    return sum(COMMAND in words for words in CALLS)
