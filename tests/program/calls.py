"""Calls commands, and holds what they do to what they must do: exit status, standard output and standard error."""

import os
import re
import shutil
import signal
import subprocess
import sys
from typing import NamedTuple

ROOT = os.path.dirname(os.path.dirname(os.path.dirname(os.path.abspath(__file__))))
EXAMPLE = bytes.fromhex("01010200 0205 0209 0300000101 0400030300 05000301 0601000100 0602000001 07")  # document 01
SECONDS = 60  # for a call that should take a fraction of one
CALLS = []  # the words of each call that was made

# Names every tool that ./reduce, ./library and ./release take from the PATH, but for rt and gcc.
TOOLS = """bash cat chmod cmp cp cut dirname find grep head install mkdir mktemp mv paste python3 readlink rm sed sha256sum sort tail tr
    uname wc xargs""".split()


class Did(NamedTuple):
    """Holds what a call did, or must do."""

    status: int
    output: bytes
    message: str


def begin(words, **rest):
    """Starts a command in a session of its own, so that all it starts can be ended with it."""
    CALLS.append(words)
    streams = {"stdin": subprocess.PIPE, "stdout": subprocess.PIPE, "stderr": subprocess.PIPE}
    return subprocess.Popen(words, **{**streams, "start_new_session": True, **rest})


def end(process, given=None):
    """Waits for a command, which gets these bytes. One that hangs ends the test."""
    try:
        output, message = process.communicate(given, timeout=SECONDS)
    except subprocess.TimeoutExpired:
        os.killpg(process.pid, signal.SIGKILL)
        process.wait()
        sys.exit(f"{process.args}: not done after {SECONDS} s")
    return Did(process.returncode, output or b"", message.decode(errors="replace"))


def call(words, given=b"", **rest):
    """Runs a command, which gets these bytes where standard input is not stated."""
    return end(begin(words, **rest), None if "stdin" in rest else given)


def hold(what, found, wanted):
    """Stops all where something else was found."""
    if found != wanted:
        sys.exit(f"{what}:\nwanted {str(wanted)[:3000]}\ngot    {str(found)[:3000]}")


def hold_own(what, did, wanted):
    """Does so for a call in which a tool fails; of standard error only the script's own lines are looked at."""
    name = wanted.message.split(":")[0]
    own = [line for line in did.message.splitlines(keepends=True) if line.startswith(name + ": ")]
    hold(what, did._replace(message="".join(own)), wanted)


def environment(**changed):
    """Makes an environment with some variables changed."""
    return {**os.environ, **changed}


def link_tools(folder, without=()):
    """Makes a folder of links to the tools, for a PATH on which nothing else is."""
    os.mkdir(folder)
    for name in TOOLS:
        found = shutil.which(name)
        if found is None:
            sys.exit(f"{name} is missing")
        if name not in without:
            os.symlink(found, os.path.join(folder, name))
    return os.path.abspath(folder)


def read(path):
    """Reads a file."""
    with open(path, "rb") as file:
        return file.read()


def write(path, data, mode=0o644):
    """Writes a file anew, so that a program that is running keeps its bytes."""
    if os.path.lexists(path):
        os.remove(path)
    with open(path, "wb") as file:
        file.write(data)
    os.chmod(path, mode)


def header_version(root):
    """Reads the version that the header of a project states."""
    header = read(os.path.join(root, "include", "terkwabu.h")).decode()
    return ".".join(re.findall(r"^#define TERKWABU_VERSION_(?:MAJOR|MINOR|PATCH) (\d+)$", header, re.MULTILINE))
