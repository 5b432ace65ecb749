"""Holds ./reduce, ./library, ./release and ./test to the sources: what dist/ has is used where it was built from them, and else rt proves.

All happens in a copy of the project, which project.py makes. Each step begins where nothing was built, and dist/ is of the sources.
"""

import contextlib
import os
import re
import shutil

from calls import CALLS, Did, header_version, hold, hold_own, link_tools, read
from project import DIST, GATE, PROVER, SAID, SOURCE, Project, digest, program

CHECK_REDUCE = ["reduce: check", "reduce: run", "project: version"]
CHECK_LIBRARY = ["terkwabu: check", "terkwabu: lib", "project: version"]
RELEASE = ["terkwabu: check", "reduce: check", "terkwabu: lib", "reduce: run", "project: version"]
SCRIPTS = [("reduce", 2), ("library", 1), ("release", 1)]  # with the status of each where it fails
FILES = [f"{DIST}/reduce", f"{DIST}/libterkwabu.a", "dist/MANIFEST"]
COMMENT = b"// A comment.\n"
PROGRESS = """\
proving from the sources; about 600 s if nothing was proved before
  table proved; N s so far, of about 600
  clocks proved; N s so far, of about 600
  rounding proved; N s so far, of about 600
"""
BOTH = PROGRESS + PROGRESS[PROGRESS.index("  table") :]  # of two crates
FAILURE = SAID + "rt: the stub fails\n"


def from_nothing(calls):
    """Gives the calls where all is proved from nothing."""
    return [words.replace("check", "verdict") for words in calls]


@contextlib.contextmanager
def changed(project, name=SOURCE, more=COMMENT):
    """Changes a file for a while."""
    before = read(project.at(name))
    project.put(name, before + more)
    yield
    project.put(name, before)


# What is used.


def hold_unchanged(project):
    """Uses what dist/ has, also after a change of times only. The library that was made is then left as it is."""
    built = ["build/libterkwabu.a", "build/libterkwabu.so"]
    project.hold_reduce("unchanged sources", "dist", [])
    project.hold_library("unchanged sources", "dist", [])
    for time in 1, 4000000000:
        for name in SOURCE, "crates.txt", *FILES, *built:
            os.utime(project.at(name), (time, time))
        project.hold_reduce("other times", "dist", [])
        project.hold_library("other times", "dist", [])
        hold("the times of what was made", [os.stat(project.at(name)).st_mtime for name in built], [time, time])
    hold("all of build/", sorted(os.listdir(project.at("build"))), ["libterkwabu.a", "libterkwabu.so", "libterkwabu.so.of"])


def hold_version(what, project, third):
    """Holds --version to its three lines."""
    lines = [f"terkwabu {header_version(project.root)}", f"sources {project.sources()}", third]
    wanted = Did(0, "".join(line + "\n" for line in lines).encode(), "")
    hold(f"--version, {what}", project.call("reduce", "--version"), wanted)


def hold_digest(project):
    """Changes sources in each way, and files that are none: the former are seen in the digest, the latter are not."""
    gate, unproved = f"proved by the gate with rt {PROVER}", "not proved yet; the next use proves"
    for name in SOURCE, "crates.txt", "crates/table/specs/Lib.antt", "crates/reduce/proofs/print_listing/Invariants.antt":
        with changed(project, name):
            hold_version(f"{name} changed", project, unproved)
    for name in "crates/table/specs/Added.antt", "crates/table/src/added.rt":
        project.put(name, b"")
        hold_version(f"{name} added", project, unproved)
        os.remove(project.at(name))
        hold_version(f"{name} removed", project, gate)
    os.rename(project.at(SOURCE), project.at(SOURCE + ".rt"))
    hold_version("a source with another name", project, unproved)
    os.rename(project.at(SOURCE + ".rt"), project.at(SOURCE))
    others = ["crates/table/README.md", "crates/table/src/notes", "crates/table/must-fail/added.edit", "models/added.antt"]
    for name in *others, "crates/table/out/added.rt", "crates/table/out/rlib/added.antt":
        project.put(name, b"added")
        hold_version(f"{name} added", project, gate)
    os.symlink("/dev/null", project.at("crates/table/out/link"))
    hold_version("a link in what rt made", project, gate)
    hold("rt, for --version", project.called(), [])


def hold_proved(project):
    """Proves changed sources once. Then what was built is used, until the sources are those of dist/ again."""
    with changed(project):
        project.hold_reduce("changed sources", "build", CHECK_REDUCE, message=PROGRESS)
        project.hold_reduce("changed sources, again", "build", [])
        project.hold_library("changed sources", "build", CHECK_LIBRARY, message=PROGRESS)
        project.hold_library("changed sources, again", "build", [])
        hold_version("changed sources", project, f"proved here with rt {PROVER}")
        os.utime(project.at(SOURCE), (1, 1))
        project.hold_reduce("changed sources of another time", "build", [])
        project.hold_library("changed sources of another time", "build", [])
        project.put("build/proving.seconds", b"123\n")
        with changed(project):
            message = PROGRESS.replace("600", "123")
            project.hold_reduce("sources changed again", "build", CHECK_REDUCE, message=message)
            project.hold_library("sources changed again", "build", CHECK_LIBRARY, message=message)
    project.hold_reduce("the change taken back", "dist", [])
    project.hold_library("the change taken back", "dist", [])


def hold_estimate(project):
    """Takes what is proved in no time for what takes long: its seconds are the next estimate."""
    script = read(project.at("dist/proved.bash"))
    noting = script.replace(b"SECONDS - began > 60", b"SECONDS - began > -1")
    hold("a script that notes all seconds", noting != script, True)
    project.put("dist/proved.bash", noting)
    with changed(project):
        project.hold_reduce("changed sources, timed", "build", CHECK_REDUCE, message=PROGRESS)
        seconds = read(project.at("build/proving.seconds")).decode()
        hold("the seconds that were noted", re.fullmatch(r"\d\n", seconds) is not None, True)
        with changed(project):
            message = PROGRESS.replace("600", seconds.strip())
            project.hold_reduce("sources changed again, timed", "build", CHECK_REDUCE, message=message)
    project.put("dist/proved.bash", script)


def hold_replaced(project):
    """Puts other files in the place of those in build/, where dist/ is of the sources and where it is not."""
    project.hold_library("unchanged sources", "dist", [])
    for data in b"", b"other", program("nowhere"):
        for name in "libterkwabu.a", "libterkwabu.so":
            project.put(f"build/{name}", data)
            project.hold_library(f"another {name}", "dist", [])
        project.put("build/reduce", data, 0o755)
        project.hold_reduce("another program in build/", "dist", [])
    with changed(project):
        project.hold_reduce("changed sources, another program", "build", CHECK_REDUCE, message=PROGRESS)
        project.hold_library("changed sources", "build", CHECK_LIBRARY, message=PROGRESS)
        for data in b"", program("nowhere"):
            project.put("build/reduce", data, 0o755)
            project.hold_reduce("proved, another program", "build", CHECK_REDUCE, message=PROGRESS)
            project.put("build/libterkwabu.a", data)
            project.hold_library("proved, another archive", "build", CHECK_LIBRARY, message=PROGRESS)
            project.put("build/libterkwabu.so", data)
            project.hold_library("proved, another shared library", "build", [])


def hold_damaged(project):
    """Changes a byte of what dist/ has, empties it, and takes away its manifest or the digests in it."""
    manifest = read(project.at("dist/MANIFEST"))
    for name in FILES[:2]:
        data = read(project.at(name))
        for put, bad in (name, data[:-1] + b"#"), (name, b""), (FILES[2], manifest[: manifest.index(b"sha256")]), (FILES[2], b""):
            project.begin_anew()
            project.put(put, bad, 0o755)
            if name.endswith("reduce"):
                project.hold_reduce(f"another {put}", "build", CHECK_REDUCE, message=PROGRESS)
            else:
                project.hold_library(f"another {put}", "build", CHECK_LIBRARY, message=PROGRESS)


def hold_prove(project):
    """Proves from nothing where that is asked for, though dist/ is of the sources; other calls take dist/ again. What rt kept stays."""
    stamps = ["crates/table/out/stamp", "crates/reduce/out/stamp", "crates/terkwabu/out/stamp"]
    for name in stamps:
        project.put(name, b"")
    for what in "--prove", "--prove, again":
        for hold_one, calls in (project.hold_reduce, CHECK_REDUCE), (project.hold_library, CHECK_LIBRARY):
            hold_one(what, "build", from_nothing(calls), "--prove", message=PROGRESS)
    project.hold_reduce("without --prove", "dist", [])
    project.hold_library("without --prove", "dist", [])
    with changed(project):
        project.hold_reduce("changed sources", "build", CHECK_REDUCE, message=PROGRESS)
        project.hold_library("changed sources", "build", CHECK_LIBRARY, message=PROGRESS)
    hold("what rt kept", [name for name in stamps if not os.path.exists(project.at(name))], [])


# What fails.


def hold_failures(project):
    """Lets rt fail: nothing is printed, run or kept, and the next call tries again."""
    with changed(project):
        for what in "rt fails", "rt fails again":
            for verb, words in ("check", []), ("verdict", ["--prove"]):
                project.tell_stub("fails", verb)
                message = f"{PROGRESS}{FAILURE}reduce: the program is not proved, and nothing is run\n"
                project.hold_failure(what, "reduce", 2, message, [f"reduce: {verb}"], *words)
                message = f"{PROGRESS}{FAILURE}library: the library is not proved, and nothing is built\n"
                project.hold_failure(what, "library", 1, message, [f"terkwabu: {verb}"], *words)
            project.tell_stub("fails", "run")
            message = f"{PROGRESS}{FAILURE}reduce: the program is not built, and nothing is run\n"
            project.hold_failure(what, "reduce", 2, message, CHECK_REDUCE[:2])
            project.tell_stub("fails", "lib")
            message = f"{PROGRESS}{FAILURE}library: the library is not built\n"
            project.hold_failure(what, "library", 1, message, CHECK_LIBRARY[:2])
        hold("what is kept", os.listdir(project.at("build")), ["proving.log"])


def hold_programs(project):
    """Lets rt build a program that is stopped after its first line, and then none."""
    stopped = Did(2, b"", "reduce: the program was stopped, or its listing cannot be kept\n")
    project.tell_stub("reduce", "#!/bin/sh\necho regions 1\nkill -9 $$\n")
    hold_own("a program that is stopped", project.call("reduce", "--prove"), stopped)
    os.remove(os.path.join(project.stub, "reduce"))
    shutil.rmtree(project.at("crates/reduce/out"))
    hold_own("no program", project.call("reduce", "--prove"), Did(2, b"", "reduce: the program cannot be kept in build/\n"))


def hold_meanwhile(project):
    """Changes a source while rt proves: what was built may be of either text, and is not kept."""
    for name, status, calls, message in (
        ("reduce", 2, CHECK_REDUCE[:2], "a source changed meanwhile, and nothing is run"),
        ("library", 1, CHECK_LIBRARY[:2], "a source changed meanwhile, and nothing is built"),
    ):
        project.begin_anew()
        with changed(project):
            project.tell_stub("meanwhile")
            project.hold_failure("a change meanwhile", name, status, f"{PROGRESS}{name}: {message}\n", calls)
            hold(f"what is kept of ./{name}", os.listdir(project.at("build")), ["proving.log"])


def hold_missing(project):
    """Takes rt, and then gcc, from the PATH. What was proved before stays."""
    tools = link_tools("tools")
    missing = "rt (the Rattle kit) is not on the PATH"
    with changed(project):
        message = f"reduce: {missing}, and without it only the program of unchanged sources can be run\n"
        project.hold_failure("no rt", "reduce", 2, message, [], path=tools)
        message = f"library: {missing}, and without it only the library of unchanged sources can be built\n"
        project.hold_failure("no rt", "library", 1, message, [], path=tools)
        for words in [], ["--prove"]:
            project.hold_failure("no rt", "release", 1, f"release: {missing}\n", [], *words, path=tools)
    message = "library: gcc is missing, and without it there is no build/libterkwabu.so\n"
    project.hold_failure("no gcc", "library", 1, message, [], path=tools)
    project.hold_library("with gcc", "dist", [])
    done = Did(0, b"build/libterkwabu.a\nbuild/libterkwabu.so\n", "")
    hold("./library, no gcc and nothing to do for it", project.call("library", path=tools), done)


def hold_unreadable(project):
    """Puts a link among the sources, which is refused, since nobody sees a change of what it leads to; then takes the sources away."""
    os.mkdir(project.at("crates/table/src/out"))
    for link in "crates/table/must-fail/link", "crates/table/src/out/link", "crates/table/out":
        os.symlink("/dev/null", project.at(link))
        for name, status in SCRIPTS:
            message = f"{link}: a symbolic link among the sources\n{name}: the sources cannot be read\n"
            project.hold_failure("a link", name, status, message, [])
        os.remove(project.at(link))
    os.rmdir(project.at("crates/table/src/out"))
    os.rename(project.at("crates"), project.at("crates.away"))
    for name, status in SCRIPTS:
        project.hold_failure("no sources", name, status, f"{name}: the sources cannot be read\n", [])
    os.rename(project.at("crates.away"), project.at("crates"))


def hold_calls(project):
    """Calls ./library and ./release in wrong ways, and asks ./library how it is called."""
    for name in "library", "release":
        for words in ["all"], ["--prove", "all"], [""], ["--proved"]:
            project.hold_failure(str(words), name, 1, f"{name}: usage: {name} [--prove]\n", [], *words)
    for option in "-h", "--help":
        did = project.call("library", option)
        hold(f"./library {option}", did._replace(output=did.output.split(b"\n")[0]), Did(0, b"usage: library [--prove]", ""))


# dist/ itself.


def hold_no_release(project):
    """Leaves dist/ as it is where rt fails, or a source changes meanwhile."""
    before = [read(project.at(name)) for name in FILES]
    with changed(project):
        for told, word, calls, output, message in (
            ("fails", "check", RELEASE[:1], PROGRESS + FAILURE, "the sources are not proved, and dist/ stays as it is"),
            ("fails", "lib", RELEASE[:3], BOTH + FAILURE, "the library is not built"),
            ("fails", "run", RELEASE[:4], BOTH + FAILURE, "the program is not built"),
            ("meanwhile", "", RELEASE[:4], BOTH, "a source changed meanwhile; dist/ stays as it is"),
        ):
            project.tell_stub(told, word)
            project.hold_failure(message, "release", 1, f"{output}release: {message}\n", calls)
            project.tell_stub("fails")
            hold(f"dist/, {message}", [read(project.at(name)) for name in FILES], before)


def hold_release(project):
    """Writes dist/ anew, from nothing where that is asked for."""
    with changed(project):
        for words, calls in ([], RELEASE), (["--prove"], from_nothing(RELEASE)):
            did = project.call("release", *words)
            hold(f"./release {words}", (did, project.called()), (Did(0, project.manifest("build"), BOTH), calls))
            hold("dist/MANIFEST", read(project.at("dist/MANIFEST")), project.manifest("build"))
        project.hold_reduce("after ./release", "build", [])
        project.hold_library("after ./release", "build", [])


def hold_test(project):
    """Runs ./test where dist/ is of other sources, or of another version: it stops at once, and asks rt for no more than its version."""
    header = "include/terkwabu.h"
    other = re.sub(rb"(VERSION_MAJOR) \d+", rb"\1 77", read(project.at(header)))
    for name, data, message in (
        (SOURCE, read(project.at(SOURCE)) + COMMENT, "dist/ was built from other sources: run ./release"),
        (header, other, "dist/ is of another version than the header: run ./release"),
    ):
        with changed(project, name):
            project.put(name, data)
            did = project.call("test")
        hold(f"./test, {name} changed", (did.status, did.message), (1, ""))
        hold(f"./test, {name} changed: the last line", did.output.decode().rstrip("\n").endswith(f"FAILED: {message}"), True)
        hold(f"./test, {name} changed: a count", re.findall(r"\d+ passed", did.output.decode()), [])
        hold(f"./test, {name} changed: rt", [words for words in project.called() if words != "project: version"], [])


def hold_gate(project):
    """Lets `rt ci` fail, be stopped, end without its count or tell of bad edits, while the steps beside it go on: ./test stops then."""
    edits = "must-fail edits: 3 refused"
    some_bad = f"{edits}, 1 of them only by a limit, 10 bad"
    uncounted, beside = GATE[: GATE.index("4 passed")], "rt ci, or one of the steps beside it"
    unsure, bad, none = "rt ci did not pass: no line begins with rt: ok", "must-fail edits are bad: ", "rt ci ended without its count"
    project.put("tests/vectors/none.jsonl", b"")
    project.put("tests/vectors/SHA256SUMS", f"{digest(b'')}  none.jsonl\n".encode())
    for what, seconds, gate, ends, wanted in (
        ("a crate that is not proved", 60, "rt: FAILED: table\n4 passed, 1 failed\n", "1", [unsure, beside]),
        ("a status other than its count", 60, GATE, "1", [beside]),
        ("a gate that is stopped", 60, uncounted, "143", [none, beside]),
        ("no count", 60, uncounted, "0", [none, beside]),
        ("a count that is not the gate's", 60, GATE.replace("failed", "failed (table alone: not the gate)"), "0", [none, beside]),
        ("no line that says that all is well", 60, "rt: table proved\n4 passed, 0 failed\n", "0", [unsure, beside]),
        ("a bad edit", 60, GATE.replace(edits, f"{edits}, 1 bad"), "0", [bad + "1", beside]),
        ("bad edits, and one refused by a limit", 60, GATE.replace(edits, some_bad), "0", [bad + "10", beside]),
        ("a gate that passes, and then a step that fails", 1, GATE.replace(edits, f"{edits}, 0 bad"), "0", [beside]),
    ):
        project.put("tests/models/run", f"#!/bin/sh\nsleep {seconds}\nexit 1\n".encode(), 0o755)
        project.put("build/models/kept", b"")
        project.tell_stub("gate", gate)
        project.tell_stub("ends", ends)
        did = project.call("test")
        output = did.output.decode()
        hold(f"./test, {what}", (did.status, did.message, re.findall(r"FAILED: (?!table)(.*)", output)), (1, "", wanted))
        hold(f"./test, {what}: a count", re.findall(r"\d+ passed", output), [])
        hold(f"./test, {what}: rt", project.called(), ["project: version", "project: ci"])
        hold(f"./test, {what}: what is in build/", os.listdir(project.at("build")), ["models"])


STEPS = [hold_unchanged, hold_digest, hold_proved, hold_estimate, hold_replaced, hold_damaged, hold_prove]
STEPS += [hold_failures, hold_programs, hold_meanwhile, hold_missing, hold_unreadable, hold_calls]
STEPS += [hold_no_release, hold_release, hold_test, hold_gate]


def hold_sources():
    """Does all of this; returns how often a script was called."""
    project = Project()
    for step in STEPS:
        project.begin_anew()
        step(project)
    return sum(words[0].startswith(project.root) for words in CALLS)
