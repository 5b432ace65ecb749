#!/usr/bin/env python3
"""Turns outside vectors into runs of the host program, with the output and the exit status that they must have.

usage: expected.py VECTORS FOLDER [COUNT]

Of each call COUNT lines are taken (40 if it is not given), half of them refused, spread over all lines of that call in the files of
VECTORS. Their tables, proposals and expected outputs are written into FOLDER; standard output gets one line a run: its name, the exit
status, and the arguments of the host.

The host always lends the most: a vector that is refused because it lends less would get another answer from it, and is left out. So is
one that gives only a SHA-256 of what the host would print.
"""

import json
import pathlib
import sys

MOST_ENTRY_BYTES = 4096 * 9


def depends_on_lend(ask, answer):
    """Whether the vector is refused since too little was lent; of lists none lends 4,096 numbers or more where it is refused with 16."""
    number = answer["refused"][0] if "refused" in answer else 0
    return number == 16 or number == 15 and ask["entries"] < MOST_ENTRY_BYTES


def refusal(answer):
    return "refused {} place {}\n".format(*answer["refused"])


def pair(ask, answer):
    return ask["asked"], "shared\n" if answer["result"] else "not shared\n"


def place(ask, answer):
    return ask["state"], "region {}\n".format(answer["result"])


def judge(ask, answer):
    assert answer["result"] is True
    return [], "accepted\n"


def reduce(ask, answer):
    regions, blocks, rounds = answer["result"]
    lines = ["regions {} blocks {} rounds {}".format(regions, blocks, rounds)]
    return [], "".join("{}\n".format(line) for line in lines + answer["list1"][:regions])


# The command of the host for each call, and what makes the rest of its arguments and its output of a result. The listing gives its
# output itself, and the host has no command for the graph.
COMMANDS = {"pair": ("pair", pair), "place": ("place", place), "judge": ("judge", judge), "partition": ("reduce", reduce)}
KNOWN_CALLS = {*COMMANDS, "listing", "graph"}


def every_line(vectors):
    """Reads the lines of all files, which may mix calls: file and line of each, what is asked, and the answer."""
    for path in sorted(vectors.glob("*.jsonl")):
        with open(path, encoding="utf-8") as lines:
            for number, line in enumerate(lines, start=1):
                vector = json.loads(line)
                yield "{}, line {}".format(path.name, number), vector["ask"], vector["answer"]


def lines_by_call(vectors):
    """Sorts what is asked, with the answer, by call. Stops at a call that is not known, which would go untested."""
    found = {call: [] for call in KNOWN_CALLS}
    for where, ask, answer in every_line(vectors):
        if ask["call"] not in found:
            sys.exit("{}: unknown call {}".format(where, ask["call"]))
        found[ask["call"]].append((ask, answer))
    return found


def runs_of(call, lines):
    """Yields the lines of a call that the host can be held to: table, arguments, output and status of each, and the proposal or None."""
    command, text_of = COMMANDS[call]
    for ask, answer in lines:
        if depends_on_lend(ask, answer) or call == "partition" and "result" in answer and "list1" not in answer:
            continue
        if "refused" in answer:
            rest = {"pair": ask.get("asked"), "place": ask.get("state")}.get(call) or []
            yield ask["table"], command, rest, refusal(answer), 1, ask.get("proposal")
        else:
            rest, text = text_of(ask, answer)
            yield ask["table"], command, rest, text, 0, ask.get("proposal")


def runs_of_listings(lines):
    """Yields the same of the listings. None lends as many entries as the host, so that 15 depends on the lend."""
    for ask, answer in lines:
        if "text_sha256" in answer or answer["text"].startswith("refused 15 "):
            continue
        yield ask["table"], "list", [], answer["text"], int(answer["text"].startswith("refused")), None


def spread(items, count):
    """So many of the items, or all if they are fewer, at even distances."""
    return [items[i * len(items) // count] for i in range(count)] if len(items) > count else items


def some(runs, count):
    """So many of the runs, half of them refused; more that are done where fewer are refused."""
    refused = spread([run for run in runs if run[4] == 1], count // 2)
    return spread([run for run in runs if run[4] == 0], count - len(refused)) + refused


def write_run(folder, name, run):
    table, command, rest, text, status, proposal = run
    (folder / (name + ".table")).write_bytes(bytes.fromhex(table))
    (folder / (name + ".expected")).write_bytes(text.encode("ascii"))
    arguments = [command, folder / (name + ".table")] + rest
    if proposal is not None:
        # Blanks and line ends both part the numbers.
        numbers = "".join("{}{}".format(number, " " if i % 7 else "\n") for i, number in enumerate(proposal))
        (folder / (name + ".proposal")).write_text(numbers, encoding="ascii")
        arguments.append(folder / (name + ".proposal"))
    print(name, status, *arguments)


def main(vectors, folder, count=40):
    lines = lines_by_call(vectors)
    runs = {call: list(runs_of(call, lines[call])) for call in COMMANDS}
    runs["listing"] = list(runs_of_listings(lines["listing"]))
    for call, found in runs.items():
        for i, run in enumerate(some(found, count)):
            write_run(folder, "{}-{:02}".format(call, i), run)


if __name__ == "__main__":
    if len(sys.argv) not in (3, 4):
        sys.exit(__doc__)
    main(pathlib.Path(sys.argv[1]), pathlib.Path(sys.argv[2]), *map(int, sys.argv[3:]))
