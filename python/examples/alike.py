#!/usr/bin/env python3
"""Are some locations of a model alike? A script to start from: it prints the blocks, proposes a partition, and has it judged.

    python3 python/examples/alike.py models/handover.model good-a=good-b weak-a=weak-b a-to-b=b-to-a

Each NAME=NAME says that two locations are meant to be alike. The proposal then relates regions whose clocks are the same and whose
locations are the same or meant to be alike. Where it is no bisimulation, the script looks for related regions that lie in different
blocks: these two can be told apart, whatever else is related. The exit status is 0 where the proposal is accepted.
"""

import subprocess
import sys
from pathlib import Path

PYTHON = Path(__file__).resolve().parents[1]
sys.path.insert(0, str(PYTHON))

import terkwabu  # noqa: E402, the line above says where it is

ASSEMBLE = PYTHON.parent / "models" / "assemble"


def location_names(text):
    """The names of the locations, location 0 first."""
    lines = (line.split() for line in text.splitlines())
    return [words[1] for words in lines if words[:1] == ["location"]]


def group_locations(names, pairs):
    """For each name the name that stands for all that are meant to be alike."""
    group = {name: name for name in names}
    for pair in pairs:
        left, equals, right = pair.partition("=")
        if not (equals and left in group and right in group):
            sys.exit(f"{pair} is not two locations of the model with '=' between them; they are {', '.join(names)}")
        group = {name: group[left] if its == group[right] else its for name, its in group.items()}
    return group


def propose(regions, names, group):
    """A number for each region: the same for regions that are meant to be alike."""
    numbers = {}
    meant = ((group[names[region.location]], region.clocks) for region in regions)
    return [numbers.setdefault(key, len(numbers)) for key in meant]


def told_apart(reduced, proposal):
    """Two regions that the proposal relates although their blocks differ, or None."""
    first = {}
    for region, number in enumerate(proposal):
        other = first.setdefault(number, region)
        if reduced.block_of[other] != reduced.block_of[region]:
            return other, region
    return None


def main(model, *pairs):
    names = location_names(Path(model).read_text())
    group = group_locations(names, pairs)
    table = subprocess.run([sys.executable, str(ASSEMBLE), model], check=True, stdout=subprocess.PIPE).stdout
    reduced = terkwabu.reduce(table)

    def shown(number):
        region = reduced.regions[number]
        return " ".join([names[region.location], *map(str, region.clocks)])

    print(f"{len(reduced.regions)} regions in {reduced.blocks} blocks")
    for number in range(reduced.blocks):
        block = reduced.block(number)
        print(f"block {number}, label {block.label}: {', '.join(map(shown, block.members))}")

    proposal = propose(reduced.regions, names, group)
    try:
        terkwabu.judge(table, proposal)
    except terkwabu.Refused as refusal:
        print(refusal)
        apart = told_apart(reduced, proposal)
        if apart:
            print(f"for instance {shown(apart[0])} and {shown(apart[1])} can be told apart")
        else:
            print("what it relates can never be told apart: relate more, and it is accepted")
        return 1
    print(f"accepted: the {len(set(proposal))} proposed groups are a bisimulation")
    return 0


if __name__ == "__main__":
    if len(sys.argv) < 2:
        sys.exit("usage: python3 python/examples/alike.py MODEL [NAME=NAME ...]")
    sys.exit(main(*sys.argv[1:]))
