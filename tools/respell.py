#!/usr/bin/env python3
"""Brings the repository's own definitions and lemmas to snake case.

usage: python3 tools/respell.py        at the top of the repository, once, after Rattle's own port.py

A name that begins with a small letter and has a capital after a small letter or digit is respelled, as in `fractionOf`, which becomes
`fraction_of`. A capital after a dash or an underscore is a type's and stays, and so do types, modules, strings, the names that the files
import from outside this repository, and everything in a source that is Rattle and no clause: there all names are in snake case already. A
lemma that would get the name of the definition that it is about gets `_lem` at its end.
"""

import os
import re
import sys

TOKEN = re.compile(r"[^\s(){}\[\];,.⌜⌝@\"`:/*|<>=!?&+]+")
CAMEL = re.compile(r"^[a-z][A-Za-z0-9₀-₉_'\-]*$")
LEMMAS = {
    "some_below": ("bisimulation", "Laws.Tests"),
    "told_at": ("comparison", "Laws.Codes"),
    "refused_as": ("terkwabu", "Laws.Listing"),
}
HUMP = re.compile(r"(?<=[a-z0-9₀-₉'])([A-Z])")
OURS = re.compile(r"^Rattle\.(\w+)")
USE = re.compile(r"^\s*(?:pub |ghost )*use ([^{\s;]+?)\.?(?:\{([^}]*)\})?;?\s*$")


def files(root, endings):
    for folder, dirs, names in os.walk(root):
        dirs[:] = sorted(d for d in dirs if d not in ("out", ".git", "build", "target"))
        for name in sorted(names):
            if name.endswith(endings):
                yield os.path.join(folder, name)


def read(path):
    with open(path, encoding="utf-8") as f:
        return f.read()


def respelled(name):
    if not CAMEL.match(name):
        return name
    return HUMP.sub(lambda m: "_" + m.group(1).lower(), name)


def imported_from_outside(paths, crates):
    outside = set()
    for path in paths:
        for line in read(path).splitlines():
            m = USE.match(line)
            if not m or not m.group(2):
                continue
            ours = OURS.match(m.group(1))
            if ours and ours.group(1) in crates:
                continue
            for item in m.group(2).split(","):
                outside.add(item.split(" as ")[0].strip())
                outside.add(item.split(" as ")[-1].strip())
    return outside


def sees(path, text, name, crate, module):
    own = f"crates/{crate}/specs/{module.replace('.', '/')}.antt"
    uses = re.search(rf"Rattle\.{crate}\.specs\.{re.escape(module)}\.\{{([^}}]*)\}}", text)
    return path == own or bool(uses) and name in [item.strip() for item in uses.group(1).split(",")]


def main():
    crates = set(os.listdir("crates"))
    sources = list(files("crates", (".rt", ".antt")))
    keep = imported_from_outside(sources, crates)
    texts = {p: read(p) for p in sources}
    tokens = {p: set(TOKEN.findall(t)) for p, t in texts.items()}
    everywhere = set().union(*tokens.values())
    new = {t: respelled(t) for t in everywhere if t not in keep and respelled(t) != t}
    for p, found in tokens.items():
        for t in sorted(found & new.keys()):
            if new[t] in found:
                print(f"look: {p}: {t} and {new[t]} stand side by side")
    by_new = {}
    for t, n in new.items():
        by_new.setdefault(n, []).append(t)
    for n, olds in sorted(by_new.items()):
        if len(olds) > 1:
            print(f"look: {', '.join(sorted(olds))} all become {n}")
    pages = [p for p in files(".", (".md",)) if not p.startswith("./crates")]
    changed = 0
    for p in sources + pages:
        text = texts.get(p) or read(p)
        lemmas = {name: name + "_lem" for name, of in LEMMAS.items() if sees(p, text, name, *of)}
        turned = TOKEN.sub(lambda m: lemmas.get(m.group(0)) or new.get(m.group(0), m.group(0)), text)
        if turned != text:
            with open(p, "w", encoding="utf-8") as f:
                f.write(turned)
            changed += 1
    print(f"respelled: {len(new)} names, {changed} files")


if __name__ == "__main__":
    sys.exit(main())
