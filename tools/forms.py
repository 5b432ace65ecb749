#!/usr/bin/env python3
"""Lists the places in crates/*/src that are written in an older form than Rattle has today, by eight points.

usage: tools/forms.py [-v] [-w] [crate ..]      -v prints each place; -w counts the other way, by the bodies of functions
docs/DESIGN-PASS.md says what each count means.
"""
import collections
import glob
import os
import re
import sys

ROOT = os.path.dirname(os.path.dirname(os.path.abspath(__file__)))
TYPES = r'\b(?:u8|u16|u32|u64|usize)\b'
WORDS = set('let mut if else while loop for in return match as true false self Self fn pub crate break continue ref move'.split())


def blank(text):
    """Takes ghost lines, contracts and comments out, line by line, so that places keep their line numbers."""
    out, depth, inside = [], 0, False
    for line in text.split('\n'):
        if not inside and re.match(r'\s+(requires|ensures)\b', line):
            inside, depth = True, 0
        if inside:
            depth += line.count('{') - line.count('}')
            inside = depth > 0
            out.append('')
        elif line.startswith('ghost use') or line.strip().startswith('//') or line.strip().startswith('ghost '):
            out.append('')
        else:
            out.append(re.sub(r'\s//.*', '', line))
    return '\n'.join(out)


class Function:
    def __init__(self, path, line, name, params, result, body):
        self.path, self.line, self.name, self.params, self.result, self.body = path, line, name, params, result, body

    def place(self):
        return '%s:%d %s' % (self.path, self.line, self.name)


def functions(path, text):
    found = []
    for m in re.finditer(r'(?m)^\s*(?:#\[[^\n]*\]\s*)?(?:pub(?:\(crate\))? )?(?:extern "C" )?fn (\w+)', text):
        i = text.index('(', m.end())
        depth, j = 0, i
        while True:
            depth += {'(': 1, ')': -1}.get(text[j], 0)
            j += 1
            if depth == 0:
                break
        k = text.find('{', j)
        if k < 0 or ';' in text[j:k]:
            continue
        depth, e = 0, k
        while True:
            depth += {'{': 1, '}': -1}.get(text[e], 0)
            e += 1
            if depth == 0:
                break
        params = [p.strip() for p in re.split(r',(?![^<\[(]*[>\])])', text[i + 1:j - 1]) if p.strip()]
        found.append(Function(path, text.count('\n', 0, m.start(1)) + 1, m.group(1), params, text[j:k].strip(), text[k:e]))
    return found


def shape_of(f):
    """The body with its own names, numbers, constants and types taken out, so that twins have one shape."""
    names = {}
    for p in f.params:
        names[p.split(':')[0].strip().replace('mut ', '').strip('&')] = None
    for m in re.finditer(r'\blet (?:mut )?(\w+)', f.body):
        names[m.group(1)] = None
    text = re.sub(TYPES, 'T', f.body)
    text = re.sub(r'\b\d+\b', 'N', text)
    text = re.sub(r'\b[A-Z][A-Z_0-9]+\b', 'N', text)
    order = {}

    def turn(m):
        w = m.group(0)
        return 'v%d' % order.setdefault(w, len(order)) if w in names else w
    return re.sub(r'\b\w+\b', turn, re.sub(r'\s+', ' ', text))


def grep(files, pattern):
    return ['%s:%d %s' % (p, n, line.strip()) for p, t in files for n, line in enumerate(t.split('\n'), 1) if re.search(pattern, line)]


def enums(files, pattern):
    found = []
    for p, t in files:
        for m in re.finditer(r'(?m)^\s*(?:pub(?:\(crate\))? )?enum (\w+)[^{]*\{(.*?)^\}', t, re.S):
            if re.search(pattern, m.group(2)):
                found.append('%s:%d %s' % (p, t.count('\n', 0, m.start(1)) + 1, m.group(1)))
    return found


def counts(files, whole):
    fs = [f for p, t in files for f in functions(p, t)]
    rows = collections.OrderedDict()
    rows['1a enums of the shape of Option or Result'] = enums(files, r'\b(Refused|Nothing|Full|Unseen|Unknown|Short|Cut)\b')
    rows['1b structs with a flag beside a value'] = grep(files, r'^\s*pub (any|full|hit|found|some): bool')
    rows['1c refusals by a number'] = grep(files, r'Refused\(\d+|\bnumber: \d+,')
    rows['1d kinds by a number'] = grep(files, r'^\s*(pub )?(kind|stage|comparison): u8,?$|\bkind: u8[,)]|^(pub(\(crate\))? )?const (AT_|IN_|BROKEN|MET|VISITED)\w*: u8')
    by = collections.defaultdict(list)
    for f in fs:
        if len(f.body) > 12:
            by[(shape_of(f))].append(f)
    rows['2 twins: functions whose bodies have one shape'] = [f.place() for g in by.values() if len(g) > 1 for f in g]
    rows['3a loops by while or loop'] = grep(files, r'^\s*(while|loop)\b(?! let)')
    rows['3b an index counted by hand'] = grep(files, r'^\s*(\w+) (= \1 [+-]|[+-]=) 1;')
    rows['4a conversions by a function'] = [f.place() for f in fs if re.fullmatch(r'\{\s*\w+ as ' + TYPES + r'\s*\}', f.body)]
    rows['4b the smaller or larger by an if'] = grep(files, r'if (\w+) <=? (\w+) \{ (\1|\2) \} else \{ (\1|\2) \}')
    rows['4c equality by hand'] = [f.place() for f in fs if f.name.startswith('same_')]
    rows['4d fields that repeat their names'] = grep(files, r'^\s*(\w+): \1,?$')
    rows['4e truth values by two branches'] = grep(files, r'\{ (true|false) \} else|else \{ (true|false) \}|\{ 1 \} else \{ 0 \}')
    rows['5 functions of more than eight parameters'] = [f.place() for f in fs if len(f.params) > 8]
    rows['6 reading or storing by a test of the length'] = [f.place() for f in fs if re.match(r'\{\s*if \w+ < \w+(\.len\(\)|\b) \{', f.body) and len(f.body) < 140]
    rows['7 switches on a number'] = grep(files, r'^\s*\d+( \| \d+)* =>')
    if whole:
        rows = collections.OrderedDict()
        rows['1 functions that answer a type of the shape of Option or Result'] = [f.place() for f in fs if re.search(r'-> \(?(Reading|Step|Verdict|Moved|Lookup|Met|Graph|Checked|Sight|Placing|Interned|Gathered|Search|Reduction|Pairing|Judgement|Showing)\b', f.result)]
        rows['2 functions with the shape and the parameters of another'] = [f.place() for g in by.values() if len({(len(f.params)) for f in g}) < len(g) for f in g]
        rows['3 functions with a while or a loop'] = [f.place() for f in fs if re.search(r'\b(while (?!let)|loop \{)', f.body)]
        rows['4 casts where the type widens'] = grep(files, r'\bas (u64|usize|u16|u32)\b')
        rows['5 functions of more than six parameters'] = [f.place() for f in fs if len(f.params) > 6]
    return rows


def main():
    args = [a for a in sys.argv[1:] if not a.startswith('-')]
    names = args or [line.split(':')[0].split()[0] for line in open(os.path.join(ROOT, 'crates.txt')) if line.strip() and not line.startswith('#')]
    files = []
    for name in names:
        for p in sorted(glob.glob(os.path.join(ROOT, 'crates', name, 'src', '*.rt'))):
            files.append((os.path.relpath(p, ROOT), blank(open(p).read())))
    for row, places in counts(files, '-w' in sys.argv).items():
        print('%5d  %s' % (len(places), row))
        if '-v' in sys.argv:
            for p in places:
                print('         ' + p)


main()
