#!/usr/bin/env python3
"""Respells the repository's own definitions and lemmas: words in snake case, facts in camel case.

Run once at the top of the repository, on what port.py left. Functions of src/, strings, inputs and
outputs keep their names. With --check it only says which new names meet a name that is there already.
"""
import glob
import re
import sys

# a name of small words with capitals inside, up to a dash: toChain, andThen-ok
CAMEL = re.compile(r"(?<![A-Za-z0-9_'\"«])([a-z][a-z0-9_]*[A-Z][A-Za-z0-9]*)")

# facts, which are spelled as types, and a function that was spelled as one
OTHERS = {
    'denseRegion': 'DenseRegion',
    'tickedRegion': 'TickedRegion',
    'Four': 'four_of',
}

# a module keeps its name: a path's next part, or a line that declares it
FOUR = re.compile(r"(?<![A-Za-z0-9_'.\-])Four(?![A-Za-z0-9_'\-])(?!\.)")


def snake(name):
    return re.sub(r'([A-Z])', lambda m: '_' + m.group(1).lower(), name)


def respell(line):
    if re.match(r'\s*(pub )?mod ', line):
        return line
    line = CAMEL.sub(lambda m: OTHERS.get(m.group(1)) or snake(m.group(1)), line)
    return FOUR.sub(OTHERS['Four'], line)


def spells(path, text):
    """The lines of a source that may hold names of specs/ and proofs/."""
    if path.endswith('.antt'):
        return [True] * (text.count('\n') + 1)
    return [bool(re.match(r'\s*(ghost |requires|ensures|pub ghost )', l)) for l in text.split('\n')]


def main():
    paths = sorted(glob.glob('crates/*/specs/**/*.antt', recursive=True)
                   + glob.glob('crates/*/proofs/**/*.antt', recursive=True)
                   + glob.glob('crates/*/src/**/*.rt', recursive=True))
    texts = {p: open(p, encoding='utf-8').read() for p in paths}
    if '--check' in sys.argv:
        words = set()
        for t in texts.values():
            words.update(re.findall(r"[A-Za-z_][A-Za-z0-9_'\-]*", t))
        news = {}
        for p, t in texts.items():
            for m in CAMEL.finditer(t):
                news[m.group(1)] = OTHERS.get(m.group(1)) or snake(m.group(1))
        for old, new in sorted(news.items()):
            if new in words:
                where = [p for p, t in texts.items()
                         if re.search(r"(?<![A-Za-z0-9_'\-])" + re.escape(new) + r"(?![A-Za-z0-9_'\-])", t)]
                print(old, '->', new, 'stands already in', ' '.join(where[:6]))
        return
    for p, t in texts.items():
        lines = t.split('\n')
        flags = spells(p, t)
        new = '\n'.join(respell(l) if f else l for l, f in zip(lines, flags))
        if new != t:
            open(p, 'w', encoding='utf-8').write(new)


main()
