#!/usr/bin/env python3
"""Counts the places in crates/*/src that look like an older language, by patterns, point by point.

    python3 tools/places.py [COMMIT] [-l]     of a commit, or of the files as they are; -l lists the places

docs/DESIGN-PASS.md says what each point is about, and which of the hits are none.
"""
import collections
import glob
import re
import subprocess
import sys

POINTS = {
    "1a a variant that stands for none, wrong or refused": r"^\s+((Bad|Unknown|Over|Fits|No|Yes),$|Refused\(u8)",
    "1b a bool for whether something was filled in": r"fn \w+(<[^>]*>)?\([^)]*&mut (String|Vec)[^)]*\) -> bool",
    "1c a number for a kind or a refusal": r"\bkind: (u8|0|if\b)|const (ELAPSE|DISCRETE)\b|\.kind [!=]= |fn told\(number|fn (number|refused)\(self|\.(number|refused)\(\)",
    "2a a function or type of one name in two crates or types": None,
    "2b a line written out for four clocks": r"let \[\w, \w, \w, \w\] = |^\s+\w+\([^)]*\b3\b[^)]*\),$",
    "2c a constant of one name in two crates": None,
    "3a a while loop that counts or cuts": r"\bwhile (i > 0|!rest\.is_empty\(\))",
    "3b a for over indices that reads or writes at the index": None,
    "3c a counter beside a loop": r"\b((?:\w+\.)*\w+) = \1\.saturating_add\(1\)|\b(i|count|number) [+-]= 1",
    "4a equality or order by hand": r"fn (same\w*|compares?|compare)\(",
    "4b conversion by hand": r"fn (refused|number)\(self|fn (of|code_of|word_of|ticks_of|digit_of|hex_of|section_of)\(|=> Ok\((bytes|text|words|numbers|model|parts|halves|word)\)|Err\(_?\w*\) => Err\(Failure",
    "4c printing by hand": r"fn (print_clock|tell_clock|tell_ticks|say_place|say_same|say_number|say_bytes|say_truth|say_fault)\(",
    "4d a look into an array with a test of the index": r"if (clock|variable|i) < (4|8|sizes\.variables) \{",
    "5a parameters that travel together": None,
    "5b a requires that stands three times or more": None,
    "6 a buffer with a length beside it": r"(counts|resets): \[(u8|Span); [48]\]|first: \[u32; 3\]|let mut (numbers|counts) = \[0u\d+; \d\]|count: usize|let mut count = 0",
    "7 a switch on which step to run": r"match (kind|said\.kind|case\.kind) \{|if dense \{|if whole \{|(walk|trials)_dense|(walk|trials)_ticked|dense_chain|ticked_chain",
}

GROUPS = [
    ("bytes", "model"),
    ("values", "next"),
    ("rest", "sizes", "section"),
    ("rest", "clocks", "section"),
    ("left", "end", "sizes"),
    ("answer", "case"),
    ("answer", "kind", "clocks"),
    ("rt", "kind", "clocks"),
    ("record", "model"),
]


def sources(commit):
    if commit:
        names = subprocess.run(["git", "ls-tree", "-r", "--name-only", commit, "crates"], capture_output=True, text=True, check=True).stdout.split()
        for name in names:
            if re.fullmatch(r"crates/\w+/src/\w+\.rt", name):
                yield name, subprocess.run(["git", "show", f"{commit}:{name}"], capture_output=True, text=True, check=True).stdout
    else:
        for name in sorted(glob.glob("crates/*/src/*.rt")):
            yield name, open(name).read()


def functions(text):
    for found in re.finditer(r"\bfn (\w+)(<[^>]*>)?\(([^)]*)\)", text):
        names = re.findall(r"(\w+):", found.group(3))
        yield found.start(), found.group(1), names


def line(text, at):
    return text.count("\n", 0, at) + 1


def main():
    words = [w for w in sys.argv[1:] if w != "-l"]
    listing = "-l" in sys.argv
    texts = dict(sources(words[0] if words else None))
    places = collections.defaultdict(list)
    for name, text in texts.items():
        for point, pattern in POINTS.items():
            if not pattern:
                continue
            for found in re.finditer(pattern, re.sub(r"\n\s+(?=[^\n]*(?::|\)))", lambda m: m.group(0), text), re.M):
                places[point].append(f"{name}:{line(text, found.start())} {found.group(0).strip()}")
    # names in two crates, or at two types; methods that a trait asks for and those of tests do not count
    by_name = collections.defaultdict(set)
    asked = set()
    for name, text in texts.items():
        for body in re.findall(r"pub trait \w+[^{]*\{(.*?)\n\}", text, re.S):
            asked |= set(re.findall(r"\bfn (\w+)", body))
    asked |= {"main", "fmt", "from", "try_from", "next", "fn"}
    for name, text in texts.items():
        crate = name.split("/")[1]
        plain = re.sub(r"#\[test\]\nfn \w+", "", re.sub(r"//.*", "", text))
        for at, function, _ in functions(plain):
            if function not in asked:
                by_name[function].add(name)
        for kind in re.findall(r"\b(?:struct|enum) (\w+)", plain):
            by_name[kind].add(name)
        for constant in re.findall(r"^\s*(?:pub(?:\(super\))? )?const (\w+):", plain, re.M):
            by_name["const " + constant].add(name)
    for word, files in sorted(by_name.items()):
        if len(files) > 1:
            point = "2c a constant of one name in two crates" if word.startswith("const ") else "2a a function or type of one name in two crates or types"
            places[point].append(f"{word}: {' '.join(sorted(files))}")
    for name, text in texts.items():
        for found in re.finditer(r"for (\w+) in \(?0\.\.[^\n]*\{\n(.*?)\n    \}", text, re.S):
            if re.search(r"\[%s(?: as usize)?\]" % found.group(1), found.group(2)):
                places["3b a for over indices that reads or writes at the index"].append(f"{name}:{line(text, found.start())} for {found.group(1)}")
    for group in GROUPS:
        hits = [f"{name}:{line(text, at)} {function}" for name, text in texts.items() for at, function, names in functions(text) if set(group) <= set(names)]
        if len(hits) >= 3:
            places["5a parameters that travel together"] += [f"{'+'.join(group)}: {hit}" for hit in hits]
    clauses = collections.defaultdict(list)
    for name, text in texts.items():
        for found in re.finditer(r"^\s*requires (?:\w+ )?(\{.*\})$", text, re.M):
            clauses[(name.split("/")[1], found.group(1))].append(f"{name}:{line(text, found.start())}")
    for (crate, clause), hits in clauses.items():
        if len(hits) >= 3:
            places["5b a requires that stands three times or more"] += [f"{hit} {clause}" for hit in hits]
    for point in POINTS:
        print(f"{len(places[point]):4} {point}")
        if listing:
            for place in places[point]:
                print("        " + place)


main()
