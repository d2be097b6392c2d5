#!/usr/bin/env python3
"""Lists and counts, in crates/*/src, the places that docs/DESIGN-PASS.md speaks of.

    python3 tools/places.py            the counts
    python3 tools/places.py -l         and each place
    python3 tools/places.py -l 3a 6b   and each place of these kinds

A pattern finds candidates; the page says which of them are places."""
import collections
import glob
import os
import re
import sys

ROOT = os.path.dirname(os.path.dirname(os.path.abspath(__file__)))

KINDS = [
    ("1a", "own enums", r"^ *(pub(\(\w+\))? )?enum \w+"),
    ("1b", "flags in a struct or beside a value", r"^ *(pub(\(\w+\))? )?\w+: bool,"),
    ("1c", "quantifiers as numbers", r"quantifier\w*\(.*\) (==|!=) \d|\bfn quantifier\(.*u16|\bq: u16|latest: u16|open_block\(\d\)"),
    ("1d", "errors passed on or exchanged in a match", r"Err\(\w*\) => (return )?Err\(|Ok\((\w+)\) => Ok\(\w+\)|if let Err\("),
    ("2a", "functions of one name in several crates or impls", None),
    ("3a", "loops over numbers", r"\bfor \w+ in .*\.\."),
    ("3b", "while loops", r"\bwhile\b.*\{"),
    ("3c", "loops that return early or only write one value", None),
    ("3d", "places asked for by a test of the length", r"if \w+ < \w+(\.\w+)*\.len\(\) \{ "),
    ("4a", "equality, emptiness, numbers and names by hand", r"\bfn (same|is_empty|is_digit|word|pair_count|named|\w+_number)\b"),
    ("4b", "casts by as", r" as (usize|u8|u16|u32|u64|char)\b"),
    ("4c", "types with few derives", r"#\[derive\(Clone, Copy\)\]|#\[derive\(Drop\)\]"),
    ("5a", "clauses that stand three times or more", None),
    ("5b", "the buffer and the place in it", r"out: &mut \[u8\],? ?(at|start): usize|^ *at: usize,$"),
    ("5c", "docket and offset, or bytes and place", r"docket: &(\'a )?\[u8\], (at|place): usize|bytes: &\[u8\], (at|place): usize|rest: &\[u8\], at: usize"),
    ("5d", "literal cells and end cells", r"(literals|cells): &(\'a )?(mut )?\[u16\],\s+ends: &"),
    ("6a", "arrays in a struct", r"^ *(pub(\(\w+\))? )?\w+: \[.*\],$"),
    ("6b", "arrays beside a length", r"let mut \w*(cells|place)\w* = \[0u16; 512\]"),
    ("7a", "matches that choose a step", r"match (self\.stage|map|call|claim|line|next\.\w+) \{"),
]


def sources():
    for path in sorted(glob.glob(os.path.join(ROOT, "crates/*/src/**/*.rt"), recursive=True)):
        yield os.path.relpath(path, os.path.join(ROOT, "crates")), open(path).read()


def line_of(text, at):
    return text.count("\n", 0, at) + 1


def found(kind, pattern):
    places = []
    if pattern is not None:
        for path, text in sources():
            for m in re.finditer(pattern, text, re.M):
                places.append((path, line_of(text, m.start()), " ".join(m.group(0).split())))
    elif kind == "2a":
        names = collections.defaultdict(list)
        for path, text in sources():
            if "_tests/" in path:
                continue
            for m in re.finditer(r"\bfn (\w+)", text):
                names[m.group(1)].append((path, line_of(text, m.start())))
        for name, at in sorted(names.items()):
            if len(at) > 1:
                places += [(p, n, "fn " + name) for p, n in at]
    elif kind == "3c":
        for path, text in sources():
            for m in re.finditer(r"^( *)for [^\n]*\{\n(.*?)^\1\}\n", text, re.M | re.S):
                body = m.group(2)
                if "return" in body or body.count(";") == 1:
                    places.append((path, line_of(text, m.start()), " ".join(m.group(0).split("\n")[0].split())))
    elif kind == "5a":
        clauses = collections.defaultdict(list)
        for path, text in sources():
            for m in re.finditer(r"^ +(requires|ensures)( \w+)? \{(.*)\};?$", text, re.M):
                clauses[(m.group(1), m.group(3).strip())].append((path, line_of(text, m.start())))
        for (word, clause), at in sorted(clauses.items()):
            if len(at) > 2:
                places += [(p, n, word + " " + clause) for p, n in at]
    return places


def main():
    args = sys.argv[1:]
    listed = "-l" in args
    chosen = [a for a in args if a != "-l"]
    for kind, what, pattern in KINDS:
        if chosen and kind not in chosen:
            continue
        places = found(kind, pattern)
        tests = sum("_tests/" in p for p, _, _ in places)
        print(f"{kind}  {len(places):3}  ({tests} in tests)  {what}")
        if listed:
            for path, line, text in places:
                print(f"        {path}:{line}: {text}")


main()
