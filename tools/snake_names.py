#!/usr/bin/env python3
"""Turns this repository's own definitions and lemmas from hyphens to today's spelling: words in snake case, types and propositions in camel case.

usage: python3 tools/snake_names.py        at the top, once, right after port.py

Names of the kit, generated names in answers (goals, labels, fields of a walk), functions of src/, strings and comments stay.
It stops, and writes nothing, where two names would fall together.
"""

import collections
import os
import re
import sys

LETTER = r"[A-Za-zα-ωΑ-Ω_]"
NAME = re.compile(LETTER + r"[\w'₀-₉]*(?:-[\w'₀-₉]+)+")
STRING = re.compile(r'"(?:[^"\\]|\\.)*"')
COMMENT = re.compile(r"(?:^|(?<=\s))(?:--|//)")
KIT = re.compile(r"use (?:Rattle\.(?:std|core)|mathlib|lib|native|base|Prim)[\w.+]*\.\{([^}]*)\}")
WALKS = ("Answers.antt", "Invariants.antt", "Proof.antt")
# names that held a word of the older library
ODD = {"getD-in": "get_or_in", "getD-mapped": "get_or_mapped", "sumBy-reverse": "sum_by_reverse"}
# a proposition that the kit's script turned as if it were a lemma
HALF = {"Goes_on": "GoesOn"}


def files():
    for root, dirs, names in os.walk("crates"):
        dirs[:] = sorted(d for d in dirs if d != "out")
        for n in sorted(names):
            if n.endswith((".antt", ".rt")):
                yield os.path.join(root, n)


def cut(line):
    """The line in pieces: code, and what is no code (strings, the comment)."""
    pieces, at = [], 0
    while at < len(line):
        s, c = STRING.search(line, at), COMMENT.search(line, at)
        m = min([x for x in (s, c) if x], key=lambda x: x.start(), default=None)
        if m is None:
            pieces.append((True, line[at:]))
            break
        pieces.append((True, line[at : m.start()]))
        if m is c:
            pieces.append((False, line[m.start() :]))
            break
        pieces.append((False, m.group(0)))
        at = m.end()
    return pieces


def spelled(name):
    if name in ODD:
        return ODD[name]
    parts = name.split("-")
    if parts[0][0].isupper():
        return parts[0] + "".join(p[0].upper() + p[1:] for p in parts[1:])
    return "_".join(parts)


def turned(piece, to, by_recursion):
    if by_recursion:
        piece = re.sub(r"(?<![\w'.-])All(?![\w'-])", "AllByRecursion", piece)
    piece = NAME.sub(lambda m: to.get(m.group(0), m.group(0)), piece)
    for half, whole in HALF.items():
        piece = re.sub(rf"\b{half}\b", whole, piece)
    return piece


def main():
    texts = {p: open(p, encoding="utf-8").read() for p in files()}
    kit, own, words = set(), set(), collections.Counter()
    for p, t in texts.items():
        for m in KIT.finditer(t):
            kit |= {re.split(r"\s+as\s+", n.strip())[0] for n in m.group(1).split(",")}
        for line in t.split("\n"):
            for is_code, piece in cut(line):
                if not is_code:
                    continue
                words.update(re.findall(LETTER + r"[\w'₀-₉-]*", piece))
                if os.path.basename(p) not in WALKS:
                    own |= set(NAME.findall(piece))
    own -= kit
    to = {n: spelled(n) for n in own}
    back = collections.defaultdict(list)
    for n, s in to.items():
        back[s].append(n)
    twice = {s: ns for s, ns in back.items() if len(ns) > 1}
    if twice:
        sys.exit(f"these fall together: {twice}")
    for s in sorted(set(back) & set(words)):
        print(f"look: {back[s][0]} becomes {s}, which stands already")
    for p, t in texts.items():
        # the kit's script imports this under a name that means something else in the kit, which the gate refuses
        by_recursion = "AllByRecursion as All" in t
        lines = []
        for line in t.replace("AllByRecursion as All", "AllByRecursion").split("\n"):
            lines.append("".join(turned(piece, to, by_recursion) if is_code else piece for is_code, piece in cut(line)))
        new = "\n".join(lines)
        if new != t:
            with open(p, "w", encoding="utf-8") as f:
                f.write(new)
    pages = ["README.md"] + [os.path.join("docs", d) for d in sorted(os.listdir("docs"))]
    for p in pages:
        if not p.endswith(".md"):
            continue
        t = open(p, encoding="utf-8").read()
        known = lambda n: to.get(n) or (spelled(n) if spelled(n) in words else n)
        new = re.sub(r"`[^`\n]+`", lambda m: NAME.sub(lambda k: known(k.group(0)), m.group(0)), t)
        if new != t:
            with open(p, "w", encoding="utf-8") as f:
                f.write(new)
    print(f"{len(own)} names respelled")


main()
