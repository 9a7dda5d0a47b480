#!/usr/bin/env python3
"""Brings this repository's own definitions and lemmas to the spelling of today's Rattle.

usage: python3 tools/port-names.py [--list]      once, at the top, after port.py

Words are in snake case; a dash stays only where it joins two names, as in size-node; types, modules and functions of
src/ keep their names. Every name that is declared in specs/ or proofs/ and is spelled otherwise gets its new spelling
wherever it stands in crates/: in specs, proofs, clauses and must-fail edits. Two names that would fall together are
listed, and nothing is written. --list prints old and new names, and writes nothing.
"""
import collections
import glob
import re
import sys

TOKEN = re.compile(r"[^\s(){}\[\],;.:\"«»|/*#!?`]+")
SIGNED = re.compile(r"(?m)^\s*(?:\| )?((?:abbrev |unfoldable |pub |record |data |let )*)([^\s:(){},.]+)(?: [({][^)}]*[)}])* : ")
LISTED = re.compile(r"(?m)^\s*\| ([^\s:(){},.]+) : ")

# names that two rules would send to one, or that a word of the library has
BY_HAND = {"treeCD": "tree_cd", "is_some": "some_is", "last_line": "last_line_lem", "node_row": "node_row_lem", "old_row": "old_row_lem"}
APART = {"after_run", "goes_on", "one_more", "walk_from"}
OF_STD = {"length", "append", "take", "drop", "set", "get_or", "sum", "replicate"}


def files():
    for kind in ("antt", "rt", "edit"):
        for p in sorted(glob.glob("crates/**/*." + kind, recursive=True)):
            if "/out/" not in p:
                yield p


def snake(word):
    return re.sub(r"(?<=[a-z0-9])([A-Z])", lambda m: "_" + m.group(1).lower(), word)


def main():
    texts = {p: open(p, encoding="utf-8").read() for p in files()}
    declared, functions = set(), set()
    for p, t in texts.items():
        if not p.endswith(".antt") or p.endswith("/Proof.antt"):
            continue
        for m in SIGNED.finditer(t):
            declared.add(m.group(2))
            if re.search("abbrev|unfoldable|record|data", m.group(1)):
                functions.add(m.group(2))
    # what a walk of a function declares for itself
    for p, t in texts.items():
        if p.endswith("/Proof.antt"):
            declared.update(m.group(2) for m in SIGNED.finditer(t) if re.search("[a-z][A-Z]", m.group(2)))
    names = functions | OF_STD

    def new(name):
        if name in BY_HAND:
            return BY_HAND[name]
        if name.startswith("-") or name.endswith("-") or not re.search(r"[A-Za-z]", name):
            return name
        parts = name.split("-")
        out = parts[0] if parts[0][:1].isupper() else snake(parts[0])
        for a, b in zip(parts, parts[1:]):
            joins = a in names and b in names and (a in OF_STD or a != snake(a) or b != snake(b))
            out += ("-" if joins else "_") + (b if b[:1].isupper() else snake(b))
        return out

    turn = {}
    for n in sorted(declared):
        if n[:1].isupper() and "-" not in n:
            continue
        if new(n) != n:
            turn[n] = new(n)
    # a lemma that would get its function's name
    taken = {b for a, b in turn.items() if "-" not in a}
    for a, b in turn.items():
        if "-" in a and (b in taken or b in declared and "-" not in b):
            turn[a] = b + "_lem"
    tokens = collections.Counter()
    for p, t in texts.items():
        if p.endswith(".antt"):
            plain = re.sub(r"(?m)--.*$|^(pub |unfoldable )*use [^{\n]*", "", t)
            tokens.update(m.group(0) for m in TOKEN.finditer(plain) if plain[m.start() - 1] != ".")
    by_new = collections.defaultdict(set)
    for a, b in turn.items():
        by_new[b].add(a)
    together = [(b, sorted(s)) for b, s in sorted(by_new.items()) if len(s) > 1 or tokens[b] > 0 and b not in APART and b not in turn and b not in BY_HAND]
    if "--list" in sys.argv:
        for a, b in sorted(turn.items()):
            print(a, b)
    for b, s in together:
        print("falls together:", " ".join(s), "->", b, "which stands already" if tokens[b] else "", file=sys.stderr)
    if "--list" in sys.argv or (together and "--anyway" not in sys.argv):
        return 1 if together else 0
    turned = 0
    for p, t in texts.items():
        def respell(m, t=t, p=p):
            n = m.group(0)
            if n in BY_HAND and (not p.endswith(".antt") or t[m.start() - 1] == "."):
                return n
            return BY_HAND.get(n) or turn.get(n, n)

        u = TOKEN.sub(respell, t)
        if u != t:
            turned += 1
            open(p, "w", encoding="utf-8").write(u)
    print(f"{len(turn)} names in {turned} files")
    return 0


sys.exit(main())
