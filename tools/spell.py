#!/usr/bin/env python3
"""Spells the repository's own definitions and lemmas as today's Rattle does: words in snake case, a dash only between two names.

usage: python3 tools/spell.py [--dry]      at the top of the repository, once, after port.py

A name of a definition or a lemma is one that a file of specs/ or a lemma file of proofs/ declares. Names that Rattle makes for the proof of a
function (below proofs/F/), names of src/ and names of the libraries keep their spelling. It prints where two names of one file fall together.
"""

import re
import sys

from names import antt_files, other_files, read, respell

HUMP = re.compile(r"(?<=[a-z0-9])(?=[A-Z])")
DECLARED = re.compile(r"^\s*(?:(?:unfoldable|abbrev|pub|opaque|record|data|let)\s+)*([A-Za-z][^\s:(){}.,;]*)\s*:(?!=)")
# a name of the library that a lemma is named after
LIBRARY = set("append cond drop filter foldl get_or length map mod replicate reverse set suc take zero mul add sub div rem le lt eq eqb iff".split())
# definitions whose names are plain words too: in a lemma's name they hang on by an underscore
PLAIN = set("given is more once short then with write".split())
OLDER = {"getD": "get_or"}


def is_lemma_file(path):
    """A file of specs/, or one of proofs/ that is not of the proof of a function."""
    folder, below = path.split("/", 3)[2:]
    return folder == "specs" or below[0].isupper()


def plain(word):
    """A word of a name, in snake case. `T`, which turns a Bool into a type, keeps its capital."""
    if word == "T":
        return word
    return "_".join(p.lower() if len(p) == 1 or HUMP.search(word) else p for p in HUMP.split(OLDER.get(word, word)))


def declared(paths):
    found = set()
    for p in paths:
        for line in read(p).split("\n"):
            m = DECLARED.match(line)
            if m:
                found.add(m.group(1))
    return found


def spelled(name, names):
    """The new spelling of a declared name: each dash that is not between two names becomes an underscore."""
    parts = [plain(p) for p in name.split("-")]
    if parts[-1] == "once":
        # of a function of src/: its contract permits one outcome
        return "_".join(parts)
    out = parts[0]
    for before, after in zip(parts, parts[1:]):
        joined = before in names and after in names
        out += ("-" if joined else "_") + after
    return out


def main():
    dry = "--dry" in sys.argv[1:]
    files = antt_files()
    own = [p for p in files if is_lemma_file(p)]
    names = declared(own)
    definitions = {plain(n) for n in declared([p for p in files if "/specs/" in p]) if "-" not in n} - PLAIN | LIBRARY
    turned = {}
    for n in names:
        if n[0].islower() and ("-" in n or HUMP.search(n) or n in OLDER):
            turned[n] = spelled(n, definitions)
    turned = {a: b for a, b in turned.items() if a != b}
    # a lemma that would have the name of a definition ends in _lem
    taken = {b for a, b in turned.items() if "-" not in a}
    turned |= {a: b + "_lem" for a, b in turned.items() if "-" in a and b in taken}
    lemmas = {n for n in names if n in taken}
    outside = dict(turned)
    turned |= {n: n + "_lem" for n in lemmas}

    def new_name(word, in_antt, made):
        # where a Rattle name of the same spelling stands in a file of a proof, it is the goal's
        if word in made:
            return word
        if word in (turned if in_antt else outside):
            return turned[word]
        if in_antt and "-" not in word and word[0].islower() and HUMP.search(word):
            return plain(word)
        return word

    clashes = 0
    for p in files:
        made = set() if is_lemma_file(p) else declared([p])
        clashes += respell(p, lambda word, made=made: new_name(word, True, made), dry)
    for p in other_files():
        clashes += respell(p, lambda word: new_name(word, False, set()), dry)
    by_new = {}
    for a, b in turned.items():
        by_new.setdefault(b, []).append(a)
    for b, a in sorted(by_new.items()):
        if len(a) > 1 or b in names:
            print(f"together: {' '.join(sorted(a))} -> {b}{' (stands already)' if b in names else ''}")
    if dry:
        print("\n".join(f"{a} -> {b}" for a, b in sorted(turned.items())))
    print(f"{len(turned)} names turned, {clashes} clashes")


if __name__ == "__main__":
    main()
