#!/usr/bin/env python3
"""Counts the places of src/ that docs/DESIGN-PASS.md speaks of, point by point.

    python3 tools/places.py [-v] [ROOT]

ROOT is a checkout, this one where none is named; -v lists the places. The counts go by the text of the files, so that a place that is
kept for a reason is counted too: the page has the reasons.
"""
import re
import sys
from collections import defaultdict
from pathlib import Path

args = [a for a in sys.argv[1:] if a != "-v"]
verbose = "-v" in sys.argv
root = Path(args[0]) if args else Path(__file__).resolve().parent.parent


def without_comments(text):
    return re.sub(r"//[^\n]*", "", text)


class Function:
    """A function with a body: its name, parameters, clauses and body as text."""

    def __init__(self, crate, path, name, params, clauses, body):
        self.where = f"{crate}/{path}: {name}"
        self.name, self.params, self.clauses, self.body = name, params, clauses, body


def matching(text, at, opening, closing):
    depth = 0
    for i in range(at, len(text)):
        depth += {opening: 1, closing: -1}.get(text[i], 0)
        if depth == 0:
            return i
    return len(text)


def functions(crate, path, text):
    found = []
    for m in re.finditer(r"\bfn (\w+)(<[^{;]*?>)?\(", text):
        close = matching(text, m.end() - 1, "(", ")")
        params = " ".join(text[m.end():close].split())
        rest, clauses = close + 1, []
        while True:
            head = re.compile(r"\s*(?:->[^{;]*?)?\s*(requires|ensures)\s*\w*\s*(?=\{)").match(text, rest)
            if not head:
                break
            end = matching(text, head.end(), "{", "}")
            clauses.append((head.group(1), " ".join(text[head.end() + 1:end].split())))
            rest = end + 1
        opening = re.compile(r"[^{;]*").match(text, rest).end()
        if opening < len(text) and text[opening] == "{":
            end = matching(text, opening, "{", "}")
            found.append(Function(crate, path, m.group(1), params, clauses, text[opening + 1:end].strip()))
    return found


texts, all_functions = [], []
for file in sorted(root.glob("crates/*/src/**/*.rt")):
    crate, path = file.parts[-3] if file.parent.name == "src" else file.parts[-4], file.name
    text = without_comments(file.read_text())
    texts.append((crate, path, text))
    all_functions += functions(crate, path, text)


def lines(pattern, skip=r"\b(ensures|requires|ghost)\b"):
    for crate, path, text in texts:
        for line in text.split("\n"):
            if re.search(pattern, line) and not re.search(skip, line):
                yield f"{crate}/{path}: {line.strip()}"


def shape(body):
    """A body with its names, types and numbers left out."""
    tokens = re.findall(r"\w+|[^\s\w]", body)
    keep = {"if", "else", "while", "for", "in", "let", "mut", "return", "match", "as", "loop", "break"}
    return tuple(t if t in keep or not re.match(r"\w", t) else "_" for t in tokens)


def twins():
    groups = defaultdict(list)
    for f in all_functions:
        s = shape(f.body)
        if len(s) > 8:
            groups[s].append(f.where)
    return [" = ".join(g) for g in groups.values() if len(g) > 1]


def converters():
    for f in all_functions:
        b = " ".join(f.body.split())
        if re.fullmatch(r"\(?\w+( % \d+)?\)? as \w+", b) or re.fullmatch(r"\w+\.0 as \w+", b):
            yield f.where
        elif re.fullmatch(r"if [^{}]*\{ (1|\w+) \} else \{ (0|\w+) \}", b) and not re.search(r"==|\+", b):
            yield f.where
        elif re.fullmatch(r"\w+ (&&|\|\|) \w+", b):
            yield f.where
        elif re.fullmatch(r"match \w+ \{( \w+::\w+ => (0x)?\w+,)+ \}", b) and "from" != f.name:
            yield f.where


def facts():
    users = defaultdict(set)
    for f in all_functions:
        for kind, clause in f.clauses:
            if kind == "requires":
                for part in clause.split("×"):
                    words = re.findall(r"[A-Z]\w*|\w+\.now ≡ \w+|formed", part)
                    for w in words:
                        users[w].add(f.where)
    return [f"{w}: {', '.join(sorted(u))}" for w, u in users.items() if len(u) > 2]


def travellers():
    """Sets of three parameters, by name and type, that three functions share."""
    users = defaultdict(set)
    for f in all_functions:
        ps = sorted(p for p in re.split(r",\s*(?![^<>\[\]()]*[>\])])", f.params) if ":" in p and "self" not in p)
        for i in range(len(ps)):
            for j in range(i + 1, len(ps)):
                for k in range(j + 1, len(ps)):
                    users[(ps[i], ps[j], ps[k])].add(f.where)
    merged = defaultdict(set)
    for group, fs in users.items():
        if len(fs) > 2:
            merged[tuple(sorted(fs))] |= set(group)
    return [f"{', '.join(sorted(g))}: {', '.join(fs)}" for fs, g in merged.items()]


def parallel():
    for f in all_functions:
        slices = re.findall(r"(\w+): &\[(\w+)\]", f.params)
        kinds = defaultdict(list)
        for name, kind in slices:
            kinds[kind].append(name)
        if any(len(v) > 1 for v in kinds.values()):
            yield f.where
    yield from (f"{w}" for w in lines(r"^\s*(pub )?\w+: \[\w+; \d+\],"))


points = [
    ("1. enums and structs that answer", list(lines(r"^(pub(\(crate\))? )?(enum|struct) \w*(Answer|Outcome|Test)\b"))),
    ("1. numbers for kinds of frame", list(lines(r"\b0x(0[12]|1[1-4f])\b", r"=>|\b(ensures|requires|ghost)\b"))),
    ("2. functions of one shape", twins()),
    ("3. while loops", list(lines(r"^\s*while "))),
    ("4. functions that convert or compare by hand", list(converters())),
    ("5. facts in three clauses or more", facts()),
    ("5. three parameters in three functions or more", travellers()),
    ("6. parallel slices and arrays", list(parallel())),
    ("7. functions or closures chosen by a value", list(lines(r"\b(dyn|fn\()\b"))),
]
for name, places in points:
    print(f"{len(places):4}  {name}")
    if verbose:
        for place in places:
            print(f"        {place}")
