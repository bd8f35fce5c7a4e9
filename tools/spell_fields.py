#!/usr/bin/env python3
"""Spells the fields of the repository's own records, and the names that a `ghost use` of src/ gives to a definition, in snake case: in these no dash
and no capital stands.

usage: python3 tools/spell_fields.py [--dry]      at the top of the repository, after tools/spell.py
"""

import re
import sys

from names import antt_files, other_files, read, respell

FIELD = re.compile(r"^\s+(?:pub )?([a-z][\w']*(?:-[\w']+)+)\s*:(?!=)")
RENAMED = re.compile(r"\bas ([a-z]+(?:[A-Z][a-z0-9]*)+)\b")


def fields(text):
    """The fields with a dash: the lines of a signature right below a `record .. where`."""
    found, inside = set(), None
    for line in text.split("\n"):
        if re.match(r"^\s*(?:pub )?record .* where$", line):
            inside = len(line) - len(line.lstrip())
        elif inside is not None and line.strip() and not line.strip().startswith("--"):
            if len(line) - len(line.lstrip()) <= inside:
                inside = None
            elif m := FIELD.match(line):
                found.add(m.group(1))
    return found


def main():
    dry = "--dry" in sys.argv[1:]
    files = antt_files()
    turned = {n: n.replace("-", "_") for p in files for n in fields(read(p))}
    for p in files + other_files():
        here = dict(turned)
        if p.endswith(".rt"):
            imports = [line for line in read(p).split("\n") if line.startswith("ghost use")]
            here |= {n: re.sub(r"(?=[A-Z])", "_", n).lower() for line in imports for n in RENAMED.findall(line)}
        respell(p, lambda name, here=here: here.get(name, name), dry)
    print(" ".join(f"{a}={b}" for a, b in sorted(turned.items())))


if __name__ == "__main__":
    main()
