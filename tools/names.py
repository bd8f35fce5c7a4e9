"""The repository's files, and the names in them, for the scripts that spell names."""

import glob
import re

# what may stand in a name of antt, without the dot that joins a path
WORD = re.compile(r"[^\s.(){}\[\];,:\"`⌜⌝«»λ]+")


def texts(pattern):
    return sorted(p for p in glob.glob(pattern, recursive=True) if "/out/" not in p)


def antt_files():
    return texts("crates/*/specs/**/*.antt") + texts("crates/*/proofs/**/*.antt")


def other_files():
    return texts("crates/*/src/**/*.rt") + texts("crates/*/must-fail/*.edit") + texts("docs/*.md") + ["README.md"]


def read(path):
    with open(path, encoding="utf-8", newline="") as f:
        return f.read()


def respell(path, new_name, dry):
    """Puts new_name(name) in the place of each name of a file, and says how many pairs of its names fell together, printing each."""
    text, olds_of = read(path), {}

    def turn(match):
        old = match.group(0)
        olds_of.setdefault(new_name(old), set()).add(old)
        return new_name(old)

    new = WORD.sub(turn, text)
    together = {n: olds for n, olds in olds_of.items() if len(olds) > 1}
    for n, olds in together.items():
        print(f"clash: {path}: {' '.join(sorted(olds))} -> {n}")
    if new != text and not dry:
        with open(path, "w", encoding="utf-8", newline="") as f:
            f.write(new)
    return len(together)
