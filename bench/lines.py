#!/usr/bin/env python3
"""Counts a crate's lines of code and of proof, as docs/USES.md has them.

    bench/lines.py CRATE..

Code is what isn't blank, a comment, an import, a contract, a ghost line or a test; proof what isn't
blank, a comment or an import.
"""
import pathlib
import re
import sys


def lines(path, comment):
    """The lines that aren't blank or comments."""
    told = (line.rstrip() for line in path.read_text().splitlines())
    return [line for line in told if line.strip() and not line.strip().startswith(comment)]


def without(kept, begins, ends):
    """The lines without each run from one that begins so to the one that ends it."""
    left, run = [], []
    for line in kept:
        if not run and not begins(line.strip()):
            left.append(line)
            continue
        run.append(line)
        if ends(run):
            run = []
    return left


def is_balanced(run):
    text = " ".join(run)
    return text.count("{") == text.count("}")


def code(path):
    kept = [line for line in lines(path, "//") if line != "#[cfg(test)]"]
    kept = without(kept, lambda it: re.match(r"ghost |ensures|requires", it), is_balanced)
    return without(kept, lambda it: re.match(r"(pub )?(use|mod) ", it), lambda run: run[-1].endswith(";"))


def proof(path):
    return [line for line in lines(path, "--") if not re.match(r"use |pub mod |mod ", line.strip())]


def main(names):
    if not names:
        print(__doc__)
        return 2
    crates = pathlib.Path(__file__).resolve().parent.parent / "crates"
    for name in names:
        sources = [it for it in crates.glob(f"{name}/src/**/*.rt") if it.stem != "tests"]
        told = sum(len(code(it)) for it in sources)
        proved = sum(len(proof(it)) for it in crates.glob(f"{name}/proofs/**/*.antt"))
        print(f"{name}: {told} lines of code, {proved} of proof")
    return 0


if __name__ == "__main__":
    sys.exit(main(sys.argv[1:]))
