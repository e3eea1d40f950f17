#!/usr/bin/env python3
"""Names the public functions and the methods of public traits whose contracts are long; see README.md."""
import pathlib
import re
import sys

CRATES = pathlib.Path(__file__).resolve().parent.parent / "crates"
# Programs and tests, whose contracts no caller reads.
APART = ("test_", "hello", "use_", "derived_", "lists_")
CLAUSE = re.compile(r"\s*(ensures|requires)\b")
FUNCTION = re.compile(r"( *)(pub )?(?:unsafe )?fn (\w+)")


def contracts(path):
    """Each public function's name, and how many lines its clauses take, without comments."""
    lines = [re.sub(r"\s*//.*", "", it) for it in path.read_text().splitlines()]
    trait = False
    for at, line in enumerate(lines):
        if re.match(r"pub (unsafe )?trait (\w+)", line):
            trait = True
        if line == "}":
            trait = False
        function = FUNCTION.match(line)
        if not function:
            continue
        end = next((i for i in range(at, len(lines)) if lines[i] in (function[1] + "{", function[1] + "}", function[1] + "{}")
                    or lines[i].endswith((";", " {}")) or (i > at and FUNCTION.match(lines[i]))), len(lines) - 1)
        head = lines[at:end + 1]
        first = next((i for i, it in enumerate(head) if CLAUSE.match(it)), None)
        if first is not None:
            last = len(head) - (1 if lines[end].strip() in ("{", "}", "{}") else 0)
            if function[2] or trait:
                yield function[3], sum(bool(it.strip()) for it in head[first:last])


def main(most):
    told = [(count, path.parts[len(CRATES.parts)], path.stem, name)
            for path in sorted(CRATES.glob("*/src/**/*.rt"))
            if not path.parts[len(CRATES.parts)].startswith(APART)
            for name, count in contracts(path)]
    for count, *where in sorted(told, reverse=True):
        if count > most:
            print(count, "::".join(where))
    print(f"{len(told)} public contracts, {sum(count > most for count, *_ in told)} of more than {most} lines")


if __name__ == "__main__":
    main(int(sys.argv[1]) if len(sys.argv) > 1 else 12)
