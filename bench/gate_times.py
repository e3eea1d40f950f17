#!/usr/bin/env python3
"""Says what each crate costs the gate, in minutes of one processor, from what its provers used.

    bench/gate_times.py watch FILE          notes each prover of this machine in FILE, until it is stopped
    bench/gate_times.py table FILE CLONE    sums those of the gate that ran in CLONE, dearest crate first

Start it before `.ci/run`. A prover is noted when it has ended, with what it had used a second before at
the latest. Edits are tried in copies elsewhere, and are those whose libraries lie in CLONE.
"""
import collections
import os
import pathlib
import re
import sys
import time

TICK = os.sysconf("SC_CLK_TCK")
KINDS = ["proofs", "tests", "edits"]


def provers():
    """The provers that run: what tells each apart, its seconds of a processor, folder and command."""
    for room in pathlib.Path("/proc").glob("[0-9]*"):
        try:
            words = (room / "cmdline").read_bytes().decode(errors="replace").split("\0")
            if not words[0].endswith("/rattle"):
                continue
            fields = (room / "stat").read_text().rsplit(")", 1)[1].split()
            folder = os.readlink(room / "cwd")
        except OSError:
            continue
        seconds = sum(int(it) for it in fields[11:15]) / TICK
        yield f"{room.name}:{fields[19]}", seconds, folder, " ".join(words)


def watch(file):
    seen = {}
    while True:
        now = time.time()
        alive = set()
        for key, seconds, folder, command in provers():
            alive.add(key)
            began = seen[key][0] if key in seen else now
            seen[key] = began, now, seconds, folder, command
        for key in [it for it in seen if it not in alive]:
            print(*(f"{it:.1f}" for it in seen[key][:3]), *seen.pop(key)[3:], sep="\t", file=file, flush=True)
        time.sleep(1)


def kind_of(folder, command, clone):
    """What a prover was for; none if it was no part of the gate that ran in the clone."""
    if "/rt-edit-" in folder:
        return "edits" if f"{clone}/" in command else None
    if not folder.startswith(f"{clone}/"):
        return None
    return "tests" if " --test" in command else "proofs"


def table(file, clone):
    minutes = collections.defaultdict(collections.Counter)
    times = []
    for line in file:
        began, ended, seconds, folder, command = line.rstrip("\n").split("\t")
        crate = re.search(r"--crate-name (\S+)", command)
        kind = kind_of(folder, command, clone)
        if crate and kind:
            minutes[crate[1]][kind] += float(seconds) / 60
            times += [float(began), float(ended)]
    if not times:
        return
    whole = sum(minutes.values(), collections.Counter())
    print(f"{(max(times) - min(times)) / 60:.0f} minutes from the first prover to the last;",
          f"{whole.total():.0f} of one processor:", ", ".join(f"{whole[it]:.0f} {it}" for it in KINDS))
    print("\n| crate |", *(f"{it} |" for it in KINDS))
    print("|---" * (1 + len(KINDS)) + "|")
    for name, spent in sorted(minutes.items(), key=lambda it: -it[1].total()):
        edits = len(list(pathlib.Path(clone, "crates", name, "must-fail").glob("*.edit")))
        told = [f"{spent[it]:.1f}" if spent[it] else "" for it in KINDS]
        print(f"| `{name}` |", *(f"{it} |" for it in told[:-1]), f"{told[-1]} ({edits}) |" if edits else "|")


def main(words):
    match words:
        case ["watch", path]:
            with open(path, "a", encoding="utf-8") as file:
                watch(file)
        case ["table", path, clone]:
            with open(path, encoding="utf-8") as file:
                table(file, str(pathlib.Path(clone).resolve()))
        case _:
            print(__doc__)
            return 2
    return 0


if __name__ == "__main__":
    sys.exit(main(sys.argv[1:]))
