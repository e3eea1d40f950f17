#!/usr/bin/env python3
"""Proves crates over kept proofs of the libraries below them, in any work tree of this repository.

    bench/check.py NAME..                   proves the crates, and first what isn't kept below them
    bench/check.py --test NAME..            with their tests
    bench/check.py NAME -- --only PATH      rattle's own flags stand behind `--`
    bench/check.py --quick NAME -- ..       without looking for empty contracts, which takes minutes
    bench/check.py --apply                  names each edit, of any crate, whose text isn't found
    bench/check.py --take FOLDER            keeps what the gate has built in another clone, of equal text

A library that is proved is kept by its text and that of those below it, under `.git/kept` of the first
work tree; what was proved of a crate between two runs is kept in its `out`. JOBS is the number of
processes. It says of each function how many seconds it took. It gives no verdict: the gate does, which
takes nothing from here. Kit 13b's `rt check` proves the libraries below a crate anew in each work tree;
this works by that kit's own parts. Over what it has built, `.ci/edits . NAME` tries the crate's edits
that must fail.
"""
import fcntl
import os
import pathlib
import shutil
import subprocess
import sys
import time

TOP = pathlib.Path(__file__).resolve().parent.parent
sys.path.insert(0, str(TOP / ".ci"))
sys.dont_write_bytecode = True
from kit import from_kit  # noqa: E402


class Kept:
    def __init__(self, rt, top, jobs):
        common = ["git", "rev-parse", "--path-format=absolute", "--git-common-dir"]
        said = subprocess.run(common, cwd=top, capture_output=True, text=True, check=True)
        self.store = pathlib.Path(said.stdout.strip()) / "kept"
        self.store.mkdir(exist_ok=True)
        self.rt, self.jobs = rt, ["--jobs", jobs]
        # the crates above a library load its statements alone
        rt.Crate.cuts_libraries = True
        rt.rtlib.Crate = rt.Crate
        self.crates = {it.name: it for it in rt.rtlib.crates_below(top)}
        for crate in self.crates.values():
            rt.read_files(crate)

    def rattle(self, crate, words, log=None):
        whole = [*self.rt.rtlib.guarded(), self.rt.rtlib.RATTLE, *words]
        ends = {"stdout": log, "stderr": subprocess.STDOUT if log else None}
        return subprocess.run(whole, cwd=crate.folder, stdin=subprocess.DEVNULL, **ends).returncode

    def timed(self, crate, words):
        """The same, and says of each function after how many seconds it was checked."""
        whole = [*self.rt.rtlib.guarded(), self.rt.rtlib.RATTLE, *words]
        ends = {"stdin": subprocess.DEVNULL, "stdout": subprocess.PIPE, "stderr": subprocess.STDOUT}
        with subprocess.Popen(whole, cwd=crate.folder, text=True, errors="replace", **ends) as ran:
            since = time.monotonic()
            for line in ran.stdout:
                if line.startswith("checked "):
                    before, since = since, time.monotonic()
                    line = f"{since - before:4.0f} s: {line}"
                print(line, end="", flush=True)
        return ran.returncode

    def is_placed(self, crate):
        """Whether the library is built here, or could be copied from the store."""
        kept = self.store / f"{crate.name}-{crate.stamp()[:24]}"
        here = pathlib.Path(crate.folder) / "out/rlib"
        mark = here / "kept"
        if mark.is_file() and mark.read_text() == kept.name:
            return True
        if not kept.is_dir():
            return False
        shutil.rmtree(here, ignore_errors=True)
        shutil.copytree(kept, here, symlinks=True)
        mark.write_text(kept.name)
        return True

    def build(self, crate):
        """Whether the library is proved and built."""
        if self.is_placed(crate):
            return True
        name = f"{crate.name}-{crate.stamp()[:24]}"
        # another run may be proving it
        with open(self.store / f"{name}.lock", "w", encoding="utf-8") as lock:
            fcntl.flock(lock, fcntl.LOCK_EX)
            if self.is_placed(crate):
                return True
            if not all(self.build(it) for it in crate.below()):
                return False
            print(f"proving {crate.name}", flush=True)
            out = pathlib.Path(crate.folder) / "out"
            shutil.rmtree(out / "rlib", ignore_errors=True)
            (out / "rlib").mkdir(parents=True)
            # with --statements nothing is taken from the checks before
            how = ["--incremental", "out/kept"] if (out / "kept").is_dir() else ["--statements"]
            words = ["build", *crate.words(self.jobs, keeps=False), *how, "-o", crate.rlib]
            with open(out / "kept.log", "w", encoding="utf-8") as log:
                if self.rattle(crate, words, log):
                    print(f"{crate.name} isn't proved: {out}/kept.log")
                    return False
            room = self.store / f"{name}.{os.getpid()}"
            shutil.copytree(out / "rlib", room, symlinks=True)
            room.rename(self.store / name)
            (out / "rlib/kept").write_text(name)
        return True

    def check(self, crate, flags, tests, quick):
        if not all(self.build(it) for it in crate.below()):
            return 1
        (pathlib.Path(crate.folder) / "out").mkdir(exist_ok=True)
        words = crate.words([*flags, *self.jobs], tests=tests, keeps=False)
        kept = ["--incremental", "out/kept-tests" if tests else "out/kept"]
        empty = [] if quick or "--start" in flags else ["--empty-contracts"]
        return self.timed(crate, ["check", *words, *kept, "--progress", *empty])

    def take(self, clone):
        """Keeps the libraries that the gate has built in another clone, where these have the same text."""
        theirs = {it.name: it for it in self.rt.rtlib.crates_below(clone)}
        for crate in theirs.values():
            self.rt.read_files(crate)
        for name, crate in theirs.items():
            kept = self.store / f"{name}-{crate.stamp()[:24]}"
            if pathlib.Path(crate.rlib).is_dir() and not kept.is_dir():
                shutil.copytree(pathlib.Path(crate.rlib).parent, kept, symlinks=True)
                print(f"took {name}")
        return 0

    def apply_edits(self):
        """Names the edits that can't be made."""
        status = 0
        for crate in self.crates.values():
            edits, others = self.rt.edits_of(crate)
            told = [(it, self.rt.read_edit(it, crate.folder)[1]) for it in edits]
            for edit, why in [*told, *((it, "it is no edit") for it in others)]:
                if why:
                    print(f"{crate.name}/{pathlib.Path(edit).name}: {why}")
                    status = 1
        return status


def main(words):
    at = words.index("--") if "--" in words else len(words)
    names, flags = [it for it in words[:at] if not it.startswith("--")], words[at + 1 :]
    asked = {it for it in words[:at] if it.startswith("--")}
    kept = Kept(from_kit(), str(TOP), os.environ.get("JOBS", "1"))
    if asked == {"--apply"} and not names:
        return kept.apply_edits()
    if asked == {"--take"} and len(names) == 1:
        return kept.take(names[0])
    others = asked - {"--test", "--quick"}
    if not names or others or any(it not in kept.crates for it in names):
        print(__doc__)
        return 2
    how = flags, "--test" in asked, "--quick" in asked
    return next((status for it in names if (status := kept.check(kept.crates[it], *how))), 0)


if __name__ == "__main__":
    sys.exit(main(sys.argv[1:]))
