#!/usr/bin/env python3
"""Runs `rt ci` over what earlier runs of this script have passed, in any work tree of this repository.

    bench/gate.py [NAME..]     runs it at the top of this work tree, without the edits that must fail, of
                               all crates, or of these and those below

A crate that is proved, and its tests once they are proved, are kept by their text and that of the
libraries below, under `.git/kept` of the first work tree, where bench/check.py takes libraries from. Each
such step is a line of `times` there: its name, and for how many seconds it ran. `.ci/edits .` tries the
edits over what this has built. It gives no verdict: the gate does, which takes nothing from here.
"""
import copy
import os
import pathlib
import shutil
import subprocess
import sys
import threading
import time

sys.dont_write_bytecode = True
import check  # noqa: E402

WRITING = threading.Lock()


class Store:
    def __init__(self, top):
        common = ["git", "rev-parse", "--path-format=absolute", "--git-common-dir"]
        said = subprocess.run(common, cwd=top, capture_output=True, text=True, check=True)
        self.room = pathlib.Path(said.stdout.strip()) / "kept"
        self.room.mkdir(exist_ok=True)

    def place(self, kept, folder, names):
        """Whether the files or folders of these names were kept, and are now in the folder."""
        if not (self.room / kept).is_dir():
            return False
        for name in names:
            source, here = self.room / kept / name, folder / name
            if source.is_dir():
                shutil.rmtree(here, ignore_errors=True)
                shutil.copytree(source, here, symlinks=True)
            elif source.is_file():
                shutil.copy2(source, here)
        return True

    def keep(self, kept, folder, names):
        made = self.room / f"{kept}.{os.getpid()}"
        made.mkdir()
        for name in names:
            if (folder / name).is_dir():
                shutil.copytree(folder / name, made / name, symlinks=True)
            elif (folder / name).is_file():
                shutil.copy2(folder / name, made / name)
        if (self.room / kept).is_dir():
            shutil.rmtree(made)
        else:
            made.rename(self.room / kept)

    def took(self, name, since):
        with WRITING, open(self.room / "times", "a", encoding="utf-8") as times:
            times.write(f"{name}\t{time.time() - since:.0f}\n")


class Stamped:
    def __init__(self, stamp):
        self.stamp = lambda: stamp


def stamp_once(made):
    """The stamp of a crate, which reads each crate below it once."""

    def stamp(crate, known):
        if crate.name not in known:
            twin = copy.copy(crate)
            twin.deps = [Stamped(stamp(it, known)) for it in crate.deps]
            known[crate.name] = made(twin)
        return known[crate.name]

    return lambda crate: stamp(crate, {})


def keep_steps(rt, store):
    made_ci = rt.Crate.ci

    def ci(crate, flags, tests):
        folder = pathlib.Path(crate.folder) / "out"
        program = f"{crate.name}{'_tests' if tests else ''}"
        built = [f"{program}{end}" for end in rt.BACKENDS.values()]
        is_library = not tests and not crate.is_program
        kind = "-tests" if tests else "" if is_library else "-program"
        kept, names = f"{crate.name}-{crate.stamp()[:24]}{kind}", ["rlib"] if is_library else built
        # bench/check.py keeps what is in a library's folder
        where = folder / "rlib" if is_library else folder
        if is_library and (store.room / kept).is_dir():
            shutil.rmtree(where, ignore_errors=True)
            shutil.copytree(store.room / kept, where, symlinks=True)
            return 0
        if not is_library and store.place(kept, where, names):
            return 0
        since = time.time()
        status = made_ci(crate, flags, tests)
        store.took(f"{crate.name}{kind or '-library'}", since)
        if not status and kept == f"{crate.name}-{crate.stamp()[:24]}{kind}":
            store.keep(kept, where, os.listdir(where) if is_library else names)
        return status

    made_put_back = rt.put_back

    def put_back(root, aside, was_killed=False):
        # (older libraries would take the place of those that are built now)
        for library in pathlib.Path(aside).glob("*/rlib"):
            shutil.rmtree(library)
        made_put_back(root, aside, was_killed)

    rt.put_back = put_back
    rt.Crate.stamp = stamp_once(rt.rtlib.Crate.stamp)
    rt.Crate.ci = ci
    rt.edits_of = lambda crate: ([], [])


def choose(rt, names):
    """Has `rt ci` know these crates alone, and those below."""
    made = rt.crates_of

    def crates_of(root, aside):
        crates = made(root, aside)
        wanted = {it.name for crate in crates if crate.name in names for it in [crate, *crate.below()]}
        return [it for it in crates if it.name in wanted]

    rt.crates_of = crates_of
    # (which takes the others' files for such as no check reads)
    rt.rtlib.stop_on_unread = lambda top, crates: None


def main(words):
    rt = check.from_kit()
    keep_steps(rt, Store(check.TOP))
    if words:
        choose(rt, words)
    os.chdir(check.TOP)
    os.environ.setdefault("RT_JOBS", str(len(os.sched_getaffinity(0))))
    return rt.ci()


if __name__ == "__main__":
    sys.exit(main(sys.argv[1:]))
