#!/usr/bin/env python3
"""Tries the edits of a crate that the prover must refuse, as `rt must-fail NAME` does and with the same lines, but over a copy of
the work that `rt check` keeps in the crate's folder, so that only what an edit changes is proved again.

  tools/edits.py NAME   in a folder with a crates.txt, in which the libraries below the crate are built

As `rt must-fail` does, it checks the crate itself over that work at the end: where it isn't proved so, or an edit isn't refused,
the edit is tried again from nothing.
"""
import importlib.machinery
import importlib.util
import os
import shutil
import subprocess
import sys
import tempfile

sys.dont_write_bytecode = True


def load_rt():
    """Returns the toolchain's command `rt` as a module."""
    page = subprocess.run(["rt", "doc"], stdout=subprocess.PIPE, text=True, check=True).stdout.strip()
    folder = f"{os.path.dirname(page)}/bin"
    sys.path.insert(0, folder)
    loader = importlib.machinery.SourceFileLoader("rt", f"{folder}/rt")
    made = importlib.util.module_from_spec(importlib.util.spec_from_loader("rt", loader))
    loader.exec_module(made)
    # A crate's sum covers those below it: taken once a crate, and not once for each path down to it.
    sums, take = {}, made.rtlib.Crate.stamp
    made.rtlib.Crate.stamp = lambda it: sums.get(it.name) or sums.setdefault(it.name, take(it))
    return made


def tried(rt, crate, edits, flags):
    """Returns for each edit whether the prover refuses it, and what to say."""
    with tempfile.TemporaryDirectory(prefix="rt-edits-") as room:
        kept = f"{room}/kept"
        shutil.copytree(f"{crate.folder}/{rt.rtlib.KEPT[1]}", kept)
        found = [rt.must_fail(crate, it, flags, kept) for it in edits]
        is_sound = not rt.checked(crate, {}, flags, kept).returncode
    return [it if is_sound and it[0] else rt.must_fail(crate, edit, flags) for edit, it in zip(edits, found)]


def main(name):
    rt, flags = load_rt(), ["--jobs", "1"]
    rt.rtlib.guarded()
    crate = next(it for it in rt.rtlib.crates_below(os.getcwd()) if it.name == name)
    edits, bad = rt.edits_of(crate)
    if edits and any(it.build_rlib(flags, anew=False) for it in crate.below()):
        return 1
    found = tried(rt, crate, edits, flags)
    for _, text in found:
        print(f"rt: {text}", flush=True)
    for it in bad:
        print(f"rt: {it}: not an edit", flush=True)
    return 1 if bad or not all(it[0] for it in found) else 0


if __name__ == "__main__":
    sys.exit(main(sys.argv[1]))
