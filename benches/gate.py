#!/usr/bin/env python3
"""Prints, as a table in Markdown, what the gate costs: for each crate the processor minutes (user and system) of its proof,
its tests and its edits, in one run of ./prove from nothing.

  benches/gate.py        runs ./prove, and looks ten times a second at the processor time of each process that it has started.
                         What ./prove prints goes to standard error
  benches/gate.py --all  the same with ./prove --all, which tries every edit

Run it by hand, where nothing else runs; `taskset -c 0,1 benches/gate.py` measures the gate on two processors. The last look at
a process is up to a tenth of a second before its end. What a machine has kept of an earlier `rt ci` isn't proved again, so the
table says something only where none has run.
"""
import os
import subprocess
import sys
import time

TOP = os.path.dirname(os.path.dirname(os.path.realpath(__file__)))
TICKS = os.sysconf("SC_CLK_TCK")
BETWEEN_LOOKS = 0.1
PROOF, TESTS, EDITS = "proof", "tests", "edits"
# Compilers, linkers, the tests and programs themselves, and ./prove and rt.
BESIDE = ("beside", PROOF)


def read(path):
    try:
        with open(path, "rb") as file:
            return file.read()
    except OSError:
        return b""


def processes():
    """Returns each process with its parent and the processor seconds that it has taken so far."""
    found = {}
    for pid in (it for it in os.listdir("/proc") if it.isdigit()):
        # The name in brackets may have blanks and brackets in it.
        fields = read(f"/proc/{pid}/stat").rpartition(b")")[2].split()
        if fields:
            found[int(pid), int(fields[19])] = (int(fields[1]), (int(fields[11]) + int(fields[12])) / TICKS)
    return found


def started_by(pid, found):
    """Returns those of the processes that are a process or descend from it."""
    parents, below = {it[0]: parent for it, (parent, _) in found.items()}, {pid}
    grows = True
    while grows:
        more = {it for it, parent in parents.items() if parent in below} - below
        below |= more
        grows = bool(more)
    return [it for it in found if it[0] in below]


def purpose(pid):
    """Returns the crate and what of it a process is about."""
    words = read(f"/proc/{pid}/cmdline").decode(errors="replace").split("\0")
    if "--crate-name" not in words:
        return BESIDE
    try:
        folder = os.path.basename(os.readlink(f"/proc/{pid}/cwd"))
    except OSError:
        folder = ""
    kind = EDITS if folder.startswith("rt-edit-") else TESTS if "--test" in words else PROOF
    return words[words.index("--crate-name") + 1], kind


def measure(words):
    """Runs a command, and returns its exit status and the processor seconds by crate and purpose."""
    ran = subprocess.Popen(words, cwd=TOP, stdin=subprocess.DEVNULL, stdout=sys.stderr)
    purposes, seconds = {}, {}
    while ran.poll() is None:
        found = processes()
        for it in started_by(ran.pid, found):
            if purposes.get(it, BESIDE) == BESIDE:
                purposes[it] = purpose(it[0])
            seconds[it] = found[it][1]
        time.sleep(BETWEEN_LOOKS)
    sums = {}
    for it, spent in seconds.items():
        sums[purposes[it]] = sums.get(purposes[it], 0) + spent
    return ran.returncode, sums


def row(name, spent):
    cells = [*(f"{it / 60:.1f}" if it else "" for it in spent), f"{sum(spent) / 60:.1f}"]
    return f"| {name} | {' | '.join(cells)} |"


def main(words):
    if words not in ([], ["--all"]):
        print(__doc__, end="")
        return 0 if words in (["--help"], ["-h"]) else 2
    begun = time.monotonic()
    status, sums = measure([f"{TOP}/prove", *words])
    passed = (time.monotonic() - begun) / 60
    beside = sums.pop(BESIDE, 0)
    kit = subprocess.run(["rt", "version"], stdout=subprocess.PIPE, text=True, check=True).stdout.strip()
    print(f"Processor minutes of `./prove`, which took {passed:.0f} minutes on {len(os.sched_getaffinity(0))} processors, by {kit}:\n")
    print("| Crate | Proof | Tests | Edits | All |\n|---|---|---|---|---|")
    spent = {name: [sums.get((name, kind), 0) for kind in (PROOF, TESTS, EDITS)] for name, _ in sums}
    for name in sorted(spent, key=lambda it: -sum(spent[it])):
        print(row(f"`{name}`", spent[name]))
    print(row("compilers, linkers, programs, scripts", [0, beside, 0]))
    print(row("all", [sum(it) for it in zip(*spent.values(), [0, beside, 0])]))
    return status


if __name__ == "__main__":
    sys.exit(main(sys.argv[1:]))
