#!/usr/bin/env bash
# Prints, as a table in Markdown, how long `chr explain` takes on logs of some 100,000 and of some 1,000,000 entries, and its
# greatest memory: of a constraint that was posted, and of the last one of a countdown, which has a line for each firing of
# it; `chr check` of the same log is beside it, since an explanation checks the log as it reads it. Each is the best of three.
# It builds nothing: run it by hand, on an idle machine, once `./chr` is built.
set -eu
top=$(cd "$(dirname "${BASH_SOURCE[0]}")/.." && pwd)
program=$top/out/chr
if [ ! -x "$program" ]; then
  echo "explain.sh: $program isn't there; ./chr --help puts it there" >&2
  exit 2
fi
exec python3 - "$program" <<'PYTHON'
import os, subprocess, sys, tempfile, time

PROGRAM, RUNS, COUNTDOWNS = sys.argv[1], 3, 100
RULES = "n(I, 0) <=> true.\nn(I, K) <=> 0 < K | L is K - 1, n(I, L).\n"


def measure(words):
    """Returns the seconds of a command, its greatest memory in megabytes, and how many lines it prints."""
    with tempfile.TemporaryFile() as out:
        start = time.monotonic()
        process = subprocess.Popen([PROGRAM, *words], stdout=out)
        _, status, usage = os.wait4(process.pid, 0)
        seconds = time.monotonic() - start
        out.seek(0)
        lines = sum(1 for _ in out)
    if status != 0:
        sys.exit(f"explain.sh: {' '.join(words)} ended with {status}")
    return seconds, usage.ru_maxrss / 1024, lines


print("| Entries | Command | Lines | Seconds | Megabytes |")
print("|---|---|---|---|---|")
with tempfile.TemporaryDirectory() as room:
    rules, posts, log, store = (os.path.join(room, name) for name in ("rules.chr", "posts", "log", "store"))
    with open(rules, "w") as file:
        file.write(RULES)
    for count in (500, 5000):
        with open(posts, "w") as file:
            file.write(", ".join(f"n({number}, {count})" for number in range(COUNTDOWNS)) + ".\n")
        words = ["run", rules, posts, "--steps", "4294967295", "--log", log, "--store", store, "--show", "store"]
        measure(words)
        with open(log) as file:
            entries = sum(1 for _ in file) - 1
        # The last activation of a log is that of the last constraint of a countdown.
        with open(log) as file:
            last = [line.split()[2] for line in file if line.startswith("A ")][-1]
        for name, words in (
            ("`chr check`", ["check", rules, log, store]),
            ("`chr explain`, of a post", ["explain", rules, log, "1"]),
            ("`chr explain`, of the last of a countdown", ["explain", rules, log, last]),
        ):
            seconds, megabytes, lines = min(measure(words) for _ in range(RUNS))
            print(f"| {entries:,} | {name} | {lines:,} | {seconds:.2f} | {megabytes:.0f} |", flush=True)
PYTHON
