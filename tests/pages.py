#!/usr/bin/env python3
"""Runs the commands of README.md and of docs/tutorial.md as they stand, each page in a copy of the repository, and compares
what they print with the page. Each page is a line `test pages::NAME ... ok` or `test pages::NAME ... FAILED`.

A command is a line of a block `sh`, or a line of another block after `$ `; the lines of a block after `> ` are typed into
`chr session`. What it is to print is the rest of its block; after a block `sh` it is the block that follows, or the first
column of a table that begins with `It prints`. A command for which the page shows no output must end with status 0.

  tests/pages.py PROGRAM  runs them with this program, which was built from the sources at hand
  tests/pages.py          runs them with the program that ./chr runs, of out/ or of release/; where ./chr would build one, the
                          pages count as skipped

The last line is 'N passed, M failed', and then ', K skipped' where the pages were.
"""
import hashlib
import os
import pathlib
import re
import shutil
import signal
import subprocess
import sys
import tempfile

TOP = pathlib.Path(__file__).resolve().parent.parent
PAGES = ("README.md", "docs/tutorial.md")
MOST_SECONDS = 120
BLOCK = re.compile(
    r"^```(?P<kind>\w*)\n(?P<text>.*?)^```\n"
    r"(?=(?:\n```\n(?P<printed>.*?)^```\n)?(?:\n\| It prints [^\n]*\n[^\n]*\n(?P<rows>(?:\|[^\n]*\n)+))?)",
    re.M | re.S,
)
ENDED = re.compile(r"=== ended with (\d+)\n")
# A server goes on in the background: the next command is run once clients can connect.
LISTENS = "until grep -q '^chr: listening' ../printed; do sleep 0.1; done"


def commands_of(page):
    """Returns each command of a page with what it is to print, or with None where the page shows no output."""
    found = []
    for block in BLOCK.finditer(page):
        text, printed, rows = block["text"], block["printed"], block["rows"]
        if block["kind"] == "sh":
            if rows:
                printed = "".join(f"{it}\n" for it in re.findall(r"^\| `(.*?)` \|", rows, re.M))
            *before, last = text.splitlines()
            found += [*((it, None) for it in before), (last, printed)]
        elif text.startswith("$ "):
            found += [tuple(it.split("\n", 1)) for it in re.split(r"^\$ ", text, flags=re.M)[1:]]
        elif text.startswith("> "):
            typed = "".join(re.findall(r"^> (.*\n)", text, re.M))
            found.append((f"./chr session <<'END'\n{typed}END", re.sub(r"^> .*\n", "", text, flags=re.M)))
    return found


def ran(script, folder):
    """Runs a script and returns what it and all that it has started print. All of these end with it."""
    how = {"cwd": f"{folder}/chr", "stdin": subprocess.DEVNULL, "start_new_session": True}
    with open(f"{folder}/printed", "w+", encoding="utf-8") as printed:
        with subprocess.Popen(["bash", "-c", f"{script}kill 0\n"], stdout=printed, stderr=printed, **how) as shell:
            try:
                shell.wait(MOST_SECONDS)
            except subprocess.TimeoutExpired:
                print(f"pages: stopped after {MOST_SECONDS} seconds", file=sys.stderr)
            finally:
                if shell.returncode is None:
                    os.killpg(shell.pid, signal.SIGKILL)
        printed.seek(0)
        return printed.read()


def first_wrong(page, folder):
    """Returns the first command of a page that doesn't do what the page says, with what it printed, or None."""
    commands = commands_of(page)
    script = "".join(
        f"{it}\n{LISTENS if ' serve ' in it else ''}\necho \"=== ended with $?\"\n" for it, _ in commands
    )
    found = iter(ENDED.split(ran(script, folder)))
    for command, wanted in commands:
        printed, status = next(found, ""), next(found, None)
        if status is None or (status != "0" if wanted is None else printed != wanted):
            return f"{command}\nprinted\n{printed}and ended with {status or 'no status'}"
    return None


def has_program(folder, program):
    """Copies the repository with this program, but without ./build, so that nothing is built there, and returns whether ./chr
    runs: if no program is given, that of out/ or of release/."""
    left_out = shutil.ignore_patterns(".git", "out", "__pycache__")
    shutil.copytree(TOP, f"{folder}/chr", symlinks=True, ignore=left_out)
    os.remove(f"{folder}/chr/build")
    if program:
        os.mkdir(f"{folder}/chr/out")
        shutil.copy(program, f"{folder}/chr/out/chr")
        sources = subprocess.run([f"{folder}/chr/release/sum"], stdout=subprocess.PIPE, text=True, check=True).stdout.strip()
        own = hashlib.sha256(pathlib.Path(program).read_bytes()).hexdigest()
        pathlib.Path(f"{folder}/chr/out/built-from").write_text(f"sources {sources}\nprogram {own}\n", encoding="utf-8")
    elif all(os.path.exists(TOP / "out" / it) for it in ("chr", "built-from")):
        os.mkdir(f"{folder}/chr/out")
        for it in ("chr", "built-from"):
            shutil.copy(TOP / "out" / it, f"{folder}/chr/out/{it}")
    return subprocess.run(["./chr", "--version"], cwd=f"{folder}/chr", capture_output=True, check=False).returncode == 0


def result_of(name, program):
    """Runs the commands of a page, and returns whether it is `ok`, `FAILED` or `skipped`."""
    with tempfile.TemporaryDirectory(prefix="chr-pages-") as folder:
        if not has_program(folder, program):
            why = f"{program} doesn't run" if program else "./chr would build a program, so no command is run"
            print(f"pages: {why}", file=sys.stderr)
            return "FAILED" if program else "skipped"
        wrong = first_wrong((TOP / name).read_text(encoding="utf-8"), folder)
    if wrong:
        print(wrong, file=sys.stderr)
    return "FAILED" if wrong else "ok"


def main(words):
    for number in (signal.SIGTERM, signal.SIGHUP):
        signal.signal(number, lambda it, _: sys.exit(128 + it))
    found = []
    for name in PAGES:
        found.append(result_of(name, words[0] if words else None))
        print(f"test pages::{pathlib.Path(name).stem} ... {found[-1]}", flush=True)
    passed, failed, skipped = (found.count(it) for it in ("ok", "FAILED", "skipped"))
    print(f"{passed} passed, {failed} failed{f', {skipped} skipped' if skipped else ''}")
    return failed != 0


if __name__ == "__main__":
    sys.exit(main(sys.argv[1:]))
