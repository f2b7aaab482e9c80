#!/usr/bin/env python3
"""Tests what ./prove counts, in a small repository whose `rt` is a stand-in that proves nothing: the program of release/ beside
the one that was proved, the pages, and the edits that stand against earlier statements. Each test is a line
`test proving::NAME ... ok` or `test proving::NAME ... FAILED`."""
import hashlib
import lzma
import os
import subprocess
import sys
import tempfile
import traceback

TOP = os.path.dirname(os.path.dirname(os.path.realpath(__file__)))
KIT = "kit-1 logic 0123"
LOW = "pub fn low() -> u8\n    ensures {{ result ≡ {} }}\n{{\n    {}\n}}\n"
# `rt ci` makes the program; `rt must-fail` says what the file said-of-NAME of the kit has, and waits where there is none.
RT = """#!/bin/sh
case "$1" in
  version) cat "$KIT/version" ;;
  doc) echo "$KIT/START.md" ;;
  ci)
    [ -z "$(find crates -name must-fail)" ] || echo 'edits are here'
    mkdir -p crates/chr_program/out
    cp "$KIT/program" crates/chr_program/out/chr_program
    cat "$KIT/said-by-ci"
    tail -n 1 "$KIT/said-by-ci" | grep -q ', 0 failed$' ;;
  must-fail)
    [ -d "crates/$2/must-fail" ] || exit 1
    [ -e "$KIT/said-of-$2" ] || exec sleep 1000
    cat "$KIT/said-of-$2" ;;
esac
"""
# The end of ./build, and what it does here where it is run.
BUILDS = '__main__":\n    main(sys.argv[1:])\n'
SAYS_SO = '__main__":\n    print("built", *sys.argv[1:])\n    sys.exit(os.environ["libraries"] != "proved")\n'
RTLIB = "class Crate:\n    def stamp(self):\n        return ''\n\n\ndef crates_below(top):\n    return []\n"
REFUSED = "rt: must-fail {}: refused, as it must be: src/lib.rt:1:1: error\n"
WEAK = "rt: must-fail {}: refused, as it must be (only because a proof file names what the edit took away)\n"
LEFT = "rt: must-fail {}: NOT REFUSED: the crate is still proved with this edit\n"


def text_of(path):
    with open(path, encoding="utf-8") as file:
        return file.read()


def write(path, text, is_run=False):
    os.makedirs(os.path.dirname(path), exist_ok=True)
    with open(path, "wb") as file:
        file.write(text if isinstance(text, bytes) else text.encode())
    os.chmod(path, 0o755 if is_run else 0o644)


class Repository:
    """A repository with the crates low, middle above it with two edits, and alone with one, all of which stand."""

    def __init__(self, folder):
        self.folder, self.kit, self.libraries = f"{folder}/repository", f"{folder}/kit", "proved"
        write(f"{self.kit}/bin/rt", RT, True)
        write(f"{self.kit}/bin/rtlib.py", RTLIB)
        write(f"{self.kit}/version", f"{KIT}\n")
        write(f"{self.kit}/program", "proved")
        write(f"{self.kit}/said-by-ci", "5 passed, 0 failed\n")
        for path in ("prove", "tools/statements.py", "build"):
            self.write(path, text_of(f"{TOP}/{path}").replace(BUILDS, SAYS_SO), True)
        self.write(".gitignore", "out/\n__pycache__/\n")
        self.write("release/sum", "#!/bin/sh\necho 77\n", True)
        self.write("tests/scripts.sh", "#!/bin/sh\necho 3 passed, 0 failed\n", True)
        self.write("tests/pages.py", '#!/bin/sh\n[ "$(cat "$1")" = proved ] && echo 2 passed, 0 failed\n', True)
        self.write("crates.txt", "low:\nmiddle: low\nalone:\nchr_program: middle\n")
        self.write("crates/low/src/lib.rt", LOW.format(1, 1))
        for name, edits in (("middle", "ab"), ("alone", "c")):
            self.write(f"crates/{name}/src/lib.rt", f"pub fn {name}() {{}}\n")
            for it in edits:
                self.write(f"crates/{name}/must-fail/{it}.edit", "file: src/lib.rt\nold: {}\nnew: { }\n")
        self.edits("middle", REFUSED, REFUSED)
        self.edits("alone", REFUSED)
        self.release("proved")
        self.git("init", "-q")
        self.commit()
        assert self.prove("middle", "alone")[-1] == "3 passed, 0 failed"
        self.commit()

    def write(self, path, text, is_run=False):
        write(f"{self.folder}/{path}", text, is_run)

    def edits(self, name, *said):
        """Has `rt must-fail` say this of the crate's edits."""
        write(f"{self.kit}/said-of-{name}", "".join(it.format(f"{name}/{at}") for at, it in enumerate(said)))

    def release(self, program, sources=77, kit=KIT, packed=None):
        own = hashlib.sha256(program.encode()).hexdigest()
        self.write("release/built-from", f"kit {kit}\nsources {sources}\nprogram {own}\n")
        self.write("release/chr-x86_64-linux.xz", lzma.compress((packed or program).encode()))

    def git(self, *words, day="2026-01-01T00:00:00"):
        who = ["-c", "user.name=test", "-c", "user.email=test@test", "-c", "commit.gpgsign=false"]
        env = {**os.environ, "GIT_COMMITTER_DATE": day, "GIT_AUTHOR_DATE": day}
        subprocess.run(["git", *who, *words], cwd=self.folder, env=env, check=True, stdout=subprocess.DEVNULL)

    def commit(self, day="2026-01-01T00:00:00"):
        self.git("add", "-A")
        self.git("commit", "-q", "--allow-empty", "-m", "A change", day=day)

    def prove(self, *words):
        """Runs ./prove, holds its status to its last line, and returns its lines."""
        env = {**os.environ, "PATH": f"{self.kit}/bin:{os.environ['PATH']}", "KIT": self.kit, "libraries": self.libraries}
        how = {"stdin": subprocess.DEVNULL, "stdout": subprocess.PIPE, "stderr": subprocess.STDOUT, "text": True}
        ran = subprocess.run([f"{self.folder}/prove", *words], env=env, check=False, **how)
        lines = ran.stdout.splitlines()
        assert ran.returncode == (0 if ", 0 failed" in lines[-1] else 1), ran.stdout
        return lines

    def last(self, *words):
        return self.prove(*words)[-1]

    def tried(self):
        return [it.split() for it in text_of(f"{self.folder}/edits-tried.txt").splitlines() if not it.startswith("#")]


def all_that_stands_is_counted_once(it):
    # The tests of the scripts, rt ci, the release and the pages; the edits stand.
    assert it.last() == "11 passed, 0 failed"
    assert "prove: 3 edits of 2 crates stand against these very statements, by edits-tried.txt" in it.prove()


def release_that_is_missing_is_skipped(it):
    os.remove(f"{it.folder}/release/built-from")
    assert it.last() == "10 passed, 0 failed, 1 skipped"


def release_of_other_sources_is_skipped(it):
    it.release("proved", sources=78)
    assert it.last() == "10 passed, 0 failed, 1 skipped"


def release_by_this_kit_is_the_same_program(it):
    it.release("proven")
    assert it.last() == "10 passed, 1 failed"


def release_by_another_kit_may_differ(it):
    it.release("proved", kit="kit-2 logic 0123")
    lines = it.prove()
    assert lines[-1] == "11 passed, 0 failed"
    assert "prove: release: made by kit-2 logic 0123, compared by kit-1 logic 0123" in lines
    it.release("proven", kit="kit-2 logic 0123")
    assert it.last() == "10 passed, 0 failed, 1 skipped"


def release_that_is_damaged_fails(it):
    it.release("proved", packed="proven", kit="kit-2 logic 0123")
    assert it.last() == "10 passed, 1 failed"
    it.write("release/chr-x86_64-linux.xz", "no archive")
    assert it.last() == "10 passed, 1 failed"


def tests_that_are_skipped_are_said(it):
    it.write("tests/scripts.sh", "#!/bin/sh\necho 2 passed, 0 failed, 1 skipped\n", True)
    assert it.last() == "10 passed, 0 failed, 1 skipped"


def without_a_program_nothing_is_compared(it):
    it.write("crates/middle/src/lib.rt", "pub fn other() {}\n")
    write(f"{it.kit}/said-by-ci", "4 passed, 1 failed\n")
    # The release, the pages and the two edits of the crate that has changed.
    assert it.last() == "7 passed, 1 failed, 4 skipped"


def body_below_leaves_edits_standing(it):
    it.write("crates/low/src/lib.rt", LOW.format(1, "2 - 1"))
    it.edits("middle", LEFT, LEFT)
    assert it.last() == "11 passed, 0 failed"


def clause_below_has_edits_tried(it):
    it.write("crates/low/src/lib.rt", LOW.format("result", 1))
    lines = it.prove()
    assert lines[-1] == "13 passed, 0 failed"
    assert "prove: 1 edits of 1 crates stand against these very statements, by edits-tried.txt" in lines
    assert "prove: they stand against earlier statements of the crates below: middle" in lines
    it.edits("middle", REFUSED, LEFT)
    assert it.last() == "12 passed, 1 failed"
    it.edits("middle", REFUSED, WEAK)
    assert it.last() == "12 passed, 1 failed"


def own_text_has_edits_tried(it):
    it.write("crates/middle/src/lib.rt", "pub fn middle() { }\n")
    assert it.last() == "13 passed, 0 failed"
    it.commit()
    lines = it.prove()
    assert lines[-1] == "13 passed, 0 failed"
    assert "prove: they stand against an earlier text of the crate itself, or against none: middle" in lines


def crate_without_a_line_is_tried(it):
    it.write("edits-tried.txt", "".join(f"{' '.join(row)}\n" for row in it.tried() if row[0] != "alone"))
    assert it.last() == "12 passed, 0 failed"
    # A line with a tree alone says nothing of the statements below.
    it.write("edits-tried.txt", "".join(f"{' '.join(row[:2])}\n" for row in it.tried()))
    assert it.last() == "14 passed, 0 failed"


def crates_come_in_order(it):
    for name, tree in (("low", "t"), ("new", "u")):
        it.write(f"crates/{name}/must-fail/a.edit", tree)
    it.write("crates.txt", "low:\nmiddle: low\nalone:\nnew:\nchr_program: middle\n")
    # By the times of commits: alone was written last, and new has no line.
    lines = it.tried()
    for name, day in (("low", 3), ("middle", 1), ("alone", 2)):
        lines = [row for row in lines if row[0] != name] + [[name, "tree", f"sum-{day}"]]
        it.write("edits-tried.txt", "".join(f"{' '.join(row)}\n" for row in lines))
        it.commit(f"2026-01-0{day}T00:00:00")
    first = "prove: they stand against an earlier text of the crate itself, or against none: "
    it.libraries = "refused"
    assert f"{first}new middle alone low" in it.prove("--edits")
    # Only the statements below low are others: it comes last, though its line is older than that of alone.
    tree = subprocess.run(["git", "rev-parse", "HEAD:crates/low"], cwd=it.folder, stdout=subprocess.PIPE, text=True, check=True)
    it.write("edits-tried.txt", "".join(f"{' '.join(row)}\n" for row in lines).replace("low tree", f"low {tree.stdout.strip()}"))
    said = it.prove("--edits")
    assert f"{first}new middle alone" in said
    assert "prove: they stand against earlier statements of the crates below: low" in said


def edits_past_the_time_are_skipped(it):
    it.write("crates/low/src/lib.rt", LOW.format("result", 1))
    os.remove(f"{it.kit}/said-of-middle")
    text = text_of(f"{it.folder}/prove")
    assert text.count("MOST_MINUTES = 25\n") == 1
    it.write("prove", text.replace("MOST_MINUTES = 25\n", "MOST_MINUTES = 0.01\n"), True)
    lines = it.prove()
    assert lines[-1] == "11 passed, 0 failed, 2 skipped"
    assert "prove: 0.01 minutes have passed; ./prove --edits tries the rest: middle" in lines


def all_earlier_edits_are_tried_and_written(it):
    before = it.tried()
    assert [row[0] for row in before] == ["alone", "middle"] and all(len(row) == 3 for row in before)
    it.write("crates/low/src/lib.rt", LOW.format("result", 1))
    it.edits("alone", LEFT)
    it.edits("middle", REFUSED, LEFT)
    lines = it.prove("--edits")
    assert lines[-1] == "1 passed, 1 failed" and "built low" in lines and it.tried() == before
    it.edits("middle", REFUSED, REFUSED)
    assert it.last("--edits") == "2 passed, 0 failed"
    after = it.tried()
    assert after[0] == before[0] and after[1][:2] == before[1][:2] and after[1][2] != before[1][2]
    assert it.last("--edits") == "0 passed, 0 failed"
    it.libraries = "refused"
    assert it.last("middle") == "0 passed, 1 failed, 2 skipped"


def changes_that_are_not_committed_get_no_line(it):
    before = it.tried()
    it.write("crates/alone/src/lib.rt", "pub fn alone() { }\n")
    assert it.last("alone") == "1 passed, 0 failed" and it.tried() == before
    it.commit()
    assert it.last("alone") == "1 passed, 0 failed" and it.tried()[0][1] != before[0][1]


TESTS = [
    all_that_stands_is_counted_once,
    release_that_is_missing_is_skipped,
    release_of_other_sources_is_skipped,
    release_by_this_kit_is_the_same_program,
    release_by_another_kit_may_differ,
    release_that_is_damaged_fails,
    tests_that_are_skipped_are_said,
    without_a_program_nothing_is_compared,
    body_below_leaves_edits_standing,
    clause_below_has_edits_tried,
    own_text_has_edits_tried,
    crate_without_a_line_is_tried,
    crates_come_in_order,
    edits_past_the_time_are_skipped,
    all_earlier_edits_are_tried_and_written,
    changes_that_are_not_committed_get_no_line,
]


def main():
    failed = 0
    for test in TESTS:
        with tempfile.TemporaryDirectory(prefix="chr-proving-") as folder:
            try:
                test(Repository(folder))
                print(f"test proving::{test.__name__} ... ok", flush=True)
            except Exception:  # pylint: disable=broad-except
                traceback.print_exc()
                print(f"test proving::{test.__name__} ... FAILED", flush=True)
                failed = 1
    return failed


if __name__ == "__main__":
    sys.exit(main())
