#!/usr/bin/env bash
# Prints, as tables in Markdown, how many milliseconds `chr serve` takes with 1, 2 and 4 workers for seven kinds of work, beside
# `chr run` on the same: trials by a dear guard, by a cheap guard, by a guard over six heads, firings of one-head rules in
# pipelines side by side, in one chain, and in countdowns side by side, and unions, whose firings give several short goals. For
# a server it is the time from the first post to the answer `quiet`, for `chr run` that of the whole process. All are run by
# turns, TURNS times, which is twenty unless it is set;
# the median is printed, and the best in parentheses. Two servers are best compared by their medians: the processors of a
# virtual machine are faster at times, one by one, and a best of one worker is that of one processor at such a time.
# Then how many times as fast more workers are than one and than `chr run`, by the medians, and which share of their time the
# workers wait, for the lock or for a processor: there is always a goal to take, so it is what the processor time leaves of it.
# Where valgrind is installed, it prints how often the lock is held with one worker, at a smaller size of the same work, and
# which share of all instructions is counted in calls of the book, which are made under the lock.
# It builds nothing: run it by hand, on an idle machine with four processors, once `./chr` is built. `crew.sh PROGRAM..` takes
# further programs, each a build of `chr`, into the same turns.
set -eu
top=$(cd "$(dirname "${BASH_SOURCE[0]}")/.." && pwd)
program=$top/out/chr
if [ ! -x "$program" ]; then
  echo "crew.sh: $program isn't there; ./chr --help puts it there" >&2
  exit 2
fi
exec python3 - "$program" "$@" <<'PYTHON'
import os, re, shutil, socket, statistics, subprocess, sys, tempfile, time

PROGRAMS, TURNS, WORKERS = sys.argv[1:], int(os.environ.get("TURNS", "20")), (1, 2, 4)


def guard(test, holds, last):
    """Returns a guard of as many comparisons that hold and, after them, one that doesn't."""
    return ", ".join([test] * holds + [last])


def numbered(name, count):
    return ", ".join(f"{name}({number})" for number in range(1, count + 1))


def trials(heads, guards):
    return f"{heads} <=> {guards} | true.\n"


DEAR = trials("p(X), p(Y), p(Z)", guard("0 < (X*Y + Y*Z + X*Z) * (X + Y + Z)", 14, "X + Y + Z < 0"))
CHEAP = trials("p(X), p(Y), p(Z)", "X + Y + Z < 0")
SIX = trials(
    "a(A), b(B), c(C), d(D), e(E), f(F)",
    guard("0 < (A*B + C*D + E*F) * (A + B + C + D + E + F)", 15, "A + F < 0"),
)
PIPES = "".join(f"s({step}, X) <=> s({step + 1}, X).\n" for step in range(61))
COUNTDOWN = "c(X) <=> X > 0 | Y is X - 1, c(Y).\n"
# The unions come one after another.
UNIONS = """
build(0, N) <=> join(N).
build(I, N) <=> 0 < I | J is I - 1, root(I), build(J, N).
join(1) <=> true.
join(I) <=> 1 < I | J is I - 1, union(I, J, J).
union(A, A, J) <=> join(J).
up(A, B) \\ union(A, C, J) <=> union(B, C, J).
up(A, B) \\ union(C, A, J) <=> union(C, B, J).
root(A) \\ root(B), union(A, B, J) <=> up(B, A), join(J).
"""
FIVES = ", ".join(numbered(name, 5) for name in "abcde")


def pipelines(count):
    return ", ".join(f"s(0, {number})" for number in range(count))


def countdowns(count, each):
    return ", ".join([f"c({each})"] * count)


# Each kind: its name, its rules, the posts that are run before the time is taken, and the posts; then the posts of a smaller
# size of the same, how many trials or firings that has, and what they are.
KINDS = [
    ("117,600 trials, guard of fifteen comparisons, three heads", DEAR, "", numbered("p", 50), numbered("p", 20), 6840, "trials"),
    ("328,440 trials, guard of one comparison, three heads", CHEAP, "", numbered("p", 70), numbered("p", 40), 59280, "trials"),
    ("12,500 trials, guard of sixteen comparisons, six heads", SIX, FIVES, numbered("f", 4), numbered("f", 2), 6250, "trials"),
    ("12,200 firings, 200 pipelines over 61 rules of one head", PIPES, "", pipelines(200), pipelines(20), 1220, "firings"),
    ("20,000 firings, a chain of one rule of one head", COUNTDOWN, "", countdowns(1, 20000), countdowns(1, 1000), 1000, "firings"),
    ("19,200 firings, 64 countdowns by the same rule", COUNTDOWN, "", countdowns(64, 300), countdowns(16, 100), 1600, "firings"),
    ("11,998 firings, unions of 3,000 elements", UNIONS, "", "build(3000, 3000)", "build(300, 300)", 1198, "firings"),
]


def ask(file, text):
    file.write(text.encode())
    file.flush()
    return file.readline()


def wait(file):
    while ask(file, "wait 4294967295\n") != b"quiet\n":
        pass


def serve(words, rules, before, posts, path):
    """Runs a server of its own on posts, and returns the seconds and the processor seconds that it takes for the last ones."""
    server = subprocess.Popen(words, stderr=subprocess.PIPE)
    while b"listening" not in (line := server.stderr.readline()):
        if not line:
            sys.exit(f"crew.sh: {words[0]} serves nobody")
    with socket.socket(socket.AF_UNIX) as client:
        client.connect(path)
        file = client.makefile("rwb")
        ask(file, f"load {len(rules)}\n{rules}")
        if before:
            ask(file, f"post {before}.\n")
        wait(file)
        spent, start = processor_time(server.pid), time.monotonic()
        ask(file, f"post {posts}.\n")
        wait(file)
        seconds = time.monotonic() - start
        spent = processor_time(server.pid) - spent
        ask(file, "quit\n")
    server.communicate()
    return seconds, spent


def words_to_serve(program, workers, path):
    return [program, "serve", "--socket", path, "--workers", str(workers), "--sessions", "1"]


def processor_time(process):
    """Returns the processor seconds of a process so far."""
    with open(f"/proc/{process}/stat") as file:
        fields = file.read().rsplit(")", 1)[1].split()
    return (int(fields[11]) + int(fields[12])) / os.sysconf("SC_CLK_TCK")


def ran(program, rules, before, posts, room):
    """Returns the seconds of `chr run` on all posts."""
    texts = {"rules.chr": rules, "posts": f"{before}.\n" * bool(before) + f"{posts}.\n"}
    for name, text in texts.items():
        with open(os.path.join(room, name), "w") as file:
            file.write(text)
    words = [program, "run", os.path.join(room, "rules.chr"), os.path.join(room, "posts")]
    start = time.monotonic()
    subprocess.run(words, stdout=subprocess.DEVNULL, stderr=subprocess.DEVNULL, check=True)
    return time.monotonic() - start


def calls_in(profile):
    """Returns each call that callgrind counted: by whom, of what, how often, with how many instructions, and their sum over all."""
    names, calls, own, caller, callee, times = {}, [], 0, "", "", 0
    with open(profile, errors="replace") as file:
        for line in file:
            if found := re.match(r"(c?)fn=\((\d+)\)(?: (.*))?", line):
                is_call, number, name = found.groups()
                names[number] = name or names[number]
                caller, callee = (caller, names[number]) if is_call else (names[number], "")
            elif found := re.match(r"calls=(\d+)", line):
                times = int(found[1])
            elif found := re.match(r"[-+*\d]\S* (\d+)$", line):
                if times:
                    calls.append((caller, callee, times, int(found[1])))
                else:
                    own += int(found[1])
                times = 0
    return calls, own


def counted(program, rules, before, posts, room):
    """Returns how often the lock is held by calls of one worker, and the share of all instructions in calls of the book."""
    path, profile = os.path.join(room, "counted"), os.path.join(room, "profile")
    words = ["valgrind", "--tool=callgrind", f"--callgrind-out-file={profile}", *words_to_serve(program, 1, path)]
    serve(words, rules, before, posts, path)
    calls, all_instructions = calls_in(profile)
    by_workers = [it for it in calls if not re.match("chr_(book|shared_desk)::", it[0])]
    holds = sum(times for _, callee, times, _ in by_workers if re.search("::Shared::begin_(long_)?hold::", callee))
    held = sum(instructions for _, callee, _, instructions in by_workers if re.match("chr_book::book::Book::", callee))
    return holds, held / all_instructions


def told(times):
    return f"{statistics.median(times) * 1e3:.2f} ({min(times) * 1e3:.2f})"


def row(cells):
    print(f"| {' | '.join(cells)} |", flush=True)


def head(cells):
    row(cells)
    print("|---" * len(cells) + "|")


with tempfile.TemporaryDirectory() as room:
    path, times, spent = os.path.join(room, "socket"), {}, {}
    for _ in range(TURNS):
        for kind in KINDS:
            name, *given = kind[:4]
            for program in PROGRAMS:
                times.setdefault((name, program, 0), []).append(ran(program, *given, room))
                for workers in WORKERS:
                    seconds, processor = serve(words_to_serve(program, workers, path), *given, path)
                    times.setdefault((name, program, workers), []).append(seconds)
                    spent.setdefault((name, program, workers), []).append(processor)
    for program in PROGRAMS:
        print(f"\n{program}, milliseconds\n")
        head(["Work", "`chr run`", "1 worker", "2", "4", "2 to 1", "4 to 1", "4 to `chr run`", "They wait (1)", "(2)", "(4)"])
        for name, *_ in KINDS:
            middle = {it: statistics.median(times[name, program, it]) for it in (0, *WORKERS)}
            ratios = [f"{middle[a] / middle[b]:.2f}" for a, b in ((1, 2), (1, 4), (0, 4))]
            waits = [1 - sum(spent[name, program, it]) / (it * sum(times[name, program, it])) for it in WORKERS]
            row([name, *(told(times[name, program, it]) for it in (0, *WORKERS)), *ratios, *(f"{max(0.0, it):.0%}" for it in waits)])
    if shutil.which("valgrind"):
        print(f"\n{PROGRAMS[0]}, one worker\n")
        head(["Work", "Holds", "Under the lock"])
        for name, rules, before, _, fewer, count, what in KINDS:
            holds, share = counted(PROGRAMS[0], rules, before, fewer, room)
            each = f"{holds / count:.2f} a firing" if what == "firings" else f"{holds / count * 1000:.1f} a thousand trials"
            row([name, each, f"{share:.0%}"])
PYTHON
