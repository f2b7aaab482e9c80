#!/usr/bin/env bash
# Prints, as a table in Markdown, how many firings a second `chr serve` makes with 1, 2 and 4 workers, and how often its threads
# give up a processor for each thousand of them, for two programs: a chain, in which each firing adds the one constraint that the
# next one takes, and 64 countdowns side by side. The time is that from the first post to the answer `quiet`. All are run by turns,
# each by a server of its own, TURNS times, which is twenty unless it is set; those of the best server are printed, and of the
# median. Then, for servers with a log of a million entries, how many firings a second two workers make alone, and beside a
# client that reads again and again: the log, its last thirty-third or thirtieth, an empty store, or one of 50,000 constraints;
# and beside fourteen clients that wait. It builds nothing: run it by hand, on an idle machine with four processors, once
# `./chr` is built.
set -eu
top=$(cd "$(dirname "${BASH_SOURCE[0]}")/.." && pwd)
program=$top/out/chr
if [ ! -x "$program" ]; then
  echo "serve.sh: $program isn't there; ./chr --help builds it" >&2
  exit 2
fi
exec python3 - "$program" <<'PYTHON'
import os, resource, socket, statistics, subprocess, sys, tempfile, threading, time

TURNS, WORKERS = int(os.environ.get("TURNS", "20")), (1, 2, 4)
CHAIN = b"gcd(0) <=> true.\ngcd(N) \\ gcd(M) <=> 0 < N, N =< M | L is M - N, gcd(L).\n"
COUNTDOWN = b"n(I, 0) <=> true.\nn(I, K) <=> 0 < K | L is K - 1, n(I, L).\n"
PROGRAMS = [
    ("chain", CHAIN, b"gcd(1), gcd(20000)", 20001),
    ("countdowns", COUNTDOWN, b", ".join(b"n(%d, 300)" % i for i in range(64)), 64 * 301),
]


def ask(file, text):
    file.write(text)
    file.flush()
    return file.readline()


def spent(rules, posts, workers, path):
    """Returns the seconds of a run by a server of its own, and how often its threads gave up a processor."""
    before = resource.getrusage(resource.RUSAGE_CHILDREN)
    words = [sys.argv[1], "serve", "--socket", path, "--workers", str(workers), "--sessions", "1"]
    server = subprocess.Popen(words, stderr=subprocess.PIPE)
    server.stderr.readline()
    with socket.socket(socket.AF_UNIX) as client:
        client.connect(path)
        file = client.makefile("rwb")
        ask(file, b"load %d\n" % len(rules) + rules)
        start = time.monotonic()
        ask(file, b"post " + posts + b".\n")
        while ask(file, b"wait 4294967295\n") != b"quiet\n":
            pass
        seconds = time.monotonic() - start
        ask(file, b"quit\n")
    server.communicate()
    after = resource.getrusage(resource.RUSAGE_CHILDREN)
    return seconds, after.ru_nvcsw - before.ru_nvcsw


print("| Program | Firings | Workers | Firings a second, best | Median | Pauses for 1,000 firings of the best |")
print("|---|---|---|---|---|---|")
with tempfile.TemporaryDirectory() as room:
    path, runs = os.path.join(room, "socket"), {}
    for _ in range(TURNS):
        for name, rules, posts, _ in PROGRAMS:
            for workers in WORKERS:
                runs.setdefault((name, workers), []).append(spent(rules, posts, workers, path))
    for name, _, _, firings in PROGRAMS:
        for workers in WORKERS:
            seconds, pauses = min(runs[name, workers])
            middle = statistics.median(it for it, _ in runs[name, workers])
            rates = f"{firings / seconds:,.0f} | {firings / middle:,.0f}"
            print(f"| {name} | {firings} | {workers} | {rates} | {1000 * pauses / firings:.1f} |", flush=True)


class Client:
    """A connection whose replies are counted, and not kept."""

    def __init__(self, path):
        self.socket = socket.socket(socket.AF_UNIX)
        self.socket.connect(path)

    def ask(self, line):
        """Returns the first line of the reply, once all its lines are there."""
        self.socket.sendall(line)
        lines, most, front = 0, None, b""
        while most is None or lines < most:
            part = self.socket.recv(1 << 20)
            if not part:
                raise EOFError
            lines += part.count(b"\n")
            if most is None:
                front += part
                if b"\n" in front:
                    front = front.split(b"\n")[0]
                    most = 1 + (int(front.split()[1]) if front.startswith((b"log ", b"store ")) else 0)
        return front

    def run(self, posts):
        """Posts, and waits until no goal is open."""
        self.ask(b"post " + posts + b".\n")
        while self.ask(b"wait 4294967295\n") != b"quiet":
            pass


def read_log(share):
    """Returns what reads this share of the log, its end, again and again."""

    def read(client, entries, ended, times):
        while not ended.is_set():
            begin = entries - int(share * entries)
            entries = begin + int(client.ask(b"log %d\n" % (begin + 1)).split()[1])
            times.append(1)

    return read


def read_store(client, _entries, ended, times):
    while not ended.is_set():
        client.ask(b"store\n")
        times.append(1)


def wait_again(client, _entries, ended, times):
    while not ended.is_set():
        if client.ask(b"wait 1000000\n") == b"quiet":
            time.sleep(0.01)
        times.append(1)


def timed(client):
    """Returns the firings a second of five runs, one after another, of 64 countdowns from 1,000."""
    start = time.monotonic()
    for _ in range(5):
        client.run(b", ".join(b"n(%d, 1000)" % i for i in range(64)))
    return 5 * 64 * 1001 / (time.monotonic() - start)


def beside(path, constraints, others, does):
    """Returns the firings a second alone and beside so many other clients, and how often these were answered. The log has a
    million entries, and the store so many constraints."""
    words = [sys.argv[1], "serve", "--socket", path, "--workers", "2"]
    server = subprocess.Popen(words, stderr=subprocess.PIPE)
    try:
        server.stderr.readline()
        client = Client(path)
        client.ask(b"load %d\n" % len(COUNTDOWN) + COUNTDOWN)
        for first in range(0, constraints, 250):
            client.run(b", ".join(b"m(%d)" % i for i in range(first, first + 250)))
        client.run(b", ".join(b"n(%d, 5300)" % i for i in range(64)))
        alone = timed(client)
        entries = int(client.ask(b"log 1\n").split()[1])
        ended, times = threading.Event(), []
        threads = []
        for _ in range(others):
            threads.append(threading.Thread(target=does, args=(Client(path), entries, ended, times), daemon=True))
            threads[-1].start()
        together = timed(client)
        ended.set()
        for it in threads:
            it.join()
        return alone, together, len(times)
    finally:
        server.kill()
        server.wait()
        os.remove(path)


OTHERS = [
    ("a client that reads the log", 0, 1, read_log(1)),
    ("a client that reads the last 1/33 of the log", 0, 1, read_log(1 / 33)),
    ("a client that reads the last 1/30 of the log", 0, 1, read_log(1 / 30)),
    ("a client that reads the empty store", 0, 1, read_store),
    ("a client that reads a store of 50,000 constraints", 50_000, 1, read_store),
    ("fourteen clients in a `wait`", 0, 14, wait_again),
]

print()
print("| Countdowns by two workers, after a million entries, beside | Replies | Firings a second alone | Beside it | Change |")
print("|---|---|---|---|---|")
with tempfile.TemporaryDirectory() as room:
    for name, constraints, others, does in OTHERS:
        alone, together, times = beside(os.path.join(room, "socket"), constraints, others, does)
        change = 100 * (together / alone - 1)
        print(f"| {name} | {times:,} | {alone:,.0f} | {together:,.0f} | {change:+.0f} % |", flush=True)
PYTHON
