#!/usr/bin/env bash
# Runs a server of sixteen workers for so many seconds, with a session in each of its sixteen seats: fifteen that post at a
# steady rate and one that reads the log. Beside them clients send garbage, break off, don't read, or go away in a `wait`:
# soak.sh SECONDS. A session that posts ends after some seconds and another begins, so now and then such a client has a seat.
#
# Each reply is checked as it comes (the tickets of a session rise, and none is given twice). The log is fetched by parts, and
# at the end `chr check` must accept them as one log, which has as many posts as were answered. The first fault ends the run;
# nothing is waited for without an end. Prints tables in Markdown: at each tenth of the time how many entries there are, the
# memory and the descriptors of the server; at the end how long posts took, beside the longest pause of a process that only
# sleeps, since such machines pause too. It builds nothing: run it by hand, once `./chr` is built. An hour makes a log of ten
# million entries, whose check takes some 2.5 GB.
set -eu
top=$(cd "$(dirname "${BASH_SOURCE[0]}")/.." && pwd)
program=$top/out/chr
if [ ! -x "$program" ]; then
  echo "soak.sh: $program isn't there; ./chr --help puts it there" >&2
  exit 2
fi
exec python3 - "$program" "${1:?how many seconds}" <<'PYTHON'
import multiprocessing, os, queue, random, select, signal, socket, subprocess, sys, tempfile, time

RULES = b"n(I, 0) <=> true.\nn(I, K) <=> 0 < K | L is K - 1, n(I, L).\n"
# A session that posts lasts some STAY seconds.
SESSIONS, HOSTILE, STAY = 15, 6, 8.0
# A post of `n(I, 4)` gives five tickets and makes eleven entries, so that a tenth of the log keeps the limit on a part.
MOST_POSTS, TICKETS = 900_000, 5
# After so many seconds without a reply, a seat, or an end, something is broken.
PATIENCE = 60.0
PROGRAM, SECONDS = sys.argv[1], float(sys.argv[2])
RATE = min(2000.0, MOST_POSTS / SECONDS)

context = multiprocessing.get_context("fork")


class Broken(Exception):
    """What went wrong."""


def message_of(error):
    return str(error) if isinstance(error, Broken) else repr(error)


class Client:
    def __init__(self, path):
        self.socket = socket.socket(socket.AF_UNIX)
        self.socket.settimeout(PATIENCE)
        try:
            self.socket.connect(path)
        except OSError:
            self.socket.close()
            raise
        self.file = self.socket.makefile("rwb")

    def ask(self, line):
        """Returns the words of the first line of the reply: none where the connection has ended."""
        self.file.write(line)
        self.file.flush()
        return self.file.readline().decode().split()

    def lines(self, line):
        """Returns the lines that follow the first one of a reply that counts them."""
        reply = self.ask(line)
        if len(reply) != 2 or reply[0] != line.split()[0].decode():
            raise Broken(f"{line.decode().strip()} was answered {' '.join(reply) or 'nothing'}")
        lines = [self.file.readline() for _ in range(int(reply[1]))]
        if lines and not lines[-1].endswith(b"\n"):
            raise Broken(f"the reply to {line.decode().strip()} was cut")
        return lines

    def quit(self):
        """Ends the session, and comes to the end of its replies: then its seat is free."""
        if self.ask(b"quit\n") != ["bye"] or self.file.read() != b"":
            raise Broken("quit wasn't answered bye alone")
        self.close()

    def close(self):
        for it in (self.file, self.socket):
            try:
                it.close()
            except OSError:
                pass


def seated(path, broken):
    """Returns a client that has a seat, and how often none was free before."""
    refused, latest = 0, time.monotonic() + PATIENCE
    while time.monotonic() < latest and not broken.is_set():
        client = Client(path)
        try:
            reply = client.ask(b"wait 0\n")
        except BrokenPipeError:  # it was refused before it had asked
            reply = client.socket.recv(100).decode().split()
        if reply in (["quiet"], ["open"]):
            return client, refused
        client.close()
        if reply != ["fault", "E18", "NoSeat"]:
            raise Broken(f"a new session was told {' '.join(reply) or 'nothing'}")
        refused += 1
        time.sleep(0.005)
    raise Broken("no seat was free")


def post_steadily(path, number, end, given, ready, broken, told):
    """Posts at this process's part of the rate, in one session after another. Tells what went wrong, how long each post
    took, and how often no seat was free."""
    took, last, refused, fault = [], 0, 0, None
    try:
        client, refused = seated(path, broken)
        ready.release()
        leaves = time.monotonic() + STAY * (0.5 + random.random())
        due = time.monotonic() + random.random() * SESSIONS / RATE
        while time.monotonic() < end and not broken.is_set():
            time.sleep(max(0.0, due - time.monotonic()))
            due = max(due + SESSIONS / RATE, time.monotonic())
            begin = time.monotonic()
            reply = client.ask(b"post n(%d, 4).\n" % number)
            took.append(time.monotonic() - begin)
            if len(reply) != 3 or reply[0] != "posted" or reply[2] != "1" or int(reply[1]) <= last:
                raise Broken(f"was told {' '.join(reply) or 'nothing'} after ticket {last}")
            last = int(reply[1])
            with given.get_lock():
                twice, given[last] = given[last], 1
            if twice:
                raise Broken(f"was told ticket {last}, which was given before")
            if time.monotonic() > leaves:
                client.quit()
                time.sleep(random.random() / 5)
                client, more = seated(path, broken)
                refused += more
                leaves = time.monotonic() + STAY * (0.5 + random.random())
        client.quit()
    except Exception as error:  # whatever it is, it is told
        fault = f"session {number}: {message_of(error)}"
        broken.set()
    told.put((fault, took, refused))


def misbehave(client, chance):
    what = chance.randrange(6)
    if what == 0:
        client.socket.sendall(chance.randbytes(chance.randrange(1, 9000)))
    elif what == 1:
        client.socket.sendall(b"load 60000\nhalf of it")
    elif what == 2:
        client.socket.sendall(b"wait 1000000\n" * 20)
    elif what == 3:
        client.socket.sendall(b"store\n" * 50)
    elif what == 4:
        client.socket.sendall(b"post n(1, 2)")
    time.sleep(chance.random() / 4 if not is_refused(client) else 0.01)


def is_refused(client):
    """Whether a client was told by now that there is no seat. It stays unread."""
    client.socket.setblocking(False)
    try:
        return client.socket.recv(16, socket.MSG_PEEK) == b"fault E18 NoSeat"
    except OSError:
        return False


def be_hostile(path, end, broken, told):
    """Connects again and again, and does what no client should. Tells how often, and how often it had no seat."""
    chance = random.Random(os.getpid())
    connected, refused = 0, 0
    while time.monotonic() < end and not broken.is_set():
        try:
            client = Client(path)
        except OSError:
            time.sleep(0.01)
            continue
        connected += 1
        try:
            misbehave(client, chance)
        except OSError:
            pass
        refused += is_refused(client)
        client.close()
    told.put((connected, refused))


def sleep_on(end, broken, told):
    longest, before = 0.0, time.monotonic()
    while before < end and not broken.is_set():
        time.sleep(0.001)
        now = time.monotonic()
        longest, before = max(longest, now - before - 0.001), now
    told.put(longest)


def held(server):
    """Returns the bytes of memory that the server has, and its descriptors."""
    with open(f"/proc/{server.pid}/status", encoding="ascii") as file:
        memory = next(int(it.split()[1]) for it in file if it.startswith("VmRSS:"))
    return 1024 * memory, len(os.listdir(f"/proc/{server.pid}/fd"))


class Log:
    """The log in parts, as a client keeps it that fetches it while the run goes on."""

    def __init__(self, observer, room):
        self.observer, self.room, self.entries, self.posts, self.paths = observer, room, 0, 0, []

    def fetch(self):
        lines = self.observer.lines(b"log %d\n" % (self.entries + 1))
        path = os.path.join(self.room, f"part.{len(self.paths)}")
        with open(path, "wb") as file:
            file.writelines(lines if self.paths else [b"chr-log 2\n", *lines])
        self.entries += len(lines)
        self.posts += sum(it.startswith(b"P ") for it in lines)
        self.paths.append(path)


def watch(server, log, begin, broken):
    """Fetches a part of the log and prints a row at each tenth of the time, until something is broken."""
    print("| Seconds | Entries | Memory, bytes | Bytes an entry | Descriptors |\n|---|---|---|---|---|")
    first = held(server)[0]
    for tenth in range(1, 11):
        if broken.wait(max(0.0, begin + SECONDS * tenth / 10 - time.monotonic())):
            return
        # Before the log is fetched, which takes memory for its text.
        memory, descriptors = held(server)
        log.fetch()
        each = (memory - first) / max(log.entries, 1)
        row = f"| {time.monotonic() - begin:.0f} | {log.entries:,} | {memory:,} | {each:.0f} | {descriptors} |"
        print(row, flush=True)


def check(observer, log, room):
    """Returns what the check of the whole log says, in the parts that were fetched, once no goal is open."""
    latest = time.monotonic() + PATIENCE
    while observer.ask(b"wait 1000\n") != ["quiet"]:
        if time.monotonic() > latest:
            raise Broken("a goal stays open")
    log.fetch()
    rules, store = os.path.join(room, "rules"), os.path.join(room, "store")
    for path, text in ((rules, RULES), (store, b"".join(observer.lines(b"store\n")))):
        with open(path, "wb") as file:
            file.write(text)
    words = [PROGRAM, "check", rules, log.paths[0], store]
    for path in log.paths[1:]:
        words += ["--log", path]
    answer = subprocess.run(words, capture_output=True, text=True, check=False, timeout=10 * PATIENCE)
    return "chr check: " + (answer.stdout + answer.stderr).strip()


def soak(server, path, room):
    """Prints the tables, and returns what went wrong."""
    observer = Client(path)
    if observer.ask(b"load %d\n" % len(RULES) + RULES) != ["loaded", "2"]:
        raise Broken("the rules weren't loaded")
    log, faults = Log(observer, room), []
    given = context.Array("b", 2 * TICKETS * MOST_POSTS)
    broken, ready = context.Event(), context.Semaphore(0)
    told, hostile, pause = context.Queue(), context.Queue(), context.Queue()
    begin = time.monotonic()
    # Clients go on a little longer, so that the last row tells of all of them.
    end = begin + SECONDS + 1
    for it in range(SESSIONS):
        start(post_steadily, path, it, end, given, ready, broken, told)
    # Those who post have their seats before others ask for one.
    if not all(ready.acquire(timeout=PATIENCE) for _ in range(SESSIONS)):
        broken.set()
    for _ in range(HOSTILE):
        start(be_hostile, path, end, broken, hostile)
    start(sleep_on, end, broken, pause)
    try:
        watch(server, log, begin, broken)
    except (Broken, OSError) as error:
        faults.append(f"the session that reads: {message_of(error)}")
        broken.set()
    answers = [take(told) for _ in range(SESSIONS)]
    faults += [it[0] for it in answers if it[0]]
    if server.poll() is not None:
        faults.append(f"the server ended with status {server.returncode}")
    took = sorted(it for answer in answers for it in answer[1])
    if not faults:
        answer = check(observer, log, room)
        if answer != "chr check: run final":
            faults.append(answer)
        if log.posts != len(took):
            faults.append(f"{len(took)} posts were answered, and the log has {log.posts}")
        observer.quit()
    tell(took, sum(it[2] for it in answers), [take(hostile) for _ in range(HOSTILE)], take(pause))
    return faults


def run(target, args):
    signal.signal(signal.SIGINT, signal.SIG_IGN)  # the parent ends it
    signal.signal(signal.SIGTERM, signal.SIG_DFL)
    target(*args)


def start(target, *args):
    context.Process(target=run, args=(target, args), daemon=True).start()


def take(told):
    """Returns what a process tells that has ended."""
    try:
        return told.get(timeout=2 * PATIENCE)
    except queue.Empty:
        raise Broken("a client doesn't end") from None


def tell(took, waited, hostile, longest):
    """Prints how long posts took, and how the seats were shared."""
    at = lambda share: f"{1000 * took[min(len(took) - 1, int(share * len(took)))]:.2f}" if took else "none"
    print("\n| Posts | Median, ms | 99 per cent | 99.9 per cent | Longest | Longest pause of a sleeper |")
    print("|---|---|---|---|---|---|")
    print(f"| {len(took):,} | {at(0.5)} | {at(0.99)} | {at(0.999)} | {at(1)} | {1000 * longest:.1f} |")
    connected, refused = (sum(it) for it in zip(*hostile))
    print("\n| Hostile connections | Of them without a seat | Times that a session found no seat |\n|---|---|---|")
    print(f"| {connected:,} | {refused:,} | {waited:,} |")


def main(room):
    path = os.path.join(room, "socket")
    words = [PROGRAM, "serve", "--socket", path, "--workers", "16"]
    server = subprocess.Popen(words, stderr=subprocess.PIPE)
    try:
        if not select.select([server.stderr], [], [], PATIENCE)[0] or b"listening" not in server.stderr.readline():
            raise Broken("the server doesn't listen")
        faults = soak(server, path, room)
    except Exception as error:  # whatever it is, it is told
        faults = [message_of(error)]
    finally:
        server.kill()
        server.wait()
    print(f"\n{'; '.join(faults) or 'chr check: run final'}")
    return 1 if faults else 0


signal.signal(signal.SIGTERM, lambda *_: sys.exit("stopped"))
with tempfile.TemporaryDirectory() as folder:
    sys.exit(main(folder))
PYTHON
