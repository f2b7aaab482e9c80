#!/usr/bin/env python3
"""Posts the tasks of a file to a server that runs the rules of the scheduler, and prints the plan: plan.py SOCKET FILE"""
import pathlib
import re
import socket
import sys


def ask(command, text=b""):
    """Sends a command with its counted bytes, and returns the lines of the reply."""
    server.sendall(command.encode() + b"\n" + text)
    first = replies.readline().rstrip("\n")
    more = int(first.split()[1]) if first.startswith(("store ", "log ")) else 0
    return [first] + [replies.readline().rstrip("\n") for _ in range(more)]


def constraints(name):
    """Returns the arguments of each constraint of the store with this name."""
    found = (re.fullmatch(rf"#\d+ {name}\((.*)\)", line) for line in store)
    return [it[1].split(",") for it in found if it]


path, file = sys.argv[1:]
rules = pathlib.Path(__file__).with_name("scheduler").joinpath("scheduler.chr").read_bytes()
with socket.socket(socket.AF_UNIX) as server:
    server.connect(path)
    replies = server.makefile(encoding="ascii", newline="\n")
    ask(f"load {len(rules)}", rules)  # E20 where another client has loaded them already
    for line in pathlib.Path(file).read_text(encoding="ascii").splitlines():
        answer = ask(f"post {line}")[0]
        if answer.startswith("fault"):
            sys.exit(f"{line}\n{answer}")
    for _ in range(1000):
        if ask("wait 1000000") != ["open"]:
            break
    store = ask("store")
    ask("quit")
starts = dict(constraints("start"))
rows = [(machine, int(starts[task]), task, int(length)) for task, machine, _, length in constraints("planned")]
for machine, start, task, length in sorted(rows):
    print(f"{machine:<8} {start:>4} to {start + length:>4}  {task}")
