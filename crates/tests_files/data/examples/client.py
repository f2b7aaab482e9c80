#!/usr/bin/env python3
"""Posts numbers to a server, and prints the greatest common divisor of all that it has been sent: client.py SOCKET N .."""
import pathlib
import socket
import sys


def ask(command, text=b""):
    """Sends a command with its counted bytes, and returns the lines of the reply."""
    server.sendall(command.encode() + b"\n" + text)
    first = replies.readline().rstrip("\n")
    more = int(first.split()[1]) if first.startswith(("store ", "log ")) else 0
    return [first] + [replies.readline().rstrip("\n") for _ in range(more)]


path, numbers = sys.argv[1], [int(it) for it in sys.argv[2:]]
rules = pathlib.Path(__file__).with_name("gcd").joinpath("gcd.chr").read_bytes()
with socket.socket(socket.AF_UNIX) as server:
    server.connect(path)
    replies = server.makefile(encoding="ascii", newline="\n")
    print(*ask(f"load {len(rules)}", rules))  # E20 where another session has loaded rules already
    print(*ask(f"post {', '.join(f'gcd({it})' for it in numbers)}."))
    for _ in range(1000):
        if ask("wait 1000000") != ["open"]:
            break
    print(*ask("store"), *ask("quit"), sep="\n")
