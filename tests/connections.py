#!/usr/bin/env python3
"""Serves a track with the program `rbc`, and talks to it over connections, as the steps of the standard input say.

    connections TRACK CONNECTIONS WORKERS [CLIENT ..]

With no workers, 0, there is no sweep.

A step is a line: the number of a connection, and what it does. A connection is opened by its first step.

    1 open          nothing
    1 > LINE        sends the line, and prints the reply
    1 part TEXT     sends the text, with no line feed
    1 byte NUMBER   sends the byte and a line feed, and prints the reply
    1 long COUNT    sends so many letters `a` and a line feed, and prints the reply
    1 blank COUNT   sends so many line feeds
    1 deaf COUNT    sends so many lines `x`, and reads no reply
    1 end           sends no more, prints what is left to read, and closes
    1 cut           closes at once

A CLIENT does in place of the steps: a command, which is given the port as its last word. At the end what is still open
is closed, and what the program wrote and its exit status are printed. No wait is longer than a minute."""

import subprocess
import sys
import threading

from harness import LONGEST_WAIT, Connection, Server


def flood(connection, count):
    try:
        connection.send(b"x\n" * count)
    except OSError:
        pass  # it was cut meanwhile


def print_lines(name, lines):
    for line in lines or ["the end"]:
        print(f"{name}: {line}")


def do(name, connection, deed, rest):
    if deed == ">":
        print_lines(name, connection.ask(rest))
    elif deed == "part":
        connection.send(rest.encode())
    elif deed == "byte":
        connection.send(bytes([int(rest)]) + b"\n")
        print_lines(name, connection.reply())
    elif deed == "long":
        print_lines(name, connection.ask("a" * int(rest)))
    elif deed == "blank":
        connection.send(b"\n" * int(rest))
    elif deed == "deaf":
        threading.Thread(target=flood, args=[connection, int(rest)], daemon=True).start()
    elif deed == "end":
        print_lines(name, connection.end().splitlines() + ["the end"])
    elif deed == "cut":
        connection.close()
    elif deed != "open":
        sys.exit(f"no step: {deed}")


def follow(steps, port):
    """Does what the steps say."""
    connections = {}
    for step in steps:
        name, deed, rest = (step.rstrip("\n").split(" ", 2) + [""])[:3]
        if name not in connections:
            connections[name] = Connection(port)
        do(name, connections[name], deed, rest)
    for connection in connections.values():
        connection.close()


def main():
    track, count, workers, *client = sys.argv[1:]
    server = Server("rbc", track, count, int(workers))
    if not server.listening:
        sys.exit(f"the program does not listen: {server.told}")
    try:
        if client:
            subprocess.run(client + [str(server.port)], timeout=LONGEST_WAIT, check=True)
        else:
            follow(sys.stdin, server.port)
            sys.stdout.flush()
    except BaseException:
        server.process.kill()
        raise
    status, written, told = server.end()
    print(written, end="")
    sys.stderr.write(told)
    print(f"status {status}")


main()
