#!/usr/bin/env python3
"""Drives two trains into the station of station.toml, each over a connection of its own, and prints what they are granted.

    ./rbc serve examples/station.toml --port 7001 --connections 2 --workers 1    # in one terminal
    python3 examples/two_trains.py 7001                                          # in another

It uses Python's standard library alone. What stands in requests and replies is told in docs/formats.md. Times count from
midnight in units of 10 ms, as T_TRAIN does: 06:00 is 2160000."""

import socket
import sys
import time


def connected(port, tries=300):
    """A socket to the centre. It may not be ready yet: so it is tried for half a minute."""
    for _ in range(tries):
        try:
            return socket.create_connection(("127.0.0.1", port), timeout=60)
        except ConnectionRefusedError:
            time.sleep(0.1)
    sys.exit(f"nobody listens at port {port}")


class Connection:
    """A connection to the centre: each request has one reply."""

    def __init__(self, port):
        self.socket = connected(port)
        self.replies = self.socket.makefile("r", encoding="ascii")

    def request(self, line):
        """Sends a request, and gives the lines of its reply. That of a grant ends with the line `done`."""
        self.socket.sendall(line.encode("ascii") + b"\n")
        reply = [self.next_line()]
        while reply[0].startswith("granted ") and reply[-1] != "done":
            reply.append(self.next_line())
        return reply

    def next_line(self):
        line = self.replies.readline()
        if not line.endswith("\n"):
            sys.exit("the centre has closed the connection")
        return line.rstrip("\n")

    def close(self):
        self.replies.close()
        self.socket.close()


def told(connection, line):
    """Tells the centre something, and prints its reply."""
    print(f"{line}: {connection.request(line)[0]}")


def asked(connection, train):
    """Asks for an authority, and prints what is granted: how far the train may run, and how fast at first."""
    reply = connection.request(f"ask {train}")
    words = reply[0].split()
    if words[0] != "granted":
        print(f"ask {train}: {reply[0]}")
        return
    _, _, version, _, end, *obstacle = words
    message, steps = reply[1].split()[1], next(line for line in reply if line.startswith("steps "))
    speed = steps.split()[1].partition(":")[2]
    print(f"ask {train}: granted by entry {version}, up to {end} m past its group, at first at {speed} km/h")
    print(f"    beyond that: {' '.join(obstacle)}; message 3 has {len(message) // 2} bytes")


def main():
    port = int(sys.argv[1])
    west, east = Connection(port), Connection(port)
    told(west, "lock line_west")
    told(east, "lock line_east")
    told(west, "report 101 80/201 nominal 250 5 5 180 2160000")
    told(east, "report 204 80/222 nominal 60 8 8 220 2160000")
    asked(west, 101)
    asked(east, 204)
    # Platform 1 goes to the train from the west, and the other one is led into platform 2.
    told(west, "lock in_1_west")
    told(east, "lock in_1_east")
    told(east, "lock in_2_east")
    asked(west, 101)
    asked(east, 204)
    west.close()
    east.close()


main()
