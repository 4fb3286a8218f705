"""What tests of the built program share: the program served on a port, talks with it line by line, and the libraries that it is
loaded with, tests/faults.c and tests/recorder.c."""
import functools
import os
import re
import select
import shutil
import socket
import subprocess
import sys
from concurrent.futures import ThreadPoolExecutor

ROOT = os.path.dirname(os.path.dirname(os.path.realpath(__file__)))
LONGEST_WAIT = 60  # seconds
GRANT_WORDS = ("granted", "message", "speed", "grade", "steps", "prices", "packet")  # each has a line behind it
MOST_PORTS = 20  # that are tried, where others take them
STAMP = r"\d+\.\d{3} s: "
MINUTE = re.compile(rf"{STAMP}(\d+) lines, (\d+\.\d) a second; (\d+) entries, (\d+) left; ok (\d+), granted (\d+), blocked (\d+), shown (\d+), "
                    r"refused (\d+)(?:: ([\w ,]+))?; (\d+) commits, at most (\d+\.\d{3}) ms; (\d+) connections")
MINUTE_WORDS = ("lines", "rate", "entries", "left", "ok", "granted", "blocked", "shown", "refused", "kinds", "commits", "longest", "open")


def program():
    """The program that the command line names, if any does."""
    return os.path.realpath(sys.argv[1] if len(sys.argv) > 1 else f"{ROOT}/crates/rbc/out/rbc")


def free_port():
    with socket.socket() as probe:
        probe.bind(("127.0.0.1", 0))
        return probe.getsockname()[1]


class Server:
    """The program, which serves a track on a port of the system's choice, with further words on its command line. With no workers
    it makes no sweep. Where None is said of them it stays up until its standard input, a pipe, tells it to end."""

    def __init__(self, command, track, connections, workers, *further, environment=None, **how):
        for _ in range(MOST_PORTS):
            self.port = free_port()
            words = [command, "serve", track, "--port", str(self.port)]
            ending = ["--stay"] if workers is None else ["--workers", str(workers)] if workers else ["--sweep", "no"]
            words += ["--connections", str(connections), *ending, *further]
            how.update(stdin=subprocess.PIPE if workers is None else subprocess.DEVNULL, stdout=subprocess.PIPE, stderr=subprocess.PIPE, bufsize=0, env=environment)
            self.process = subprocess.Popen(words, **how)
            self.listening = self.first_line() == f"listening {self.port}\n".encode()
            if self.listening:
                return
            self.status, self.written, self.told = self.end()
            if not self.told.startswith("rbc: no port\n"):
                return

    def first_line(self):
        """The line that tells that the port is open, or nothing."""
        if not select.select([self.process.stdout], [], [], LONGEST_WAIT)[0]:
            self.process.kill()
        return self.process.stdout.readline()

    def end(self):
        """The exit status, what was written behind the first line, and the text of standard error."""
        try:
            written, told = self.process.communicate(timeout=LONGEST_WAIT)
        finally:
            self.process.kill()
        return self.process.returncode, written.decode(), told.decode()


def minutes_in(log):
    """What the lines of a log tell that are told each minute."""
    found = (MINUTE.fullmatch(line) for line in log.splitlines())
    return [dict(zip(MINUTE_WORDS, minute.groups())) for minute in found if minute]


def without_minutes(log):
    """The other lines of a log."""
    return [line for line in log.splitlines() if not MINUTE.fullmatch(line)]


class Talk:
    """Lines that are sent, and replies that are read: over a connection, or over the pipes of a process."""

    def __init__(self, send, replies):
        self.send = send
        self.replies = replies

    def reply(self):
        """The lines of the next reply, which are none where the talk has ended."""
        lines = []
        while True:
            try:
                line = self.replies.readline()
            except ConnectionError:
                line = ""
            if not line:
                return lines
            lines.append(line.rstrip("\n"))
            if line.split(" ")[0].rstrip("\n") not in GRANT_WORDS:
                return lines

    def ask(self, line):
        try:
            self.send(line.encode() + b"\n")
        except OSError:
            return []
        return self.reply()


class Connection(Talk):
    def __init__(self, port):
        self.socket = socket.create_connection(("127.0.0.1", port), timeout=LONGEST_WAIT)
        super().__init__(self.socket.sendall, self.socket.makefile("r", encoding="ascii"))

    def end(self):
        """Sends no more, and gives what is left to read."""
        try:
            self.socket.shutdown(socket.SHUT_WR)
        except OSError:
            pass  # the program has closed it
        return self.rest()

    def rest(self):
        """What is left to read, up to where the program closes the connection."""
        try:
            return self.replies.read()
        except ConnectionError:
            return ""  # it did so with lines unread
        finally:
            self.close()

    def close(self):
        try:
            self.socket.shutdown(socket.SHUT_RDWR)  # also wakes a thread that sends
        except OSError:
            pass  # the program has closed it
        self.replies.close()
        self.socket.close()


def compiler():
    """A C compiler: the machine's, or that of the kit, beside the page that `rt doc` names."""
    for name in "cc", "gcc", "clang":
        if shutil.which(name):
            return [name], shutil.which(name)
    page = subprocess.run(["rt", "doc"], capture_output=True, text=True, check=True).stdout.strip()
    return ["clang", "-fuse-ld=lld"], f"{os.path.dirname(page)}/toolchain/bin/clang"


def build(room, name):
    """Builds a library of a file of tests/ that a program is loaded with. Gives the environment of such a program, as a function of
    what the library is told."""
    words, executable = compiler()
    library = f"{room}/{name}.so"
    words += ["-shared", "-fPIC", "-O1", "-nostdlib", "-o", library, f"{ROOT}/tests/{name}.c"]
    subprocess.run(words, executable=executable, check=True)

    def environment(prefix, **told):
        return {**os.environ, "LD_PRELOAD": library, **{f"{prefix}_{word.upper()}": str(value) for word, value in told.items()}}

    return environment


def build_faults(room):
    """The environments that hinder a program, as a function of the faults that tests/faults.c tells."""
    return functools.partial(build(room, "faults"), "FAULTS")


def build_recorder(room):
    """The environments in which a program's calls are written down, as a function of what tests/recorder.c tells."""
    return functools.partial(build(room, "recorder"), "RECORDER")


def all_of(task, cases):
    """What a task tells of each case, side by side, in their order."""
    with ThreadPoolExecutor(os.cpu_count()) as workers:
        return list(workers.map(task, cases))


class Count:
    """Counts what passed and what failed, and tells each failure in a line."""

    def __init__(self):
        self.passed = self.failed = 0

    def tell(self, name, fault):
        """A case, and what is wrong with it, if anything is."""
        if fault:
            self.failed += 1
            print(f"failed: {name}: {fault}"[:1000], flush=True)
        else:
            self.passed += 1

    def tell_all(self, name, faults):
        """Cases of one name, each with what is wrong with it: the first fault is told."""
        wrong = [fault for fault in faults if fault]
        self.tell(f"{name} ({len(faults)} runs, {len(wrong)} wrong)", wrong[0] if wrong else (None if faults else "no run"))

    def end(self):
        print(f"{self.passed} passed, {self.failed} failed")
        sys.exit(1 if self.failed else 0)
