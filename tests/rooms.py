"""Rooms with a journal, and what centres make of it: what tests/crash, tests/damage and tests/power share."""
import os
import re
import shutil
import subprocess
import tempfile
import threading

import journals
from harness import ROOT, Connection, GRANT_WORDS, LONGEST_WAIT, Server, Talk
from journals import Cut, Whole

TRACK = f"{ROOT}/examples/branch.toml"
TOGETHER = 64  # lines that are put together, at most
FAULT = "rbc: journal fault\n"
CALL_FAILED = re.compile(r"rbc: journal: (\S+) of (\S+): .+ \(os error (\d+)\)\n")
MEMORY = "/dev/shm"  # a folder that waits for no disk, on most systems


def long_session(lines):
    """So many lines that are all accepted: two trains report again and again, and sometimes ask."""
    said = ["lock R1", "lock R2", "report 1 5/17 nominal 300 5 5 200 1000", "report 2 5/17 nominal 700 5 5 200 2000"]
    for number in range(len(said), lines):
        train, metre = (1, 300) if number % 2 else (2, 700)
        said.append(f"ask {train}" if number % 40 < 2 else f"report {train} 5/17 nominal {metre} 5 5 200 {2000 + number}")
    return said[:lines]


def quick_folder():
    """A folder for a test that opens thousands of journals, which would wait for the disk most of the time."""
    return tempfile.TemporaryDirectory(dir=MEMORY if os.access(MEMORY, os.W_OK) else os.path.realpath(tempfile.gettempdir()))


def encoded(lines):
    return [line.encode() for line in lines]


def scene_behind(command, track, lines):
    """The lines of the scene that lines of a session lead to."""
    said = "".join(f"{line}\n" for line in [*lines, "scene"])
    ended = subprocess.run([command, "run", track], input=said.encode(), stdout=subprocess.PIPE, timeout=LONGEST_WAIT, check=True)
    written = ended.stdout.decode().splitlines()
    return written[max(at for at, line in enumerate(written) if line.startswith("scene ")):]


def reading_of(path, track):
    with open(path, "rb") as file:
        return journals.read(file.read(), journals.digest_of(track))


def lines_at(path, track):
    """The lines that a journal tells that is whole, or none where it is not."""
    reading = reading_of(path, track)
    return [line.decode() for line in reading.lines] if isinstance(reading, Whole) else None


def failed(end):
    """The call that failed where a centre ends so with a journal fault: its word, the path of its file, and the number of the system."""
    status, told = end
    _, fault, reason = told.rpartition(FAULT)
    found = CALL_FAILED.fullmatch(reason)
    return (found[1], found[2], int(found[3])) if status == 4 and fault and found else None


def fault_of(reason):
    """How a centre ends with a journal fault for this reason."""
    return 4, f"{FAULT}rbc: journal: {reason}\n"


def replies_in(written):
    """How many whole replies these bytes have."""
    words = [line.split(" ")[0] for line in written.split("\n")[:-1]]
    return sum(word not in GRANT_WORDS for word in words)


def version_of(reply):
    """The version of the entry that the first line of a reply tells, if there is one."""
    words = reply.split(" ")
    at = {"ok": 1, "granted": 2}.get(words[0])
    return None if at is None else int(words[at])


class Room:
    """A folder in which nothing lies but a journal and what centres put beside it."""

    def __init__(self, command, folder, track=TRACK):
        self.command, self.folder, self.track = command, folder, track
        self.journal, self.history = f"{folder}/journal", f"{folder}.history"
        os.makedirs(folder)

    def digest(self):
        return journals.digest_of(self.track)

    def start(self, *further, **how):
        words = [self.command, "run", self.track, "--journal", self.journal, *further]
        return subprocess.Popen(words, stdin=subprocess.PIPE, stdout=subprocess.PIPE, stderr=subprocess.PIPE, **how)

    def run(self, text, *further, **how):
        """How a centre ends over a text, with what it tells, and what it writes."""
        process = self.start(*further, **how)
        try:
            written, told = process.communicate(text.encode(), timeout=LONGEST_WAIT)
        finally:
            process.kill()
        return (process.returncode, told.decode()), written.decode()

    def files(self):
        """The bytes of each file of the folder."""
        files = {}
        for name in os.listdir(self.folder):
            with open(f"{self.folder}/{name}", "rb") as file:
                files[name] = file.read()
        return files

    def write(self, files):
        """Has the folder have these files, and no others."""
        for name in set(os.listdir(self.folder)) - set(files):
            os.remove(f"{self.folder}/{name}")
        for name, bytes_of in files.items():
            with open(f"{self.folder}/{name}", "wb") as file:
                file.write(bytes_of)

    def read(self):
        """What stands in the journal."""
        with open(self.journal, "rb") as file:
            return journals.read(file.read(), self.digest())

    def puts(self):
        with open(self.journal, "rb") as file:
            return journals.puts_of(file.read())

    def remove(self):
        shutil.rmtree(self.folder)
        if os.path.exists(self.history):
            os.remove(self.history)

    def opened(self):
        """The entries of the next centre, which is given no line, or none where it refuses the journal; and what is wrong: it has to tell
        what tests/journals.py reads, and to leave the file at rest, with what it drops in another one; or all as it was."""
        before = self.files()
        file = before.get("journal", journals.at_rest(self.digest(), []))
        reading = journals.read(file, self.digest())
        wanted = journals.end_of(reading, self.digest())
        end, written = self.run("", "--history", self.history)
        if (end, written) != (wanted, ""):
            return None, f"it ends with {end}, not {wanted}, and writes {written!r}"
        if not isinstance(reading, Whole | Cut):
            return None, None if self.files() == before else f"{sorted(self.files())} were touched"
        with open(self.history) as history:
            told = history.read().splitlines()
        begins = [f"# begins with {reading.beginning[0].decode()}"] if reading.beginning else []
        entries = told[len(begins):]
        is_told = told[:len(begins)] == begins and encoded(entries) == reading.lines
        return entries, self.left_wrong(before, file, reading) or (
            None if is_told else f"the history is {told[:1]}..{told[-3:]}, and the journal {begins}..{reading.lines[-3:]}")

    def refused(self, reason, *further):
        """What is wrong where the journal is not refused for this reason, told first, with all as it was."""
        before = self.files()
        (status, told), written = self.run("", *further)
        if (status, told.split("\n")[0], written) != (3, f"rbc: journal: {reason}", ""):
            return f"it ends with {status} and {told!r}, not for {reason!r}, and writes {written!r}"
        return None if self.files() == before else f"refused for {reason!r}, it leaves {sorted(self.files())}"

    def left_wrong(self, before, file, reading):
        """What is wrong with what a centre left that found these files, and was given no line: what it dropped is behind what it dropped before."""
        dropped = reading.dropped if isinstance(reading, Cut) else 0
        wanted = {**before, "journal": file[:len(file) - dropped - 1] + b"#"}
        wanted.pop("journal.new", None)
        if dropped:
            wanted["journal.cut"] = before.get("journal.cut", b"") + file[-dropped:]
        after = self.files()
        wrong = [name for name in {*wanted, *after} if wanted.get(name) != after.get(name)]
        return f"{wrong} have {[after.get(name, b'nothing')[-200:] for name in wrong]}" if wrong else None

    def entries(self):
        """The entries of the next centre, which has to open the journal; and what is wrong."""
        entries, fault = self.opened()
        return entries, fault or ("the journal is refused" if entries is None else None)

    def has(self, session, acknowledged, most=1):
        """What is wrong where the next centre has not so many lines of the session, or more than so many besides."""
        entries, fault = self.entries()
        if fault:
            return fault
        if entries != session[:len(entries)]:
            return "the entries are not those of the session"
        if not acknowledged <= len(entries) <= acknowledged + most:
            return f"{acknowledged} lines were acknowledged, and there are {len(entries)} entries"
        return None


def talk_with(process):
    """A talk over the pipes of a process."""
    return Talk(lambda line: (process.stdin.write(line), process.stdin.flush()), open(process.stdout.fileno(), closefd=False))


# ---- served


SERVED = 4  # connections
WORKERS = 4


def served_track():
    """A section, a route and a group for each connection."""
    text = "format = 1\n"
    for number in range(1, SERVED + 1):
        text += f'[[section]]\nname = "S{number}"\nlength = 1000\nspeeds = [[0, 100]]\ngrades = [[0, -5]]\n'
        text += f'[[group]]\ncountry = 5\nnumber = {number}\nsection = "S{number}"\noffset = 0\nnominal = "+"\n'
        text += f'[[route]]\nname = "R{number}"\nlegs = ["S{number}+"]\n'
    return text


def served_lines(number, count):
    """So many lines of a connection: those of a train that has a section for itself, so that all are accepted in any order with others."""
    lines = [f"lock R{number}"]
    while len(lines) < count:
        asks = len(lines) % 20 == 19
        lines.append(f"ask {number}" if asks else f"report {number} 5/{number} nominal {300 + len(lines) % 400} 5 5 200 {len(lines)}")
    return lines


class Sender(threading.Thread):
    """Sends the lines of a train over a connection of its own, so many at once, and reads their replies, until the centre ends."""

    def __init__(self, port, lines, together):
        super().__init__()
        self.lines, self.together = lines, together
        self.talk = Connection(port)
        self.acknowledged = []  # the versions of the first lines, in order
        self.sent = 0

    def run(self):
        while self.sent < len(self.lines):
            batch = self.lines[self.sent:self.sent + self.together]
            self.sent += len(batch)
            try:
                self.talk.send("".join(f"{line}\n" for line in batch).encode())
            except OSError:
                return
            for _ in batch:
                reply = self.talk.reply()
                if not reply or reply[0].startswith("granted") and reply[-1] != "done":
                    return
                self.acknowledged.append(version_of(reply[0]))

    def fault(self, entries):
        """What is wrong where these are the entries that the next centre has."""
        for line, version in zip(self.lines, self.acknowledged):
            if version is None or entries[version - 1:version] != [line]:
                return f"{line} was acknowledged as entry {version}, which is {entries[(version or 1) - 1:version]}"
        own = [entry for entry in entries if entry in set(self.lines)]
        if own[:len(self.lines)] != self.lines[:len(own)] or not len(self.acknowledged) <= min(len(own), len(self.lines)) <= self.sent:
            return f"{len(self.acknowledged)} lines were acknowledged, {self.sent} sent, and there are {len(own)} entries"
        return None


def serve(room, each, together, **how):
    """A centre with a journal, and connections that send so many lines each side by side, so many at once; none where it doesn't listen."""
    room.track = f"{room.folder}.toml"
    with open(room.track, "w") as file:
        file.write(served_track())
    server = Server(room.command, room.track, SERVED, WORKERS, "--journal", room.journal, **how)
    numbers = range(1, SERVED + 1) if server.listening else ()
    senders = [Sender(server.port, served_lines(number, each), together) for number in numbers]
    for sender in senders:
        sender.start()
    return server, senders


def till_the_end(server, senders):
    """How a centre ends once the connections have sent their lines, with what it tells, and what it writes."""
    if not server.listening:
        return (server.status, server.told), server.written
    for sender in senders:
        sender.join()
        sender.talk.end()
    status, written, told = server.end()
    return (status, told), written


def served_fault(room, senders, swept):
    """What is wrong with what the next centre has, after these connections and what the sweep told."""
    entries, fault = room.entries()
    if fault:
        return fault
    for line in swept.splitlines():
        words = line.split(" ")
        if words[0] == "granted" and entries[int(words[2]) - 1:int(words[2])] != [f"ask {words[1]}"]:
            return f"the sweep told {line}, and there are {len(entries)} entries"
    return next(filter(None, (sender.fault(entries) for sender in senders)), None)
