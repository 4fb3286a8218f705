"""What the calls on a folder's files may have left on the disk when the power goes, every state of it. The calls are those that
tests/recorder.c writes down.

A write that was not followed by a sync of its file is there, or not, or in part: each of its sectors for itself, or its first so many
bytes. So is a new length. A name that was made, changed or taken away is so, or not, until the folder is synced. Behind a sync that
failed it stays so of what was written before, whatever is synced later: the system may have dropped it from its memory, where it is
still read."""
import itertools
import random

SECTOR = 512
MOST_PIECES = 9  # of which each subset is tried
SOME_SUBSETS = 64  # of more pieces
SHORT = (1, 2, 3, 17)  # bytes of a write that is cut short, from either end
JUNK = (b"\0", b"\xff", b"!", b"3", b"\n")  # in place of a byte that is written alone
STALE = b"k R1\n lock R2\n # 0123456789abcdef\n"  # in place of sectors that were not written


def calls_of(path):
    """The calls of a log, in order: of each its word, the number of a file, and what it was called with."""
    with open(path) as log:
        for line in log:
            word, file, *what = line.rstrip("\n").split(" ")
            if word in ("write", "cut"):
                what[0] = int(what[0])
            if word in ("write", "say"):
                what[-1] = bytes.fromhex(what[-1])
            yield word, int(file), *what


def changed(content, op):
    """A file's bytes after a write at a place, or after a cut, which has a length alone."""
    at, *written = op
    if not written:
        return content[:at] + bytes(at - len(content[:at]))
    front = content[:at] + bytes(at - len(content[:at]))
    return front + written[0] + content[at + len(written[0]):]


def all_changed(content, ops):
    for op in ops:
        content = changed(content, op)
    return content


def pieces(op):
    """A write, sector by sector; a cut is one piece."""
    at, *written = op
    if not written:
        return [op]
    ends = [*range(at - at % SECTOR + SECTOR, at + len(written[0]), SECTOR), at + len(written[0])]
    return [(begin, written[0][begin - at:end - at]) for begin, end in zip([at, *ends], ends)]


def subsets(parts):
    """All subsets of a few parts; and of many all beginnings and ends, all but one, one alone, and some others."""
    if len(parts) <= MOST_PIECES:
        return [[part for part, is_there in zip(parts, chosen) if is_there] for chosen in itertools.product((0, 1), repeat=len(parts))]
    moment = random.Random(len(parts))
    places = range(len(parts))
    some = [parts[:at] for at in places] + [parts[at:] for at in places]
    some += [parts[:at] + parts[at + 1:] for at in places] + [[part] for part in parts] + [[]]
    return some + [[part for part in parts if moment.random() < 0.5] for _ in range(SOME_SUBSETS)]


def shortened(op):
    """A write that was cut short, or another byte in place of the one that it writes."""
    at, *written = op
    if not written:
        return []
    length = len(written[0])
    if length == 1:
        return [(at, byte) for byte in JUNK]
    ends = {end for short in (*SHORT, length // 2) for end in (short, length - short) if 0 < end < length}
    return [(at, written[0][:end]) for end in ends]


def contents(base, ops):
    """All that a file may have, which has these bytes on the disk, and was changed so since."""
    longest = max((at + len(written[0]) for at, *written in ops if written), default=0)
    stale = (STALE * (longest // len(STALE) + 1))[len(base):longest]
    outcomes = set()
    for chosen in subsets([piece for op in ops for piece in pieces(op)]):
        outcome = all_changed(base, chosen)
        outcomes |= {outcome, outcome + bytes(max(0, longest - len(outcome))), all_changed(base + stale, chosen)}
    for place, op in enumerate(ops):
        outcomes |= {changed(all_changed(base, ops[:place]), short) for short in shortened(op)}
    return outcomes


class File:
    """What is read of a file, what the disk has of it, as one of several bytes, and what was done since."""

    def __init__(self, content):
        self.read, self.durable, self.later = content, {content}, []

    def change(self, op):
        self.read = changed(self.read, op)
        self.later.append(op)

    def sync(self):
        self.durable, self.later = {all_changed(base, self.later) for base in self.durable}, []

    def sync_in_vain(self):
        self.durable, self.later = self.states(), []

    def states(self):
        return set().union(*(contents(base, self.later) for base in self.durable))

    def two_states(self):
        return {self.read, min(self.durable)}


class Disk:
    """A folder's files: their names on the disk, and how these were changed since. Of the file of one name each state is tried, and of
    others what is read of them, and what is durable."""

    def __init__(self, folder, files, name):
        self.folder, self.name = folder, name
        self.names = {f"{folder}/{name}": File(content) for name, content in files.items()}
        self.later = []  # a name that is taken away, or none, a name that is given, or none, and its file
        self.open = {}  # the files, and none for the folder, by their numbers

    def named(self, changes):
        """The file of each name after these changes of names."""
        names = dict(self.names)
        for old, new, file in changes:
            names.pop(old, None)
            names.update({new: file} if new else {})
        return names

    def seen(self, path):
        """What a read of this file gives, where there is one."""
        file = self.named(self.later).get(path)
        return file and file.read

    def follow(self, call):
        """What a call does."""
        word, number, *what = call
        file = self.open.get(number)
        if word == "open":
            self.open[number] = self.opened(*what)
        elif word in ("write", "cut"):
            file.change(tuple(what))
        elif word == "sync" and file:
            file.sync()
        elif word == "sync":
            self.names, self.later = self.named(self.later), []
        elif word == "fail" and what == ["sync"] and file:
            file.sync_in_vain()
        elif word == "rename":
            self.later.append((*what, self.named(self.later)[what[0]]))
        elif word == "unlink":
            self.later.append((*what, None, None))

    def opened(self, path):
        """The file that is opened, which may be new; the folder is none."""
        if path == self.folder:
            return None
        if path not in self.named(self.later):
            self.later.append((None, path, File(b"")))
        return self.named(self.later)[path]

    def states(self):
        """Each state of the disk that is possible now: the names with their bytes."""
        found = set()
        for changes in subsets(self.later):
            each = [[(name, content) for content in (file.states() if name == self.name else file.two_states())]
                    for name, file in sorted((path.rpartition("/")[2], file) for path, file in self.named(changes).items())]
            found.update(itertools.product(*each))
        return found
