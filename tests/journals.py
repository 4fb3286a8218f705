#!/usr/bin/env python3
"""The file of a journal, format 2, read and written a second time, as docs/formats.md says ("The file of a journal"); and what a
centre tells of it. It shares nothing with the program.

A file is a header, puts, and a closed gate. Each of its lines stands behind a gate; a seal ends the header and each put. A put is a
list of lines and notes here, without gates, line feeds and seal. The first one may be the beginning: the lines of a scene, each behind
a mark. Digests and seals are their digits."""
import hashlib
import itertools
import re
import sys
from typing import NamedTuple

FORMAT = 2
FIRST = re.compile(rb"# rbc journal (\d+)")
TRACK = re.compile(rb"# track ([0-9a-f]{64})")
SEAL = re.compile(rb"# ([0-9a-f]{16})")
MARK = b"##"  # before each line of the scene that a journal begins with


class Whole(NamedTuple):
    """A file at rest: the lines that it tells, and those of the scene that it begins with, none where that is the empty one."""
    lines: list
    beginning: list = []


class Cut(NamedTuple):
    """What a crash left: the lines that it tells, how many bytes stand behind its closed gate, which were never acknowledged, and the lines
    of the scene that it begins with."""
    lines: list
    dropped: int
    beginning: list = []


class Damaged(NamedTuple):
    """What no crash leaves. The line, as an editor counts, is the first that can't be vouched for."""
    line: int


NoJournal = NamedTuple("NoJournal", [])
FormatOne = NamedTuple("FormatOne", [])
OtherFormat = NamedTuple("OtherFormat", [("number", int)])
OtherTrack = NamedTuple("OtherTrack", [("digest", bytes)])


def digest_of(path):
    with open(path, "rb") as file:
        return hashlib.sha256(file.read()).hexdigest().encode()


# ---- written


def text(lines):
    """Lines behind open gates."""
    return b"".join(b" " + line + b"\n" for line in lines)


def seal(before, lines):
    """The seal of these lines behind the seal of those before, which is empty for a header."""
    return hashlib.sha256(before + text(lines)).hexdigest()[:16].encode()


def sealed(before, puts):
    """Puts in a row behind that seal, as they stand in a file; and the last seal."""
    bytes_of = b""
    for put in puts:
        before = seal(before, put)
        bytes_of += text(put + [b"# " + before])
    return bytes_of, before


def head(digest, number=FORMAT):
    """The lines of a header without their seal."""
    return [b"# rbc journal %d" % number, b"# track " + digest]


def chain(digest, puts):
    """Header and puts of a journal without its closed gate; and the last seal."""
    return sealed(b"", [head(digest), *puts])


def at_rest(digest, puts):
    return chain(digest, puts)[0] + b"#"


def begun(digest, beginning, puts):
    """A journal at rest that begins with the scene of these lines, if there are any."""
    return at_rest(digest, [marked(beginning), *puts] if beginning else puts)


def marked(beginning):
    """The put of a beginning."""
    return [MARK + line for line in beginning]


def is_marked(put):
    """Whether a put begins as a beginning does."""
    return bool(put) and put[0].startswith(MARK)


def in_flight(digest, puts, more):
    """The file while another put is written behind its closed gate, with all of it there and the gate still closed."""
    bytes_of, before = chain(digest, puts)
    return bytes_of + b"#" + sealed(before, [more])[0][1:] + b"#"


def note_of(train, version, end):
    """What stands behind a request of a train that was granted: the version of the reply, and the authority's end in metres."""
    return b"# granted %d %d %d" % (train, version, end)


# ---- read


def lines_of(file):
    """The lines behind open gates, from the front on, and what stands behind them."""
    lines, at = [], 0
    while file[at:at + 1] == b" " and (end := file.find(b"\n", at)) > 0:
        lines.append(file[at + 1:end])
        at = end + 1
    return lines, file[at:]


def puts_in(before, lines):
    """The puts at the front of these lines that are whole and rightly sealed, and the lines behind them."""
    puts, begun = [], 0
    for at, line in enumerate(lines):
        if SEAL.fullmatch(line):
            if line[2:] != seal(before, lines[begun:at]):
                break
            puts.append(lines[begun:at])
            before, begun = line[2:], at + 1
    return puts, lines[begun:]


def is_left_by_a_crash(before, tail):
    """Whether a crash leaves this behind the last line that counts, from the gate on."""
    written = b" " + tail[1:]
    put = puts_in(before, lines_of(written)[0])[0][:1]
    behind = written[len(sealed(before, put)[0]):]
    if put and is_marked(put[0]):
        return False  # a beginning comes with its file
    if tail[:1] == b"#":
        # no gate is open behind a put whose own gate is closed, but for a closed one at the end of the file that was torn
        return not put or behind[:1] != b" " or len(behind) == 1
    return bool(put) and behind == b"#"


def told_by(puts):
    """The lines of a session in these puts, without notes."""
    return [line for put in puts for line in put if line[:1] != b"#"]


def beginning_of(puts):
    """The lines of the scene that puts begin with: those at the front of the first one that have the mark, without it."""
    return [line.removeprefix(MARK) for line in itertools.takewhile(lambda line: line.startswith(MARK), puts[0] if puts else [])]


def parts(file):
    """The header's and the other lines that count, and the tail: whether or not seals are right."""
    lines, tail = lines_of(file)
    return lines[:3], lines[3:], tail


def puts_of(file):
    """The puts that count in a file that is whole or cut."""
    header, lines, _ = parts(file)
    return puts_in(header[2][2:], lines)[0]


def read(file, digest):
    """What a centre on the track of this digest reads these bytes as."""
    header, lines, tail = parts(file)
    first = FIRST.fullmatch(header[0]) if header else None
    if not first:
        is_old = header and tail == b"#" and told_by([header, lines]) == header + lines
        return FormatOne() if is_old else NoJournal()
    if int(first[1]) != FORMAT:
        return OtherFormat(int(first[1]))
    track = TRACK.fullmatch(header[1]) if len(header) == 3 else None
    if not track or header[2] != b"# " + seal(b"", header[:2]):
        return Damaged(1)
    puts, further = puts_in(header[2][2:], lines)
    last = sealed(header[2][2:], puts)[1]
    if further or tail[:1] in (b"", b" ") or tail != b"#" and not is_left_by_a_crash(last, tail):
        return Damaged(1 + len(header) + len(lines) - len(further))
    if track[1] != digest:
        return OtherTrack(track[1])
    told, beginning = told_by(puts), beginning_of(puts)
    return Whole(told, beginning) if tail == b"#" else Cut(told, len(tail) - 1, beginning)


# ---- told


def end_of(reading, digest):
    """How a centre ends that opens such a file on the track of this digest, with an empty input: its status, and what it tells."""
    match reading:
        case Whole():
            return 0, ""
        case Cut(_, dropped, _):
            return 0, f"rbc: journal: {dropped} bytes behind the last line dropped\n"
        case Damaged(line):
            return 3, f"rbc: journal: damaged at line {line}; the {line - 1} lines before it stand\n"
        case NoJournal():
            return 3, "rbc: journal: not a journal\n"
        case FormatOne():
            return 3, "rbc: journal: format 1; renew it with rbc journal FILE --renew OUT\n"
        case OtherFormat(number):
            return 3, f"rbc: journal: format {number}, and this program writes {FORMAT}\n"
        case OtherTrack(other):
            return 3, f"rbc: journal: of another track ({other.decode()}), not of this ({digest.decode()})\n"


def foreign(number):
    """How it ends where the line of this number, of those that it tells, from 1 on, adds no entry."""
    return 3, f"rbc: journal: Foreign {number}\n"


def not_begun(number, fault):
    """How it ends where the line of this number of the beginning, from 1 on, has this fault: what it tells first."""
    return 3, f"rbc: journal: beginning: line {number}: {fault}\n"


def lines_in_file(path):
    with open(path, "rb") as file:
        return file.read().splitlines()


if __name__ == "__main__":  # a journal of the lines on standard input, each put by itself, that begins with the scene of a file, if one is named
    scene = lines_in_file(sys.argv[2]) if len(sys.argv) > 2 else []
    sys.stdout.buffer.write(begun(digest_of(sys.argv[1]), scene, [[line] for line in sys.stdin.buffer.read().splitlines()]))
