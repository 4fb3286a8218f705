#!/usr/bin/env python3
"""Prints how many messages and packets `rbc decode`, `rbc decode --json` and a second reading tell alike, or the first that
they don't.

    printings < LINES

Each line has a message or a packet in digits, as `rbc decode` reads it. It is told as it stands, and with each of its bits
turned, one at a time. Every line of JSON is read by Python's own reader, which has to take it. The second reading is that of
tests/tables.py, by the tables of docs/formats.md."""
import json
import re
import subprocess
import sys

from tables import by_tables


def turned(line):
    """The line, and the line with each bit of its digits turned."""
    *name, digits = line.split()
    yield line
    value, width = int(digits, 16), 4 * len(digits)
    for bit in range(width):
        yield " ".join(name + [format(value ^ 1 << bit, f"0{len(digits)}x")])


def plain(text):
    """What the lines of the plain printing say, as the lines of JSON say it."""
    for reply in replies(text.splitlines()):
        yield told(reply)


def replies(lines):
    reply = []
    for line in lines:
        reply.append(line)
        if line == "done" or line.startswith("refused"):
            yield reply
            reply = []
    assert not reply, reply


# A line of a field: its mark, its first bit, its name, its width, its value and its meaning.
FIELD = re.compile(r"([ ?]) (?:  )?(\d+)  (\w+)  (\d+)  (\d+)  (.*)")
INNER = {"Q_GDIR", "G_A", "V_STATIC", "Q_FRONT"}


def told(reply):
    fields, packet, words, number = [], None, {}, 1
    for line in reply:
        word, *rest = line.removeprefix("? ").split()
        field = FIELD.fullmatch(line)
        if field:
            mark, bit, name, bits, value, meaning = field.groups()
            numbers = {"bit": int(bit), "name": name, "bits": int(bits), "value": int(value)}
            is_inner = name in INNER or name == "N_ITER" and "categories" in meaning
            assert is_inner == (line[2:4] == "  "), line
            fields.append({"packet": packet, **numbers, "meaning": meaning} | ({"behind_fault": True} if mark == "?" else {}))
        elif word == "line":
            number = int(rest[0])
        elif word == "packet":
            packet = int(rest[-1])
            assert (rest[0] == "?") == (packet not in (15, 21, 27)), line
        elif word == "group":
            words["country"], words["group"] = map(int, rest[0].split("/"))
        elif word == "direction":
            words["direction"] = rest[0]
        elif word in ("time", "end"):
            words[word] = int(rest[0])
        elif word == "grade":
            words.setdefault("grades", []).append({"from": int(rest[0]), "per_mille": int(rest[1])})
        elif word == "speed":
            words.setdefault("speeds", []).append({"from": int(rest[0]), "km_per_hour": int(rest[1])})
    value = {"line": number, "kind": "message" if "message" in reply else "packet", "fields": fields}
    word, *rest = reply[-1].split()
    if word == "refused":
        fault, name, _, bit, measure, found = rest
        value["refused"] = {"fault": fault, "name": name, "bit": int(bit), measure: int(found)}
    else:
        value.update({"grades": [], "speeds": []} | words)
    return value


def main():
    lines = [other for line in sys.stdin.read().splitlines() for other in turned(line)]
    text = "".join(line + "\n" for line in lines)
    runs = [subprocess.run(["rbc", "decode", *form], input=text, capture_output=True, text=True) for form in ([], ["--json"])]
    if runs[0].returncode != runs[1].returncode:
        return f"the statuses are {runs[0].returncode} and {runs[1].returncode}"
    said, values = list(plain(runs[0].stdout)), [json.loads(line) for line in runs[1].stdout.splitlines()]
    if not len(said) == len(values) == len(lines):
        return f"{len(said)} and {len(values)} replies to {len(lines)} lines"
    for number, (line, one, other) in enumerate(zip(lines, said, values), 1):
        third = {"line": number} | by_tables(line)
        if not one == other == third:
            return f"{line}: {one} and {other} and {third}"
    return f"{len(lines)} told alike"


print(main())
