#!/usr/bin/env python3
"""Shows the sessions of tests/viewer_inputs once more, and tells whether the program shows them to the letter.

    tests/inputs.py NAME ..    # needs rbc on the path

A text says all that it was made of: its first lines have the track, from which a track file is written, and its lines `request` the
session, each with the number of its line."""
import os
import re
import subprocess
import sys
import tempfile

INPUTS = os.path.join(os.path.dirname(os.path.realpath(__file__)), "viewer_inputs")


def runs(words):
    return "[" + ", ".join(f"[{run.replace(':', ', ')}]" for run in words) + "]"


def quoted(leg):
    return f'"{leg}"'


def track_file(lines):
    """The track file of these lines of a track."""
    text = []
    for line in lines:
        kind, *words = line.split()
        if kind == "track":
            text += [f"format = {words[0]}", f"speed_steps = {words[1]}", f"grade_steps = {words[2]}"]
        elif kind == "section":
            text += ["[[section]]", f"name = {quoted(words[0])}", f"length = {words[1]}"]
        elif kind in ("speeds", "grades"):
            text += [f"{kind} = {runs(words[1:])}"]
        elif kind == "link":
            text += ["[[link]]", f"from = {quoted(words[0])}", f"to = {quoted(words[1])}"]
        elif kind == "group":
            country, number = words[0].split("/")
            text += ["[[group]]", f"country = {country}", f"number = {number}", f"section = {quoted(words[1][:-1])}",
                     f"offset = {words[2]}", f"nominal = {quoted(words[1][-1])}"]
        elif kind == "route":
            text += ["[[route]]", f"name = {quoted(words[0])}", f"legs = [{', '.join(map(quoted, words[2:]))}]"]
            text += [f"after = {quoted(words[1])}"] if words[1] != "-" else []
    return "\n".join(text) + "\n"


def session(text):
    """The lines of the session, each at its number: a line without a word has no reply."""
    lines = {int(number): request for number, request in re.findall(r"^request (\d+) (.*)$", text, re.M)}
    return "".join(f"{lines.get(number, '')}\n" for number in range(1, max(lines) + 1))


def shown(text):
    """What the program shows of the session of this text, on its track."""
    with tempfile.TemporaryDirectory() as room:
        path = os.path.join(room, "track.toml")
        with open(path, "w", encoding="ascii") as file:
            file.write(track_file(text.split("\ndone\n", 1)[0].splitlines()))
        return subprocess.run(["rbc", "show", path, "--each"], input=session(text), capture_output=True, text=True, check=False).stdout


def main():
    for name in sys.argv[1:]:
        with open(os.path.join(INPUTS, f"{name}.txt"), encoding="ascii") as file:
            text = file.read()
        print(name, "is what the program shows" if shown(text) == text else "is another text")


if __name__ == "__main__":
    main()
