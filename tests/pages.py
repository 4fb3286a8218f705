#!/usr/bin/env python3
"""Writes the page that a text and verdicts make: the viewer's parts, and both of them escaped, by the escape of Python's library.

    tests/pages.py TEXT VERDICTS > PAGE

It reads viewer/viewer.html itself, and nothing that the program is made of."""
import html
import os
import sys

VIEWER = os.path.join(os.path.dirname(os.path.realpath(__file__)), "..", "viewer", "viewer.html")
TEXT, VERDICTS = '<pre id="text" hidden>', '<pre id="verdicts" hidden>'


def escaped(text):
    return html.escape(text, quote=False).replace("\r", "&#13;")


def begun_page(text):
    """A page that breaks off behind this text."""
    with open(VIEWER, encoding="latin-1", newline="") as file:
        before, _ = file.read().split(TEXT)
    return before + TEXT + escaped(text)


def page_of(text, verdicts):
    with open(VIEWER, encoding="latin-1", newline="") as file:
        between, behind = file.read().split(TEXT)[1].split(VERDICTS)
    return begun_page(text) + between + VERDICTS + escaped(verdicts) + behind


def main():
    text, verdicts = (open(path, encoding="latin-1", newline="").read() for path in sys.argv[1:])
    sys.stdout.buffer.write(page_of(text, verdicts).encode("latin-1"))


if __name__ == "__main__":
    main()
