"""Clients of a centre's page: what is asked over HTTP, what is answered, byte by byte, and the text format that Prometheus reads."""
import re
import socket
import time
from dataclasses import dataclass

LONGEST_ANSWER = 30  # seconds, after which there is none
TAG = re.compile(r'"([^"\x00-\x1f]+)-(\d+)"')
WORDS = {200: "OK", 204: "No Content", 304: "Not Modified", 400: "Bad Request", 404: "Not Found", 405: "Method Not Allowed",
         431: "Request Header Fields Too Large", 503: "Service Unavailable"}
KINDS = {"/": "text/html; charset=utf-8", "/metrics": "text/plain; version=0.0.4; charset=utf-8"}
PLAIN = "text/plain; charset=utf-8"


@dataclass
class Answer:
    """The lines of a head, and the body behind it."""

    head: list
    body: bytes

    def status(self):
        return int(self.head[0].split(" ")[1])

    def field(self, name):
        return next((line.partition(": ")[2] for line in self.head[1:] if line.partition(": ")[0] == name), None)

    def tag(self):
        """How the centre began, and the version; nothing where there is no tag."""
        found = TAG.fullmatch(self.field("ETag") or "")
        return (found[1], int(found[2])) if found else None


def head_of(status, path, size, tag, stays):
    """The lines of a head, to the letter. Refusals have no tag."""
    lines = [f"HTTP/1.1 {status} {WORDS[status]}"]
    lines += ["Allow: GET, HEAD"] if status == 405 else []
    lines += [f"Content-Type: {KINDS.get(path, PLAIN)}", "X-Content-Type-Options: nosniff"]
    lines += [] if size is None else [f"Content-Length: {size}"]
    lines += ["Cache-Control: no-store"] if tag is None else ["Cache-Control: no-cache", 'ETag: "{}-{}"'.format(*tag)]
    return [*lines, f"Connection: {'keep-alive' if stays else 'close'}"]


def refusal(status):
    return Answer(head_of(status, None, 0, None, False), b"")


def request_for(path, *fields, method="GET", version="HTTP/1.1"):
    return "".join(f"{line}\r\n" for line in [f"{method} {path} {version}", "Host: centre", *fields, ""]).encode()


class Guest:
    """A connection to the page. With a room it takes so many bytes at once, about."""

    def __init__(self, port, room=None):
        self.socket, self.came = socket.socket(), b""
        if room:
            self.socket.setsockopt(socket.SOL_SOCKET, socket.SO_RCVBUF, room)
        self.socket.settimeout(LONGEST_ANSWER)
        self.socket.connect(("127.0.0.1", port))

    def send(self, data):
        self.socket.sendall(data)

    def more(self):
        """Whether more came."""
        data = self.socket.recv(65_536)
        self.came += data
        return data != b""

    def take(self, count):
        while len(self.came) < count:
            if not self.more():
                raise ConnectionError("the page closes in an answer")
        taken, self.came = self.came[:count], self.came[count:]
        return taken

    def answer(self, is_head=False):
        """The next answer."""
        while b"\r\n\r\n" not in self.came:
            if not self.more():
                raise ConnectionError("the page closes in place of an answer")
        head = self.take(self.came.index(b"\r\n\r\n") + 4).decode("ascii").split("\r\n")[:-2]
        answer = Answer(head, b"")
        size = 0 if is_head else int(answer.field("Content-Length") or 0)
        return Answer(head, self.take(size))

    def ask(self, path, *fields, method="GET", **how):
        self.send(request_for(path, *fields, method=method, **how))
        return self.answer(method == "HEAD")

    def is_closed(self):
        """Whether the page closes the connection, with nothing more."""
        try:
            return not self.came and not self.more()
        except ConnectionError:
            return True

    def close(self):
        self.socket.close()


def ask_once(port, path, *fields, **how):
    """The answer over a connection of its own."""
    guest = Guest(port)
    try:
        return guest.ask(path, *fields, **how)
    finally:
        guest.close()


def ask_patiently(port, path, seconds):
    """The answer of a client that tries again where its connection is closed, and how long it took."""
    begin = time.monotonic()
    while True:
        try:
            return ask_once(port, path), time.monotonic() - begin
        except ConnectionError:
            if time.monotonic() - begin > seconds:
                raise
            time.sleep(0.05)


# ---- what was counted


NAME = r"[a-zA-Z_:][a-zA-Z0-9_:]*"
LABEL = r'[a-zA-Z_][a-zA-Z0-9_]*="(?:[^"\\\n]|\\[\\"n])*"'
TYPE = re.compile(rf"# TYPE ({NAME}) (counter|gauge)")
SAMPLE = re.compile(rf"({NAME})(?:\{{({LABEL}(?:,{LABEL})*)\}})? (\d+(?:\.\d+)?)")


def counts_in(text):
    """The kinds of all numbers by their names, and their values by names and labels. It fails where a line is out of the format: where a
    number has no kind before it, stands apart from its others or comes twice, or where the last line does not end."""
    kinds, values, now = {}, {}, None
    *lines, end = text.split("\n")
    if end:
        raise ValueError("the last line does not end")
    for line in lines:
        kind, sample = TYPE.fullmatch(line), SAMPLE.fullmatch(line)
        if kind and kind[1] not in kinds:
            now = kind[1]
            kinds[now] = kind[2]
        elif sample and sample[1] == now and (now, sample[2]) not in values:
            values[now, sample[2]] = float(sample[3])
        else:
            raise ValueError(f"{line!r} may not stand there")
    return kinds, values
