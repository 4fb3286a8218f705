"""A headless Chromium, driven over the DevTools protocol by the standard library alone."""
import base64
import json
import os
import shutil
import socket
import struct
import subprocess
import tempfile
import time
import urllib.request

NAMES = ("chromium", "chromium-browser", "google-chrome", "google-chrome-stable")
WORDS = ("--headless=new", "--no-sandbox", "--disable-gpu", "--disable-dev-shm-usage", "--hide-scrollbars", "--no-first-run",
         "--disable-background-networking", "--remote-allow-origins=*")
LONGEST_WAIT = 60  # seconds
OWN_SCHEMES = ("file:", "about:", "data:", "blob:")


def found():
    """The path of a Chromium, or nothing."""
    return next((path for path in map(shutil.which, NAMES) if path), None)


class Browser:
    """One page of a browser. It keeps what goes wrong: faults of scripts, errors on the console, and what is asked of a network."""

    def __init__(self, program):
        self.profile = tempfile.mkdtemp(prefix="viewer-")
        words = [program, *WORDS, f"--user-data-dir={self.profile}", "--remote-debugging-port=0", "about:blank"]
        self.process = subprocess.Popen(words, stdin=subprocess.DEVNULL, stdout=subprocess.DEVNULL, stderr=subprocess.DEVNULL)
        self.number = 0
        self.faults = []
        self.requests = []
        self.served = {}
        try:
            self.connect()
        except BaseException:
            self.close()
            raise

    def connect(self):
        port = self.port()
        with urllib.request.urlopen(f"http://127.0.0.1:{port}/json", timeout=LONGEST_WAIT) as answer:
            pages = json.load(answer)
        path = next(page for page in pages if page["type"] == "page")["webSocketDebuggerUrl"].split(str(port), 1)[1]
        self.socket = socket.create_connection(("127.0.0.1", port), timeout=LONGEST_WAIT)
        key = base64.b64encode(os.urandom(16)).decode()
        self.socket.sendall((f"GET {path} HTTP/1.1\r\nHost: 127.0.0.1:{port}\r\nUpgrade: websocket\r\nConnection: Upgrade\r\n"
                             f"Sec-WebSocket-Key: {key}\r\nSec-WebSocket-Version: 13\r\n\r\n").encode())
        self.buffer = b""
        while b"\r\n\r\n" not in self.buffer:
            self.buffer += self.socket.recv(4096)
        self.buffer = self.buffer.split(b"\r\n\r\n", 1)[1]
        for domain in "Page", "Runtime", "Network", "Log":
            self.call(f"{domain}.enable")
        self.call("Emulation.setFocusEmulationEnabled", enabled=True)
        self.call("Performance.enable", timeDomain="threadTicks")

    def port(self):
        """The port that the browser chose, as it writes it into its profile."""
        file = os.path.join(self.profile, "DevToolsActivePort")
        end = time.monotonic() + LONGEST_WAIT
        while time.monotonic() < end and self.process.poll() is None:
            if os.path.exists(file):
                with open(file) as lines:
                    first = lines.readline()
                if first.endswith("\n"):
                    return int(first)
            time.sleep(0.02)
        raise OSError("the browser does not start")

    def take(self, count):
        while len(self.buffer) < count:
            data = self.socket.recv(1 << 20)
            if not data:
                raise EOFError("the browser has gone")
            self.buffer += data
        taken, self.buffer = self.buffer[:count], self.buffer[count:]
        return taken

    def receive(self):
        data = b""
        while True:
            head = self.take(2)
            size = head[1] & 0x7F
            if size == 126:
                size = struct.unpack(">H", self.take(2))[0]
            elif size == 127:
                size = struct.unpack(">Q", self.take(8))[0]
            data += self.take(size)
            if head[0] & 0x80:
                return json.loads(data)

    def send(self, method, **params):
        """Makes a call of the protocol, and waits for nothing."""
        self.number += 1
        data = json.dumps({"id": self.number, "method": method, "params": params}).encode()
        mask, size = os.urandom(4), len(data)
        if size < 126:
            head = bytes([0x81, 0x80 | size])
        elif size < 65536:
            head = bytes([0x81, 0xFE]) + struct.pack(">H", size)
        else:
            head = bytes([0x81, 0xFF]) + struct.pack(">Q", size)
        key = int.from_bytes((mask * (size // 4 + 1))[:size], "big")
        self.socket.sendall(head + mask + (int.from_bytes(data, "big") ^ key).to_bytes(size, "big"))
        return self.number

    def call(self, method, **params):
        """What the browser answers to a call of the protocol."""
        number = self.send(method, **params)
        while True:
            reply = self.receive()
            if reply.get("id") == number:
                if "error" in reply:
                    raise OSError(f"{method}: {reply['error']['message']}")
                return reply["result"]
            self.note(reply)

    def note(self, event):
        """Keeps what an event tells of faults and of the network."""
        what, method = event.get("params", {}), event.get("method")
        if method == "Runtime.exceptionThrown":
            self.faults.append(what["exceptionDetails"].get("exception", {}).get("description", "an exception"))
        elif method == "Runtime.consoleAPICalled" and what["type"] in ("error", "warning", "assert"):
            self.faults.append(f"console: {what['args']}")
        elif method == "Log.entryAdded" and what["entry"]["level"] in ("error", "warning"):
            self.faults.append(f"log: {what['entry']['text']}")
        elif method == "Fetch.requestPaused":
            body = base64.b64encode(self.served[what["request"]["url"]]).decode()
            head = [{"name": "Content-Type", "value": "text/html; charset=utf-8"}]
            self.send("Fetch.fulfillRequest", requestId=what["requestId"], responseCode=200, responseHeaders=head, body=body)
        elif method == "Network.requestWillBeSent" and not what["request"]["url"].startswith(OWN_SCHEMES):
            self.requests.append(what["request"]["url"])

    def size(self, width, height=900):
        self.call("Emulation.setDeviceMetricsOverride", width=width, height=height, deviceScaleFactor=1, mobile=False)

    def prefer(self, medium="", **features):
        """The medium, and what its reader prefers: prefer(color_scheme="dark")."""
        told = [{"name": f"prefers-{name.replace('_', '-')}", "value": value} for name, value in features.items()]
        self.call("Emulation.setEmulatedMedia", media=medium, features=told)

    def serve(self, url, page):
        """Has the browser open this page at an address, whatever a server would answer there."""
        self.served = {url: page}
        self.call("Fetch.enable", patterns=[{"urlPattern": url}])

    def open(self, url):
        """Goes to a page and waits until it is complete. The seconds of a processor that its thread took for that, which other work
        on the machine does not make more."""
        self.say("window.isBefore = true")
        self.call("Page.navigate", url=url)
        end = time.monotonic() + LONGEST_WAIT
        while not self.say("!window.isBefore && performance.getEntriesByType('navigation')[0].loadEventEnd > 0"):
            if time.monotonic() > end:
                raise OSError(f"{url} does not load")
            time.sleep(0.01)
        return next(one["value"] for one in self.call("Performance.getMetrics")["metrics"] if one["name"] == "ThreadTime")

    def say(self, expression):
        """The value of an expression of the page."""
        reply = self.call("Runtime.evaluate", expression=expression, returnByValue=True, awaitPromise=True)
        if "exceptionDetails" in reply:
            raise AssertionError(reply["exceptionDetails"].get("exception", {}).get("description", "an exception"))
        return reply["result"].get("value")

    def press(self, key, code=None):
        """Presses a key, as a keyboard does."""
        text = key if len(key) == 1 else ""
        self.call("Input.dispatchKeyEvent", type="keyDown", key=key, code=code or key, text=text)
        self.call("Input.dispatchKeyEvent", type="keyUp", key=key, code=code or key)

    def point(self, x, y):
        """Moves the pointer."""
        self.call("Input.dispatchMouseEvent", type="mouseMoved", x=x, y=y)

    def picture(self, path, clip=None):
        """Writes the whole page as a PNG, or a part of it: left, top, width and height."""
        if clip is None:
            size = self.call("Page.getLayoutMetrics")["cssContentSize"]
            clip = (0, 0, size["width"], size["height"])
        part = dict(zip(("x", "y", "width", "height"), clip), scale=1)
        data = self.call("Page.captureScreenshot", format="png", captureBeyondViewport=True, clip=part)["data"]
        with open(path, "wb") as file:
            file.write(base64.b64decode(data))

    def paper(self):
        """The page printed, as PDF."""
        return base64.b64decode(self.call("Page.printToPDF", printBackground=True)["data"])

    def close(self):
        if hasattr(self, "socket"):
            self.socket.close()
        self.process.terminate()
        try:
            self.process.wait(LONGEST_WAIT)
        except subprocess.TimeoutExpired:
            self.process.kill()
            self.process.wait()
        shutil.rmtree(self.profile, ignore_errors=True)
