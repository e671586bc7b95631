"""A headless Firefox and its pages, driven over WebDriver BiDi, with Python's own library alone."""
import base64
import json
import os
import re
import socket
import struct
import subprocess
import tempfile
import time

from chromium import PATIENCE, Browser, Shown

PROGRAM = "firefox-esr"
TEXT, CLOSE, PING, PONG = 1, 8, 9, 10


class Wire:
    """The players' side of a WebSocket with texts as messages."""

    def __init__(self, port, path):
        self.socket, self.rest = socket.create_connection(("127.0.0.1", port), timeout=PATIENCE), b""
        key = base64.b64encode(os.urandom(16)).decode()
        head = [f"GET {path} HTTP/1.1", f"Host: 127.0.0.1:{port}", "Upgrade: websocket", "Connection: Upgrade", f"Sec-WebSocket-Key: {key}",
                "Sec-WebSocket-Version: 13", "", ""]
        self.socket.sendall("\r\n".join(head).encode())
        while b"\r\n\r\n" not in self.rest:
            self.more()
        answer, _, self.rest = self.rest.partition(b"\r\n\r\n")
        if b" 101 " not in answer.splitlines()[0]:
            raise RuntimeError(answer.decode("latin-1"))

    def more(self):
        came = self.socket.recv(1 << 20)
        if not came:
            raise EOFError("Firefox has ended")
        self.rest += came

    def take(self, size):
        while len(self.rest) < size:
            self.more()
        part, self.rest = self.rest[:size], self.rest[size:]
        return part

    def send(self, content, kind=TEXT):
        mask, size = os.urandom(4), len(content)
        length = bytes([0x80 | size]) if size < 126 else b"\xfe" + struct.pack("!H", size) if size < 65536 else b"\xff" + struct.pack("!Q", size)
        self.socket.sendall(bytes([0x80 | kind]) + length + mask + bytes(it ^ mask[place % 4] for place, it in enumerate(content)))

    def receive(self):
        """The next message."""
        message = b""
        while True:
            first, size = self.take(2)
            if size > 125:
                size = struct.unpack("!H" if size == 126 else "!Q", self.take(2 if size == 126 else 8))[0]
            content, kind = self.take(size), first & 15
            if kind == PING:
                self.send(content, PONG)
            elif kind == CLOSE:
                raise EOFError("Firefox has closed the connection")
            elif kind != PONG:
                message += content
                if first & 0x80:
                    return message


class Firefox(Browser):
    """Firefox, which is driven over a WebSocket."""

    def __init__(self):
        self.folder, self.number, self.errors = tempfile.mkdtemp(prefix="c8play-firefox-"), 0, []
        words = [PROGRAM, "--headless", "--no-remote", "--profile", self.folder, "--remote-debugging-port", "0", "about:blank"]
        self.run = subprocess.Popen(words, stdin=subprocess.DEVNULL, stdout=subprocess.DEVNULL, stderr=subprocess.PIPE, text=True,
                                    env=os.environ | {"HOME": self.folder})
        assert self.run.stderr
        self.said = self.run.stderr
        self.wire = Wire(self.port(), "/session")
        self.version = self.call("session.new", capabilities={})["capabilities"]["browserVersion"]
        self.call("session.subscribe", events=["log.entryAdded"])

    def port(self):
        for line in self.said:
            if found := re.search(r"WebDriver BiDi listening on ws://127\.0\.0\.1:(\d+)", line):
                return int(found[1])
        raise EOFError("Firefox has ended")

    def call(self, method, **params):
        self.number += 1
        self.wire.send(json.dumps({"id": self.number, "method": method, "params": params}).encode())
        end = time.monotonic() + PATIENCE
        while time.monotonic() < end:
            said = json.loads(self.wire.receive())
            if said.get("method") == "log.entryAdded" and said["params"]["level"] == "error":
                self.errors.append(f"{said['params']['text']}")
            if said.get("id") == self.number:
                if said["type"] == "error":
                    raise RuntimeError(f"{method}: {said['message']}")
                return said["result"]
        raise TimeoutError(method)

    def page(self, url):
        return Tab(self, url)

    def close(self):
        self.end("browser.close")
        self.said.close()


class Tab(Shown):
    """A page in Firefox."""

    def __init__(self, browser, url):
        self.browser = browser
        self.context = browser.call("browsingContext.create", type="tab")["context"]
        self.go(url)

    def go(self, url):
        self.browser.call("browsingContext.navigate", context=self.context, url=url, wait="complete")

    def reload(self):
        self.browser.call("browsingContext.reload", context=self.context, wait="complete")

    def value(self, expression):
        said = self.browser.call("script.evaluate", expression=expression, target={"context": self.context}, awaitPromise=True, userActivation=True)
        return said["result"].get("value") if said["type"] == "success" else said["exceptionDetails"]["text"]

    def key(self, code, is_down):
        """Presses a key of an English keyboard, or releases it."""
        action = {"type": "keyDown" if is_down else "keyUp", "value": code[-1].lower()}
        self.browser.call("input.performActions", context=self.context, actions=[{"type": "key", "id": "keys", "actions": [action]}])

    def picture(self, path):
        said = self.browser.call("browsingContext.captureScreenshot", context=self.context)
        with open(path, "wb") as it:
            it.write(base64.b64decode(said["data"]))

    def close(self):
        self.browser.call("browsingContext.close", context=self.context)
