"""A relay that runs, and those who speak to it: players over UDP, browsers over WebSocket, and clients of HTTP."""
from __future__ import annotations

import os
import re
import signal
import socket
import struct
import subprocess
import sys
import time
from collections.abc import Callable
from dataclasses import dataclass, field

TOP = os.path.dirname(os.path.dirname(os.path.dirname(os.path.realpath(__file__))))
# The most seconds that an answer takes: many times what it needs, since the host may take the processors for a while.
PATIENCE = 60.0
# How long nothing comes where nothing may come.
QUIET = 0.3
PROVE, JOINED, BUSY, FULL = 2, 3, 4, 5
ROOM = bytes(range(16))
# what a frame says of itself: a text, a packet, the end, a question, an answer
TEXT, BINARY, CLOSE, PING, PONG = 1, 2, 8, 9, 10
LAST = 0x80
# a key of the specification, and what answers it
KEY, ACCEPT = "dGhlIHNhbXBsZSBub25jZQ==", "s3pPLMBiTxaQ9kYGzzhZRbK+xOo="


class Run:
    """What this run tries, and what failed."""

    program = f"{TOP}/crates/c8relay/out/c8relay"
    failed: list[str] = []


def check(what: str, holds: object, *came: object) -> None:
    if not holds:
        Run.failed.append(what)
        print(f"relays: {what}: failed: {came}", file=sys.stderr)


def eventually(holds: Callable[[], object], patience: float = PATIENCE) -> object:
    """What holds at last, or when there is no more patience."""
    deadline = time.monotonic() + patience
    while not (came := holds()) and time.monotonic() < deadline:
        time.sleep(0.05)
    return came


def datagram(sender: int, to: int, mark: int = 0) -> bytes:
    """Bytes that a relay takes for a sealed DATA."""
    return bytes([0x43, 0x38, 1, 3, *[9] * 8, sender, to, 0, 0]) + mark.to_bytes(4, "big") + bytes(range(40))


def asking(seat: int, cookie: bytes = bytes(16), room: bytes = ROOM) -> bytes:
    """A JOIN."""
    return bytes([0x43, 0x52, 1, 1, seat, 0, 0, 0]) + room + cookie


def status_of(answer: bytes) -> int:
    """What an answer to a JOIN says; 0 if it is none."""
    return answer[3] if answer[:3] == b"CR\x01" and answer[4:8] == bytes(4) and len(answer) == 24 else 0


@dataclass
class Player:
    """A socket that speaks to a relay."""

    relay: tuple[str, int]
    family: socket.AddressFamily = socket.AF_INET
    socket: socket.socket = field(init=False)

    def __post_init__(self) -> None:
        self.socket = socket.socket(self.family, socket.SOCK_DGRAM)
        self.socket.bind(("127.0.0.1" if self.family == socket.AF_INET else "::1", 0))

    def say(self, packet: bytes) -> None:
        self.socket.sendto(packet, self.relay)

    def hear(self, patience: float = PATIENCE) -> bytes:
        """The next packet; nothing if none comes."""
        self.socket.settimeout(patience)
        try:
            return self.socket.recv(300)
        except (TimeoutError, BlockingIOError):
            return b""

    def heard(self) -> list[bytes]:
        """All packets that come until none comes."""
        return list(iter(lambda: self.hear(QUIET), b""))

    def ask(self, seat: int, cookie: bytes = bytes(16), room: bytes = ROOM) -> None:
        self.say(asking(seat, cookie, room))

    def join(self, seat: int, room: bytes = ROOM) -> tuple[int, ...]:
        """Asks for a seat, and again with the cookie of the answer. Returns what both answers say."""
        self.ask(seat, room=room)
        first = self.hear()
        self.ask(seat, first[8:], room)
        second = self.hear()
        return status_of(first), status_of(second)


class Relay:
    """A relay that runs."""

    def __init__(self, local: str, *words: str, before: tuple[str, ...] = ()) -> None:
        command = [*before, Run.program, local, *words]
        self.process = subprocess.Popen(command, stdout=subprocess.PIPE, stderr=subprocess.PIPE, bufsize=0)
        assert self.process.stdout
        self.out = self.process.stdout
        self.first = self.out.readline().decode()
        port = re.search(r":(\d+) for", self.first)
        self.port = int(port[1]) if port else 0

    def paused(self) -> None:
        self.process.send_signal(signal.SIGSTOP)
        while "State:\tT" not in open(f"/proc/{self.process.pid}/status", encoding="ascii").read():
            time.sleep(0.001)

    def goes_on(self) -> None:
        self.process.send_signal(signal.SIGCONT)

    def progress(self) -> str:
        """A line of progress that counts all that came before this call."""
        os.set_blocking(self.out.fileno(), False)
        while self.out.read(1 << 16):
            pass
        os.set_blocking(self.out.fileno(), True)
        self.out.readline()
        return self.out.readline().decode()

    def end(self) -> None:
        self.process.kill()
        self.process.wait()

    def memory(self) -> int:
        """How many kilobytes it holds."""
        with open(f"/proc/{self.process.pid}/status", encoding="ascii") as status:
            found = re.search(r"VmRSS:\s*(\d+)", status.read())
        return int(found[1]) if found else 0

    def files(self) -> int:
        """How many files and sockets it has open."""
        return len(os.listdir(f"/proc/{self.process.pid}/fd"))


def frame(kind: int, content: bytes, masked: bool = True) -> bytes:
    """A frame of WebSocket; `kind` is its first byte."""
    size = len(content)
    long = struct.pack(">H", size) if 126 <= size < 65536 else struct.pack(">Q", size) if size >= 65536 else b""
    head = bytes([kind, (LAST if masked else 0) | {0: size, 2: 126, 8: 127}[len(long)]]) + long
    key = b"\x5a\x17\xe3\x08"
    return head + key + bytes(byte ^ key[place % 4] for place, byte in enumerate(content)) if masked else head + content


def upgrade(path: str = "/relay", *fields: str) -> bytes:
    """The head of a request for WebSocket."""
    usual = ("Host: relay", "Connection: Upgrade", "Upgrade: websocket", "Sec-WebSocket-Version: 13", f"Sec-WebSocket-Key: {KEY}")
    return "\r\n".join([f"GET {path} HTTP/1.1", *usual, *fields, "", ""]).encode()


@dataclass
class Client:
    """A connection to a relay."""

    port: int
    # how many bytes the system keeps of what comes, if not as many as it likes
    room: int = 0
    host: str = "127.0.0.1"
    socket: socket.socket = field(init=False)
    # what came and is not yet read
    rest: bytes = b""

    def __post_init__(self) -> None:
        self.socket = socket.socket()
        if self.room:
            self.socket.setsockopt(socket.SOL_SOCKET, socket.SO_RCVBUF, self.room)
        self.socket.setsockopt(socket.IPPROTO_TCP, socket.TCP_NODELAY, 1)
        self.socket.settimeout(PATIENCE)
        self.socket.connect((self.host, self.port))

    def say(self, content: bytes) -> None:
        self.socket.sendall(content)

    def hear(self, size: int, patience: float = PATIENCE) -> bytes:
        """So many bytes; fewer if the relay closes, or if no more come."""
        self.socket.settimeout(patience)
        try:
            while len(self.rest) < size:
                more = self.socket.recv(65536)
                if not more:
                    break
                self.rest += more
        except (TimeoutError, BlockingIOError, ConnectionError):
            pass
        heard, self.rest = self.rest[:size], self.rest[size:]
        return heard

    def is_closed(self, patience: float = PATIENCE) -> bool:
        """Whether the relay closes, and says nothing before."""
        self.socket.settimeout(patience)
        try:
            return not self.rest and self.socket.recv(1) == b""
        except (TimeoutError, BlockingIOError):
            return False
        except ConnectionError:
            return True

    def close(self) -> None:
        self.socket.close()


def own_address() -> str:
    """An IPv4 address of this machine that is not of the loopback; nothing if it has none."""
    with socket.socket(socket.AF_INET, socket.SOCK_DGRAM) as it:
        try:
            it.connect(("192.0.2.1", 9))
        except OSError:
            return ""
        own: str = it.getsockname()[0]
        return "" if own.startswith("127.") else own


def answer_to(port: int, request: bytes) -> tuple[int, dict[str, str], bytes]:
    """The status, the fields and the body that answer a request, up to the end of the connection."""
    client = Client(port)
    try:
        client.say(request)
    except ConnectionError:
        pass
    head, _, body = client.hear(1 << 25).partition(b"\r\n\r\n")
    client.close()
    first, *lines = head.decode("latin-1").split("\r\n")
    found = re.fullmatch(r"HTTP/1.1 (\d{3}) .*", first)
    return int(found[1]) if found else 0, dict(line.lower().split(": ", 1) for line in lines), body


class Browser(Client):
    """A client that speaks WebSocket."""

    def __init__(self, port: int, path: str = "/relay", *fields: str, room: int = 0) -> None:
        super().__init__(port, room)
        self.say(upgrade(path, *fields))
        self.head = b""
        while not self.head.endswith(b"\r\n\r\n"):
            byte = self.hear(1)
            if not byte:
                break
            self.head += byte
        self.is_open = self.head.startswith(b"HTTP/1.1 101 ") and f"sec-websocket-accept: {ACCEPT}\r\n".encode() in self.head

    def tell(self, content: bytes, kind: int = LAST | BINARY) -> None:
        """Sends a frame."""
        self.say(frame(kind, content))

    def told(self, patience: float = PATIENCE) -> tuple[int, bytes]:
        """The first byte and the content of the next frame; nothing if none comes."""
        head = self.hear(2, patience)
        if len(head) < 2:
            return 0, b""
        size = head[1] if head[1] < 126 else int.from_bytes(self.hear(2), "big")
        return head[0], self.hear(size)

    def packet(self, patience: float = PATIENCE) -> bytes:
        """The next packet; nothing if none comes."""
        kind, content = self.told(patience)
        return content if kind == LAST | BINARY else b""

    def join(self, seat: int, room: bytes = ROOM) -> int:
        """Asks for a seat."""
        self.tell(asking(seat, room=room))
        return status_of(self.packet())
