#!/usr/bin/env python3
"""A relay for tests, as c8relay is one: it carries packets between the seats of a room, over UDP and over WebSockets, and serves a page.

usage: relay.py LOCAL [--pages FOLDER] [--delay MS] [--jitter MS] [--loss PERCENT] [--seed N]

LOCAL is the address for both, UDP and TCP, as 127.0.0.1:4001. Every packet but JOINs and their answers is delayed and lost as the
options say. Prints a line when it listens, and at SIGTERM or control-C what became of the packets. Only Python's own library.
"""
import argparse
import asyncio
import base64
import hashlib
import hmac
import os
import random
import signal
import struct
import sys
import time

MAGIC, JOIN_LENGTH, VERSION = b"CR", 40, 1
JOIN, PROVE, JOINED, BUSY = 1, 2, 3, 4
SHORTEST, LONGEST, SEATS = 48, 198, range(1, 7)
WATCHED_KINDS, KINDS = (7, 8), range(1, 9)
SILENCE, SLOT = 3, 64
MOST_HEAD, MOST_MESSAGE, MOST_WAITING = 8192, 4096, 65536
TYPES = {".html": "text/html; charset=utf-8", ".mjs": "text/javascript", ".css": "text/css", ".json": "application/json", ".svg": "image/svg+xml",
         ".wasm": "application/wasm", ".game": "text/plain; charset=utf-8"}
POLICY = "default-src 'self'; script-src 'self' 'wasm-unsafe-eval'"
ACCEPT = b"258EAFA5-E914-47DA-95CA-C5AB0DC85B11"
BINARY, CLOSE, PING, PONG = 2, 8, 9, 10


class Relay:
    """Who sits where. A sender is the address of a UDP port, or a connection."""

    def __init__(self, given):
        self.given, self.chance, self.key = given, random.Random(given.seed), os.urandom(32)
        self.seats = {}   # (name, lane, seat): the sender
        self.places = {}  # (sender, lane): the name, the seat, and when it was heard
        self.counts = dict.fromkeys(("came", "passed", "lost", "joins", "strange"), 0)

    def take(self, packet, sender):
        """Takes a packet, whatever its bytes."""
        if len(packet) == JOIN_LENGTH and packet[:4] == MAGIC + bytes([VERSION, JOIN]):
            self.counts["joins"] += 1
            status, cookie = self.join(packet, sender)
            sender.send(MAGIC + bytes([VERSION, status, 0, 0, 0, 0]) + cookie)
            return
        self.counts["came"] += 1
        to = self.route(packet, sender)
        if not to:
            self.counts["strange"] += 1
        elif self.chance.random() * 100 < self.given.loss:
            self.counts["lost"] += 1
        else:
            self.counts["passed"] += 1
            late = (self.given.delay + self.chance.uniform(-1, 1) * self.given.jitter) / 1000
            asyncio.get_running_loop().call_later(max(0, late), to.send, packet)

    def cookie(self, sender, slot):
        return hmac.digest(self.key, f"{sender.name} {slot}".encode(), "sha256")[:16]

    def join(self, packet, sender):
        seat, lane, name, cookie = packet[4], packet[5], packet[8:24], packet[24:]
        slot = int(time.monotonic() / SLOT)
        newest = self.cookie(sender, slot)
        if sender.is_connection:
            newest = bytes(16)
        elif cookie not in (newest, self.cookie(sender, slot - 1)):
            return PROVE, newest
        if seat not in SEATS or lane > 1:
            return BUSY, newest
        holder = self.seats.get((name, lane, seat))
        if holder not in (None, sender) and self.is_heard(holder, lane):
            return BUSY, newest
        self.leave(sender, lane)
        if holder:
            self.leave(holder, lane)
        self.seats[name, lane, seat] = sender
        self.places[sender, lane] = name, seat, time.monotonic()
        return JOINED, newest

    def is_heard(self, sender, lane):
        return time.monotonic() - self.places[sender, lane][2] < SILENCE

    def leave(self, sender, lane):
        name, seat, _ = self.places.pop((sender, lane), (None, None, None))
        self.seats.pop((name, lane, seat), None)

    def route(self, packet, sender):
        """To whom a packet goes, by its kind, from and to; nobody if its sender does not sit in that seat."""
        if not SHORTEST <= len(packet) <= LONGEST or packet[:2] != b"C8" or packet[3] not in KINDS:
            return None
        lane = int(packet[3] in WATCHED_KINDS)
        name, seat, _ = self.places.get((sender, lane), (None, None, None))
        if seat != packet[12] or packet[12] == packet[13]:
            return None
        self.places[sender, lane] = name, seat, time.monotonic()
        to = self.seats.get((name, lane, packet[13]))
        return to if to and self.is_heard(to, lane) else None


class Port(asyncio.DatagramProtocol):
    """The UDP port of the relay."""

    def __init__(self, relay):
        self.relay, self.senders, self.transport = relay, {}, None

    def connection_made(self, transport):
        self.transport = transport

    def datagram_received(self, data, addr):
        if addr not in self.senders:
            self.senders[addr] = Address(self, addr)
        self.relay.take(data, self.senders[addr])


class Address:
    """Whoever has a UDP port."""
    is_connection = False

    def __init__(self, port, address):
        self.port, self.address, self.name = port, address, f"{address}"

    def send(self, packet):
        self.port.transport.sendto(packet, self.address)


class Connection:
    """A WebSocket. A message is a packet."""
    is_connection = True

    def __init__(self, relay, reader, writer):
        self.relay, self.reader, self.writer, self.name = relay, reader, writer, f"{id(self)}"

    def send(self, packet):
        # what a page does not read is lost
        if not self.writer.is_closing() and self.writer.transport.get_write_buffer_size() < MOST_WAITING:
            self.frame(BINARY, packet)

    def frame(self, kind, content):
        size = bytes([len(content)]) if len(content) < 126 else b"\x7e" + struct.pack("!H", len(content))
        self.writer.write(bytes([0x80 | kind]) + size + content)

    async def listen(self):
        while True:
            first, second = await self.reader.readexactly(2)
            size = second & 127
            if size == 126:
                size = struct.unpack("!H", await self.reader.readexactly(2))[0]
            if size > MOST_MESSAGE or not second & 0x80:
                return
            mask, content = await self.reader.readexactly(4), await self.reader.readexactly(size)
            content = bytes(it ^ mask[place % 4] for place, it in enumerate(content))
            if first == 0x80 | BINARY:
                self.relay.take(content, self)
            elif first == 0x80 | CLOSE:
                self.frame(CLOSE, content[:2])
                return
            elif first == 0x80 | PING:
                self.frame(PONG, content)

    def end(self):
        for lane in (0, 1):
            self.relay.leave(self, lane)


class Pages:
    """Serves the files of a folder, and takes WebSockets at /relay."""

    def __init__(self, relay, folder):
        self.relay, self.files = relay, {}
        for name in sorted(os.listdir(folder)) if folder else ():
            path = os.path.join(folder, name)
            if os.path.isfile(path):
                with open(path, "rb") as it:
                    self.files[f"/{name}"] = TYPES.get(os.path.splitext(name)[1], "application/octet-stream"), it.read()
        if "/index.html" in self.files:
            self.files["/"] = self.files["/index.html"]

    async def serve(self, reader, writer):
        try:
            while await self.answer(reader, writer):
                await writer.drain()
        except (OSError, ValueError, KeyError, IndexError, asyncio.IncompleteReadError, asyncio.LimitOverrunError, asyncio.CancelledError):
            pass
        finally:
            writer.close()

    async def answer(self, reader, writer):
        """Answers a request, and says whether the connection goes on."""
        head = (await reader.readuntil(b"\r\n\r\n")).decode("latin-1").split("\r\n")
        path = head[0].split()[1].partition("?")[0]
        fields = {name.strip().lower(): value.strip() for name, _, value in (it.partition(":") for it in head[1:])}
        if fields.get("upgrade", "").lower() == "websocket" and path == "/relay":
            key = hashlib.sha1(fields["sec-websocket-key"].encode() + ACCEPT).digest()
            writer.write(b"HTTP/1.1 101 Switching Protocols\r\nUpgrade: websocket\r\nConnection: Upgrade\r\nSec-WebSocket-Accept: "
                         + base64.b64encode(key) + b"\r\n\r\n")
            connection = Connection(self.relay, reader, writer)
            try:
                await connection.listen()
            finally:
                connection.end()
            return False
        kind, content = self.files.get(path, ("text/plain", b"not found\n"))
        status = "200 OK" if path in self.files else "404 Not Found"
        writer.write(f"HTTP/1.1 {status}\r\nContent-Type: {kind}\r\nContent-Length: {len(content)}\r\nContent-Security-Policy: {POLICY}\r\n"
                     "X-Content-Type-Options: nosniff\r\nReferrer-Policy: no-referrer\r\nCache-Control: no-cache\r\n\r\n".encode() + content)
        return fields.get("connection", "").lower() != "close"


async def main():
    parser = argparse.ArgumentParser(usage=__doc__)
    parser.add_argument("local")
    parser.add_argument("--pages")
    for name in ("delay", "jitter", "loss"):
        parser.add_argument(f"--{name}", type=float, default=0)
    parser.add_argument("--seed", type=int)
    given = parser.parse_args()
    host, _, port = given.local.rpartition(":")
    loop, relay, end = asyncio.get_running_loop(), Relay(given), asyncio.Event()
    await loop.create_datagram_endpoint(lambda: Port(relay), local_addr=(host, int(port)))
    await asyncio.start_server(Pages(relay, given.pages).serve, host, int(port), limit=MOST_HEAD)
    for it in (signal.SIGINT, signal.SIGTERM):
        loop.add_signal_handler(it, end.set)
    print(f"relay on {given.local}", flush=True)
    await end.wait()
    print(" ".join(f"{name} {count}" for name, count in relay.counts.items()), flush=True)


if __name__ == "__main__":
    sys.exit(asyncio.run(main()))
