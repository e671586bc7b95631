"""Bad input of every kind from a generator: the relay goes on, serves others, and takes no memory."""
from __future__ import annotations

import os
import random
import re
import shutil
import socket
import tempfile
import time

from relay.parts import (
    BINARY, CLOSE, JOINED, LAST, PING, PONG, PROVE, QUIET, TEXT, Browser, Client, Player, Relay, asking, check, datagram, eventually, frame,
    upgrade,
)

# the most connections at once; how many seconds one has for its head, and how much later the relay may look
PLACES, HURRY, LATE = 1024, 5, 3
# as many kilobytes as the system may give a program that asks for none
SOME = 128
# the most files and sockets of a relay without connections
MOST_FILES = 8
# the packets of a round, and the senders
PACKETS, SENDERS = 40, 16
# the longest packets of UDP, and of FORMATS
LONGEST_UDP, LONGEST = 65507, 198
# fields and requests that stand where others should
FIELDS = [b"Upgrade: h2c", b"Connection: close", b"Sec-WebSocket-Key: !!!!", b"Sec-WebSocket-Version: 8", b"Content-Length: 5", b"X-Real-IP: ::1",
    b"Transfer-Encoding: chunked", b"Origin: https://evil", b"If-None-Match: *", b": y", b"A:", b"\xff: \xff"]
REQUESTS = [b"POST /relay HTTP/1.1", b"GET /relay/7 HTTP/1.1", b"GET /relay/x HTTP/1.1", b"GET * HTTP/1.0", b"GET /../../etc HTTP/1.1", b"GET  HTTP/1.1",
    b"GET /" + b"a" * 9000 + b" HTTP/1.1", b"HEAD /relay HTTP/1.1", b"GET / HTTP/2.0", b"PRI * HTTP/2.0"]
# the calls by which a program takes and gives back memory
CALLS = "brk,mmap,mremap,munmap"


def damaged(chance: random.Random, content: bytes, most: int = 4) -> bytes:
    """Bytes of which some are others, too few or too many."""
    made = bytearray(content)
    for _ in range(chance.randrange(most)):
        if made:
            made[chance.randrange(len(made))] = chance.choice([0, 1, 0xFF, chance.randrange(256)])
    what = chance.randrange(4)
    if what == 0:
        del made[chance.randrange(len(made) + 1):]
    elif what == 1:
        made += chance.randbytes(chance.randrange(1, 64))
    return bytes(made)


def bad_packet(chance: random.Random) -> bytes:
    """A JOIN or a sealed packet that is damaged, or of a wrong length, or noise."""
    what = chance.randrange(8)
    if what < 3:
        return damaged(chance, asking(chance.randrange(8), chance.randbytes(16)))
    if what < 6:
        return damaged(chance, datagram(chance.randrange(8), chance.randrange(8)))
    if what == 6:
        return datagram(1, 2)[:24].ljust(chance.choice([24, 47, LONGEST + 1, LONGEST + 2, 1500, LONGEST_UDP]), b"z")
    return chance.randbytes(chance.randrange(300))


def bad_head(chance: random.Random) -> bytes:
    """A head that is damaged, or noise, or asks for what there is not."""
    lines = chance.choice([upgrade(), upgrade(), b"GET / HTTP/1.1\r\nHost: relay\r\n\r\n", b"HEAD /a?b HTTP/1.1\r\nA: b\r\n\r\n"]).split(b"\r\n")
    for _ in range(chance.randrange(3)):
        place = chance.randrange(len(lines))
        what = chance.randrange(5)
        if what == 0 and lines[place]:
            lines[place] = damaged(chance, lines[place])
        elif what == 1:
            lines[1:1] = [chance.choice(FIELDS)] * chance.choice([1, 2, 70])
        elif what == 2:
            lines[1:1] = [b"X: " + b"y" * chance.randrange(9000)]
        elif what == 3:
            lines[0] = chance.choice(REQUESTS)
        else:
            del lines[place]
    head = b"\r\n".join(lines)
    return chance.randbytes(chance.randrange(100)) if chance.randrange(20) == 0 else head[: chance.choice([len(head), len(head), chance.randrange(len(head) + 1)])]


def bad_frame(chance: random.Random) -> bytes:
    """A frame that is damaged, a fragment, too long, or without a mask; also good ones, for what follows them."""
    packets = asking(chance.randrange(256)), datagram(chance.randrange(8), chance.randrange(8)), chance.randbytes(chance.randrange(300))
    content = chance.choice(packets)
    content = content[: chance.choice([len(content), chance.randrange(len(content) + 1)])]
    kind = chance.choice([LAST | BINARY] * 6 + [LAST | TEXT, BINARY, LAST, LAST | PING, LAST | PONG, LAST | CLOSE, chance.randrange(256)])
    one = bytearray(frame(kind, content, chance.random() < 0.95))
    what = chance.randrange(20)
    if what < 2:
        one[chance.randrange(len(one))] = chance.randrange(256)
    elif what == 2:
        one[1:1] = chance.choice([b"\xff" + chance.randbytes(8), b"\xff" + bytes(8), b"\xfe" + chance.randbytes(2)])
    return bytes(one)


def offered(port: int, host: str, content: bytes, patience: float) -> None:
    """Sends bytes by a connection, and reads for a moment."""
    with socket.create_connection(("127.0.0.1", port), source_address=(host, 0)) as client:
        client.settimeout(patience)
        try:
            client.sendall(content)
            client.recv(1 << 16)
        except (OSError, ConnectionError):
            pass


def give(relay: Relay, inputs: int, chance: random.Random) -> None:
    """Gives a relay as many bad inputs: packets, heads, and frames behind a good head. Each member among the senders has a seat."""
    senders = [Player(("127.0.0.1", relay.port)) for _ in range(SENDERS)]
    given = 0
    while given < inputs:
        if given % (PACKETS * 1000) == 0:
            senders[0].join(1)
        for sender in chance.choices(senders, k=PACKETS):
            sender.say(bad_packet(chance))
        host = f"127.3.{chance.randrange(256)}.{chance.randrange(1, 255)}"
        frames = [bad_frame(chance) for _ in range(chance.randrange(1, 12))]
        content = b"".join(frames)
        patience = chance.choice([0.0001, 0.0001, 0.01])
        try:
            offered(relay.port, host, bad_head(chance), patience)
            offered(relay.port, host, upgrade() + content[: chance.choice([len(content), chance.randrange(len(content) + 1)])], patience)
        except OSError:
            # the places are taken for a moment
            time.sleep(0.01)
        given += PACKETS + 1 + len(frames)
    for it in senders:
        it.socket.close()


def taken_by(relay: Relay) -> int:
    """How many packets it counted so far, whatever became of them."""
    return sum(map(int, re.findall(r"(?:datagrams|joins|unknown|stranger|nobody|fast|crowd) (\d+)", relay.progress())))


def calls_in(path: str) -> int:
    """How many calls for memory were made so far."""
    with open(path, encoding="utf-8") as it:
        return sum(1 for _ in it)


def stands_bad_input(inputs: int) -> None:
    """After bad input the relay still serves, and holds no more memory and no more sockets."""
    with tempfile.TemporaryDirectory() as folder:
        traced = f"{folder}/calls"
        before = ("strace", "-D", "-f", "--seccomp-bpf", "-qq", "-e", f"trace={CALLS}", "-o", traced)
        has_strace = bool(shutil.which("strace"))
        if not has_strace:
            print("relays: skipped: no strace, so its calls for memory are not looked at")
        relay = Relay("127.0.0.1:0", "--progress", before=before if has_strace else ())
        chance = random.Random(8)
        try:
            # all places were used once
            for client in [Client(relay.port) for _ in range(PLACES)]:
                client.close()
            calls = calls_in(traced) if has_strace else 0
            give(relay, inputs // 8, chance)
            memory = relay.memory()
            give(relay, inputs - inputs // 8, chance)
            # some are lost where the system has no room for them
            taken = taken_by(relay)
            check("most packets came to it", taken > inputs / 2, taken, inputs)
            check("it still runs", relay.process.poll() is None, relay.process.poll())
            check("its memory has not grown", relay.memory() <= memory + SOME, memory, relay.memory())
            check("all connections are closed", eventually(lambda: relay.files() <= MOST_FILES, HURRY + LATE), relay.files())
            time.sleep(2 * QUIET)
            web, player = Browser(relay.port), Player(("127.0.0.1", relay.port))
            room = bytes(16)
            joined = web.join(1, room), player.join(2, room)
            check("it still serves", joined == (JOINED, (PROVE, JOINED)), joined)
            player.say(datagram(2, 1, 9))
            check("it still carries", web.packet() == datagram(2, 1, 9))
            check("it asked for no memory", not has_strace or calls_in(traced) == calls, calls, os.path.getsize(traced) if has_strace else 0)
        finally:
            relay.end()
