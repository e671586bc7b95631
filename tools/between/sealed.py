"""Datagrams and sealed packets, written a second time from docs/FORMATS.md alone."""
from __future__ import annotations

import hmac
from dataclasses import dataclass, field
from enum import Enum

HEADER = 24
HELLO, WELCOME, DATA, FREEZE, FROZEN, CUT, SHOW, SEEN = range(1, 9)
WATCHERS = (5, 6)
# the bytes of a body before its run or its rows
FIXED = {HELLO: 0, WELCOME: 4, DATA: 22, FREEZE: 6, FROZEN: 12, CUT: 12, SHOW: 6, SEEN: 4}
MOST_INPUTS, MOST_PAIRS, MOST_ROWS = 64, 42, 16
MOST_FRAMES, MOST_PLACE = 262144, 262148

LONGEST_DATAGRAM, COUNTER, TAG = 174, 8, 16
LONGEST_PACKET = LONGEST_DATAGRAM + COUNTER + TAG
WINDOW = 1024
# counters of an epoch; its last one is never used
OF_EPOCH = 1 << 32


def number_in(data: bytes, place: int, size: int) -> int:
    return int.from_bytes(data[place : place + size], "big")


@dataclass(frozen=True)
class Header:
    """The first 24 bytes of a datagram."""

    version: int
    kind: int
    session: bytes
    sender: int
    to: int
    length: int
    epoch: int

    @staticmethod
    def of(data: bytes) -> Header:
        return Header(data[2], data[3], data[4:12], data[12], data[13], number_in(data, 14, 2), number_in(data, 16, 4))


def are_players(header: Header) -> bool:
    if header.kind == SHOW:
        return header.sender == 1 and header.to in WATCHERS
    if header.kind == SEEN:
        return header.sender in WATCHERS and header.to == 1
    return header.sender in range(1, 5) and header.to in range(1, 5) and header.sender != header.to


def is_run(version: int, count: int, run: bytes) -> bool:
    """Whether bytes are a run of this many inputs."""
    if count > MOST_INPUTS:
        return False
    if version == 1:
        return len(run) == 2 * count
    if len(run) % 3 or len(run) > 3 * MOST_PAIRS:
        return False
    pairs = [(run[at], run[at + 1 : at + 3]) for at in range(0, len(run), 3)]
    differ = all(one[1] != next_one[1] for one, next_one in zip(pairs, pairs[1:]))
    return differ and all(length > 0 for length, _ in pairs) and sum(length for length, _ in pairs) == count


def is_body(header: Header, body: bytes) -> bool:
    """Whether a body is one of its header's kind."""
    kind, fixed = header.kind, FIXED[header.kind]
    if header.length != len(body) or len(body) < fixed or (kind in (HELLO, WELCOME, FREEZE, SEEN) and len(body) != fixed):
        return False
    if kind in (FREEZE, FROZEN, CUT) and not (2 <= body[0] <= 4 and body[1] == 0):
        return False
    if kind == HELLO:
        return True
    if kind in (WELCOME, SEEN):
        return number_in(body, 0, 4) <= (MOST_PLACE if kind == WELCOME else MOST_FRAMES)
    if kind == FREEZE:
        return number_in(body, 2, 4) <= MOST_PLACE
    if kind == SHOW:
        start, count = number_in(body, 0, 4), number_in(body, 4, 2)
        return count <= MOST_ROWS and len(body) - fixed == 8 * count and start + count <= MOST_FRAMES
    start, count = number_in(body, fixed - 6, 4), number_in(body, fixed - 2, 2)
    if kind == DATA:
        numbers = (number_in(body, 0, 4), number_in(body, 4, 4), start + count)
        return is_run(header.version, count, body[fixed:]) and all(it <= MOST_PLACE for it in numbers)
    most = number_in(body, 2, 4)
    return is_run(header.version, count, body[fixed:]) and start + count <= most <= MOST_PLACE


def header_of(data: bytes) -> Header | None:
    """The header of a datagram; nothing for bytes that are none."""
    if len(data) < HEADER or data[:2] != b"C8" or data[2] not in (1, 2) or data[3] not in FIXED:
        return None
    header = Header.of(data)
    return header if are_players(header) and is_body(header, data[HEADER:]) else None


def tag(key: bytes, counted: bytes) -> bytes:
    return hmac.digest(key, counted, "sha256")[:TAG]


class Refused(Enum):
    """Why a packet is not taken."""

    NOT_SEALED = "packets not sealed"
    SEEN_BEFORE = "packets seen before"


@dataclass
class Window:
    """The counters that were taken from one sender."""

    greatest: int = -1
    taken: set[int] = field(default_factory=set)

    def take(self, counter: int) -> bool:
        """Takes a counter, and returns whether it was new."""
        if counter <= self.greatest - WINDOW or counter in self.taken:
            return False
        self.greatest = max(self.greatest, counter)
        self.taken.add(counter)
        if len(self.taken) > 4 * WINDOW:
            self.taken = {it for it in self.taken if it > self.greatest - WINDOW}
        return True


@dataclass(frozen=True)
class Taken:
    """What was taken of a packet."""

    sender: int
    counter: int
    is_newest: bool
    datagram: bytes


class Sealer:
    """One opening of one player: seals its datagrams, and takes each packet for it once."""

    def __init__(self, secret: bytes, session: bytes, seat: int, epoch: int) -> None:
        self.key = hmac.digest(secret, b"c8play sealed 2" + session, "sha256")
        self.session, self.seat, self.epoch = session, seat, epoch
        self.next = epoch * OF_EPOCH
        self.windows: dict[int, Window] = {}
        self.refused = dict.fromkeys(Refused, 0)

    def seal(self, datagram: bytes) -> bytes:
        counted = datagram + self.next.to_bytes(COUNTER, "big")
        self.next += 1
        if self.next == (self.epoch + 1) * OF_EPOCH:
            raise OverflowError("this opening has sealed 4294967295 packets")
        return counted + tag(self.key, counted)

    def open(self, packet: bytes) -> Taken | None:
        """What a packet holds; nothing if it is refused, which is counted."""
        opened = self.judge(packet)
        if isinstance(opened, Taken):
            return opened
        self.refused[opened] += 1
        return None

    def judge(self, packet: bytes) -> Taken | Refused:
        counted, told = packet[:-TAG], packet[-TAG:]
        datagram, counter = counted[:-COUNTER], number_in(counted, len(counted) - COUNTER, COUNTER)
        if not COUNTER + TAG < len(packet) <= LONGEST_PACKET or not hmac.compare_digest(tag(self.key, counted), told):
            return Refused.NOT_SEALED
        header = header_of(datagram)
        # packets of watchers have a key of their own
        if not header or header.session != self.session or header.to != self.seat or header.kind in (SHOW, SEEN):
            return Refused.NOT_SEALED
        window = self.windows.setdefault(header.sender, Window())
        is_newest = counter > window.greatest
        if not window.take(counter):
            return Refused.SEEN_BEFORE
        return Taken(header.sender, counter, is_newest, datagram)
