"""The other side of a relay: a seat that joins it over UDP, and a shim that lets a program without an option for relays play there."""
from __future__ import annotations

import hashlib
import hmac
import selectors
import socket
import threading
import time

JOIN, PROVE, JOINED, BUSY = 1, 2, 3, 4
EVERY, ANSWER = 1.0, 24
Address = tuple[str, int]


def session_of(game_id: bytes, room: int) -> bytes:
    """The session of a match, of the game with this id."""
    return hashlib.sha256(game_id + room.to_bytes(8, "big")).digest()[:8]


def room_name(secret: bytes, session: bytes) -> bytes:
    return hmac.digest(secret, b"c8play relay 1" + session, "sha256")[:16]


class Seat:
    """A UDP socket that asks for a seat of a room, again each second."""

    def __init__(self, relay: Address, name: bytes, seat: int, lane: int = 0) -> None:
        self.relay, self.name, self.seat, self.lane = relay, name, seat, lane
        self.cookie, self.said, self.status = bytes(16), 0.0, 0
        self.socket = socket.socket(socket.AF_INET, socket.SOCK_DGRAM)
        self.socket.bind(("127.0.0.1", 0))

    def ask(self) -> None:
        """Says a JOIN, if it is time for one."""
        if time.monotonic() >= self.said + EVERY:
            self.say()

    def say(self) -> None:
        self.said = time.monotonic()
        self.send(bytes([0x43, 0x52, 1, JOIN, self.seat, self.lane, 0, 0]) + self.name + self.cookie)

    def send(self, packet: bytes) -> None:
        self.socket.sendto(packet, self.relay)

    def receive(self) -> bytes:
        """The next packet, if it is not an answer to a JOIN."""
        packet = self.socket.recv(2048)
        if packet[:2] != b"CR" or len(packet) != ANSWER:
            return packet
        self.status, is_new = packet[3], packet[8:] != self.cookie
        self.cookie = packet[8:]
        if self.status == PROVE and is_new:
            self.say()
        return b""


class Shim(threading.Thread):
    """Stands between a program at a UDP address and a relay. It has a port for each other player, which the program takes for that one."""

    def __init__(self, relay: Address, name: bytes, seat: int, program: Address, others: list[int]) -> None:
        super().__init__(daemon=True)
        self.seat, self.program, self.is_ended = Seat(relay, name, seat), program, False
        self.ports: dict[int, socket.socket] = {}
        for number in others:
            self.ports[number] = socket.socket(socket.AF_INET, socket.SOCK_DGRAM)
            self.ports[number].bind(("127.0.0.1", 0))
        self.start()

    def address(self, number: int) -> str:
        host, port = self.ports[number].getsockname()
        return f"{host}:{port}"

    def run(self) -> None:
        with selectors.DefaultSelector() as selector:
            for it in [self.seat.socket, *self.ports.values()]:
                selector.register(it, selectors.EVENT_READ)
            while not self.is_ended:
                self.seat.ask()
                for key, _ in selector.select(EVERY / 10):
                    assert isinstance(key.fileobj, socket.socket)
                    self.carry(key.fileobj)
        for it in [self.seat.socket, *self.ports.values()]:
            it.close()

    def carry(self, came: socket.socket) -> None:
        try:
            if came is not self.seat.socket:
                self.seat.send(came.recv(2048))
                return
            packet = self.seat.receive()
            if len(packet) > 13 and packet[12] in self.ports:
                self.ports[packet[12]].sendto(packet, self.program)
        except OSError:
            pass  # the program, or the relay, is not there now

    def end(self) -> None:
        self.is_ended = True
        self.join()
