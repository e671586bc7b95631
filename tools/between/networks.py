"""Networks between two players of a match, on sockets of their own: one that repeats packets, and a gateway that seals."""
from __future__ import annotations

import heapq
import itertools
import selectors
import socket
import threading
import time
from abc import ABC, abstractmethod
from collections.abc import Callable
from dataclasses import dataclass, field

from .sealed import COUNTER, HELLO, OF_EPOCH, TAG, Header, Refused, Sealer, number_in

Address = tuple[str, int]

LOOPBACK = "127.0.0.1"
# more than any packet has
LARGE = 2048


def open_socket() -> socket.socket:
    opened = socket.socket(socket.AF_INET, socket.SOCK_DGRAM)
    opened.bind((LOOPBACK, 0))
    opened.setblocking(False)
    opened.setsockopt(socket.SOL_SOCKET, socket.SO_RCVBUF, 1 << 21)
    return opened


def address_of(opened: socket.socket) -> Address:
    host, port = opened.getsockname()
    return host, port


def spelled(address: Address) -> str:
    return f"{address[0]}:{address[1]}"


class Network(threading.Thread, ABC):
    """A thread over sockets. Everything but the constructor is called with its lock, or from the thread."""

    def __init__(self) -> None:
        super().__init__(daemon=True)
        self.lock = threading.RLock()
        self.selector = selectors.DefaultSelector()
        self.due: list[tuple[float, int, Callable[[], None]]] = []
        self.asked, self.ended = 0, False
        # whether more packets wait than were read in the last turn
        self.lags = False
        self.fault: BaseException | None = None

    def opened(self) -> socket.socket:
        """A new socket, whose packets go to `came`."""
        made = open_socket()
        self.selector.register(made, selectors.EVENT_READ)
        return made

    def after(self, seconds: float, act: Callable[[], None]) -> None:
        self.asked += 1
        heapq.heappush(self.due, (time.monotonic() + seconds, self.asked, act))

    def every(self, seconds: float, act: Callable[[], None]) -> None:
        def again() -> None:
            act()
            self.after(seconds, again)

        self.after(seconds, again)

    @abstractmethod
    def came(self, by: socket.socket, packet: bytes, sender: Address) -> None:
        """A packet came to a socket."""

    def read(self, by: socket.socket) -> bool:
        """Reads a few packets, so that what is due is not late. Returns whether more may wait."""
        for _ in range(16):
            with self.lock:
                try:
                    packet, sender = by.recvfrom(LARGE)
                except BlockingIOError:
                    return False
                except ConnectionError:
                    continue
                self.came(by, packet, sender)
        return True

    def run(self) -> None:
        try:
            while not self.ended:
                self.turn()
        except BaseException as error:  # pylint: disable=broad-except
            self.fault = error
            raise

    def turn(self) -> None:
        with self.lock:
            while self.due and self.due[0][0] <= time.monotonic():
                heapq.heappop(self.due)[2]()
            wait = min(max(self.due[0][0] - time.monotonic(), 0), 0.05) if self.due else 0.05
        lags = False
        for key, _ in self.selector.select(wait):
            assert isinstance(key.fileobj, socket.socket)
            lags |= self.read(key.fileobj)
        self.lags = lags

    def end(self) -> None:
        self.ended = True
        self.join()
        for key in list(self.selector.get_map().values()):
            assert isinstance(key.fileobj, socket.socket)
            key.fileobj.close()
        self.selector.close()
        if self.fault:
            raise self.fault


def loses_one(opened: socket.socket) -> bool:
    """Whether a packet waited at a socket. It is lost."""
    try:
        return bool(opened.recv(LARGE))
    except ConnectionError:
        return True
    except BlockingIOError:
        return False


def counter_of(packet: bytes) -> int:
    return number_in(packet, len(packet) - TAG - COUNTER, COUNTER)


def forged(packet: bytes) -> bytes:
    """A packet with a much greater counter, that nobody sealed."""
    counter = counter_of(packet) + (1 << 20)
    return packet[: -TAG - COUNTER] + counter.to_bytes(COUNTER, "big") + packet[-TAG:]


def send(by: socket.socket, packet: bytes, to: Address) -> None:
    """Sends a packet; one that cannot be sent is lost."""
    try:
        by.sendto(packet, to)
    except (BlockingIOError, ConnectionError):
        pass


@dataclass
class Player:
    """What a network knows of a player: where it listens, what it sent, and the rules for what it takes."""

    address: Address
    is_open: bool = False
    epoch: int = 0
    kept: list[bytes] = field(default_factory=list)
    # the counter of its last packet
    counter: int = -1
    # of a match with a secret: which packets it has to take, and where it has to see the other player
    model: Sealer | None = None
    sees_door: bool = True
    since: float = 0.0


class Replayer(Network):
    """A network between players 1 and 2. Each finds the other at a door. With each packet go copies of it: at once, a second
    later, and both from a stranger's address too; one that is forged, and one back to its sender. Every 16th packet is
    overtaken by others and comes from the stranger. While packets wait to be read, nothing is repeated. A model of each player with a secret counts the packets that it has to
    refuse, and says from which address it has the newest one.
    """

    LATER = 1.0
    OVERTAKEN = 0.1
    # how long after a model moved a player may still send to the old address
    SETTLED = 1.0

    def __init__(self, one: Address, two: Address, secret: bytes | None, repeats: bool = True) -> None:
        super().__init__()
        self.secret, self.repeats, self.is_silent = secret, repeats, False
        self.players = {1: Player(one), 2: Player(two)}
        # the socket that stands for this player
        self.doors = {1: self.opened(), 2: self.opened()}
        self.stranger = self.opened()
        self.strays, self.misnumbered, self.carried = 0, 0, 0

    def door(self, number: int) -> Address:
        """Where the other player finds this one."""
        return address_of(self.doors[number])

    # ---- openings and ends of a player

    def open(self, number: int) -> None:
        """From now on this player is open: for the first time, or again with its journal."""
        with self.lock:
            player = self.players[number]
            player.is_open, player.model, player.sees_door = True, None, True
            player.epoch, player.since = player.epoch + 1, time.monotonic()

    def close(self, number: int) -> None:
        """This player was killed."""
        with self.lock:
            player = self.players[number]
            player.is_open, player.model = False, None

    def refused_by(self, number: int) -> dict[Refused, int]:
        """How many packets this player had to refuse since its opening."""
        with self.lock:
            model = self.players[number].model
            return dict(model.refused) if model else dict.fromkeys(Refused, 0)

    # ---- what is carried

    def give(self, number: int, packet: bytes, by: socket.socket) -> None:
        """Sends a packet to a player, and enters it into the player's model."""
        player = self.players[number]
        if not player.is_open:
            return
        send(by, packet, player.address)
        if not self.secret:
            return
        if not player.model:
            player.model = Sealer(self.secret, Header.of(packet).session, number, player.epoch)
        taken = player.model.open(packet)
        if taken and taken.is_newest:
            sees_door = by is not self.stranger
            if sees_door != player.sees_door:
                player.sees_door, player.since = sees_door, time.monotonic()

    def came(self, by: socket.socket, packet: bytes, sender: Address) -> None:
        number = next((it for it, player in self.players.items() if player.address == sender), 0)
        if not number:
            return
        player = self.players[number]
        # player 2 has a named address for player 1: it sends nothing elsewhere
        is_stray = by is self.stranger and (number == 2 or player.sees_door)
        if is_stray and time.monotonic() > player.since + self.SETTLED:
            self.strays += 1
        if self.secret:
            self.note_counter(player, packet)
        if not self.is_silent:
            player.kept.append(packet)
            self.carry(number, packet)

    def note_counter(self, player: Player, packet: bytes) -> None:
        """Each packet has a counter of its sender's epoch, greater than the one before."""
        counter = counter_of(packet)
        if counter // OF_EPOCH != Header.of(packet).epoch or counter <= player.counter:
            self.misnumbered += 1
        player.counter = counter

    def carry(self, number: int, packet: bytes) -> None:
        """Carries a packet of a player to the other one, with its copies."""
        door, to = self.doors[number], 3 - number
        self.carried += 1
        # on a slow machine copies would hold up the match: then the network only carries, until it has caught up
        if not self.repeats or self.lags:
            self.give(to, packet, door)
            return
        if self.carried % 16:
            self.give(to, packet, door)
            self.give(to, packet, door)
            self.give(to, packet, self.stranger)
        else:
            self.after(self.OVERTAKEN, lambda: self.give(to, packet, self.stranger))
        self.give(to, forged(packet), self.stranger)
        self.give(number, packet, self.stranger)
        self.after(self.LATER, lambda: self.give(to, packet, door))
        self.after(self.LATER, lambda: self.give(to, packet, self.stranger))

    def replay(self, number: int, most: int) -> None:
        """Sends this player copies of what the other one sent: the newest, and some of all times, from the stranger too."""
        with self.lock:
            kept = self.players[3 - number].kept
            step = max(1, 2 * len(kept) // most)
            for packet in kept[::step] + kept[-most // 2 :]:
                self.give(number, packet, self.stranger)
                self.give(number, packet, self.doors[3 - number])


    def haunt(self, number: int) -> None:
        """From now on copies of what this player sent come to the other one, one a millisecond."""
        with self.lock:
            kept = itertools.cycle(list(self.players[number].kept))
            self.every(0.001, lambda: self.give(3 - number, next(kept), self.doors[number]))


class Flooder(Replayer):
    """A network that sends the newest HELLO of each player again every millisecond and behind each packet of the other one,
    so in each turn. It repeats nothing else."""

    def __init__(self, one: Address, two: Address, secret: bytes | None) -> None:
        super().__init__(one, two, secret, repeats=False)
        self.hellos: dict[int, bytes] = {}
        self.every(0.001, self.flood)

    def flood(self) -> None:
        for number, packet in self.hellos.items():
            self.give(3 - number, packet, self.doors[number])

    def carry(self, number: int, packet: bytes) -> None:
        super().carry(number, packet)
        if packet[3] == HELLO:
            self.hellos[number] = packet
        self.flood()


class Gateway(Network):
    """Seals what a player without a secret sends, and gives that player what it opens. It learns where the other player is,
    as the program does, unless it has an address. With `greets` it seals the player's newest HELLO again every millisecond
    and after each packet that it opens, so in each turn of the other one.
    """

    def __init__(self, player: Address, secret: bytes, there: Address | None = None, greets: bool = False) -> None:
        super().__init__()
        self.player, self.secret, self.there, self.learns = player, secret, there, there is None
        self.near, self.far = self.opened(), self.opened()
        self.sealer: Sealer | None = None
        self.hello, self.greets = b"", greets
        if greets:
            self.every(0.001, lambda: self.forward(self.hello))

    def close(self) -> None:
        """The player was killed: its next opening has taken nothing yet, and knows no learnt address. What waits is lost."""
        with self.lock:
            for it in (self.near, self.far):
                while loses_one(it):
                    pass
            if self.sealer:
                self.sealer = Sealer(self.secret, self.sealer.session, self.sealer.seat, self.sealer.epoch + 1)
            self.hello = b""
            self.there = None if self.learns else self.there

    def refused(self) -> dict[Refused, int]:
        with self.lock:
            return dict(self.sealer.refused) if self.sealer else dict.fromkeys(Refused, 0)

    def forward(self, datagram: bytes) -> None:
        if datagram and self.sealer and self.there:
            send(self.far, self.sealer.seal(datagram), self.there)

    def came(self, by: socket.socket, packet: bytes, sender: Address) -> None:
        if by is self.near:
            header = Header.of(packet)
            if not self.sealer or self.sealer.epoch < header.epoch:
                self.sealer = Sealer(self.secret, header.session, header.sender, header.epoch)
            if header.epoch < self.sealer.epoch:
                return
            if header.kind == HELLO:
                self.hello = packet
            self.forward(packet)
        elif self.sealer:
            taken = self.sealer.open(packet)
            if not taken:
                return
            if taken.is_newest and self.learns:
                self.there = sender
            send(self.near, taken.datagram, self.player)
            if self.greets:
                self.forward(self.hello)
