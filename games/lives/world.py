"""All peers of a match, all that they ever said, and the events. Peers and datagrams are interned, so a world is a few small numbers.

A peer says all that it may as soon as its state changes: the network may lose any of it, so nothing else can happen where it says less.
"""

from collections.abc import Iterator
from typing import NamedTuple

from rules import AWAY, DOWN, OPEN, Datagram, Heard, Journal, Memory, Rules, empty_journal, fresh_memory, hear, put
from saying import decide, leave, sayings, tick

WORKS, STOPS, REFUSES = "works", "stops", "refuses"


class Peer(NamedTuple):
    """`pending` is the journal with the record that the disk refused. The memory of a peer that is away is a fresh one."""

    player: int
    journal: Journal
    memory: Memory
    mode: int
    pending: Journal | None


class World(NamedTuple):
    """Peers by number, the datagrams that were said as a set of bits, and lost journals with their players.

    `drawn` counts the lives of each player; `born` has how many journals were lost before each life of player 1 began.
    """

    peers: tuple[int, ...]
    said: int
    lost: tuple[tuple[int, Journal], ...]
    drawn: tuple[int, ...]
    born: tuple[int, ...] = ()


class Event(NamedTuple):
    """What a player does: open, tick, leave, decide, give, close, wipe, back. `about` is a leaver, or the number of a datagram or a lost journal."""

    what: str
    player: int
    about: int = 0
    disk: str = WORKS
    finds: bool = False


class Fault(Exception):
    """A rule is broken."""


class Tables:
    """Numbers for peers and datagrams, and what is known of them."""

    def __init__(self, rules: Rules) -> None:
        self.rules = rules
        self.fresh = fresh_memory(rules)
        self.peers: list[Peer] = []
        self.number_of: dict[Peer, int] = {}
        self.datagrams: list[Datagram] = []
        self.bit_of: dict[Datagram, int] = {}
        self.to: list[int] = [0] * (rules.players + 1)
        self.says: list[int] = []
        self.dull: list[int] = []  # the datagrams that change nothing at this peer
        self.heard: dict[tuple[int, int], Heard] = {}

    def intern(self, peer: Peer) -> int:
        number = self.number_of.get(peer)
        if number is None:
            number = len(self.peers)
            self.number_of[peer] = number
            self.peers.append(peer)
            self.says.append(self.said_by(peer))
            self.dull.append(0)
        return number

    def intern_datagram(self, d: Datagram) -> int:
        number = self.bit_of.get(d)
        if number is None:
            number = len(self.datagrams)
            self.bit_of[d] = number
            self.datagrams.append(d)
            self.to[d.to] |= 1 << number
        return number

    def said_by(self, peer: Peer) -> int:
        if peer.mode != OPEN:
            return 0
        bits = 0
        for d in sayings(self.rules, peer.player, peer.journal, peer.memory):
            bits |= 1 << self.intern_datagram(d)
        return bits

    def start(self) -> World:
        journal = empty_journal(self.rules)
        peers = [self.intern(Peer(p, journal, self.fresh, AWAY, None)) for p in range(self.rules.players + 1)]
        return World(tuple(peers), 0, (), (0,) * (self.rules.players + 1))

    def peer(self, w: World, p: int) -> Peer:
        return self.peers[w.peers[p]]

    def placed(self, w: World, p: int, peer: Peer) -> World:
        number = self.intern(peer)
        return w._replace(peers=put(w.peers, p, number), said=w.said | self.says[number])

    def recorded(self, w: World, p: int, journal: Journal | None, memory: Memory, disk: str) -> World:
        """What a call leaves: its record stands, or a crash follows it, or the disk refuses it."""
        old = self.peer(w, p)
        if journal is None or disk == WORKS:
            return self.placed(w, p, Peer(p, journal or old.journal, memory, OPEN, None))
        if disk == STOPS:
            return self.placed(w, p, Peer(p, journal, self.fresh, AWAY, None))
        return self.placed(w, p, old._replace(mode=DOWN, pending=journal))

    # ---- events

    def opened(self, w: World, e: Event) -> World:
        p = e.player
        old = self.peer(w, p)
        found = old.pending if e.finds and old.pending else old.journal
        if found.life:
            journal = found._replace(epoch=found.epoch + 1)
        else:
            life = w.drawn[p] + 1
            w = w._replace(drawn=put(w.drawn, p, life), born=w.born + (len(w.lost),) if p == 1 else w.born)
            journal = found._replace(life=life, epoch=1, met=put(found.met, p, life))
        if e.disk == REFUSES:
            return self.placed(w, p, Peer(p, found, self.fresh, AWAY, journal))
        return self.placed(w, p, Peer(p, journal, self.fresh, OPEN if e.disk == WORKS else AWAY, None))

    def closed(self, w: World, e: Event) -> World:
        old = self.peer(w, e.player)
        found = old.pending if e.finds and old.pending else old.journal
        return self.placed(w, e.player, Peer(e.player, found, self.fresh, AWAY, None))

    def wiped(self, w: World, e: Event) -> World:
        old = self.peer(w, e.player)
        lost = w.lost + ((e.player, old.journal),) if old.journal.life else w.lost
        return self.placed(w, e.player, Peer(e.player, empty_journal(self.rules), self.fresh, AWAY, None))._replace(lost=lost)

    def returned(self, w: World, e: Event) -> World:
        """A lost journal is there again, and the present one is lost."""
        old = self.peer(w, e.player)
        lost = w.lost[: e.about] + w.lost[e.about + 1 :] + (((e.player, old.journal),) if old.journal.life else ())
        return self.placed(w._replace(lost=lost), e.player, Peer(e.player, w.lost[e.about][1], self.fresh, AWAY, None))

    def heard_at(self, w: World, p: int, number: int) -> Heard:
        key = (w.peers[p], number)
        known = self.heard.get(key)
        if known is None:
            old = self.peer(w, p)
            known = hear(self.rules, p, old.journal, old.memory, self.datagrams[number])
            self.heard[key] = known
            if known.journal is None and known.memory == old.memory:
                self.dull[w.peers[p]] |= 1 << number
        return known

    def given(self, w: World, e: Event) -> tuple[str, World]:
        answer, journal, memory = self.heard_at(w, e.player, e.about)
        return answer, self.recorded(w, e.player, journal, memory, e.disk)

    def happens(self, w: World, e: Event) -> tuple[str, World]:
        """The answer to an event, and the world after it. The event must be one of those that are possible."""
        if e.what == "open":
            return "", self.opened(w, e)
        if e.what == "close":
            return "", self.closed(w, e)
        if e.what == "wipe":
            return "", self.wiped(w, e)
        if e.what == "back":
            return "", self.returned(w, e)
        if e.what == "give":
            return self.given(w, e)
        old = self.peer(w, e.player)
        if e.what == "tick":
            journal = tick(self.rules, e.player, old.journal)
        elif e.what == "leave":
            journal = leave(old.journal, e.about)
        else:
            journal = decide(self.rules, old.journal, old.memory, e.about)
        return "", self.recorded(w, e.player, journal, old.memory, e.disk)

    def waiting(self, w: World, p: int) -> Iterator[int]:
        """The numbers of the datagrams that may change something at a player's peer."""
        bits = w.said & self.to[p] & ~self.dull[w.peers[p]]
        while bits:
            low = bits & -bits
            yield low.bit_length() - 1
            bits ^= low
