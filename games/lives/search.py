"""Searches worlds: all of a tiny game, or random ones of a larger game."""

import random
import time
from collections.abc import Iterator
from typing import NamedTuple

from laws import Laws, check_answer
from rules import AWAY, NONE, OPEN, Datagram, Rules
from saying import decide, tick
from world import REFUSES, STOPS, WORKS, Event, Fault, Tables, World


class Limits(NamedTuple):
    """How often each player may lose its journal and come back with it, whom player 1 may drop, and the most events in a row."""

    wipes: tuple[int, ...]
    restarts: tuple[int, ...]
    leavers: tuple[int, ...] = ()
    stops: bool = False
    depth: int = 1000


class Found(NamedTuple):
    """The outcome of a search: the fault and the events that lead to it, and how much was searched."""

    fault: str
    events: list[str]
    worlds: int
    steps: int
    whole: bool
    seconds: float


def all_open(tables: Tables) -> World:
    w = tables.start()
    for p in tables.rules.everybody():
        w = tables.opened(w, Event("open", p))
    return w


# ---- all worlds of a tiny game


def may_restart(tables: Tables, w: World, limits: Limits, p: int) -> bool:
    return tables.peer(w, p).journal.epoch <= limits.restarts[p]


def opened_again(tables: Tables, w: World, p: int) -> World:
    return tables.opened(w, Event("open", p))


def calls_of(tables: Tables, w: World, limits: Limits, p: int) -> Iterator[Event]:
    peer = tables.peer(w, p)
    if tick(tables.rules, p, peer.journal):
        yield Event("tick", p)
    for number in tables.waiting(w, p):
        yield Event("give", p, number)
    if p == 1:
        for q in limits.leavers:
            if not peer.journal.leaving[q]:
                yield Event("leave", 1, q)
            elif peer.journal.cuts[q] == NONE and decide(tables.rules, peer.journal, peer.memory, q):
                yield Event("decide", 1, q)


def next_worlds(tables: Tables, w: World, limits: Limits) -> Iterator[tuple[Event, str, World]]:
    """Each player is open at once after a stop, a restart or a wipe: an open peer that does nothing is like none."""
    for p in tables.rules.everybody():
        for event in calls_of(tables, w, limits, p):
            answer, v = tables.happens(w, event)
            yield event, answer, v
            stands = tables.peer(v, p).journal != tables.peer(w, p).journal
            if limits.stops and stands and may_restart(tables, w, limits, p):
                stopped = event._replace(disk=STOPS)
                yield stopped, answer, opened_again(tables, tables.happens(w, stopped)[1], p)
        if may_restart(tables, w, limits, p):
            yield Event("close", p), "", opened_again(tables, tables.closed(w, Event("close", p)), p)
        if w.drawn[p] <= limits.wipes[p]:
            yield Event("wipe", p), "", opened_again(tables, tables.wiped(w, Event("wipe", p)), p)


def shown(tables: Tables, event: Event) -> str:
    text = f"{event.what} {event.player}"
    if event.what == "give":
        d = tables.datagrams[event.about]
        parts = [f"{name} {value}" for name, value in zip(d._fields, d) if value and name not in ("kind", "sender", "to", "news")]
        text += f" {d.kind} of {d.sender} ({', '.join(parts)})"
    elif event.about:
        text += f" {event.about}"
    return text + (f", {event.disk}" if event.disk != WORKS else "")


def way_to(tables: Tables, came: dict[World, tuple[World, Event] | None], w: World) -> list[str]:
    events: list[str] = []
    while step := came[w]:
        w, event = step
        events.append(shown(tables, event))
    return events[::-1]


class Explorer:
    """Breadth first, so the first way to a fault is a shortest one."""

    def __init__(self, rules: Rules, limits: Limits, only: str = "") -> None:
        self.tables = Tables(rules)
        self.limits = limits
        self.laws = Laws(self.tables, only)
        self.came: dict[World, tuple[World, Event] | None] = {all_open(self.tables): None}
        self.steps = 0

    def step(self, w: World, new: list[World]) -> None:
        for event, answer, v in next_worlds(self.tables, w, self.limits):
            self.steps += 1
            if v in self.came:
                continue
            self.came[v] = (w, event)
            new.append(v)
            self.laws.check_life(w, v, event.player)
            if event.what == "give":
                check_answer(self.tables, w, event.player, self.tables.datagrams[event.about], answer)
            self.laws.check(v)

    def search(self, seconds: float, most: int) -> Found:
        begin = time.monotonic()
        layer = list(self.came)
        for _ in range(self.limits.depth):
            new: list[World] = []
            for w in layer:
                try:
                    self.step(w, new)
                except Fault as fault:
                    return self.found(str(fault), way_to(self.tables, self.came, new[-1]), False, begin)
                if time.monotonic() - begin > seconds or len(self.came) > most:
                    return self.found("", [], False, begin)
            layer = new
            if not layer:
                return self.found("", [], True, begin)
        return self.found("", [], False, begin)

    def found(self, fault: str, events: list[str], whole: bool, begin: float) -> Found:
        return Found(fault, events, len(self.came), self.steps, whole, time.monotonic() - begin)


# ---- random worlds

Noted = tuple[Event, Datagram | None]


class Wander:
    """One random life of a world. `old` is how often a delivery is an old one rather than one of the newest."""

    def __init__(self, rules: Rules, rng: random.Random, only: str = "") -> None:
        self.rules = rules
        self.rng = rng
        self.tables = Tables(rules)
        self.laws = Laws(self.tables, only)
        self.w = self.tables.start()
        self.events: list[Noted] = []
        self.weights = self.draw_weights()
        self.leavers = [q for q in range(2, rules.players + 1) if rng.random() < 0.4]
        self.wipes = rng.choice((0, 1, 1, 2, 2, 3))

    def draw_weights(self) -> dict[str, float]:
        often = self.rng.choice((0.003, 0.01, 0.03))
        return {
            "give": 6.0,
            "tick": self.rng.choice((0.3, 1.0, 2.0)),
            "open": 0.5,
            "close": often,
            "wipe": self.rng.choice((0.0, often, 3 * often)),
            "back": self.rng.choice((0.0, often)),
            "leave": self.rng.choice((0.0, often)),
            "decide": 0.3,
        }

    def disk(self) -> str:
        return self.rng.choices((WORKS, STOPS, REFUSES), (60, 1, 1))[0]

    def pick(self, p: int) -> int | None:
        waiting = list(self.tables.waiting(self.w, p))
        if not waiting:
            return None
        if self.rng.random() < 0.6:
            waiting = waiting[-12:]
        return self.rng.choice(waiting)

    def draw(self) -> Event | None:
        """An event, or none if the one drawn is not possible now."""
        what = self.rng.choices(list(self.weights), list(self.weights.values()))[0]
        p = self.rng.randint(1, self.rules.players)
        mode, finds = self.tables.peer(self.w, p).mode, self.rng.random() < 0.5
        if what == "open":
            return Event("open", p, 0, self.disk(), finds) if mode != OPEN else None
        if what == "close":
            return Event("close", p, 0, WORKS, finds) if mode != AWAY else None
        if what == "wipe":
            return Event("wipe", p) if len(self.w.lost) < self.wipes else None
        if what == "back":
            return self.draw_back()
        if what in ("leave", "decide"):
            return self.draw_drop(what)
        if mode != OPEN:
            return None
        if what == "tick":
            return Event("tick", p, 0, self.disk()) if tick(self.rules, p, self.tables.peer(self.w, p).journal) else None
        number = self.pick(p)
        return None if number is None else Event("give", p, number, self.disk())

    def draw_back(self) -> Event | None:
        if not self.w.lost:
            return None
        place = self.rng.randrange(len(self.w.lost))
        return Event("back", self.w.lost[place][0], place)

    def draw_drop(self, what: str) -> Event | None:
        chair = self.tables.peer(self.w, 1)
        if chair.mode != OPEN or not self.leavers:
            return None
        q = self.rng.choice(self.leavers)
        if what == "leave":
            return None if chair.journal.leaving[q] else Event("leave", 1, q, self.disk())
        return Event("decide", 1, q, self.disk()) if decide(self.rules, chair.journal, chair.memory, q) else None

    def step(self) -> None:
        event = self.draw()
        if event is None:
            return
        before = self.w
        self.laws.note(event.what)
        self.events.append((event, self.tables.datagrams[event.about] if event.what == "give" else None))
        answer, self.w = self.tables.happens(before, event)
        if event.what == "give":
            check_answer(self.tables, before, event.player, self.tables.datagrams[event.about], answer)
        self.laws.check_life(before, self.w, event.player)
        self.laws.check(self.w)


def wander(rules: Rules, seed: int, steps: int, only: str = "") -> tuple[Wander, str]:
    """A random world after that many tries, and the fault if there was one."""
    life = Wander(rules, random.Random(seed), only)
    try:
        for _ in range(steps):
            life.step()
    except Fault as fault:
        return life, str(fault)
    return life, ""


# ---- the same events again, and fewer of them


def is_possible(tables: Tables, w: World, event: Event, d: Datagram | None) -> bool:
    peer = tables.peer(w, event.player)
    if event.what == "open":
        return peer.mode != OPEN
    if event.what in ("close", "wipe"):
        return peer.mode != AWAY or event.what == "wipe"
    if event.what == "back":
        return event.about < len(w.lost) and w.lost[event.about][0] == event.player
    if peer.mode != OPEN:
        return False
    if event.what == "give":
        return d in tables.bit_of and bool(w.said >> tables.bit_of[d] & 1)
    if event.what == "tick":
        return tick(tables.rules, event.player, peer.journal) is not None
    if event.what == "leave":
        return not peer.journal.leaving[event.about]
    return decide(tables.rules, peer.journal, peer.memory, event.about) is not None


def replay(rules: Rules, noted: list[Noted], only: str) -> tuple[str, list[Noted], Tables]:
    """The fault to which these events lead, and those of them that were possible."""
    tables = Tables(rules)
    laws = Laws(tables, only)
    w, done = tables.start(), []
    for event, d in noted:
        if not is_possible(tables, w, event, d):
            continue
        event = event._replace(about=tables.bit_of[d]) if d else event
        before = w
        laws.note(event.what)
        answer, w = tables.happens(before, event)
        done.append((event, d))
        try:
            if d:
                check_answer(tables, before, event.player, d, answer)
            laws.check_life(before, w, event.player)
            laws.check(w)
        except Fault as fault:
            return str(fault), done, tables
    return "", done, tables


def shortened(rules: Rules, noted: list[Noted], fault: str, only: str) -> list[str]:
    """Leaves out what is not needed for a fault of the same law."""
    law = fault.split(":")[0]
    size = len(noted) // 2
    while size:
        place = 0
        while place < len(noted):
            found, done, _ = replay(rules, noted[:place] + noted[place + size :], only)
            if found.split(":")[0] == law:
                noted = done
            else:
                place += size
        size //= 2
    _, done, tables = replay(rules, noted, only)
    return [shown(tables, event) for event, _ in done]
