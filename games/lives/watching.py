"""A watcher: it takes rows of player 1, who may lose its journal. Only rows of one life of player 1 may come together."""

import random
from typing import NamedTuple

from laws import chair_of, lives_of, rows
from rules import OPEN, confirmed
from search import Wander
from world import Fault

MOST_ROWS = 2


class Show(NamedTuple):
    match: int
    start: int
    rows: tuple[tuple[int, ...], ...]


class Watcher:
    """Its rows, and the life of player 1 that showed the first of them."""

    def __init__(self) -> None:
        self.match = 0
        self.rows: list[tuple[int, ...]] = []
        self.fresh = False  # rows came since they were last judged

    def hear(self, show: Show, names_match: bool) -> str:
        if names_match and self.match not in (0, show.match):
            return "Restarted"
        if show.start > len(self.rows):
            return "Gap"
        overlap = self.rows[show.start : show.start + len(show.rows)]
        if list(show.rows[: len(overlap)]) != overlap:
            return "Differs"
        self.fresh = True
        self.rows += show.rows[len(overlap) :]
        self.match = self.match or show.match
        return ""


def shown_by(life: Wander) -> Show | None:
    """Some confirmed rows of player 1, if it is open."""
    peer = life.tables.peer(life.w, 1)
    if peer.mode != OPEN:
        return None
    n = confirmed(life.rules, 1, peer.journal)
    start = life.rng.randint(0, n)
    return Show(peer.journal.life, start, tuple(rows(life.rules, peer.journal, n)[start : start + MOST_ROWS]))


def watch(life: Wander, steps: int, without: frozenset[str]) -> str:
    """Plays on while a watcher hears any of what was shown; the fault, or nothing."""
    watcher, shows = Watcher(), set[Show]()
    for _ in range(steps):
        try:
            life.step()
        except Fault as fault:
            return str(fault)
        show = shown_by(life)
        if show:
            shows.add(show)
        if shows and life.rng.random() < 0.3:
            answer = watcher.hear(life.rng.choice(sorted(shows)), "shown" not in without)
            if answer == "Differs":
                return "watched: a row differs from the one that the watcher has"
        if not watcher.fresh:
            continue
        watcher.fresh = False
        chair = chair_of(lives_of(life.tables, life.w), watcher.match)
        if chair and watcher.rows != rows(life.rules, chair, confirmed(life.rules, 1, chair))[: len(watcher.rows)]:
            return "watched: the watcher has rows that no life of player 1 confirmed"
    return ""


def wander_and_watch(life: Wander, without: frozenset[str]) -> str:
    life.weights["wipe"] = 0.02
    life.rng = random.Random(life.rng.random())
    return watch(life, 400, without)
