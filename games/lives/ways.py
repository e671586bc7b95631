"""Beginnings from which fair rounds stand still, or end wrongly, where a mend is taken back."""

import random
from typing import NamedTuple

from rounds import Course, Rounds
from scripts import Player, Script
from world import Fault

ALL_MEET = "open 1, open 2, open 3, meet 1 2, meet 1 3, meet 2 3"
ONLY_3_LACKS = "tick 1, tick 2, tick 3, DATA 1 3, DATA 3 1, DATA 2 1, DATA 1 2, DATA 3 2, DATA 2 1"


class Way(NamedTuple):
    """`within` is in how many rounds all have to end, 0 where the number does not matter."""

    mends: str
    law: str
    lines: str
    course: Course = Course()
    frames: int = 6
    within: int = 0


BROKEN = Course(broken=frozenset((2, 3)))
WAYS = [
    Way("refused", "progress", f"{ALL_MEET}, wipe 2, open 2"),
    Way("refused", "progress", f"{ALL_MEET}, wipe 1, open 1"),
    Way("counter", "progress", f"{ALL_MEET}, wipe 2, open 2"),
    Way("mine", "drops", "open 1, open 2, open 3, close 2, open 2, keep x HELLO 2 1, wipe 2, open 2, meet 1 2, give x"),
    Way("pass", "progress", "open 1, open 2, open 3", BROKEN),
    Way("hears", "slow", "open 1, open 2, open 3", BROKEN, 60, 100),
    Way("end", "end", f"{ALL_MEET}, tick 1, tick 2, tick 3, DATA 2 1, DATA 3 1, close 3", Course(late=3), 1),
    Way("rest", "progress", f"{ALL_MEET}, {ONLY_3_LACKS}, close 2, wipe 3, open 3", Course(patience=300), 1),
    Way("goodbye", "progress", f"{ALL_MEET}, wipe 1, wipe 3, open 1, open 3, meet 1 3"),
    Way("", "", f"{ALL_MEET}, wipe 3, open 3", Course(frozenset((2, 3)), 3)),
    Way("", "", f"{ALL_MEET}, tick 1, tick 2, all DATA, wipe 1, wipe 3, open 1, open 3"),
]


def go(way: Way, without: frozenset[str]) -> str:
    """The fault to which the rounds lead, or nothing."""
    player = Player(Script("", "", 3, way.frames, way.lines), without)
    player.play()
    rounds = Rounds(player.tables, player.w, random.Random(1), way.course)
    try:
        rounds.run()
    except Fault as fault:
        return str(fault)
    if way.within and rounds.round > way.within:
        return f"slow: {rounds.round} rounds for {way.frames} frames"
    return ""
