"""Short scripts, each with a mend that it needs: with the mend nothing breaks, without it the named law does.

A line is a call or a delivery: `tick 2`; `open 1`; `close 1`; `wipe 1`; `leave 3`; `decide 3`; `DATA 2 1`, the newest one from player 2 to player 1;
`keep x HELLO 2 1`, `give x`; `meet 1 2`, all that opens their links; `all DATA`, the newest ones between all players.
"""

from typing import NamedTuple

from laws import Laws
from rules import Rules
from world import Event, Fault, Tables, World


class Script(NamedTuple):
    mend: str
    law: str
    players: int
    frames: int
    lines: str


SCRIPTS = [
    Script("registry", "agree", 3, 1, """
        open 1, open 2, open 3, meet 1 2, tick 2, DATA 2 1
        wipe 2, open 2, HELLO 1 2, HELLO 1 3, tick 2, meet 2 3, meet 1 3
        tick 1, tick 3, all DATA"""),
    Script("match", "entered", 2, 1, """
        open 1, open 2, meet 1 2, tick 1, keep x DATA 1 2
        wipe 1, wipe 2, open 1, open 2, meet 1 2, tick 2, give x"""),
    Script("match", "agree", 3, 1, """
        open 1, open 2, open 3, meet 1 2, meet 1 3, tick 2, DATA 2 1, keep x PASS 1 3
        wipe 1, wipe 2, wipe 3, open 1, open 2, open 3, meet 1 2, meet 1 3, meet 2 3
        tick 2, DATA 2 1, give x, tick 1, tick 3, all DATA"""),
    Script("yours", "agree", 2, 1, """
        open 1, open 2, meet 1 2, tick 1, tick 2, DATA 1 2, keep x WELCOME 1 2
        wipe 2, open 2, tick 2, give x, DATA 2 1"""),
    Script("chair", "agree", 3, 1, """
        open 1, open 2, open 3, meet 1 2, meet 1 3, HELLO 2 3, HELLO 3 2, WELCOME 1 2, WELCOME 1 3, meet 2 3
        tick 1, tick 2, tick 3, all DATA, keep x DATA 1 3
        wipe 1, open 1, tick 1, close 2, open 2, close 3, open 3
        HELLO 1 2, HELLO 1 3, HELLO 2 1, HELLO 3 1, WELCOME 1 2, WELCOME 1 3, WELCOME 2 1, WELCOME 3 1
        all DATA"""),
    Script("record", "agree", 2, 1, """
        open 1, open 2, meet 1 2, tick 1, tick 2, DATA 2 1
        wipe 2, open 2, tick 2, close 1, open 1, meet 1 2, DATA 1 2"""),
    Script("echo", "met", 2, 1, """
        open 2, keep x HELLO 2 1, wipe 2, open 2, open 1, give x"""),
    Script("undropped", "agree", 3, 2, """
        open 1, open 2, open 3, meet 1 2, meet 1 3, meet 2 3
        tick 1, tick 2, tick 3, all DATA, tick 3, tick 2, tick 1, DATA 1 3, DATA 2 3, DATA 1 2, DATA 2 1
        leave 3, FREEZE 1 2, FROZEN 2 1, decide 3, CUT 1 2, wipe 1, open 1"""),
    Script("one-passes", "agree", 4, 1, """
        open 1, open 2, open 3, open 4, meet 1 2, meet 1 3, meet 1 4, meet 2 3, meet 2 4
        tick 1, tick 2, tick 3, tick 4, DATA 4 2, leave 4, FREEZE 1 3, FROZEN 3 1, PASS 2 3
        DATA 2 3, DATA 2 1, DATA 1 3, DATA 3 1, leave 2, FREEZE 1 3, FROZEN 3 1, decide 4, decide 2, CUT 1 3, CUT 1 3"""),
]


def newest(tables: Tables, w: World, kind: str, sender: int, to: int) -> int | None:
    """A saying of the peer as it is now, or else the last one of that kind."""
    among = tables.says[w.peers[sender]]
    for said in (among, w.said):
        numbers = [n for n, d in enumerate(tables.datagrams) if said >> n & 1 and (d.kind, d.sender, d.to) == (kind, sender, to)]
        if numbers:
            return numbers[-1]
    return None


class Player:
    """Plays one script."""

    def __init__(self, script: Script, without: frozenset[str]) -> None:
        self.script = script
        rules = Rules(script.players, script.frames, 2, 0, script.mend == "one-passes", 64, without)
        self.tables = Tables(rules)
        self.laws = Laws(self.tables, script.law)
        self.w = self.tables.start()
        self.kept: dict[str, int | None] = {}

    def happen(self, event: Event) -> None:
        before = self.w
        _, self.w = self.tables.happens(before, event)
        self.laws.check_life(before, self.w, event.player)
        self.laws.check(self.w)

    def give(self, number: int | None) -> None:
        if number is not None:
            self.happen(Event("give", self.tables.datagrams[number].to, number))

    def deliver(self, kind: str, sender: int, to: int) -> None:
        self.give(newest(self.tables, self.w, kind, sender, to))

    def meet(self, p: int, q: int) -> None:
        for kind in ("HELLO", "HELLO", "WELCOME"):
            self.deliver(kind, p, q)
            self.deliver(kind, q, p)

    def line(self, words: list[str]) -> None:
        match words:
            case ["meet", p, q]:
                self.meet(int(p), int(q))
            case ["keep", name, kind, sender, to]:
                self.kept[name] = newest(self.tables, self.w, kind, int(sender), int(to))
            case ["give", name]:
                self.give(self.kept[name])
            case ["all", kind]:
                for one in self.tables.rules.everybody():
                    for other in self.tables.rules.everybody():
                        self.deliver(kind, one, other)
            case [("leave" | "decide") as what, leaver]:
                self.happen(Event(what, 1, int(leaver)))
            case [what, player]:
                self.happen(Event(what, int(player)))
            case [kind, sender, to]:
                self.deliver(kind, int(sender), int(to))

    def play(self) -> None:
        for line in self.script.lines.replace("\n", ",").split(","):
            if line.strip():
                self.line(line.split())


def play(script: Script, without: frozenset[str]) -> str:
    """The fault of a script, or nothing."""
    try:
        Player(script, without).play()
    except Fault as fault:
        return str(fault)
    return ""
