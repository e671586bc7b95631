"""Fair rounds: from any world, what the programs do if each makes turns and what they say arrives. Nobody may stand still.

A program is a turn of `play`: it hears, ticks, drops and decides, and speaks. Some paths may be broken for good, and old datagrams may come
again at any time.
"""

import random
from dataclasses import dataclass, field
from typing import NamedTuple

from rules import (
    OPEN,
    TOLD_CHAIR_LEFT,
    TOLD_CHAIR_LOST,
    TOLD_REFUSED,
    Datagram,
    Journal,
    Memory,
    Rules,
    confirmed,
    hear,
    is_frozen,
    match_of,
)
from saying import Signs, decide, is_over, leave, say_data, say_links, say_passes, say_refused, say_rounds, tick
from world import Event, Fault, Tables, World

PATIENCE = 14  # rounds without a sign of life, after which player 1 drops a player; more where datagrams are lost
PASS_AFTER = 3  # rounds in which what a player holds of another has not grown
LATE = 6  # rounds that a late program misses; less than the patience
NOISY = 20  # rounds in which old datagrams come again; one that came for ever would be a sign of life for ever
MEETING = 6  # rounds in which links open
REST = 30  # rounds of silence after which player 1 takes a player for gone at the end, and in which the others rest
LAST_WORDS = 6  # rounds in which a program that knows that it ends says so
REASONS = {TOLD_REFUSED: "refused", TOLD_CHAIR_LOST: "chair lost", TOLD_CHAIR_LEFT: "chair left"}


@dataclass
class Program:
    """A program that runs on a player's journal; `end` says why it has ended."""

    me: int
    journal: Journal
    memory: Memory
    end: str = ""
    ended: int = 0  # in which round
    leaves: bool = False
    last_words: int = 0
    rested: int = 0
    greeted: set[int] = field(default_factory=set)
    refused: set[int] = field(default_factory=set)
    silent: dict[int, int] = field(default_factory=dict)
    stuck: dict[tuple[int, int], tuple[int, int]] = field(default_factory=dict)

    def note(self, d: Datagram, answer: str) -> None:
        """Signs of life, and what is to be answered in this turn."""
        if d.kind == "HELLO":
            if answer in ("Nothing", "Kept") and self.memory.known[d.sender]:
                self.greeted.add(d.sender)
            if answer == "Restarted":
                self.refused.add(d.sender)
        elif d.kind == "REFUSED":
            if answer == "Nothing" and self.me == 1:
                self.refused.add(d.sender)
        elif answer in ("Nothing", "Kept"):
            self.silent[d.sender] = 0

    def deliver(self, rules: Rules, d: Datagram) -> None:
        heard = hear(rules, self.me, self.journal, self.memory, d)
        self.journal = heard.journal or self.journal
        self.memory = heard.memory
        self.note(d, heard.answer)

    def hears(self, rules: Rules) -> tuple[bool, ...]:
        """Whom it heard in the last rounds over an open link. Only player 1 needs this, to pass on what does not come."""
        return (False,) + tuple(self.silent.get(q, PASS_AFTER) < PASS_AFTER for q in rules.everybody())

    def gone(self, rules: Rules) -> frozenset[int]:
        return frozenset(q for q in rules.everybody() if self.silent.get(q, 0) > REST and "rest" not in rules.without)

    def signs(self, rules: Rules) -> Signs:
        return self.leaves, self.hears(rules), self.gone(rules)

    def is_growing(self, to: int, q: int) -> bool:
        """What a player said that it holds of another has grown in the last rounds."""
        news = self.memory.news[to]
        held = news.held[q] if news else 0
        before, rounds = self.stuck.get((to, q), (-1, 0))
        self.stuck[(to, q)] = (held, rounds + 1 if held == before else 0)
        return self.stuck[(to, q)][1] < PASS_AFTER

    def passes(self, rules: Rules, to: int, q: int) -> bool:
        """Player 1 passes on to a player what it does not get from another."""
        news = self.memory.news[to]
        growing = self.is_growing(to, q)
        return not growing if "hears" in rules.without else news is not None and not news.hears[q]

    def say_to(self, rules: Rules, to: int) -> list[Datagram]:
        j, m, me = self.journal, self.memory, self.me
        hello, *welcome = say_links(rules, me, j, m, to)
        said = [] if m.linked[to] else [hello]
        if to in self.greeted:
            said += welcome
        if to in self.refused:
            said += say_refused(rules, me, j, m, to)
        if m.linked[to]:
            said.append(say_data(rules, me, j, m, to, self.signs(rules)))
            said += say_rounds(rules, me, j, m, to)
            said += [d for d in say_passes(rules, me, j, m, to) if self.passes(rules, to, d.player)]
        return said


class Course(NamedTuple):
    """Two players whose paths to each other are broken; who leaves; who begins late; how often old datagrams come again, and new ones are lost."""

    broken: frozenset[int] = frozenset()
    leaver: int = 0
    late: int = 0
    noise: float = 0.0
    loss: float = 0.0
    patience: int = PATIENCE


class Rounds:
    """All programs of a match."""

    def __init__(self, tables: Tables, w: World, rng: random.Random, course: Course) -> None:
        self.rules = tables.rules._replace(lean=False)
        self.rng = rng
        self.broken = course.broken
        self.noise = course.noise
        self.late = course.late
        self.loss = course.loss
        self.patience = course.patience + int(150 * course.loss)
        self.old = [d for number, d in enumerate(tables.datagrams) if w.said >> number & 1]
        self.boxes: list[list[Datagram]] = [[] for _ in range(self.rules.players + 1)]
        self.programs: dict[int, Program] = {}
        self.round = 0
        for p in self.rules.everybody():
            peer = tables.peer(w, p)
            if peer.mode != OPEN:
                w = tables.opened(w, Event("open", p))
                peer = tables.peer(w, p)
            self.programs[p] = Program(p, peer.journal, peer.memory)
            self.programs[p].leaves = p == course.leaver
        self.unlinked = {p for p, x in self.programs.items() if not x.memory.linked[1]}

    def arrives(self, d: Datagram) -> bool:
        """A broken path, loss, or a seal whose counters a second life repeats, keeps datagrams out."""
        if (d.sender in self.broken and d.to in self.broken) or self.rng.random() < self.loss:
            return False
        to, sender = self.programs[d.to].journal, self.programs[d.sender].journal
        return not ("counter" in self.rules.without and to.met[d.sender] not in (0, sender.life))

    def drops(self, program: Program) -> None:
        """Player 1 drops who says that it leaves and who is silent, and decides each ready round."""
        j, m = program.journal, program.memory
        for q in range(2, self.rules.players + 1):
            news = m.news[q]
            says = news is not None and news.leaves
            if not j.leaving[q] and (says or program.silent[q] > self.patience):
                self.check_drop(program, q, says)
                j = leave(j, q) or j
            j = decide(self.rules, j, m, q) or j
        program.journal = j

    def check_drop(self, chair: Program, q: int, says: bool) -> None:
        other = self.programs[q]
        plays = other.journal.life == chair.journal.met[q] and match_of(other.journal) == chair.journal.life
        if plays and not says and not other.end and not chair.journal.leaving[q]:
            raise Fault(f"drops: player 1 drops player {q}, who plays")

    def why_it_ends(self, program: Program) -> str:
        j, m, me = program.journal, program.memory, program.me
        if me != 1 and j.leaving[me]:
            return "dropped"
        if m.told and me != 1:
            return REASONS[m.told]
        chair = m.news[1]
        if me != 1 and chair is not None and chair.leaves:
            return "chair left"
        if m.told and "goodbye" in self.rules.without:
            return "refused"
        if m.told:
            program.leaves = True
        own = confirmed(self.rules, me, j) >= self.rules.frames
        over = own if "end" in self.rules.without else is_over(self.rules, me, j, m, program.gone(self.rules))
        program.last_words = program.last_words + 1 if over or program.leaves else 0
        if program.last_words <= LAST_WORDS:
            return "done" if self.has_rested(program, own) else ""
        if over:
            self.check_end(program)
            return "done"
        return "refused" if m.told else "left"

    def has_rested(self, program: Program, own: bool) -> bool:
        """Who has all frames, and whose inputs player 1 has, need not hear that all are done: player 1 passes on. Player 1 itself has to."""
        if "rest" in self.rules.without:
            acks, cuts = program.memory.acks, program.journal.cuts
            is_done = own and all(acks[q] >= self.rules.frames or cuts[q] >= 0 for q in self.rules.everybody() if q != program.me)
        else:
            is_done = program.me != 1 and own and program.memory.acks[1] >= self.rules.frames
        program.rested = program.rested + 1 if is_done else 0
        return program.rested > REST

    def check_end(self, program: Program) -> None:
        """Nobody goes before each stayer has everything."""
        match = match_of(program.journal)
        chair = self.programs[1].journal
        if chair.life != match or program.leaves:
            return
        for q, other in self.programs.items():
            j = other.journal
            stays = match_of(j) == match and not chair.leaving[q] and not is_frozen(program.journal, q) and not other.end
            if stays and confirmed(self.rules, q, j) < self.rules.frames:
                raise Fault(f"end: player {program.me} goes before player {q} has everything")

    def turn(self, program: Program) -> None:
        me = program.me
        box, self.boxes[me] = self.boxes[me], []
        if program.end or (me == self.late and self.round <= LATE):
            return
        mine = [d for d in self.old if d.to == me and not (d.sender in self.broken and me in self.broken)]
        while mine and self.round <= NOISY and self.rng.random() < self.noise:
            box.append(self.rng.choice(mine))
        program.greeted, program.refused = set(), set()
        for q in self.rules.everybody():
            program.silent[q] = program.silent.get(q, 0) + 1
        for d in box:
            program.deliver(self.rules, d)
        program.journal = tick(self.rules, me, program.journal) or program.journal
        if me == 1:
            self.drops(program)
        program.end, program.ended = self.why_it_ends(program), self.round
        if program.end:
            return
        for to in self.rules.everybody():
            if to != me:
                for d in program.say_to(self.rules, to):
                    self.old.append(d)
                    if self.arrives(d):
                        self.boxes[to].append(d)

    def make_round(self) -> None:
        self.round += 1
        order = list(self.programs.values())
        self.rng.shuffle(order)
        for program in order:
            self.turn(program)

    def waits(self, program: Program) -> bool:
        """After player 1 has ended: who came too late to hear it (nobody waits for a dropped one), and a life that no match has."""
        chair, j = self.programs[1], program.journal
        if not chair.end:
            return False
        came_late = program.me == self.late or (program.me in self.unlinked and chair.ended <= MEETING + LAST_WORDS)
        if not match_of(j):
            return came_late or chair.journal.met[program.me] in (0, j.life)
        if chair.end != "done":
            return came_late or self.loss > 0
        return came_late and (confirmed(self.rules, program.me, j) >= self.rules.frames or chair.journal.leaving[program.me])

    def stands(self) -> list[int]:
        return [p for p, x in self.programs.items() if not x.end and not self.waits(x)]

    def most(self) -> int:
        """Far more rounds than any course needs."""
        frames = self.rules.frames * (6 * (2 if self.broken else 1) + 2 * PASS_AFTER)
        return 60 + frames + int(400 * self.loss) + REST + NOISY + 4 * self.patience

    def run(self) -> dict[int, str]:
        while self.stands():
            if self.round > self.most():
                who = ", ".join(str(p) for p in self.stands())
                raise Fault(f"progress: player {who} stands still; the others: {self.ends()}")
            self.make_round()
        return self.ends()

    def ends(self) -> dict[int, str]:
        return {p: x.end for p, x in self.programs.items() if x.end}


def some_course(rng: random.Random, players: int) -> Course:
    broken = frozenset(rng.sample(range(2, players + 1), 2)) if players > 2 and rng.random() < 0.4 else frozenset()
    leaver = rng.randint(1, players) if rng.random() < 0.25 else 0
    late = rng.randint(1, players) if rng.random() < 0.25 else 0
    return Course(broken, leaver, late, rng.choice((0.0, 0.0, 0.5, 0.8)), rng.choice((0.0, 0.0, 0.1, 0.3)))


def settle(tables: Tables, w: World, rng: random.Random) -> tuple[dict[int, str], int]:
    """How each program ends from a world, and after how many rounds; raises Fault if one stands still."""
    rounds = Rounds(tables, w, rng, some_course(rng, tables.rules.players))
    return rounds.run(), rounds.round
