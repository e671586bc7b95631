"""What has to hold in each world, over all lives: those that play, and those whose journals are lost."""

from rules import EMPTY, NONE, Datagram, Journal, Rules, confirmed, input_of, match_of
from world import Fault, Tables, World

Lives = list[tuple[int, Journal]]


def lives_of(tables: Tables, w: World) -> Lives:
    """All journals that ever were, with their players. A lost one stays as it was."""
    now = [(p, tables.peer(w, p).journal) for p in tables.rules.everybody()]
    return [life for life in list(w.lost) + now if life[1].life]


def chair_of(lives: Lives, match: int) -> Journal | None:
    return next((j for p, j in lives if p == 1 and j.life == match), None)


def members_of(lives: Lives, match: int) -> Lives:
    return [(p, j) for p, j in lives if match_of(j) == match]


def rows(rules: Rules, j: Journal, n: int) -> list[tuple[int, ...]]:
    return [tuple(input_of(j, q, frame) for q in rules.everybody()) for frame in range(n)]


def check_agreement(rules: Rules, chair: Journal, members: Lives) -> None:
    """Undropped peers agree on all frames that both count as confirmed."""
    undropped = [(p, j) for p, j in members if not chair.leaving[p]]
    for place, (p, a) in enumerate(undropped):
        for r, b in undropped[:place]:
            n = min(confirmed(rules, p, a), confirmed(rules, r, b))
            if rows(rules, a, n) != rows(rules, b, n):
                raise Fault(f"agree: undropped players {r} and {p} differ below frame {n}")


def check_entered(rules: Rules, chair: Journal, members: Lives) -> None:
    """A confirmed input is what the life that player 1 registered entered, or empty from the cut on."""
    for p, j in members:
        for frame in range(confirmed(rules, p, j)):
            for q in rules.everybody():
                word = input_of(j, q, frame)
                if word == EMPTY and (frame < rules.delay or NONE < chair.cuts[q] <= frame):
                    continue
                authors = [a.held[q] for r, a in members if r == q and a.life == chair.met[q]]
                if not any(frame < len(own) and own[frame] == word for own in authors):
                    raise Fault(f"entered: player {p} confirms an input of player {q} in frame {frame} that is not its own")


def check_held(rules: Rules, members: Lives) -> None:
    """What a life holds of another begins what the life of that player in the same match entered."""
    for p, j in members:
        for q in rules.everybody():
            if q == p or len(j.held[q]) <= rules.delay:
                continue
            authors = [a.held[q] for r, a in members if r == q]
            if not any(own[: len(j.held[q])] == j.held[q] for own in authors):
                raise Fault(f"begins: player {p} holds inputs of player {q} that no life of it entered in this match")


def check_cuts(rules: Rules, chair: Journal, members: Lives) -> None:
    """Each cut is player 1's; an undropped player froze the leaver in time, and holds no more than the cut."""
    for p, j in members:
        for q in rules.everybody():
            if j.cuts[q] != NONE and j.cuts[q] != chair.cuts[q]:
                raise Fault(f"cuts: player {p} has another cut of player {q}")
            if chair.cuts[q] == NONE or chair.leaving[p] or p == 1 or p == q:
                continue
            if len(j.held[q]) > chair.cuts[q]:
                raise Fault(f"bounded: player {p} holds more of player {q} than the cut")
            if not NONE < j.froze[q] <= chair.cuts[q]:
                raise Fault(f"decided: undropped player {p} has not frozen player {q} in time")


def check_lives(everybody: Lives) -> None:
    """At most one life of each player is bound to a match, and it is the one that player 1 named in it."""
    bound: dict[tuple[int, int], int] = {}
    for p, j in everybody:
        match = match_of(j)
        if match and bound.setdefault((match, p), j.life) != j.life:
            raise Fault(f"lives: two lives of player {p} are bound to one match")
        chair = chair_of(everybody, match)
        if match and p != 1 and chair and chair.met[p] != j.life:
            raise Fault(f"lives: player {p} is bound to a match that names another life of it")


def check_unbound(rules: Rules, everybody: Lives) -> None:
    """A life without a match holds its own inputs alone, and has dropped or frozen nobody."""
    for p, j in everybody:
        others = [q for q in rules.everybody() if q != p]
        empty = all(len(j.held[q]) == rules.delay and j.cuts[q] == j.froze[q] == NONE and not j.leaving[q] for q in others)
        if not match_of(j) and not (empty and confirmed(rules, p, j) <= rules.delay):
            raise Fault(f"unbound: player {p} has taken something without a match")


def check_met(tables: Tables, w: World) -> None:
    """Player 1 registers no life that was lost before its own life began. (So it is not asked once a lost journal came back.)"""
    lost = [(p, j.life) for p, j in w.lost]
    for p, j in lives_of(tables, w):
        before = lost[: w.born[j.life - 1]] if p == 1 else []
        for q, life in enumerate(j.met):
            if q > 1 and (q, life) in before:
                raise Fault(f"met: player 1 registers a life of player {q} that was lost before it began")


def check_journals(rules: Rules, everybody: Lives, only: str) -> None:
    if not only:
        check_lives(everybody)
        check_unbound(rules, everybody)
    for match in {match_of(j) for _, j in everybody} - {0}:
        chair = chair_of(everybody, match)
        members = members_of(everybody, match)
        if chair is None:
            raise Fault(f"lives: a journal is bound to life {match} of player 1, which never was")
        check_agreement(rules, chair, members)
        if only != "agree":
            check_entered(rules, chair, members)
        if not only:
            check_held(rules, members)
            check_cuts(rules, chair, members)


def check_present(rules: Rules, present: Lives) -> None:
    """The wrong headline: whoever player 1's present journal has not dropped agrees, lost journals or not."""
    chair = next((j for p, j in present if p == 1), None)
    if chair:
        check_agreement(rules, chair, present)


def check_answer(tables: Tables, w: World, p: int, d: Datagram, answer: str) -> None:
    """No delivery finds an acknowledgement above what is held, a gap, or at an undropped player another input."""
    if answer in ("BadAck", "Gap"):
        raise Fault(f"{answer}: {d.kind} from player {d.sender} at player {p}")
    j = tables.peer(w, p).journal
    chair = chair_of(lives_of(tables, w), match_of(j))
    if answer == "Differs" and chair and not chair.leaving[p]:
        raise Fault(f"Differs: {d.kind} from player {d.sender} at undropped player {p}")


class Laws:
    """Checks worlds, each set of journals once: all laws, or only `agree`, or only `entered` and that."""

    def __init__(self, tables: Tables, only: str = "") -> None:
        self.tables = tables
        self.only = only
        self.asks_met = only in ("", "met")
        self.seen: set[tuple[tuple[int, Journal], ...]] = set()

    def check(self, w: World) -> None:
        everybody = lives_of(self.tables, w)
        key = tuple(everybody)
        if key in self.seen:
            return
        self.seen.add(key)
        check_journals(self.tables.rules, everybody, self.only)
        if self.asks_met:
            check_met(self.tables, w)
        if "undropped" in self.tables.rules.without:
            check_present(self.tables.rules, everybody[len(w.lost) :])

    def note(self, what: str) -> None:
        self.asks_met = self.asks_met and what != "back"

    def check_life(self, before: World, after: World, p: int) -> None:
        """What a journal names stays, and the confirmed rows of a life never change."""
        a, b = self.tables.peer(before, p).journal, self.tables.peer(after, p).journal
        if a.life != b.life or a == b:
            return
        rules = self.tables.rules
        if not self.only and any(x and x != y for x, y in zip(a.met, b.met)):
            raise Fault(f"named: player {p} takes another life for one that it had recorded")
        n = confirmed(rules, p, a)
        if rows(rules, a, n) != rows(rules, b, n):
            raise Fault(f"still: confirmed rows of player {p} change")
