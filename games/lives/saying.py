"""What a peer of version 3 may say, and its other calls: tick, leave, decide."""

from collections.abc import Iterator

from rules import NONE, Datagram, Journal, Memory, News, Rules, confirmed, is_frozen, match_of, put, table, ticks

MAX_LIFE = 64


def entered(rules: Rules, life: int, frame: int) -> int:
    """What a player enters: in each life something else, and never the empty input."""
    return 1 + life + MAX_LIFE * frame


Signs = tuple[bool, tuple[bool, ...], frozenset[int]]  # that this player leaves, whom it hears, who has long been silent


def no_signs(rules: Rules) -> Signs:
    return False, (False,) * (rules.players + 1), frozenset()


def news_of(rules: Rules, me: int, j: Journal, m: Memory, signs: Signs) -> News | None:
    if rules.lean:
        return None
    leaves, hears, gone = signs
    return News(
        tuple(len(h) for h in j.held),
        confirmed(rules, me, j),
        tuple(c != NONE for c in j.cuts),
        hears,
        leaves,
        is_over(rules, me, j, m, gone),
    )


def stayers(rules: Rules, me: int, j: Journal) -> list[int]:
    return [q for q in rules.everybody() if q != me and not is_frozen(j, q)]


def has_all(rules: Rules, j: Journal, news: News | None) -> bool:
    """The sender of these news has confirmed all frames, and has each cut that is known here."""
    return news is not None and news.confirmed == rules.frames and all(k or c == NONE for k, c in zip(news.cuts, j.cuts))


def is_over(rules: Rules, me: int, j: Journal, m: Memory, gone: frozenset[int]) -> bool:
    """All who stay are known to have everything. Player 1 does not wait for who is gone, and the others go by what it says."""
    if confirmed(rules, me, j) < rules.frames:
        return False
    if me == 1 and any(j.leaving[q] and j.cuts[q] == NONE for q in rules.everybody()):
        return False
    chair = m.news[1]
    if me != 1 and chair is not None and chair.over:
        return True
    return all(has_all(rules, j, m.news[q]) or (me == 1 and q in gone) for q in stayers(rules, me, j))


def run(rules: Rules, j: Journal, q: int, start: int) -> tuple[int, tuple[int, ...]]:
    first = rules.delay if rules.lean else min(start, len(j.held[q]))
    return first, j.held[q][first : first + rules.run]


def answered(rules: Rules, n: int) -> int:
    return rules.delay if n == NONE else n


def match_for(rules: Rules, me: int, j: Journal, m: Memory, to: int) -> int:
    """The match in a HELLO. To player 1 a life that is not bound names the match that it heard of."""
    if me != 1 and to == 1 and (not match_of(j) or ("chair" in rules.without and m.heard)):
        return m.heard
    return match_of(j)


def life_for(rules: Rules, me: int, j: Journal, m: Memory, to: int) -> int:
    return table(rules, j, m)[to] if me == 1 else j.life


def say_data(rules: Rules, me: int, j: Journal, m: Memory, to: int, signs: Signs) -> Datagram:
    start, words = run(rules, j, me, m.acks[to])
    number = 0 if rules.lean else len(j.held[to])
    news = news_of(rules, me, j, m, signs)
    return Datagram("DATA", me, to, j.epoch, m.known[to], match_of(j), 0, number, 0, start, words, news)


def say_links(rules: Rules, me: int, j: Journal, m: Memory, to: int) -> Iterator[Datagram]:
    life = life_for(rules, me, j, m, to)
    yield Datagram("HELLO", me, to, j.epoch, m.known[to], match_for(rules, me, j, m, to), life)
    if m.known[to]:
        number = 0 if rules.lean else len(j.held[to])
        yield Datagram("WELCOME", me, to, j.epoch, m.known[to], match_of(j), life, number)


def say_refused(rules: Rules, me: int, j: Journal, m: Memory, to: int) -> Iterator[Datagram]:
    if "refused" in rules.without or not m.other[to] or (me != 1 and (to != 1 or not match_of(j))):
        return
    match = m.lost_to[to] or match_of(j)
    yield Datagram("REFUSED", me, to, j.epoch, m.known[to], lives=(j.life, m.other[to], match))


def say_rounds(rules: Rules, me: int, j: Journal, m: Memory, to: int) -> Iterator[Datagram]:
    for q in rules.everybody():
        head = (me, to, j.epoch, m.known[to], match_of(j), 0)
        have = 0 if rules.lean and q == me else len(j.held[q])
        if me == 1 and j.leaving[q] and to != q:
            yield Datagram("FREEZE", *head, 0 if rules.lean else have, q)
        if me == 1 and j.cuts[q] != NONE:
            start, words = run(rules, j, q, answered(rules, m.reports[q][to]))
            yield Datagram("CUT", *head, j.cuts[q], q, start, words)
        if me != 1 and to == 1 and j.froze[q] != NONE:
            start, words = run(rules, j, q, answered(rules, m.haves[q]))
            yield Datagram("FROZEN", *head, have, q, start, words)


def say_passes(rules: Rules, me: int, j: Journal, m: Memory, to: int) -> Iterator[Datagram]:
    """Player 1 passes on the inputs of a third player; the run begins where the addressee's list was said to end."""
    if "pass" in rules.without or (me != 1 and "one-passes" not in rules.without):
        return
    for q in rules.everybody():
        if q in (me, to, 1) or j.leaving[q]:
            continue
        news = m.news[to]
        start, words = run(rules, j, q, news.held[q] if news else rules.delay)
        if words:
            yield Datagram("PASS", me, to, j.epoch, m.known[to], match_of(j), 0, 0, q, start, words)


def sayings(rules: Rules, me: int, j: Journal, m: Memory) -> Iterator[Datagram]:
    """All that an open peer may say now."""
    if me != 1 and j.leaving[me]:
        return
    for to in rules.everybody():
        if to == me:
            continue
        yield from say_links(rules, me, j, m, to)
        yield from say_refused(rules, me, j, m, to)
        if m.linked[to]:
            yield say_data(rules, me, j, m, to, no_signs(rules))
            yield from say_rounds(rules, me, j, m, to)
            yield from say_passes(rules, me, j, m, to)


# ---- calls


def tick(rules: Rules, me: int, j: Journal) -> Journal | None:
    """The journal with one more input of its owner; None if the tick is refused."""
    n = ticks(rules, me, j)
    if (me != 1 and j.leaving[me]) or n >= rules.frames or n >= confirmed(rules, me, j) + rules.window:
        return None
    return j._replace(held=put(j.held, me, j.held[me] + (entered(rules, j.life, n),)))


def leave(j: Journal, leaver: int) -> Journal | None:
    return None if j.leaving[leaver] else j._replace(leaving=put(j.leaving, leaver, True))


def is_ready(rules: Rules, j: Journal, m: Memory, leaver: int) -> bool:
    """Player 1 may cut: all who stay have answered, with no more inputs than it holds."""
    return all(
        NONE < m.reports[leaver][q] <= len(j.held[leaver]) for q in rules.everybody() if q != 1 and not j.leaving[q]
    )


def decide(rules: Rules, j: Journal, m: Memory, leaver: int) -> Journal | None:
    if not j.leaving[leaver] or j.cuts[leaver] != NONE or not is_ready(rules, j, m, leaver):
        return None
    return j._replace(cuts=put(j.cuts, leaver, len(j.held[leaver])))
