"""A model of a match for games/stuck: the rules of docs/PROTOCOL.md, with inputs counted in place of kept.

It foresees what `./c8play sim` answers to an event, and takes the answer. It leaves out key sets, machines and marks, so an
alarm is a surprise. A run of inputs has 64 of them here; in games of up to 40 frames one always has all that lack.
"""
import collections

# The most inputs of a run, and the bytes of a journal's slot and those before its record.
RUN, SLOT = 64, 144
# Kinds of records.
HEAD, EPOCH, FREEZE, LEAVE, CUT = 1, 2, 5, 6, 7

# A datagram: from, to, what it is (hello, welcome, ..), whose drop round it is of, the two epochs that it names, which input
# its run begins at and ends before, and how many of the addressee's inputs it acknowledges.
Datagram = collections.namedtuple("Datagram", "sender to kind leaver b a start end ack")


class Peer:
    """What a model keeps of one peer. Inputs are counted; an answer to a drop round is who gave it."""

    def __init__(self, players, delay):
        self.counts = [delay] * (players + 1)
        self.epoch, self.now = 0, 0
        self.left, self.frozen, self.cuts = set(), set(), {}
        self.is_open = False
        self.forget(players, delay)

    def forget(self, players, delay):
        """All that is in memory, as an opening finds it."""
        self.known, self.linked = [0] * (players + 1), set()
        self.acks = [delay] * (players + 1)
        self.answered = collections.defaultdict(set)
        self.greeted = set()


class Model:
    """All peers of a match and what was said, in numbers. `answer` foresees an event's answer, `note` takes it."""

    def __init__(self, players, rules):
        self.players, self.rules = players, rules
        self.peers = {at: Peer(players, rules["delay"]) for at in range(1, players + 1)}
        self.said = []

    def undropped(self):
        return [at for at in self.peers if at not in self.peers[1].left]

    def confirmed(self, at):
        peer = self.peers[at]
        return min([peer.now] + [peer.counts[other] for other in self.peers if other not in peer.cuts and other != at])

    def due(self, at, to, without=None):
        """What a turn says to another player, in this order."""
        peer = self.peers[at]
        is_linked, has_greeted = to in peer.linked, to in peer.greeted
        if not is_linked:
            yield "hello"
        if has_greeted and without != "welcome":
            yield "welcome"
        if is_linked and not (without == "data" and has_greeted):
            yield "data"
        if not is_linked:
            return
        for leaver in sorted(peer.left if at == 1 else peer.frozen):
            if at == 1 and leaver in peer.cuts:
                yield f"cut {leaver}"
            elif at == 1 and to not in peer.left:
                yield f"freeze {leaver}"
            elif to == 1 and leaver not in peer.cuts:
                yield f"frozen {leaver}"

    # ---- what an event will be answered

    def answer(self, act):
        """The answer to an act; `None` where it changes nothing here and any will do."""
        words = act.split()
        at = {"give": int(words[-1]) if words[0] == "give" else 0, "leave": 1, "decide": 1}.get(words[0]) or int(words[1])
        peer = self.peers[at]
        if words[0] == "open":
            return "up" if peer.is_open else f"epoch {peer.epoch + 1}"
        if words[0] == "check":
            return None
        if not peer.is_open:
            return "none" if words[0] == "give" and int(words[1]) >= len(self.said) else "down"
        if words[0] == "tick":
            return self.ticked(at)
        if words[0] == "say":
            return self.says(at, int(words[2]), words[3], int(words[4]) if len(words) > 4 else None)
        if words[0] == "give":
            return self.heard(int(words[1]), at)
        leaver = int(words[1])
        if words[0] == "leave":
            return "no leave 3 Already" if leaver in peer.left else "leaving"
        if leaver not in peer.left:
            return "no decide 1 NotLeaving"
        if leaver in peer.cuts:
            return "no decide 3 Already"
        is_ready = all(stayer in peer.answered[leaver] for stayer in self.undropped() if stayer != 1)
        return f"cut {peer.counts[leaver]}" if is_ready else "no decide 2 NotReady"

    def ticked(self, at):
        peer, confirmed = self.peers[at], self.confirmed(at)
        if at in peer.left:
            return "no tick 3 Dropped"
        if peer.now == self.rules["frames"]:
            return "no tick 2 End"
        if peer.now - confirmed >= self.rules["window"]:
            return "no tick 1 Threshold"
        peer.now += 1
        confirmed = self.confirmed(at)
        peer.now -= 1
        return f"now {peer.now + 1} confirmed {confirmed}"

    def says(self, at, to, what, leaver):
        peer = self.peers[at]
        if at in peer.left:
            return "no say 2 Dropped"
        is_from = {"freeze": at == 1, "frozen": at != 1, "cut": at == 1}.get(what, True)
        is_to = {"freeze": to != leaver, "frozen": to == 1}.get(what, True)
        if not is_from or not is_to:
            return "no say 4 NotMine"
        has_record = {"freeze": leaver in peer.left, "frozen": leaver in peer.frozen, "cut": leaver in peer.cuts}.get(what, True)
        if not has_record:
            return "no say 5 NoRecord"
        has_link = {"hello": True, "welcome": peer.known[to] > 0}.get(what, to in peer.linked)
        return f"datagram {len(self.said)}" if has_link else "no say 6 NoLink"

    def heard(self, number, at):
        """The answer to a delivery at an open peer."""
        if number >= len(self.said):
            return "none"
        peer, gram = self.peers[at], self.said[number]
        if at in peer.left:
            return "no deliver 17 Dropped"
        if gram.to != at:
            return "no hand 4 NotMine"
        known = peer.known[gram.sender]
        if gram.b < known or (gram.kind != "hello" and gram.a < peer.epoch):
            return "no hand 2 Stale"
        if gram.a > peer.epoch or (gram.kind not in ("hello", "welcome") and gram.b > known):
            return "no hand 3 Ahead"
        if gram.kind in ("hello", "welcome"):
            return "nothing"
        if gram.sender not in peer.linked:
            return "no hand 1 NotOpen"
        return self.judged(gram, at)

    def judged(self, gram, at):
        """The answer to a datagram that the link admits."""
        peer, leaver = self.peers[at], gram.leaver
        if gram.kind == "freeze":
            return "nothing" if leaver in peer.frozen else "kept"
        if gram.kind == "data" and gram.sender in peer.left | peer.frozen:
            return "no known 2 FromLeaver"
        if gram.kind == "cut" and leaver == at:
            return "out"
        if gram.kind == "cut" and leaver not in peer.frozen:
            return "no deliver 12 NotFrozen"
        if leaver in peer.cuts:
            return "nothing"
        return "kept" if gram.kind == "cut" or gram.end > peer.counts[leaver or gram.sender] else "nothing"

    # ---- what an answer changes

    def note(self, event, answer):
        words = event.split()
        is_stop = words[0] == "stop"
        words = words[{"stop": 3, "fail": 2}.get(words[0], 0) :]
        numbers = [int(word) for word in words[1:] if word.isdecimal()]
        at = {"give": numbers[-1], "leave": 1, "decide": 1}.get(words[0], numbers[0])
        peer = self.peers[at]
        said = (answer or "").split() or [""]
        if said[0] == "epoch":
            peer.epoch, peer.is_open = int(said[1]), True
            peer.forget(self.players, self.rules["delay"])
        elif said[0] == "now":
            peer.now = int(said[1])
            peer.counts[at] = peer.now + self.rules["delay"]
        elif said[0] == "datagram":
            self.note_said(at, numbers[1], words[3], numbers[2] if words[3] in ("freeze", "frozen", "cut") else None)
        elif words[0] == "give" and answer in ("nothing", "kept", "out"):
            self.note_heard(self.said[numbers[0]], at)
        elif said[0] == "leaving":
            peer.left.add(numbers[0])
        elif said[0] == "cut":
            peer.cuts[numbers[0]] = int(said[1])
        if is_stop or (answer or "").endswith(" Disk"):
            peer.is_open = False

    def note_said(self, at, to, what, leaver):
        peer = self.peers[at]
        start = peer.acks[to] if what == "data" else 0
        ends = {"data": min(peer.counts[at], start + RUN), "frozen": peer.counts[leaver or 0], "cut": peer.cuts.get(leaver, 0)}
        end = ends.get(what, 0)
        self.said.append(Datagram(at, to, what, leaver, peer.epoch, peer.known[to], start, end, peer.counts[to]))

    def note_heard(self, gram, at):
        peer, sender = self.peers[at], gram.sender
        if gram.kind == "hello":
            if gram.b > peer.known[sender]:
                peer.known[sender] = gram.b
                peer.linked.discard(sender)
            peer.greeted.add(sender)
        elif gram.kind == "welcome":
            peer.known[sender] = gram.b
            peer.linked.add(sender)
        elif gram.kind == "freeze":
            peer.frozen.add(gram.leaver)
        elif gram.kind == "cut" and gram.leaver == at:
            peer.left.add(at)
        elif gram.leaver not in peer.cuts:
            of = gram.leaver or sender
            peer.counts[of] = max(peer.counts[of], gram.end)
            if gram.kind == "frozen":
                peer.answered[of].add(sender)
            elif gram.kind == "cut":
                peer.cuts[of] = gram.end
        if gram.kind in ("welcome", "data"):
            peer.acks[sender] = max(peer.acks[sender], gram.ack)

    def correct(self, report, journals):
        """Takes over where each player stands by the report of `sim`, and the records of its journal."""
        for at, peer in self.peers.items():
            words = report[at - 1].split()
            peer.now, peer.counts = int(words[3]), [0] + [int(word) for word in words[7:]]
            slots = [journals[at - 1][place : place + SLOT] for place in range(0, len(journals[at - 1]) - SLOT + 1, SLOT)]
            records = [(slot[1], slot[2], int.from_bytes(slot[3:7], "big")) for slot in slots if slot[0] == 0xA5]
            peer.left = {player for kind, player, _ in records if kind == LEAVE}
            peer.frozen = {player for kind, player, _ in records if kind == FREEZE}
            peer.cuts = {player: number for kind, player, number in records if kind == CUT}
            peer.epoch = max([number for kind, _, number in records if kind in (HEAD, EPOCH)], default=0)

    def report(self):
        return [
            " ".join(map(str, ["player", at, "now", peer.now, "confirmed", self.confirmed(at), "held", *peer.counts[1:]]))
            for at, peer in self.peers.items()
        ]
