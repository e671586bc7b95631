"""The game of three players with a machine of its own, games/own: over UDP, with loss, kills, returns, a drop, a broken path, a machine that
differs, and a spectator."""
import re
import signal
import time

from bench import C, LINUX, TOP, Failed, free_ports, lacking, read, same

FRAMES, PLAYERS, WATCHER = 900, (1, 2, 3), 5
# In milliseconds: longer than a return takes, and shorter than a test.
PATIENCE = 4000
# Player 3 leaves at this tick. Its last inputs are 0, so its end changes no row: the machines of the others go back to it by themselves.
LEAVES = 432
# In seconds.
RETURN = 0.3


class Match:
    """Three players of one match."""

    def __init__(self, bench, program, what):
        self.bench, self.program, self.what = bench, program, what
        *self.addresses, self.watcher = [f"127.0.0.1:{it}" for it in [*free_ports(), *free_ports()]]
        self.running = {}

    def start(self, player, *options):
        words = [*self.program, str(player), str(FRAMES), *self.addresses, "--script", str(player), "--lose", "15", "--patience", str(PATIENCE)]
        self.running[player] = self.bench.begin([*words, "--journal", self.journal(player), *options], self.bench.environment)

    def watch(self, *options):
        """Starts a spectator, which player 1 has to show the match by --watcher."""
        words = [*self.program, "watch", str(FRAMES), self.addresses[0], "--watcher", self.watcher, "--script", "0", "--lose", "15", *options]
        self.running[WATCHER] = self.bench.begin(words, self.bench.environment)

    def journal(self, player):
        return f"{self.what.replace(' ', '-')}.{player}.journal"

    def ended(self, player, status=0):
        """What a player printed, and its events."""
        came, said, errors = self.bench.ended(self.running.pop(player), f"{self.what}: player {player}")
        if came != status:
            raise Failed(f"{self.what}: player {player}: status {came}: {said} {errors}")
        return said, errors

    def replayed(self, player):
        """What a replay of a player's journal prints, which leaves the journal as it is."""
        path = f"{self.bench.folder}/{self.journal(player)}"
        before = read(path)
        said = self.bench.run(*self.program, "replay", str(FRAMES), "--journal", path)
        same(f"{self.what}: the journal of player {player} after a replay", read(path), before)
        return said


def own(bench):
    if why := lacking(LINUX):
        return why
    program = f"{bench.folder}/own"
    bench.run(*LINUX.compiler, *C, f"{TOP}/games/own/own.c", f"{TOP}/out/libraries/{LINUX.library}", "-o", program)
    plays(bench, [program])
    returns(bench, [program])
    leaves(bench, [program])
    breaks(bench, [program])
    differs(bench, [program])
    watches(bench, [program])
    return ""


def end_of(said):
    """The last line: the frames, the hash and the scores."""
    found = re.search(r"(?m)^frames (\d+) hash [0-9a-f]{16} scores( \d+){3}$", said)
    if not found:
        raise Failed(f"no end: {said}")
    return found[0]


def all_alike(match, players, ends):
    """These players and the replays of their journals end alike. Returns the events of the last one."""
    for player in players:
        said, events = match.ended(player)
        ends[player] = end_of(said)
        same(f"{match.what}: the replay of player {player}", end_of(match.replayed(player)), ends[player])
    same(f"{match.what}: ends", set(ends.values()), {ends[players[0]]})
    return events


def plays(bench, program):
    """All three to the end: nobody differs, and the match says so to each."""
    match = Match(bench, program, "three players")
    for player in PLAYERS:
        match.start(player)
    ends = {}
    for player in PLAYERS:
        said, events = match.ended(player)
        ends[player] = end_of(said)
        same(f"{match.what}: what player {player} says", said, f"{ends[player]}\n")
        # on a busy machine a player may be silent for a while
        same(f"{match.what}: events of player {player}", sorted(re.findall(r"event (linked|dropped|desync|ended) player (\d)", events)),
             sorted([("ended", "0"), *(("linked", str(it)) for it in PLAYERS if it != player)]))
    same(f"{match.what}: ends", set(ends.values()), {ends[1]})
    same(f"{match.what}: frames", ends[1].split()[1], str(FRAMES))


def returns(bench, program):
    """Player 2 is killed by itself, and player 1 in the midst of whatever it does; both go on from their journals."""
    match = Match(bench, program, "a return")
    match.start(1)
    match.start(2, "--die", "300")
    match.start(3)
    match.ended(2, -signal.SIGKILL)
    match.start(2)
    time.sleep(RETURN)
    match.running[1].kill()
    match.ended(1, -signal.SIGKILL)
    match.start(1)
    events = all_alike(match, PLAYERS, {})
    same("a return: who started again", sorted(set(re.findall(r"event restarted player (\d)", events))), ["1", "2"])


def leaves(bench, program):
    """Player 3 leaves: player 1 drops it, and the others see it go at the same frame, and end alike."""
    match = Match(bench, program, "a drop")
    for player in PLAYERS:
        match.start(player, *(("--leave", str(LEAVES)) if player == 3 else ()))
    match.ended(3)
    gone, ends = {}, {}
    for player in (1, 2):
        said, events = match.ended(player)
        ends[player] = end_of(said)
        gone[player] = re.search(r"(?m)^player 3 is gone since frame (\d+)$", said)
        if not gone[player] or f"event dropped player 3 frame {gone[player][1]}" not in events or "event interrupted player 3" not in events:
            raise Failed(f"a drop: player {player}: {said} {events}")
        same(f"a drop: the replay of player {player}", match.replayed(player), said)
    same("a drop: ends", (ends[1], gone[1][1]), (ends[2], gone[2][1]))
    if not LEAVES <= int(gone[1][1]) < FRAMES:
        raise Failed(f"a drop: at frame {gone[1][1]}")


def breaks(bench, program):
    """The path of player 2 breaks for a while, and the match waits: both sides say so, and nobody is dropped."""
    match = Match(bench, program, "a broken path")
    for player in PLAYERS:
        match.start(player, *(("--break", "300") if player == 2 else ()))
    ends = {}
    for player in PLAYERS:
        said, events = match.ended(player)
        ends[player] = end_of(said)
        for other in (1, 3) if player == 2 else (2,):
            if f"event interrupted player {other}" not in events or f"event resumed player {other}" not in events:
                raise Failed(f"{match.what}: player {player} about {other}: {events}")
        if "event dropped" in events:
            raise Failed(f"{match.what}: player {player}: {events}")
    same(f"{match.what}: ends", set(ends.values()), {ends[1]})


def differs(bench, program):
    """The machine of player 3 is spoilt: the others find that, and it finds the others, each at the next frame that is compared."""
    match = Match(bench, program, "a machine that differs")
    for player in PLAYERS:
        match.start(player, *(("--wrong", "500") if player == 3 else ()))
    for player in PLAYERS:
        said, _ = match.ended(player)
        found = sorted(re.findall(r"(?m)^player (\d) differs after frame (\d+)$", said))
        wanted = ["1", "2"] if player == 3 else ["3"]
        if [it for it, _ in found] != wanted or any(int(frame) < 540 or int(frame) > 900 for _, frame in found):
            raise Failed(f"{match.what}: player {player}: {said}")


def watches(bench, program):
    """A spectator is killed, and starts again while player 3 leaves and player 1 is killed and goes on: it ends as the players do."""
    match = Match(bench, program, "a spectator")
    shown = ("--watcher", match.watcher)
    match.watch("--die", "200")
    match.start(1, *shown)
    match.start(2)
    match.start(3, "--leave", str(LEAVES))
    match.ended(WATCHER, -signal.SIGKILL)
    match.watch()
    match.running[1].kill()
    match.ended(1, -signal.SIGKILL)
    match.start(1, *shown)
    match.ended(3)
    ends = {player: match.ended(player)[0] for player in (1, 2, WATCHER)}
    same("a spectator: ends", set(ends.values()), {ends[1]})
    if not re.search(r"(?m)^player 3 is gone since frame \d+$", ends[WATCHER]):
        raise Failed(f"a spectator: nobody is gone: {ends[WATCHER]}")
