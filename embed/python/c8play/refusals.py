"""Why a call was refused, and which library it is."""
import ctypes as c

from .calls import LIBRARY, shown

# The longest name with its sentence.
LONGEST = 160
# Smaller answers are no refusals.
FIRST = 101


def version() -> str:
    """The version of the library that runs."""
    return shown(LIBRARY.c8_version())


def explain(number: int) -> str:
    """The name and the sentence of a refusal; empty if the number is none."""
    text = c.create_string_buffer(LONGEST)
    length = LIBRARY.c8_explain(number, text, LONGEST)
    return text.raw[:length].decode()


class Refusal(Exception):
    """A call was refused. `number` is that of c8.h; the text has the name and the sentence. The classes below are those that a program may
    want to tell apart; any other refusal is of this class itself."""

    def __init__(self, number: int) -> None:
        super().__init__(f"{number} {explain(number)}")
        self.number = number


class Closed(Refusal):
    """The session is closed."""


class NotSealed(Refusal):
    """A packet that is not sealed for this player with the secret of the match."""


class SeenBefore(Refusal):
    """A packet that came before, or is too old to tell."""


class BadSecret(Refusal):
    """The watchers' secret is that of the players."""


class SealedAlready(Refusal):
    """The session has a secret already."""


class ReadOnly(Refusal):
    """The session is a replay."""


class WatchesOnly(Refusal):
    """The session is a watcher's."""


class Threshold(Refusal):
    """Too far ahead of what is confirmed: tick again later."""


class End(Refusal):
    """The last frame was ticked."""


class Dropped(Refusal):
    """Player 1 has dropped this player."""


class Desync(Refusal):
    """Another player's CHIP-8 machine differs."""


class DiskFailed(Refusal):
    """The journal's disk failed. An open session is down: close it, and open its journal again."""


class DiskFull(DiskFailed):
    """The journal is full."""


class DiskLocked(Refusal):
    """Another session has the journal open."""


NAMED: dict[int, type[Refusal]] = {
    101: Closed, 103: NotSealed, 104: SeenBefore, 105: BadSecret, 106: SealedAlready, 107: ReadOnly, 108: WatchesOnly, 401: Threshold, 402: End,
    403: Dropped, 814: Desync, 1301: DiskFailed, 1302: DiskFull, 1303: DiskLocked,
}


def done(answer: int) -> int:
    """The answer of a call, if it is no refusal."""
    if answer >= FIRST:
        raise NAMED.get(answer, Refusal)(answer)
    return answer
