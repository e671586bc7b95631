"""Matches through a relay with players' programs: one whose JOINs another program says, and hosts that draw a relay of their list. And how
the script c8play ends a relay."""
from __future__ import annotations

import fcntl
import hashlib
import os
import pty
import re
import shutil
import signal
import subprocess
import sys
import tempfile
import termios
import time
import tty
from collections.abc import Callable

from relay.parts import PATIENCE, TOP, Player, Relay, Run, check, eventually

sys.path.append(f"{TOP}/web/testing")
from native import Shim, room_name, session_of  # noqa: E402  pylint: disable=wrong-import-position

SECRET, ROOM, FRAMES = bytes(range(50, 82)), 21, 1500
# the most hosts until each of two relays was drawn: one of them is missed once in 2^31 runs
MOST_HOSTS = 32
FIRST = "relay on 127.0.0.1:"


def folder_of_a_match(folder: str) -> str:
    """Writes a game and a secret, and returns the game's path."""
    with open(f"{TOP}/games/duel.game", encoding="utf-8") as it, open(f"{folder}/duel.game", "w", encoding="utf-8") as out:
        out.write(re.sub(r"(?m)^frames \d+$", f"frames {FRAMES}", it.read()))
    with open(f"{folder}/secret", "w", encoding="ascii", opener=lambda path, flags: os.open(path, flags, 0o600)) as it:
        it.write(SECRET.hex())
    return f"{folder}/duel.game"


def game_id(path: str) -> bytes:
    """The id of a game text, as FORMATS has it."""
    with open(path, encoding="utf-8") as it:
        lines = [line.split(" ", 1) for line in it.read().splitlines() if line and not line.startswith("#")]
    values = {name: value for name, value in lines if name != "code"}
    code = bytes.fromhex("".join(value for name, value in lines if name == "code"))
    sizes = (("players", 1), ("ipf", 1), ("frames", 4), ("delay", 1), ("window", 1), ("seed", 8))
    rules = b"".join(int(values[name]).to_bytes(size, "big") for name, size in sizes)
    masks = b"".join(int(values.get(f"mask{it}", "0"), 16).to_bytes(2, "big") for it in range(1, 5))
    wire = b"\x02" if values.get("wire", "1") == "2" else b""
    return hashlib.sha256(rules + masks + len(code).to_bytes(2, "big") + code + wire).digest()


def started(program: str, folder: str, number: int, *words: str) -> subprocess.Popen[bytes]:
    with open(f"{TOP}/games/duel.{number}.keys", "rb") as keys:
        return subprocess.Popen(
            [program, "peer", f"{folder}/duel.game", str(number), f"{folder}/{number}.journal", *words, "--secret", f"{folder}/secret",
             "--room", str(ROOM), "--turns", "1000000"], stdin=keys, stdout=subprocess.PIPE)


def another_program_says_joins(program: str) -> None:
    """Player 1 knows the relay. Player 2 knows nothing of relays: its JOINs are said by a program that was written from FORMATS. In between
    the relay is killed, and starts again."""
    relay = Relay("127.0.0.1:0")
    with tempfile.TemporaryDirectory() as folder:
        game, own = folder_of_a_match(folder), Player(("127.0.0.1", relay.port)).socket
        port = own.getsockname()[1]
        own.close()
        shim = Shim(("127.0.0.1", relay.port), room_name(SECRET, session_of(game_id(game), ROOM)), 2, ("127.0.0.1", port), [1])
        one = started(program, folder, 1, "--relay", f"127.0.0.1:{relay.port}")
        two = started(program, folder, 2, f"127.0.0.1:{port}", shim.address(1))
        try:
            time.sleep(1)
            going = one.poll(), two.poll()
            relay.end()
            relay = Relay(f"127.0.0.1:{relay.port}")
            reports = [it.communicate(timeout=3 * PATIENCE)[0] for it in (one, two)]
            whole = reports[0] == reports[1] and reports[0].startswith(b"frames %d\n" % FRAMES)
            check("a match with a player whose JOINs another program says", going == (None, None) and whole, going, *(it[:40] for it in reports))
        except subprocess.TimeoutExpired:
            check("a match with a player whose JOINs another program says ends", False)
        finally:
            for it in (one, two):
                it.kill()
                it.communicate()
            shim.end()
            relay.end()


def host_at(program: str, folder: str, relays: str) -> str:
    """The relay in the line that `host` shows to a friend, at a terminal of its own."""
    terminal, theirs = pty.openpty()
    tty.setraw(theirs)
    ran = subprocess.Popen([program, "host", f"{folder}/duel.game", "--secret", f"{folder}/secret", "--no-journal", "--relay", relays],
                           stdin=theirs, stdout=theirs, stderr=subprocess.PIPE, text=True, start_new_session=True,
                           preexec_fn=lambda: fcntl.ioctl(0, termios.TIOCSCTTY, 0))
    os.close(theirs)
    said = ""
    assert ran.stderr
    for line in ran.stderr:
        said += line
        if "--relay" in line:
            break
    ran.kill()
    ran.wait()
    ran.stderr.close()
    os.close(terminal)
    found = re.search(r"--relay (\S+)", said)
    return found[1] if found else said


def hosts_draw_a_relay(program: str) -> None:
    """Of a list `host` takes one relay by chance, which its line for the friend names."""
    relays = [Relay("127.0.0.1:0"), Relay("127.0.0.1:0")]
    names = [f"127.0.0.1:{it.port}" for it in relays]
    with tempfile.TemporaryDirectory() as folder:
        folder_of_a_match(folder)
        try:
            drawn: list[str] = []
            while len(drawn) < MOST_HOSTS and set(drawn) != set(names):
                drawn.append(host_at(program, folder, ",".join(names)))
            check("hosts draw each relay of their list, and no other", set(drawn) == set(names), names, drawn)
        finally:
            for it in relays:
                it.end()


def the_script_sums_up() -> None:
    """`./c8play relay` ends by SIGTERM, and by control-C, which goes to all of its processes. Then it shows the last line of the progress, also
    where nobody asked for progress; and it leaves nothing behind."""
    with tempfile.TemporaryDirectory() as folder:
        # the script of a release, whose program has the command relay
        os.mkdir(f"{folder}/bin")
        shutil.copy(f"{TOP}/c8play", folder)
        with open(f"{folder}/bin/c8play", "w", encoding="utf-8") as it:
            it.write(f'#!/bin/sh\nshift\nexec "{Run.program}" "$@"\n')
        os.chmod(f"{folder}/bin/c8play", 0o755)
        for more, how, status in (("", signal.SIGTERM, 143), ("--progress", signal.SIGINT, 130), ("", None, 130)):
            ran = subprocess.Popen([f"{folder}/c8play", "relay", "127.0.0.1:0", *more.split()], stdout=subprocess.PIPE, stderr=subprocess.PIPE,
                                   text=True, start_new_session=True, env={**os.environ, "TMPDIR": folder}, preexec_fn=hears_control_c)
            assert ran.stdout
            first = ran.stdout.readline()
            port = int(first.removeprefix(FIRST).partition(" ")[0]) if first.startswith(FIRST) else 0
            check("the script's relay listens", Player(("127.0.0.1", port)).join(1), first)
            time.sleep(2.2)
            if how is None:
                os.killpg(ran.pid, signal.SIGINT)
            else:
                ran.send_signal(how)
            said, refused = ran.communicate(timeout=PATIENCE)
            lines = said.splitlines()
            is_whole = lines and lines[-1].startswith("ended: rooms 1 seats 1 ") and (len(lines) > 1) == bool(more)
            check(f"the script sums up, {how}", ran.returncode == status and is_whole and not refused, ran.returncode, said, refused)
            check("the script leaves no process", eventually(is_gone(ran.pid), 5))
            check("the script leaves no file", sorted(os.listdir(folder)) == ["bin", "c8play"], os.listdir(folder))
        ended = subprocess.run([f"{folder}/c8play", "relay", "127.0.0.1"], capture_output=True, text=True, check=False, timeout=PATIENCE)
        came = f"{ended.returncode} {ended.stdout}{ended.stderr}"
        check("the script of a relay that is refused", came == "3 refused: socket 3 Address\n", came)


def hears_control_c() -> None:
    """A shell's jobs in the background ignore control-C, and so does what they start."""
    signal.signal(signal.SIGINT, signal.SIG_DFL)


def is_gone(group: int) -> Callable[[], bool]:
    """Asks whether no process of a group runs."""
    def asks() -> bool:
        try:
            os.killpg(group, 0)
        except ProcessLookupError:
            return True
        return False
    return asks


def all_checks(program: str) -> None:
    the_script_sums_up()
    if not os.path.exists(program):
        print("relays: skipped: there is no program for players")
        return
    another_program_says_joins(program)
    hosts_draw_a_relay(program)
