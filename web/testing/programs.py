"""Matches of a page and a program: `peer` with keys of a file, and `host` at a terminal. A shim takes a program to the relay that has no
option for one."""
import fcntl
import os
import pty
import re
import shutil
import struct
import subprocess
import termios
import threading
import time
import tty

from bench import FRAMES, SECRET, TOP, check, free_port, says
from native import Shim, room_name, session_of

PROGRAMS = [f"{TOP}/crates/{it}/out/{it}" for it in ("c8play", "c8peer")]
ROWS, COLUMNS = 50, 100


def program_of(bench):
    """The program, and the file of the secret; nothing, with a line, if none is built."""
    program = bench.given.program or next((it for it in PROGRAMS if os.path.exists(it)), None)
    if not program:
        print("  no program is built: skipped")
        return None, None
    path = f"{bench.folder}/secret"
    with open(path, "w", encoding="ascii", opener=lambda name, flags: os.open(name, flags, 0o600)) as it:
        it.write(SECRET.hex() + "\n")
    return program, path


def shim_of(bench, port):
    """Player 1 of the room, whose program is at this port, with an address for player 2."""
    name = room_name(SECRET, session_of(bench.game_id("rally"), bench.room))
    return Shim(("127.0.0.1", bench.port), name, 1, ("127.0.0.1", port), [2])


def peer(bench):
    """A page and `peer`."""
    program, secret = program_of(bench)
    if not program:
        return
    bench.next_room()
    port = free_port()
    shim = shim_of(bench, port)
    words = [program, "peer", f"{bench.pages}/rally.game", "1", f"{bench.folder}/one.journal", f"127.0.0.1:{port}", shim.address(2)]
    words += ["--secret", secret, "--room", str(bench.room), "--turns", "1000000"]
    run = subprocess.Popen(words, stdin=subprocess.PIPE, stdout=subprocess.PIPE, text=True)
    lines = "".join(f"{(2, 16, 128, 0, 32, 256)[frame // 7 * 5 % 6]:04x}\n" for frame in range(FRAMES))
    two = bench.open(2)
    said = []
    reader = threading.Thread(target=lambda: said.append(run.communicate(lines)[0]), daemon=True)
    reader.start()
    check("the match ends", bench.play({2: two}))
    reader.join(30)
    shim.end()
    bench.equal("a page and peer", two, more=said)


class Terminal(threading.Thread):
    """A program at a terminal of its own, and somebody who presses a key now and then."""

    def __init__(self, words, keys):
        super().__init__(daemon=True)
        self.side, theirs = pty.openpty()
        tty.setraw(theirs)
        fcntl.ioctl(theirs, termios.TIOCSWINSZ, struct.pack("HHHH", ROWS, COLUMNS, 0, 0))
        self.shown, self.keys = b"", keys
        self.run_of = subprocess.Popen(words, stdin=theirs, stdout=theirs, stderr=subprocess.PIPE, start_new_session=True,
                                       preexec_fn=lambda: fcntl.ioctl(0, termios.TIOCSCTTY, 0))
        os.close(theirs)
        self.start()
        threading.Thread(target=self.press, daemon=True).start()

    def run(self):
        while True:
            try:
                part = os.read(self.side, 65536)
            except OSError:
                return
            if not part:
                return
            self.shown += part

    def press(self):
        for count in range(10000):
            if self.run_of.poll() is not None:
                return
            os.write(self.side, self.keys[count % len(self.keys)])
            time.sleep(0.15)

    def text(self):
        """What was shown, with a new line for each move of the cursor."""
        return re.sub(r"\x1b\[[0-9;?<>=]*[A-Za-z]", "\n", self.shown.decode("utf-8", "replace")).replace("\r", "")

    def report(self):
        """The report at its end."""
        said = self.shown.replace(b"\r", b"")
        return said[said.rfind(b"frames "):].decode("utf-8", "replace")


def host(bench):
    """A page and `host`, which shows the link itself if it has an option for a relay; else a shim takes it there."""
    program, secret = program_of(bench)
    if not program:
        return
    has_relay = "--relay" in subprocess.run([program, "host", "--help"], capture_output=True, text=True, check=False).stdout
    bench.next_room()
    port, shim, link = free_port(), None, bench.link(2)
    game = shutil.copy(f"{bench.pages}/rally.game", f"{bench.folder}/rally.game")
    words = [program, "host", game, "--secret", secret, "--room", str(bench.room), "--mute", "--report"]
    if has_relay:
        words += ["--relay", f"127.0.0.1:{bench.port}"]
    else:
        words += ["--port", str(port)]
        shim = shim_of(bench, port)
    terminal = Terminal(words, [b"1", b"q", b"a", b"1"])
    if has_relay:
        end, found = time.monotonic() + 15, None
        while not found and time.monotonic() < end:
            found = re.search(r"http://127\.0\.0\.1:\d+/#[\w.-]+", terminal.text())
            time.sleep(0.1)
        check("host shows a link", found, terminal.text()[-2000:])
        link = found[0] if found else link
    two = bench.browser.page(link)
    bench.shown.append(two)
    says(two, "who", "You are player 2 of 2.")
    check("the match ends", bench.play({2: two}))
    terminal.run_of.wait(30)
    terminal.join(10)
    if shim:
        shim.end()
    said = terminal.run_of.stderr
    check("host is content", terminal.run_of.returncode == 0, said and said.read())
    bench.equal("a page and host", two, more=[terminal.report()])
    print(f"  by {'its own link' if has_relay else 'a shim'}")
