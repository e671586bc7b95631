"""What the tests of the page share: a folder of pages with short games, a relay, a browser, and people who press keys."""
import base64
import importlib.machinery
import importlib.util
import json
import os
import random
import re
import shutil
import signal
import socket
import subprocess
import sys
import time

from chromium import Chromium

HERE = os.path.dirname(os.path.realpath(__file__))
TOP = os.path.dirname(os.path.dirname(HERE))
PAGES, ROLLBACK = f"{TOP}/out/pages", f"{TOP}/out/rollback.html"
SECRET = bytes(range(32))
# What a game of a test lasts, and one that is not played to its end, in frames; and the longest that a match may take, in seconds.
FRAMES, LONG, LONGEST = 300, 36000, 90
KEYS = {1: ["Digit1", "KeyQ", "KeyA"], 2: ["Digit4", "KeyR", "KeyF"], 3: ["KeyA", "KeyS"]}
SIZES = {"phone": (390, 844, 2), "side": (844, 390, 2), "laptop": (1280, 720, 1), "large": (1920, 1080, 1)}
STATE = "document.getElementById('state').textContent"
FAULTS = []


def check(what, holds, *more):
    if not holds:
        FAULTS.append(what)
        print(f"  FAULT {what}", *more, flush=True)


def says(page, name, text, seconds=10):
    """Checks that a part of the page says a text before long, or begins with it."""
    holds = page.until(f"document.getElementById('{name}').textContent.startsWith({json.dumps(text)})", seconds)
    check(f"{name}: {text}", holds, *(f"[{page.text(it)}]" for it in ("state", "ended", "then")))


def spelt(bytes_):
    return base64.urlsafe_b64encode(bytes_).decode().rstrip("=")


def maker():
    """tools/page, as a module."""
    sys.path.insert(0, f"{TOP}/tools")
    loader = importlib.machinery.SourceFileLoader("page", f"{TOP}/tools/page")
    spec = importlib.util.spec_from_loader("page", loader)
    assert spec
    module = importlib.util.module_from_spec(spec)
    loader.exec_module(module)
    return module


def free_port():
    with socket.socket() as it:
        it.bind(("127.0.0.1", 0))
        return it.getsockname()[1]


def page_with(bench, script, url):
    """A page in which a script runs before its own."""
    page = bench.browser.page("about:blank")
    bench.shown.append(page)
    page.call("Page.addScriptToEvaluateOnNewDocument", source=script)
    page.go(url)
    return page


def is_playing(page, seconds=20):
    return page.until(f"{STATE}.startsWith('Playing')", seconds)


class Bench:
    """Everything that a test uses: a folder of pages with short games, a relay, a browser."""

    def __init__(self, given, folder):
        self.given, self.folder, self.chance = given, folder, random.Random(5)
        self.pages, self.relay, self.shown, self.room = f"{folder}/pages", None, [], 0
        shutil.copytree(PAGES, self.pages)
        shutil.copy(f"{HERE}/agree.mjs", self.pages)
        self.page = maker()
        self.shorten()
        self.port = free_port()
        self.browser = Chromium()

    def shorten(self):
        """Games of a few seconds, but for paddles."""
        with open(f"{self.pages}/games.json", encoding="utf-8") as it:
            self.offers = json.load(it)
        for offer in self.offers:
            path = f"{self.pages}/{offer['name']}.game"
            frames = LONG if offer["name"] == "paddles" else FRAMES
            self.page.write(path, re.sub(r"(?m)^frames \d+$", f"frames {frames}", self.page.read(path)))
            offer["id"] = self.page.game_id(self.page.read(path))[1]
        self.page.write(f"{self.pages}/games.json", json.dumps(self.offers))

    def offer(self, name, game, frames):
        """Serves a game by another name and with this many frames. The relay reads its files at its start."""
        text = re.sub(r"(?m)^frames \d+$", f"frames {frames}", self.page.read(f"{self.pages}/{game}.game"))
        self.page.write(f"{self.pages}/{name}.game", text)
        self.stop_relay()
        self.start_relay(**self.network)
        return frames

    def game_id(self, name):
        return bytes.fromhex(next(it["id"] for it in self.offers if it["name"] == name))

    def start_relay(self, delay=0, jitter=0, loss=0):
        self.network = {"delay": delay, "jitter": jitter, "loss": loss}
        words = [sys.executable, f"{HERE}/relay.py"]
        more = ["--delay", str(delay), "--jitter", str(jitter), "--loss", str(loss), "--seed", "7"]
        if self.given.relay:
            words, more = [self.given.relay], []
        self.relay = subprocess.Popen([*words, f"127.0.0.1:{self.port}", "--pages", self.pages, *more], stdout=subprocess.PIPE, text=True)
        assert self.relay.stdout
        check("the relay listens", self.relay.stdout.readline())

    def stop_relay(self, how=signal.SIGTERM):
        assert self.relay
        self.relay.send_signal(how)
        said = self.relay.communicate(timeout=20)[0].strip()
        return said

    def next_room(self):
        self.room += 1
        return self.room

    def link(self, seat, game="rally", room=None, host="127.0.0.1"):
        return f"http://{host}:{self.port}/#{self.room if room is None else room}.{spelt(SECRET)}.{seat}.{game}"

    def open(self, seat, game="rally", **more):
        page = self.browser.page(self.link(seat, game), **more)
        self.shown.append(page)
        return page

    def told(self, body):
        """What a script returns that runs in an empty page of the relay's. A fault of it is raised."""
        page = self.browser.page(f"http://127.0.0.1:{self.port}/none.game")
        self.shown.append(page)
        said = page.value(f"(async () => JSON.stringify({{ told: await (async () => {{ {body} }})() }}))()")
        if not said.startswith("{"):
            raise RuntimeError(said)
        return json.loads(said).get("told")

    def close(self):
        for it in self.shown:
            try:
                it.close()
            except RuntimeError:
                pass  # it is closed, or its browser is
        self.shown = []

    def play(self, pages, until="!document.getElementById('end').hidden", seconds=LONGEST, meanwhile=None):
        """Somebody at each page, who has a number, presses keys by chance until all pages are done."""
        down: dict[int, set[str]] = {number: set() for number in pages}
        begun = time.monotonic()
        while time.monotonic() < begun + seconds:
            if all(it.value(until) is True for it in pages.values()):
                return True
            for number, page in pages.items():
                code = self.chance.choice(KEYS[number])
                page.key(code, code not in down[number])
                down[number] ^= {code}
            if meanwhile and time.monotonic() > begun + 2:
                meanwhile()
                meanwhile = None
            time.sleep(0.02 + self.chance.random() * 0.1)
        return False

    def equal(self, what, *pages, more=(), frames=FRAMES):
        reports = [it.text("report") for it in pages] + list(more)
        good = reports[0].startswith(f"frames {frames}\n") and len(set(reports)) == 1 and "#" in reports[0]
        told = [" ".join(it.text(name) for name in ("ended", "then", "state")) for it in pages]
        check(f"{what}: the reports are equal", good, *(f"\n{it}" for it in [*reports, *told]))

    def renew(self, *words):
        """Another browser, with more words on its command line."""
        self.leave_browser()
        self.browser = Chromium(more=words)

    def leave_browser(self):
        self.browser.close()
        for it in self.browser.errors:
            check("a page complains", False, it)

    def end(self):
        self.leave_browser()
        if self.relay and self.relay.poll() is None:
            self.relay.kill()
