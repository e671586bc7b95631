"""Matches between pages. Each ends with equal reports."""
import glob
import hmac
import os
import re
import shutil
import signal
import struct
import time

from bench import FRAMES, KEYS, LONGEST, SECRET, check, is_playing, page_with, says
from chromium import Chromium
from firefox import PROGRAM, Firefox
from native import JOINED, Seat, room_name, session_of

# A name that no system resolves: a page from there is not secure, so it has no files and no crypto.subtle.
PLAIN = "page.invalid"
# What a page may take: the seconds from a link to the first frame, and the part of a processor that plays with 200 ms of round trip.
FIRST_FRAME, MOST_COST, RATE = 2, 10, 60
# After how many seconds a browser has compiled what a page calls often.
SETTLED = 5
# the picture that a page shows at the end, as reports have it
LAST = """(() => {
    const it = document.getElementById('last'), points = new Uint32Array(it.getContext('2d').getImageData(0, 0, 64, 32).data.buffer);
    const lit = [...points].filter(it => it !== points[0]).length > 1024 ? points[0] : [...points].find(it => it !== points[0]);
    return [...Array(32).keys()].map(y => [...points.slice(64 * y, 64 * y + 64)].map(it => it === lit ? '#' : '.').join('')).join('\\n'); })()"""


# What a page has said so far of its match.
STATES = """globalThis.states = [];
new MutationObserver(() => {
    const it = document.getElementById('state')?.textContent;
    if (it && it !== states.at(-1)) states.push(it);
}).observe(document, { subtree: true, childList: true, characterData: true });"""


def match(bench):
    """Two pages, with delay and loss; and how soon the friend who has the link sees the first frame, and plays."""
    bench.next_room()
    one = page_with(bench, STATES, bench.link(1))
    says(one, "state", "Waiting for player 2 to open the link.")
    states = one.value("states.join('|')").split("|")
    check("nobody plays without the friend", not any(it.startswith("Playing") for it in states), states)
    check("the link for the friend", one.value("document.querySelector('#links input').value") == bench.link(2))
    begun = time.monotonic()
    two = bench.open(2)
    check("it shows a frame", two.until("document.getElementById('numbers').textContent !== ''"))
    passed = time.monotonic() - begun
    check("the first frame comes soon", passed < FIRST_FRAME, f"{passed:.1f} s")
    check("both play", is_playing(one) and is_playing(two), one.text("state"), two.text("state"))
    print(f"  from the link to the first frame {passed * 1000:.0f} ms, until both play {(time.monotonic() - begun) * 1000:.0f} ms")
    check("the picture is large", all(it.value("document.getElementById('picture').clientWidth") > 500 for it in (one, two)))
    check("the invitation is gone", one.value("document.getElementById('invite').hidden"))
    check("the match ends", bench.play({1: one, 2: two}))
    bench.equal("two pages", one, two)
    for page in (one, two):
        check("the last picture is that of the report", page.value(LAST) == "\n".join(page.text("report").splitlines()[-32:]), page.value(LAST))
    print(f"  {one.text('numbers')}")


def reload(bench):
    """Each page is reloaded in the middle, and goes on where it was."""
    bench.next_room()
    one, two = bench.open(1), bench.open(2)
    check("both play", is_playing(one) and is_playing(two))
    again = lambda: (two.call("Page.reload"), is_playing(two), one.call("Page.reload"), is_playing(one))
    check("the match ends", bench.play({1: one, 2: two}, meanwhile=again))
    bench.equal("reloaded pages", one, two)


def drop(bench):
    """Player 1 drops player 3, who has left; the others play to the end."""
    bench.next_room()
    one, two, three = (bench.open(it, "trails") for it in (1, 2, 3))
    check("all play", all(map(is_playing, (one, two, three))), *(it.text("state") for it in (one, two, three)))

    def leave():
        three.click("leave")
        says(three, "ended", "You left the match.")
        check("player 1 may drop it", one.until("!document.getElementById('drop').hidden", 15), one.text("state"))
        one.click("drop")
        says(one, "drop", "Drop player 3 for good?")
        one.click("drop")
        three.click("back")
    check("the match ends", bench.play({1: one, 2: two}, meanwhile=leave))
    bench.equal("the others", one, two)
    says(three, "ended", "Player 1 has dropped you.", 20)


def busy(bench):
    """A seat that somebody else has."""
    bench.next_room()
    seat = Seat(("127.0.0.1", bench.port), room_name(SECRET, session_of(bench.game_id("rally"), bench.room)), 2)
    for _ in range(2):
        seat.say()
        seat.receive()
        if seat.status != JOINED:
            seat.receive()
    check("somebody else sits there", seat.status == JOINED, seat.status)
    two = bench.open(2)
    for _ in range(6):
        time.sleep(1)
        seat.say()
    says(two, "state", "Seat 2 is taken", 2)
    # it is free three seconds after the other was heard last
    says(two, "state", "Waiting for player 1", 15)


def hidden(bench):
    """A hidden page plays on: also after five minutes, when Chromium slows the clocks of hidden pages down."""
    seconds = bench.given.hidden
    frames = bench.offer("hidden", "paddles", round(RATE * (seconds + 6)))
    bench.next_room()
    one, two = bench.open(1, "hidden"), bench.open(2, "hidden")
    check("both play", is_playing(one) and is_playing(two))
    window = bench.browser.call("Browser.getWindowForTarget", targetId=two.target)["windowId"]
    bench.browser.call("Browser.setWindowBounds", windowId=window, bounds={"windowState": "minimized"})
    check("the page is hidden", two.until("document.hidden", 5), two.value("document.visibilityState"))
    time.sleep(1)
    before = left(one)
    time.sleep(seconds)
    passed = before - left(one)
    # a machine with other work skips frames now and then
    check("the match went on", abs(passed - seconds) <= 2 + seconds / 20, f"{passed} s of {seconds} s")
    print(f"  {passed} s of the game in {seconds:.0f} s")
    bench.browser.call("Browser.setWindowBounds", windowId=window, bounds={"windowState": "normal"})
    check("the match ends", bench.play({1: one, 2: two}))
    bench.equal("a hidden page", one, two, frames=frames)


def left(page):
    """The seconds that the game still lasts."""
    minutes, seconds = page.text("numbers").partition(" ")[0].split(":")
    return 60 * int(minutes) + int(seconds)


def restart(bench):
    """The relay is killed in the middle, and started again."""
    bench.next_room()
    one, two = bench.open(1), bench.open(2)
    check("both play", is_playing(one) and is_playing(two))

    def again():
        bench.stop_relay(signal.SIGKILL)
        says(one, "state", "The relay does not answer.")
        bench.start_relay(delay=20, loss=5)
    check("the match ends", bench.play({1: one, 2: two}, meanwhile=again))
    bench.equal("after a restart", one, two)


def watched(bench):
    """Player 1 shows the match to a watcher, once it hears one: here a few lines of Python in seat 5."""
    bench.next_room()
    one, two = bench.open(1), bench.open(2)
    check("both play", is_playing(one) and is_playing(two))
    secret, session = hmac.digest(SECRET, b"c8play watchers 1", "sha256"), session_of(bench.game_id("rally"), bench.room)
    key = hmac.digest(secret, b"c8play watched 2" + session, "sha256")
    seat, rows, counter = Seat(("127.0.0.1", bench.port), room_name(secret, session), 5, lane=1), b"", time.time_ns() // 1_000_000 << 20
    seat.socket.settimeout(0.05)

    def watch():
        nonlocal rows, counter
        seat.ask()
        counter += 1
        seen = b"C8\x01\x08" + session + bytes([5, 1]) + struct.pack(">HIII", 4, 0, 0, len(rows) // 8) + struct.pack(">Q", counter)
        seat.send(seen + hmac.digest(key, seen, "sha256")[:16])
        try:
            packet = seat.receive()
        except TimeoutError:
            return
        if packet[3:4] == b"\x07" and hmac.digest(key, packet[:-16], "sha256")[:16] == packet[-16:]:
            start, count = struct.unpack(">IH", packet[24:30])
            if start == len(rows) // 8:
                rows += packet[30:30 + 8 * count]
    end = time.monotonic() + LONGEST
    for number, page in ((1, one), (2, two)):
        page.key(KEYS[number][0], True)
    while len(rows) < 8 * FRAMES and time.monotonic() < end:
        watch()
    keys = {rows[at:at + 4].hex() for at in range(0, len(rows), 8)}
    check("the watcher has all rows", len(rows) == 8 * FRAMES, len(rows) / 8)
    check("they have the keys of both players", "00021000" in keys, keys)


def watching(bench):
    """Two pages watch, one of them from the middle on and with a reload, and have the players' result. Their links are those that player 1
    shows. A page with the players' secret in a watcher's link sees nothing."""
    bench.next_room()
    one = bench.open(1)
    one.until("document.querySelectorAll('#watching input').length === 2")
    links = [one.value(f"document.querySelectorAll('#watching input')[{it}].value") for it in (0, 1)]
    five, false = bench.browser.page(links[0]), bench.open(6)
    says(five, "who", "You are watching.")
    says(five, "state", "Waiting for the players.")
    two = bench.open(2)
    check("both play", is_playing(one) and is_playing(two))
    says(five, "state", "Watching.")
    late = []

    def watch():
        late.append(bench.browser.page(links[1]))
        says(late[0], "state", "Watching.", 10)
        five.call("Page.reload")
    check("the match ends", bench.play({1: one, 2: two}, meanwhile=watch))
    ended = [it.until("!document.getElementById('end').hidden", 20) for it in (five, *late)]
    check("the watchers see the end", ended == [True, True], ended, *(f"[{it.text('state')}]" for it in (five, *late)))
    bench.equal("players and watchers", one, two, five, *late)
    says(false, "state", "Waiting for player 1 to show the match.")
    check("a watcher has no journal", five.value("document.getElementById('save').hidden && document.getElementById('again').hidden"))
    bench.shown += [five, *late]


def stalled(bench):
    """The relay stands still for a while, with all connections open."""
    bench.next_room()
    one, two = bench.open(1), bench.open(2)
    check("both play", is_playing(one) and is_playing(two))

    def stall():
        bench.relay.send_signal(signal.SIGSTOP)
        says(one, "state", "The relay does not answer.", 15)
        bench.relay.send_signal(signal.SIGCONT)
    check("the match ends", bench.play({1: one, 2: two}, meanwhile=stall))
    bench.equal("after a pause", one, two)


def plain(bench):
    """A page that is not secure has no files, and keeps its journal in a database; the later of two windows has the match."""
    bench.next_room()
    bench.renew(f"--host-resolver-rules=MAP {PLAIN} 127.0.0.1")
    one, two = (bench.browser.page(bench.link(it, host=PLAIN)) for it in (1, 2))
    check("both play", is_playing(one) and is_playing(two), one.text("state"), one.text("ended"), one.text("then"))
    check("the page is not secure", one.value("!isSecureContext && !navigator.storage && !crypto.subtle"))
    check("it keeps a journal", one.value("document.getElementById('warning').hidden"))
    again = lambda: (two.call("Page.reload"), is_playing(two), one.call("Page.reload"), is_playing(one))
    check("the match ends", bench.play({1: one, 2: two}, meanwhile=again))
    bench.equal("reloaded pages with databases", one, two)
    bench.next_room()
    one, two = (bench.browser.page(bench.link(it, host=PLAIN)) for it in (1, 2))
    check("both play", is_playing(one) and is_playing(two))
    later = bench.browser.page(bench.link(2, host=PLAIN))
    says(two, "then", "Another window")
    check("the later one plays", is_playing(later), later.text("state"))
    check("the match ends", bench.play({1: one, 2: later}))
    bench.equal("the later window", one, later)


def unkept(bench):
    """A browser that keeps nothing: the page warns, asks before one leaves, and does not begin a match a second time; also one that it kept
    before."""
    bench.next_room()
    kept, journaled = bench.room, bench.open(1)
    says(journaled, "state", "Waiting for player 2")
    journaled.go("about:blank")
    path = f"{bench.pages}/journal.mjs"
    text = bench.page.read(path)
    bench.page.write(path, "export const openJournal = async () => null;\n")
    bench.stop_relay()
    bench.start_relay()
    bench.page.write(path, text)
    bench.next_room()
    one, two = bench.open(1), bench.open(2)
    check("both play", is_playing(one) and is_playing(two), one.text("state"), one.text("then"))
    check("it warns", one.value("!document.getElementById('warning').hidden"))
    one.click("leave")
    check("it asks before it leaves", one.value("document.getElementById('sure').open"))
    one.click("stay")
    check("the match ends", bench.play({1: one, 2: two}))
    bench.equal("pages without journals", one, two)
    bench.next_room()
    one = bench.open(1)
    one.until("!!document.getElementById('who').textContent")
    one = bench.open(1)
    says(one, "then", "This browser keeps no files")
    again = bench.browser.page(bench.link(1, room=kept))
    bench.shown.append(again)
    says(again, "then", "This browser keeps no files")


# A worker that paints a ball on a canvas as often as a match does, and nothing else: what a picture costs whoever shows it.
BARE = """import { Picture } from './picture.mjs';
onmessage = ({ data }) => {
    const picture = new Picture(data), begun = performance.now();
    let frame = 0;
    const paint = () => {
        picture.screen = new Uint8Array(256);
        picture.screen[8 * (frame % 32) + 4] = 0x80;
        picture.paint();
        setTimeout(paint, Math.max(0, Math.ceil(begun + ++frame * 1000 / 60 - performance.now())));
    };
    picture.become({ dark: 0xffffffff, lit: 0xff000000 });
    paint();
};"""
SHOWN = """const canvas = Object.assign(document.createElement('canvas'), { width: 64, height: 32 });
canvas.style = 'width: 960px; image-rendering: pixelated';
document.body.append(canvas);
const given = canvas.transferControlToOffscreen();
new Worker('/bare.mjs', { type: 'module' }).postMessage(given, [given]);"""


def cost(bench):
    """What a page takes of a processor that plays with 200 ms of round trip, its link included: that of its own process. The other page is
    in another browser. And what a page takes that only paints a picture as often: a browser paints in the page's process as well."""
    bench.page.write(f"{bench.pages}/bare.mjs", BARE)
    bench.stop_relay()
    bench.start_relay(delay=100)
    bench.next_room()
    other = Chromium()
    try:
        two = other.page(bench.link(2, "paddles"))
        one = bench.open(1, "paddles")
        check("both play", is_playing(one) and is_playing(two))
        time.sleep(SETTLED)
        was = left(one)

        def press():
            # the other one's keys change, so that there is something to roll back
            for page in (one, two):
                page.key(bench.chance.choice(KEYS[1][:2] if page is one else KEYS[2][:2]), bench.chance.random() < 0.5)
        passed, parts = measured(bench, press)
        told, page = ", ".join(f"{part:.1f} % {kind} ({pid})" for (kind, pid), part in parts.items() if part >= 0.5), part_of_page(parts)
        check("it plays 60 frames a second", abs(RATE * (was - left(one)) / passed - RATE) < 10, was, left(one), passed)
        check("a page takes little", 0 < page < MOST_COST, f"{page:.1f} %")
        print(f"  a page takes {page:.1f} % of a processor; all processes of its browser: {told}; {one.text('numbers')}")
        print(f"  its journal is written by {'a keeper' if workers(parts) > 1 else 'the worker of its session'}")
        bench.close()
        bench.told(SHOWN)
        time.sleep(SETTLED)
        print(f"  a page that only paints takes {part_of_page(measured(bench)[1]):.1f} %")
    finally:
        other.close()


def measured(bench, act=lambda: None, seconds=10):
    """How many seconds passed, and the percents of a processor that each process of the browser took, by its kind and number, while
    something is done five times a second."""
    begun, before = time.monotonic(), times(bench)
    while time.monotonic() < begun + seconds:
        act()
        time.sleep(0.2)
    passed = time.monotonic() - begun
    return passed, {name: 100 * (spent - before.get(name, 0)) / passed for name, spent in times(bench).items()}


def part_of_page(parts):
    """What the page takes: the process that has a worker. A browser has processes in reserve for other pages."""
    return sum(part for (kind, pid), part in parts.items() if kind == "renderer" and "DedicatedWorker" in threads(pid))


def workers(parts):
    """How many workers the page has."""
    return sum(threads(pid).count("DedicatedWorker") for kind, pid in parts if kind == "renderer")


def threads(pid):
    """The names of a process's threads."""
    names = []
    for it in glob.glob(f"/proc/{pid}/task/*/comm"):
        try:
            with open(it, encoding="utf-8") as name:
                names.append(name.read().strip())
        except OSError:
            pass  # it has ended
    return names


def times(bench):
    """The seconds of a processor that each process of the browser took so far, by its kind and number."""
    ticks = os.sysconf("SC_CLK_TCK")
    return {(kind_of(pid), pid): sum(map(int, stat(pid).rpartition(")")[2].split()[11:13])) / ticks for pid in children(bench.browser.run.pid)}


def firefox(bench):
    """A page in Firefox against one in Chromium, with a reload of Firefox's in the middle."""
    if not shutil.which(PROGRAM):
        print("  no firefox-esr: skipped")
        return
    bench.next_room()
    other = Firefox()
    try:
        two = other.page(bench.link(2))
        one = bench.open(1)
        check("both play", is_playing(one) and is_playing(two), one.text("state"), two.text("state"), two.text("ended"), two.text("then"))
        check("it keeps a journal", two.value("document.getElementById('warning').hidden"))
        check("the match ends", bench.play({1: one, 2: two}, meanwhile=lambda: (two.reload(), is_playing(two))))
        bench.equal("Firefox and Chromium", one, two)
        if bench.given.pictures:
            two.picture(f"{bench.given.pictures}/firefox.png")
        print(f"  Firefox {other.version}, {bench.browser.version}")
    finally:
        for it in other.errors:
            check("Firefox complains", False, it)
        other.close()


def kind_of(pid):
    try:
        with open(f"/proc/{pid}/cmdline", encoding="utf-8", errors="replace") as it:
            words = it.read().replace("\0", " ").split()
    except OSError:
        return "ended"
    return next((it.removeprefix("--type=") for it in words if it.startswith("--type=")), "browser")


def stat(pid):
    try:
        with open(f"/proc/{pid}/stat", encoding="utf-8") as it:
            return it.read()
    except OSError:
        return ") " + "0 " * 20


def children(pid):
    """A process, and all that it started."""
    found, parents = [pid], {}
    for it in os.listdir("/proc"):
        if it.isdigit():
            parents[int(it)] = int(stat(it).rpartition(")")[2].split()[1])
    for it in found:
        found += [child for child, parent in parents.items() if parent == it]
    return found
