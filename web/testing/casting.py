"""A cast in the page live.html: its files as docs/FORMATS.md has them, written here once a second as `c8play watch --cast` would; and one of
`watch` itself, beside the pictures that `watch --screen` draws."""
import http.server
import json
import os
import random
import re
import shutil
import struct
import threading
import time

from bench import LONGEST, check, free_port, says
from programs import Terminal, program_of

CHUNK, RATE = 600, 60
GAME = "players 2\nipf 10\nframes {}\ndelay 2\nwindow 8\nseed 7\nwire 1\nmask1 0012\nmask2 8000\ncode {}\n"
# It draws a digit somewhere by chance, and clears the screen while key 4 is held: its picture shows all rows that came before.
CODE = "c03fc11fc20ff229d0156304e39e120000e01200"


class Site:
    """Serves a folder, with the cache headers of docs/HOSTING.md; counts what is asked for, and is away when told so."""

    def __init__(self, folder):
        self.asked: dict[str, int] = {}
        self.is_away = False
        site = self

        class Handler(http.server.SimpleHTTPRequestHandler):
            extensions_map = {"": "application/octet-stream", ".mjs": "text/javascript", ".html": "text/html", ".css": "text/css",
                              ".wasm": "application/wasm", ".svg": "image/svg+xml", ".json": "application/json"}

            def __init__(self, *words):
                super().__init__(*words, directory=folder)

            def do_GET(self):
                if site.is_away:
                    return self.connection.close()
                site.asked[self.path] = site.asked.get(self.path, 0) + 1
                return super().do_GET()

            def end_headers(self):
                is_chunk = "/rows/" in self.path
                self.send_header("Cache-Control", "public, max-age=31536000, immutable" if is_chunk else "no-cache")
                super().end_headers()

            def log_message(self, *words):
                pass

        self.server = http.server.ThreadingHTTPServer(("127.0.0.1", 0), Handler)
        self.port = self.server.server_address[1]
        threading.Thread(target=self.server.serve_forever, daemon=True).start()

    def end(self):
        self.server.shutdown()
        self.server.server_close()


class Caster:
    """Writes the files of a match of some rows, as far as they are there."""

    def __init__(self, folder, rows):
        self.folder, self.rows, self.whole = folder, rows, 0
        os.makedirs(f"{folder}/rows")
        text = GAME.format(len(rows), CODE)
        about = {"version": 1, "room": "78", "players": 2, "frames": len(rows), "rows": CHUNK, "game": text, "begun": 1764533388000}
        self.put("match.json", json.dumps(about, separators=(",", ":")).encode())

    def put(self, name, content):
        with open(f"{self.folder}/{name}.5", "wb") as it:
            it.write(content)
        os.rename(f"{self.folder}/{name}.5", f"{self.folder}/{name}")

    def write(self, count):
        spelt = lambda rows: b"".join(struct.pack(">HH", *row) for row in rows)
        for self.whole in range(self.whole, count // CHUNK):
            self.put(f"rows/{self.whole:06}.bin", spelt(self.rows[self.whole * CHUNK:(self.whole + 1) * CHUNK]))
        self.whole = count // CHUNK
        self.put("tail.bin", struct.pack(">I", count) + spelt(self.rows[self.whole * CHUNK:count]))


def rows_of(count):
    """Player 1 holds key 4 now and then; player 2 stops after 5 seconds."""
    chance, held, rows = random.Random(9), [0, 0], []
    for frame in range(count):
        if chance.random() < 0.05:
            held = [chance.choice((0, 0x10, 0x02)), chance.choice((0, 0x8000)) if frame < 5 * RATE else 0]
        rows.append(tuple(held))
    return rows


WHERE = "Number(document.getElementById('where').textContent.split('/')[0])"
POINTS = """(() => { const copy = new OffscreenCanvas(64, 32).getContext('2d'); copy.drawImage(document.getElementById('screen'), 0, 0);
    const points = new Uint32Array(copy.getImageData(0, 0, 64, 32).data.buffer);
    const dark = getComputedStyle(document.documentElement).getPropertyValue('--dark');
    const [red, green, blue] = dark.match(/[0-9a-f]{2}/gi).map(it => parseInt(it, 16)), off = (0xff000000 | blue << 16 | green << 8 | red) >>> 0;
    return [...points].map(it => it === off ? '.' : '#').join(''); })()"""
# The mark after all frames, by sessions of all players, which tick what the rows say: an input is entered `delay` frames before its row.
PLAYED = """(async (text, rows) => {{
    const C = await import('./c8.mjs'), L = await import('./link.mjs'), M = await import('./match.mjs');
    const c8 = await C.load(await (await fetch('c8.wasm')).arrayBuffer()), bytes = L.bytesOf(text), rules = L.rulesOf(bytes), all = [];
    for (const player of [1, 2]) all.push(new M.Match(c8.open(bytes, player, 0n), rules, player, (to, it) => all[to - 1].deliver(it)));
    for (let it = 0; it < 4; it++) for (const one of all) one.frame(null);
    for (let frame = rules.delay; all[0].session.confirmed() < rows.length; frame++)
        all.forEach((one, place) => one.frame((rows[frame] ?? [0, 0])[place]));
    return L.hex(all[0].session.mark());
}})({}, {})"""


def started(bench, site, folder="cast"):
    page = bench.browser.page(f"http://127.0.0.1:{site.port}/live.html#{folder}/")
    bench.shown.append(page)
    return page


def casting(bench):
    """Live with a delay; pause and back; equal marks of two viewers; each chunk once; a server that is away."""
    rows = rows_of(2000)
    site, caster = Site(bench.pages), Caster(f"{bench.pages}/cast", rows)
    try:
        follow(bench, site, caster, rows)
    finally:
        site.end()


def follow(bench, site, caster, rows):
    count = 1250
    caster.write(count)
    page = started(bench, site)
    says(page, "state", "Live.")
    begun = time.monotonic()
    # by the clock, as a match would: 60 rows a second
    made = lambda: min(len(rows), count + int((time.monotonic() - begun) * RATE))

    def go_on(seconds, look=None):
        end = time.monotonic() + seconds
        while time.monotonic() < end:
            caster.write(made())
            if look:
                look()
            time.sleep(0.5)
    delays = []
    go_on(2)
    go_on(4, lambda: delays.append((made() - page.value(WHERE)) / RATE))
    check("live is two to five seconds late", all(1 < it < 5 for it in delays), delays)
    page.key("Space", True)
    page.key("Space", False)
    page.click("play") if page.text("play") == "Pause" else None
    stands = page.value(WHERE)
    go_on(1)
    check("pause", page.value(WHERE) == stands and page.text("play") == "Play", stands, page.value(WHERE))
    page.value("document.getElementById('seek').value = 640; document.getElementById('seek').oninput()")
    check("back to a frame", page.value(WHERE) == 640 and page.text("marked") == "640", page.text("where"), page.text("marked"))
    first = page.value(POINTS), page.text("mark")
    page.value("document.getElementById('seek').value = 0; document.getElementById('seek').oninput()")
    page.value("document.getElementById('seek').value = 640; document.getElementById('seek').oninput()")
    check("a frame looks as before", first == (page.value(POINTS), page.text("mark")) and "#" in first[0])
    page.click("live")
    # a server that is away for a while: what is here is shown, and nothing is loaded twice
    site.is_away = True
    time.sleep(5)
    check("it says so", page.until("document.getElementById('state').textContent.startsWith('Waiting for the server')", 5), page.text("state"))
    site.is_away = False
    go_on(max(1.0, (len(rows) - made()) / RATE + 1))
    check("it shows the end", page.until(f"{WHERE} === {len(rows)}", 20), page.text("where"), page.text("state"))
    says(page, "state", "The match is over.")
    chunks = {it: times for it, times in site.asked.items() if "/rows/" in it}
    check("each chunk was loaded once", set(chunks.values()) == {1} and len(chunks) == len(rows) // CHUNK, chunks)
    played = page.value(PLAYED.format(json.dumps(GAME.format(len(rows), CODE)), json.dumps(rows)))
    check("the machine is that of all players' sessions", page.text("mark") == played, page.text("mark"), played)
    names = page.text("name1"), page.text("name2")
    check("player 2 is quiet", names[1].startswith("player 2, no key since frame ") and names[0] == "player 1", names)
    late = started(bench, site)
    check("a late viewer sees the end", late.until(f"{WHERE} === {len(rows)}", 20), late.text("where"))
    check("their marks are equal", late.text("mark") == page.text("mark") and late.value(POINTS) == page.value(POINTS), late.text("mark"))
    damaged(bench, site, caster, rows)


def damaged(bench, site, caster, rows):
    """A tail that differs from what was shown, and one that is cut short."""
    other = Caster(f"{bench.pages}/other", rows)
    other.write(700)
    page = started(bench, site, "other")
    says(page, "state", "Live.")
    other.rows = [(0x10, 0x8000)] * len(rows)
    # this server tells files apart by the second in which they were written
    time.sleep(1.1)
    other.write(760)
    says(page, "state", "The files are damaged: frame 600 has changed.")
    other.put("tail.bin", b"\0")
    says(started(bench, site, "other"), "state", "The files are damaged: a tail without rows.")
    late = started(bench, site, "none")
    says(late, "state", "The match has not begun.")


# What `watch --screen` writes: a row of text with two rows of points in each cell, and below them which frame it is.
CELLS = {" ": "..", "\u2580": "#.", "\u2584": ".#", "\u2588": "##"}
WRITTEN = re.compile("\x1b\\[(\\d+);1H(?:\x1b\\[K)?([ \u2580\u2584\u2588]{64}|\\d+ of \\d+ frames)")


def pictures(shown):
    """The pictures that a watcher drew as it named a frame, by the number of the frame."""
    lines: dict[int, str] = {}
    found: dict[int, str] = {}
    for row, text in WRITTEN.findall(shown.decode("utf-8", "replace")):
        if int(row) <= 16:
            lines[int(row)] = text
        elif len(lines) == 16:
            cells = [CELLS[it] for place in range(1, 17) for it in lines[place]]
            # each sixtieth picture has the row of the last change once more
            picture = "".join(cell[half] for y in range(16) for half in (0, 1) for cell in cells[64 * y:64 * y + 64])
            found.setdefault(int(text.split()[0]), picture)
    return found


def beside(bench):
    """A match of two programs that a third one watches and casts. That one is killed and started twice. The page shows the match live; its
    picture of each frame that `watch --screen` names is the one that stands there; and what it loads is never wrong, nor loaded twice."""
    program, _ = program_of(bench)
    if not program:
        return
    frames, folder = 1260, f"{bench.pages}/beside"
    game = f"{bench.folder}/beside.game"
    bench.page.write(game, re.sub(r"(?m)^frames \d+$", f"frames {frames}", bench.page.read(f"{bench.pages}/rally.game")))
    one, two, five = (f"127.0.0.1:{free_port()}" for _ in range(3))
    play = [program, "play", game]
    more = ["--room", "91", "--mute"]
    players = [Terminal([*play, "1", f"{bench.folder}/beside.1", one, two, "--watch5", five, *more], [b"1", b"q", b"a", b"1"]),
               Terminal([*play, "2", f"{bench.folder}/beside.2", two, one, *more], [b"4", b"r", b"f", b"r"])]
    watchers, site = [], Site(bench.pages)

    def watch():
        watchers.append(Terminal([program, "watch", game, "5", five, one, "--room", "91", "--cast", folder, "--screen"], [b" "]))
    try:
        watch()
        check("a cast is there", comes(lambda: os.path.exists(f"{folder}/tail.bin"), 20))
        page = started(bench, site, "beside")
        says(page, "state", "Live.", 20)
        said, begun, kills = set(), time.monotonic(), [6, 12]
        while time.monotonic() - begun < LONGEST and page.value(WHERE) < frames:
            said.add(page.text("state").partition(":")[0])
            if kills and time.monotonic() - begun > kills[0]:
                kills.pop(0)
                watchers[-1].run_of.kill()
                watchers[-1].run_of.wait()
                watch()
            time.sleep(0.3)
        check("the page shows the end", page.value(WHERE) == frames, page.text("where"), page.text("state"))
        check("no file was damaged", "The files are damaged" not in said, said)
        compare(page, watchers, frames)
        chunks = {it: times for it, times in site.asked.items() if "/rows/" in it}
        check("each chunk was loaded once", set(chunks.values()) == {1} and len(chunks) == frames // CHUNK, chunks)
    finally:
        site.end()
        for it in [*players, *watchers]:
            it.run_of.kill()
            it.run_of.wait()
        shutil.rmtree(folder, ignore_errors=True)


def comes(holds, seconds):
    """Whether something holds before long."""
    end = time.monotonic() + seconds
    while not holds() and time.monotonic() < end:
        time.sleep(0.1)
    return holds()


def compare(page, watchers, frames):
    """Looks in the page at each frame whose picture a watcher drew."""
    named: dict[int, str] = {}
    for it in watchers:
        named |= pictures(it.shown)
    named.pop(0, None)
    check("watchers drew many frames", len(named) > 10 and max(named) <= frames, sorted(named))
    differ = []
    page.click("play") if page.text("play") == "Pause" else None
    for frame, picture in sorted(named.items()):
        page.value(f"document.getElementById('seek').value = {frame}; document.getElementById('seek').oninput()")
        if (page.value(WHERE), page.value(POINTS)) != (frame, picture):
            differ.append(frame)
    check("the page has the pictures of watch --screen", not differ, differ)
