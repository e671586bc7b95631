"""What the page reads, shows and says, beside matches."""
import glob
import hashlib
import hmac
import json
import os
import random
import re
import shutil
import struct
import subprocess
import time

from bench import FRAMES, HERE, PAGES, ROLLBACK, SECRET, SIZES, TOP, check, is_playing, page_with, says, spelt
from native import room_name, session_of

# The first row of a paddle that stands in a column of the picture.
PADDLE = """(() => {{
    const copy = new OffscreenCanvas(64, 32).getContext('2d');
    copy.drawImage(document.getElementById('picture'), 0, 0);
    const points = copy.getImageData({}, 0, 1, 32).data;
    return [...Array(32).keys()].findIndex(row => row > 0 && points[4 * row] !== points[0]);
}})()"""
ARCHIVE = f"{TOP}/crates/c8_engine/out/libc8_engine.a"


def formats():
    with open(f"{TOP}/docs/FORMATS.md", encoding="utf-8") as it:
        return it.read()


def examples():
    """The game text of the examples of docs/FORMATS.md, and what stands behind the `#` of the two links."""
    text = formats().partition("\nExamples, with the secret")[2]
    game = "\n".join(line[4:] for line in text[text.index("    # a jump"):text.index("    http:")].splitlines())
    long, short = re.findall(r"(?m)^    http://\S+/#(\S+)$", text)
    return game, long, short


def links(bench):
    """Links, SHA-256 and HMAC against Python's, and the session against the one that the module writes."""
    text = bench.page.read(f"{bench.pages}/rally.game").encode()
    long = spelt(bytes([1, 2]) + (2**63 + 9).to_bytes(8, "big") + SECRET + text[:3000])
    short = f"{2**64 - 1}.{spelt(SECRET)}.2.rally"
    game, worked, by_name = examples()
    lines = [it for it in game.splitlines() if it and not it.startswith("#")]
    check("the long link of FORMATS", worked == spelt(bytes([1, 2]) + (9).to_bytes(8, "big") + SECRET + "".join(f"{it}\n" for it in lines).encode()))
    check("the short link of FORMATS", by_name == f"9.{spelt(SECRET)}.2.rally")
    wrong = ["", "a", long[:-3], long + "A", spelt(bytes([2, 2]) + bytes(50)), "A" * 8193]
    wrong += [spelt(bytes([1, 0]) + bytes(50)), spelt(bytes([1, 7]) + bytes(50)), spelt(bytes([1, 2]) + bytes(40)), short + ".", short + "/"]
    wrong += ["." + short, short.replace(".2.", ".7."), short.replace("1844", "18446"), "0" + short, short[:-6]]
    said = bench.told(f"""
        const L = await import('/link.mjs'), C = await import('/c8.mjs'), bytes = n => Uint8Array.from({{ length: n }}, (_, i) => i * 7 + n);
        const text = new Uint8Array(await (await fetch('/rally.game')).arrayBuffer()), rules = L.rulesOf(text);
        const c8 = await C.load(await (await fetch('/c8.wasm')).arrayBuffer()), hello = c8.open(text, 1, 9n).say(2, C.HELLO);
        const read = it => {{ const l = L.readLink(it); return l && [l.seat, String(l.room), L.hex(l.secret), l.game, l.text && l.text.length] }};
        return {{
            hashes: [...Array(200).keys()].map(n => L.hex(L.sha256(bytes(n)))),
            macs: [...Array(64).keys()].map(n => L.hex(L.hmac(bytes(n), bytes(3 * n)))),
            id: L.hex(L.gameId(rules)), session: L.hex(L.sessionOf(rules, 9n)), hello: L.hex(hello.slice(4, 12)),
            name: L.hex(L.roomName(bytes(32), L.sessionOf(rules, 9n))),
            long: read({json.dumps(long)}), short: read({json.dumps(short)}), wrong: {json.dumps(wrong)}.map(read),
            worked: read({json.dumps(worked)}), longest: read({json.dumps(spelt(bytes([1, 2]) + bytes(6142)))}),
            watchers: L.hex(L.watchersSecret(bytes(32).map((_, i) => i))),
            speltLong: L.spellLong({{ seat: 2, room: 2n ** 63n + 9n, secret: bytes(32).map((_, i) => i), text: text.slice(0, 3000) }}),
        }};""")
    data = lambda n: bytes((i * 7 + n) % 256 for i in range(n))
    session = session_of(bench.game_id("rally"), 9)
    check("SHA-256", said["hashes"] == [hashlib.sha256(data(n)).hexdigest() for n in range(200)])
    check("HMAC", said["macs"] == [hmac.digest(data(n), data(3 * n), "sha256").hex() for n in range(64)])
    check("the id of a game", said["id"] == bench.game_id("rally").hex())
    check("the session", said["session"] == said["hello"] == session.hex())
    check("the name of a room", said["name"] == room_name(data(32), session).hex())
    check("a long link", said["long"] == [2, str(2**63 + 9), SECRET.hex(), None, len(text[:3000])] and said["speltLong"] == long, said["long"])
    check("a short link", said["short"] == [2, str(2**64 - 1), SECRET.hex(), "rally", None], said["short"])
    check("the page reads that of FORMATS", said["worked"] == [2, "9", SECRET.hex(), None, sum(len(it) + 1 for it in lines)], said["worked"])
    check("a link of 8192 characters", said["longest"] == [2, "0", bytes(32).hex(), None, 6102], said["longest"])
    check("the watchers' secret", said["watchers"] == hmac.digest(SECRET, b"c8play watchers 1", "sha256").hex() and said["watchers"] in formats())
    check("wrong links", said["wrong"] == [None] * len(wrong), said["wrong"])


def agree(bench):
    """The compiled module does what the archive for C does: ten games of 4,000 turns, one sum each."""
    games = sorted(glob.glob(f"{TOP}/games/*.game"))
    told = {}
    if shutil.which("cc") and shutil.which("rt") and os.path.exists(ARCHIVE):
        kit = os.path.dirname(subprocess.run(["rt", "doc"], capture_output=True, text=True, check=True).stdout.strip())
        words = ["cc", "-std=c99", "-O1", "-Wall", "-Wextra", "-Werror", f"-I{TOP}/embed", f"{HERE}/agree.c"]
        subprocess.run([*words, ARCHIVE, f"{kit}/c/libos_c.a", f"{kit}/c/liblibc_c.a", "-o", f"{bench.folder}/agree"], check=True)
        told["C"] = subprocess.run([f"{bench.folder}/agree", *games], capture_output=True, text=True, check=True).stdout.split("\n")[:-1]
    else:
        print("  no cc, no toolchain or no archive for C: the pages agree with each other alone")
    for it in games:
        shutil.copy(it, f"{bench.folder}/pages/agree-{os.path.basename(it)}")
    bench.stop_relay()
    bench.start_relay()
    modules = [it for it in ("c8.wasm", "c8-32.wasm") if os.path.exists(f"{PAGES}/{it}")]
    for module in modules:
        names = json.dumps([f"/agree-{os.path.basename(it)}" for it in games])
        told[f"{module} in Chromium"] = bench.told(f"""
            const get = async it => new Uint8Array(await (await fetch(it)).arrayBuffer()), {{ agree }} = await import('/agree.mjs');
            return agree(await get('/{module}'), await Promise.all({names}.map(get)));""")
        if shutil.which("node"):
            # node 20 has a memory of 64 bits only if asked
            flags = ["--experimental-wasm-memory64"] if module == "c8.wasm" else []
            words = ["node", *flags, f"{bench.pages}/agree.mjs", f"{PAGES}/{module}", *games]
            ran = subprocess.run(words, capture_output=True, text=True, check=False)
            if ran.returncode and module == "c8.wasm":
                print("  this node does not read c8.wasm")
            else:
                told[f"{module} in node"] = ran.stdout.split("\n")[:-1] or [ran.stderr]
    first = next(iter(told.values()))
    are_equal = len(first) == len(games) + 1 and all(it == first for it in told.values())
    check("all modules agree", are_equal, *(f"\n{name}: {it}" for name, it in told.items()))
    print(f"  {len(games) + 1} games:", ", ".join(told))


def rows(bench):
    """What a watcher takes of the packets that come, and what it says: packets are made here, by docs/FORMATS.md."""
    session = session_of(bench.game_id("trails"), 7)
    key = hmac.digest(SECRET, b"c8play watched 2" + session, "sha256")
    sealed = lambda datagram, key=key, counter=bytes(8): datagram + counter + hmac.digest(key, datagram + counter, "sha256")[:16]
    row = lambda frame: struct.pack(">4H", frame + 1, 300 + frame, 7, 0)

    def show(start, count, version=1, kind=7, session=session, seats=(1, 6), length=None):
        body = struct.pack(">IH", start, count) + b"".join(map(row, range(start, start + count)))
        return b"C8" + bytes([version, kind]) + session + bytes(seats) + struct.pack(">HII", len(body) if length is None else length, 3, 9) + body
    wrong = [b"", bytes(60), show(0, 2), sealed(show(0, 2), SECRET), sealed(show(0, 2))[:-1], sealed(show(0, 2)) + b"\0",
             sealed(show(0, 2, version=2)), sealed(show(0, 2, kind=8)), sealed(show(0, 2, session=bytes(8))),
             sealed(show(0, 2, seats=(2, 6))), sealed(show(0, 2, seats=(1, 5))), sealed(show(0, 2, length=21)), sealed(show(0, 17)),
             sealed(show(0, 2)[:-1]), sealed(b"X" + show(0, 2)[1:])]
    good = [(show(3, 1), 0), (show(0, 2), 2), (show(0, 2), 2), (show(1, 3), 4), (show(6, 2), 4), (show(4, 16), 20), (show(0, 0), 20),
            (show(20, 9), 24)]
    said = bench.told(f"""
        const L = await import('/link.mjs'), {{ Spectator }} = await import('/watching.mjs'), bytes = it => L.unspell(it);
        const rules = L.rulesOf(new Uint8Array(await (await fetch('/trails.game')).arrayBuffer()));
        const it = new Spectator(6, {{ ...rules, frames: 24 }}, bytes('{spelt(session)}'), bytes('{spelt(SECRET)}'));
        const wrong = {json.dumps([spelt(packet) for packet in wrong])}.map(packet => it.take(bytes(packet)));
        it.counter = 9n;
        const seen = L.hex(it.seen());
        const good = {json.dumps([spelt(sealed(packet)) for packet, _ in good])}.map(packet => [it.take(bytes(packet)), it.rows.length]);
        return {{ wrong, seen, good, last: L.hex(it.seen()), rows: it.rows }};""")
    told = lambda count: b"C8\x01\x08" + session + bytes([6, 1]) + struct.pack(">HIII", 4, 0, 0, count)
    seen = lambda count, counter: sealed(told(count), counter=struct.pack(">Q", counter))
    check("wrong packets", said["wrong"] == [False] * len(wrong), said["wrong"])
    check("what it takes", said["good"] == [[True, count] for _, count in good], said["good"])
    check("its rows", said["rows"] == [list(struct.unpack(">4H", row(frame))) for frame in range(24)], said["rows"])
    check("what it says", (said["seen"], said["last"]) == (seen(0, 9).hex(), seen(24, 10).hex()), said)


def memory(bench):
    """web/page.c gives blocks that do not overlap, and takes them back; a journal's file fails where JavaScript says so."""
    said = bench.told("""
        const { load } = await import('/c8.mjs'), c8 = await load(await (await fetch('/c8.wasm')).arrayBuffer());
        const x = c8.exports, before = x.page_blocks();
        const live = new Map(), chance = n => Math.floor(Math.random() * n);
        const give = at => { live.delete(at); x.page_give(BigInt(at)); };
        for (let it = 0; it < 5000; it++) {
            if (live.size > 50 || (live.size && chance(3) === 0)) { give([...live.keys()][chance(live.size)]); continue; }
            const size = chance(30) ? chance(4000) : chance(2000000), at = c8.take(size);
            if (at % 16) return 'not aligned';
            for (const [other, length] of live) if (other < at + size && at < other + length) return 'two blocks overlap';
            c8.bytes.fill(chance(256), at, at + size);
            live.set(at, size);
        }
        [...live.keys()].forEach(give);
        if (x.page_take(1n << 45n) !== 0n) return 'too much memory';
        const text = new Uint8Array(await (await fetch('/rally.game')).arrayBuffer()), fails = () => { throw Error(); };
        let closed = 0, why = 0;
        const file = { read: fails, write: fails, flush: fails, getSize: () => 0, close: () => closed++ };
        try { c8.openJournal(text, 1, 1n, 0, file); } catch (refusal) { why = refusal.number; }
        return x.page_blocks() === before ? `${why}, closed ${closed}` : 'blocks are left';""")
    check("memory and files", said == "1301, closed 1", said)


def paints(bench):
    """A canvas shows each screen, whatever it showed before, in the colors of the page."""
    wrong = bench.told("""
        const { Picture } = await import('/picture.mjs'), canvas = new OffscreenCanvas(64, 32), picture = new Picture(canvas), wrong = [];
        const colors = [{ dark: 0xffffffff, lit: 0xff000000 }, { dark: 0xff332211, lit: 0xffddeeff }], chance = n => Math.floor(n * Math.random());
        picture.become(colors[0]);
        for (let it = 0; it < 400; it++) {
            const screen = picture.screen.slice();
            for (let count = it % 4; count > 0; count--) screen[chance(256)] ^= 1 << chance(8);
            picture.screen = screen;
            if (it % 50 === 49) picture.become(colors[it % 100 === 49 ? 1 : 0]);
            else picture.paint();
            const points = new Uint32Array(canvas.getContext('2d').getImageData(0, 0, 64, 32).data.buffer), { dark, lit } = picture.colors;
            if (points.some((point, at) => point !== (screen[at >> 3] >> (7 - at % 8) & 1 ? lit : dark))) wrong.push(it);
        }
        return wrong;""")
    check("each screen is shown", wrong == [], wrong)


def wrong(bench):
    """What the page says where it cannot begin."""
    bench.next_room()
    text = {"#abc": "This link is damaged.", f"#1.{spelt(SECRET)}.2.nothing": "This link is for a game that this server does not have.",
            f"#{spelt(bytes([1, 2]) + bytes(8) + SECRET + b'players 9')}": "This match cannot begin.",
            f"#1.{spelt(SECRET)}.3.rally": "This match cannot begin."}
    for link, sentence in text.items():
        page = bench.browser.page(f"http://127.0.0.1:{bench.port}/{link}")
        says(page, "ended", sentence)
        page.close()
    one = bench.open(1)
    one.until("!!document.getElementById('who').textContent")
    again = bench.open(1)
    says(again, "then", "Another window")


def touch(bench):
    """Keys for fingers: those of the player's mask alone, and they move the paddle of the other page."""
    bench.next_room()
    one, two = bench.open(1, "paddles"), bench.open(2, "paddles", size=SIZES["phone"], touch=True)
    check("both play", is_playing(one) and is_playing(two))
    check("its keys", two.value("[...document.querySelectorAll('.key')].map(it => it.getAttribute('aria-label')).join()") == "up,down")
    check("they are large", two.value("[...document.querySelectorAll('.key')].every(it => it.clientWidth >= 44 && it.clientHeight >= 44)"))
    # the paddle of player 2 is in the last column
    row = PADDLE.format(63)
    before = one.value(row)
    two.touch(".key.up", True)
    time.sleep(1)
    check("the key is held", two.value("!!document.querySelector('.key.held')"))
    two.touch(".key.up", False)
    check("it is released", two.until("!document.querySelector('.key.held')"))
    check("the paddle moved", one.until(f"{row} !== {before}", 5), before, one.value(row))
    # a game that the server does not offer has the keys of the mask, as they lie on the keypad
    text = b"players 2\nipf 10\nframes 600\ndelay 0\nwindow 8\nseed 0\nmask1 0312\nmask2 8001\ncode 1200\n"
    link = spelt(bytes([1, 1]) + (5).to_bytes(8, "big") + SECRET + text)
    page = bench.browser.page(f"http://127.0.0.1:{bench.port}/#{link}", size=SIZES["phone"], touch=True)
    bench.shown.append(page)
    says(page, "who", "You are player 1 of 2.")
    keys = "[...document.querySelectorAll('.key')].map(it => [it.textContent, it.style.gridRow[0], it.style.gridColumn[0]].join(' ')).join()"
    check("the keys of a mask", page.value(keys) == "1 1 1,4 2 1,8 3 2,9 3 3", page.value(keys))


def pad(bench):
    """A game pad, which the page finds by itself: here an object in its place. This browser cannot give a canvas away, so the page paints the
    picture. And no WebAssembly."""
    bench.next_room()
    page = bench.browser.page("about:blank")
    bench.shown.append(page)
    buttons = "Array.from({ length: 17 }, (_, it) => ({ pressed: it === (globalThis.pushed ?? 99) }))"
    pads = f"[null, {{ axes: [0, globalThis.stick ?? 0], buttons: {buttons} }}]"
    page.call("Page.addScriptToEvaluateOnNewDocument", source=f"navigator.getGamepads = () => {pads};")
    page.call("Page.addScriptToEvaluateOnNewDocument", source="delete HTMLCanvasElement.prototype.transferControlToOffscreen;")
    page.go(f"http://127.0.0.1:{bench.port}/")
    page.until("document.querySelectorAll('#games li').length === 3", 10)
    page.value("document.querySelectorAll('#games li')[1].querySelectorAll('button')[1].click()")
    says(page, "state", "Playing here.")
    row = PADDLE.format(0)
    for what, reverse in (("stick = 1", "stick = 0"), ("pushed = 12", "pushed = 99")):
        before = page.value(row)
        page.value(f"globalThis.{what}")
        check(f"{what} moves the paddle", page.until(f"{row} !== {before}", 5), before, page.value(row))
        page.value(f"globalThis.{reverse}")
    page.call("Page.addScriptToEvaluateOnNewDocument", source="delete globalThis.WebAssembly;")
    page.go(f"http://127.0.0.1:{bench.port}/?none")
    says(page, "ended", "This browser has no WebAssembly.")


def here(bench):
    """The list of games, and both players at one keyboard; by keys alone."""
    page = bench.browser.page(f"http://127.0.0.1:{bench.port}/")
    bench.shown.append(page)
    check("three games", page.until("document.querySelectorAll('#games li').length === 3", 10))
    shown = "[...document.querySelectorAll('button, a, input')].filter(it => it.offsetParent)"
    check("all controls have names", page.value(f"{shown}.every(it => (it.getAttribute('aria-label') ?? it.textContent).trim() !== '')"))
    check("they are large enough", page.value(f"{shown}.every(it => it.offsetHeight >= 44 && it.offsetWidth >= 44)"))
    for code in ("Tab", "Tab"):
        for is_down in (True, False):
            page.call("Input.dispatchKeyEvent", type="keyDown" if is_down else "keyUp", code=code, key=code, windowsVirtualKeyCode=9)
    focus = page.value("document.activeElement.textContent")
    check("Tab goes to the buttons", focus == "Play here", focus)
    for kind, more in (("keyDown", {"text": "\r"}), ("keyUp", {})):
        page.call("Input.dispatchKeyEvent", type=kind, code="Enter", key="Enter", windowsVirtualKeyCode=13, **more)
    says(page, "who", "All players are here.")
    check("the game ends", bench.play({1: page}))
    check("it shows the result", page.text("report").startswith(f"frames {FRAMES}\n"))
    page.click("again")
    says(page, "state", "Playing here.")
    check("the end is gone", page.value("document.getElementById('end').hidden"))


# the most bytes of the file of rollbacks, which is sent whole
MOST_ROLLBACK = 220_000


def rollback(bench):
    """The file of rollbacks: the network is as its sliders say; each player dies and comes back; and both reports are equal."""
    page = bench.browser.page(f"file://{ROLLBACK}", size=SIZES["laptop"])
    bench.shown.append(page)
    said = "document.querySelectorAll('.said')"
    begun = page.until(f"{said}.length === 2 && /Frame (\\d\\d\\d)/.test({said}[0].textContent)", 20)
    check("both play", begun, page.value(f"{said}[0]?.textContent"))
    # how many frames are not confirmed, at most, in a while
    ahead = """(async () => {
        let most = 0;
        for (const end = performance.now() + 700; performance.now() < end; await new Promise(requestAnimationFrame)) {
            const [ticked, confirmed] = document.querySelector('.said').textContent.match(/\\d+/g).map(Number);
            most = Math.max(most, ticked - confirmed);
        }
        return most; })()"""

    def slide(**values):
        for name, value in values.items():
            page.value(f"document.getElementById('{name}').value = {value}; document.getElementById('{name}').oninput()")
        return [page.text(f"{it}-is") for it in values]
    shown = slide(delay=0, jitter=0, loss=0)
    time.sleep(0.5)
    near = page.value(ahead)
    shown += slide(delay=300)
    time.sleep(0.7)
    far = page.value(ahead)
    check("the sliders", near + 3 < far and shown == ["0 ms", "\u00b1 0 ms", "0 %", "300 ms"], near, far, shown)
    slide(delay=100, jitter=40, loss=10)
    for place in (1, 0):
        button = f"document.querySelectorAll('.player button')[{place}]"
        page.value(f"{button}.click()")
        time.sleep(0.7)
        page.value(f"{button}.click()")
        own = f"{said}[{place}].textContent"
        check("it comes back", page.until(f"{own}.includes('Deaths: 1.') && {own}.includes(': plays')", 10), page.value(own))
    page.value("document.getElementById('finish').click()")
    equal = page.until("document.getElementById('verdict').textContent.startsWith('Both reports are equal')", 20)
    check("the reports are equal", equal, page.text("verdict"))
    older = page_with(bench, "delete globalThis.DecompressionStream", f"file://{ROLLBACK}")
    says(older, "verdict", "This page needs a newer browser")
    size = os.path.getsize(ROLLBACK)
    check("the file is small", size < MOST_ROLLBACK, size)
    print(f"  {page.text('verdict')} {size} bytes")


def replay_page(bench):
    """The page of `c8play replay`, as tools/page --replay makes its parts, with rows and pictures that are made here: their path, the frames,
    and the pictures."""
    frames, chance, now, pictures, changes = 200, random.Random(3), bytearray(256), [], []
    for _ in range(frames):
        pictures.append(bytes(now))
        some = {chance.randrange(256): chance.randrange(1, 256) for _ in range(chance.randrange(4))}
        for place, bits in some.items():
            now[place] ^= bits
        changes.append("".join(f"{place:02x}{bits:02x}" for place, bits in some.items()) + ",")
    keys = "".join(f"{1 << frame % 16:04x}{0x8000 if frame > 99 else 0:04x}0000" for frame in range(frames))
    data = ["3", "3 150\n", keys, "".join(changes)]
    path, parts = f"{bench.folder}/replay.html", bench.page.replay_parts()
    bench.page.write(path, "".join(f"{part}{it}" for part, it in zip(parts, [*data, ""])))
    return path, frames, [*pictures, bytes(now)]


def replay(bench):
    """It shows each picture, forward and back, the keys that are held, and who was dropped."""
    path, frames, pictures = replay_page(bench)
    page = bench.browser.page(f"file://{path}", size=SIZES["laptop"])
    bench.shown.append(page)
    page.until("document.readyState === 'complete' && part('where').textContent !== ''", 5)
    lit = """(() => {
        const points = part('screen').getContext('2d').getImageData(0, 0, 64, 32).data, at = it => points[4 * it] === (picture.colors.lit & 255);
        return [...Array(256).keys()].map(place => [...Array(8).keys()].reduce((sum, bit) => 2 * sum + at(8 * place + bit), 0)).join(); })()"""
    check("it begins at the end", page.text("where") == f"{frames}/{frames}", page.text("where"))
    for frame in (31, 2, frames, 0, 150):
        page.value(f"part('seek').value = {frame}; part('seek').oninput()")
        check(f"picture {frame}", page.value(lit) == ",".join(map(str, pictures[frame])))
        check(f"where {frame}", page.text("where") == f"{frame}/{frames}", page.text("where"))
    held = lambda player: page.value(f"[...document.querySelectorAll('#pad{player} .held')].map(it => it.textContent).join()")
    check("the keys that are held", (held(1), held(2), held(3)) == ("5", "f", ""), held(1), held(2), held(3))
    check("who was dropped", page.value("part('name3').className + part('name1').className") == "dropped" and page.text("marks") == "\u25b2 3")
    for key, where in ((".", 151), ("ArrowLeft", 91), ("5", 100), ("End", frames), ("Home", 0), ("End", frames), ("0", 0)):
        page.value(f"document.body.dispatchEvent(new KeyboardEvent('keydown', {{ key: '{key}', bubbles: true }}))")
        check(f"the key {key}", page.text("where") == f"{where}/{frames}", page.text("where"))
    page.click("play")
    check("it plays", page.until(f"part('where').textContent === '{frames}/{frames}' && part('play').textContent === 'Play'", 10), page.text("where"))


def types(_):
    """The types in the comments of all modules, where TypeScript is installed (Debian's node-typescript); and those of these tests, by mypy."""
    script = ["tsc", "--noEmit", "--allowJs", "--checkJs", "--strict", "--target", "es2022", "--module", "es2022", "--moduleResolution", "node",
              "--lib", "es2022,dom,dom.iterable", *glob.glob(f"{TOP}/web/*.mjs")]
    python = ["mypy", "--check-untyped-defs", f"--cache-dir={os.devnull}", *glob.glob(f"{TOP}/web/testing/*.py")]
    for words in (script, python):
        if not shutil.which(words[0]):
            print(f"  no {words[0]}: skipped")
            continue
        ran = subprocess.run(words, capture_output=True, text=True, check=False)
        check("types", ran.returncode == 0, ran.stdout)
