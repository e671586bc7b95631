"""What a person does at the page: keys, sound, buttons, and what a screen reader says; and what the page does with a relay's answers. Scripts
that run before the page's own note what it asks of the browser."""
import json
import os
import subprocess
import time

from bench import SECRET, check, is_playing, page_with, says, spelt
from programs import program_of

# the keys that the page tells its worker
TOLD = """const post = Worker.prototype.postMessage;
globalThis.told = [];
Worker.prototype.postMessage = function (it, ...more) { if (it.is === 'keys') told.push(it.keys); return post.call(this, it, ...more); };"""
# how loud it becomes
LOUD = "globalThis.loud = []; AudioParam.prototype.setTargetAtTime = it => { loud.push(it); };"
# what it copies, and what it saves
TAKEN = """Object.defineProperty(navigator, 'clipboard', { value: { writeText: async it => { globalThis.copied = it; } } });
URL.createObjectURL = it => { globalThis.saved = it; return '#'; };
const click = HTMLElement.prototype.click;
HTMLAnchorElement.prototype.click = function () { if (this.download) globalThis.named = this.download; else click.call(this); };"""
# two players of whom the first has nothing to do; its machine sounds without end, or never
GAME = "players 2\nipf 10\nframes 600\ndelay 0\nwindow 8\nseed 0\nmask1 0002\nmask2 1000\ncode {}\n"
SOUNDS, IS_SILENT = "60fff0181200", "1200"
CONTROL = 2


def keys(bench):
    """Keys by their places, and arrows as the game uses them; none with control; and none is held once the window has lost its focus."""
    bench.next_room()
    page = page_with(bench, TOLD, bench.link(2))
    says(page, "who", "You are player 2 of 2.")
    held = lambda: page.value("told.at(-1) ?? 0")
    for code, key in {"Digit4": 12, "KeyR": 13, "KeyF": 14, "KeyX": 0, "KeyV": 15, "ArrowUp": 12, "ArrowDown": 13, "Space": 14, "ArrowLeft": 7}.items():
        page.key(code, True)
        check(f"{code} is a key", held() == 1 << key, held())
        page.key(code, False)
        check(f"{code} is released", held() == 0, held())
    page.key("Digit4", True)
    page.key("KeyR", True)
    check("two keys", held() == 0x3000, held())
    page.key("Digit4", False)
    check("the other one", held() == 0x2000, held())
    page.value("dispatchEvent(new Event('blur'))")
    check("no key without the focus", held() == 0, held())
    page.call("Input.dispatchKeyEvent", type="rawKeyDown", code="KeyR", key="r", modifiers=CONTROL)
    check("no key with control", held() == 0, held())
    page.key("KeyP", True)
    check("no key of the keypad", held() == 0, held())


def sounds(bench):
    """It sounds once a person has asked for it, as long as the machine does, and is silent otherwise. And a screen reader hears each state."""
    bench.next_room()
    link = lambda code: spelt(bytes([1, 1]) + bench.room.to_bytes(8, "big") + SECRET + GAME.format(code).encode())
    page = page_with(bench, LOUD, f"http://127.0.0.1:{bench.port}/#{link(SOUNDS)}")
    says(page, "state", "Waiting for player 2 to open the link.")
    check("a screen reader hears it", page.text("spoken") == page.text("state"), page.text("spoken"))
    time.sleep(0.3)
    check("no sound at first", page.value("loud.length") == 0 and page.text("sound") == "Sound off", page.value("loud.join()"))
    page.click("sound")
    check("it sounds", page.until("loud.at(-1) > 0", 5), page.value("loud.join()"))
    check("the button says so", page.text("sound") == "Sound on" and page.value("document.getElementById('sound').ariaPressed") == "true")
    page.click("sound")
    check("it is silent again", page.until("loud.at(-1) === 0", 5), page.value("loud.join()"))
    page.click("sound")
    check("it sounds again", page.until("loud.at(-1) > 0", 5), page.value("loud.join()"))
    page.click("leave")
    says(page, "ended", "You left the match.")
    check("it is silent at the end", page.value("loud.at(-1)") == 0, page.value("loud.join()"))
    check("a screen reader hears the end", page.text("spoken").startswith("You left the match."), page.text("spoken"))
    bench.next_room()
    page = page_with(bench, LOUD, f"http://127.0.0.1:{bench.port}/#{link(IS_SILENT)}")
    says(page, "state", "Waiting for player 2 to open the link.")
    time.sleep(0.3)
    check("the sound is still on, and the machine silent", (page.text("sound"), page.value("loud.length")) == ("Sound on", 0), page.text("sound"))
    page.click("sound")


def buttons(bench):
    """A link is copied, the match fills the screen, and the journal that is saved gives the report again."""
    bench.next_room()
    one = page_with(bench, TAKEN, bench.link(1))
    says(one, "state", "Waiting for player 2 to open the link.")
    one.value("document.querySelector('#links button').click()")
    check("the link is copied", one.until("document.querySelector('#links button').textContent === 'Copied'", 5))
    check("it is that of player 2", one.value("copied") == bench.link(2), one.value("copied"))
    two = bench.open(2)
    check("both play", is_playing(one) and is_playing(two))
    one.click("full")
    check("the match fills the screen", one.until("document.fullscreenElement?.id === 'match'", 5))
    check("the match ends", bench.play({1: one, 2: two}))
    check("the screen is given back", one.until("!document.fullscreenElement", 5))
    bench.equal("with buttons", one, two)
    one.click("save")
    check("the journal is saved", one.until("!!globalThis.named", 5))
    check("its name", one.value("named") == f"rally.{bench.room}.1.journal", one.value("named"))
    journal = bytes.fromhex(one.value("(async () => Array.from(new Uint8Array(await saved.arrayBuffer()), it => it.toString(16).padStart(2, '0')).join(''))()"))
    program, _ = program_of(bench)
    if not program or not program.endswith("c8play"):
        return
    path = f"{bench.folder}/saved.journal"
    with open(path, "wb") as it:
        it.write(journal)
    ran = subprocess.run([program, "replay", f"{bench.pages}/rally.game", path], capture_output=True, text=True, check=False)
    check("a program plays it again", ran.stdout == one.text("report"), ran.stdout[:60], ran.stderr)
    os.remove(path)


RELAY = """
    const { Relay } = await import('/relay.mjs'), told = [], heard = [], sockets = [], seen = [];
    globalThis.WebSocket = class {
        static OPEN = 1;
        readyState = 1;
        bufferedAmount = 0;
        sent = [];
        constructor(url) { this.url = url; sockets.push(this); }
        send(it) { this.sent.push([...it]); }
        close() {}
    };
    const name = Uint8Array.from({ length: 16 }, (_, it) => it), other = name.map(it => it + 100);
    const places = [{ seat: 1, lane: 0, name }, { seat: 1, lane: 1, name: other }];
    const relay = new Relay('ws://relay', places, it => heard.push([...it]), it => told.push(it)), [first] = sockets;
    clearInterval(relay.clock);
    const note = () => { seen.push([sockets.at(-1).sent.splice(0).map(it => [it[5], it.length, it[8], it[24]].join(' ')), told.splice(0)].map(it => it.join())); };
    const answer = (status, cookie = 0, length = 24) =>
        sockets.at(-1).onmessage({ data: Uint8Array.of(0x43, 0x52, 1, status, 0, 0, 0, 0, ...Array(length - 8).fill(cookie)).buffer });
    first.onopen();
    note();
    answer(2, 9), answer(2, 8);
    note();
    answer(3, 9), answer(4, 9);
    note();
    for (let it = 0; it < 4; it++) relay.tick(), answer(4, 9), answer(3, 9);
    note();
    relay.tick(), answer(3), answer(3), answer(3, 9, 25), answer(3, 9, 23);
    note();
    relay.tick(), answer(2, 7), answer(2, 6), answer(3), answer(3);
    note();
    relay.tick(), answer(5), answer(5);
    note();
    first.onmessage({ data: Uint8Array.of(0x43, 0x38, 1).buffer }), first.onmessage({ data: 'text' });
    relay.send(Uint8Array.of(1, 2, 3)), first.bufferedAmount = 65536, relay.send(Uint8Array.of(4));
    const carried = [heard.join(), first.sent.splice(0).join()];
    first.bufferedAmount = 0;
    for (let it = 0; it < 5; it++) relay.tick();
    note();
    relay.tick();
    seen.push(['', told.splice(0).join()]);
    await new Promise(done => setTimeout(done, 400));
    sockets.at(-1).onopen();
    note();
    relay.close();
    return { seen, carried, count: sockets.length, urls: sockets.map(it => it.url).join() };
"""


def answers(bench):
    """The page says JOINs for both of its seats, and does with each answer of a relay what PROTOCOL says. The relay is one of this test."""
    came = bench.told(RELAY)
    joins = lambda cookie: f"0 40 0 {cookie},1 40 100 {cookie}"
    several = lambda count, cookie=9: ",".join([joins(cookie)] * count)
    wanted = [
        # both seats are asked for; PROVE is answered once, with its cookie; JOINED counts for the own seat
        [joins(0), ""], [joins(9), ""], ["", "joined"],
        # four times BUSY; one JOINED; then FULL. What is no answer changes nothing
        [several(4), "busy"], [several(1), "joined"], [f"{joins(9)},{joins(7)}", ""], [joins(7), "full"],
        # five seconds without an answer; then another connection, which begins again
        [several(5, 7), ""], ["", "away"], [joins(7), ""]]
    check("what the page says to a relay", came["seen"] == wanted, came, wanted)
    check("what it carries", came["carried"] == ["67,56,1", "1,2,3"], came["carried"])
    check("how often it connects", (came["count"], came["urls"]) == (2, "ws://relay,ws://relay"), came)


PACE = """
    const { Beat, Match } = await import('/match.mjs'), beat = new Beat(100), due = [], ticks = [];
    for (let it = 0; it < 4; it++) due.push(beat.due()), beat.begin(beat.due());
    // five frames late: they are made up for; six: they are not
    const late = [];
    for (const behind of [5, 5.5]) {
        const other = new Beat(0);
        other.begin(behind * 1000 / 60);
        late.push(other.due());
    }
    const nothing = { rows: new Uint16Array(0), from: 0 };
    const session = {
        tick() { ticks.push(frame); return 0; }, turn: () => 0, packets: () => [], step: () => nothing, confirmed: () => 0, ticked: () => 0,
        player: () => ({ held: 0, dropped: false, linked: true, silent: 0 }), wait() { asked.push(frame); return frame === 3 ? 1 : 0; },
    };
    let frame = 0;
    const rules = { window: 8, frames: 9999, masks: [1, 2] }, match = new Match(session, rules, 1, () => {});
    const asked = [];
    for (; frame < 6; frame++) match.frame(0);
    match.frame(null);
    return { due, late, ticks, asked };
"""


def pace(bench):
    """When frames are due; and that a player leaves out the ticks that its session says."""
    came = bench.told(PACE)
    frame = 1000 / 60
    near = lambda one, other: len(one) == len(other) and all(abs(a - b) < 0.001 for a, b in zip(one, other))
    check("when frames are due", near(came["due"], [100 + it * frame for it in range(4)]), came)
    # after the late one the clock begins again where it was begun
    check("frames that are late", near(came["late"], [frame, 6.5 * frame]), came["late"])
    check("in which frames it asks", came["asked"] == [0, 1, 2, 3, 4, 5], came["asked"])
    check("which ticks are left out, and none without keys", came["ticks"] == [0, 1, 2, 4, 5], came["ticks"])


def draws(bench):
    """Each invitation has a room and a secret of its own."""
    page = bench.browser.page(f"http://127.0.0.1:{bench.port}/")
    bench.shown.append(page)
    drawn = []
    for it in range(3):
        page.go(f"http://127.0.0.1:{bench.port}/?{it}")
        page.until("document.querySelectorAll('#games li').length === 3", 10)
        page.value("document.querySelectorAll('#games li')[0].querySelectorAll('button')[0].click()")
        says(page, "who", "You are player 1 of 2.")
        drawn.append(page.value("location.hash.slice(1).split('.')"))
    rooms, secrets = ({it[place] for it in drawn} for place in (0, 1))
    check("rooms and secrets are new each time", len(rooms) == len(secrets) == 3 and all(len(it) == 43 for it in secrets), drawn)


TESTS = [keys, sounds, buttons, answers, pace, draws]
