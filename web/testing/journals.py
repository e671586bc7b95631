"""How a page keeps a journal in a file: what a crash leaves of it, at any moment; and a file that cannot be opened."""
import json

from bench import check

# A match of which player 1 keeps the journal, on a disk that notes each write and each wait (null), and begins with a part of a journal. A
# wait takes so many milliseconds of a clock. The page's keeper runs in this page. Then the journal is opened again from what a crash may
# leave: all that was waited for, and of the writes after it any, whole or in part.
MATCH = """
    const C = await import('/c8.mjs'), L = await import('/link.mjs'), {{ Match }} = await import('/match.mjs');
    const {{ openJournal }} = await import('/journal.mjs');
    const get = async it => new Uint8Array(await (await fetch(it)).arrayBuffer()), c8 = await C.load(await get('/c8.wasm'));
    const text = await get('/rally.game'), rules = L.rulesOf(text), FRAMES = 24, RECORDS = 20;
    const fileOf = bytes => {{
        const it = {{
            bytes, close() {{}}, flush() {{}}, getSize: () => it.bytes.length,
            read(to, {{ at }}) {{ const part = it.bytes.subarray(at, at + to.length); to.set(part); return part.length; }},
            write(from, {{ at }}) {{ it.bytes = written(it.bytes, {{ at, bytes: from }}); return from.length; }},
        }};
        return it;
    }};
    const written = (bytes, {{ at, bytes: from }}) => {{
        const all = new Uint8Array(Math.max(bytes.length, at + from.length));
        all.set(bytes), all.set(from, at);
        return all;
    }};
    // two players in this page; after each frame `then` may wait
    const before = fileOf(new Uint8Array(0)), other = fileOf(new Uint8Array(0));
    const play = async (file, then) => {{
        const all = [file, other].map((it, place) =>
            new Match(c8.openJournal(text, place + 1, 1n, 0, it), rules, place + 1, (to, bytes) => all[to - 1].deliver(bytes)));
        for (let frame = 0; frame < FRAMES; frame++) {{
            for (const it of all) it.frame(frame);
            await then(frame, all[0].session);
        }}
        for (const it of all) it.session.close();
    }};
    if ({least} >= 0) await play(before, () => {{}});
    const start = before.bytes.slice(0, {cut});

    // a disk
    const calls = [], saves = [], disk = fileOf(start);
    let clock = 0, opened = 0, isOpen = false;
    performance.now = () => clock;
    const write = (bytes, options) => {{ calls.push({{ at: options.at, bytes: bytes.slice() }}); return disk.write(bytes, options); }};
    const handle = {{ ...disk, write, flush() {{ calls.push(null), clock += {wait}; }}, close() {{ isOpen = false; }} }};
    const createSyncAccessHandle = async () => {{
        if (isOpen) throw new DOMException('', 'NoModificationAllowedError');
        opened++, isOpen = true;
        return handle;
    }};
    navigator.storage.getDirectory = async () => ({{ async *values() {{}}, getFileHandle: async () => ({{ createSyncAccessHandle }}) }});
    // the page's keeper
    let worker;
    globalThis.Worker = class {{
        constructor() {{ worker = this; }}
        postMessage(data) {{ onKeeper({{ data: structuredClone(data) }}); }}
    }};
    globalThis.postMessage = data => worker.onmessage({{ data }});
    await import('/keeper.mjs');
    const onKeeper = globalThis.onmessage;
    globalThis.onmessage = null;
    const journal = await openJournal('x');
    // some saves have one record, others those of several frames
    await play(journal, async (frame, session) => {{
        if (frame % 7 > 3) return;
        const count = calls.length;
        await journal.saved();
        const waits = calls.slice(count).filter(it => !it).length;
        saves.push({{ calls: calls.length, ticked: session.ticked(), held: session.player(2).held, waits }});
    }});

    // what a crash leaves
    const wrong = [];
    let crashes = 0;
    const judge = (bytes, least, how) => {{
        crashes++;
        try {{
            const it = c8.openJournal(text, 1, 1n, 0, fileOf(bytes)), ticked = it.ticked(), held = it.player(2).held;
            if (ticked < least.ticked || held < least.held) wrong.push([how, ticked, held, least]);
            it.close();
        }} catch (error) {{
            wrong.push([how, error.message]);
        }}
    }};
    const parts = ({{ at, bytes }}) => [0, 1, bytes.length >> 1, bytes.length].flatMap(size =>
        [{{ at, bytes: bytes.slice(0, size) }}, {{ at: at + size, bytes: bytes.slice(size) }}]);
    let safe = start, open = [];
    for (let count = 0; count <= calls.length; count++) {{
        const least = saves.findLast(it => it.calls <= count) ?? {{ ticked: {least}, held: {least} }};
        for (let some = 0; some < 1 << open.length; some++) {{
            const whole = open.filter((_, it) => some >> it & 1);
            judge(whole.reduce(written, safe), least, [count, some]);
            whole.forEach((torn, place) => {{
                for (const it of parts(torn)) judge(whole.with(place, it).reduce(written, safe), least, [count, some, it.at, it.bytes.length]);
            }});
        }}
        const call = calls[count];
        if (call) open.push(call);
        else safe = open.reduce(written, safe), open = [];
    }}
    return {{ wrong: wrong.slice(0, 3), crashes, opened, isOpen, waits: saves.map(it => it.waits),
        first: [calls[0].at, ...calls[0].bytes.slice(0, 2)],
        longest: Math.max(...calls.map(it => it?.bytes.length ?? 0)) }};
"""
SLOT = 144
# Where the journal is cut with which the page begins, and how many inputs of each player it has then at least; and whether the opening has to
# close the gate there. The slot there has no gate, or an open one, or with it a part of a body. The first journal is new, the last one whole.
CUTS = [("0", -1, True), (f"{SLOT} * RECORDS", 6, True), (f"{SLOT} * RECORDS + 1", 6, True), (f"{SLOT} * RECORDS + 70", 6, True),
        ("before.bytes.length", 22, False)]
# How long a disk is waited for, in milliseconds, and how often the file is opened: a keeper gets that of a slow disk.
FAST, SLOW = (4, 1), (20, 2)


def saves(bench):
    """A crash keeps what was saved before it, whatever reached the disk of what was written since then. And a save waits for the disk twice,
    however many records it has. Where the disk is slow, a keeper gets the file in the middle."""
    for cut, least, closes in CUTS:
        saves_on(bench, cut, least, closes, *FAST)
    saves_on(bench, *CUTS[0], *SLOW)


def saves_on(bench, cut, least, closes, wait, opened):
    came = bench.told(MATCH.format(cut=cut, least=least, wait=wait))
    check(f"crashes after a cut at {cut}", not came["wrong"] and came["crashes"] > 100, json.dumps(came["wrong"]), came["crashes"])
    check("a keeper has a slow file", (came["opened"], came["isOpen"]) == (opened, False), wait, came["opened"], came["isOpen"])
    first, *more = came["waits"]
    check("a save waits twice", first == 2 + closes and set(more) <= {0, 2} and sum(more) > 10, came["waits"])
    check("an opening closes the gate first", (came["first"][1:] == [0]) == closes, came["first"])
    check("a save has several records", came["longest"] > 3 * SLOT, came["longest"])


# What becomes of a journal whose file has some bytes, or is not there (-1), when its opening comes to this.
OPENINGS = """
    const { openJournal } = await import('/journal.mjs');
    let size = 0, way = '', passed = 0;
    performance.now = () => passed += 1000;
    const named = name => async () => { throw new DOMException('', name); };
    const ways = { fails: named('InvalidStateError'), 'is taken': named('NoModificationAllowedError'), 'is not offered': undefined };
    const getFileHandle = async () => {
        if (size < 0) throw new DOMException('', 'NotFoundError');
        return { getFile: async () => ({ size }), createSyncAccessHandle: ways[way] };
    };
    navigator.storage.getDirectory = async () => ({ async *values() {}, getFileHandle });
    const came = [];
    for ([size, way] of %s)
        came.push(await openJournal('begun').then(it => it ? 'kept' : 'none', error => [error.name, error.number].join(' ')));
    return came;
"""
BEGUN = [((200, "fails"), "Refusal 1301"), ((200, "is not offered"), "Refusal 1301"), ((1, "fails"), "Refusal 1301"),
         ((200, "is taken"), "Refusal 1303"), ((0, "fails"), "kept"), ((0, "is not offered"), "kept"), ((-1, "fails"), "kept")]


def begun(bench):
    """A journal that was begun in a file and cannot be opened now is refused. Where no file was begun, a database keeps it."""
    came = bench.told(OPENINGS % json.dumps([case for case, _ in BEGUN]))
    check("openings without a file", came == [wanted for _, wanted in BEGUN], came)


# A journal on a slow disk, which becomes a keeper's; and what becomes of the saves after that.
HANDED = """
    const { openJournal } = await import('/journal.mjs');
    let clock = 0, size = 0, worker;
    performance.now = () => clock;
    const handle = { getSize: () => size, read: () => 0, close() {}, flush() { clock += 10; },
        write(bytes, { at }) { size = Math.max(size, at + bytes.length); return bytes.length; } };
    const createSyncAccessHandle = async () => handle;
    navigator.storage.getDirectory = async () => ({ async *values() {}, getFileHandle: async () => ({ createSyncAccessHandle }) });
    globalThis.postMessage = data => worker.onmessage({ data });
    await import('/keeper.mjs');
    const onKeeper = globalThis.onmessage, ways = [
        data => onKeeper({ data: structuredClone(data) }),
        data => { size++; onKeeper({ data: structuredClone(data) }); },
        () => queueMicrotask(() => worker.onerror({}))];
    globalThis.onmessage = null;
    const came = [];
    for (const way of ways) {
        globalThis.Worker = class { constructor() { worker = this; } postMessage(data) { way(data); } };
        const journal = await openJournal('x'), begin = size;
        for (let slot = 0; slot < 10; slot++) {
            journal.write(new Uint8Array(144), { at: begin + 144 * slot + 1 });
            journal.write(Uint8Array.of(0xa5), { at: begin + 144 * slot });
            came.push(await journal.saved().then(() => '', error => error.message));
        }
    }
    return came;
"""


def handed(bench):
    """A keeper takes over after seven slow saves. If it cannot have the file, or another page has written to it, all later saves fail."""
    came = bench.told(HANDED)
    fails = lambda sentence: [""] * 7 + [sentence] * 3
    wanted = [""] * 10 + fails("Another window has opened this match.") + fails("The browser has no modules in workers.")
    check("saves of a keeper", came == wanted, came)
