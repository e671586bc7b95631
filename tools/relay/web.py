"""The web side of a relay: its pages, its WebSockets beside UDP, and all that it has to refuse."""
from __future__ import annotations

import os
import tempfile
import threading
import time

from relay.parts import (
    BINARY, CLOSE, FULL, JOINED, LAST, PATIENCE, PING, PONG, PROVE, QUIET, TEXT, Browser, Client, Player, Relay, answer_to, asking, check,
    datagram, eventually, frame, own_address, status_of, upgrade,
)

# the codes that say why a WebSocket is closed
NORMAL, PROTOCOL, UNSUPPORTED, INVALID, TOO_BIG = 1000, 1002, 1003, 1007, 1009
# how many seconds a client has for its head, how long it may say nothing, and how much later the relay may look
HURRY, SILENCE, LATE = 5, 30, 3
# the most connections at once; the most of a host, and its most seats
PLACES, CONNECTIONS, SHARE = 1024, 128, 64
# datagrams that a seat may send at once
BURST = 100
POLICY = "default-src 'self'; script-src 'self' 'wasm-unsafe-eval'"
PAGES = {
    "index.html": (b"<!doctype html><title>relay</title>", "text/html; charset=utf-8"),
    "play/index.html": (b"<p>play", "text/html; charset=utf-8"),
    "play/main.mjs": (b"export {}", "text/javascript; charset=utf-8"),
    "play/old.js": (b"1", "text/javascript; charset=utf-8"),
    "style.css": (b"p {}", "text/css; charset=utf-8"),
    "machine.wasm": (bytes(range(256)) * 4096, "application/wasm"),
    "logo.svg": (b"<svg/>", "image/svg+xml"),
    "logo.png": (b"\x89PNG", "image/png"),
    "list.json": (b"[]", "application/json"),
    "pong.game": (b"c8play game 1", "text/plain; charset=utf-8"),
    "pong.keys": (b"0000", "text/plain; charset=utf-8"),
    "empty.txt": (b"", "text/plain; charset=utf-8"),
}
HIDDEN = {"secret.key": b"no", ".hidden.html": b"no", ".git/index.html": b"no"}


def folder_of_pages(folder: str) -> None:
    for name, content in [*((name, page[0]) for name, page in PAGES.items()), *HIDDEN.items()]:
        path = os.path.join(folder, name)
        os.makedirs(os.path.dirname(path), exist_ok=True)
        with open(path, "wb") as file:
            file.write(content)
    os.symlink("/etc/hostname", os.path.join(folder, "link.txt"))


def serves_pages() -> None:
    """Files over HTTP, as they were at the start, and nothing else."""
    with tempfile.TemporaryDirectory() as folder:
        folder_of_pages(folder)
        relay = Relay("127.0.0.1:0", "--pages", folder)
    try:
        check("how many files it has", relay.first.endswith(f" rooms, with {len(PAGES)} files\n"), relay.first)
        for name, (content, kind) in PAGES.items():
            status, fields, body = answer_to(relay.port, f"GET /{name}?version=2 HTTP/1.1\r\nHost: relay\r\n\r\n".encode())
            check(f"the page {name}", (status, body, fields.get("content-type")) == (200, content, kind), status, fields)
            check(f"how {name} is served", (fields.get("content-length"), fields.get("content-security-policy"), fields.get("connection"))
                == (str(len(content)), POLICY, "close"), fields)
            tag = fields.get("etag", "")
            head = answer_to(relay.port, f"HEAD /{name} HTTP/1.1\r\nHost: relay\r\n\r\n".encode())
            check(f"the head of {name}", head == (200, fields, b""), head)
            for tags in (tag, f'"0", W/{tag}', "*"):
                again = answer_to(relay.port, f"GET /{name} HTTP/1.1\r\nHost: relay\r\nif-none-match: {tags}\r\n\r\n".encode())
                check(f"{name} has not changed", (again[0], again[1].get("etag"), again[2]) == (304, tag, b""), again)
            other = answer_to(relay.port, f'GET /{name} HTTP/1.1\r\nHost: relay\r\nIf-None-Match: "0"\r\n\r\n'.encode())
            check(f"{name} has changed", (other[0], other[2]) == (200, content), other[:2])
        for path, name in (("/", "index.html"), ("/play/", "play/index.html"), ("/?x", "index.html")):
            came = answer_to(relay.port, f"GET {path} HTTP/1.0\r\n\r\n".encode())
            check(f"the page {path}", (came[0], came[2]) == (200, PAGES[name][0]), came)
        for path in ("/none.html", "/play", "/index.html/", "/secret.key", "/.hidden.html", "/.git/", "/link.txt", "/../etc/passwd", "//",
            "*", "/relay2", "/relay/", "/relay/1x", "/relay/1/2"):
            came = answer_to(relay.port, f"GET {path} HTTP/1.1\r\nHost: relay\r\n\r\n".encode())
            check(f"no page {path}", (came[0], came[2]) == (404, b""), came)
    finally:
        relay.end()


def refuses_requests(relay: Relay) -> None:
    """What is no request for a page or for WebSocket, with the status that says so."""
    get = "GET / HTTP/1.1\r\n"
    for what, request, status in (
        ("another method", "POST / HTTP/1.1\r\nContent-Length: 3\r\n\r\nabc", 405),
        ("another method for the relay", "PUT /relay HTTP/1.1\r\n\r\n", 405),
        ("WebSocket that is not asked for", "GET /relay HTTP/1.1\r\nHost: relay\r\n\r\n", 426),
        ("a key that is none", upgrade().decode().replace("dGhl", "!!!!"), 426),
        ("another version of WebSocket", upgrade().decode().replace(": 13", ": 8"), 426),
        ("HTTP/1.0 for WebSocket", upgrade().decode().replace("HTTP/1.1", "HTTP/1.0"), 426),
        ("a long field", f"{get}X: {'a' * 9000}\r\n\r\n", 431),
        ("a long path", f"GET /{'a' * 9000} HTTP/1.1\r\n\r\n", 431),
        ("many fields", get + "X: y\r\n" * 65 + "\r\n", 431),
        ("no request", "\0\1\2\3\r\n\r\n", 400),
        ("another protocol", "GET / FTP/1.1\r\n\r\n", 400),
        ("a field without a name", f"{get}: y\r\n\r\n", 400),
    ):
        came = answer_to(relay.port, request.encode("latin-1"))
        check(f"refuses {what}", (came[0], came[2], came[1].get("connection", "")[-5:]) == (status, b"", "close"), came)
    check("which methods it has", answer_to(relay.port, b"POST / HTTP/1.1\r\n\r\n")[1].get("allow") == "get, head")
    check("which version it has", answer_to(relay.port, b"GET /relay HTTP/1.1\r\n\r\n")[1].get("sec-websocket-version") == "13")


def carries_both_ways(relay: Relay) -> None:
    """Two browsers and a player over UDP in one room."""
    web, other, player = Browser(relay.port), Browser(relay.port, "/relay/3?x"), Player(("127.0.0.1", relay.port))
    check("the relay upgrades", (web.is_open, other.is_open) == (True, True), web.head, other.head)
    joined = web.join(1), other.join(2), player.join(3)
    check("browsers and a player join", joined == (JOINED, JOINED, (PROVE, JOINED)), joined)
    web.tell(datagram(1, 2, 1))
    other.tell(datagram(2, 1, 2))
    check("browsers reach each other", (other.packet(), web.packet()) == (datagram(1, 2, 1), datagram(2, 1, 2)))
    web.tell(datagram(1, 3, 3))
    player.say(datagram(3, 2, 4))
    check("a browser and a player reach each other", (player.hear(), other.packet()) == (datagram(1, 3, 3), datagram(3, 2, 4)))
    longest = datagram(3, 1)[:24].ljust(198, b"z")
    player.say(longest)
    check("the longest datagram", web.packet() == longest)
    # one write with three frames, and one frame in pieces
    web.say(b"".join(frame(LAST | BINARY, datagram(1, 2, mark)) for mark in (5, 6, 7)))
    check("frames that come together", [other.packet() for _ in range(3)] == [datagram(1, 2, mark) for mark in (5, 6, 7)])
    for byte in frame(LAST | BINARY, datagram(1, 3, 8)):
        web.say(bytes([byte]))
    check("a frame that comes byte by byte", player.hear() == datagram(1, 3, 8))
    web.tell(b"are you there?", LAST | PING)
    web.tell(b"", LAST | PONG)
    check("a ping", web.told() == (LAST | PONG, b"are you there?"))
    web.tell(NORMAL.to_bytes(2, "big") + b"bye", LAST | CLOSE)
    check("a close", (web.told(), web.is_closed()) == ((LAST | CLOSE, NORMAL.to_bytes(2, "big") + b"bye"), True))
    late = Browser(relay.port)
    check("the seat of a connection that closed is free at once", late.join(1) == JOINED)
    late.close()
    time.sleep(QUIET)
    later = Browser(relay.port)
    check("the seat of a connection that broke is free at once", later.join(1) == JOINED)
    # a head and a frame in one write
    early = Client(relay.port)
    early.say(upgrade() + frame(LAST | BINARY, asking(4)))
    check("a JOIN that comes with the head", status_of(early.hear(1000, QUIET)[-24:]) == JOINED)
    for it in (other, later, early):
        it.close()


def refuses_frames(relay: Relay) -> None:
    """Frames that are no packets close the connection, with the code that says why, and free its seat."""
    packet = datagram(1, 2)
    for what, content, code in (
        ("a text", frame(LAST | TEXT, b"hello"), UNSUPPORTED),
        ("a text that is none", frame(LAST | TEXT, b"\xff"), INVALID),
        ("a message in fragments", frame(BINARY, packet[:30]) + frame(LAST, packet[30:]), UNSUPPORTED),
        ("the rest of a message that never began", frame(LAST, packet), PROTOCOL),
        ("a long message", frame(LAST | BINARY, bytes(200)), TOO_BIG),
        ("a very long message", frame(LAST | BINARY, bytes(100_000)), TOO_BIG),
        ("a length that is none", bytes([LAST | BINARY, 0xFF]) + b"\xff" * 8, PROTOCOL),
        ("a length in a longer form", bytes([LAST | BINARY, 0xFE, 0, 5]) + bytes(9), PROTOCOL),
        ("a frame without a mask", frame(LAST | BINARY, packet, masked=False), PROTOCOL),
        ("an unknown kind", frame(LAST | 3, packet), PROTOCOL),
        ("a reserved bit", frame(LAST | 0x40 | BINARY, packet), PROTOCOL),
        ("a long ping", frame(LAST | PING, bytes(126)), PROTOCOL),
        ("a ping in fragments", frame(PING, b""), UNSUPPORTED),
        ("a close of one byte", frame(LAST | CLOSE, b"\3"), PROTOCOL),
    ):
        web = Browser(relay.port)
        check(f"a seat before {what}", web.join(1) == JOINED)
        web.say(content)
        came = web.told()
        check(f"refuses {what}", (came[0], int.from_bytes(came[1][:2], "big")) == (LAST | CLOSE, code), came)
        check(f"closes after {what}", web.is_closed())
        web.close()
    # messages that are no packets of a relay lead to nothing
    web = Browser(relay.port)
    for content in (b"", b"C", bytes(199), asking(7), asking(1)[:39]):
        web.tell(content)
    check("a seat after messages that are no packets", (web.packet(QUIET), web.join(1)) == (b"", JOINED))
    web.close()


def goes_on_beside_a_deaf_member(relay: Relay) -> None:
    """A member that reads nothing loses datagrams, and nobody waits for it."""
    room = b"a deaf one's room"[:16]
    deaf = Browser(relay.port, room=2048)
    one, two = Player(("127.0.0.1", relay.port)), Browser(relay.port)
    crowd = {seat: Player(("127.0.0.1", relay.port)) for seat in (4, 5, 6)}
    joined = deaf.join(2, room), one.join(1, room), two.join(3, room), *(it.join(seat, room) for seat, it in crowd.items())
    check("a deaf member joins", joined == (JOINED, (PROVE, JOINED), JOINED, *[(PROVE, JOINED)] * 3), joined)
    began, said, lost, mark = time.monotonic(), "", 0, 0
    # the buffers of the system take some
    while not lost and time.monotonic() < began + PATIENCE:
        for _ in range(BURST):
            for seat, it in crowd.items():
                it.say(datagram(seat, 2)[:24].ljust(198, b"z"))
        deaf.tell(asking(2, room=room))
        two.tell(asking(3, room=room))
        check("an answer beside a deaf member", status_of(two.packet()) == JOINED)
        time.sleep(BURST / 1000)
        one.say(datagram(1, 3, mark))
        heard = two.packet()
        check("a datagram beside a deaf member", heard == datagram(1, 3, mark), mark, heard)
        mark += 1
        if mark % 8 == 0:
            said = relay.progress()
            lost = int(said.rsplit(" ", 1)[1])
    check("datagrams for a deaf member are lost", lost, mark, said)
    deaf.close()
    two.close()


def lets_nobody_wait(relay: Relay) -> None:
    """A connection that does not end its head, and one that says nothing, are closed; one that speaks is not."""
    begun = time.monotonic()
    silent, half, slow = Client(relay.port), Client(relay.port), Client(relay.port)
    half.say(b"GET / HTTP/1.1\r\nHost:")
    web, busy = Browser(relay.port), Browser(relay.port)
    check("a seat before silence", web.join(5) == JOINED)
    waits = {"a connection that says nothing": silent, "a head that does not end": half, "a head that comes slowly": slow}
    closed: dict[str, float] = {}
    while len(closed) < len(waits) and time.monotonic() < begun + HURRY + LATE + PATIENCE:
        try:
            slow.say(b"G")
        except ConnectionError:
            pass
        closed.update({what: time.monotonic() - begun for what, it in waits.items() if what not in closed and it.is_closed(0.1)})
    for what in waits:
        check(f"closes {what}", HURRY - 1 < closed.get(what, 0), closed)
    ends = 0.0
    while not ends and time.monotonic() < begun + SILENCE + LATE + PATIENCE:
        busy.tell(b"", LAST | PING)
        busy.told()
        if web.is_closed(1):
            ends = time.monotonic() - begun
    check("closes a WebSocket that says nothing", SILENCE - 1 < ends, ends)
    busy.tell(b"x", LAST | PING)
    check("keeps a WebSocket that speaks", busy.told() == (LAST | PONG, b"x"))
    busy.close()


def keeps_places_for_all(relay: Relay) -> None:
    """When all places are taken it closes who comes, and serves again when some leave."""
    crowd = [Client(relay.port) for _ in range(PLACES + 30)]
    check("a connection too many", eventually(lambda: sum(it.is_closed(0) for it in crowd) == 30, HURRY - 1))
    for it in crowd:
        it.close()
    check("a connection after a crowd", eventually(lambda: answer_to(relay.port, b"GET / HTTP/1.1\r\n\r\n")[0] == 404))


def limits_the_connections_of_a_host() -> None:
    """A host that is not this machine has its share of the connections, and gets a place when one of its own leaves."""
    host = own_address()
    if not host:
        print("relays: skipped: this machine has no address but the loopback's")
        return
    relay = Relay(f"{host}:0")
    try:
        crowd = [Client(relay.port, host=host) for _ in range(CONNECTIONS + 9)]
        kept = [False] * CONNECTIONS + [True] * 9
        check("the connections of a host", eventually(lambda: [it.is_closed(0) for it in crowd] == kept, HURRY - 1))
        crowd[0].close()
        check("a connection after one left", eventually(lambda: not Client(relay.port, host=host).is_closed(QUIET), HURRY - 1))
        for it in crowd:
            it.close()
        eventually(lambda: relay.files() < SHARE // 2, HURRY)
        webs = [At(relay.port, host, f"X-Real-IP: 192.0.2.{place}") for place in range(SHARE + 1)]
        joined = [web.join(1, bytes([place] * 16)) for place, web in enumerate(webs)]
        check("what a host says of itself changes nothing", joined == [JOINED] * SHARE + [FULL], joined)
    finally:
        relay.end()


class At(Browser):
    """A browser that comes to another address of this machine."""

    def __init__(self, port: int, host: str, *fields: str) -> None:
        self.other = host
        super().__init__(port, "/relay", *fields)

    def __post_init__(self) -> None:
        self.host = self.other
        super().__post_init__()


def has_as_many_rooms_as_it_says() -> None:
    """With --rooms 1 a second room waits until the first is empty."""
    relay = Relay("127.0.0.1:0", "--rooms", "1")
    try:
        one, two = Browser(relay.port), Browser(relay.port)
        joined = one.join(1, b"1" * 16), two.join(1, b"2" * 16)
        check("a room too many", joined == (JOINED, FULL), joined)
        one.close()
        check("a room after another", eventually(lambda: two.join(1, b"2" * 16) == JOINED, HURRY - 1))
    finally:
        relay.end()


def asks_both_in_turn(relay: Relay) -> None:
    """While many packets wait of a browser and of a player, each gets its turn."""
    room = b"a room for three"
    web, player, hears = Browser(relay.port), Player(("127.0.0.1", relay.port)), Browser(relay.port)
    joined = web.join(1, room), player.join(2, room), hears.join(3, room)
    check("three join", joined == (JOINED, (PROVE, JOINED), JOINED), joined)
    relay.paused()
    for _ in range(BURST):
        web.tell(datagram(1, 3))
        player.say(datagram(2, 3))
    relay.goes_on()
    first = [hears.packet()[12] for _ in range(BURST)]
    check("both get turns", BURST / 4 < first.count(1) < 3 * BURST / 4, first)
    for it in (web, hears):
        it.close()


def asks_for_an_origin() -> None:
    """With --origin only pages of these origins open a WebSocket."""
    relay = Relay("127.0.0.1:0", "--origin", "https://example.org", "--origin", "http://localhost:8000")
    try:
        for origin, opens in (("https://example.org", True), ("http://localhost:8000", True), ("https://example.org.evil", False),
            ("https://evil", False), ("null", False), (None, False)):
            web = Browser(relay.port, "/relay", *([f"Origin: {origin}"] if origin else []))
            check(f"the origin {origin}", web.is_open == opens and (opens or b" 403 " in web.head), web.head)
            web.close()
    finally:
        relay.end()


def counts_hosts_behind_a_proxy() -> None:
    """A proxy on the same machine says for whom it speaks; each of these hosts has its own share of the seats."""
    relay = Relay("127.0.0.1:0")
    try:
        for host in ("192.0.2.1", "2001:db8::1"):
            webs = [Browser(relay.port, "/relay", f"x-real-ip: {host}") for _ in range(SHARE + 1)]
            joined = [web.join(1, host.encode().rjust(15)[-15:] + bytes([place])) for place, web in enumerate(webs)]
            check(f"the share of {host} behind a proxy", joined == [JOINED] * SHARE + [FULL], joined)
    finally:
        relay.end()


def refuses_folders() -> None:
    """A folder that cannot be read, and one with too many bytes."""
    for what, size in (("no folder", None), ("a folder above 16 MB", 16_777_217)):
        with tempfile.TemporaryDirectory() as folder:
            path = os.path.join(folder, "none")
            if size:
                path = folder
                with open(os.path.join(folder, "big.txt"), "wb") as file:
                    file.truncate(size)
            relay = Relay("127.0.0.1:0", "--pages", path)
            relay.process.wait(PATIENCE)
            said = relay.process.stderr.read() if relay.process.stderr else b""
            check(f"refuses {what}", (relay.process.returncode, relay.first, said) == (3, "", b"refused: disk 1 Failed\n"), said)


def all_checks() -> None:
    serves_pages()
    limits_the_connections_of_a_host()
    asks_for_an_origin()
    counts_hosts_behind_a_proxy()
    has_as_many_rooms_as_it_says()
    refuses_folders()
    relay, patient = Relay("127.0.0.1:0", "--progress"), Relay("127.0.0.1:0")
    try:
        waits = threading.Thread(target=lets_nobody_wait, args=(patient,))
        waits.start()
        for checks in (refuses_requests, carries_both_ways, asks_both_in_turn, refuses_frames, goes_on_beside_a_deaf_member, keeps_places_for_all):
            checks(relay)
        waits.join()
    finally:
        relay.end()
        patient.end()
