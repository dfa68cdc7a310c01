"""Access servers and callers of the desk, as a server on loopback hears and answers them: very
many, many at once, at several addresses, without a pause, slow, silent, and as long as they may be.
"""

import contextlib
import json
import os
import random
import signal
import socket
import subprocess
import sys
import time

import books
from served import CASHIER, CLIENT_AND_KEYS, GUEST, PLANS, SECRET
from served import Server, attribute, check, is_response, signed, text_of, until

GUESTS, PLACES = range(100, 200), 64
SOURCES = ["127.9.81.163", "127.202.35.4"]
MORE = "".join(f"""
[[client]]
name = "nas-{at}"
address = "{it}"
secret = "{SECRET}"
""" for at, it in enumerate(SOURCES))
MORE += "".join(f"""
[[key]]
token = "key-of-guest-{it}"
account = "guest-{it}"
""" for it in GUESTS)
# So many sessions of an account, with ids of 60 digits.
FILLED = """WITH RECURSIVE n(i) AS (SELECT 0 UNION ALL SELECT i + 1 FROM n WHERE i < {many} - 1)
INSERT INTO session SELECT 'nas-7', CAST(printf('%060d', i) AS BLOB), CAST('guest-100' AS BLOB),
CAST('gold' AS BLOB), i, 1, 0, 1000, 2000, 2, 1, x'', x'' FROM n;
INSERT INTO session_plan SELECT client, id, class FROM session"""
START = [(40, 1), (44, b"s1"), (1, b"room 12")]


def site(folder):
    """A server over a new book, with a key of each guest."""
    os.mkdir(folder)
    server = Server(folder, PLANS + MORE, CLIENT_AND_KEYS)
    check("a book is made", server.told("init")[0], 0)
    return server


def request(key=GUEST, path="/me/balance"):
    return f"GET {path} HTTP/1.1\r\nDesk-Key: {key}\r\n\r\n".encode()


def caller(server, octets, place="127.0.0.1"):
    """A caller that has sent these octets."""
    stream = socket.create_connection((place, server.desk), timeout=10)
    stream.sendall(octets)
    return stream


def taken(stream, pause=0):
    """All that a caller gets, a part at a time, and then the end."""
    found = b""
    with stream, contextlib.suppress(ConnectionResetError):
        while part := stream.recv(1 << 18):
            found += part
            time.sleep(pause)
    return found


def page(response):
    """The status and the JSON of a response, which has as many octets as it says."""
    head, _, body = response.partition(b"\r\n\r\n")
    length = int(head.split(b"Content-Length: ")[1].split(b"\r\n")[0])
    return int(head.split()[1]), json.loads(body) if length == len(body) else None


def page_of(account, balance=0):
    return 200, {"account": account, "balance": balance, "overrun": max(0, -balance)}


def sender(place="127.0.0.1", port=0):
    found = socket.socket(socket.AF_INET, socket.SOCK_DGRAM)
    found.settimeout(20)
    found.bind((place, port))
    return found


@contextlib.contextmanager
def stopped(server):
    """What is sent meanwhile waits, and is there as the server goes on."""
    server.process.send_signal(signal.SIGSTOP)
    yield
    server.process.send_signal(signal.SIGCONT)


def alone(client, port, place, octets):
    """Where the reply to a datagram comes from, while nothing else is sent."""
    client.sendto(octets, (place, port))
    return client.recvfrom(4_096)[1][0]


def addresses(folder):
    """Replies leave from the address that was asked, and no address waits for two of another."""
    server = site(folder)
    places = [f"127.0.0.{it}" for it in range(1, 17)]
    more = [word for it in places for word in ("--bind", it)]
    sent = [signed(at, [*START[:1], (44, b"s%d" % at), START[2]]) for at in range(80)]
    with server.serving(*more, "--desk-bind", "127.0.0.99"), sender() as client:
        with stopped(server):
            for at, it in enumerate(sent):
                client.sendto(it, (places[at // 5], server.radius))
        got = [client.recvfrom(4_096) for _ in sent]
        check("80 reports to 16 addresses are answered from there",
              sorted((it[1], source, is_response(it, sent[it[1]])) for it, source in got),
              [(at, (places[at // 5], server.radius), True) for at in range(80)])
        order = [source for _, source in got]
        check("in turns", [it for it, after in zip(order, order[1:]) if it == after], [])
        quiet = [alone(client, server.radius, it, sent[0]) for it in reversed(places)]
        check("each address is heard alone", quiet, places[::-1])
        check("the desk has an address of its own",
              page(taken(caller(server, request(), "127.0.0.99"))), page_of("room 12"))


# Sends a datagram again and again.
FLOOD = """import socket, sys
octets, sender = bytes.fromhex(sys.argv[1]), socket.socket(socket.AF_INET, socket.SOCK_DGRAM)
while True:
    sender.sendto(octets, ("127.0.0.1", int(sys.argv[2])))
"""


def waiting(server):
    """How many octets wait in the system at 127.0.0.1."""
    lines = (it.split() for it in text_of("/proc/net/udp").splitlines())
    return sum(int(it[4].split(":")[1], 16) for it in lines
               if it[1] == f"0100007F:{server.radius:04X}")


def busy(folder):
    """Beside an address that is never idle others are heard that were, and so are callers."""
    server, found = site(folder), []
    words = [sys.executable, "-c", FLOOD, signed(1, START).hex(), str(server.radius)]
    binds = [word for it in (1, 2, 3) for word in ("--bind", f"127.0.0.{it}")]
    with server.serving(*binds), subprocess.Popen(words) as flooding, sender() as client:
        try:
            for place in (3, 2):
                check("reports wait", until(lambda: waiting(server) > 40_000), True)
                begun, asked = time.monotonic(), signed(place, START)
                client.sendto(asked, (f"127.0.0.{place}", server.radius))
                found.append(is_response(client.recv(4_096), asked))
                found.append(page(taken(caller(server, request()))) == page_of("room 12"))
                found.append(time.monotonic() - begun < 5)
        finally:
            flooding.kill()
    check("others are answered beside them", found, [True] * 6)


def low_port(place):
    """A socket at a port that the system gives to nobody by itself, as access servers have."""
    while True:
        with contextlib.suppress(OSError):
            return sender(place, random.randint(1_025, 32_767))


def very_many(server):
    """140,000 datagrams, of which no two are alike: each is answered to its source."""
    sources, out, wrong = [low_port(SOURCES[0]), sender(SOURCES[1])], {}, 0
    for number in range(140_000 + 64):
        source = sources[number % 2]
        if number >= 64:
            reply = source.recv(4_096)
            asked = out.pop((number % 2, reply[1]), None)
            wrong += not (asked and is_response(reply, asked))
        if number < 140_000:
            asked = signed(number // 2 % 256, [(40, 7), (44, number)])
            out[number % 2, asked[1]] = asked
            source.sendto(asked, ("127.0.0.1", server.radius))
    for it in sources:
        it.close()
    check("140,000 datagrams are answered", (wrong, out), (0, {}))


def datagrams(server):
    """Datagrams up to the longest one: what is behind the packet, or no packet, changes nothing."""
    states = [(33, bytes([it]) * (253 if it < 16 else 230)) for it in range(1, 17)]
    whole, found = signed(9, START + states), []
    echoed = b"".join(attribute(*it) for it in states)
    with sender() as client:
        client.connect(("127.0.0.1", server.radius))
        for size in (0, 1, 19, 4_096, 4_097, 65_507, random.randint(4_098, 65_507)):
            client.send((whole + bytes(65_507))[:size])
            if size >= len(whole):
                reply = client.recv(65_507)
                found.append(is_response(reply, whole) and reply[20:] == echoed)
    check("the longest packet is answered", (len(whole), found), (4_096, [True] * 4))


def turns(server):
    """Callers and datagrams take turns: a caller sees one report more than the caller before."""
    before = page(taken(caller(server, request())))[1]["balance"]
    with sender() as client:
        with stopped(server):
            streams = [caller(server, request()) for _ in range(10)]
            for at in range(10):
                pairs = [(40, 3), (44, b"t%d" % at), (1, b"room 12"), (25, b"gold"), (42, 1)]
                client.sendto(signed(at, pairs), ("127.0.0.1", server.radius))
        seen = sorted((before - page(taken(it))[1]["balance"]) // 10 for it in streams)
    check("ten callers beside ten reports", [it - seen[0] for it in seen], [*range(10)])


def crowd(server):
    """More callers at once than there are places: each guest gets the own page."""
    with stopped(server):
        streams = [caller(server, request(f"key-of-guest-{it}")) for it in GUESTS]
    check("a hundred guests at once", [page(taken(it)) for it in streams],
          [page_of(f"guest-{it}") for it in GUESTS])
    streams = [caller(server, b"") for _ in range(PLACES)]
    time.sleep(0.3)
    for it, stream in zip(GUESTS, streams):
        stream.sendall(request(f"key-of-guest-{it}"))
    check("callers at all places who ask late", [page(taken(it)) for it in streams],
          [page_of(f"guest-{it}") for it in GUESTS[:PLACES]])


def silent(server):
    """Silent callers keep nobody out, and lose their places."""
    balance = page(taken(caller(server, request())))
    streams = [caller(server, b"") for _ in range(PLACES)]
    begun = time.monotonic()
    time.sleep(0.2)
    check("one is served past silent ones at all places", page(taken(caller(server, request()))),
          balance)
    check("at once", time.monotonic() - begun < 1, True)
    check("the first of them was dropped", (taken(streams[0]), time.monotonic() - begun < 1),
          (b"", True))
    ends = []
    for it in streams[1:]:
        ends.append((taken(it), 1.7 < time.monotonic() - begun < 4))
    check("and the others after two seconds", ends, [(b"", True)] * (PLACES - 1))


def closing(server):
    """Callers who close their side, or send more than a request, get one answer and the end."""
    balance = page(taken(caller(server, request())))
    for octets, wanted in (
        (request(), balance), (b"GET /me", (400, {"error": "bad request"})),
        (b"", (400, {"error": "bad request"}))):
        stream = caller(server, octets)
        stream.shutdown(socket.SHUT_WR)
        check(f"a caller who closes after {len(octets)} octets", page(taken(stream)), wanted)
    check("one who sends two requests", page(taken(caller(server, request() * 2))), balance)


def pieces(server):
    """A request that comes in pieces is answered once it is whole, and others are meanwhile."""
    balance, octets = page(taken(caller(server, request()))), request()
    stream, others = caller(server, b""), []
    for at in range(0, len(octets), 7):
        others.append(page(taken(caller(server, request("key-of-guest-100")))))
        stream.sendall(octets[at : at + 7])
    check("a request in pieces", page(taken(stream)), balance)
    check("and others meanwhile", [it for it in others if it != page_of("guest-100")], [])


def lengths(server):
    """A request of each length up to 1,300 octets is answered."""
    wrong, bare = [], request()[:-2] + b"Pad: \r\n\r\n"
    for size in range(1_301 - len(bare)):
        padded = bare.replace(b"Pad: ", b"Pad: " + b"x" * size)
        if page(taken(caller(server, padded))) != page_of("room 12"):
            wrong.append(len(padded))
    check("a request of each length", wrong, [])


def longest(server):
    """Heads of 8,192 octets and bodies of 4,096 are the longest that are read."""
    for at, (head, body) in enumerate([
        (8_191, 4_095), (8_192, 4_096), (8_193, 4_096), (8_192, 4_097), (120, 3_001),
        (4_970, 4_031), (random.randint(130, 8_192), random.randint(60, 4_096))]):
        text = f"POST /topups HTTP/1.1\r\nDesk-Key: {CASHIER}\r\nContent-Length: {body}\r\nFiller: "
        sold = json.dumps({"account": "al", "sum": 5, "voucher": f"L-{at}"})
        octets = (text.ljust(head - 4, "x") + "\r\n\r\n" + sold.ljust(body)).encode()
        is_taken = head <= 8_192 and body <= 4_096
        check(f"a head of {head} octets and a body of {body}",
              page(taken(caller(server, octets))),
              (201, {"result": "new"}) if is_taken else (413, {"error": "too large"}))


def slow(folder):
    """A long page goes whole to who takes it slowly, or late, while others are served."""
    server, many = site(folder), 45_000
    statements = FILLED.format(many=many).split(";")
    books.write(server.book, lambda book: [book.execute(it) for it in statements])
    asked = request("key-of-guest-100", "/me/sessions")
    with server.serving():
        for name, wait, pause in (("slowly", 0, 0.06), ("late", 2.5, 0)):
            begun, stream = time.monotonic(), caller(server, asked)
            time.sleep(max(wait, 0.3))
            check("another one is served meanwhile",
                  page(taken(caller(server, request("key-of-guest-101")))), page_of("guest-101"))
            status, found = page(taken(stream, pause))
            check(f"a page is taken {name}",
                  (status, [it["session"] for it in found["sessions"]],
                   time.monotonic() - begun > 2),
                  (200, [f"{it:060}" for it in range(many)], True))


PARTS = [lengths, very_many, datagrams, turns, crowd, silent, closing, pieces, longest]


def run(folder):
    """Tries the rows in an empty folder."""
    for part in (addresses, busy, slow):
        part(os.path.join(folder, part.__name__))
    server = site(os.path.join(folder, "callers"))
    with server.serving():
        for part in PARTS:
            part(server)
