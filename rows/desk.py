"""The desk over HTTP, octet for octet: requests, what each kind of key shows, what the site's front
asks, and pages of many members; the longest configuration; and files of vouchers.

Stamps and signed keys are made here by Python's hmac, prices by hand. Where a call could give up at
a size, the size is another one in each run, which CHOSEN_SIZE repeats.
"""

import contextlib
import hmac
import json
import os
import random
import socket
import time

import books
from served import PROGRAM, Server, check, plan, ran

AL, BO, CASHIER = "al-key-0000000001", "bo-key-0000000001", "cash-key-00000001"
CLERK, FRONT = "desk-key-0000001", "front-key-000001"
SECRET, OLD = "a-secret-of-twenty-four.", "0123456789abcdef" * 4
# A second that no test sees, the octets of 12 blocks, which 125 pays for, and the longest account.
LAST, PAID, LONGEST = 4_102_444_800, 12 << 20, "e" * 213


def table(kind, /, **values):
    """A table of a configuration."""
    return f"[[{kind}]]\n" + "".join(f"{it} = {json.dumps(of)}\n" for it, of in values.items())


KEYS = table("key", token=AL, account="al") + table("key", token=BO, account="bo")
KEYS += table("key", token=CASHIER, cashier=True)
ALL = KEYS + table("key", token=CLERK, cashier=True, accounts=True)
ALL += table("key", token=FRONT, logins=True) + f'[stamp]\nsecret = "{SECRET}"\nold = "{OLD}"\n'
PLANS = plan("gold") + plan("default", block=1_000_000, unit=5) + plan("night", "out", 300, 7)
PLANS += plan("day", "in", 1 << 53, 1) + plan("a free plan", "in", 3, 0)


def answer(status, said, more=""):
    """A whole response with a body of JSON, or with the words for a fault."""
    body = json.dumps({"error": said} if isinstance(said, str) else said, separators=(",", ":"))
    head = f"HTTP/1.1 {status}\r\nContent-Type: application/json\r\nContent-Length: {len(body)}"
    return f"{head}\r\nConnection: close\r\n{more}\r\n{body}".encode()


def page(**said):
    return answer("200 OK", said)


def balance(account, left):
    return page(account=account, balance=left, overrun=max(0, -left))


BAD, TOO_LARGE, NO_PATH, NOT_ALLOWED, NO_MONEY, DIFFERS = map(
    answer, ("400 Bad Request", "413 Payload Too Large", "404 Not Found", "403 Forbidden",
             "402 Payment Required", "409 Conflict"),
    ("bad request", "too large", "no such path", "not allowed", "no balance", "voucher differs"))
NO_KEY = answer("401 Unauthorized", "no key", "WWW-Authenticate: Desk-Key\r\n")
GET_ONLY, POST_ONLY = (answer("405 Method Not Allowed", "wrong method", f"Allow: {it}\r\n")
                       for it in ("GET", "POST"))
BAD_TOP_UP, BAD_LOGIN, LIMIT = (answer("422 Unprocessable Entity", it)
                                for it in ("bad topup", "bad login", "balance limit"))
ADDED, REPEATED = answer("201 Created", {"result": "new"}), page(result="repeat")


def asked(line, *fields, body=""):
    """The octets of a request: a method and a target, header fields and a body."""
    text = "".join([f"{line} HTTP/1.1\r\n", *(f"{it}\r\n" for it in fields), "\r\n", body])
    return text.encode("ascii", "surrogateescape")


def get(target, token):
    return asked(f"GET {target}", f"Desk-Key: {token}")


def post(body, token=CASHIER):
    return asked("POST /topups", f"Desk-Key: {token}", f"Content-Length: {len(body)}", body=body)


def sealed(text, kind="key;", secret=SECRET):
    """A text with its signature behind it."""
    return text + hmac.new(secret.encode(), (kind + text).encode(), "md5").hexdigest()


def key_of(account, until=LAST, secret=SECRET):
    return sealed(f"{account.encode().hex()}.{until}.", secret=secret)


def told(server, *parts, pause=0.0, is_ended=True):
    """All that a caller gets who sends octets in these parts, and then no more if it is ended."""
    with socket.create_connection(("127.0.0.1", server.desk), 10) as caller:
        caller.setsockopt(socket.IPPROTO_TCP, socket.TCP_NODELAY, 1)
        for part in parts:
            caller.sendall(part)
            time.sleep(pause)
        if is_ended:
            caller.shutdown(socket.SHUT_WR)
        return b"".join(iter(lambda: caller.recv(1 << 16), b""))


def expect(server, name, rows):
    """That each request, in its turn, gets exactly its answer."""
    got = [(request[:300], told(server, request), wanted) for request, wanted in rows]
    check(f"{name}: {len(got)} requests", [it for it in got if it[1] != it[2]][:3], [])


def each(wanted, requests):
    return [(it, wanted) for it in requests]


@contextlib.contextmanager
def site(folder, others, left, sold, heard):
    """A server over a book: balances, vouchers, and sessions up to their states or stations."""
    os.makedirs(folder)
    server = Server(folder, PLANS, others)
    server.init()
    left = [(it if isinstance(it, bytes) else it.encode(), owns) for it, owns in left]
    heard = [(*it, 2600, b"02-00-5e")[:6] if len(it) < 6 else it for it in heard]

    def work(book):
        book.executemany("INSERT INTO account VALUES (?, ?)", left)
        book.executemany("INSERT INTO voucher VALUES (?, ?, ?, ?)", sold)
        book.executemany("INSERT INTO session VALUES (?, ?, ?, x'676f6c64', 3000000, 17, 599, 2001,"
                         " ?5, ?4, 6, ?6, x'0a141e28')", heard)
        book.execute("INSERT INTO session_plan SELECT client, id, class FROM session")

    books.write(server.book, work)
    with server.serving():
        yield server


# What the desk shows of such a session. 3,000,017 octets of gold cost three blocks of 10.
SHOWN = {"calling": "02-00-5e", "cause": 6, "charged": "30", "class": "gold", "client": "ap1",
         "first": 2001, "framed": "10.20.30.40", "input": 3_000_000, "last": 2600, "output": 17,
         "seconds": 599, "session": "s2", "state": "stopped", "total": 3_000_017}

FIELDS, NOTHING = f"GET /me/balance HTTP/1.1\r\nDesk-Key: {AL}\r\n".encode(), balance("al", 0)
SETTLED = [
    (b"", BAD), (b"GET /me/balance HTTP/1.1\r\n", BAD), (b"HELLO\r\n\r\n", BAD),
    (b"GET / HTTP/2.0\r\n\r\n", BAD),
    (asked("POST /topups", "Transfer-Encoding: chunked", body="0\r\n\r\n"), BAD),
    (asked("POST /topups", "transfer-ENCODING: identity", "Content-Length: 4097"), BAD),
    *((asked("POST /topups", f"Content-Length: {it}", body="1"), BAD)
      for it in ("4,096", "+1", "00000000001", "2", "0\r\nContent-Length: 0")),
    (asked("POST /topups", "Content-Length: 4097"), TOO_LARGE),
    (asked("POST /nowhere", "content-length: \t4097 "), TOO_LARGE),
    *((asked(it), NO_PATH) for it in (
        "GET /", "GET /me/balance/", "GET /ME/balance", "DELETE http://127.0.0.1/me/balance")),
    (asked("GET /topups"), POST_ONLY), (asked("post /topups", f"Desk-Key: {AL}"), POST_ONLY),
    (b"HEAD /me/topups?x HTTP/1.0\r\n\r\n", GET_ONLY),
    (asked("GET /me/balance"), NO_KEY), (get("/overruns", AL[:-1]), NO_KEY),
    (asked("GET /me/balance", "Desk-Key: ", f"Desk-Key: {AL}"), NO_KEY),
    (asked("GET /me/sessions", f"desk-KEY:\t {CASHIER} "), NOT_ALLOWED),
    (get("/overruns", BO), NOT_ALLOWED), (post("{", AL), NOT_ALLOWED), (post(""), BAD),
    # An account by its own key, whatever the query names, and however the head is spelled.
    (get("/me/balance?account=bo", AL), NOTHING), (FIELDS.replace(b"\r", b"") + b"\n", NOTHING),
    (f"\n\r\nGET /me/balance HTTP/1.0\r\nDESK-key:\t{AL} \t\n\r\n".encode(), NOTHING),
    # At most 64 header fields, and 8,192 octets without a head.
    (FIELDS + b"A:\r\n" * 63 + b"\r\n", NOTHING), (FIELDS + b"A:\r\n" * 64 + b"\r\n", BAD),
    *(((FIELDS + b"Pad:").ljust(it, b"p"), said) for it, said in ((8191, BAD), (8192, TOO_LARGE)))]


def sale(number, total, account="al", more=""):
    return f'{{"account":"{account}","sum":{total},"voucher":"{number}"{more}}}'


# JSON is read up to a depth of 127, of which the object is one.
BODIES = [
    *((it, BAD) for it in ("{", "\udcff", sale("V", "1e999"))),
    *((it, BAD_TOP_UP) for it in (
        "[]", '{"account":"al","sum":500}', sale("V", '"500"'), sale("V", "5.0"), sale("V", "1e2"),
        sale("V", "-0"), sale("V", -5), sale("V", 1 << 64), sale("V", 0), sale("V", 10**12 + 1),
        sale("V", 5, ""), sale("", 5), sale("v", 5), sale("ABCDEFGHIJKLMNOPQRSTUVWXYZ0123456", 5))),
    (sale("V-9", 1), ADDED), (sale("V-9", 1), REPEATED), (sale("V-9", 2), DIFFERS),
    (' {"more":[null],"voucher":"V-9","sum":1,"account":"%61\\u006c"} ', REPEATED),
    ('{"account":"bo","account":"al","sum":2,"sum":1,"voucher":"V-9"}', REPEATED),
    (sale("V-9", 1, "bo"), DIFFERS), (sale("V-8", 10**12, "cy"), ADDED),
    (sale("V-2", 7, "bo", f',"more":{"[" * 126}{"]" * 126}'), ADDED),
    (sale("V-3", 7, "bo", f',"more":{"[" * 127}{"]" * 127}'), BAD),
    # The greatest balance is 2^62.
    (sale("V-4", 6, "rich"), LIMIT), (sale("V-0", 6, "rich"), DIFFERS),
    (sale("V-0", 0, "rich"), BAD_TOP_UP), (sale("V-4", 5, "rich"), ADDED),
    (sale("V-5", 1, "rich"), LIMIT)]


def requests(folder):
    """Requests that are settled without the book, vouchers, and requests that come in parts."""
    with site(folder, KEYS, [("rich", (1 << 62) - 5)], [("V-0", b"rich", 1, 999)], []) as server:
        expect(server, "requests", SETTLED)
        expect(server, "bodies", [(post(it), wanted) for it, wanted in BODIES])
        top_up = post(sale("V-6", 11))
        expect(server, "its prefixes", each(BAD, [top_up[:it] for it in range(len(top_up))]))
        halves = told(server, top_up[:80], top_up[80:], pause=0.3, is_ended=False)
        check("a top-up in two halves credits once", halves, ADDED)
        got = told(server, *map(bytes, zip(get("/me/balance", AL))), pause=0.002, is_ended=False)
        check("a request comes octet by octet", got, balance("al", 12))
        # A desk without [stamp] or such keys.
        expect(server, "what is not served", [(get("/me/balance", key_of("al")), NO_KEY), *each(
            NO_PATH, [get(it, CASHIER) for it in (
                "/accounts/al/balance", "/logins/al/gold", "/overruns/sessions")])])


OWN = [("balance", balance("al", -31)), ("sessions", page(account="al", sessions=[SHOWN])),
       ("topups", page(account="al", topups=[{"sum": 500, "voucher": "V-1", "when": 1001},
                                             {"sum": 70, "voucher": "W-2", "when": 1500}]))]
OVER = page(overruns=[{"account": "al", "overrun": 31}, {"account": 'c"%00,d', "overrun": 12}])
# Which signed keys show the account al, and which do not.
ENDED = "".join(table("withdrawn", account=it, until=until) for it, until in (
    ("b%6f", LAST), ("b%6f", 7), ("AL", LAST), ("616c", LAST), ("al", LAST - 1),
    ("%6D" * 253, LAST)))
SHOWING = [key_of("al"), key_of("al", secret=OLD), key_of("al", (1 << 64) - 1)]
TEXT, RIGHT = f"616c.{LAST}.", key_of("al")[-32:]
WRONG = [
    key_of("al", 1000), key_of("al", LAST - 1), key_of("bo"), key_of("al", secret="nobody"), TEXT,
    key_of("m" * 253),
    sealed(TEXT, ""), sealed(TEXT, "stamp;"), TEXT + key_of("bo")[-32:], TEXT + RIGHT[:-1],
    f"616c.{LAST + 1}." + RIGHT, TEXT + RIGHT + "0", TEXT + RIGHT.upper(), *map(sealed, (
        "616c..", TEXT[:-1], f"616c{LAST}", f"616C.{LAST}.", f"616c.0{LAST}.", f"616c.+{LAST}.",
        f"616c..{LAST}.", f"616c.{1 << 64}.", f"616.{LAST}.", f"6g.{LAST}.", TEXT * 2))]


def keys(folder):
    """What each kind of key shows, and what it does not."""
    heard = [("ap1", b"s2", b"al", 2), ("ap1", b"s1", b"bo", 1)]
    sold = [("W-2", b"al", 70, 1500), ("V-1", b"al", 500, 1001), ("V-3", b"bo", 8, 1200)]
    left = [("al", -31), ("bo", 9), ('c"\0,d', -12)]
    with site(folder, ALL + ENDED, left, sold, heard) as server:
        for it in [AL, *SHOWING]:
            expect(server, it, [(get(f"/me/{name}", it), said) for name, said in OWN])
        expect(server, "wrong keys", each(NO_KEY, [get("/me/topups", it) for it in WRONG]))
        expect(server, "a clerk's key", [
            *((get(f"/accounts/%61%6C/{it}?of=bo", CLERK), said) for it, said in OWN),
            (get("/accounts/n%00%2f%C3/balance", CLERK), balance("n%00/%C3", 0)),
            *((get("/overruns", it), OVER) for it in (CASHIER, CLERK)),
            *((get(f"/accounts{it}", CLERK), NO_PATH) for it in (
                "", "/", "/al", "/al/", "/al/Balance", "/al/balance/", "/a/l/balance", "/al/me")),
            (asked("POST /accounts/al/balance", f"Desk-Key: {CLERK}"), GET_ONLY),
            (asked("GET /accounts/al/balance"), NO_KEY), (post(sale("V-9", 5), CLERK), ADDED)])
        expect(server, "keys of another kind", each(NOT_ALLOWED, [
            *(get("/accounts/al/sessions", it) for it in (AL, SHOWING[0], CASHIER, FRONT)),
            *(get(it, SHOWING[0]) for it in ("/overruns", "/logins/al/gold", "/overruns/sessions")),
            *(get("/me/balance", it) for it in (CASHIER, CLERK, FRONT)), get("/overruns", FRONT),
            *(post(sale("V-9", 5), it) for it in (SHOWING[0], FRONT))]))
    words = [PROGRAM, "key", "--config", server.config, "--until", "1000", "al"]
    check("a key is printed", ran(words), (0, "616c.1000.97aa7f538d4c5306f8b96296bd885931\n", ""))
    made = [ran([*words[:-1], "n" * it])[1] for it in range(1, 254)]
    check("and one of each size", made, [key_of("n" * it, 1000) + "\n" for it in range(1, 254)])


def login(account, octets, name="gold", counted="total", going=4, others=None, digits=""):
    stamp = sealed(f"{name};{digits};{account};", "stamp;")
    return page(counted=counted, octets=octets, open=going, stamp=stamp, stations=others)


LOGINS = [
    ("al/gold", login("al", PAID)), ("%61l/gol%64/-", login("al", PAID)),
    # One other station was heard within 5,000 seconds and none within 500; then two others.
    ("al/gold/0a9f/02-00-5e-01/5000", login("al", PAID, others=1, digits="0a9f")),
    ("al/gold/0a9f/02-00-5e-01/500", login("al", PAID, others=0, digits="0a9f")),
    ("al/gold/-/%302-00-5e-03/5000?x=/y", login("al", PAID, others=2)),
    ("al/gold///9999999999", login("al", PAID, others=2)),
    # 25 blocks of `default`, 17 of 300 octets of output, 125 of 2^53 of input, and no price.
    ("al/no%20plan", login("al", 25_000_000, "default")),
    ("al/night", login("al", 5100, "night", "out")),
    ("al/day", login("al", 125 << 53, "day", "in")),
    ("c%00d%2Fe;%C3%A9/a%20free%20plan/ff", login(
        "c%00d%2Fe%3B%C3%A9", None, "a%20free%20plan", "in", 0, digits="ff")),
    # 2^63 octets, but a session counts one less at most.
    ("rich/day", login("rich", (1 << 63) - 1, "day", "in", 0)),
    (f"{LONGEST}/night", login(LONGEST, 300, "night", "out", 0)),
    *((it, NO_MONEY) for it in ("poor/gold", "eve/day", "bo/-")),
    *((it, BAD_LOGIN) for it in (
        "/gold", "al/gold/0A", "al/gold/g", "al/gold/--", f"al/gold/{'0' * 33}", "al/gold/-/x/",
        "al/gold/-/x/12345678901", "al/gold/-/x/-1", "al/gold/-/x/-", f"{'f' * 254}/gold",
        f"{LONGEST}e/night")),
    *((it, NO_PATH) for it in ("", "al", "al/gold/-/x", "al/gold/-/x/1/"))]
STATIONS = [(b"02-00-5e-01", 10, 0), (b"02-00-5e-02", 2500, 0), (b"", 5, 0), (b"02-00-5e-01", 1, 0),
            (b"02-00-5e-05", 2, 2), (b"02-00-5e-06", 3, 1)]
# `bo` has 0, `eve` no open session, and what is behind an id may be its own.
BELOW = [("ap1", b"s1//ann", b"ann", 0), ("ap1", b"s2//ann", b"ann", 2), ("ap1", b"s3", b"bo", 0),
         ("hall/nlobby%201", b"a/b/0a9f/ann", b"ann", 0), ("ap1", b"s4/0G/c%00d", b"c\0d", 0),
         ("ap1", b"s5//c", b"c\0d", 0), ("ap2", b"/f/c%00d", b"c\0d", 0), ("ap1", b"s6", b"eve", 1)]


def going(account, own, session, name="ap1", device=""):
    return {"account": account, "calling": "02-00-5e", "client": name, "device": device,
            "framed": "10.20.30.40", "id": own, "last": 2600, "session": session}


OPEN = [going("ann", "s1", "s1//ann"), going("ann", "a/b", "a/b/0a9f/ann", "hall", "nlobby%201"),
        going("c%00d", "s4/0G/c%2500d", "s4/0G/c%2500d"), going("c%00d", "s5//c", "s5//c"),
        going("c%00d", "", "/f/c%2500d", "ap2")]
WALK = [*((it, page(next=None, sessions=found)) for it, found in (
    ("", OPEN), ("/after/c%00%63?x=/y", OPEN[2:]), ("/after/c%00d", []), ("/after/%FF", []))),
        *((it, NO_PATH) for it in ("/", "/after", "/after/al/", "/after/a/l"))]


def front(folder):
    """Logins with their stamps, and the open sessions of accounts below 0."""
    now = int(time.time())
    heard = [("ap1", b"h%d" % at, b"al", state, now - ago, calling)
             for at, (calling, ago, state) in enumerate(STATIONS)]
    left = [("al", 125), ("ann", -5), ("bo", 0), ("c\0d", -1), ("eve", -9), ("poor", 9),
            ("rich", 1024), (LONGEST, 7), *((f"p{it}", 1 << it) for it in range(4, 53))]
    with site(folder, ALL, left, [], heard + BELOW) as server:
        for path, rows in (("/logins/", LOGINS), ("/overruns/sessions", WALK)):
            expect(server, path, [(get(path + it, FRONT), said) for it, said in rows])
            path += rows[0][0]
            expect(server, path, [
                (asked(f"POST {path}", f"Desk-Key: {FRONT}"), GET_ONLY),
                (asked(f"GET {path}"), NO_KEY),
                *each(NOT_ALLOWED, [get(path, it) for it in (AL, CASHIER, CLERK)])])
        expect(server, "no path", each(NO_PATH, [get(it, FRONT) for it in (
            "/logins", "/LOGINS/al/gold", "/logins%2Fal/gold", "/overruns//sessions")]))
        each_size(server)


def each_size(server):
    """Accounts, logins and stations of each size, seconds, balances and signed keys."""
    targets = [f"al/gold/{'a' * it}/{'a' * it}/70" for it in range(33)]
    targets += [f"{'e' * it}/a%20free%20plan" for it in range(1, 201)]
    targets += [f"al/gold/-/x/{it}" for it in range(3601)] + [f"p{it}/gold" for it in range(4, 53)]
    asking = [get(f"/logins/{it}", FRONT) for it in targets]
    asking += [get(f"/accounts/{'e' * it}/{of}", CLERK) for it in range(1, 256) for of, _ in OWN]
    wrong = [it for it in asking if not told(server, it).startswith(b"HTTP/1.1 200 OK\r\n")]
    check(f"{len(asking)} sizes", wrong, [])
    expect(server, "signed keys", [
        (get("/me/balance", key_of("n" * it)), balance("n" * it, 0)) for it in range(1, 254)])


def many(folder):
    """The longest configuration, and pages and parts of a book with many members."""
    size = int(os.environ.get("CHOSEN_SIZE") or random.randint(2000, 5000))
    print(f"CHOSEN_SIZE={size}")
    tables = [table("client", name=f"c{it}", address=f"10.0.{it >> 8}.{it & 255}", secret="s")
              for it in range(1024)] + [plan(f"p{it}") for it in range(251)]
    tables += [table("key", token=f"key-of-guest-{it:04}", account=f"o{it}") for it in range(4091)]
    tables += [table("withdrawn", account=f"w{it}", until=it) for it in range(1024)]
    # Of a part: an account of 1,000 rows, one of 999 with one of 1 behind it, and one of many.
    ends = (b"b1", 1000), (b"d1", 999), (b"d2", 1), (b"f1", size)
    heard = [("ap1", name + b"s%d" % it, name, 2 if it else 0) for name, most in ends
             for it in range(most)]
    heard += [("ap2", b"%d" % it, b"q", 0, 2600, b"%d" % it) for it in range(size)]
    heard += [("ap3", b"s%05d" % it, b"al", 2) for it in range(size)]
    left = [*((it, -5) for it in ("b1", "d1", "d2", "f1")), ("q", 125), ("rich", 1 << 62), ("z", 1),
            *((f"o{it}", -it if it % 2 else it) for it in range(2 * size)),
            *((f"z {it}", 7) for it in range(10_001, 15_001))]
    sold = [(f"V-{it:05}", b"al", it, 1001) for it in range(1, size)]
    with site(folder, ALL + "".join(tables), left, sold, heard) as server:
        words = [PROGRAM, "check", "--config", server.config]
        check("it is read", ran(words), (0, "ok: 1024 clients, 256 plans, 4096 keys\n", ""))
        of_many(server, size, [(it, -owed) for it, owed in sorted(left) if owed < 0])
    uploads(server, size)


def of_many(server, size, below):
    """Pages that list many, and the parts of the accounts."""
    first = {it: going(it, f"{it}s0", f"{it}s0") for it in ("b1", "d1", "d2", "f1")}
    expect(server, f"pages of {size}", [
        (get("/me/sessions", AL), page(account="al", sessions=[
            SHOWN | {"client": "ap3", "session": f"s{it:05}"} for it in range(size)])),
        (get("/me/topups", AL), page(account="al", topups=[
            {"sum": it, "voucher": f"V-{it:05}", "when": 1001} for it in range(1, size)])),
        (get("/overruns", CASHIER), page(overruns=[
            {"account": name, "overrun": owed} for name, owed in below])),
        (get("/logins/q/gold/-/x/9999999999", FRONT), login("q", PAID, going=size, others=size)),
        (get("/me/balance", "key-of-guest-4090"), balance("o4090", 4090 if size > 2045 else 0)),
        *((get(f"/overruns/sessions{it}", FRONT), page(next=end, sessions=[*map(first.get, went)]))
          for it, end, *went in (
              ("", "b1", "b1"), ("/after/b1", "d2", "d1", "d2"), ("/after/d1", "f1", "d2", "f1"),
              ("/after/z", "z%2015000"), ("/after/z%2010001", None)))])


# What is imported behind the header, and what is printed: added, repeated, and what is refused. The
# first has line ends of all kinds, the second fields that are no text.
UPLOADS = [
    ('\r\n\r\n"N-3","a,""b\nc",7\rN-4,a%2Cb,0000000000008', (2, 0)),
    ("\n\xff,al,5\nN-5,\xff,6\nN-6,al,\xff\nN-7,,1\nN-5,%ff,6\n",
     (1, 1, "2: BadVoucher", "4: BadSum", "5: BadAccount")),
    ("\nA,al,00000000000001\nB,al,1000000000000\nC,al,+1\nD,%72ich,1\nE,al,5,\n",
     (1, 0, "2: BadSum", "4: BadSum", "5: BalanceLimit", "6: FieldCount"))]


def uploads(server, size):
    """Files of vouchers, and long ones."""
    bad = "".join(f"\n{'v' if it % 2 else 'V'}-1,al,0" for it in range(size))
    causes = [f"{it + 2}: {'BadVoucher' if it % 2 else 'BadSum'}" for it in range(size)]
    good = "".join(f"\nU-{it},u{it},7" for it in range(size))
    rows = [*UPLOADS, (bad, (0, 0, *causes)), (good, (size, 0)), (good, (0, size))]
    for text, (added, repeated, *lines) in rows:
        said = [f"added {added}, repeated {repeated}, refused {len(lines)}", *lines]
        status, output, _ = server.told("import", input="\xef\xbb\xbfvoucher,account,sum" + text,
                                        encoding="latin-1")
        check(f"{text[:20]!r} is imported", (status, output.splitlines()),
              (1 if lines else 0, said))


def run(folder):
    """Tries the rows in an empty folder."""
    for part in (requests, keys, front, many):
        part(os.path.join(folder, part.__name__))
