"""A stand-in for the program, for tests: the same arguments, configuration and requests as radacctd.

    standin.py init --config FILE --db FILE
    standin.py serve --config FILE --db FILE --bind A --radius-port N --desk-port N
    standin.py export --config FILE --db FILE sessions|balances

It hears reports of stamped clients and answers what the front asks of the desk. It proves nothing."""
import argparse
import csv
import hashlib
import hmac
import http.server
import json
import re
import socket
import sqlite3
import sys
import threading
import time
import tomllib
import urllib.parse

ENCODED = "ABCDEFGHIJKLMNOPQRSTUVWXYZabcdefghijklmnopqrstuvwxyz0123456789._-"
STAMP = re.compile(rb"(([A-Za-z0-9._%-]*);([0-9a-f]{0,32});([A-Za-z0-9._%-]*);)([0-9a-f]{32})")
USER, CLASS, ID, STATUS, STATION, NAS_ADDRESS, NAS_NAME = 1, 25, 44, 40, 31, 4, 32
NUMBERS, LIMIT = (STATUS, 8, 41, 42, 43, 46, 49, 52, 53), 1 << 62
TABLES = """
CREATE TABLE session (client TEXT, id BLOB, own BLOB, account BLOB, class BLOB, input INT, output INT,
  last INT, state TEXT, station BLOB, framed TEXT, PRIMARY KEY (client, id));
CREATE TABLE voucher (number TEXT PRIMARY KEY, account BLOB, sum INT);
"""


def encoded(octets):
    return "".join(chr(it) if chr(it) in ENCODED else f"%{it:02X}" for it in octets)


def shown(octets):
    return "".join(chr(it) if 32 <= it < 127 and it != 37 else f"%{it:02X}" for it in octets)


def stamp_of(secret, plan, login, name):
    head = f"{encoded(plan)};{login};{encoded(name)};"
    mac = hmac.new(secret, b"stamp;" + head.encode(), hashlib.md5).hexdigest()
    return head + mac


def read_stamp(secret, value):
    it = STAMP.fullmatch(value)
    if it and secret:
        plan, name = (urllib.parse.unquote_to_bytes(it[i]) for i in (2, 4))
        if stamp_of(secret, plan, it[3].decode(), name).encode() == value:
            return plan, it[3], name
    return None


def attributes(packet, end):
    at = 20
    while at + 2 <= end and packet[at + 1] >= 2 and at + packet[at + 1] <= end:
        yield packet[at], packet[at + 2 : at + packet[at + 1]]
        at += packet[at + 1]
    if at != end:
        raise ValueError


class Site:
    def __init__(self, path):
        with open(path, "rb") as file:
            it = tomllib.load(file)
        self.clients = {c["address"]: c for c in it.get("client", [])}
        self.plans = {p["class"].encode(): p for p in it.get("plan", [])}
        self.keys = {k["token"]: k for k in it.get("key", [])}
        self.secret = it.get("stamp", {}).get("secret", "").encode()

    def plan(self, name):
        return self.plans.get(name) or self.plans[b"default"]


class Book:
    def __init__(self, path, site):
        self.site, self.lock = site, threading.RLock()
        self.db = sqlite3.connect(path, check_same_thread=False, isolation_level=None)
        self.db.execute("PRAGMA journal_mode = WAL")
        self.db.execute("PRAGMA synchronous = OFF")

    def rows(self, text, *values):
        with self.lock:
            return self.db.execute(text, values).fetchall()

    def counted(self, row):
        plan = self.site.plan(bytes(row["class"]))
        return {"in": row["input"], "out": row["output"]}.get(
            plan.get("count"), row["input"] + row["output"]
        )

    def price(self, row):
        plan = self.site.plan(bytes(row["class"]))
        return -(-self.counted(row) // plan["block"]) * plan["unit"]

    def balance(self, account):
        names = ("class", "input", "output")
        spent = sum(
            self.price(dict(zip(names, it)))
            for it in self.rows(
                "SELECT class, input, output FROM session WHERE account = ?", account
            )
        )
        return (
            self.rows("SELECT coalesce(sum(sum), 0) FROM voucher WHERE account = ?", account)[0][0]
            - spent
        )

    def take(self, client, pairs, now):
        """Whether a report is accepted."""
        first = {}
        for kind, value in pairs:
            first.setdefault(kind, value)
        if any(len(first.get(kind, bytes(4))) != 4 for kind in NUMBERS):
            return False
        number = lambda kind: int.from_bytes(first.get(kind, b""), "big")
        device = client["name"]
        if client.get("proxy"):
            for letter, kind in (("n", NAS_NAME), ("v", 95), ("a", NAS_ADDRESS)):
                if kind in first:
                    device += f"/{letter}{encoded(first[kind])}"
                    break
        status = number(STATUS)
        with self.lock:
            if status in (7, 8):
                self.rows(
                    "UPDATE session SET state = 'closed' WHERE client = ? AND state = 'open'",
                    device,
                )
                return True
            if status not in (1, 2, 3) or ID not in first:
                return False
            payer, plan, login = first.get(USER), client.get("plan", "default").encode(), b""
            if not client.get("stamped"):
                plan = first.get(CLASS, b"default")
            for value in (v for k, v in pairs if k == CLASS and client.get("stamped")):
                if it := read_stamp(self.site.secret, value):
                    plan, login, payer = it
                    break
            total = [number(42) + (number(52) << 32), number(43) + (number(53) << 32)]
            if not payer or sum(total) >= LIMIT:
                return False
            own = first[ID]
            key = (
                own + b"/" + login + b"/" + encoded(payer).encode()
                if client.get("stamped")
                else own
            )
            row = self.rows(
                "SELECT input, output, state FROM session WHERE client = ? AND id = ?", device, key
            )
            state = (
                "stopped" if status == 2 else row[0][2] if row and row[0][2] != "open" else "open"
            )
            if row and sum(row[0][:2]) > sum(total):
                total = list(row[0][:2])
            moment = now - number(41)
            framed = ".".join(map(str, first.get(8, b"")))
            self.rows(
                "INSERT INTO session VALUES (?, ?, ?, ?, ?, ?, ?, ?, ?, ?, ?) ON CONFLICT DO UPDATE SET"
                " input = excluded.input, output = excluded.output, state = excluded.state,"
                " last = max(last, excluded.last)",
                device,
                key,
                own,
                payer,
                plan,
                *total,
                moment,
                state,
                first.get(STATION, b""),
                framed,
            )
        return True

    def sell(self, number, account, amount):
        with self.lock:
            old = self.rows("SELECT account, sum FROM voucher WHERE number = ?", number)
            if old:
                return 200 if old == [(account, amount)] else 409
            self.rows("INSERT INTO voucher VALUES (?, ?, ?)", number, account, amount)
        return 201

    def may(self, account, plan, login="", station=b"-", seconds=None):
        """The status and the body of a login."""
        rule = self.site.plan(plan)
        name = plan if plan in self.site.plans else b"default"
        stamp = stamp_of(self.site.secret, name, login, account)
        if (
            not account
            or len(account) > 253
            or not re.fullmatch("[0-9a-f]{0,32}", login)
            or len(stamp) > 253
        ):
            return 422, {"error": "bad login"}
        money = self.balance(account)
        if rule["unit"] and money < rule["unit"]:
            return 402, {"error": "no balance"}
        now, seconds = int(time.time()), seconds and seconds.decode()
        rows = self.rows(
            "SELECT station, last FROM session WHERE account = ? AND state = 'open'", account
        )
        others = {s for s, last in rows if s != station and now - last <= int(seconds or 0)}
        return 200, {
            "counted": {"in": "in", "out": "out"}.get(rule.get("count"), "total"),
            "octets": min(money // rule["unit"] * rule["block"], (1 << 63) - 1)
            if rule["unit"]
            else None,
            "open": len(rows),
            "stamp": stamp,
            "stations": None if seconds is None else len(others),
        }

    def overruns(self, after):
        below = [
            it
            for (it,) in self.rows(
                "SELECT DISTINCT account FROM session WHERE account > ? ORDER BY 1", after
            )
            if self.balance(it) < 0
        ]
        sessions = []
        for account in below[:100]:
            rows = self.rows(
                "SELECT client, id, own, station, framed, last FROM session WHERE account = ? AND state = 'open'",
                account,
            )
            for client, id_, own, station, framed, last in rows:
                client, _, device = client.partition("/")
                sessions.append(
                    {
                        "account": shown(account),
                        "calling": shown(station),
                        "client": client,
                        "device": device,
                        "framed": framed,
                        "id": shown(own),
                        "last": last,
                        "session": shown(id_),
                    }
                )
        return {"next": encoded(below[99]) if len(below) > 100 else None, "sessions": sessions}


class Desk(http.server.BaseHTTPRequestHandler):
    book = None

    def asked(self):
        parts = self.path.split("?")[0].split("/")[1:]
        return parts[0], [urllib.parse.unquote_to_bytes(it) for it in parts[1:]]

    def do_GET(self):
        what, rest = self.asked()
        key = self.book.site.keys.get(self.headers.get("Desk-Key", ""), {})
        if what == "logins" and len(rest) in (2, 3, 5):
            if not key.get("logins"):
                return self.says(401, {"error": "no key"})
            login = rest[2].decode("latin-1") if len(rest) > 2 else ""
            more = rest[3:]
            return self.says(*self.book.may(rest[0], rest[1], "" if login == "-" else login, *more))
        if what == "overruns" and rest[:1] == [b"sessions"]:
            if not key.get("logins"):
                return self.says(401, {"error": "no key"})
            return self.says(200, self.book.overruns(rest[2] if len(rest) > 2 else b""))
        return self.says(404, {"error": "no such path"})

    def do_POST(self):
        it = json.loads(self.rfile.read(int(self.headers["Content-Length"])))
        account = urllib.parse.unquote_to_bytes(it["account"])
        status = self.book.sell(it["voucher"], account, it["sum"])
        said = {201: ("result", "new"), 200: ("result", "repeat")}
        self.says(status, dict([said.get(status, ("error", "voucher differs"))]))

    def says(self, status, body):
        body = json.dumps(body, separators=(",", ":"), sort_keys=True).encode()
        self.send_response(status)
        self.send_header("Content-Type", "application/json")
        self.send_header("Content-Length", str(len(body)))
        self.send_header("Connection", "close")
        self.end_headers()
        self.wfile.write(body)
        self.close_connection = True

    def log_message(self, *_):
        pass


class Server(http.server.ThreadingHTTPServer):
    request_queue_size = 512
    daemon_threads = True


def hear(opened, book):
    while True:
        packet, where = opened.recvfrom(8192)
        client = book.site.clients.get(where[0])
        length = int.from_bytes(packet[2:4], "big")
        if not client or len(packet) < 20 or packet[0] != 4 or not 20 <= length <= len(packet):
            continue
        packet, secret = packet[:length], client["secret"].encode()
        if hashlib.md5(packet[:4] + bytes(16) + packet[20:] + secret).digest() != packet[4:20]:
            continue
        try:
            pairs = list(attributes(packet, length))
        except ValueError:
            continue
        if not book.take(client, pairs, int(time.time())):
            continue
        body = b"".join(bytes([k, len(v) + 2]) + v for k, v in pairs if k == 33)
        head = bytes([5, packet[1]]) + (20 + len(body)).to_bytes(2, "big")
        opened.sendto(
            head + hashlib.md5(head + packet[4:20] + body + secret).digest() + body, where
        )


def main():
    words = argparse.ArgumentParser()
    words.add_argument("command")
    words.add_argument("what", nargs="?")
    for name in ("config", "db", "bind", "radius-port", "desk-port"):
        words.add_argument("--" + name)
    job = words.parse_intermixed_args()
    site = Site(job.config)
    book = Book(job.db, site)
    if job.command == "init":
        book.db.executescript(TABLES)
        print("book made")
    elif job.command == "serve":
        opened = socket.socket(socket.AF_INET, socket.SOCK_DGRAM)
        opened.setsockopt(socket.SOL_SOCKET, socket.SO_RCVBUF, 1 << 22)
        opened.bind((job.bind, int(job.radius_port)))
        threading.Thread(target=hear, args=(opened, book), daemon=True).start()
        Desk.book = book
        desk = Server((job.bind, int(job.desk_port)), Desk)
        print("serving", flush=True)
        desk.serve_forever()
    elif job.what == "balances":
        print("account,balance")
        for (it,) in book.rows("SELECT account FROM session UNION SELECT account FROM voucher"):
            print(f"{shown(it)},{book.balance(it)}")
    else:
        out = csv.writer(sys.stdout, lineterminator="\n")
        print("client,session,account,class,input,output,total,state,calling,last")
        for it in book.rows(
            "SELECT client, id, account, class, input, output, state, station, last FROM session"
        ):
            out.writerow(
                [
                    it[0],
                    shown(it[1]),
                    shown(it[2]),
                    shown(it[3]),
                    it[4],
                    it[5],
                    it[4] + it[5],
                    it[6],
                    shown(it[7]),
                    it[8],
                ]
            )
    return 0


if __name__ == "__main__":
    sys.exit(main())
