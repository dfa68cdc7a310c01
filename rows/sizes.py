"""Books of another number of members in each run: no call leaves one out.

One account has so many sessions and vouchers, and as many others have one of each. A book in memory
gets them by `feed`, one in tables by SQLite. Each export, each list of the desk, an import with as
many refused lines, an audit, a migration and `forward` have all of them, and a restart closes each
of 1,900 live sessions.
"""

import collections
import dataclasses
import json
import os
import random
import time

import books
from rows.books import HEADER, MIB, ON, STOP, Tables, compares, line, octets_of, site, used
from rows.books import wanted
from served import CASHIER, GUEST, PROGRAM, check, ran

PRICES = {"gold": (MIB, 10), "default": (1_000_000, 5)}
CLIENTS = {"ap1": "127.0.0.1", "ap2": "127.0.0.2"}
INPUT, LIVE, FIRST, SOLD = MIB + 1, 1_900, 4993, 3000
# How a book of the first schema differs.
OLDER = ("DROP TABLE session_plan", "DROP TABLE plan_count", "UPDATE meta SET value = 1")
# Live sessions at another client, named as the others are.
RESTARTED = (
    "INSERT INTO session SELECT 'ap2', id, account, class, input, output, seconds, first_seen,"
    f" last_seen, 0, 0, calling, framed FROM session ORDER BY id LIMIT {LIVE}",
    "INSERT INTO session_plan SELECT 'ap2', id, plan_class FROM session_plan ORDER BY id"
    f" LIMIT {LIVE}")


@dataclasses.dataclass(frozen=True)
class Member:
    """A session of two blocks and a voucher of 1, both of this number."""

    number: int
    account: str
    plan: str
    last: int

    def price(self):
        return 2 * PRICES[self.plan][1]

    def columns(self):
        names = (str(self.number).encode(), self.account.encode(), self.plan.encode())
        return ("ap1", *names, INPUT, 2, 3601, FIRST, self.last, 2, 4, b"00-11",
                bytes([192, 168, 7, 5]))

    def exported(self):
        names = f"ap1,{self.number},{self.account},{self.plan}"
        return (f"{names},{INPUT},2,{INPUT + 2},{self.price()},3601,{FIRST},{self.last},stopped,4,"
                "00-11,192.168.7.5\n")

    def listed(self):
        """As the desk lists it."""
        return {"calling": "00-11", "cause": 4, "charged": str(self.price()), "class": self.plan,
                "client": "ap1", "first": FIRST, "framed": "192.168.7.5", "input": INPUT,
                "last": self.last, "output": 2, "seconds": 3601, "session": str(self.number),
                "state": "stopped", "total": INPUT + 2}

    def lines(self):
        """Its lines of `feed`."""
        octets = used(str(self.number), self.account, INPUT, 2, self.plan, STOP)
        return [line(octets), f"topup {SOLD} {self.number} {self.account} 1"]


def members_of(own, now):
    """Each third is of another plan, and each hundredth is of today."""
    found = [Member(it, "al" if it < own else str(it), "gold" if it % 3 else "default",
                    FIRST if it % 100 else now) for it in range(2 * own)]
    return sorted(found, key=lambda it: str(it.number))


def balances_of(members):
    found = collections.Counter()
    for it in members:
        found[it.account] += 1 - it.price()
    return dict(sorted(found.items()))


def put(book, members):
    """Puts the members into the tables of a book."""
    rows = [it.columns() for it in members]
    book.executemany(f"INSERT INTO session VALUES ({','.join('?' * 13)})", rows)
    book.executemany("INSERT INTO session_plan VALUES (?, ?, ?)",
                     [(row[0], row[1], row[3]) for row in rows])
    book.executemany("INSERT INTO voucher VALUES (?, ?, 1, ?)",
                     [(str(it.number), it.account.encode(), SOLD) for it in members])
    book.executemany("INSERT INTO account VALUES (?, ?)", [
        (name.encode(), it) for name, it in balances_of(members).items()])


def in_memory(config, members, balances):
    """All of them by `feed`."""
    lines = [text for it in members for text in it.lines()] + [f"balance {it}" for it in balances]
    status, output, _ = ran([PROGRAM, "feed", "--config", config], input="\n".join(lines))
    answers = ["reply 05070014", "new"] * len(members)
    answers += [f"balance {name} {it}" for name, it in balances.items()]
    check("memory has each", (status, output.splitlines() == answers), (0, True))


def lists(server, members, balances):
    """The lists of the desk."""
    own = [it for it in members if it.account == "al"]
    below = [{"account": name, "overrun": -it} for name, it in balances.items()]
    sold = [{"sum": 1, "voucher": str(it.number), "when": SOLD} for it in own]
    for path, key, page in (
        ("/me/sessions", GUEST, {"account": "al", "sessions": [it.listed() for it in own]}),
        ("/me/topups", GUEST, {"account": "al", "topups": sold}),
        ("/overruns", CASHIER, {"overruns": below})):
        head, body = server.ask("GET", path, key)
        check(f"{path} has each", (head[:15], json.loads(body) == page), ("HTTP/1.1 200 OK", True))


def refused(server, count):
    """An import of which each line is refused."""
    text = "voucher,account,sum\n" + "v,al,7\n" * count
    told = f"added 0, repeated 0, refused {count}\n" + "".join(
        f"{it + 2}: BadVoucher\n" for it in range(count))
    check("each line is refused", server.told("import", input=text) == (1, told, ""), True)


def run_all(book, statements):
    for it in statements:
        book.execute(it)


def restarted(server, texts):
    """A restart of a client with live sessions."""
    books.write(server.book, lambda book: run_all(book, RESTARTED))
    with server.serving():
        check("a restart is answered", server.answer(line(octets_of((40, ON)), "ap2")),
              "reply 05070014")
    sessions, *others = server.exports()
    closed = sum(",closed,11," in it for it in sessions.splitlines() if it.startswith("ap2,"))
    check("it closes each session", closed, LIVE)
    check("and nothing else", (sessions.startswith(texts[0]), others == texts[1:]), (True, True))


def lines_of(old):
    """The lines of sessions that are carried: two blocks for each, by plan and account."""
    counts = collections.Counter((it.plan, it.account) for it in old)
    for (plan, account), count in sorted(counts.items()):
        block, unit = PRICES[plan]
        octets = 2 * count * block
        yield (f"({plan}),{account},{account},{plan},{octets},0,{octets},{2 * count * unit},0,T,T,"
               "stopped,0,,\n")


def carried(server, members, texts):
    """What `forward` carries, and what stays for being recent."""
    old = [it for it in members if it.last == FIRST]
    recent = [it for it in members if it.last != FIRST]
    accounts = len({it.account for it in old})
    check("each is carried", server.told("forward", "--yes")[1], (
        f"carried {len(old)} sessions of {accounts} accounts\n"
        f"stay: 0 open, {len(recent)} recent, 0 kept, 0 too large\n"))
    rows = [*lines_of(old), *(it.exported() for it in recent)]
    compares(server, [HEADER + server.timed("".join(rows)), *texts[1:]])


def filled(folder, members, now):
    """A server over a book that has them."""
    text = site(CLIENTS, [(name, "both", *it) for name, it in PRICES.items()], "al")
    server = Tables(folder, CLIENTS, text, {0: "T"})
    server.begin = now
    books.write(server.book, lambda book: put(book, members))
    return server


def run(folder):
    """Tries the rows in an empty folder."""
    own, now = random.randint(2_000, 5_000), int(time.time())
    print("members of one account:", own)
    members = members_of(own, now)
    balances = balances_of(members)
    server, older = (filled(os.path.join(folder, it), members, now) for it in ("book", "older"))
    texts = wanted("".join(it.exported() for it in members),
                   "".join(f"{it.number},{it.account},1,{SOLD}\n" for it in members), balances)
    texts = [server.timed(it) for it in texts]
    in_memory(server.config, members, balances)
    compares(server, texts)
    with server.serving():
        lists(server, members, balances)
    refused(server, own)
    check("an audit has each", server.told("check", "--audit")[:2], (0, (
        f"ok: 2 clients, 2 plans, 2 keys\nbalanced: {own + 1} accounts, {2 * own} sessions, "
        f"{2 * own} vouchers\n")))
    carried(server, members, texts)
    books.write(older.book, lambda book: run_all(book, OLDER))
    check("an older book is migrated", older.told("migrate"), (0, "schema 3\n", ""))
    compares(older, texts)
    restarted(older, texts)
