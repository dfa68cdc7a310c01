"""Reports of stamped logins, as `feed` answers them: who pays and by which plan is what a stamp
says that Python's hmac signed, and what nobody signed says nothing. And as `serve` keeps them of
devices behind a proxy, each field as long as it may be.
"""

import hmac
import os
import time

from rows.books import DELAY, INTERIM, MIB, ON, Tables, compares, line, octets_of, wanted
from rows.carried import DAY
from served import CASHIER, PLANS, PROGRAM, SECRET, attribute, check, ran, write

STAMP, BEFORE = "0123456789abcdef", "fedcba9876543210" * 4
SITE = f"""
[[client]]
name = "nas-7"
address = "10.0.0.7"
secret = "{SECRET}"
stamped = true
{PLANS}
[[key]]
token = "{CASHIER}"
cashier = true

[stamp]
secret = "{STAMP}"
old = "{BEFORE}"
"""
PLAIN = set(b"ABCDEFGHIJKLMNOPQRSTUVWXYZabcdefghijklmnopqrstuvwxyz0123456789._-")


def coded(name):
    return "".join(chr(it) if it in PLAIN else f"%{it:02X}" for it in name)


def stamp_of(group, login, name, secret=STAMP):
    """The stamp of a login, by Python's hmac."""
    text = f"{coded(group)};{login};{coded(name)};".encode()
    return text + hmac.digest(secret.encode(), b"stamp;" + text, "md5").hex().encode()


def shown(name):
    return "".join(chr(it) if 0x20 <= it < 0x7F and it != 0x25 else f"%{it:02X}" for it in name)


ANSWER = "reply 05070014"
# Plans, logins and names, with an octet of each kind, and two that would be one if `;` stood for
# itself.
STAMPED = [(b"gold", "", b"al"), (b"x;;y", "", b"z"), (b"x", "0a9f", b"y;;z"), (b"", "7", b"u"),
           ("größe".encode(), "00112233445566778899aabbccddeeff", b"al/%\0\xff")]
STAMPED += [(b"gold", ("abcdef" * 6)[it:33], b"al") for it in range(1, 33)]
STAMPED += [(b"gold", "", b"n" * it) for it in range(1, 215)]
STAMPED += [(b"g" * it, "", b"al") for it in range(217)] + [(b"g" * 108, "7", b"n" * 109)]


def reported(session, value):
    """A line of `feed`: a report of `bo` with this Class, of 3,000,000 octets."""
    pairs = [(40, 3), (44, session.encode()), (1, b"bo"), (25, value), (42, 3_000_000)]
    return f"signed 2000 nas-7 7 {b''.join(attribute(*it) for it in pairs).hex()}"


def fed(folder, name, rows):
    """Gives lines to `feed`, each with the answer that it has to print."""
    config = os.path.join(folder, "site.toml")
    write(config, SITE)
    words = [PROGRAM, "feed", "--config", config]
    status, said, errors = ran(words, input="".join(f"{it}\n" for it, _ in rows))
    printed = said.splitlines()
    wrong = [it for it in zip(rows, printed) if it[0][1] != it[1]]
    check(f"{len(rows)} lines: {name}", (status, len(printed), errors, wrong[:3]),
          (0, len(rows), "", []))


def of_each_size():
    """A stamp of each size that a Class may have, signed by the one secret or the other."""
    for at, (group, login, name) in enumerate(STAMPED):
        session, cost = f"s{at}", 30 if group == b"gold" else 15
        yield reported(session, stamp_of(group, login, name, (STAMP, BEFORE)[at % 2])), ANSWER
        key = f"nas-7 {session}/{login}/{coded(name).replace('%', '%25')}"
        row = f"{shown(name) or '-'} {shown(group) or '-'} 3000000 0 {cost} open 0"
        yield f"session {key}", f"session {key} {row}"


def unsigned():
    """Each octet of a stamp changed to each other one, and values of other kinds."""
    whole = stamp_of(b"gold", "7", b"al")
    others = [whole[:place] + bytes([it]) + whole[place + 1 :]
              for place in range(len(whole)) for it in range(256) if it != whole[place]]
    others += [b"gold", b"gold;;al", b"gold;;al;", whole[:-1], whole + b"0", whole.upper(),
               stamp_of(b"gold", "0A", b"al"), stamp_of(b"gold", "7" * 33, b"al"),
               stamp_of(b"gold", "7", b"al", STAMP[1:])]
    yield from ((reported("s1", it), ANSWER) for it in others)
    yield from ((f"session nas-7 s1/{it}/al", "no session") for it in ("", "7", "0A", "7" * 33))
    yield "balance al", "balance al 0"


# Names of devices, stamps, and the longest name with its text.
LOBBY, OTHER, NUMBER = (32, "lobby 1"), (32, "lobby 2"), (4, b"\xcb\x00\x71\x07")
LONGER, FORGED = (95, b"\x20\x01\x0d\xb8"), stamp_of(b"silver", "", b"al", STAMP[1:])
AL, BO = stamp_of(b"gold", "0a", b"al"), stamp_of(b"silver", "", b"bo")
LONG, WIDE = b"\xff" * 253, "%FF" * 253
# Behind the id of a session of the user `cy`: what is reported of it, by whom. Then what is kept:
# the device, the session, who pays, the class and the price. The first stamp counts, and the first
# report of a session. Without a stamp the user pays, by the plan of the client. A device that is
# called otherwise is charged anew.
KEPT = [
    ("p4", [(25, "silver"), (77, "lobby")], "", "p4//cy", "cy", "gold", 30),
    ("p3", [(25, FORGED), NUMBER], "a%CB%00q%07", "p3//cy", "cy", "gold", 30),
    ("p1", [(25, "silver"), (25, AL), (25, BO), NUMBER, LONGER, LOBBY], "nlobby%201", "p1/0a/al",
     "al", "gold", 30),
    ("p1/0a/al", [LOBBY], "nlobby%201", "p1/0a/al//cy", "cy", "gold", 30),
    ("p1", [(25, AL), OTHER], "nlobby%202", "p1/0a/al", "al", "gold", 30),
    ("p2", [(25, BO), (25, AL), NUMBER, LONGER], "v%20%01%0D%B8", "p2//bo", "bo", "silver", 15)]


def kept(folder):
    """Who pays for what devices behind a proxy report, and the longest names in tables."""
    text = SITE.replace("10.0.0.7", "127.0.0.7").replace(
        "stamped = true", 'stamped = true\nproxy = true\nplan = "gold"')
    server = Tables(os.path.join(folder, "kept"), {"nas-7": "127.0.0.7"}, text,
                    {0: "T", 100 * DAY: "A"})
    used = (40, INTERIM), (42, 3_000_000)
    sent = [octets_of((44, it), (1, "cy"), *used, *more) for it, more, *_ in KEPT]
    sent += [octets_of((44, "p1"), (25, stamp_of(b"silver", "0a", b"al")), *used, LOBBY),
             octets_of((44, LONG), (1, LONG), *used, (32, LONG), (DELAY, 100 * DAY)),
             *(octets_of((40, ON), it) for it in (LOBBY, (32, LONG)))]
    with server.serving():
        check("each is answered", {server.answer(line(it, "nas-7")) for it in sent}, {ANSWER})
    rows = [f"nas-7/{device},{session},{account},{group},3000000,0,3000000,{price},0,T,T,"
            f"{'closed,11' if device == 'nlobby%201' else 'open,0'},,\n"
            for _, _, device, session, account, group, price in KEPT]
    longest = (f"nas-7/n{WIDE},{WIDE}//{'%25FF' * 253},{WIDE},gold,3000000,0,3000000,30,0,A,A,"
               "closed,11,,\n")
    balances = {"al": -60, "bo": -15, "cy": -90, WIDE: -30}
    compares(server, wanted("".join([*rows[:2], longest, *rows[2:]]), "", balances))
    check("an audit", server.told("check", "--audit"), (
        0, "ok: 1 clients, 2 plans, 1 keys\nbalanced: 4 accounts, 7 sessions, 0 vouchers\n", ""))
    told = server.told("forward", "--at", str(int(time.time()) - 90 * DAY), "--yes")
    check("the longest is carried", told[:2], (0, (
        "carried 1 sessions of 1 accounts\nstay: 4 open, 2 recent, 0 kept, 0 too large\n")))
    carried = f"(gold),{WIDE},{WIDE},gold,{3 * MIB},0,{3 * MIB},30,0,T,T,stopped,0,,\n"
    compares(server, wanted("".join([carried, *rows]), "", balances))


def run(folder):
    """Tries the rows in an empty folder."""
    kept(folder)
    fed(folder, "stamps", [*of_each_size()])
    fed(folder, "what is none", [*unsigned()])
