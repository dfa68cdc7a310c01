"""Sessions that `forward` carries, late reports of them, and fields of the greatest length.

The book has sessions of several plans and ages, and a voucher, a session and an account of which
each field is as long as it may be. In texts a moment of this run is written as T, of its last part
as U, and those of 20, 70 and 100 days earlier as C, B and A.
"""

import os
import time

from rows.books import CALLING, CAUSE, DELAY, FRAMED, INTERIM, MIB, OK, ON, SECONDS, STOP
from rows.books import Tables, compares, line, octets_of, responds, site, used, wanted
from served import CASHIER, PROGRAM, check, ran

DAY = 86_400
# 253 octets, each of which is shown by three characters.
LONG = ("€" * 84 + "%").encode()
NAME = "".join(f"%{it:02X}" for it in LONG)
LONGEST = "CLIENT-OF-32-CHARACTERS-ABCDEFGH"
TOKEN = "a-token-of-64-characters-0000000000000000000000000000000000000AB"
IMPORTED, SOLD = "IMPORTED-VOUCHER-OF-32-CHARACTER", "SOLD-VOUCHER-OF-32-CHARACTERS-AB"
CLIENTS = {"ap1": "127.0.0.1", "ap2": "127.0.0.2", "books": "127.0.0.8", LONGEST: "127.0.0.3"}
PLANS = [("default", "both", 1_000_000, 5), ("up", "in", 1000, 3), ("down", "out", 1000, 2),
         ("free", "both", 1000, 0), ("fee", "both", 1 << 53, 7), (LONG.decode(), "both", MIB, 10)]
# 600 blocks of the plan fee, of which a line holds 1,023.
FEE = 600 << 53


def said(session, account, plan, octets, other, days, kind=STOP, client="ap1"):
    """A report that is so many days late."""
    more = [(DELAY, days * DAY), (SECONDS, 60), (CAUSE, 1), (CALLING, "00-11"),
            (FRAMED, bytes([10, 0, 0, 9]))]
    return line(used(session, account, octets, other, plan, kind, more), client)


# Of al: three blocks in, one in, two out at a client that restarts, two of default, five that cost
# nothing, one open, one open and silent, one recent, one at a client that is kept.
OLD = said("s1", "al", "up", 2500, 9000, 100)
SAID = [
    OLD, said("s2", "al", "up", 1, 0, 100),
    said("s3", "al", "down", 7, 1001, 100, INTERIM, "ap2"), line(octets_of((40, ON)), "ap2"),
    said("s4", "al", "later", 1_000_000, 1, 100), said("s5", "al", "free", 4000, 1, 100),
    said("s6", "al", "up", 10, 0, 0, INTERIM), said("s7", "al", "up", 20, 0, 70, INTERIM),
    said("s8", "al", "up", 30, 0, 20), said("s9", "al", "up", 40, 0, 100, client="books"),
    said("f1", "bo", "fee", FEE, 0, 100), said("f2", "bo", "fee", 0, FEE, 100),
    line(used(LONG, LONG, MIB, 1, LONG, STOP, [(DELAY, 100 * DAY), (CALLING, LONG)]), LONGEST)]
SALE = f'{{"account":"{NAME}","sum":7,"voucher":"{SOLD}"}}'
UPLOAD = f"voucher,account,sum\n{IMPORTED},{NAME},5\nV-1,al,100\n"
TOPUPS = f"{IMPORTED},{NAME},5,T\n{SOLD},{NAME},7,T\nV-1,al,100,T\n"
# What the desk answers about the longest account, the first of two that are below 0.
DESK = [
    ("the longest sale", ("POST", "/topups", CASHIER, SALE), "201 Created", '{"result":"new"}'),
    ("the longest again", ("POST", "/topups", CASHIER, SALE), OK, '{"result":"repeat"}'),
    ("another sum", ("POST", "/topups", CASHIER, SALE.replace("7,", "8,")), "409 Conflict",
     '{"error":"voucher differs"}'),
    ("the longest balance", ("GET", "/me/balance", TOKEN), OK,
     f'{{"account":"{NAME}","balance":-8,"overrun":8}}'),
    ("the longest session", ("GET", "/me/sessions", TOKEN), OK,
     f'{{"account":"{NAME}","sessions":[{{"calling":"{NAME}","cause":0,"charged":"20",'
     f'"class":"{NAME}","client":"{LONGEST}","first":A,"framed":"","input":1048576,"last":A,'
     f'"output":1,"seconds":0,"session":"{NAME}","state":"stopped","total":1048577}}]}}'),
    ("the longest vouchers", ("GET", "/me/topups", TOKEN), OK,
     f'{{"account":"{NAME}","topups":[{{"sum":5,"voucher":"{IMPORTED}","when":T}},'
     f'{{"sum":7,"voucher":"{SOLD}","when":T}}]}}'),
    ("the longest overrun", ("GET", "/overruns"), OK,
     f'{{"overruns":[{{"account":"bo","overrun":8400}},{{"account":"{NAME}","overrun":8}}]}}')]
UNSURE = (1, "", "forward: no session heard of 1 to 8 days ago; give --yes if the clock is right\n")
# Lines about it after all reports, and what `feed` answers.
ASKED = [
    (f"topup 3000 {IMPORTED} {NAME} 5", "new"), (f"topup 3000 {SOLD} {NAME} 7", "new"),
    (f"topup 3000 {SOLD} {NAME} 7", "repeat"), (f"topup 3000 {SOLD} {NAME} 8", "differs"),
    (f"balance {NAME}", f"balance {NAME} -8"), (f"session {LONGEST} {NAME}",
     f"session {LONGEST} {NAME} {NAME} {NAME} 1048576 1 20 stopped 0")]
STAY = "stay: 1 open, 1 recent, 1 kept, 0 too large\n"
LISTED = ["default,1000000,5,both", "up,1000,3,in", "down,1000,2,out", "free,1000,0,both",
          "fee,9007199254740992,7,both", f"{NAME},1048576,10,both"]
# Reports that are as old as they may be, or a second older, by their client. A rule comes before
# the age, and a restart has none. No two drops have both their reason and their client alike.
PAST = (DELAY, 90 * DAY + 1)
AGED = [
    ("ap1", [(40, STOP), (44, "e1"), (1, "eve"), (42, 1), (DELAY, 90 * DAY)], "reply 05070014"),
    ("ap1", [(40, STOP), (44, "e2"), (1, "eve"), (42, 1), PAST], "drop 14"),
    ("ap2", [(40, STOP), (44, "e3"), (1, "eve"), (42, 1), (DELAY, 0xffffffff)], "drop 14"),
    ("ap2", [(40, STOP), PAST], "drop 9"), ("ap2", [(40, ON), PAST], "reply 05070014"),
    ("ap2", [(40, STOP), (44, "e4"), (42, b""), PAST], "drop 10")]


def lines(up, kept):
    """The sessions after a run: what becomes of the line of up and of s9 differs."""
    return f"""\
(%){NAME},2097152,0,2097152,20,0,T,T,stopped,0,,
(default),al,al,default,2000000,0,2000000,10,0,T,T,stopped,0,,
(down),al,al,down,0,2000,2000,4,0,T,T,stopped,0,,
(fee),bo,bo,fee,5404319552844595200,0,5404319552844595200,4200,0,T,T,stopped,0,,
(fee)2,bo,bo,fee,5404319552844595200,0,5404319552844595200,4200,0,T,T,stopped,0,,
(free),al,al,free,5000,0,5000,0,0,T,T,stopped,0,,
(up),al,al,up,{up},stopped,0,,
ap1,s6,al,up,10,0,10,3,60,T,T,open,0,00-11,10.0.0.9
ap1,s8,al,up,30,0,30,3,60,C,C,stopped,1,00-11,10.0.0.9
books,s9,al,up,{kept},60,A,A,stopped,1,00-11,10.0.0.9
""".replace("%)", f"{NAME}),{NAME},{NAME},", 1)


def forward(server, name, *printed):
    """Carries what ended 90 days ago, or is silent for 60, and is not of `books`."""
    words = "--at", str(int(time.time()) - 90 * DAY), "--silent", "60", "--keep", "books"
    status, output, _ = server.told("forward", *words, "--yes")
    check(name, (status, server.timed(output)), (0, "".join(printed) + STAY))


def late(server):
    """Reports of a session that was carried, and of a kept one."""
    with server.serving("--oldest-report", "90"):
        check("a late report is dropped", server.answer(OLD), "drop 14")
        check("and charges nothing", server.answer("balance al"), "balance al 62")
    with server.serving():
        check("without a guard it is answered", server.answer(OLD), "reply 05070014")
        check("and charged as a new session", server.answer("balance al"), "balance al 53")
        more = said("s9", "al", "up", 2040, 0, 100, client="books")
        check("a report of a kept client's", server.answer(more), "reply 05070014")
        check("is charged for what is new", server.answer("balance al"), "balance al 47")
        check("an old voucher is a repeat", server.answer("topup 0 V-1 al 100"), "repeat")


def aged(server):
    """Which reports are too old."""
    with server.serving("--oldest-report", "90"):
        for client, pairs, answer in AGED:
            check(f"{answer}: by its age", server.answer(line(octets_of(*pairs), client)), answer)
        check("and what is charged", server.answer("balance eve"), "balance eve -5")


def run(folder):
    """Tries the rows in an empty folder."""
    names = {0: "T", 100 * DAY: "A", 70 * DAY: "B", 20 * DAY: "C"}
    text = site(CLIENTS, PLANS, NAME, TOKEN)
    server = Tables(os.path.join(folder, "book"), CLIENTS, text, names)
    told = ran([PROGRAM, "feed", "--config", server.config],
               input="\n".join([*SAID, *(it for it, _ in ASKED)]))[1].splitlines()
    check("memory has the longest", told, ["reply 05070014"] * 13 + [it for _, it in ASKED])
    for printed in ("added 2, repeated 0, refused 0\n", "added 0, repeated 2, refused 0\n"):
        check("the upload", server.told("import", input=UPLOAD), (0, printed, ""))
    with server.serving():
        check("all is answered", {server.answer(it) for it in SAID * 2}, {"reply 05070014"})
        responds(server, DESK)
    found = server.exports()[0].splitlines()[1]
    check("the longest line", found, f"{LONGEST},{NAME},{NAME},{NAME},1048576,1,1048577,20,0,A,A,"
          f"stopped,0,{NAME},")
    audit = "ok: 4 clients, 6 plans, 2 keys\nbalanced: 3 accounts, {} sessions, 3 vouchers\n"
    check("an audit", server.told("check", "--audit"), (0, audit.format(12), ""))
    check("no report tells that the clock is right", server.told("forward"), UNSURE)
    forward(server, "a run", "open: ap1 s7 of al, silent since B\n",
            "carried 9 sessions of 3 accounts\n")
    balances = {"al": 62, "bo": -8400, NAME: -8}
    compares(server, wanted(lines("5000,0,5000,15,0,T,T", "40,0,40,3"), TOPUPS, balances))
    forward(server, "the same again", "carried 0 sessions of 0 accounts\n")
    late(server)
    time.sleep(1.1)
    server.last = int(time.time())
    forward(server, "a later run", "carried 1 sessions of 1 accounts\n")
    balances = {"al": 47, "bo": -8400, NAME: -8}
    compares(server, wanted(lines("8000,0,8000,24,0,T,U", "2040,0,2040,9"), TOPUPS, balances))
    check("another audit", server.told("check", "--audit"), (0, audit.format(10), ""))
    check("the plans", server.told("plans", "--list")[1].splitlines()[1:], LISTED)
    aged(server)
