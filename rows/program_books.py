"""Commands over books that SQLite filled: audits, `forward` and its clock, stamps, many sessions;
the words of a script; and outputs that are full.
"""

import os
import sqlite3
import subprocess
import time

from rows.program import ACCOUNTS, DAY, DIFFER, MADE, SIZES, UNREAD, VOUCHER, Site
from rows.program import done, refused, words_of
from served import CLIENT_AND_KEYS, PLANS, PROGRAM, check, plan, ran

OPEN, CLOSED, STOPPED = 0, 1, 2
MIB, MOST, OLD, LATE = 1 << 20, (1 << 63) - 1, 4_000_000, 1_700_000_000


def fill(site, sessions, vouchers=(), balances=()):
    """Puts sessions into a book: their client, id, account, plan, octets, state and last moment."""
    book = sqlite3.connect(site.book)
    for *key, account, plan_of, octets, state, last in sessions:
        row = *key, account, plan_of, octets, 0, 60, 1_000, last, state, 4, b"00-11", b"\n\0\0\t"
        book.execute(f"INSERT INTO session VALUES ({', '.join('?' * 13)})", row)
        book.execute("INSERT INTO session_plan VALUES (?, ?, ?)", (*key, plan_of))
    book.executemany("INSERT INTO voucher VALUES (?, ?, ?, 1000)", vouchers)
    book.executemany("INSERT INTO account VALUES (?, ?)", balances)
    book.commit()
    book.close()


def forwarded(count, accounts, *stays, verb="carried", before=()):
    """What `forward` prints; the numbers are those that are open, recent, kept and too large."""
    return done(*before, f"{verb} {count} sessions of {accounts} accounts",
                "stay: {} open, {} recent, {} kept, {} too large".format(*stays))


def balanced(accounts, sessions, vouchers):
    """What an audit prints that finds nothing."""
    counts = f"{accounts} accounts, {sessions} sessions, {vouchers} vouchers"
    return done(SIZES[1][:-1], f"balanced: {counts}")


AHEAD, APART = (refused(f"forward: {it}; give --yes if the clock is right") for it in (
    "no session heard of 1 to 8 days ago", "the file is not of the last 7 days"))
KEPT = [
    ("nas-7", b"s1", b"al", b"gold", MIB + 1, STOPPED, OLD),
    ("nas-7", b"s2", b"al", b"default", 2_000_001, OPEN, OLD + 1),
    ("nas-7", b"s3", b"al", b"gold", 7, CLOSED, OLD + 2),
    ("nas-8", b"s4", b"bo", b"gold", 4 * MIB, STOPPED, OLD + 3),
    ("nas-8", b"s5", b"bo", b"default", 8, OPEN, LATE),
    ("nas-9", b"s6", b"cy", b"gold", 9, CLOSED, LATE),
    ("nas-9", b"s7", b"cy", b"gold", MOST, STOPPED, OLD + 4)]
CREDITED = [("V-1", b"al", 300), ("V-2", b"al", 44), ("V-3", b"bo", 600), ("V-4", b"cy", 9)]
OWED = 87_960_930_222_081
# A balance that is one too high, a session of a plan that is not there, and a lost account.
SPOILED = """UPDATE account SET balance = 300 WHERE name = x'616c'; DELETE FROM account WHERE name =
x'6379'; UPDATE session_plan SET plan_class = x'74696e' WHERE id = x'7334';"""
MENDED = f"""UPDATE account SET balance = 299 WHERE name = x'616c'; INSERT INTO account VALUES
(x'6379', {-OWED}); UPDATE session_plan SET plan_class = x'676f6c64' WHERE id = x'7334';"""
FOUND = (SIZES[1] + "al: balance 300, vouchers 344, sessions 45\n"
         "bo: balance 555, vouchers 600, sessions 5, and 1 sessions of no plan\n"
         "cy: no balance, and the session nas-9 s6\ncy: no balance, and the session nas-9 s7\n"
         "cy: no balance, and the voucher V-4\n")
ASKED = f"forward --yes --at {LATE} --silent 60 --keep nas-8"
GOING = ["open: nas-7 s2 of al, silent since 4000001"]
CARRIED = [
    ("forward --silent 60", AHEAD), ("check --audit", balanced(3, 7, 4)),
    ("forward --yes --at 9007199254740991", refused("forward: less than 30 days ago")),
    (f"{ASKED} --oldest-report 9999", refused("forward: less than --oldest-report ago")),
    (f"{ASKED} --oldest-report 60 --dry-run",
     forwarded(4, 2, 0, 1, 2, 0, verb="would carry", before=GOING)),
    (f"{ASKED} --keep nas-9 --dry-run",
     forwarded(3, 1, 0, 0, 4, 0, verb="would carry", before=GOING)),
    (ASKED, forwarded(3, 1, 0, 1, 2, 1, before=GOING)), ("check --audit", balanced(3, 6, 4)),
    (ASKED, forwarded(0, 0, 0, 1, 2, 1)),
    ("export balances", done(ACCOUNTS, "al,299,0", "bo,555,0", f"cy,{-OWED},{OWED}"))]


def audited(folder):
    """What an audit finds, and what is carried forward, or is too large for that."""
    site = Site(folder, "audited")
    site.comes(("init", MADE))
    fill(site, KEPT, CREDITED, [(b"al", 299), (b"bo", 555), (b"cy", -OWED)])
    site.alter(SPOILED)
    site.comes(("check --audit", (3, FOUND, "db: Unbalanced\n")))
    site.alter(MENDED)
    site.comes(*CARRIED)


# How long ago a session was heard of, and the files were changed, and how `forward` ends.
FINE = forwarded(1, 1, 0, 1, 0, 0, verb="would carry")
CLOCKS = [
    (8 * DAY - 60, 3, FINE), (8 * DAY + 60, 3, AHEAD), (DAY + 60, 3, FINE), (DAY - 60, 3, AHEAD),
    (-365 * DAY, 3, AHEAD), (3 * DAY, 7 * DAY - 60, FINE), (3 * DAY, 7 * DAY + 60, APART),
    (3 * DAY, 60 - DAY, FINE), (3 * DAY, -60 - DAY, APART)]


def clocks(folder):
    """A clock is refused that agrees with no report of any account, or not with the files. A line
    is no report, and a client whose sessions stay tells nothing.
    """
    site, now, asked = Site(folder, "clocks"), int(time.time()), "forward --dry-run"
    site.comes(("init", MADE))
    fill(site, [("nas-7", it, b"bo", b"gold", 9, STOPPED, OLD) for it in (b"old", b"heard")], [],
         [(it, -10) for it in (b"al", b"bo", b"cy")])
    heard = "UPDATE session SET {} WHERE id = CAST('heard' AS BLOB);"
    for number, (ago, changed, wanted) in enumerate(CLOCKS):
        account = ("al", "cy")[number % 2]
        site.alter(heard.format(f"last_seen = {now - ago}, account = CAST('{account}' AS BLOB)"))
        os.utime(site.book, (now - changed,) * 2)
        site.comes((asked, wanted), (asked + " --yes", FINE))
    kept = forwarded(0, 0, 0, 0, 2, 0, verb="would carry")
    site.comes((asked + " --yes --keep nas-7", kept), (asked + " --keep nas-7", kept))
    for client, more, wanted in (("nas-8", "", FINE), ("nas-8", " --keep nas-8", AHEAD),
                                 ("(gold)", "", AHEAD)):
        both = heard.format(f"client = '{client}'")
        site.alter(heard.format(f"last_seen = {now - 3 * DAY}") + both + both.replace(
            "session SET", "session_plan SET"))
        site.comes((asked + more, wanted))


STAMP = '[stamp]\nsecret = "a-secret-of-twenty-four."\nold = "another-secret-of-24-old"\n'
CLIENTS = [("ap1", "stamped = true\n"), ("px", "stamped = true\nproxy = true\n"), ("old", "")]
# Two open sessions that began before their clients' logins were stamped, and others.
BEGUN = [
    ("ap1", b"S-1/al b", OPEN), ("px", b"S-2//al%20b", OPEN), ("ap1", b"S-3//al%20b", OPEN),
    ("px/nAP", b"S-4/0af9/al%20b", OPEN), ("ap1", b"S-5", CLOSED), ("old", b"S-6", OPEN)]
KEYS = [
    ("key --until 253402300799 n%00/%c3",
     done("6e002fc3.253402300799.8b85a0fa887d678fbe7c61e635d29a6f")),
    ("key --until 9007199254740991 room%2012",
     done("726f6f6d203132.9007199254740991.8440eda8d3ef1818d7a4f90114638f0a")),
    ("key --config plain --until 1000 al", refused("config: NoStamp in Top 0")),
    ("key --config none --until 1000 al", UNREAD)]


def stamps(folder):
    """Keys, which Python's hmac made; and how many open sessions have no stamp."""
    clients = "".join(
        f'[[client]]\nname = "{name}"\naddress = "10.0.0.{at}"\nsecret = "s{at}"\n{more}'
        for at, (name, more) in enumerate(CLIENTS))
    site, sizes = Site(folder, "stamps", clients + PLANS + STAMP), "ok: 3 clients, 2 plans, 0 keys"
    site.put("plain", clients.replace("stamped", "# ").replace("proxy", "# ") + PLANS)
    site.comes(*KEYS, ("init", MADE), ("check", done(sizes)))
    fill(site, [(client, name, b"al b", b"gold", 9, state, OLD) for client, name, state in BEGUN])
    told = "2 open sessions of stamped clients have no stamp, and are charged anew if they go on"
    site.comes(("check", done(sizes, told)), ("check --config plain", done(sizes)))


CLIENT, WIDE, OTHER = "CLIENT-OF-32-CHARACTERS-ABCDEFGH", "%FF" * 253, "%FE" * 253
# 100,001 sessions: an old open one of each of 2,001 accounts, and all others of one account.
SESSIONS = """WITH RECURSIVE n(i) AS (SELECT 1 UNION ALL SELECT i + 1 FROM n WHERE i < 100001)
INSERT INTO session SELECT 'nas-7', CAST(printf('s%06d', i) AS BLOB), CAST(CASE WHEN i < 2002 THEN
printf('a%06d', i) ELSE 'al' END AS BLOB), CAST('gold' AS BLOB), 9, 0, 60, 1000, 4000000,
CASE WHEN i < 2002 THEN 0 ELSE 2 END, 4, x'', x'' FROM n;
INSERT INTO session_plan SELECT client, id, class FROM session;
INSERT INTO account SELECT account, -10 * count(*) FROM session GROUP BY account;"""


def many(folder):
    """Names as long as they may be are printed whole. So are many sessions, and how far it is."""
    site, wide, other = Site(folder, "long-names"), b"\xff" * 253, b"\xfe" * 253
    site.comes(("init", MADE))
    fill(site, [(CLIENT, wide, wide, b"gold", 9, OPEN, OLD),
                (CLIENT, other, other, b"gold", 9, STOPPED, (1 << 53) - 1)], [], [(wide, 7)])
    found = (f"{SIZES[1]}{WIDE}: balance 7, vouchers 0, sessions 10\n"
             f"{OTHER}: no balance, and the session {CLIENT} {OTHER}\n")
    listed = [f"open: {CLIENT} {WIDE} of {WIDE}, silent since {OLD}"]
    site.comes(("check --audit", (3, found, "db: Unbalanced\n")),
               ("forward --yes --silent 60 --at 9", forwarded(1, 1, 0, 0, 0, 0, before=listed)))
    site = Site(folder, "many-sessions")
    site.comes(("init", MADE))
    site.alter(SESSIONS)
    site.comes(("check --audit", (*balanced(2_002, 100_001, 0)[:2], "100000 sessions\n")))
    listed = [f"open: nas-7 s{it:06} of a{it:06}, silent since {OLD}" for it in range(1, 2_002)]
    site.alter("DELETE FROM session_plan WHERE id IN (SELECT id FROM session WHERE state = 2);"
               "DELETE FROM session WHERE state = 2;")
    progress = "1000 of 2002 accounts\n2000 of 2002 accounts\n"
    wanted = *forwarded(2_001, 2_001, 0, 0, 0, 0, before=listed)[:2], progress
    site.comes((f"forward --yes --at {OLD} --silent 60", wanted))
    site.put("more", CLIENT_AND_KEYS + PLANS + "".join(plan(f"class {it}") for it in range(254)))
    site.comes(("check --config more", DIFFER), ("plans --config more", done("added 254")),
               ("check --config more", done("ok: 1 clients, 256 plans, 2 keys")))
    site.alter("DROP TABLE session_plan; DROP TABLE plan_count; UPDATE meta SET value = 1;")
    site.comes(("migrate --config more", done("schema 3")),
               ("check --config more", done("ok: 1 clients, 256 plans, 2 keys")))


# Lines of a script over the sample site, with their answers, and lines that are none.
GOOD = [
    ("balance -", "balance - 0"), ("balance %2Da", "balance -a 0"), ("", ""),
    ("packet 00000000000000000001 0.0.0.0 AbcD", "drop 1"), ("session ap1 s1", "no session"),
    ("topup 1000 V-1 al 00000000000000000500", "new"), ("balance al", "balance al 500"),
    ("signed 1 ap1 1 " + "00" * 4_076, "drop 6")]
BAD = [
    "hello", "Balance al", "balance", "balance  al", "balance al bo", "balance \udcff",
    "topup 1000 V-1 al 000000000000000000500", "session ap2 s1", "signed 1000 ap1 256 -",
    "signed 1 ap1 1 " + "00" * 4_077, "packet 1000 10.0.0.01 -", "packet 1000 10.0.0.2 123"]
ENDS = "\n" * (1 << 24)


def scripts(folder):
    """Lines of a script, inputs as long as they may be, and one that cannot be read."""
    good, answers = ("".join(f"{it}\n" for it in each) for each in zip(*GOOD))
    for name, text, wanted in (
        ("lines", good, (0, answers.replace("\n\n", "\n"))),
        ("bad lines", "\n".join(BAD), (1, "bad line\n" * len(BAD))), ("no line", "", (0, "")),
        ("16 MiB", ENDS, (0, "")), ("an octet more", ENDS + "\n", (1, "too long\n"))):
        check(name, ran([PROGRAM, "feed"], input=text, errors="surrogateescape")[:2], wanted)
    told = ran(["sh", "-c", f'"{PROGRAM}" feed < .'], cwd=folder)
    check("what cannot be read", told, (1, "cannot read\n", ""))


PRINTING = [
    "init", "import", "plans", "plans --list", "forward", "check -", "check", "check --audit",
    "export balances", "export overruns", "export topups", "export sessions", "key --until 7 al",
    "feed"]


def full(folder):
    """A command whose output is full does not end as if all was printed."""
    site = Site(folder, "full", CLIENT_AND_KEYS + PLANS + STAMP)
    ports = f"--radius-port {site.radius} --desk-port {site.desk}"
    for line in (*PRINTING, f"serve --turns 1 {ports}"):
        text = "balance al\n" if line == "feed" else VOUCHER
        with open("/dev/full", "wb") as output:
            ended = subprocess.run(words_of(line), input=text.encode(), stdout=output,
                                   stderr=subprocess.PIPE, cwd=site.folder)
        check(f"{line}: a full output", (ended.returncode, ended.stderr), (1, b""))
    site.comes(("check", SIZES), ("export balances", done(ACCOUNTS, "al,500,0")))


def run(folder):
    """Tries the rows in an empty folder."""
    for part in (audited, clocks, stamps, many, scripts, full):
        part(folder)
