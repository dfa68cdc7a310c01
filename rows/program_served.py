"""Servers on loopback: what they print, count and write while their files change, fill or go.

A server makes a round after each 256 turns. So datagrams that are dropped stir it.
"""

import concurrent.futures
import contextlib
import http.client
import itertools
import os
import re
import resource
import shutil
import signal
import socket
import sqlite3
import subprocess
import time

from rows.program import ACCOUNTS, ADDED, DEFAULT, GOLD, HEADER, MADE, SILVER, VOUCHER, Site, done
from served import CLIENT_AND_KEYS, FOREVER, GUEST, PLANS, PROGRAM, SECRET, check, is_response
from served import signed, text_of, until, write

NONE = "events 0, replies 0, mute 0, faults 0"
# Ports that the system gives no caller.
PORTS = itertools.count(20_000 + os.getpid() % 10_000)


def caller(address="127.0.0.1"):
    """A socket for datagrams at an address of its own port."""
    found = socket.socket(socket.AF_INET, socket.SOCK_DGRAM)
    found.bind((address, 0))
    return found


class Live(Site):
    """A site with a book, whose server is asked and stirred."""

    def __init__(self, folder, name):
        super().__init__(folder, name)
        self.radius, self.desk, self.wanted = next(PORTS), next(PORTS), ""
        self.comes(("init", MADE))

    def answers(self, session, is_wanted=True, source="127.0.0.1", secret=SECRET):
        """Whether a Start is answered: it waits longer for an answer that is to come."""
        request = signed(7, [(40, 1), (44, session.encode()), (1, b"room 12")], secret)
        with caller(source) as sender, contextlib.suppress(TimeoutError):
            sender.settimeout(10 if is_wanted else 0.5)
            sender.sendto(request, ("127.0.0.1", self.radius))
            return is_response(sender.recv(4096), request, secret)
        return False

    def stirred(self, holds, seconds=20):
        """Whether something holds soon, while the server is stirred."""
        with caller() as sender:
            stir = lambda: [sender.sendto(b"stir", ("127.0.0.1", self.radius)) for _ in range(60)]
            return until(lambda: (stir(), holds())[1], seconds, 0.02)

    def says(self, name, *lines):
        """Compares what is printed next."""
        self.wanted += "".join(f"{it}\n" for it in lines)
        self.stirred(lambda: len(text_of(self.errors)) >= len(self.wanted))
        check(f"{self.name}: {name}", text_of(self.errors), self.wanted)

    def rests(self, seconds=1.5):
        """Whether nothing is printed for so long."""
        self.stirred(lambda: text_of(self.errors) != self.wanted, seconds)
        check(f"{self.name}: nothing more", text_of(self.errors), self.wanted)


def alone(folder):
    """A server of one turn at 16 addresses, and ports that another program has."""
    site = Live(folder, "alone")
    site.comes(("import", ADDED, VOUCHER))
    with socket.socket() as desk, caller() as reports:
        desk.bind(("127.0.0.1", 0))
        desk.listen()
        taken, port = desk.getsockname()[1], reports.getsockname()[1]
        binds = "".join(f" --bind 127.0.0.{it}" for it in (1, *range(3, 18)))
        line, unbound = f"serve --turns 1 --desk-port {taken}", "socket: cannot bind\n"
        free, other = f"{line} --radius-port {site.radius}", "another program has this port\n"
        site.comes(
            (f"{free}{binds} --desk-bind 127.0.0.2 --status s --balances b", done("serving", NONE)),
            (free, (4, "", unbound)),
            (f"{free} --explain", (4, "", f"{unbound}explained: TCP 127.0.0.1:{taken}: {other}")),
            (f"{line} --radius-port {port} --explain",
             (4, "", f"{unbound}explained: UDP 127.0.0.1:{port}: {other}")))
    check("its balances", text_of(site.at("b")), f"{ACCOUNTS}\nal,500,0\n")
    check("its counts", values_of(site.at("s"))["accounts"], "1")


# 1,023 more clients, of which one reports, and 4,094 more keys.
MORE = "".join(
    [f'\n[[client]]\nname = "{it}"\naddress = "127.0.{it >> 8}.{it & 255}"\nsecret = "other-{it}"\n'
     for it in range(2, 1_025)]
    + [f'\n[[key]]\ntoken = "guest-key-000{it}"\naccount = "g-{it}"\n'
       for it in range(10_000, 14_094)])
SITE, AGAIN = CLIENT_AND_KEYS + PLANS, "config: read again: {} clients, {} plans, {} keys"
SAME, STAYS = AGAIN.format(1, 2, 2), "; the plans stay"
# What the configuration becomes, and what is printed of it.
TEXTS = [
    (SITE + MORE, [AGAIN.format(1_024, 2, 4_096)]),
    (SITE + '\n[[key]]\ntoken = "short"\naccount = "al"\n', [
        "config: BadKey in Key 2; the old one stays",
        "explained: {} line 25: token of this [[key]] is 16 to 64 of A-Z a-z 0-9 - in quotes"]),
    (SITE.replace("unit = 10", "unit = 11"), [f"{SAME}; plan gold is changed{STAYS}"]),
    (SITE + SILVER, [f"{SAME}; plan silver is new{STAYS}"]),
    (CLIENT_AND_KEYS + DEFAULT, [f"{SAME}; plan gold is missing{STAYS}"]),
    (CLIENT_AND_KEYS + GOLD, ["config: NoDefault in Top 0; the old one stays",
                              "explained: {}: no [[plan]] has the class default"]),
    (CLIENT_AND_KEYS + DEFAULT + GOLD, [SAME]),
    (None, ["file: cannot read; the old one stays", "explained: {}: there is no such file"])]


def texts(folder):
    """A configuration that is rewritten, broken and mended while it is served."""
    site, path, other = Live(folder, "texts"), ["GET", "/me/balance"], ("127.0.0.2", "other-2")
    is_current = lambda: values_of(site.at("s"))["config_is_current"]
    with site.serving("--quiet", "--explain", "--status", site.at("s")):
        check("who is no client", site.answers("s", False, *other), False)
        check("it is current", is_current(), "1")
        for number, (text, lines) in enumerate(TEXTS):
            write(site.config, text) if text else os.remove(site.config)
            site.says(f"text {number}", *(it.format(site.config) for it in lines))
            is_other = site.answers(f"t{number}", number < 2, *other)
            found = (is_other, site.answers(f"u{number}"), site.ask(*path, GUEST)[0],
                     site.ask(*path, "guest-key-00014093")[0])
            check("who is answered", found, (number < 2, True, 200, 200 if number < 2 else 401))
        check("it is no more", site.stirred(lambda: is_current() == "0"), True)
        site.rests()


def other_file(path):
    """A copy of the same moments comes in the place of a file."""
    shutil.copy2(path, path + "~")
    os.replace(path + "~", path)


# What is done with a configuration whose text stays.
TOUCHES = [[lambda path, it=it: os.utime(path, ns=(0, 10**18 + it)) for it in (5, 6, -10**9)],
           [lambda path: os.chmod(path, 0o640), other_file]]
if os.getuid() == 0:
    TOUCHES.append([lambda path: os.chown(path, 1001, -1), lambda path: os.chown(path, -1, 1002)])


def touches(folder, number):
    """A file that is touched is read again, whatever of it changed, and no file that is not."""
    site = Live(folder, f"touches-{number}")
    with site.serving("--quiet"):
        for touch in TOUCHES[number]:
            touch(site.config)
            site.says("a touch", SAME)
        site.rests()


LOST, BACK = ("db: the name of {}, or of its log, leads to " + it for it in (
    "another file or to none: nothing is answered", "its file again"))


def led(book, target):
    """A link leads to another file."""
    os.symlink(target, book + "~")
    os.replace(book + "~", book)


def in_place(name):
    """A file is in the place of a folder."""
    os.rename(name, name + ".kept")
    write(name, "no folder")


HOME_LOG = lambda it: os.path.join(os.path.dirname(it), "home/book-wal")
# What is done with the names of a book, whether it is there then, and what is printed. Where a link
# to itself leads cannot be told.
DEEDS = {
    "book": [(lambda it: os.rename(it, it + ".kept"), False, LOST),
             (lambda it: shutil.copy(it + ".kept", it), False, None),
             (lambda it: os.replace(it + ".kept", it), True, BACK)],
    "log": [(lambda it: os.rename(it + "-wal", it + ".kept"), False, LOST),
            (lambda it: os.replace(it + ".kept", it + "-wal"), True, BACK)],
    "link": [(lambda it: led(it, "book"), True, None),
             (lambda it: led(it, "home/book"), True, None),
             (lambda it: os.rename(HOME_LOG(it), HOME_LOG(it) + ".kept"), False, LOST),
             (lambda it: os.replace(HOME_LOG(it) + ".kept", HOME_LOG(it)), True, BACK),
             (lambda it: in_place(os.path.join(os.path.dirname(it), "home")), False, LOST)]}


def behind_link(site):
    """Moves a book into a folder, and leads its name there."""
    os.mkdir(site.at("home"))
    for it in ("book", "book-wal"):
        os.rename(site.at(it), site.at("home/" + it))
    led(site.book, "home/book")


def away(folder, name):
    """Nothing is answered while a name of the book, or of its log, leads elsewhere."""
    site = Live(folder, f"away-{name}")
    if name == "link":
        behind_link(site)
    with site.serving("--quiet", "--status", site.at("s")):
        for number, (deed, is_there, line) in enumerate(DEEDS[name]):
            deed(site.book)
            site.says(f"deed {number}", line.format(site.book)) if line else site.rests(2.5)
            check("a report is answered", site.answers(f"s{number}", is_there), is_there)


def outages(folder):
    """A file of balances that cannot be written is told once, until one is written again."""
    site = Live(folder, "outages")
    path, more = site.at("at/balances"), ["--status", site.at("none/s")]
    with site.serving("--quiet", "--balances", path, "--balances-every", "1", *more):
        for lines in (("balances", "status"), ("balances",)):
            site.says("no folder", *(f"{it}: cannot write" for it in lines))
            os.mkdir(site.at("new"))
            site.put("new/balances.new", "account,bal")
            os.chmod(site.at("new/balances.new"), 0o666)
            os.rename(site.at("new"), site.at("at"))
            check("it is written", site.stirred(lambda: text_of(path) == ACCOUNTS + "\n"), True)
            found = os.listdir(site.at("at")), os.stat(path).st_mode & 0o777
            check("whole, for its owner and group", found, (["balances"], 0o640))
            shutil.rmtree(site.at("at"))
        site.says("no folder", "balances: cannot write")


def long_files(folder, count):
    """A file of so many accounts is whole; one of more than 10,000 rests for an hour."""
    site = Live(folder, f"long-{count}")
    path, counts = site.at("balances"), ["--status", site.at("s")]
    rows = [f"a{it:06},{it - 1_000},{max(0, 1_000 - it)}" for it in range(count)]
    with sqlite3.connect(site.book) as book:
        book.executemany("INSERT INTO account VALUES (?, ?)",
                         [(b"a%06d" % it, it - 1_000) for it in range(count)])
    book.close()
    with site.serving("--quiet", "--balances", path, "--balances-every", "1", *counts):
        check(f"{site.name}: it is whole", text_of(path).splitlines(), [ACCOUNTS, *rows])
        first = os.stat(path).st_ino
        is_new = site.stirred(lambda: os.stat(path).st_ino != first, 3)
        check(f"{site.name}: it is written again", is_new, count <= 10_000)
        values = values_of(site.at("s"))
        check("and counted", [values[it] for it in ("accounts", "overdrawn_accounts")],
              [str(count), "1000"])


# A signal of a limit ends no server that is started so.
UNSIGNALLED = {"preexec_fn": lambda: signal.signal(signal.SIGXFSZ, signal.SIG_IGN),
               "restore_signals": False}


def limit(site, most):
    """Lets no file of a server grow to more octets."""
    resource.prlimit(site.process.pid, resource.RLIMIT_FSIZE, (most, -1))


def shown(folder):
    """The counts show a configuration that is wrong, and right again; a book behind a link that is
    away, and back; and when balances were written last that have no room since: they stay whole.
    """
    site, begun = Live(folder, "shown"), int(time.time())
    path, home, counts = (site.at(it) for it in ("balances", "home/book", "s"))
    site.comes(("import", done("added 1000, repeated 0, refused 0"),
                HEADER + "".join(f"V-{it},a{it:03},7\n" for it in range(1_000))))
    behind_link(site)
    more = ["--quiet", "--status", counts, "--balances", path, "--balances-every", "1"]
    site.start(FOREVER, more, **UNSIGNALLED)
    limit(site, 8_192)
    last, names = time.time(), [home, home + "~"]
    for is_so, text in (("0", TEXTS[1][0]), ("1", SITE)):
        write(site.config, text)
        os.rename(*names)
        names.reverse()
        state = lambda: [values_of(counts).get(it) for it in ("config_is_current", "book_is_there")]
        check(f"shown: {is_so}", site.stirred(lambda: state() == [is_so] * 2, 40), True)
    found, sizes = values_of(counts), [os.path.getsize(home + it) for it in ("", "-wal")]
    site.kill()
    check("the sizes of its files", [int(found.get(f"{it}_octets", -1)) for it in ("book", "log")],
          sizes)
    moments = [int(found.get(f"{it}_time_seconds", 0)) for it in ("start", "balances")]
    check("no moment is a later one", [begun <= it <= last for it in moments], [True] * 2)
    rows = [ACCOUNTS, *(f"a{it:03},7,0" for it in range(1_000))]
    check("the balances stay", (text_of(path).splitlines(), found.get("accounts")), (rows, "1000"))
    check("which is told once", text_of(site.errors).count("balances: cannot write\n"), 1)


def is_over(site):
    """Whether a server is at its end, which gets a report that it refuses, and a request."""
    with contextlib.suppress(OSError, http.client.HTTPException):
        site.answers("s5", False)
        site.ask("GET", "/me/balance", GUEST)
    return site.process.poll() is not None


def refusing(folder):
    """A book whose log cannot grow refuses every report: that ends the server."""
    site = Live(folder, "refusing")
    site.start(FOREVER, stderr=subprocess.PIPE, **UNSIGNALLED)
    found = [site.answers("s1")]
    limit(site, 64)
    found.append(site.answers("s2", False))
    limit(site, -1)
    found.append(site.answers("s3"))
    site.stirred(lambda: False, 1)
    found.append(site.answers("s4"))
    check("it goes on where another report is recorded", found, [True, False, True, True])
    limit(site, 64)
    check("it ends, whoever asks for pages", until(lambda: is_over(site)), True)
    status, said = site.end()
    told = site.process.stderr.read().splitlines()[-1]
    check("and says why", (status, said.count("dropped 13: "), told), (3, 1, "db: Unavailable"))
    kept = [it.split(",")[1] for it in site.export("sessions")[1:]]
    check("with what was answered", kept, ["s1", "s3", "s4"])


def replaced(folder):
    """A book that is replaced before the first turn is not served."""
    site = Live(folder, "replaced")
    words = [PROGRAM, "serve", "--config", "/dev/stdin", *site.serve()[4:], "--turns", "1"]
    process = subprocess.Popen(words, stdin=subprocess.PIPE, stdout=subprocess.PIPE,
                               stderr=subprocess.PIPE, text=True)
    until(lambda: f" 0100007F:{site.radius:04X} " in text_of("/proc/net/udp"))
    time.sleep(0.5)
    other_file(site.book)
    said, errors = process.communicate(SITE)
    told = LOST.format(site.book).replace("nothing is answered", "it is not served")
    check("a book that was replaced", (process.returncode, said, errors),
          (3, "", f"{told}\ndb: cannot open\n"))


def untold(folder):
    """A server whose output is closed serves to its end, and ends as one that could not print."""
    site = Live(folder, "untold")
    site.start(60)
    site.process.stdout.close()
    check("it answers, and ends so", (site.answers("s1"), site.process.wait(60)), (True, 1))


def values_of(path):
    """The values of a file of counts, by their names without the program's."""
    lines = (it for it in text_of(path).splitlines() if it.startswith("radacctd_"))
    return dict(it.removeprefix("radacctd_").rsplit(" ", 1) for it in lines)


def floods(folder):
    """Drops are told once in ten seconds of a source and a reason, and the counts at the end. Those
    of a file are written at the begin, ten seconds later, and at the end.
    """
    site, counted = Live(folder, "floods"), []
    path = site.at("s")
    site.start(700, ["--status", path])
    with caller("127.0.0.9") as stranger, caller() as client:
        for number, senders in enumerate(((stranger, client, *[stranger] * 41), (stranger,))):
            for sender in senders:
                sender.sendto(bytes(3), ("127.0.0.1", site.radius))
            until(lambda: text_of(site.errors).count("\n") == 2 + number)
            counted.append(values_of(path)["events_total"])
            time.sleep(0 if number else 10.2)
        first, other = (it.getsockname()[1] for it in (stranger, client))
    ended, values = site.end(), values_of(path)
    unknown = f"drop 1 UnknownClient from 127.0.0.9:{first}"
    check("drops are told", text_of(site.errors).splitlines(), [
        unknown, f"drop 2 TooShort from 127.0.0.1:{other}", f"{unknown}, 41 more",
        "minute: events 44, replies 0, drops 44, mute 0, faults 0"])
    wanted = done("events 44, replies 0, mute 0, faults 0", "dropped 1: 43", "dropped 2: 1")
    check("and counted", ended, wanted[:2])
    drops = sorted((it for name, it in values.items() if name.startswith("drops_")), key=int)
    counted.append(values["events_total"])
    check("also in a file", (counted, os.stat(path).st_mode & 0o777, drops),
          (["0", "43", "44"], 0o644, ["0"] * 12 + ["1", "43"]))


# When a book was written, how many octets its log has, when that was written, and what is told.
LATE = [(-100, 56, -90, None), (-100, 55, 5_000, None), (-100, 56, 5_000, 5_000),
        (6_000, 56, 5_000, 6_000)]


def late(folder):
    """A clock that is before the last change of a book, or of its log, is told."""
    site = Live(folder, "late")
    line = f"serve --turns 1 --radius-port {site.radius} --desk-port {site.desk}"
    for book, octets, log, told in LATE:
        now = int(time.time())
        site.put("book-wal", bytes(octets))
        for name, ago in (("book", book), ("book-wal", log)):
            os.utime(site.at(name), (now + ago,) * 2)
        status, said, errors = site.ran(line)
        wanted = f"clock: N is before {now + (told or 0)}, when the book was last written\n"
        check("a late clock", (status, said, re.sub("clock: [0-9]+", "clock: N", errors)),
              (*done("serving", NONE)[:2], wanted if told else ""))


PARTS = [(floods,), (alone,), (texts,), *((touches, it) for it in range(len(TOUCHES))),
         *((away, it) for it in DEEDS), (outages,), (long_files, 10_000), (long_files, 10_001),
         (shown,), (refusing,), (replaced,), (untold,), (late,)]


def run(folder):
    """Tries the rows in an empty folder: all at once, since servers mostly wait."""
    with concurrent.futures.ThreadPoolExecutor(len(PARTS)) as pool:
        for it in [pool.submit(part, folder, *more) for part, *more in PARTS]:
            it.result()
