"""Commands over files: what each prints, its status, and what it leaves of the files.

A command is a line. It gets `--config radacctd.toml` and `--db book` if it names no others; with
the word `-` it has no book. These are files of its folder. What `--explain` tells is in
`program_told`, books that SQLite filled are in `program_books`, servers in `program_served`.
"""

import itertools
import json
import os
import sqlite3
import struct
import time

from power import FRAME, chained, read, sum_of, write as put
from served import CASHIER, CLIENT_AND_KEYS, PLANS, PROGRAM, Server, check, plan, ran

DAY = 86_400
SHUT, UNREAD = (3, "", "db: cannot open\n"), (1, "", "file: cannot read\n")
NO_BOOK, DIFFER, OLDER = (
    (3, "", f"db: {it}\n") for it in ("NotABook", "PlansDiffer", "WrongSchema"))
HEADER, ACCOUNTS = "voucher,account,sum\n", "account,balance,overrun"
VOUCHER, SILVER = HEADER + "V-1,al,500\n", plan("silver", unit=7)
GOLD, DEFAULT = (PLANS[:PLANS.rindex("[[plan]]")], PLANS[PLANS.rindex("[[plan]]"):])


def done(*lines):
    """How a command ends that prints these lines."""
    return 0, "".join(f"{it}\n" for it in lines), ""


def refused(line):
    """How a command ends that is refused with this line."""
    return 1, "", line + "\n"


SIZES, MADE = done("ok: 1 clients, 2 plans, 2 keys"), done("book made")
NOTHING = done("carried 0 sessions of 0 accounts", "stay: 0 open, 0 recent, 0 kept, 0 too large")
ADDED = done("added 1, repeated 0, refused 0")


def words_of(line):
    """The words of a command's line."""
    words = line.split()
    has_book = words[0] not in ("feed", "key") and not {"-", "--db"}.intersection(words)
    words += ["--config", "radacctd.toml"] if "--config" not in words else []
    return [PROGRAM, *(it for it in words if it != "-"), *(["--db", "book"] if has_book else [])]


class Site(Server):
    """A folder with a configuration, and perhaps a book."""

    def __init__(self, folder, name, config=CLIENT_AND_KEYS + PLANS):
        self.name, self.folder = name, os.path.join(folder, name)
        os.makedirs(self.folder)
        super().__init__(self.folder)
        self.put("radacctd.toml", config)

    def at(self, name):
        return os.path.join(self.folder, name)

    def put(self, name, octets):
        put(self.at(name), octets if isinstance(octets, bytes) else octets.encode())

    def ran(self, line, text=""):
        return ran(words_of(line), input=text, cwd=self.folder, timeout=60)

    def comes(self, *rows):
        """Compares what commands come to."""
        for line, wanted, *text in rows:
            check(f"{self.name}: {line[:80]}", self.ran(line, *text), wanted)

    def stays(self, *rows):
        """Compares what commands come to, and that they change no file."""
        before = self.files()
        self.comes(*rows)
        check("and no file changes", self.files() == before, True)

    def files(self):
        """The octets of each file."""
        found = (self.at(it) for it in os.listdir(self.folder))
        return {it: read(it) for it in found if os.path.isfile(it)}

    def alter(self, text, name="book"):
        """Gives statements to a database, and closes it."""
        book = sqlite3.connect(self.at(name), isolation_level=None)
        book.executescript(text)
        book.close()

    def sell(self, count, *more):
        """Sells so many vouchers, and kills the server: their commits stay in the log."""
        with self.serving("--quiet", *more):
            for number in range(count):
                wish = {"account": f"a{number}", "sum": 7, "voucher": f"W-{time.time_ns()}"}
                self.ask("POST", "/topups", CASHIER, json.dumps(wish))


UPLOAD = VOUCHER + "V-2,bo,300\nV-1,al,501\n"
LISTED = ["class,block,unit,count", "gold,1048576,10,both", "default,1000000,5,both"]
# A site from its first command to the last. `more` has another plan, `other` lacks one.
LIFE = [
    ("check -", SIZES), ("check - --config /dev/null", UNREAD), ("check", SHUT), ("init", MADE),
    ("init", NO_BOOK), ("init --db summed --page-sums", MADE), ("check --db summed", SIZES),
    ("import", (1, "added 2, repeated 0, refused 1\n4: VoucherDiffers\n", ""), UPLOAD),
    ("import", (1, "added 0, repeated 2, refused 1\n4: VoucherDiffers\n", ""), UPLOAD),
    ("check --config more", DIFFER), ("plans --config more --list", done(*LISTED)),
    ("plans --config more", done("added 1")), ("plans --config more", done("added 0")),
    ("plans --config other --list", done(*LISTED, "silver,1048576,7,both")),
    ("plans --config none --list", UNREAD)]
# What only looks, or is refused.
LOOKS = [
    ("check", DIFFER), ("init", NO_BOOK), ("init --page-sums", NO_BOOK), ("export topups", DIFFER),
    ("plans --config other", DIFFER), ("migrate --config more", OLDER),
    ("plans --list", LIFE[-2][1]), ("export --config more overruns", done("account,overrun"))]


def life(folder):
    """A site's commands, the rights of its books, and the moments of its vouchers."""
    site, begun = Site(folder, "life"), int(time.time())
    site.put("more", CLIENT_AND_KEYS + PLANS + SILVER)
    site.put("other", CLIENT_AND_KEYS + DEFAULT + SILVER)
    site.comes(*LIFE)
    rows = [it.rsplit(",", 1) for it in site.ran("export --config more topups")[1].split()[1:]]
    check("top-ups", [it[0] for it in rows], ["V-1,al,500", "V-2,bo,300"])
    late = [it for it in rows if not begun <= int(it[1]) <= time.time()]
    check("at moments of the clock", late, [])
    names = [site.at(it) for it in ("book", "book-wal", "summed", "summed-wal")]
    check("books are their owners'", [os.stat(it).st_mode & 0o777 for it in names], [0o600] * 4)
    check("sums are asked for", [read(it)[20] for it in names[::2]], [0, 8])
    cutoff, late = "forward --config more --yes --at", int(time.time()) - 30 * DAY
    site.comes((f"{cutoff} {late + 60}", refused("forward: less than 30 days ago")),
               (f"{cutoff} {late - 60}", NOTHING))
    site.put("radacctd.toml", CLIENT_AND_KEYS + PLANS + SILVER)
    site.sell(3)
    site.put("radacctd.toml", CLIENT_AND_KEYS + PLANS)
    balances = done(ACCOUNTS, *(f"a{it},7,0" for it in range(3)), "al,500,0", "bo,300,0")
    site.stays(*LOOKS, ("export --config more balances", balances))


TAKING = ["check", "check --audit", "import", "export topups", "serve --turns 1", "migrate", "plans",
          "plans --list", "forward", "forward --before 30 --yes"]
# What is in the place of a book, and of its log.
SLIPS = [(None, None, SHUT), (b"\7", None, SHUT), (bytes(99), None, SHUT), (b"", bytes(33), SHUT),
         (b"", None, NO_BOOK)]


def slips(folder):
    """A name with no file behind it makes none. What is no book is opened by no command."""
    for number, (octets, log, wanted) in enumerate(SLIPS):
        site = Site(folder, f"slip-{number}")
        for name, held in (("book", octets), ("book-wal", log)):
            if held is not None:
                site.put(name, held)
        site.stays(*((it, wanted, HEADER) for it in TAKING))
    site.comes(("init", MADE), ("check", SIZES))


# Lines that are taken, with what no other row gives: there is no such configuration.
TAKEN = [
    "feed", "check - --audit --db b --status c --balances d --lose-damaged-commits",
    "import --lose-damaged-commits", "key --until 1 " + "%61" * 253,
    "migrate --lose-damaged-commits", "plans --lose-damaged-commits --list",
    "forward --before 30 --keep x --lose-damaged-commits",
    "serve --balances d --balances-every 86400 --oldest-report 1 --radius-port 65535 --desk-port 1",
    *("serve" + " --bind 127.0.0.1" * it for it in range(1, 17))]
# Lines that are not, and what --explain tells.
NOT_TAKEN = [
    ("serve --sync thrice", "--sync takes once or twice"), ("serve" + " --bind 1" * 17, None),
    ("serve --radius-port=0", "--radius-port takes a number from 1 to 65535"),
    ("serve --desk-port 65536", "--desk-port takes a number from 1 to 65535"),
    ("serve --balances d --balances-every 1.5", "--balances-every takes a number from 1 to 86400"),
    ("serve --turns 9223372036854775808", "--turns takes a number from 1 to 9223372036854775807"),
    ("serve --oldest-report 36501", "--oldest-report takes a number from 1 to 36500"),
    ("forward --before=29", "--before takes a number from 30 to 36500"), ("import money", None),
    ("export money", "WHAT is sessions, balances, topups or overruns"),
    ("check - --audit", None), ("key --until 1 " + "%61" * 254, None)]


def lines(folder):
    """Command lines that are taken, and those that are not."""
    site = Site(folder, "lines")
    os.remove(site.config)
    site.comes(*((it, UNREAD) for it in TAKEN))
    for line, told in NOT_TAKEN:
        status, said, errors = site.ran(line + " --explain")
        explained = [it for it in errors.splitlines() if it.startswith("explained:")]
        wanted = [f"explained: {told}"] if told else []
        check(f"bad: {line[:60]}", (status, said, explained, errors != ""), (2, "", wanted, True))
    for line in ("--help", "help feed", "feed --help", "-V"):
        status, said, errors = ran([PROGRAM, *line.split()])
        check(line, (status, said != "", errors), (0, True, ""))


# Files that a server would write over others, and some that it may write.
OVERWRITING = [
    "--status radacctd.toml", "--balances link", "--balances ./radacctd.toml", "--balances book",
    "--status book-wal", "--status out --balances out", "--status out --balances out.new",
    "--balances notes", "--db book-link --status book-wal", "--balances nowhere", "--status /tmp",
    "--status pipe"]
KEPT = ["--status counts --balances sums", "--status empty --balances new",
        "--status none/counts --balances new", "--status /proc/out --balances /sys/out"]


def safe(folder):
    """No file that a server is to write takes the place of another one."""
    site = Site(folder, "safe")
    site.comes(("init", MADE))
    os.remove(site.at("book-wal"))
    for link in ("link.new radacctd.toml", "book-link book", "nowhere.new nothing"):
        os.symlink(link.split()[1], site.at(link.split()[0]))
    os.mkfifo(site.at("pipe"))
    for name, text in (("notes", "not radacctd's\n"), ("empty", ""), ("sums.new", "account,bal"),
                       ("counts", "# HELP radacctd_events_total Data"), ("sums", ACCOUNTS + "\n")):
        site.put(name, text)
    overwritten = refused("file: would be overwritten")
    site.stays(*((f"{command} {it}", overwritten) for it in OVERWRITING
                 for command in ("check", "serve --turns 1")))
    site.comes(*((f"check {it}", SIZES) for it in KEPT))


def flipped(octets, place):
    return octets[:place] + bytes([octets[place] ^ 1]) + octets[place + 1:]


def otherwise(site, log, wanted):
    """What is wrong if a log is to be found so, and to stay as it is if it is refused."""
    site.put("book-wal", log)
    got = site.ran("check")
    is_left = wanted != SHUT or read(site.at("book-wal")) == log
    return [] if got == wanted and is_left else [(len(log), got, is_left)]


def hurt(log, is_once):
    """A log of three commits, damaged in its header, and damaged or cut in each frame, and what is
    told of it.
    """
    number, is_first = 0, True
    places, commits = chained(log)
    # The size of a page, a salt and a sum of the header.
    yield from ((flipped(log, it), SHUT) for it in (8, 16, 24))
    for place in places:
        is_torn = is_once and number > 0
        yield flipped(log, place + FRAME + 1_000), SIZES if is_torn and number == 2 else SHUT
        for more in (0, FRAME - 1, FRAME, 1_000, FRAME + 4_095):
            is_unseen = is_torn or (is_first and more < FRAME)
            yield log[:place + more], SIZES if is_unseen else SHUT
        is_first, number = place in commits, number + (place in commits)
    yield log, SIZES if number == 3 else None


def frames(folder):
    """Damage of the header of a log and of each frame is noticed, but with `--sync once` that of
    the last commit. So is a cut in a commit, if that was synced before it was sealed.
    """
    for how in ("twice", "once"):
        site = Site(folder, how)
        site.comes(("init", MADE))
        site.sell(3, "--sync", how)
        rows = [*hurt(read(site.at("book-wal")), how == "once")]
        wrong = [it for log, wanted in rows for it in otherwise(site, log, wanted)]
        check(f"--sync {how}: {len(rows)} logs, whole, damaged and cut", wrong, [])


def damaged(folder):
    """A book whose log is damaged is opened by no command, unless the commits from there may be
    lost. They are gone then, and no damage of a later log. A log that cannot be read is refused.
    """
    site = Site(folder, "damaged")
    site.comes(("init", MADE), ("import", ADDED, VOUCHER))
    site.sell(40)
    os.mkdir(site.at("linked"))
    os.symlink("../book", site.at("linked/book"))
    site.comes(("check --db linked/book", SIZES))
    site.put("book-wal", flipped(read(site.at("book-wal")), 6_224))
    site.stays(*((it, SHUT, HEADER) for it in (*TAKING, "init", "check --db linked/book")))
    site.comes(("check --lose-damaged-commits", SIZES), ("check", SIZES),
               ("export balances --lose-damaged-commits", done(ACCOUNTS, "al,500,0")))
    site.sell(9, "--sync", "once")
    log = read(site.at("book-wal"))
    torn = flipped(log, chained(log)[0][-1] + 1_000)
    check("a later log is torn", otherwise(site, torn, SIZES), [])
    for target in ("/dev/null", ".", "/proc/self/mem"):
        os.remove(site.at("book-wal"))
        os.symlink(target, site.at("book-wal"))
        site.comes(("check", SHUT))


def log_of(*pages):
    """A log of pages of 512 octets. Each frame ends a commit that leaves so many pages."""
    log = struct.pack(">6I", 0x377F0682, 3_007_000, 512, 0, 1, 2)
    sums = sum_of(log, 0, 0)
    log += struct.pack(">2I", *sums)
    for it in pages:
        sums = sum_of(bytes(512), *sum_of(struct.pack(">2I", 1, it), *sums))
        log += struct.pack(">6I", 1, it, 1, 2, *sums) + bytes(512)
    return log


# What lies in place of a book, and the pages of a log next to it, with whether it is a book's.
PLACES = [None, b"", bytes(1), bytes(99)]
LOGS = [((), False), ((1,), False), ((1, 1), False), ((1, 1, 1), True), ((2,), True)]


def lost(folder):
    """`init` makes no book next to the log of a book that is missing, and one next to others."""
    for number, (octets, (pages, is_of_book)) in enumerate(itertools.product(PLACES, LOGS)):
        site = Site(folder, f"lost-{number}")
        site.put("book-wal", log_of(*pages))
        if octets is not None:
            site.put("book", octets)
        if is_of_book:
            site.stays(("init", SHUT), ("init --page-sums", SHUT))
        elif not octets:
            site.comes(("init", MADE), ("check", SIZES), ("init", NO_BOOK))


def run(folder):
    """Tries the rows in an empty folder."""
    for part in (life, slips, lines, safe, frames, damaged, lost):
        part(folder)
