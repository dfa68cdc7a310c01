"""Entries that are sent to a server one after another, and the content that each of them makes.

An entry is a report, a restart of a client or a voucher. The next one is sent once the last one was
answered, so the content after each of them is known. It is computed here from the rules of
docs/reference/files.md, and compared with what `radacctd export` writes.
"""

import collections
import contextlib
import csv
import dataclasses
import functools
import http.client
import json
import os
import signal
import socket
import subprocess
import tempfile
import time
import urllib.parse

import served
from power import memory, write
from served import CASHIER, PLANS, ROOT, plan, signed

# Another client, and a plan whose prices are others.
MORE = '\n[[client]]\nname = "nas-8"\naddress = "127.0.0.2"\nsecret = "testing-123"\n'
MORE += plan("down", "out", 4096, 7)
CLIENTS = {"nas-7": "127.0.0.1", "nas-8": "127.0.0.2"}
# The block, the unit, and what the plan counts.
PRICES = {
    b"gold": (1_048_576, 10, lambda octets: sum(octets)),
    b"down": (4_096, 7, lambda octets: octets[1])}
ACCOUNTS = [b"room 12", b"al", b"b\xc3\xb6"]
START, STOP, INTERIM, ON, OFF = 1, 2, 3, 7, 8
OPEN, CLOSED, STOPPED = "open", "closed", "stopped"
NAS_REBOOT = 11
# How long an answer may take, in seconds. Nothing is sent again.
PATIENCE = 60
LIMIT = 1 << 32
# The columns of the exports.
HEADERS = (
    "client,session,account,class,input,output,total,charged,seconds,first,last,state,cause,"
    "calling,framed",
    "voucher,account,sum,when",
    "account,balance,overrun",
)


@dataclasses.dataclass(frozen=True)
class Report:
    kind: int
    client: str
    session: bytes
    account: bytes = b""
    plan: bytes = b""
    octets: tuple = (0, 0)
    seconds: int = 0
    delay: int = 0
    cause: int = 0
    calling: bytes = b""
    framed: bytes = b""

    def is_restart(self):
        return self.kind in (ON, OFF)


@dataclasses.dataclass(frozen=True)
class Voucher:
    number: str
    account: bytes
    sum: int


# The columns of an exported session, but for its name and its moments.
Fields = collections.namedtuple(
    "Fields", "account plan input output total charged seconds state cause calling framed")


@dataclasses.dataclass(frozen=True)
class Row:
    """A session. A moment is the range in which it lies."""

    account: bytes
    plan: bytes
    octets: tuple
    seconds: int
    first: tuple
    last: tuple
    state: str
    cause: int
    calling: bytes
    framed: bytes

    def counted(self):
        return PRICES[self.plan][2](self.octets)

    def charged(self):
        block, unit, _ = PRICES[self.plan]
        return -(-self.counted() // block) * unit

    @functools.cached_property
    def fields(self):
        """What an export has of it, but for its name and its moments."""
        framed = ".".join(map(str, self.framed))
        sums = (*self.octets, sum(self.octets), self.charged(), self.seconds)
        return Fields(self.account, self.plan, *sums, self.state, self.cause, self.calling, framed)

    def raised(self, report, moment):
        """The row after one more report of its session."""
        other = dataclasses.replace(self, octets=report.octets)
        by_count = max(self, other, key=lambda it: (it.counted(), sum(it.octets), it.octets[0]))
        is_stop = report.kind == STOP and self.state != STOPPED
        return dataclasses.replace(
            by_count, seconds=max(self.seconds, report.seconds),
            first=tuple(map(min, self.first, moment)), last=tuple(map(max, self.last, moment)),
            state=STOPPED if is_stop else self.state, cause=report.cause if is_stop else self.cause,
            calling=self.calling or report.calling, framed=self.framed or report.framed)


@dataclasses.dataclass(frozen=True)
class Content:
    """What a book has: its rows, and its vouchers with the ranges of their moments."""

    rows: dict
    vouchers: dict

    @functools.cached_property
    def balances(self):
        paid = [(it.account, it.sum) for it, _ in self.vouchers.values()]
        return summed(paid + [(it.account, -it.fields.charged) for it in self.rows.values()])

    def after(self, entry, begun, ended):
        """The content with one more entry, which was recorded between these two moments."""
        if isinstance(entry, Voucher):
            return Content(self.rows, {entry.number: (entry, (begun, ended)), **self.vouchers})
        if entry.is_restart():
            rows = {key: closed(row) for key, row in self.rows.items() if key[0] == entry.client}
            return Content({**self.rows, **rows}, self.vouchers)
        key, moment = (entry.client, entry.session), (begun - entry.delay, ended - entry.delay)
        row = self.rows.get(key) or first_row(entry, moment)
        return Content({**self.rows, key: row.raised(entry, moment)}, self.vouchers)


NOTHING = Content({}, {})


def summed(pairs):
    """The sums of each account."""
    found = {}
    for account, amount in pairs:
        found[account] = found.get(account, 0) + amount
    return found


def first_row(report, moment):
    said = (report.account, report.plan, report.octets, report.seconds)
    return Row(*said, moment, moment, OPEN, 0, b"", b"")


@functools.lru_cache(maxsize=1_000)
def closed(row):
    """The row after a restart of its client."""
    return dataclasses.replace(row, state=CLOSED, cause=NAS_REBOOT) if row.state == OPEN else row


def differences(content, exports):
    """What the exports of a book have that this content has not, or the other way round."""
    sessions, topups, balances = (it.splitlines() for it in exports)
    if (sessions[0], topups[0], balances[0]) != HEADERS:
        return ["other columns"]
    rows, vouchers = dict(map(session_of, sessions[1:])), dict(map(voucher_of, topups[1:]))
    held = dict(map(balance_of, balances[1:]))
    if rows.keys() != content.rows.keys():
        return [f"sessions: {sorted(rows.keys() ^ content.rows.keys())}"]
    if vouchers.keys() != content.vouchers.keys():
        return [f"vouchers: {sorted(vouchers.keys() ^ content.vouchers.keys())}"]
    found = [str(it) for it, row in content.rows.items() if not is_row(*rows[it], row)]
    found += [it for it, said in content.vouchers.items() if not is_voucher(*vouchers[it], *said)]
    if held != content.balances:
        found.append(f"balances: {held}, not {content.balances}")
    return found + unbalanced(rows, vouchers, held)


def unbalanced(rows, vouchers, balances):
    """The accounts whose balance isn't the sum of the vouchers less the charges, as exported."""
    paid = [(account, amount) for account, amount, _ in vouchers.values()]
    sums = summed(paid + [(it.account, -it.charged) for it, _, _ in rows.values()])
    return [f"the balance of {it}" for it in balances if balances[it] != sums.get(it)]


def octets_of(field):
    return urllib.parse.unquote_to_bytes(field)


# Most lines of a large book are the same in each of its exports.
@functools.lru_cache(maxsize=500_000)
def session_of(line):
    """The name of an exported session, and its fields and moments."""
    client, name, account, plan, *more = next(csv.reader([line]))
    numbers, (state, cause, calling, framed) = map(int, more[:7]), more[7:]
    *sums, first, last = numbers
    end = (state, int(cause), octets_of(calling), framed)
    fields = Fields(octets_of(account), octets_of(plan), *sums, *end)
    return (client, octets_of(name)), (fields, first, last)


def voucher_of(line):
    number, account, amount, moment = next(csv.reader([line]))
    return number, (octets_of(account), int(amount), int(moment))


def balance_of(line):
    account, balance, _ = next(csv.reader([line]))
    return octets_of(account), int(balance)


def is_within(moment, span):
    return span[0] <= moment <= span[1]


def is_voucher(account, amount, moment, voucher, span):
    """Whether an exported voucher is this one."""
    return (account, amount) == (voucher.account, voucher.sum) and is_within(moment, span)


def is_row(fields, first, last, row):
    """Whether an exported session is this row."""
    return fields == row.fields and is_within(first, row.first) and is_within(last, row.last)


def next_entry(rng, content, sent, has_restarts):
    """An entry that may follow this content and the entries that were sent before."""
    live = [key for key, row in content.rows.items() if row.state == OPEN]
    share = rng.random()
    if sent and share < 0.06:
        return rng.choice(sent)
    if share < 0.25:
        number = f"V-{len(content.vouchers)}-{rng.randrange(1000)}"
        return Voucher(number, rng.choice(ACCOUNTS), rng.randrange(1, 10**6))
    if share < 0.27 and has_restarts:
        return Report(rng.choice((ON, OFF)), rng.choice(list(CLIENTS)), b"")
    if not live or share < 0.42:
        return first_report(rng, len(content.rows))
    key = rng.choice(live if share < 0.95 else list(content.rows))
    return later_report(rng, key, content.rows[key], STOP if share < 0.52 else INTERIM)


def first_report(rng, number):
    return Report(
        START, rng.choice(list(CLIENTS)), b"%x-%x" % (number, rng.randrange(1 << 40)),
        rng.choice(ACCOUNTS), rng.choice(list(PRICES)),
        (rng.randrange(1, 1000), rng.randrange(1, 1000)), delay=rng.randrange(5),
        calling=b"00-11-22-33-44-%02x" % rng.randrange(256),
        framed=bytes([10, rng.randrange(256), rng.randrange(256), 1 + rng.randrange(250)]))


def later_report(rng, key, row, kind):
    more = tuple(it + rng.randrange(1 << 22) for it in row.octets)
    return Report(kind, *key, row.account, row.plan, more, row.seconds + rng.randrange(1, 600),
                  rng.randrange(5), rng.randrange(1, 10) if kind == STOP else 0)


def packet(identifier, report):
    """A signed Accounting-Request (RFC 2866, section 3)."""
    told = [(40, report.kind), (41, report.delay)]
    if not report.is_restart():
        told += [(44, report.session), (1, report.account), (25, report.plan)]
        for octets, low, high in zip(report.octets, (42, 43), (52, 53)):
            told += [(low, octets % LIMIT), (high, octets // LIMIT)]
        told += [(46, report.seconds), (49, report.cause)]
        told += [(31, report.calling)] * bool(report.calling)
        told += [(8, report.framed)] * bool(report.framed)
    return signed(identifier, told)


class Site(served.Server):
    """The program over a book in a folder, started as a command line says that begins so."""

    def __init__(self, folder, program):
        served.PROGRAM = program
        super().__init__(folder, PLANS + MORE)
        self.identifier = 0

    def make(self, *more):
        """Makes an empty book, and says whether the program took these words more."""
        return self.told("init", *more)[0] == 0

    def begin(self, before=(), more=()):
        self.process = subprocess.Popen([*before, *self.serve(), *more], stdout=subprocess.PIPE,
                                        text=True)
        line = self.process.stdout.readline()
        if line != "serving\n":
            raise SystemExit(f"the server did not start: {line!r}")

    def send(self, entry):
        """Sends an entry: the moments between which it was recorded."""
        begun = int(time.time())
        if self.credit(entry) if isinstance(entry, Voucher) else self.report(entry):
            return begun, int(time.time())
        raise SystemExit(f"no answer to {entry}")

    def throw(self, report):
        """Sends a report and does not wait for its reply."""
        with socket.socket(socket.AF_INET, socket.SOCK_DGRAM) as sender:
            sender.bind((CLIENTS[report.client], 0))
            sender.sendto(packet(0, report), ("127.0.0.1", self.radius))

    def report(self, entry):
        self.identifier = (self.identifier + 1) % 256
        with socket.socket(socket.AF_INET, socket.SOCK_DGRAM) as sender:
            sender.settimeout(PATIENCE)
            sender.bind((CLIENTS[entry.client], 0))
            sender.connect(("127.0.0.1", self.radius))
            sender.send(packet(self.identifier, entry))
            try:
                return sender.recv(4096)[:2] == bytes([5, self.identifier])
            except TimeoutError:
                return False

    def credit(self, entry):
        account = urllib.parse.quote(entry.account)
        body = json.dumps({"account": account, "sum": entry.sum, "voucher": entry.number})
        return self.status("POST", "/topups", body) in (200, 201)

    def status(self, method, path, body=None):
        """The status that the desk answers to a cashier."""
        caller = http.client.HTTPConnection("127.0.0.1", self.desk, timeout=PATIENCE)
        caller.request(method, path, body, {"Desk-Key": CASHIER})
        return caller.getresponse().status

    def drive(self, rng, content, count, has_restarts=True):
        """Sends so many entries: what was sent, and the content after each, with that before."""
        sent, contents = [], [content]
        for _ in range(count):
            entry = next_entry(rng, contents[-1], sent, has_restarts)
            contents.append(contents[-1].after(entry, *self.send(entry)))
            sent.append(entry)
        return sent, contents

    def exports(self):
        """The worst status of three exports of the book, their faults, and what they wrote."""
        done = [self.told("export", it) for it in ("sessions", "topups", "balances")]
        # A status that is neither 0 nor 3 comes first, and that of a signal is below 0.
        status = max((it[0] for it in done), key=lambda it: (it not in (0, 3), abs(it)))
        return status, "".join(it[2] for it in done), [it[1] for it in done]


@contextlib.contextmanager
def over(files, program):
    """The program over copies of a book and its log, whose octets these are."""
    with tempfile.TemporaryDirectory(prefix="radacctd-", dir=memory()) as folder:
        site = Site(folder, program)
        for path, octets in zip((site.book, site.book + "-wal"), files):
            write(path, octets)
        yield site


def lost_of(contents, exports):
    """How many entries are missing from the end of a state that the book had once; None if it never
    had it.
    """
    states = enumerate(reversed(contents))
    return next((lost for lost, it in states if not differences(it, exports)), None)


def program():
    """The built program itself, or the one that RADACCTD names."""
    if "RADACCTD" in os.environ:
        return os.environ["RADACCTD"]
    script = os.path.join(ROOT, "bin", "radacctd")
    subprocess.run([script, "--version"], stdout=subprocess.DEVNULL, check=True)
    return os.path.join(ROOT, "crates", "radacctd", "out", "radacctd")


def end(process):
    process.send_signal(signal.SIGKILL)
    process.communicate()
