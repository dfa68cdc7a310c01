"""The access servers of interop/promise: devices that send reports until they are answered.

As RFC 2866 has it: a report that is sent again has a greater Acct-Delay-Time, so it has another
identifier and authenticator. Some send the same datagram again instead, some give up, some say
again later what was answered long ago. Their clocks are off by up to an hour either way, and their
reports overtake each other.
"""

import heapq
import itertools
import select
import socket
import threading
import time

import served
from promise_model import INTERIM, START, STOP, WRONG, Report, Session

SECRET = "testing123"
DAY, HOUR = 86_400, 3600
PLANS_SENT = [b"gold", b"gold", b"up", b"down", b"free", b"default", b"unknown", b""]
PLANS_OLD = [b"gold", b"down", b"default"]
SOURCES = [f"127.0.2.{number}" for number in range(1, 25)]
GIB = 1 << 30
# Names that many reports have, and names that a few have.
NAMES = [f"user{number}" for number in range(40)]
NAMES += ["Müller", "room 12", "o'neill", 'say "no"', "50%", "50%x", "a\\b", "&User-Name", "% {"]
NAMES += ["UPPER", "=1+1", "+49 170", "@home", "-x", "a,b;c", "x" * 253, "$HOME", "`id`", "Łódź"]
NAMES += ["a{b}", "#1", "a/b", "a=b", "{x}", "%d", "e'e", "\\\\", "tab\\t", "\\n", "1e5", "12345",
          "0x616c", "0xzz", "0x"]
BAD_NAMES = [b"%{User-Name}", b"a%{", b"%%{Class}b", b" lead", b"trail ", b"'anton"]
BAD_NAMES += [b"1.23457E+11", b"a\tb", b"\xff\xfe", b"\xc2\xa0nbsp", b"a\x7fb"]
# Of a report: how often something odd is in it, or becomes of it.
ODD, RFC_6929, LATE, AGAIN, TWICE, OVERTAKEN = 0.08, 0.002, 0.004, 0.08, 0.04, 0.05
# Of a report: one more of a session that was over long ago. It is refused, and holds up kept ones.
TOO_LATE = 0.0003
# Of a session: a device that gives up, an odd id, a wrong form, an odd name, and a device that says
# another name than that of the stamp.
GIVES_UP, ODD_ID, WRONG_FORM, ODD_NAME, OUTER = 0.02, 0.08, 0.002, 0.02, 0.1
# How many sessions are open at most.
OPEN = 250
# Seconds until a report is sent again, at first and at most.
FIRST, LAST = 1.0, 6.0
TRIES = 2


class Way:
    """How a device reports."""

    def __init__(self, rng):
        self.skew = rng.choice([0, 2, 10, -2, rng.randint(-HOUR, HOUR), rng.randint(-HOUR, HOUR)])
        self.has_stamp = rng.random() < 0.9
        # Whether the delay grows. Else the same datagram is sent again.
        self.has_delay = rng.random() < 0.85
        self.says_no_delay = rng.random() < 0.5
        # How many reports it may have on their way: some devices have few identifiers in use.
        self.identifiers = rng.choice([4, 16, 256, 256])


class AccessServer:
    """One, at its address."""

    def __init__(self, source, port, way):
        self.source, self.way = source, way
        self.socket = socket.socket(socket.AF_INET, socket.SOCK_DGRAM)
        self.socket.bind((source, 0))
        self.socket.connect(("127.0.0.1", port))
        self.socket.setblocking(False)
        # What each identifier was last used for: a report, and its datagram.
        self.used, self.identifiers = {}, itertools.cycle(range(way.identifiers))

    def throw(self, datagram):
        try:
            self.socket.send(datagram)
        except OSError:
            # Nobody is there just now.
            pass

    def free(self):
        """An identifier that is not on its way, or None."""
        for it in itertools.islice(self.identifiers, self.way.identifiers):
            sending, datagram = self.used.get(it, (None, None))
            if sending is None or sending.is_done or sending.datagram is not datagram:
                return it
        return None

    def heard(self):
        """The reports that are answered by what has come."""
        while True:
            try:
                reply = self.socket.recv(4096)
            except OSError:
                return
            sending, sent = self.used.get(reply[1], (None, None))
            if sending is not None and served.is_response(reply, sent, SECRET):
                yield sending


class Sending:
    """A report on its way, until it is answered or given up."""

    def __init__(self, report, server, more, tries):
        self.report, self.server, self.more, self.tries = report, server, more, tries
        self.is_done, self.datagram, self.count = False, None, 0

    def attributes(self, now):
        """What the report says if it is sent now, and its delay."""
        it, way = self.report, self.server.way
        session = it.session
        delay = int(now) - int(it.moment)
        low = [it.input & 0xFFFFFFFF, it.output & 0xFFFFFFFF, it.seconds]
        parts = [(40, it.status), (44, session.identifier), (1, session.said)]
        parts += [(kind, value) for kind, value in zip((42, 43, 46), low)]
        parts += [(4, socket.inet_aton(session.source)), (32, session.nas())]
        if session.stamp:
            parts.append((25, session.stamp))
        if it.input >> 32 or it.output >> 32:
            parts += [(52, it.input >> 32), (53, it.output >> 32)]
        if it.status == STOP:
            parts.append((49, 1))
        if way.has_stamp:
            parts.append((55, int(it.moment) + way.skew))
        if delay > 0 and (way.has_delay or delay > DAY) or way.says_no_delay and way.has_delay:
            parts.append((41, max(delay, 0)))
        else:
            delay = 0
        # What is there once is not there again.
        kinds = {kind for kind, _ in self.more}
        parts = [pair for pair in parts if pair[0] not in kinds] + self.more
        return parts, delay

    def send(self, now):
        """Sends it: with its new delay if an identifier is free for that, else as it was. If it has
        none yet, it waits.
        """
        server = self.server
        if self.datagram is None or server.way.has_delay:
            identifier = server.free()
            if identifier is not None:
                pairs, self.delay = self.attributes(now)
                self.datagram = served.signed(identifier, pairs, SECRET)
                server.used[identifier] = self, self.datagram
            elif self.datagram is None:
                return False
        self.count += 1
        self.report.sent.append((now, self.delay))
        server.throw(self.datagram)
        return True


def odd_attributes(rng):
    """Attributes that are allowed, and of which few devices know anything."""
    kinds = [
        [(26, (9999).to_bytes(4, "big") + bytes([1, 6]) + rng.randbytes(4))],
        [(26, (14988).to_bytes(4, "big") + bytes([1, 6]) + rng.randbytes(4))],
        [(223, rng.randbytes(rng.randrange(1, 20)))],
        [(18, "Grüß %{User-Name} \"quoted\" \\".encode())], [(87, b"%{Acct-Session-Id}\t\n'")],
        [(33, rng.randbytes(8)), (33, rng.randbytes(3))],
        [(8, rng.randbytes(4)), (31, b"02-00-00-" + rng.randbytes(3).hex("-").encode())],
        [(30, b""), (31, b"x" * 253)]]
    return [pair for pair in rng.choice(kinds) if pair[1]]


def extended(rng):
    """Attributes of RFC 6929, most of which no dictionary has."""
    kind = rng.choice([241, 242, 243, 244])
    return [(kind, bytes([rng.randrange(200, 240)]) + rng.randbytes(rng.randrange(1, 12)))]


def wrong(rng):
    """Attributes of a wrong form, by which nothing is charged."""
    return rng.choice([[(42, b"\1\2")], [(43, b"\1\2\3")], [(52, 1 << 31)],
                       [(53, 1 << 31)], [(8, b"\x0a\1\2")], [(46, bytes(8))], [(49, b"\1")]])


class Devices(threading.Thread):
    """All access servers, by one clock."""

    def __init__(self, model, port, rng, total, seconds, length):
        super().__init__(daemon=True)
        self.model, self.rng, self.total, self.seconds = model, rng, total, seconds
        # How many reports a session has, and how many are open.
        self.length, self.most = length, min(OPEN, max(total // length // 4, 8))
        self.servers = {it: AccessServer(it, port, Way(rng)) for it in SOURCES}
        self.poller = select.poll()
        for it in self.servers.values():
            self.poller.register(it.socket.fileno(), select.POLLIN)
        self.by_number = {it.socket.fileno(): it for it in self.servers.values()}
        self.timers, self.order = [], itertools.count()
        self.open, self.old = [], []
        self.made = self.answered = self.datagrams = self.waiting = 0
        self.times = []
        self.is_making, self.is_over, self.fault = True, threading.Event(), None

    def run(self):
        self.began = time.monotonic()
        try:
            while not self.is_over.is_set():
                self.turn()
        except Exception as fault:
            self.fault = fault
            raise

    def turn(self):
        """Hears answers, does what is due, and makes reports: some come alone, some at once."""
        for descriptor, _ in self.poller.poll(10):
            for sending in self.by_number[descriptor].heard():
                self.take(sending)
        while self.timers and self.timers[0][0] <= time.monotonic():
            heapq.heappop(self.timers)[2]()
        due = self.due() - self.made
        if self.is_making and due >= (1 if self.made % 97 else 60):
            for _ in range(due):
                self.make()

    def later(self, seconds, work):
        heapq.heappush(self.timers, (time.monotonic() + seconds, next(self.order), work))

    def due(self):
        share = (time.monotonic() - self.began) / self.seconds
        return min(self.total, int(self.total * share))

    def take(self, sending):
        """An answer."""
        report = sending.report
        if not sending.is_done:
            sending.is_done = True
            self.waiting -= 1
        if report.answered is None:
            report.answered = time.time()
            self.answered += 1
            self.times.append(report.answered - report.sent[0][0])

    def make(self):
        """One more report: of a new session, or of one that is open."""
        rng = self.rng
        self.made += 1
        if self.old and rng.random() < TOO_LATE:
            self.give(Sending(self.again_old(), self.of(self.old_one), [], TRIES))
            return
        session = self.new_session() if self.is_new() else rng.choice(self.open)
        last = session.reports[-1] if session.reports else None
        status = START if last is None else STOP if rng.random() < 1 / self.length else INTERIM
        if status == STOP or session.kind == WRONG:
            self.open.remove(session)
        self.report(session, status, last)

    def is_new(self):
        return len(self.open) < self.most or self.rng.random() < 1 / self.length

    def again_old(self):
        """A report of a session that was over long ago: once more, as late as it now is."""
        self.old_one = self.rng.choice(self.old)
        return self.old_one.reports[-1]

    def of(self, session):
        return self.servers[session.source]

    def new_session(self, is_old=False):
        rng, count = self.rng, len(self.model.sessions)
        identifier = f"{count:06x}-{rng.randrange(1 << 24):06x}".encode()
        account = rng.choice(BAD_NAMES) if rng.random() < ODD_NAME else rng.choice(NAMES).encode()
        plan = rng.choice(PLANS_OLD if is_old else PLANS_SENT)
        if rng.random() < ODD_ID:
            identifier += rng.choice(
                [b" a\\b", 'ä"q"'.encode(), b"'%d", b"x" * 200, b"%{User-Name}", b"\\\\n", b"&a"]
            )
        session = Session(count, rng.choice(SOURCES), identifier, account, plan)
        if rng.random() < WRONG_FORM and not is_old:
            session.kind, session.form = WRONG, wrong(rng)
        if session.stamp and rng.random() < OUTER:
            session.said = rng.choice([b"anonymous", *BAD_NAMES, NAMES[1].encode()])
        session.is_old, session.gives_up = is_old, rng.random() < GIVES_UP
        self.model.sessions.append(session)
        if not is_old:
            self.open.append(session)
        return session

    def report(self, session, status, last):
        """The next report of a session, which goes on its way."""
        rng = self.rng
        grows = lambda: rng.choice([0, rng.randrange(1 << 12), rng.randrange(3 << 20)])
        one, other, seconds = (last.input, last.output, last.seconds) if last else (0, 0, 0)
        if last:
            one, other, seconds = one + grows(), other + grows(), seconds + rng.randrange(200)
            if rng.random() < 0.003:
                other += rng.randrange(4, 9) * GIB
        moment = time.time()
        if rng.random() < LATE:
            # A device that had no link for some days.
            moment -= rng.choice([rng.randrange(HOUR), rng.randrange(20 * DAY)])
        report = Report(session, status, (one, other), seconds, moment)
        session.reports.append(report)
        more = []
        if session.kind == WRONG:
            more = session.form
        elif rng.random() < ODD:
            more = odd_attributes(rng)
        elif rng.random() < RFC_6929:
            more = extended(rng)
        tries = TRIES if session.gives_up or session.kind == WRONG else None
        wait = rng.uniform(0, 3) if rng.random() < OVERTAKEN else 0
        self.give(Sending(report, self.of(session), more, tries), wait)
        if rng.random() < AGAIN and session.kind != WRONG:
            self.later(rng.expovariate(1 / 20), lambda: self.say_again(report, more))

    def say_again(self, report, more):
        """A device that says again what was answered."""
        if report.answered is not None and self.is_making:
            self.give(Sending(report, self.of(report.session), more, TRIES))

    def give(self, sending, wait=0):
        self.waiting += 1
        self.later(wait, lambda: self.send(sending))

    def send(self, sending):
        """Sends a report, and again until it is answered or given up."""
        if sending.is_done:
            return
        if sending.tries is not None and sending.count >= sending.tries:
            sending.is_done = True
            self.waiting -= 1
            return
        if not sending.send(time.time()):
            self.later(0.5, lambda: self.send(sending))
            return
        self.datagrams += 1
        if self.rng.random() < TWICE:
            sending.server.throw(sending.datagram)
        pause = min(FIRST * 1.6 ** (sending.count - 1), LAST) * self.rng.uniform(0.8, 1.2)
        self.later(pause, lambda: self.send(sending))

    def make_old(self, count, youngest, oldest, is_old=True):
        """Sessions that were over long before, and are reported at last: too late for the limit, or
        not.
        """
        for _ in range(count):
            session = self.new_session(True)
            session.is_old = is_old
            octets = self.rng.randrange(9 << 20), self.rng.randrange(9 << 20)
            moment = time.time() - self.rng.randrange(youngest, oldest)
            session.reports.append(Report(session, STOP, octets, self.rng.randrange(9000), moment))
            self.give(Sending(session.reports[0], self.of(session), [], None))
            self.old.append(session)

