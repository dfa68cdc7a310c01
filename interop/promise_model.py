"""What interop/promise sent, what was answered, and what the books must have then.

It has no line in common with the program and its tools. A session is charged once: the price, by
its plan, of the greatest total that was accepted. What was answered was accepted, what was sent and
not answered may have been. Whose stamp a report has pays by its plan, whatever name the device says;
without one the name pays by the plan of the client. A voucher is credited once.
"""

import collections
import csv
import hmac
import io
import urllib.parse

BOTH, IN, OUT = "both", "in", "out"
MEBIBYTE = 1 << 20
# Of each Class: block, unit and what is counted.
PLANS = {
    b"gold": (MEBIBYTE, 10, BOTH), b"up": (MEBIBYTE, 7, IN), b"down": (65_536, 3, OUT),
    b"free": (MEBIBYTE, 0, BOTH), b"default": (1_000_000, 5, BOTH)}
# The plan of reports without a stamp, and what a stamp is made with.
UNSTAMPED, STAMP_SECRET, LONGEST = b"free", b"stamp-secret-of-tests", 253
SAID = set(b"ABCDEFGHIJKLMNOPQRSTUVWXYZabcdefghijklmnopqrstuvwxyz0123456789._-")
START, STOP, INTERIM = 1, 2, 3
# A report of a wrong form is never answered, and not charged.
FINE, WRONG = "fine", "wrong"
# By how many seconds the moment of a session may be another one in the book.
EDGE = 5
# By how many seconds radacctd's own clock is set off at most, and a minute more.
OFF = 15 * 86_400 + 60


def coded(octets):
    """As a stamp spells a plan or a name, and the book a device."""
    return b"".join(bytes([it]) if it in SAID else b"%%%02X" % it for it in octets)


def stamp_of(plan, account):
    """The Class of a login, or nothing if it would be too long."""
    text = coded(plan) + b";;" + coded(account) + b";"
    stamp = text + hmac.new(STAMP_SECRET, b"stamp;" + text, "md5").hexdigest().encode()
    return stamp if len(stamp) <= LONGEST else b""


def shown(name):
    """A name as the desk takes it."""
    return "".join(chr(it) if 32 <= it < 127 and it not in b'%"\\' else f"%{it:02X}" for it in name)


def device(nas):
    """How the book names the device that says this NAS-Identifier, behind the front."""
    return b"front/n" + coded(nas)


class Report:
    """What an access server has to say of a session at a moment."""

    def __init__(self, session, status, octets, seconds, moment):
        self.session, self.status, self.moment = session, status, moment
        self.input, self.output = octets
        self.seconds = seconds
        # The moments and delays of its datagrams, and of the first answer.
        self.sent, self.answered = [], None

    def numbers(self):
        """Octets from and to the user, as the book is to have them."""
        return self.input, self.output

    def counted(self):
        return self.session.counted(*self.numbers())

    def __str__(self):
        sent = ", ".join(f"{at:.1f} (delay {delay})" for at, delay in self.sent)
        return f"{self.status} {self.numbers()}: sent {sent}; answered {self.answered}"


class Session:
    def __init__(self, number, source, identifier, account, plan):
        self.number, self.source, self.identifier = number, source, identifier
        self.account, self.kind = account, FINE
        self.stamp = stamp_of(plan, account) if plan else b""
        self.plan = plan if self.stamp else UNSTAMPED
        # What the device says as the name: with a stamp it may be any.
        self.said = account
        self.reports, self.filed = [], []
        # Whether it was over long before the test began.
        self.is_old = False

    def of_plan(self):
        return PLANS.get(self.plan, PLANS[b"default"])

    def counted(self, one, other):
        """What its plan counts of these octets."""
        return {BOTH: one + other, IN: one, OUT: other}[self.of_plan()[2]]

    def price(self, counted):
        block, unit, _ = self.of_plan()
        return -(-counted // block) * unit

    def was_before(self, moment):
        """Whether it was over before a moment, and may be carried forward."""
        return self.is_old and self.reports[-1].moment < moment + EDGE

    def least(self):
        """What was answered at most, or None."""
        return max((it.counted() for it in self.reports if it.answered), default=None)

    def most(self):
        return max((it.counted() for it in self.reports if it.sent), default=None)

    def nas(self):
        return b"ap " + self.source.encode()

    def key(self):
        """How the book knows it: the device and its identifier, which no two sessions share."""
        return device(self.nas()), self.identifier

    def __str__(self):
        name = f"session {self.key()} of {self.account!r}, plan {self.plan!r}, filed {self.filed}"
        return "\n    ".join([name, *map(str, self.reports)])


class Sale:
    """A voucher that was sold to an account."""

    def __init__(self, number, account, total):
        self.number, self.account, self.total = number, account, total
        self.is_answered = False


class Found:
    """The exports of a book."""

    def __init__(self, export):
        self.sessions, self.lines, self.again = {}, {}, []
        for row in rows(export("sessions")):
            self.add(row)
        self.topups = {row["voucher"]: (octets(row["account"]), int(row["sum"]))
                       for row in rows(export("topups"))}
        self.balances = {octets(row["account"]): int(row["balance"])
                         for row in rows(export("balances"))}

    def add(self, row):
        account, charged = octets(row["account"]), int(row["charged"])
        row["account"], row["charged"] = account, charged
        if row["client"].startswith("("):
            name = account, row["client"].strip("()").split(")")[0].encode()
            self.lines[name] = self.lines.get(name, 0) + charged
            return
        # Behind its identifier are the login and who pays.
        key = row["client"].encode(), octets(row["session"]).rsplit(b"/", 2)[0]
        if key in self.sessions:
            self.again.append(row)
        self.sessions[key] = row

    def charged(self):
        """What each account is charged by these rows and lines."""
        found = collections.Counter()
        for row in [*self.sessions.values(), *self.again]:
            found[row["account"]] += row["charged"]
        for (account, _), total in self.lines.items():
            found[account] += total
        return found

    def sold(self):
        """What each account has bought by these vouchers."""
        found = collections.Counter()
        for account, total in self.topups.values():
            found[account] += total
        return found


def rows(text):
    return csv.DictReader(io.StringIO(text))


def octets(shown):
    return urllib.parse.unquote_to_bytes(shown)


class Model:
    """All that was sent, and what it was answered."""

    def __init__(self):
        self.sessions, self.sales, self.conflicts = [], {}, []
        # What lies among the reports that are filed and belongs to nobody.
        self.strange = []

    def keys(self):
        return {it.key(): it for it in self.sessions}

    def faults(self, found, carried_before):
        """What is not as it must be, each as a text with its history."""
        keys = self.keys()
        yield from self.strangers(found, keys)
        missing = {}
        for session in self.sessions:
            row = found.sessions.get(session.key())
            if row is None and session.was_before(carried_before):
                name = session.account, session.plan
                missing[name] = missing.get(name, 0) + session.price(session.most())
            else:
                yield from row_faults(session, row)
        yield from line_faults(found.lines, missing)
        yield from balance_faults(found)
        yield from self.sale_faults(found.topups)
        yield from ((f"answered {it}", None) for it in self.conflicts)

    def strangers(self, found, keys):
        """Sessions that nobody sent, or that are there twice."""
        yield from ((f"two rows of one session: {row}", None) for row in found.again)
        yield from ((f"filed, and nobody sent it: {it}", None) for it in self.strange)
        for key, row in found.sessions.items():
            if key not in keys:
                yield f"a session that nobody sent: {row}", None

    def sale_faults(self, topups):
        strange = set(topups) - set(self.sales)
        yield from ((f"a voucher that nobody sold: {it}", None) for it in strange)
        for sale in self.sales.values():
            got, wanted = topups.get(sale.number), (sale.account, sale.total)
            if got is None and sale.is_answered:
                yield f"lost: {sale.number} of {sale.account}", None
            elif got not in (None, wanted):
                yield f"{sale.number}: {got}, sold {wanted}", None


def row_faults(session, row):
    """Of a session, and of its row in the book, which may be missing."""
    least, most = session.least(), session.most()
    if session.kind == WRONG and (least is not None or row):
        yield "of a wrong form, and answered or charged", session
    elif row is None:
        if least is not None:
            yield "answered, and not in the book", session
    elif row["account"] != session.account:
        yield f"charged to {row['account']!r}", session
    else:
        yield from charge_faults(session, row, least, most)
        yield from moment_faults(session, row)


def charge_faults(session, row, least, most):
    """Of a row that is there: its total is one that was sent, and its charge that total's price."""
    got = int(row["input"]), int(row["output"])
    sent = {it.numbers(): it.counted() for it in session.reports if it.sent}
    if got not in sent:
        yield f"total {got} was never sent", session
    elif least is not None and sent[got] < least:
        yield f"{sent[got]} is in the book, {least} was answered", session
    elif row["charged"] != session.price(sent[got]):
        yield f"charged {row['charged']}, and {session.price(sent[got])} is right", session
    elif most is None:
        yield "in the book, and never sent", session


def moment_faults(session, row):
    """Of when a session was, as far as a clock that was set off lets it be known."""
    # A copy that is sent with the delay of the first one is dated by when it was sent.
    copies = [at - delay for it in session.reports for at, delay in it.sent]
    moments = [it.moment for it in session.reports] + copies
    if int(row["first"]) < min(moments) - OFF or int(row["last"]) > max(moments) + OFF:
        yield f"dated {row['first']} to {row['last']}", session


def line_faults(lines, missing):
    """Of the lines of what was carried forward, and of the sessions that are not there any more."""
    for name in {*lines, *missing}:
        if lines.get(name, 0) != missing.get(name, 0):
            got, wanted = lines.get(name, 0), missing.get(name, 0)
            yield f"carried for {name}: {got}, and {wanted} is right", None


def balance_faults(found):
    """Each balance is the account's vouchers less its charges."""
    charged, sold = found.charged(), found.sold()
    for account, balance in found.balances.items():
        wanted = sold[account] - charged[account]
        if balance != wanted:
            yield f"the balance of {account!r} is {balance}, and {wanted} is right", None
