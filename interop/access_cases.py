"""The cases of interop/access-servers: reads the files of interop/access_servers, and makes the
packets. access_servers/README.md says how a case is written.
"""

import dataclasses
import glob
import hashlib
import hmac
import os
import re
import shlex
import socket
import time

from access_dictionary import Dictionary, octets
from served import attribute

FOLDER = os.path.join(os.path.dirname(os.path.abspath(__file__)), "access_servers")
STATUSES = {"start": 1, "stop": 2, "interim": 3, "on": 7, "off": 8, "tunnel-start": 9}
STATUSES |= {"tunnel-stop": 10, "tunnel-reject": 11, "link-start": 12, "link-stop": 13}
STATUSES |= {"link-reject": 14, "failed": 15, "nothing": None}
# Of packets that are no reports: the code.
CODES = {"access-request": 1, "accounting-response": 5, "status-server": 12, "disconnect": 40}
LOGIN, PAUSE, NOT_ANSWERED = "login", "pause", "-"
OVER_A_RESTART = "over a restart"
SHORT = {"user": "User-Name", "id": "Acct-Session-Id", "class": "Class", "nas": "NAS-IP-Address"}
SHORT |= {"time": "Acct-Session-Time", "delay": "Acct-Delay-Time", "cause": "Acct-Terminate-Cause"}
SHORT |= {"ip": "Framed-IP-Address", "station": "Calling-Station-Id"}
SIZES = {"": 1, "K": 1 << 10, "M": 1 << 20, "G": 1 << 30}
# The numbers of octets and gigawords that came from the user, and that went there.
COUNTERS = {"in": (42, 52), "out": (43, 53)}
USER, CLASS, NAS_NAME, SESSION, AUTHENTICATOR = 1, 25, 32, 44, 80
LARGEST = 4096
# What a report has for a name if another one logged in.
OTHER_NAMES = (None, "0x", "outer", "alias", "AL")
# What a case may say, and how a reason begins.
PROGRAM = ["alone", "stamped", "proxied"]
COLUMNS = {"right": ["right"], **{it: [it] for it in PROGRAM}, "program": PROGRAM}
KINDS = {"The specification": "specification", "Not known": "not known", "A setting": "setting"}


class Mistake(Exception):
    """A case that is not written as it must be."""


def size(text):
    found = re.fullmatch(r"(\d+)([KMG]?)", text)
    if not found:
        raise Mistake(f"{text} is no size")
    return int(found[1]) * SIZES[found[2]]


@dataclasses.dataclass
class Charge:
    """What an account is charged by a plan, and what else is known of its sessions."""

    account: bytes
    plan: str
    input: int
    output: int
    more: dict


@dataclasses.dataclass
class Wanted:
    """What must come of a case: which packets are answered, and who pays what."""

    answers: str
    charges: list
    reason: str

    def kind(self):
        """What kind of reason it is."""
        return next((it for begin, it in KINDS.items() if self.reason.startswith(begin)), "")


def address(number, net=3):
    """Where the access server of a case sends from."""
    return f"127.{net}.{number // 250}.{1 + number % 250}"


def bare(_, plan):
    """The Class of a login if it is the plan's name."""
    return plan.encode()


class Case:
    """A case, with its packets as they are written."""

    def __init__(self, number, name, group):
        self.number, self.name, self.group = number, name, group
        self.who = ""
        self.is_life = False
        self.every, self.lines, self.client = [], [], []
        # What is right, and what a target does by its specification where that differs.
        self.wanted = {}
        # What a table says of each of its cases.
        self.said = []
        # In which order a life is sent again.
        self.variant = ""

    def account(self, name):
        """A name as it is sent: others of the same text are other accounts."""
        if name.startswith("0x"):
            return octets(name)
        return b"" if name == "nobody" else f"{name}-{self.number}".encode()

    def identifier(self, value):
        return octets(value) if value.startswith("0x") else f"{self.number}x{value}".encode()

    def source(self, second=False):
        return address(self.number, 4 if second else 3)

    def setting(self, name):
        """What its client has for a name."""
        return dict(it.split("=") for it in self.client).get(name)

    def sources(self):
        """The addresses of its access servers."""
        has_two = any("!from=2" in line for line in self.lines)
        return [self.source(), self.source(True)] if has_two else [self.source()]

    def logs_in(self):
        """The name that logs in, as the answer has it."""
        found = [it for line in self.lines if line.startswith(LOGIN) for it in line.split()]
        names = [it.removeprefix("user=") for it in found if it.startswith("user=")]
        return names[0] if names and names[0] != "alias" else "al"

    def copy(self, number, variant, lines):
        other = Case(number, f"{self.name}, {variant}", self.group)
        other.who = self.who
        other.every, other.client, other.lines = self.every, self.client, lines
        other.wanted, other.variant = self.wanted, variant
        other.is_life = True
        return other

    def steps(self):
        return [Step(self, shlex.split(line)) for line in self.lines]

    def want(self, target):
        return self.wanted.get(target) or self.wanted["right"]


class Step:
    """One line of a case: a packet, a login or a pause."""

    # The Class of a login of an account by a plan, as a target gives it.
    given = staticmethod(bare)

    def __init__(self, case, words):
        self.case, self.words = case, words
        self.what, rest = words[0], words[1:]
        if self.what not in (*STATUSES, *CODES, LOGIN, PAUSE) and not self.what.isdigit():
            raise Mistake(f"{case.name}: {self.what} is no packet")
        self.flags = dict(it[1:].partition("=")[::2] for it in rest if it.startswith("!"))
        own = [it for it in rest if not it.startswith("!")]
        self.dropped = {it[1:] for it in own if it.startswith("-")}
        every = [it for it in case.every if it.partition("=")[0] not in self.dropped]
        own = [it for it in own if not it.startswith("-")]
        self.pairs = [tuple(it.partition("=")[::2]) for it in (*every, *own)]

    def check(self):
        """Complains of a word that is none."""
        try:
            if self.what != PAUSE:
                self.attributes({})
        except (KeyError, ValueError, OSError, Mistake) as fault:
            raise Mistake(f"{self.case.name}: {' '.join(self.words)}: {fault!r}") from fault

    def is_report(self):
        return self.what in STATUSES or self.what.isdigit()

    def name(self):
        """The name that a report has."""
        return None if "user" in self.dropped else dict(self.pairs).get("user", "al")

    def payer(self):
        """Who logged in before it: its own name, or another report's; None if nobody did."""
        reports = [it for it in self.case.steps() if it.is_report()]
        names = [it.name() for it in (self, *reports) if it.what not in ("on", "off")]
        found = next((it for it in names if it not in OTHER_NAMES), None)
        return found and self.case.account(found)

    def attributes(self, login):
        """The attributes, of which `login` has those that its answer had."""
        names = {name for name, _ in self.pairs}
        defaults = [("user", "al"), ("id", "s1"), ("class", "@gold"),
                    ("nas", self.case.source("from" in self.flags))]
        if self.what in ("on", "off") or not self.is_report():
            defaults = defaults[3:]
        found = []
        if self.is_report() and STATUSES.get(self.what, self.what) is not None:
            status = int(STATUSES.get(self.what, self.what))
            found.append((40, status.to_bytes(4, "big")))
        for name, value in defaults:
            if name not in names and name not in self.dropped:
                found += self.written(name, value, login)
        for name, value in self.pairs:
            found += self.written(name, value, login)
        return found

    def written(self, name, value, login):
        if value == "@login":
            own = self.case.logs_in()
            kind, fallback = (USER, own) if name == "user" else (CLASS, "@silver")
            if login.get(kind):
                return [(kind, it) for it in login[kind]]
            return self.written(name, fallback, login)
        if name.lower() == "class" and value.startswith("@"):
            plan, _, kept = value[1:].partition(":")
            found = self.given(self.payer(), plan)[: int(kept or 253)]
            return [(CLASS, found)] if found else []
        if name == "NAS-Identifier":
            return [(NAS_NAME, self.case.identifier(value))]
        if name == "user":
            return [(USER, self.case.account(value))]
        if name == "id":
            return [(SESSION, self.case.identifier(value))]
        if name in ("ago", "clock"):
            moment = int(time.time()) + int(value) * (1 if name == "clock" else -1)
            return [(55, moment.to_bytes(4, "big"))]
        if name.removesuffix("32") in COUNTERS:
            return counted(name, size(value))
        return DICTIONARY.written(SHORT.get(name, name), value)


def counted(name, total):
    """A counter, with its gigawords if the access server counts them."""
    low, high = COUNTERS[name.removesuffix("32")]
    found = [(low, (total & 0xFFFFFFFF).to_bytes(4, "big"))]
    if total >> 32 and not name.endswith("32"):
        found.append((high, (total >> 32).to_bytes(4, "big")))
    return found


DICTIONARY = Dictionary()


class Packet:
    """A packet as it is sent."""

    def __init__(self, step, identifier, secret, login=None):
        self.step, self.secret = step, secret
        if "secret" in step.flags:
            secret = b"another"
        self.identifier = identifier
        code = 4 if step.is_report() else CODES[step.what]
        body = b"".join(attribute(*it) for it in step.attributes(login or {}))
        body += octets("0x" + step.flags.get("raw", ""))
        body += filling(20 + len(body), step.flags)
        self.octets = self.signed(code, body, secret)
        self.octets += b"x" * int(step.flags.get("padding", 0))
        if "cut" in step.flags:
            self.octets = self.octets[: -int(step.flags["cut"])]

    def signed(self, code, body, secret):
        """The packet: RFC 2866, 3; a Message-Authenticator by RFC 3579, 3.2, and RFC 5997, 3."""
        flags = self.step.flags
        length = 20 + len(body) + (18 if AUTHENTICATED in flags else 0)
        head = bytes([code, self.identifier]) + int(flags.get("length", length)).to_bytes(2, "big")
        drawn = os.urandom(16) if code in (1, 12) else bytes(16)
        if AUTHENTICATED in flags:
            key = b"another" if flags[AUTHENTICATED] == "wrong" else secret
            zero = attribute(AUTHENTICATOR, bytes(16))
            proof = hmac.new(key, head + drawn + body + zero, hashlib.md5).digest()
            body += attribute(AUTHENTICATOR, proof)
        if code in (1, 12):
            return head + drawn + body
        return head + hashlib.md5(head + drawn + body + secret).digest() + body

    def is_answered_by(self, reply):
        """Whether this is the answer, with all states of proxies, in their order."""
        if len(reply) < 20 or reply[1] != self.identifier or reply[0] not in (2, 5):
            return False
        length = int.from_bytes(reply[2:4], "big")
        signed = reply[:4] + self.octets[4:20] + reply[20:length] + self.secret
        states = [it for it in pairs_of(self.octets) if it[0] == 33]
        returned = [it for it in pairs_of(reply) if it[0] == 33]
        return hashlib.md5(signed).digest() == reply[4:20] and states == returned


AUTHENTICATED = "message-authenticator"


def filling(length, flags):
    """Attributes that make a packet as long as it is to be."""
    left = int(flags.get("size", length)) - length
    found = b""
    while left > 0:
        one = min(left, 255)
        # None may be shorter than three octets.
        one -= 3 if 0 < left - one < 3 else 0
        found += attribute(18, b"m" * (one - 2))
        left -= one
    return found


def pairs_of(packet):
    """The attributes of a packet, as far as they are well formed."""
    at, end = 20, min(len(packet), int.from_bytes(packet[2:4], "big"))
    while at + 2 <= end and packet[at + 1] >= 2 and at + packet[at + 1] <= end:
        yield packet[at], packet[at + 2 : at + packet[at + 1]]
        at += packet[at + 1]


class Reader:
    """Reads the files."""

    def __init__(self):
        self.cases, self.group, self.table = [], "", None

    def read(self, path):
        self.group = os.path.basename(path).partition(".")[0]
        with open(path, encoding="utf-8") as file:
            text = file.read().replace("\\\n", " ")
        for number, line in enumerate(text.splitlines(), 1):
            try:
                self.take(line)
            except (Mistake, ValueError, KeyError, IndexError, AttributeError, OSError) as fault:
                raise Mistake(f"{path}, line {number}: {line.strip()}: {fault!r}") from fault

    def take(self, line):
        word, _, rest = line.strip().partition(" ")
        rest = rest.strip()
        if not word or word.startswith("#"):
            return
        case = self.cases[-1] if self.cases else None
        if line[0].isspace():
            (self.table or case).lines.append(line.strip())
        elif word in ("case", "life", "table"):
            self.begin(word, rest)
        elif word == "with":
            self.row(rest)
        elif self.table:
            self.table.said.append((word, rest))
        else:
            self.of_case(case, word, rest)

    def begin(self, word, name):
        self.table = None
        case = Case(len(self.cases) + 1, name, self.group)
        case.is_life = word == "life"
        if word == "table":
            self.table = case
        else:
            self.cases.append(case)

    def row(self, rest):
        """A case of a table: the words that take the place of {}."""
        _, words, *right = (it.strip() for it in re.split(r" \|(?: |$)", rest))
        case = Case(len(self.cases) + 1, f"{self.table.name}: {words}", self.group)
        case.lines = [line.replace("{}", words) for line in self.table.lines]
        said = [*self.table.said, *(("right", it) for it in right)]
        for word, text in said:
            self.of_case(case, word, text.replace("{}", words))
        self.cases.append(case)

    def of_case(self, case, word, rest):
        columns = word.split("+")
        if set(columns) <= set(COLUMNS):
            columns = [it for one in columns for it in COLUMNS[one]]
            case.wanted |= dict.fromkeys(columns, wanted(case, rest, word))
        elif word == "every":
            case.every = shlex.split(rest)
        elif word == "client":
            case.client = rest.split()
        elif word == "who":
            case.who = rest.partition("|")[0].strip()
        else:
            raise Mistake(f"{word} is none of the words of a case")


def wanted(case, text, columns):
    """What a line `right`, or of some other columns, says."""
    text, _, reason = text.partition("|")
    words = text.split(None, 1)
    answers = ""
    if re.fullmatch(r"[R-]+", words[0]):
        answers, text = words[0], words[1]
    charges = [charge(it.split()) for it in text.split(",") if it.strip() != "nothing"]
    found = Wanted(answers, charges, reason.strip())
    if columns != "right" and not found.kind():
        raise Mistake(f"{case.name}: a reason begins with one of {', '.join(KINDS)}")
    return found


def charge(words):
    account, plan, total, *rest = words
    one, _, other = total.partition("+")
    more = {}
    for it in rest:
        name, mark, value = it.partition("=")
        more[name if mark else "state"] = value if mark else name
    return Charge(account, plan, size(one), size(other or "0"), more)


def read_all(folder=FOLDER):
    """All cases, and those of each life in other orders, which are numbered behind them."""
    reader = Reader()
    for path in sorted(glob.glob(os.path.join(folder, "*.cases"))):
        reader.read(path)
    base = list(reader.cases)
    for case in base:
        if not case.is_life:
            continue
        logins = [it for it in case.lines if it.startswith(LOGIN)]
        lines = [it for it in case.lines if not it.startswith(LOGIN)]
        for variant, other in (
            ("each packet twice", [*logins, *(it for it in lines for it in (it, it))]),
            ("the last packet first", [*logins, *lines[::-1]]),
            (OVER_A_RESTART, [*logins, *lines])):
            reader.cases.append(case.copy(len(reader.cases) + 1, variant, other))
    for case in reader.cases:
        for step in case.steps():
            step.check()
        if "right" not in case.wanted:
            raise Mistake(f"{case.name}: nothing says what is right")
    return base, reader.cases


class Sender:
    """The access server of a case: sends its packets one after the other."""

    TRIES, PATIENCE, SILENCE = 4, 3, 1.5

    def __init__(self, case, target):
        self.case, self.target, self.login = case, target, {}
        # When its last packet was sent.
        self.moment = 0
        self.answers, self.count, self.sockets = "", 0, []
        for source in case.sources():
            self.sockets.append(socket.socket(socket.AF_INET, socket.SOCK_DGRAM))
            self.sockets[-1].bind((source, 0))

    def send(self, steps, wanted_answers):
        for step in steps:
            if step.what == PAUSE:
                time.sleep(float(step.words[1]))
            elif step.what == LOGIN:
                self.login = self.target.logs_in(self.case, step) or {}
            else:
                at = len(self.answers)
                silent = wanted_answers[at : at + 1] == NOT_ANSWERED
                self.answers += "R" if self.is_answered(step, silent) else NOT_ANSWERED

    def is_answered(self, step, silent):
        """Whether a packet is answered. As a device does, this sends it again."""
        self.count += 1
        identifier = (self.case.number * 7 + self.count) % 256
        step.given = self.target.given
        packet = Packet(step, identifier, self.target.secret, self.login)
        opened = self.sockets["from" in step.flags]
        self.moment = time.time()
        for _ in range(1 if silent else self.TRIES):
            opened.sendto(packet.octets, ("127.0.0.1", self.target.port))
            end = time.monotonic() + (self.SILENCE if silent else self.PATIENCE)
            while time.monotonic() < end:
                opened.settimeout(max(0.01, end - time.monotonic()))
                try:
                    if packet.is_answered_by(opened.recv(LARGEST)):
                        return True
                except (socket.timeout, ConnectionRefusedError):
                    time.sleep(0.05)
        return False

    def close(self):
        for opened in self.sockets:
            opened.close()
