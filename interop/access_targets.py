"""Where interop/access-servers sends its cases, and what became of them there: radacctd alone, and
FreeRADIUS' own SQL.
"""

import contextlib
import csv
import datetime
import hashlib
import io
import os
import re
import socket
import subprocess
import urllib.parse

import front
import served
from access_cases import CLASS, USER, Charge, Packet, address, bare, pairs_of
from front import LISTEN, SECRET
from served import attribute, check, free_port, text_of

MEBIBYTE = 1 << 20
octets = urllib.parse.unquote_to_bytes
# Class, block, unit and what is counted.
PLANS = [("gold", MEBIBYTE, 1, "both"), ("silver", MEBIBYTE, 2, "both"),
         ("default", MEBIBYTE, 1000, "both"), ("up", MEBIBYTE, 3, "in"),
         ("down", MEBIBYTE, 4, "out")]
KNOWN = {name for name, *_ in PLANS}
# The names that log in, and whose the Access-Accept's is then.
USERS = """
DEFAULT User-Name =~ "^alias-([0-9]+)$", Cleartext-Password := "right"
	User-Name := "al-%{1}",
	Class := "silver"

DEFAULT Cleartext-Password := "right"
	Class := "silver"
"""


def plan_of(shown):
    """The plan of a Class."""
    return shown if shown in KNOWN else "default"


class Row:
    """A session, as a server has it: where it was reported, its id, and what it is charged."""

    def __init__(self, source, session, charge):
        self.source, self.session, self.charge = source, session, charge


def rows_of_radacctd(text):
    """The rows of `radacctd export sessions`."""
    for row in csv.DictReader(io.StringIO(text)):
        more = {"state": row["state"], "cause": row["cause"], "time": row["seconds"],
                "ip": row["framed"], "station": row["calling"], "last": int(row["last"])}
        it = Charge(octets(row["account"]), plan_of(row["class"]), int(row["input"]),
                    int(row["output"]), more)
        it.more["charged"] = int(row["charged"])
        session = octets(row["session"])
        yield Row(source_of(row["client"], session), session, it)


def source_of(client, session):
    """Where the access server of a row sends from, as far as the row says it."""
    name, _, device = client.partition("/")
    value = octets(device[1:])
    if name == "front":
        return session.split(b"/")[0].decode("latin-1")
    if device[:1] == "a" and len(value) == 4:
        return socket.inet_ntoa(value)
    number = re.match(rb"(\d+)x", value)
    return address(int(number[1])) if device[:1] == "n" and number else client


def rows_of_radacct(text):
    """The rows of a table radacct as CSV with its header."""
    for row in csv.DictReader(io.StringIO(text)):
        name = row.get("class") or ""
        is_hex = re.fullmatch(r"0x([0-9a-f]{2})+", name)
        name = bytes.fromhex(name[2:]).decode("latin-1") if is_hex else name
        stopped = row["acctstoptime"] not in ("", None)
        more = {"state": "stopped" if stopped else "open", "cause": row["acctterminatecause"],
                "time": row["acctsessiontime"] or "0", "ip": row["framedipaddress"],
                "station": unescaped(row["callingstationid"])}
        more["last"] = moment(row["acctstoptime"] or row.get("acctupdatetime") or "")
        account = unescaped(row["username"]).encode("latin-1", "replace")
        it = Charge(account, plan_of(name), number(row["acctinputoctets"]),
                    number(row["acctoutputoctets"]), more)
        yield Row(row["nasipaddress"], row["acctsessionid"].encode(), it)


def unescaped(text):
    """A text that FreeRADIUS escaped for SQL."""
    return re.sub(r"=([0-9A-F]{2})", lambda it: chr(int(it[1], 16)), text)


def number(text):
    return int(text) if re.fullmatch(r"\d+", text or "") else 0


def moment(text):
    """Seconds since 1970 of a number or of a date as databases show them."""
    if re.fullmatch(r"\d+", text):
        return int(text)
    with contextlib.suppress(ValueError):
        return int(datetime.datetime.fromisoformat(text).timestamp())
    return 0


class Target:
    """A server at a port of 127.0.0.1."""

    secret = SECRET.encode()
    auth = book = None
    given = staticmethod(bare)

    def logs_in(self, case, step):
        """The attributes of the Access-Accept, or None."""
        if self.auth is None:
            return None
        packet = login_packet(case, step, self.secret)
        with socket.socket(socket.AF_INET, socket.SOCK_DGRAM) as opened:
            opened.bind((case.source(), 0))
            for _ in range(4):
                opened.settimeout(3)
                opened.sendto(packet.octets, ("127.0.0.1", self.auth))
                with contextlib.suppress(OSError):
                    reply = opened.recv(4096)
                    if packet.is_answered_by(reply):
                        found = {USER: [], CLASS: []}
                        for kind, value in pairs_of(reply):
                            found.setdefault(kind, []).append(value)
                        return found
        check(f"{self.name}: {case.name}: the login is accepted", False, True)
        return None

    def restart(self):
        ended(self.book)
        self.book.start()

    def rows(self):
        """The sessions of radacctd's book. A server has it for itself, so it is ended before."""
        ended(self.book)
        return list(rows_of_radacctd(self.book.exported("sessions")))

    def end(self):
        ended(self.book)


def login_packet(case, step, secret):
    """An Access-Request with a right password."""
    packet = Packet.__new__(Packet)
    packet.step, packet.secret, packet.identifier = step, secret, case.number % 256
    drawn = os.urandom(16)
    hidden = hashlib.md5(secret + drawn).digest()
    hidden = bytes(one ^ other for one, other in zip(b"right".ljust(16, b"\0"), hidden))
    names = {"User-Name", "user"} & {name for name, _ in step.pairs}
    body = b"" if names else attribute(USER, case.account("al"))
    for kind, value in step.attributes({}):
        body += attribute(kind, value)
    body += attribute(2, hidden)
    head = bytes([1, packet.identifier]) + (20 + len(body)).to_bytes(2, "big")
    packet.octets = head + drawn + body
    return packet


class Book(front.Book):
    """radacctd, with these clients, as lines of its configuration."""

    def __init__(self, folder, clients, top=""):
        plans = (served.plan(name, count, block, unit) for name, block, unit, count in PLANS)
        self.text = "".join([top, *clients, *plans])
        super().__init__(folder)

    def configuration(self):
        return self.text


def ended(book):
    if book.process.poll() is None:
        book.kill()


class Alone(Target):
    """radacctd, with a client for each access server."""

    name, top = "radacctd alone", ""

    def __init__(self, folder, cases):
        clients = [front.client_text(it, it, SECRET, self.more(case))
                   for case in cases for it in case.sources()]
        self.book = Book(folder, clients, self.top)
        self.port = self.book.radius
        self.book.start()

    def more(self, _):
        """What else the client of a case has."""
        return ""


class Debian(Target):
    """FreeRADIUS with Debian's configuration, at ports of its own."""

    def __init__(self, folder, raddb):
        self.folder, self.raddb = folder, raddb
        self.port, self.auth = (free_port(socket.SOCK_DGRAM) for _ in range(2))
        self.log, self.process = os.path.join(folder, "out"), None
        for name in ("log", "run", "log/radacct"):
            os.makedirs(os.path.join(folder, name), exist_ok=True)
        front.moved(self)
        self.ports()
        front.written(os.path.join(raddb, "mods-config/files/authorize"), USERS)

    def ports(self):
        """Listens at its own ports alone."""
        front.without_listen(self.raddb)
        listens = ""
        for kind, port in (("auth", self.auth), ("acct", self.port)):
            listen = LISTEN.format(kind=kind, family="ipaddr", address="127.0.0.1", port=port)
            listens += listen.replace("type =", "virtual_server = default\n\t\ttype =", 1)
        front.written(os.path.join(self.raddb, "sites-enabled", "port"), listens)

    def start(self):
        with open(self.log, "wb") as file:
            words = ["freeradius", "-d", self.raddb, "-f", "-l", "stdout"]
            self.process = subprocess.Popen(words, stdout=file, stderr=file)
        ready = "Ready to process requests"
        front.waits_for(f"{self.name}: FreeRADIUS is ready", lambda: ready in text_of(self.log), True)
        if ready not in text_of(self.log):
            raise SystemExit(text_of(self.log)[-2000:])

    def stop(self):
        if self.process is not None and self.process.poll() is None:
            self.process.kill()
            self.process.communicate()

    def restart(self):
        self.stop()
        self.start()

    def end(self):
        self.stop()
        if self.book:
            ended(self.book)


def debians(folder):
    """A copy of Debian's configuration."""
    raddb = os.path.join(folder, "raddb")
    subprocess.run(["cp", "-a", front.STOCK, raddb], check=True)
    stock = f"raddbdir = {front.STOCK}"
    front.edited(raddb, "radiusd.conf", stock, f"raddbdir = {raddb}")
    return raddb


class Sql(Debian):
    """FreeRADIUS' own SQL, with SQLite, as Debian packages it."""

    name = "FreeRADIUS' SQL"

    def __init__(self, folder, cases):
        raddb = debians(folder)
        super().__init__(folder, raddb)
        self.database = os.path.join(folder, "radius.db")
        for one, other in (
            ('driver = "rlm_sql_null"', 'driver = "rlm_sql_sqlite"'),
            ('filename = "/tmp/freeradius.db"', f'filename = "{self.database}"'),
            ("busy_timeout = 200", "busy_timeout = 10000")):
            front.edited(raddb, "mods-available/sql", one, other)
        os.symlink("../mods-available/sql", os.path.join(raddb, "mods-enabled/sql"))
        # As the file itself says to keep the Class.
        for name in ("column_name", "packet_xlat", "reply_xlat"):
            path = "mods-config/sql/main/sqlite/queries.conf"
            front.edited(raddb, path, f"\t{name} =\t# ", f"\t{name} = ")
        text = f"client all {{\n\tipaddr = 127.0.0.0/8\n\tsecret = {SECRET}\n}}\n"
        front.written(os.path.join(raddb, "clients.conf"), text)
        self.start()

    def rows(self):
        words = ["sqlite3", "-csv", "-header", self.database, "SELECT * FROM radacct"]
        done = subprocess.run(words, capture_output=True, check=True)
        return list(rows_of_radacct(done.stdout.decode("latin-1")))
