"""For tests: a front in a folder of its own, over the program (RADACCTD=path) or its stand-in."""
import csv
import glob
import hashlib
import io
import os
import shutil
import signal
import socket
import sqlite3
import subprocess
import sys
import tempfile
import time
import urllib.request
import json

import test_radius as radius

HERE = os.path.dirname(os.path.abspath(__file__))
PROGRAM = os.environ.get("RADACCTD")
OVER = PROGRAM or "the stand-in"
MEBIBYTE = 1 << 20
SITE = """
[stamp]
secret = "stamp-secret-of-tests"
[[client]]
name = "front"
address = "127.0.0.1"
secret = "book-secret-1"
stamped = true
proxy = true
plan = "free"
[[plan]]
class = "gold"
block = 1048576
unit = 10
[[plan]]
class = "up"
block = 1048576
unit = 3
count = "in"
[[plan]]
class = "down"
block = 1048576
unit = 4
count = "out"
[[plan]]
class = "free"
block = 1048576
unit = 0
[[plan]]
class = "default"
block = 1048576
unit = 1000
[[key]]
token = "cash-key-00000001"
cashier = true
accounts = true
[[key]]
token = "desk-key-logins-0001"
logins = true
"""
CLIENT = "client {name} {{\n\tipaddr = {address}\n\tsecret = testing123\n\tquota = {quota}\n\tlogin = {login}\n}}\n"
CLIENTS = (
    ("mikrotik", "127.0.0.1", "mikrotik", "no"),
    ("chilli", "127.0.0.2", "chillispot", "no"),
    ("pfsense", "127.0.0.3", "pfsense", "no"),
    ("again", "127.0.0.4", "none", "yes"),
    ("free", "127.0.0.5", "none", "no\n\tpays = no"),
    ("many", "127.0.1.0/24", "none", "no"),
    ("more", "127.0.2.0/24", "none", "no"),
)
KINDS = ("radcheck", "radreply", "radgroupcheck", "radgroupreply")
SCHEMA = (
    "".join(
        f"CREATE TABLE {name} (id INTEGER PRIMARY KEY, {'group' if 'group' in name else 'user'}name TEXT NOT NULL,"
        " attribute TEXT NOT NULL, op TEXT NOT NULL, value TEXT NOT NULL);"
        for name in KINDS
    )
    + "CREATE TABLE radusergroup (username TEXT NOT NULL, groupname TEXT NOT NULL, priority INT NOT NULL DEFAULT 1);"
)


def free_port(kind=socket.SOCK_DGRAM):
    with socket.socket(socket.AF_INET, kind) as it:
        it.bind(("127.0.0.1", 0))
        return it.getsockname()[1]


def waited(what, seconds=40):
    end = time.time() + seconds
    while time.time() < end:
        if it := what():
            return it
        time.sleep(0.1)
    return None


def edited(path, pairs):
    with open(path, encoding="utf-8") as file:
        text = file.read()
    for old, new in pairs:
        assert old in text, (path, old)
        text = text.replace(old, new)
    with open(path, "w", encoding="utf-8") as file:
        file.write(text)


class Lab:
    def __init__(self, site=SITE, **settings):
        os.makedirs("/tmp/front", mode=0o755, exist_ok=True)
        self.folder = tempfile.mkdtemp(dir="/tmp/front", prefix="lab-")
        os.chmod(self.folder, 0o755)
        self.path = lambda *it: os.path.join(self.folder, *it)
        self.raddb, self.kept = self.path("raddb"), self.path("kept")
        self.logins, self.reports, self.book_port = (free_port() for _ in range(3))
        self.desk = free_port(socket.SOCK_STREAM)
        self.ask = self.desk
        self.settings, self.book, self.front, self.others = settings, None, None, []
        with open(self.path("site.toml"), "w", encoding="utf-8") as file:
            file.write(site)
        self.users = self.made_users()
        self.made_folder()
        subprocess.run(
            [*self.program(), "init", *self.files()], check=True, stdout=subprocess.DEVNULL
        )

    def program(self):
        return [PROGRAM] if PROGRAM else [sys.executable, os.path.join(HERE, "test_standin.py")]

    def files(self):
        return ["--config", self.path("site.toml"), "--db", self.path("book.db")]

    def made_users(self):
        db = sqlite3.connect(self.path("users.db"), isolation_level=None)
        db.executescript(SCHEMA)
        for name in ("al", "poor", "room 12"):
            self.row(db, "radcheck", name, "Cleartext-Password", "right")
        return db

    @staticmethod
    def row(db, table, name, attribute, value, op=":="):
        column = "groupname" if "group" in table else "username"
        db.execute(
            f"INSERT INTO {table} ({column}, attribute, op, value) VALUES (?, ?, ?, ?)",
            (name, attribute, op, value),
        )

    def user(self, name, group=None, **rows):
        for attribute, value in rows.items():
            self.row(self.users, "radcheck", name, attribute.replace("_", "-"), value)
        if group:
            self.users.execute(
                "INSERT INTO radusergroup (username, groupname) VALUES (?, ?)", (name, group)
            )

    def group(self, name, check=(), **rows):
        for attribute, value in rows.items():
            self.row(self.users, "radgroupreply", name, attribute.replace("_", "-"), value)
        for attribute, value in check:
            self.row(self.users, "radgroupcheck", name, attribute, value)

    def code(self, code, account, group):
        digest = hashlib.sha256(b"key-of-codes" + code.replace("-", "").encode()).hexdigest()
        self.user(digest, group, Front_Payer=account)
        return digest

    def made_folder(self):
        shutil.copytree(os.path.join(HERE, "raddb"), self.raddb)
        folders = (os.path.join(self.kept, it) for it in ("waits", "aside", "again", "lost"))
        for it in (self.kept, self.path("run"), *folders):
            os.makedirs(it)
            shutil.chown(it, "freerad", "freerad")
        edited(
            os.path.join(self.raddb, "radiusd.conf"),
            [("raddbdir = /etc/radacctd-front", f"raddbdir = {self.raddb}")],
        )
        edited(
            os.path.join(self.raddb, "users.conf"),
            [("/var/lib/radacctd-site/users.db", self.path("users.db"))],
        )
        with open(os.path.join(self.raddb, "clients.conf"), "w", encoding="utf-8") as file:
            for name, address, quota, login in CLIENTS:
                file.write(CLIENT.format(name=name, address=address, quota=quota, login=login))
        self.certificates()

    def certificates(self):
        certs = os.path.join(self.raddb, "certs")
        os.makedirs(certs)
        made = os.path.join("/tmp/front", "authorities")
        if not os.path.isdir(made):
            os.makedirs(made + ".new", exist_ok=True)
            run = lambda *it: subprocess.run(
                ["openssl", *it], check=True, cwd=made + ".new", capture_output=True
            )
            key = ("-newkey", "rsa:2048", "-nodes", "-keyout")
            days = ("-days", "365", "-out")
            run("req", "-x509", *key, "ca.key", *days, "ca.pem", "-subj", "/CN=site")
            by = ("-CA", "ca.pem", "-CAkey", "ca.key", "-CAcreateserial")
            for name in ("server", "al", "stranger", ""):
                request, subject = name + ".csr", f"/CN={name}" if name else "/"
                run("req", *key, name + ".key", "-out", request, "-subj", subject)
                run("x509", "-req", "-in", request, *by, *days, name + ".pem")
            # Another authority, which FreeRADIUS does not know, names al.
            run("req", "-x509", *key, "foreign.key", *days, "foreign.pem", "-subj", "/CN=al")
            os.rename(made + ".new", made)
        for name in ("ca.pem", "server.pem", "server.key"):
            shutil.copy(os.path.join(made, name), certs)
        self.certs = made

    def written_settings(self):
        shutil.copy(os.path.join(HERE, "raddb", "settings.conf"), self.raddb)
        more = self.settings
        edited(
            os.path.join(self.raddb, "settings.conf"),
            [
                ("conf = /etc/radacctd-front", f"conf = {self.raddb}"),
                ("address = *", "address = 127.0.0.1"),
                ("logins = 1812", f"logins = {self.logins}"),
                ("reports = 1813", f"reports = {self.reports}"),
                ("desk = 127.0.0.1:8066", f"desk = 127.0.0.1:{self.ask}"),
                ("change-me-key-of-logins", "desk-key-logins-0001"),
                ("book_port = 1813", f"book_port = {self.book_port}"),
                ("change-me-secret-of-the-front", "book-secret-1"),
                ("change-me-key-of-codes", "key-of-codes"),
                ("/var/lib/radacctd-front", self.kept),
                ("/run/radacctd-front", self.path("run")),
                ("observe = no", f"observe = {more.get('observe', 'no')}"),
                ("down_seconds = 0", f"down_seconds = {more.get('down_seconds', 0)}"),
            ],
        )
        for root, _, names in os.walk(self.raddb):
            shutil.chown(root, "root", "freerad")
            os.chmod(root, 0o750)
            for name in names:
                shutil.chown(os.path.join(root, name), "root", "freerad")
                os.chmod(os.path.join(root, name), 0o640)

    def add_plans(self):
        if PROGRAM:
            subprocess.run(
                [*self.program(), "plans", *self.files()], check=True, stdout=subprocess.DEVNULL
            )

    def start_book(self, radius_port=None):
        ports = [
            "--bind",
            "127.0.0.1",
            "--radius-port",
            str(radius_port or self.book_port),
            "--desk-port",
            str(self.desk),
        ]
        self.book = subprocess.Popen(
            [*self.program(), "serve", *self.files(), *ports],
            stdout=subprocess.PIPE,
            stderr=subprocess.DEVNULL,
        )
        assert self.book.stdout.readline().startswith(b"serving")

    def slow_down(self, milliseconds, process=None):
        """From now on each sync of the book, or of another process, takes so long."""
        pid = (process or self.book).pid
        words = ["strace", "-f", "-q", "-e", "trace=fsync,fdatasync", "-o", "/dev/null", "-e"]
        words += [f"inject=fsync,fdatasync:delay_exit={milliseconds}ms", "-p", str(pid)]
        self.others.append(subprocess.Popen(words, stdout=subprocess.PIPE))
        time.sleep(1)

    def stop_book(self, how=signal.SIGKILL):
        self.book.send_signal(how)
        self.book.wait()
        self.book.stdout.close()

    def start_front(self):
        self.written_settings()
        log = open(self.path("log"), "wb")
        debug = ["-X"] if os.environ.get("DEBUG") else ["-f", "-l", "stdout"]
        words, folder = self.front_words()
        self.front = subprocess.Popen([*words, *debug, "-d", folder], stdout=log, stderr=log)
        log.close()
        ready = waited(
            lambda: b"Ready to process requests" in self.log() or self.front.poll() is not None
        )
        if not ready or self.front.poll() is not None:
            said = self.log().decode(errors="replace")[-3000:]
            self.end()
            raise AssertionError(said)

    def front_words(self):
        user = ["--reuid", "freerad", "--regid", "freerad", "--clear-groups"]
        return ["setpriv", *user, "freeradius"], self.raddb

    def stop_front(self):
        if self.front and self.front.poll() is None:
            self.front.terminate()
            try:
                self.front.wait(5)
            except subprocess.TimeoutExpired:
                self.front.kill()
                self.front.wait()

    def log(self):
        with open(self.path("log"), "rb") as file:
            return file.read()

    def end(self):
        self.stop_front()
        for it in (self.book, *self.others):
            if it and it.poll() is None:
                it.kill()
                it.wait()
            if it:
                it.stdout.close()
        self.users.close()
        if not os.environ.get("KEEP"):
            shutil.rmtree(self.folder, ignore_errors=True)

    def __enter__(self):
        self.start_book()
        self.start_front()
        return self

    def __exit__(self, *_):
        self.end()

    def sell(self, account, amount):
        body = json.dumps(
            {"account": account, "sum": amount, "voucher": f"V-{time.time_ns()}"}
        ).encode()
        asked = urllib.request.Request(
            f"http://127.0.0.1:{self.desk}/topups", body, {"Desk-Key": "cash-key-00000001"}
        )
        with urllib.request.urlopen(asked) as answer:
            assert answer.status == 201

    def login(self, name="al", password="right", source="127.0.0.1", more=(), chap=False, wait=8):
        packet = radius.login_packet(name, password, more, chap)
        return radius.asked(self.logins, packet, source, wait=wait)

    def report(self, pairs, source="127.0.0.1", tries=1, wait=4):
        return (
            radius.asked(self.reports, radius.report_packet(pairs), source, tries, wait).code == 5
        )

    def exported(self, what):
        """A list of the book: of a copy, since a server has its book for itself."""
        copy = self.path("copy")
        os.makedirs(copy, exist_ok=True)
        serves = self.book and self.book.poll() is None
        if serves:
            self.book.send_signal(signal.SIGSTOP)
        for path in glob.glob(self.path("book.db*")):
            shutil.copy(path, copy)
        if serves:
            self.book.send_signal(signal.SIGCONT)
        words = ["--config", self.path("site.toml"), "--db", os.path.join(copy, "book.db"), what]
        run = subprocess.run([*self.program(), "export", *words], capture_output=True, text=True)
        assert run.returncode == 0, run.stderr
        return list(csv.DictReader(io.StringIO(run.stdout)))

    def sessions(self):
        return self.exported("sessions")

    def balances(self):
        return {it["account"]: int(it["balance"]) for it in self.exported("balances")}

    def waiting(self, folder="waits"):
        """How many reports are kept."""
        count = 0
        for name in os.listdir(os.path.join(self.kept, folder)):
            with open(os.path.join(self.kept, folder, name), "rb") as file:
                count += file.read().count(b"\n\tAcct-Status-Type = ")
        return count

    def radclient(self, *pairs):
        words = ["radclient", "-x", "-t", "5", "-r", "1", f"127.0.0.1:{self.logins}", "auth"]
        how = {"input": ", ".join(pairs), "capture_output": True, "text": True}
        said = subprocess.run([*words, "testing123"], **how).stdout
        answers = (it for it in ("accept", "reject") if f"Received Access-{it.title()}" in said)
        return next(answers, "silence")

    def eap(self, method, identity, outer=None, password="right", phase2=None, cert=None,
            inner_cert=None, again=0):
        lines = [
            "network={",
            " key_mgmt=WPA-EAP",
            f' ca_cert="{self.certs}/ca.pem"' if self.certs else "",
            f" eap={method}",
            f' identity="{identity}"',
        ]
        if outer:
            lines.append(f' anonymous_identity="{outer}"')
        if password:
            lines.append(f' password="{password}"')
        if phase2:
            lines.append(f' phase2="{phase2}"')
        if cert is not None:
            lines += [
                f' client_cert="{self.certs}/{cert}.pem"',
                f' private_key="{self.certs}/{cert}.key"',
            ]
        if inner_cert:
            lines += [
                f' ca_cert2="{self.certs}/ca.pem"',
                f' client_cert2="{self.certs}/{inner_cert}.pem"',
                f' private_key2="{self.certs}/{inner_cert}.key"',
            ]
        path = self.path("eap.conf")
        with open(path, "w", encoding="utf-8") as file:
            file.write("\n".join(lines) + "\n}\n")
        words = ["eapol_test", "-c", path, "-a", "127.0.0.1", "-p", str(self.logins), "-s"]
        words += ["testing123", "-t", "8", "-M", "02:00:00:00:00:07", "-i", "127.0.0.1", "-r"]
        it = subprocess.run(
            [*words, str(again)], capture_output=True, text=True, errors="replace"
        )
        return it.stdout
