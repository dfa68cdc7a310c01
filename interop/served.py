"""The program serving a site on loopback, and the checks that tests share."""

import contextlib
import hashlib
import http.client
import json
import os
import signal
import socket
import subprocess
import time

import books

ROOT = os.path.dirname(os.path.dirname(os.path.abspath(__file__)))
PROGRAM = os.environ.get("RADACCTD", os.path.join(ROOT, "bin", "radacctd"))
SECRET, GUEST, CASHIER = "testing-123", "guest-key-0000001", "front-desk-000001"
CLIENT_AND_KEYS = f"""
[[client]]
name = "nas-7"
address = "127.0.0.1"
secret = "{SECRET}"

[[key]]
token = "{GUEST}"
account = "room 12"

[[key]]
token = "{CASHIER}"
cashier = true
"""
PLANS = """
[[plan]]
class = "gold"
block = 1048576
unit = 10

[[plan]]
class = "default"
block = 1000000
unit = 5
"""
# Turns that no test sees the end of.
FOREVER = 1 << 62

failures = 0


def check(name, got, wanted):
    global failures
    if got == wanted:
        print("ok      ", name)
    else:
        failures += 1
        print("FAILED  ", name)
        print("         wanted", wanted)
        print("         got   ", got)


def until(holds, seconds=60, pause=0.05):
    """Waits until something holds: what it was at last."""
    end = time.monotonic() + seconds
    while not (is_so := holds()) and time.monotonic() < end:
        time.sleep(pause)
    return is_so


def free_port(kind):
    with socket.socket(socket.AF_INET, kind) as probe:
        probe.bind(("127.0.0.1", 0))
        return probe.getsockname()[1]


def attribute(kind, value):
    """An attribute; a number is one of four octets."""
    value = value if isinstance(value, bytes) else value.to_bytes(4, "big")
    return bytes([kind, len(value) + 2]) + value


def signed(identifier, attributes, secret=SECRET):
    """An Accounting-Request (RFC 2866, 3) of these octets, or of pairs of a number and a value."""
    if not isinstance(attributes, bytes):
        attributes = b"".join(attribute(*it) for it in attributes)
    head = bytes([4, identifier]) + (20 + len(attributes)).to_bytes(2, "big")
    return head + hashlib.md5(head + bytes(16) + attributes + secret.encode()).digest() + attributes


def is_response(reply, request, secret=SECRET):
    """Whether it is the signed response to a request, by RFC 2866, 3."""
    proof = hashlib.md5(reply[:4] + request[4:20] + reply[20:] + secret.encode()).digest()
    return reply[:2] == bytes([5, request[1]]) and reply[4:20] == proof


def ran(words, **how):
    """How a command ended, and what it printed on both outputs."""
    done = subprocess.run([str(it) for it in words], capture_output=True, text=True, **how)
    return done.returncode, done.stdout, done.stderr


def explained(words):
    """How a command ended with --explain, and the lines that it told."""
    status, _, errors = ran([*words, "--explain"])
    return status, errors.splitlines()


def made(folder, plans=PLANS):
    """A server over a new book, in a folder that this makes."""
    os.makedirs(folder)
    server = Server(folder, plans)
    server.init()
    return server


class Server:
    """The program, serving on loopback."""

    def __init__(self, folder, plans=PLANS, others=CLIENT_AND_KEYS):
        self.radius = free_port(socket.SOCK_DGRAM)
        self.desk = free_port(socket.SOCK_STREAM)
        self.config = os.path.join(folder, "radacctd.toml")
        write(self.config, others + plans)
        self.book = os.path.join(folder, "book")
        self.errors = os.path.join(folder, "errors")
        self.process = None

    def words(self, command):
        more = books.INIT if command == "init" else []
        return [PROGRAM, command, "--config", self.config, "--db", self.book, *more]

    def told(self, command, *more, **how):
        """How a command over the book ended, and what it printed."""
        return ran([*self.words(command), *more], **how)

    def init(self):
        check("init makes a book", self.told("init")[:2], (0, "book made\n"))
        check("and makes none over it", self.told("init"), (3, "", "db: NotABook\n"))

    def list_plans(self, folder):
        """Writes the plans in force where the pages read them, as the unit does before a start."""
        with open(os.path.join(folder, "plans.csv"), "w", encoding="ascii") as file:
            subprocess.run([*self.words("plans"), "--list"], stdout=file, check=True)

    def export(self, what):
        return self.told("export", what)[1].splitlines()

    def sqlite(self, text):
        return ran([*books.words(self.book), text])[1].split()

    def serve(self):
        """The words that serve at this server's ports."""
        return [*self.words("serve"), "--radius-port", str(self.radius),
                "--desk-port", str(self.desk)]

    def start(self, turns, more=(), stderr=None, **how):
        """Serves; standard error goes to a file of its own, unless another is given."""
        with open(self.errors, "wb") as errors:
            self.process = subprocess.Popen(
                [*self.serve(), "--turns", str(turns), *more], stdout=subprocess.PIPE, text=True,
                stderr=errors if stderr is None else stderr, **how)
        check("the server says that it serves", self.process.stdout.readline(), "serving\n")

    @contextlib.contextmanager
    def serving(self, *more):
        """Serves with these words, and is killed at last."""
        self.start(FOREVER, more)
        try:
            yield
        finally:
            self.kill()

    def printed(self, lines, seconds=20):
        """What it has printed on standard error, once these are as many lines or time is over."""
        until(lambda: text_of(self.errors).count("\n") >= lines, seconds)
        return text_of(self.errors)

    def kill(self):
        self.process.send_signal(signal.SIGKILL)
        self.process.communicate()

    def end(self):
        # Not communicate(): it would leave out what came together with the line that start read.
        self.process.wait(timeout=120)
        return self.process.returncode, self.process.stdout.read()

    def radclient(self, attributes, secret=SECRET, retries=1, seconds=20):
        """Whether radclient took the reply to these attributes for a right one.

        It waits so long for a reply. A wrong secret gets none, so that is one second.
        """
        seconds = seconds if secret == SECRET else 1
        words = ["radclient", "-r", retries, "-t", seconds, f"127.0.0.1:{self.radius}", "acct"]
        status, said, _ = ran([*words, secret], input="\n".join(attributes) + "\n")
        return "Received Accounting-Response" in said and status == 0

    def curl(self, method, path, key=None, body=None):
        """The status and the body that curl got."""
        words = ["curl", "-s", "-X", method, "-w", "\n%{http_code}"]
        words += ["-H", f"Desk-Key: {key}"] if key else []
        words += ["-H", "Content-Type: application/json", "-d", body] if body else []
        text, status = ran([*words, f"http://127.0.0.1:{self.desk}{path}"])[1].rsplit("\n", 1)
        return int(status), text

    def ask(self, method, path, key, body=None):
        """The status and the JSON of an answer, by a connection of its own."""
        caller = http.client.HTTPConnection("127.0.0.1", self.desk, timeout=10)
        caller.request(method, path, body, {"Desk-Key": key})
        response = caller.getresponse()
        return response.status, json.loads(response.read())

    def sell(self, number, total, account="room%2012"):
        """The answer of the desk to a cashier who sells."""
        body = json.dumps({"account": account, "sum": total, "voucher": number})
        return self.curl("POST", "/topups", CASHIER, body)

    def balance(self):
        return json.loads(self.curl("GET", "/me/balance", GUEST)[1])["balance"]


def report(status, session, octets, more=(), plan="gold"):
    return [
        f"Acct-Status-Type = {status}", f'Acct-Session-Id = "{session}"', 'User-Name = "room 12"',
        f'Class = "{plan}"', f"Acct-Input-Octets = {octets & 0xffffffff}",
        f"Acct-Input-Gigawords = {octets >> 32}", "NAS-IP-Address = 127.0.0.1",
        'NAS-Identifier = "nas-7"', *more]


def plan(name, count="both", block=1 << 20, unit=10):
    """The lines of a plan in a configuration."""
    head = f'\n[[plan]]\nclass = "{name}"\nblock = {block}\nunit = {unit}\n'
    return f'{head}count = "{count}"\n'


def text_of(path):
    """The text of a file, or none."""
    with contextlib.suppress(OSError), open(path, encoding="utf-8", errors="replace") as file:
        return file.read()
    return ""


def write(path, text):
    """Writes a file as an editor does that renames it into its place."""
    with open(path + "~", "w", encoding="utf-8") as file:
        file.write(text)
    os.rename(path + "~", path)
