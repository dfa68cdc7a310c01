"""What live tests share: the program, the pages' service by gunicorn over its desk, a browser, kills
and a full disk.

`served` is interop's: a live test puts that folder into the path before it calls what needs it.
"""

import collections
import contextlib
import http.client
import importlib
import json
import os
import random
import re
import signal
import socket
import subprocess
import sys
import tempfile
import threading
import time
import urllib.parse

from radacctd_site.core import corrections, features

SETTINGS = {"name": "Hotel Łódź", "url": "https://localhost", "currency": "EUR", "decimals": 2}
# The secret of the client that corrects, as interop's servers have it.
SECRET, GUNICORN = "testing-123", "/usr/bin/gunicorn"
# The key of the pages, and what a configuration has for it and for corrections.
KEY, PASSWORD = "site-key-000000001", "a-long-enough-one"
MORE = f"""
[[key]]
token = "{KEY}"
cashier = true
accounts = true

[[client]]
name = "{corrections.CLIENT}"
address = "{corrections.SOURCE}"
secret = "{SECRET}"

[[plan]]
class = "{corrections.CLASS}"
block = 1
unit = 1
"""
# What runs a command of a feature, where the kit is found as `kit` says.
COMMAND = "import sys; from radacctd_site.core import cli; sys.exit(cli.main(sys.argv[1], sys.argv[2:]))"


class Browser:
    """Keeps cookies, and sends forms with what marks them as the site's own."""

    def __init__(self, address):
        self.address, self.cookies, self.text, self.headers = address, {}, "", []

    def ask(self, method, path, fields=None, **more):
        """The status of an answer; its text and headers stay."""
        raise NotImplementedError

    def get(self, path, **more):
        return self.ask("GET", path, **more)

    def post(self, path, page=None, **fields):
        """Sends a form of a page, which is loaded before."""
        self.get(page or path)
        found = re.search(r'name="token" value="([0-9a-f]+)"', self.text)
        return self.ask("POST", path, {"token": found[1] if found else "", **fields})

    def header(self, name):
        return dict(self.headers).get(name, "")

    def cookie(self):
        return "; ".join(f"{name}={value}" for name, value in self.cookies.items())

    def keep_cookies(self):
        for name, value in self.headers:
            if name.lower() == "set-cookie":
                key, _, rest = value.partition("=")
                self.cookies[key] = rest.partition(";")[0]


class Service:
    """The service in a folder of a test, with a cashier's key for a desk."""

    def __init__(self, folder, desk, key, **settings):
        self.folder, self.process = folder, None
        self.socket, self.errors = f"{folder}/socket", f"{folder}/errors"
        os.makedirs(f"{folder}/kit", exist_ok=True)
        os.makedirs(f"{folder}/site", mode=0o700, exist_ok=True)
        if not os.path.lexists(f"{folder}/kit/{features.NAME}"):
            os.symlink(features.TOP, f"{folder}/kit/{features.NAME}")
        self.write("radacctd-site.key", key + "\n")
        self.write("radacctd-books.secret", SECRET + "\n")
        self.own = settings
        self.settings()
        self.env = {
            **os.environ, "PYTHONPATH": f"{folder}/kit", "PYTHONDONTWRITEBYTECODE": "1",
            "RADACCTD_SITE": f"{folder}/site", "RADACCTD_SETTINGS": f"{folder}/settings.json",
            "RADACCTD_DESK": f"127.0.0.1:{desk}", "CREDENTIALS_DIRECTORY": folder,
        }

    def of_book(self, folder, port):
        """Where the book writes balances and plans, and the port at which it hears reports."""
        self.write("defaults", f"RADACCTD_RADIUS_PORT={port}\n")
        self.env |= {"RADACCTD_BALANCES": f"{folder}/balances.csv",
                     "RADACCTD_PLANS": f"{folder}/plans.csv",
                     "RADACCTD_DEFAULTS": f"{self.folder}/defaults"}

    def settings(self, **more):
        self.write("settings.json", json.dumps({**SETTINGS, **self.own, **more}))

    def write(self, name, text):
        with open(f"{self.folder}/{name}", "w", encoding="utf-8") as file:
            file.write(text)
        os.chmod(file.name, 0o600)

    def start(self):
        """Serves; it is there once a page is."""
        words = [GUNICORN, "--bind", f"unix:{self.socket}", "--workers", "2", "--threads", "4",
                 "--worker-tmp-dir", "/dev/shm", "radacctd_site.core.web:made()"]
        with open(self.errors, "ab") as errors:
            self.process = subprocess.Popen(words, env=self.env, stderr=errors, cwd=self.folder,
                                            start_new_session=True)
        for _ in range(300):
            try:
                if self.browser().get("/login/") == 200:
                    return self
            except OSError:
                time.sleep(0.1)
        raise SystemExit(f"the service did not start: {self.said()}")

    def said(self):
        with open(self.errors, encoding="utf-8") as file:
            return file.read()

    def kill(self):
        """Kills all of it, whatever it does."""
        if self.process:
            os.killpg(self.process.pid, signal.SIGKILL)
            self.process.wait()
        self.process = None

    def browser(self, address="192.0.2.1"):
        return Remote(self.socket, address)

    def words(self, *words):
        return ["/usr/bin/python3", "-c", COMMAND, *words]

    def run(self, *words, **how):
        """The status of a command of radacctl, and all that it printed."""
        how = {"stdin": subprocess.DEVNULL, "stdout": subprocess.PIPE, "text": True, **how}
        done = subprocess.run(self.words(*words), env=self.env, stderr=subprocess.STDOUT, **how)
        return done.returncode, done.stdout


class Unix(http.client.HTTPConnection):
    """HTTP by a unix socket."""

    def __init__(self, path):
        super().__init__("localhost", timeout=60)
        self.path = path

    def connect(self):
        self.sock = socket.socket(socket.AF_UNIX)
        self.sock.settimeout(60)
        self.sock.connect(self.path)


class Remote(Browser):
    """A browser of a service that runs."""

    def __init__(self, path, address="192.0.2.1"):
        super().__init__(address)
        self.path = path

    def ask(self, method, path, fields=None, **more):
        body = urllib.parse.urlencode(fields or {})
        caller = Unix(self.path)
        head = {"X-Real-IP": self.address, "Content-Type": "application/x-www-form-urlencoded",
                "Cookie": self.cookie(), **{name.removeprefix("HTTP_").replace("_", "-"): it
                                            for name, it in more.items()}}
        try:
            caller.request(method, path, body if method == "POST" else None, head)
            answer = caller.getresponse()
            self.text, self.headers = answer.read().decode(), answer.getheaders()
        except http.client.HTTPException as why:
            raise ConnectionError(str(why)) from None
        finally:
            caller.close()
        self.keep_cookies()
        return answer.status


def program(folder):
    """The built program in a folder, into which it writes balances and plans."""
    served = importlib.import_module("served")

    class Program(served.Server):
        def start(self):
            self.list_plans(folder)
            super().start(1 << 62, ["--balances", f"{folder}/balances.csv",
                                    "--balances-every", "1"])

    os.mkdir(folder)
    found = Program(folder)
    found.folder = folder
    with open(found.config, "a", encoding="utf-8") as file:
        file.write(MORE)
    found.init()
    found.start()
    return found


def over_program(*parts):
    """The status of a live test: each part gets the program, the pages' service, and a folder."""
    with tempfile.TemporaryDirectory() as folder:
        server = program(f"{folder}/book")
        service = Service(f"{folder}/site", server.desk, KEY)
        service.of_book(server.folder, server.radius)
        try:
            service.start()
            for part in parts:
                part(server, service, folder)
        finally:
            service.kill()
            server.kill()
    failures = importlib.import_module("served").failures
    print("failed:", failures)
    return 1 if failures else 0


def cashier(service, name="anna"):
    """A browser of a cashier who has logged in."""
    service.run("person", "put", name, stdin=None, input=f"{PASSWORD}\n")
    found = service.browser()
    found.name = name
    found.post("/login/", name=name, password=PASSWORD)
    return found


def injected(service, call, when, what, *words, **how):
    """The status of a command over whose so-manieth call something comes."""
    traced = ["strace", "-f", "-qq", "-o", os.devnull, "-e", f"trace={call}",
              "-e", f"inject={call}:{what}:when={when}", *service.words(*words)]
    return subprocess.run(traced, env=service.env, capture_output=True, **how).returncode


@contextlib.contextmanager
def small_disk(server, folder):
    """The pages' service with its store on a disk of 1 MB; None if nothing can be mounted here."""
    place = os.path.join(folder, "full")
    os.mkdir(place)
    if subprocess.run(["mount", "-t", "tmpfs", "-o", "size=1m", "tmpfs", place]).returncode:
        print("left out: a full disk, since nothing can be mounted here")
        yield None
        return
    service = Service(place, server.desk, KEY)
    service.of_book(server.folder, server.radius)
    try:
        yield service.start()
    finally:
        service.kill()
        subprocess.run(["umount", "-l", place], check=True)


def fill(service):
    """Fills the disk of the service; the file to remove for space."""
    path = f"{service.folder}/fill"
    with contextlib.suppress(OSError), open(path, "wb", buffering=0) as file:
        while file.write(bytes(4096)):
            pass
    return path


class Chaos:
    """Threads at work, while the service and the book are killed at random moments."""

    def __init__(self, server, service):
        """KILLS of the command line says how often, and RADACCTD_SEED when."""
        self.server, self.service = server, service
        self.kills = int(sys.argv[1]) if sys.argv[1:] else 200
        self.pick = random.Random(int(os.environ.get("RADACCTD_SEED", "82")))
        self.end, self.lock, self.counts = False, threading.Lock(), collections.Counter()

    def disturb(self):
        """Kills the service, or a book, and starts it again."""
        time.sleep(self.pick.uniform(0, 0.5))
        it = self.server if self.pick.random() < 0.25 else self.service
        it.kill()
        time.sleep(self.pick.uniform(0, 0.1))
        it.start()
        self.counts["kills"] += 1

    def run(self, *works):
        """Kills until it was often enough, while threads do what they are given."""
        served = importlib.import_module("served")
        threads, failures = [threading.Thread(target=it) for it in works], served.failures
        for it in threads:
            it.start()
        with open(os.devnull, "w", encoding="ascii") as quiet, contextlib.redirect_stdout(quiet):
            for _ in range(self.kills):
                self.disturb()
        self.end = True
        for it in threads:
            it.join()
        served.check("each start of the book was well", served.failures, failures)
        # What has no answer yet gets one.
        while self.service.run("minute")[1]:
            pass
