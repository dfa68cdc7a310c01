"""The site of interop/promise: FreeRADIUS by site/front in front of a book. Each may be killed at
any moment, and has a clock that the test sets.
"""

import contextlib
import glob
import itertools
import os
import signal
import subprocess
import sys
import tempfile
import threading
import time

import front
import served
from promise_model import PLANS, STAMP_SECRET, UNSTAMPED

sys.path.insert(0, os.path.join(served.ROOT, "site", "front"))
import test_lab

FAKETIME = "/usr/lib/*/faketime/libfaketimeMT.so.1"
# How long a program may take to start, in seconds.
STARTS = 180
# The file system of kept reports: its size and inodes.
SIZE = "size=96m,nr_inodes=512"


class Clock:
    """How far the clock of some programs is off, in seconds."""

    def __init__(self, folder, name):
        self.path = os.path.join(folder, f"clock-{name}")
        self.set(0)

    def set(self, seconds):
        served.write(self.path, f"{seconds:+d}\n")

    def environment(self):
        return {**os.environ, "LD_PRELOAD": glob.glob(FAKETIME)[0], "NO_FAKE_STAT": "1",
                "FAKETIME_TIMESTAMP_FILE": self.path, "FAKETIME_CACHE_DURATION": "1",
                "FAKETIME_DONT_FAKE_MONOTONIC": "1", "DONT_FAKE_MONOTONIC": "1"}


class Killed:
    """A program that is killed and started again. One at a time does so."""

    def __init__(self, clock):
        self.lock, self.process, self.kills, self.own_clock = threading.RLock(), None, 0, clock

    def kill(self, how=signal.SIGKILL):
        if self.process is not None:
            self.process.send_signal(how)
            self.process.wait()
        self.process = None

    def kill_and_start(self, pause):
        """A kill that counts, and a start after a pause."""
        with self.lock:
            self.kill()
            self.kills += 1
            time.sleep(pause)
            self.start()


class Book(Killed, front.Book):
    """radacctd over a book."""

    def __init__(self, folder, clock):
        Killed.__init__(self, clock)
        os.makedirs(folder)
        self.more = []
        front.Book.__init__(self, folder)
        self.has_clock = self.takes_clock()

    def configuration(self):
        text = f'[stamp]\nsecret = "{STAMP_SECRET.decode()}"\n'
        text += front.client_text("front", "127.0.0.1", "book-secret-1", "stamped = true\n"
                                  f'proxy = true\nplan = "{UNSTAMPED.decode()}"\n')
        text += f'[[key]]\ntoken = "{front.CASHIER}"\ncashier = true\n'
        text += '[[key]]\ntoken = "desk-key-logins-0001"\nlogins = true\n'
        return text + "".join(served.plan(name.decode(), count, block, unit)
                              for name, (block, unit, count) in PLANS.items())

    def takes_clock(self):
        """Whether the program believes such a clock: by one of next year a cutoff of yesterday is
        not too late. One that is linked statically does not.
        """
        self.own_clock.set(400 * 86_400)
        status, *_ = self.told("forward", "--at", int(time.time()) - 86_400, "--yes",
                               env=self.own_clock.environment())
        self.own_clock.set(0)
        return status == 0

    def start(self):
        words = [*self.serve(), "--quiet", *self.more]
        env = self.own_clock.environment() if self.has_clock else None
        with open(self.errors, "ab") as errors:
            self.process = subprocess.Popen(words, stdout=subprocess.PIPE, stderr=errors, env=env)
        if self.process.stdout.readline() != b"serving\n":
            raise SystemExit(f"radacctd does not serve: {served.text_of(self.errors)[-2000:]}")


class FreeRadius(Killed, test_lab.Lab):
    """FreeRADIUS by the files of site/front, whose kept reports are on a file system of its own."""

    def __init__(self, folder, book, clock):
        Killed.__init__(self, clock)
        self.folder, self.settings = folder, {}
        self.path = lambda *it: os.path.join(folder, *it)
        self.raddb, self.kept, self.out = map(self.path, ("raddb", "kept", "freeradius.log"))
        self.logins, self.reports = (test_lab.free_port() for _ in range(2))
        self.book_port, self.ask = book.radius, book.desk
        self.users = self.made_users()
        self.made_folder()
        # FreeRADIUS makes no file whose path begins with /dev/.
        self.kept = tempfile.mkdtemp(prefix="promise-kept-")
        subprocess.run(["mount", "-t", "tmpfs", "-o", SIZE, "none", self.kept], check=True)
        for it in ("waits", "aside", "again", "lost"):
            os.makedirs(os.path.join(self.kept, it))
        self.written_settings()
        # Whoever looks at the files of the disk, and how often FreeRADIUS ended by itself.
        self.looks, self.ended = threading.RLock(), 0

    def start(self):
        """As root: libfaketime's semaphore is of who started it."""
        begun = os.path.getsize(self.out) if os.path.exists(self.out) else 0
        with open(self.out, "ab") as file:
            words = ["freeradius", "-d", self.raddb, "-f", "-l", "stdout"]
            self.process = subprocess.Popen(words, stdout=file, stderr=file,
                                            env=self.own_clock.environment())
        end = time.monotonic() + STARTS
        while b"Ready to process requests" not in (said := self.said(begun)):
            if time.monotonic() > end or self.process.poll() is not None:
                raise SystemExit(f"FreeRADIUS does not start: {said[-2000:].decode()}")
            time.sleep(0.02)

    def said(self, begun):
        with open(self.out, "rb") as file:
            file.seek(begun)
            return file.read()

    def revive(self):
        """Starts it again if it ended by itself, as its unit does."""
        if self.lock.acquire(blocking=False):
            if self.process is not None and self.process.poll() is not None:
                self.ended += 1
                self.kill()
                self.start()
            self.lock.release()

    def full(self, by_inodes, spare, seconds):
        """Takes all inodes of the disk, or all space but so many octets, for a while."""
        path = os.path.join(self.kept, "filler")
        os.mkdir(path)
        with contextlib.suppress(OSError):
            if by_inodes:
                for number in itertools.count():
                    os.close(os.open(f"{path}/{number}", os.O_CREAT | os.O_WRONLY))
            found = os.statvfs(path)
            with open(f"{path}/octets", "wb") as file:
                os.posix_fallocate(file.fileno(), 0, found.f_bavail * found.f_frsize - spare)
        time.sleep(seconds)
        subprocess.run(["rm", "-rf", path], check=True)

    def records(self, *folders):
        """The reports that are kept in folders, as the lines of each."""
        found = []
        with self.looks:
            for path in (path for it in folders for path in glob.glob(f"{self.kept}/{it}/*")):
                with contextlib.suppress(OSError), open(path, "rb") as file:
                    found += [it for it in file.read().split(b"\n\n") if b"\tTimestamp" in it]
        return found

    def queued(self):
        """How many reports wait. The mark of one that was sent is Donestamp."""
        return len(self.records("waits", "again"))

    def put_back(self, records):
        """Has them sent again, as the cut-off's loop does each hour."""
        path = os.path.join(self.kept, "again", "unfinished")
        with open(path, "wb") as file:
            file.write(b"".join(it + b"\n\n" for it in records))
        os.rename(path, os.path.join(self.kept, "again", time.strftime("%Y%m%d%H")))


class Site:
    """All of it."""

    def __init__(self, folder):
        os.chmod(folder, 0o755)
        self.clocks = {it: Clock(folder, it) for it in ("front", "book")}
        self.book = Book(os.path.join(folder, "book"), self.clocks["book"])
        self.radius = FreeRadius(folder, self.book, self.clocks["front"])

    def start(self):
        self.book.start()
        self.radius.start()

    def limit(self, days):
        """From now on a report is too old after so many days."""
        self.book.kill(signal.SIGTERM)
        self.book.more = ["--oldest-report", str(days)]
        self.book.start()

    def end(self):
        for it in (self.radius, self.book):
            it.lock.acquire(timeout=STARTS)
            it.kill()
        self.radius.users.close()
        subprocess.run(["umount", "-l", self.radius.kept], check=False)
        os.rmdir(self.radius.kept)
