"""The faults of interop/promise: kills, full disks, clocks that are set off, `radacctd forward` in the
middle of it; and who sells meanwhile. Each kind has a thread of its own.
"""

import http.client
import json
import random
import signal
import subprocess
import threading
import time

import front
from promise_devices import NAMES
from promise_model import Sale, shown

DAY, HOUR = 86_400, 3600
# How far a clock is set off; and of FreeRADIUS alone, for radacctd has a limit.
STEPS = [-2, 2, -30, 30, -600, 600, -HOUR, HOUR, -DAY, DAY, -15 * DAY, 15 * DAY]
FAR = [400 * DAY, -400 * DAY, 100 * DAY, -100 * DAY]
# Seconds that a step and a full disk last.
STEP, FULL = (2, 25), (2, 9)
# A restart of a program comes after a pause of so long; one of radacctd at times so late that
# FreeRADIUS keeps reports.
PAUSE, OUTAGE, OUTAGES = (0, 1.5), (4, 15), 0.15
# How often a run of `forward` is killed before it is let go on to its end.
KILLS = 28
# How often a sale is given again after its answer, given with another sum, or given up.
AGAIN, CONFLICT, GIVEN_UP = 0.05, 0.05, 0.02


class Plan(threading.Thread):
    """Some deeds at moments of the run, one after the other."""

    def __init__(self, run, name, deeds):
        super().__init__(daemon=True)
        self.site, self.journal, self.rng = run.site, run.journal, run.rng(name)
        times = ((self.rng.uniform(0.01, 0.97) * run.seconds, it) for it in deeds)
        self.plan, self.fault = sorted(times, key=lambda it: it[0]), None

    def run(self):
        begin = time.time()
        try:
            for moment, deed in self.plan:
                time.sleep(max(0, begin + moment - time.time()))
                begun = time.time()
                self.journal.append((begun, deed, getattr(self, deed)()))
        except BaseException as fault:
            self.fault = fault
            raise

    def pause(self):
        return self.rng.choice([0, self.rng.uniform(*PAUSE)])

    def kill_front(self):
        self.site.radius.kill_and_start(self.pause())

    def kill_book(self):
        is_long = self.rng.random() < OUTAGES
        self.site.book.kill_and_start(self.rng.uniform(*OUTAGE) if is_long else self.pause())

    def full(self):
        spare = self.rng.choice([0, 0, 1024, 8192, 65_536])
        self.site.radius.full(self.rng.random() < 0.2, spare, self.rng.uniform(*FULL))

    def step(self):
        """A clock is set off, and after a while it is set right."""
        whose = self.rng.choice([["front"], ["front", "book"], ["book"]])
        whose = whose if self.site.book.has_clock else ["front"]
        off = self.rng.choice(STEPS if "book" in whose else STEPS + FAR)
        for seconds in (off, 0):
            for it in whose:
                self.site.clocks[it].set(seconds)
            time.sleep(self.rng.uniform(*STEP) if seconds else 0)
        return f"{off} of {'+'.join(whose)}"


class Forward(Plan):
    """Carries old sessions forward, some of them at a time, with a clock that is right."""

    def __init__(self, run, count, ages):
        super().__init__(run, "forward", ["forward"] * count)
        oldest, youngest = ages
        step = (oldest - youngest) / max(count, 1)
        self.ages = [int(oldest - step * (turn + 1)) for turn in range(count)]
        self.carried_before, self.kills, self.refused = 0, 0, []

    def forward(self):
        """As the page says: stop, run, start. A run that is killed is given again."""
        book = self.site.book
        with book.lock:
            self.carried_before = int(time.time()) - self.ages.pop(0)
            more = ["--at", str(self.carried_before), "--keep", "books", "--oldest-report", "60",
                    "--silent", "90"]
            book.kill(signal.SIGTERM)
            for _ in range(KILLS):
                self.killed([*book.words("forward"), *more])
            status, said, errors = book.told("forward", *more)
            if status:
                self.refused.append((f"forward says: {errors.strip()}", None))
                said = book.told("forward", *more, "--yes")[1]
            book.start()
        return said.partition("\n")[0]

    def killed(self, words):
        process = subprocess.Popen(words, stdout=subprocess.DEVNULL, stderr=subprocess.DEVNULL)
        try:
            process.wait(self.rng.uniform(0, 0.05))
        except subprocess.TimeoutExpired:
            process.kill()
            process.wait()
            self.kills += 1


class Cashier(Plan):
    """Sells, until each sale is answered."""

    def __init__(self, run, prefix, count):
        super().__init__(run, f"cashier-{prefix}", ["sale"] * count)
        self.model, self.prefix, self.made = run.model, prefix, 0

    def sale(self):
        rng, number = self.rng, f"{self.prefix}-{self.made}"
        self.made += 1
        account, total = rng.choice(NAMES).encode(), rng.randrange(1, 5000)
        sale = self.model.sales[number] = Sale(number, account, total)
        if self.is_given(sale):
            sale.is_answered = True
            if rng.random() < AGAIN:
                self.post(sale, total)
            if rng.random() < CONFLICT and self.post(sale, total + 1) in (200, 201):
                self.model.conflicts.append(f"{sale.number} with two sums")

    def is_given(self, sale):
        """Whether it is taken at last."""
        while (status := self.post(sale, sale.total)) in (0, 503):
            if self.rng.random() < GIVEN_UP:
                return False
            time.sleep(self.rng.uniform(0.05, 0.5))
        if status not in (200, 201):
            self.model.conflicts.append(f"{sale.number}: status {status}")
        return status in (200, 201)

    def post(self, sale, total):
        """The status of the desk, or 0."""
        body = json.dumps({"account": shown(sale.account), "sum": total, "voucher": sale.number})
        try:
            return self.site.book.ask("POST", "/topups", front.CASHIER, body)[0]
        except (OSError, http.client.HTTPException):
            return 0


def seeded(seed, name):
    return random.Random(f"{seed}/{name}")
