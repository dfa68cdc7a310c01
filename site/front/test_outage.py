"""Outages as devices see them, a real hostapd among them, and disks that are slow.

Sessions   100 sessions at once of devices like MikroTik, Cisco and CoovaChilli each, of three
           minutes, and one at hostapd, while radacctd is dead for 30 and for 300 s: the book lacks
           nothing of what they reported, at most 1 %.
GivesUp    300 devices report in the 60 s in which it is dead, and give up: all are charged 30 s
           after it is back. On disks whose sync takes 20, 200 and 1,000 ms all of 100 are charged.
SlowDisk   On these disks 80 % of the reports a second that radacctd alone takes into its book, from
           devices that give up, go through FreeRADIUS.

Some minutes each. Over the program (RADACCTD=path) or its stand-in, which does not sync. For root,
with freeradius, freeradius-rest, freeradius-utils, strace, hostapd, wpasupplicant and iproute2."""
import heapq
import itertools
import os
import random
import select
import subprocess
import sys
import time
import unittest

import cut
import test_lab as lab
import test_radius as radius
from test_radius import CLASS, ID, INTERIM, NAS_NAME, START, STATUS, STOP, USER

sys.path.append(os.path.join(os.path.dirname(os.path.dirname(lab.HERE)), "interop"))
import start_hostapd

# How long each kind waits for an answer before it tries again and at last gives up; and whether it
# then sends another packet, with its delay, or the same one.
KINDS = {"mikrotik": ((0.3,) * 3, False), "cisco": ((5,) * 4, True), "chilli": ((5,) * 2, False)}
EACH, LENGTH, EVERY = 100, 180, 20
SYNCS, MONEY = (20, 200, 1000), 10**9


class Loop:
    """Sockets and timers of many devices."""

    def __init__(self):
        self.poll, self.heard, self.timers = select.poll(), {}, []
        self.order = itertools.count()

    def add(self, socket, heard):
        self.heard[socket.fileno()] = heard
        self.poll.register(socket, select.POLLIN)

    def remove(self, socket):
        self.poll.unregister(socket)
        del self.heard[socket.fileno()]
        socket.close()

    def after(self, seconds, what):
        heapq.heappush(self.timers, (time.time() + seconds, next(self.order), what))

    def run(self, seconds):
        end = time.time() + seconds
        while time.time() < end:
            for number, _ in self.poll.poll(20):
                if number in self.heard:
                    self.heard[number]()
            while self.timers and self.timers[0][0] <= time.time():
                heapq.heappop(self.timers)[2]()


class Sending:
    """A report of a device on its way, until it is answered or given up."""

    def __init__(self, loop, port, source, kind, pairs, answered=None, secret=radius.SECRET):
        self.loop, self.pairs, self.begun, self.answered = loop, pairs, time.time(), answered
        waits, self.is_new = KINDS[kind]
        self.waits, self.number = iter(waits), 0
        self.packet = radius.report_packet(pairs, 0, secret)
        self.socket = radius.opened(source, port)
        loop.add(self.socket, self.heard)
        self.send()

    def send(self):
        wait = next(self.waits, None)
        if self.socket is None or wait is None:
            return self.end()
        if self.is_new and self.number:
            delay = (41, int(time.time() - self.begun))
            self.packet = radius.report_packet([*self.pairs, delay], self.number)
        self.number += 1
        self.socket.send(self.packet)
        return self.loop.after(wait, self.send)

    def heard(self):
        if self.answered is not None:
            self.answered.add(dict(self.pairs)[ID])
        self.end()

    def end(self):
        if self.socket:
            self.loop.remove(self.socket)
        self.socket = None


class Device:
    """One session after the other, until it is told to end."""

    def __init__(self, loop, port, kind, number, given):
        self.loop, self.port, self.kind, self.given = loop, port, kind, given
        self.name, self.source = f"{kind}-{number}", f"127.0.{1 + number // 50}.{1 + number % 50}"
        self.count, self.sent, self.is_over = 0, {}, False
        self.begin(random.uniform(0, LENGTH))

    def begin(self, length):
        self.count, self.speed = self.count + 1, random.randrange(10_000, 300_000)
        self.session, self.begun = f"{self.name}-{self.count}", time.time()
        self.report(START)
        self.loop.after(EVERY, lambda it=self.session: self.goes_on(it))
        self.loop.after(length, lambda it=self.session: self.stop(it))

    def goes_on(self, session):
        if session == self.session:
            self.report(INTERIM)
            self.loop.after(EVERY, lambda: self.goes_on(session))

    def stop(self, session=None):
        if self.session and session in (None, self.session):
            self.report(STOP)
            self.session = None
            if session and not self.is_over:
                self.begin(LENGTH * random.uniform(0.8, 1.2))

    def report(self, status):
        octets = self.sent[self.session] = int(self.speed * (time.time() - self.begun))
        pairs = [(STATUS, status), (ID, self.session), (USER, "x"), (42, octets)]
        pairs += [(CLASS, self.given), (NAS_NAME, self.name)]
        Sending(self.loop, self.port, self.source, self.kind, pairs)


class Here:
    """This machine, as interop's hostapd asks for one."""

    @staticmethod
    def beside(words):
        it = subprocess.run(words, capture_output=True, text=True)
        return it.returncode, it.stdout + it.stderr

    leader = staticmethod(os.getpid)


class Hall(start_hostapd.Wire):
    """hostapd at a wire, with a guest. It counts no octets there: its Stop is looked for."""

    def __init__(self, it):
        self.lab = it
        start_hostapd.ADDRESS, start_hostapd.STATION = "127.0.1.250", "radacctd-hall"
        super().__init__(Here, "testing123", "al", "right")

    def write(self, name, text):
        for old, new in (("port=1812", self.lab.logins), ("port=1813", self.lab.reports)):
            text = text.replace(old, f"port={new}")
        super().write(name, text)

    def sessions(self):
        return [it for it in self.lab.sessions() if it["client"].endswith("/nhall")]

    def leaves(self, session):
        """Its only session is ended, as an operator ends it, and nobody logs in again."""
        self.started[-1].kill()
        asked = cut.request({"id": session.rpartition("//")[0], "calling": ""},
                            {"user_name": "no"}, int(time.time()))
        cut.ask({"secret": "testing123", "address": "127.0.0.1:3799"}, [asked])


def ready(it):
    """A lab in which al has money; the Class of his login."""
    it.group("fast", Class="gold")
    it.user("al", "fast")
    it.sell("al", MONEY)
    return radius.first(it.login(), CLASS)


class Sessions(unittest.TestCase):
    def outage(self, seconds, most):
        with lab.Lab() as it:
            given, loop = ready(it), Loop()
            with Hall(it) as hall:
                self.assertTrue(lab.waited(hall.sessions), hall.log()[-2000:])
                self.devices = [Device(loop, it.reports, kind, number, given)
                                for kind in KINDS for number in range(EACH)]
                loop.run(30)
                [guest] = hall.sessions()
                it.stop_book()
                hall.leaves(guest["session"])
                loop.run(seconds)
                it.start_book()
                loop.run(30)
                self.end(loop)
            self.assertTrue(lab.waited(lambda: not it.waiting(), 60), it.waiting())
            print(f"radacctd is dead for {seconds} s, over {lab.OVER}:", flush=True)
            self.judge(it, most)
            [was], [now] = ([row["state"] for row in rows] for rows in ([guest], hall.sessions()))
            print(f"  hostapd: a session that was {was} is {now}", flush=True)
            self.assertEqual((was, now), ("open", "stopped"))

    def end(self, loop):
        for it in self.devices:
            it.is_over = True
            it.stop()
        loop.run(25)

    def judge(self, it, most):
        """No session has more octets than it reported. How many the book lacks of each kind."""
        rows = {row["session"].partition("/")[0]: int(row["total"]) for row in it.sessions()}
        price = 0
        for kind in KINDS:
            sent = {session: octets for device in self.devices if device.kind == kind
                    for session, octets in device.sent.items()}
            lacks = [octets - rows.get(session, 0) for session, octets in sent.items()]
            share = sum(lacks) / sum(sent.values())
            print(f"  {kind}: {len(sent)} sessions, lacking {share:.4%} of octets", flush=True)
            self.assertGreaterEqual(min(lacks), 0)
            self.assertLessEqual(share, most)
            price += sum(-(-rows.get(it, 0) // lab.MEBIBYTE) * 10 for it in sent)
        self.assertEqual(it.balances()["al"], MONEY - price)

    def test_30_seconds(self):
        self.outage(30, 0)

    def test_300_seconds(self):
        self.outage(300, 0.01)


class GivesUp(unittest.TestCase):
    """Devices that report once, and give up after a second, while something is wrong."""

    def devices(self, it, count, seconds, wrong):
        given, loop, self.answered = ready(it), Loop(), set()
        wrong()
        for n in range(count):
            pairs = [(STATUS, STOP), (ID, f"s{n}"), (USER, "x"), (42, 1000 + n), (CLASS, given)]
            pairs.append((NAS_NAME, f"ap-{n % 50}"))
            words = (it.reports, f"127.0.{1 + n // 200}.{1 + n % 200}", "mikrotik", pairs)
            loop.after(random.uniform(0, seconds - 1),
                       lambda words=words: Sending(loop, *words, self.answered))
        loop.run(seconds)

    def charged(self, it, count, longest):
        """How long it takes until each is charged, once."""
        start = time.time()
        self.assertTrue(lab.waited(lambda: len(it.sessions()) == count, longest))
        took, total = time.time() - start, sum(1000 + n for n in range(count))
        self.assertEqual(sum(int(row["total"]) for row in it.sessions()), total)
        self.assertEqual(it.balances()["al"], MONEY - count * 10)
        return round(took, 1)

    def test_300_in_a_minute(self):
        with lab.Lab() as it:
            self.devices(it, 300, 60, it.stop_book)
            self.assertEqual(self.answered, set())
            it.start_book()
            took = self.charged(it, 300, 30)
            print(f"300 devices in 60 s in which radacctd is dead, over {lab.OVER}: answered 0, "
                  f"all charged {took} s after it is back", flush=True)

    @unittest.skipUnless(lab.PROGRAM, "the stand-in does not sync")
    def test_a_slow_disk(self):
        for sync in SYNCS:
            with self.subTest(sync=sync), lab.Lab() as it:
                self.devices(it, 100, 20, lambda: it.slow_down(sync))
                in_book = {row["session"].partition("/")[0] for row in it.sessions()}
                self.assertLessEqual(self.answered, in_book)
                took = self.charged(it, 100, 400)
                print(f"a sync takes {sync} ms: {len(self.answered)} of 100 answered in a second, "
                      f"all charged after {took} s, {it.waiting('aside')} set aside", flush=True)


@unittest.skipUnless(lab.PROGRAM, "the stand-in does not sync")
class SlowDisk(unittest.TestCase):
    """Of the reports a second that radacctd alone takes into its book, at least 80 % go through
    FreeRADIUS: of devices that give up after a second, and report in five."""

    LEAST, COUNTS = 0.8, (60, 60, 30)

    def rate(self, port, secret, sync, count):
        """How many reports a second are in the book, once all are."""
        with lab.Lab() as it:
            it.slow_down(sync)
            loop, begun = Loop(), time.time()
            for n in range(count):
                pairs = [(STATUS, STOP), (ID, f"s{n}"), (USER, "x"), (42, 1000 + n)]
                pairs.append((NAS_NAME, f"ap-{n % 5}"))
                words = getattr(it, port), "127.0.0.1", "mikrotik", pairs, None, secret
                loop.after(random.uniform(0, 5), lambda words=words: Sending(loop, *words))
            loop.run(6)
            while len(it.sessions()) < count:
                self.assertLess(time.time() - begun, 600)
                loop.run(1)
            return count / (time.time() - begun)

    def test_what_goes_through(self):
        ways = (("book_port", b"book-secret-1"), ("reports", radius.SECRET))
        for sync, count in zip(SYNCS, self.COUNTS):
            with self.subTest(sync=sync):
                alone, through = (self.rate(*way, sync, count) for way in ways)
                print(f"a sync takes {sync} ms: radacctd alone takes {alone:.2f} reports a second, "
                      f"through FreeRADIUS {through:.2f}: {through / alone:.0%}", flush=True)
                self.assertGreaterEqual(through, alone * self.LEAST)


if __name__ == "__main__":
    unittest.main(verbosity=1)
