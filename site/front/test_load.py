"""Load, hanging desks, starts and stops: minutes each. Over the program or its stand-in. Needs root."""
import collections
import os
import re
import select
import socket
import subprocess
import threading
import time
import unittest

import test_lab as lab
import test_radius as radius
from test_radius import ID, NAS_NAME, STATUS, STOP, USER


class HangingDesk(threading.Thread):
    """Takes connections and answers after so many seconds, or never."""

    def __init__(self, port, after=None):
        super().__init__(daemon=True)
        self.socket = socket.socket()
        self.socket.setsockopt(socket.SOL_SOCKET, socket.SO_REUSEADDR, 1)
        self.socket.bind(("127.0.0.1", port))
        self.socket.listen(1024)
        self.after, self.held = after, []
        self.start()

    def run(self):
        while True:
            it, _ = self.socket.accept()
            if self.after is None:
                self.held.append(it)
            else:
                threading.Thread(target=self.answer, args=(it,), daemon=True).start()

    def answer(self, it):
        it.recv(4096)
        time.sleep(self.after)
        body = b'{"counted":"total","octets":null,"open":0,"stamp":"free;;al;%s","stations":0}' % (
            b"0" * 32
        )
        try:
            it.sendall(
                b"HTTP/1.1 200 OK\r\nContent-Type: application/json\r\nContent-Length: %d\r\nConnection: close\r\n\r\n%s"
                % (len(body), body)
            )
        except OSError:
            pass
        it.close()


def logins_at_once(port, count, names=("al",), again=5, longest=20):
    """Sends so many logins at once, each again after some seconds; how each ended, and when the last."""
    begun, waiting, ended = time.time(), {}, collections.Counter()
    sockets, last = [], 0
    for n in range(count):
        it = radius.opened(f"127.0.1.{1 + n % 250}", port)
        packet = radius.login_packet(names[n % len(names)], "right", number=n % 256)
        it.setblocking(False)
        it.send(packet)
        waiting[it] = [packet, begun + again]
        sockets.append(it)
    while waiting and time.time() - begun < longest:
        for it in select.select(list(waiting), [], [], 0.2)[0]:
            ended[radius.CODES[it.recv(4096)[0]]] += 1
            del waiting[it]
            last = time.time() - begun
        for it, (packet, when) in list(waiting.items()):
            if time.time() > when:
                it.send(packet)
                waiting[it][1] += again
    ended["silence"] += len(waiting)
    for it in sockets:
        it.close()
    return +ended, round(last, 1)


class Desks(unittest.TestCase):
    """A desk that does not answer, or late, keeps no login waiting."""

    def one(self, name, after=None, hangs=True):
        it = lab.Lab()
        it.ask = lab.free_port(socket.SOCK_STREAM)
        if hangs:
            HangingDesk(it.ask, after)
        it.start_front()
        try:
            it.user("al", "free")
            it.group("free", Class="free")
            ended, last = logins_at_once(it.logins, 400)
            print(f"{name}: {dict(ended)}, the last after {last} s", flush=True)
            self.assertEqual(ended, {"reject": 400})
            self.assertNotIn(b"Unresponsive", it.log())
            self.assertIsNone(it.front.poll())
        finally:
            it.end()

    def test_hangs(self):
        self.one("a desk that hangs")

    def test_late(self):
        self.one("a desk that takes 2 s", 2)

    def test_dead(self):
        self.one("a dead desk", hangs=False)

    def test_right(self):
        with lab.Lab() as it:
            it.group("free", Class="free")
            it.user("al", "free")
            for round_ in range(3):
                ended, last = logins_at_once(it.logins, 400)
                print(
                    f"400 logins at once, over {lab.OVER}: {dict(ended)}, the last after {last} s",
                    flush=True,
                )
            self.assertEqual(ended, {"accept": 400})


class Ends(unittest.TestCase):
    """It ends when it is told, and not before."""

    @staticmethod
    def patience():
        """How long systemd waits for a stop before it kills, in seconds."""
        with open(os.path.join(lab.HERE, "units/radacctd-front.service"), encoding="utf-8") as file:
            return int(re.search(r"(?m)^TimeoutStopSec=(\d+)$", file.read())[1])

    def test_starts_and_stops(self):
        count, longest = int(os.environ.get("STARTS", "10")), 0
        it = lab.Lab()
        it.start_book()
        it.group("free", Class="free")
        it.user("al", "free")
        try:
            for n in range(count):
                it.start_front()
                stop = threading.Event()
                reports = threading.Thread(target=self.reports, args=(it, stop), daemon=True)
                reports.start()
                ended, _ = logins_at_once(it.logins, 400, again=2)
                self.assertIsNone(it.front.poll(), f"start {n}: ended by itself, {it.log()[-500:]}")
                # On a busy machine the desk may take more than its second: that is a refusal.
                self.assertNotIn("silence", ended)
                begun = time.time()
                it.front.terminate()
                try:
                    it.front.wait(self.patience())
                except subprocess.TimeoutExpired:
                    it.front.kill()
                    it.front.wait()
                longest = max(longest, time.time() - begun)
                stop.set()
                reports.join()
            print(
                f"{count} starts under 400 logins and reports, over {lab.OVER}: ended by itself 0 times; the longest stop {longest:.1f} s",
                flush=True,
            )
            self.assertLess(longest, 5.5)
        finally:
            it.end()

    @staticmethod
    def reports(it, stop):
        n = 0
        while not stop.is_set():
            n += 1
            it.report(
                [
                    (STATUS, STOP),
                    (ID, f"r{time.time_ns()}"),
                    (USER, "al"),
                    (42, 1),
                    (NAS_NAME, "ap"),
                ],
                wait=0.05,
            )


if __name__ == "__main__":
    unittest.main(verbosity=1)
