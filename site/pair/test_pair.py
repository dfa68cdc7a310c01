"""Two machines: what one book took is in the other. Over the program or its stand-in. Needs root."""
import glob
import os
import random
import shutil
import sys
import threading
import time
import unittest

HERE = os.path.dirname(os.path.abspath(__file__))
sys.path.insert(0, os.path.join(os.path.dirname(HERE), "front"))

import test_lab as lab
import test_radius as radius
from test_radius import CLASS, ID, NAS_NAME, STATUS, STOP, USER


CLOCK = glob.glob("/usr/lib/*/faketime/libfaketimeMT.so.1")


class Machine(lab.Lab):
    """One of two, at 127.0.8.N for the other."""

    def __init__(self, number, port):
        self.number, self.port = number, port
        super().__init__()

    def made_folder(self):
        super().made_folder()
        for name in os.listdir(os.path.join(HERE, "raddb")):
            shutil.copy(os.path.join(HERE, "raddb", name), self.raddb)
        os.makedirs(os.path.join(self.kept, "other"))
        shutil.chown(os.path.join(self.kept, "other"), "freerad", "freerad")
        # On one machine the source of what is sent on must be said.
        lab.edited(
            os.path.join(self.raddb, "pair"),
            [
                (
                    "\ttype = acct, ipaddr = ${pair.other}",
                    "\tsrc_ipaddr = ${pair.address}\n\ttype = acct, ipaddr = ${pair.other}",
                ),
            ],
        )
        lab.edited(
            os.path.join(self.raddb, "pair.conf"),
            [
                ("address = 10.0.0.1", f"address = 127.0.8.{self.number}"),
                ("other = 10.0.0.2", f"other = 127.0.8.{3 - self.number}"),
                ("port = 11814", f"port = {self.port}"),
            ],
        )

    def front_words(self):
        """The clock of the second machine's FreeRADIUS is 40 s behind."""
        words, folder = super().front_words()
        if self.number == 2 and CLOCK:
            clock = [f"{it}DONT_FAKE_MONOTONIC=1" for it in ("", "FAKETIME_")]
            words[-1:] = ["env", "LD_PRELOAD=" + CLOCK[0], "FAKETIME=-40s", *clock, "freeradius"]
        return words, folder

    def of_each(self):
        return {
            (it["client"], it["session"]): (it["account"], it["class"], it["total"], it["state"])
            for it in self.sessions()
        }


class Pair(unittest.TestCase):
    def setUp(self):
        port = lab.free_port()
        self.machines = [Machine(n, port) for n in (1, 2)]
        for it in self.machines:
            it.start_book()
            it.start_front()
            it.group("fast", Class="gold")
            it.user("al", "fast")
            it.sell("al", 10**7)
        print(f"{self.id().partition('.')[2]}: over {lab.OVER}", flush=True)
        self.given = radius.first(self.machines[0].login(), CLASS)

    def tearDown(self):
        for it in self.machines:
            it.end()

    def device(self, n, seconds):
        """Asks the first machine three times, then the second."""
        time.sleep(random.random() * seconds)
        pairs = [
            (STATUS, STOP),
            (ID, f"s{n}"),
            (USER, "al"),
            (42, 1000 + n),
            (NAS_NAME, f"ap-{n % 20}"),
        ]
        # One in twenty has no stamp, and one in ten an attribute that no dictionary has.
        pairs += [(CLASS, self.given)] if n % 20 else []
        pairs += [] if n % 10 else [(241, b"\x63xyz")]
        machines = self.machines if n % 2 else self.machines[::-1]
        self.answered.append(any(it.report(pairs, tries=3, wait=1.2) for it in machines))

    def devices(self, first, count, seconds):
        threads = [
            threading.Thread(target=self.device, args=(n, seconds))
            for n in range(first, first + count)
        ]
        [it.start() for it in threads]
        return threads

    def equal(self, count):
        one, two = (it.of_each() for it in self.machines)
        return one == two and len(one) == count

    def are_dated(self):
        """No moment is another one in the other book, by more than a device's tries took."""
        one, two = ({it["session"]: int(it["last"]) for it in machine.sessions()}
                    for machine in self.machines)
        self.assertLess(max(abs(one[it] - two[it]) for it in one), 25)

    def test_a_pair(self):
        self.answered = []
        one, two = self.machines
        [it.join() for it in self.devices(0, 300, 5)]
        self.assertTrue(lab.waited(lambda: self.equal(300), 60))
        self.are_dated()
        threads = self.devices(300, 300, 20)
        time.sleep(3)
        two.stop_book()
        two.front.kill()
        two.front.wait()
        [it.join() for it in threads]
        two.start_book()
        two.start_front()
        begun = time.time()
        self.assertTrue(
            lab.waited(lambda: self.equal(600), 120), [len(it.of_each()) for it in self.machines]
        )
        print(
            f"600 reports, one machine off for 20 s: answered {sum(self.answered)}, books equal {time.time() - begun:.0f} s after it is back",
            flush=True,
        )
        self.are_dated()
        self.assertEqual(sum(self.answered), 600)
        self.assertEqual([it.balances()["al"] for it in self.machines], [10**7 - 5700] * 2)
        self.a_lost_disk(one, two)

    def a_lost_disk(self, one, two):
        """A new machine gets the book by a stop, a copy, a start, while FreeRADIUS keeps reports."""
        two.stop_book()
        two.front.kill()
        two.front.wait()
        for name in os.listdir(two.folder):
            if name.startswith("book.db"):
                os.remove(two.path(name))
        for name in ("waits", "aside", "other"):
            for file in os.listdir(os.path.join(two.kept, name)):
                os.remove(os.path.join(two.kept, name, file))
        threads = self.devices(600, 100, 10)
        time.sleep(4)
        one.stop_book()
        for name in os.listdir(one.folder):
            if name.startswith("book.db"):
                shutil.copy(one.path(name), two.path(name))
        one.start_book()
        two.start_book()
        two.start_front()
        [it.join() for it in threads]
        self.assertTrue(
            lab.waited(lambda: self.equal(700), 120), [len(it.of_each()) for it in self.machines]
        )
        self.assertEqual([it.balances()["al"] for it in self.machines], [10**7 - 6650] * 2)
        print("its disk lost, a new one: books equal", flush=True)


if __name__ == "__main__":
    unittest.main(verbosity=1)
