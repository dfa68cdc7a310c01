"""Reports: answered means in the book. Attacks on a front over the program or its stand-in. Needs root."""
import contextlib
import os
import pathlib
import re
import signal
import socket
import subprocess
import threading
import time
import unittest
import urllib.parse

import cut
import test_lab as lab
import test_radius as radius
from test_lab import waited
from test_radius import CLASS, ID, NAS_NAME, ON, START, STATION, STATUS, STOP, USER

BAD = [(42, 0xFFFFFFFF), (52, 0xFFFFFFFF)]


def report(session, octets=1000, status=STOP, device="ap-1", more=(), user="al"):
    return [(STATUS, status), (ID, session), (USER, user), (42, octets), (NAS_NAME, device), *more]


def bad(session, device="ap-1", more=()):
    """One that radacctd never takes: more octets than any session may have."""
    return [(STATUS, STOP), (ID, session), (USER, "al"), *BAD, (NAS_NAME, device), *more]


class OneLab(unittest.TestCase):
    def setUp(self):
        self.lab = lab.Lab()
        self.lab.start_book()
        self.lab.start_front()
        print(f"{self.id().partition('.')[2]}: over {lab.OVER}", flush=True)
        self.lab.sell("al", 10**6)
        self.lab.group("fast", Class="gold")
        self.lab.user("al", "fast")

    def tearDown(self):
        self.assertIsNone(self.lab.front.poll(), "FreeRADIUS ended by itself")
        self.lab.end()

    def given(self, name="al"):
        return radius.first(self.lab.login(name), CLASS)

    def rows(self):
        """The rows of the book by the access server's own id."""
        return {
            urllib.parse.unquote_to_bytes(it["session"].rsplit("/", 2)[0]).decode("latin-1"): it
            for it in self.lab.sessions()
        }

    def kept(self, reports, change):
        """Has reports kept, and changes the text of them while nobody runs."""
        it = self.lab
        it.stop_book()
        for pairs in reports:
            self.quick(pairs, 1)
        self.assertTrue(waited(lambda: it.waiting() == len(reports)))
        it.stop_front()
        paths = list(pathlib.Path(it.kept, "waits").iterdir())
        text = b"".join(path.read_bytes() for path in paths)
        for path in paths:
            os.truncate(path, 0)
        paths[0].write_bytes(change(text))
        it.start_book()
        it.start_front()

    @contextlib.contextmanager
    def full(self, name):
        """A folder of kept reports on a disk of its own, which is full."""
        folder = os.path.join(self.lab.kept, name)
        words = ["mount", "-t", "tmpfs", "-o", "size=4k,mode=0700,uid=freerad", "none", folder]
        subprocess.run(words, check=True)
        try:
            pathlib.Path(folder, "full").write_bytes(bytes(4096))
            yield
        finally:
            self.lab.stop_front()
            subprocess.run(["umount", folder], check=True)
            self.lab.start_front()

    def quick(self, pairs, tries=3):
        """As a device that gives up after a second."""
        return self.lab.report(pairs, wait=0.3, tries=tries)


class Answers(OneLab):
    def test_answered_means_in_the_book(self):
        it = self.lab
        self.assertTrue(it.report(report("s1")))
        self.assertIn("s1", self.rows())
        it.stop_book()
        for n in range(5):
            self.assertFalse(self.quick(report(f"down-{n}")))
        waited(lambda: it.waiting() == 5)
        self.assertEqual(it.waiting(), 5)
        it.start_book()
        self.assertTrue(waited(lambda: len(self.rows()) == 6))
        self.assertTrue(waited(lambda: it.waiting() == 0))

    def test_a_device_that_goes_on_is_answered_by_the_book(self):
        it = self.lab
        it.stop_book()
        threading.Timer(6, it.start_book).start()
        packet = radius.report_packet(report("again"), 9)
        start = time.time()
        self.assertEqual(radius.asked(it.reports, packet, tries=12, wait=1).code, 5)
        self.assertLess(time.time() - start, 12)
        self.assertEqual(it.waiting(), 0)

    def test_a_book_that_hangs(self):
        it = self.lab
        it.book.send_signal(signal.SIGSTOP)
        for n in range(10):
            self.assertFalse(self.quick(report(f"hung-{n}")))
        time.sleep(4)
        it.book.send_signal(signal.SIGCONT)
        self.assertTrue(waited(lambda: len(self.rows()) == 10))
        self.assertEqual(it.balances()["al"], 10**6)

    def test_a_restart_in_an_outage(self):
        """A kept Accounting-On would close sessions that began since: the device sends it again."""
        it, given = self.lab, self.given()
        it.stop_book()
        for status in (ON, 8, 9, 15, 99):
            self.assertFalse(self.quick([(STATUS, status), (NAS_NAME, "ap-1"), (ID, "x")]))
        self.assertFalse(self.quick(report("new", status=START, more=[(CLASS, given)])))
        self.assertTrue(waited(lambda: it.waiting() == 1))
        it.start_book()
        self.assertTrue(waited(lambda: "new" in self.rows()))
        time.sleep(3)
        self.assertEqual([(key, row["state"]) for key, row in self.rows().items()], [("new", "open")])

    def test_killed_in_an_outage(self):
        it = self.lab
        it.stop_book()
        for n in range(10):
            self.assertFalse(self.quick(report(f"killed-{n}")))
        time.sleep(4)
        it.front.kill()
        it.front.wait()
        it.start_front()
        it.start_book()
        self.assertTrue(waited(lambda: len(self.rows()) == 10, 30))

    def test_a_full_disk(self):
        """What cannot be kept was not answered either: the device sends it again."""
        it = self.lab
        waits = os.path.join(it.kept, "waits")
        subprocess.run(
            [
                "mount",
                "-t",
                "tmpfs",
                "-o",
                "size=4k,mode=0700,uid=freerad,gid=freerad",
                "none",
                waits,
            ],
            check=True,
        )
        try:
            it.stop_book()
            answered = [
                self.quick(report(f"full-{n}", more=[(18, b"x" * 200)] * 3), 1) for n in range(20)
            ]
            self.assertEqual(set(answered), {False})
            time.sleep(4)
            self.assertLess(it.waiting(), 20)
            it.start_book()
            for n in range(20):
                self.assertTrue(it.report(report(f"full-{n}")))
            self.assertTrue({f"full-{n}" for n in range(20)} <= set(self.rows()))
        finally:
            it.stop_front()
            subprocess.run(["umount", waits], check=True)
            it.start_front()

    def test_a_full_disk_keeps_what_was_kept(self):
        """A report goes to the other reader only if it was written there: rlm_detail says ok."""
        it = self.lab
        with self.full("again"):
            it.stop_book()
            it.start_book(lab.free_port())
            for n in range(4):
                self.quick(report(f"r{n}", more=[(41, 90000)] if n % 2 else []), 1)
            time.sleep(20)
            self.assertEqual(it.waiting(), 4)
        it.stop_book()
        it.start_book()
        self.assertTrue(waited(lambda: len(self.rows()) == 4 and it.waiting() == 0))

    def test_a_burst(self):
        """3,000 reports at once in an outage: all threads write one file, and each is charged later."""
        it, given = self.lab, self.given()
        it.stop_book()
        for first in range(0, 3000, 250):
            with socket.socket(socket.AF_INET, socket.SOCK_DGRAM) as sender:
                for n in range(first, first + 250):
                    pairs = report(f"n{n}", more=[(CLASS, given)])
                    packet = radius.report_packet(pairs, n % 250)
                    sender.sendto(packet, ("127.0.0.1", it.reports))
        self.assertTrue(waited(lambda: it.waiting() == 3000, 30))
        it.start_book()
        self.assertTrue(waited(lambda: len(self.rows()) == 3000, 300))
        self.assertEqual({row["class"] for row in self.rows().values()}, {"gold"})

    def test_taken_for_dead(self):
        """FreeRADIUS takes radacctd for dead, here after two timeouts: what comes then is kept."""
        it, names = self.lab, {f"n{n}" for n in range(30)}
        it.stop_front()
        passing = os.path.join(it.raddb, "passing")
        lab.edited(passing, [("response_timeouts = 1000", "response_timeouts = 2")])
        it.start_front()
        it.stop_book()
        for name in names:
            self.quick(report(name))
        # A device's repeat may be kept, too.
        self.assertTrue(waited(lambda: it.waiting() >= 30, 10))
        it.start_book()
        self.assertTrue(waited(lambda: set(self.rows()) == names, 60))
        self.assertEqual([it.waiting(name) for name in ("again", "aside", "lost")], [0] * 3)


class Refused(OneLab):
    """A report that radacctd never takes holds up nobody."""

    def test_six_stops_behind_one(self):
        it = self.lab
        it.stop_book()
        self.quick(bad("bad"), 1)
        time.sleep(0.2)
        for n in range(6):
            self.quick(report(f"behind-{n}"), 1)
        self.assertTrue(waited(lambda: it.waiting() == 7))
        it.start_book()
        start = time.time()
        self.assertTrue(it.report(report("live"), wait=1))
        self.assertTrue(waited(lambda: len(self.rows()) == 7, 40))
        self.assertLess(time.time() - start, 15)
        self.assertTrue(waited(lambda: it.waiting("aside") == 1, 60))
        self.assertEqual((it.waiting(), it.waiting("again")), (0, 0))

    def test_many_of_one_access_server(self):
        it = self.lab
        it.stop_book()
        for n in range(5):
            late = [(41, 90000)] if n % 2 else []
            self.quick(bad(f"bad-{n}", "ap-bad", [(CLASS, b"debit"), *late]), 1)
        for n in range(6):
            self.quick(report(f"good-{n}"), 1)
        self.assertTrue(waited(lambda: it.waiting() == 11))
        it.start_book()
        start = time.time()
        for n in range(20):
            self.assertTrue(it.report(report(f"live-{n}"), wait=1))
        self.assertTrue(waited(lambda: len(self.rows()) == 26, 60))
        print("5 refused reports held up kept ones for", round(time.time() - start), "s", flush=True)
        self.assertTrue(waited(lambda: it.waiting("aside") == 5, 200))

    def test_while_the_book_is_away_nothing_goes_aside(self):
        it = self.lab
        it.stop_book()
        self.quick(report("waits"), 1)
        time.sleep(30)
        self.assertEqual((it.waiting(), it.waiting("aside")), (1, 0))
        it.start_book()
        self.assertTrue(waited(lambda: "waits" in self.rows()))

    def test_what_went_aside_is_sent_again(self):
        it, given = self.lab, self.given()
        it.stop_book()
        it.start_book(lab.free_port())
        self.quick(report("later", 5 * lab.MEBIBYTE, more=[(CLASS, given)]), 1)
        self.assertTrue(waited(lambda: it.waiting("aside") == 1, 60))
        it.stop_book()
        it.start_book()
        cut.send_again(it.kept, time.time())
        self.assertEqual(it.waiting("aside"), 1)
        cut.send_again(it.kept, time.time() + 3700)
        self.assertTrue(waited(lambda: "later" in self.rows(), 20))
        self.assertEqual(it.balances()["al"], 10**6 - 50)

    def test_after_a_day_it_stays(self):
        tried = lambda it: it.replace(b"\tFront-Since", b"\tFront-Count = 27\n\tFront-Since")
        self.kept([bad("old", more=[(41, 90000)])], tried)
        self.assertTrue(waited(lambda: self.lab.waiting("lost") == 1))
        self.assertEqual((self.lab.waiting("aside"), self.lab.waiting("again")), (0, 0))


class Exact(OneLab):
    """What is passed on, and what was kept, is what the device sent."""

    ODD = {
        "extended": [(241, b"\x63xyz")],
        "long extended": [(245, b"\x63\0xyz")],
        "vendor's": [(241, bytes([26, 0, 0, 1, 2, 3]) + b"abc")],
        "short": [(26, b"\0\0\0\x09\x01")],
        "octet 0": [(STATION, b"a\0b")],
        "long": [(18, b"x" * 253)] * 8,
        "quotes": [(STATION, b'a\\b"c\nUser-Name = "bo"')],
        "%": [(STATION, b"x%{User-Name}%l")],
        "%{": [(18, b"%{exec:/bin/false}")],
        "0x": [(STATION, b"0x616c")],
        "state": [(33, b"abc"), (33, b"d")],
        "ahead": [(55, int(time.time()) + 1000)],
        "behind": [(55, 1)],
        "class": [(CLASS, b"")],
        "class 0": [(CLASS, b"a\0b")],
        "unknown": [(200, b"abc")],
        "longer than a line of the reader": [(137, bytes(253))] * 10,
        "50%": [],
        'a b/c\\d"e': [],
        "100%{User-Name}": [],
    }

    def test_odd_attributes(self):
        it = self.lab
        given = self.given()
        for name, more in self.ODD.items():
            with self.subTest(name=name):
                self.assertTrue(
                    it.report(
                        report("live " + name, more=[*more, (CLASS, given)], device="ap " + name),
                        wait=1.5,
                    )
                )
        it.stop_book()
        for name, more in self.ODD.items():
            self.quick(report("kept " + name, more=[*more, (CLASS, given)], device="ap " + name), 1)
        self.assertTrue(waited(lambda: it.waiting() == len(self.ODD)))
        it.start_book()
        waited(lambda: it.waiting() == 0, 60)
        rows = {(row["client"], key): row for key, row in self.rows().items()}
        now = time.time()
        for name in self.ODD:
            devices = {client for (client, key) in rows if key in (f"live {name}", f"kept {name}")}
            with self.subTest(name=name):
                self.assertEqual(len(devices), 1, devices)
                for kind in ("live", "kept"):
                    row = rows[(*devices, f"{kind} {name}")]
                    self.assertEqual(
                        (row["account"], row["class"], row["total"]), ("al", "gold", "1000")
                    )
                    self.assertLess(abs(now - int(row["last"])), 60)

    WRONG = ((42, b"abc"), (43, bytes(5)), (52, b"\1"), (53, bytes(8)), (46, bytes(8)), (49, b"\1"),
             (8, b"\x0a\0\1"), (8, bytes(16)))

    def test_a_wrong_size_is_not_taken(self):
        """It is refused as radacctd refuses it, also once it was kept."""
        it = self.lab
        for n, pair in enumerate(self.WRONG):
            wrong = [(STATUS, STOP), (ID, f"w{n}"), (USER, "al"), (NAS_NAME, "ap"), pair]
            self.assertFalse(it.report(wrong, wait=0.2))
        self.assertTrue(waited(lambda: it.waiting("aside") == len(self.WRONG), 300))
        self.assertEqual((it.waiting(), self.rows()), (0, {}))

    def test_a_delay_near_two_to_the_32(self):
        """Nothing is added to it: the sum would be some seconds. It is as if it came straight."""
        it, delay = self.lab, [(41, 2**32 - 6)]
        self.assertTrue(it.report(report("live", more=delay)))
        it.stop_book()
        self.quick(report("kept", more=delay), 1)
        self.assertTrue(waited(lambda: it.waiting() == 1))
        it.start_book()
        self.assertTrue(waited(lambda: set(self.rows()) == {"live", "kept"}))
        live, kept = (int(self.rows()[name]["last"]) for name in ("live", "kept"))
        self.assertLess(abs(kept - live), 60)
        self.assertLess(live, time.time() - 10**9)

    def test_what_is_lost_of_a_kept_report(self):
        """A delay of a wrong form, and a device's address, which is no device then."""
        it, one, two = self.lab, (41, b"\7"), (radius.NAS_ADDRESS, b"\x0a\0\1")
        it.stop_book()
        self.quick([*report("late"), one], 1)
        self.quick([(STATUS, STOP), (ID, "where"), (USER, "al"), (42, 1000), two], 1)
        self.assertTrue(waited(lambda: it.waiting() == 2))
        it.start_book()
        self.assertTrue(waited(lambda: set(self.rows()) == {"late", "where"}))
        self.assertEqual(self.rows()["where"]["client"].rstrip("/"), "front")
        self.assertLess(abs(time.time() - int(self.rows()["late"]["last"])), 60)

    def test_a_station_that_is_too_long(self):
        """It would be a line too long for FreeRADIUS' reader, which deletes what is kept of all."""
        it, stations = self.lab, (b"02-01", b"\xff" * 249, b"\n" * 250, b"\xff" * 253, b"02-02")
        it.stop_book()
        for n, station in enumerate(stations):
            self.quick(report(f"s{n}", more=[(STATION, station)]), 1)
        self.assertTrue(waited(lambda: it.waiting() == len(stations)))
        it.start_book()
        self.assertTrue(waited(lambda: len(self.rows()) == len(stations)))
        found = [urllib.parse.unquote_to_bytes(self.rows()[f"s{n}"]["calling"]) for n in range(5)]
        self.assertEqual(found, [*stations[:2], b"", b"", stations[4]])

    def test_names_without_a_stamp(self):
        it = self.lab
        names = (b"%{User-Name}", b'x%{a}\\b"c\n', b"\xff%{", b"0x616c", b"\\n", b"a\0b", b"a" * 253)
        it.stop_book()
        for n, name in enumerate(names):
            self.quick(report(f"n{n}", user=name), 1)
        self.assertTrue(waited(lambda: it.waiting() == len(names)))
        it.start_book()
        self.assertTrue(waited(lambda: len(self.rows()) == len(names)))
        found = [self.rows()[f"n{n}"]["account"] for n in range(len(names))]
        self.assertEqual([urllib.parse.unquote_to_bytes(account) for account in found], list(names))

    def test_a_clock_that_was_set_back(self):
        """The clock of FreeRADIUS was 100 days ahead: no delay is shorter than the device's."""
        sent = time.time()
        ahead = lambda it: b"Front-Since = %d" % (int(it[1]) + 100 * 86400)
        ahead_all = lambda it: re.sub(rb"Front-Since = (\d+)", ahead, it)
        self.kept([report("old", more=[(41, 100000)])], ahead_all)
        self.assertTrue(waited(lambda: "old" in self.rows()))
        self.assertLess(abs(sent - 100000 - int(self.rows()["old"]["last"])), 20)

    def test_a_record_that_was_cut(self):
        """The rest of it is another one's: neither is charged, and a person may see both."""

        def cut_two(text):
            *records, _ = re.split(b"\n\n+", text)
            for n, end in ((0, 8), (2, 0)):
                records[n : n + 1] = [records[n][: records[n].index(b"\tAcct-Input") + end]]
            return b"%b%b\n\n%b%b\n\n%b\n\n%b\n\n" % tuple(records)

        self.kept([report(f"s{n}", user=f"u{n}") for n in range(6)], cut_two)
        self.assertTrue(waited(lambda: len(self.rows()) == 2 and self.lab.waiting() == 0))
        self.assertEqual(self.lab.waiting("lost"), 4)
        self.assertEqual({row["total"] for row in self.rows().values()}, {"1000"})

    def test_a_cut_record_waits_for_space(self):
        """It is for a person to see, and is gone from where it was only once it is in `lost`."""
        it = self.lab
        with self.full("lost"):
            one, two = report("one"), report("two")
            self.kept([one, two], lambda text: text.replace(text[text.index(b"\tAcct-In") :], b"")
                      + text.split(b"\n\n")[1] + b"\n\n")
            time.sleep(12)
            self.assertGreater(it.waiting(), 0)
        self.assertTrue(waited(lambda: it.waiting() == 0 and it.waiting("lost") > 0))

    def test_a_late_one_on_a_full_disk(self):
        """It cannot go apart: so it is tried where it is, and holds up nobody."""
        it = self.lab
        with self.full("again"):
            it.stop_book()
            self.quick(report("old", more=[(41, 90000)]), 1)
            self.quick(report("fresh"), 1)
            self.assertTrue(waited(lambda: it.waiting() == 2))
            it.start_book()
            self.assertTrue(waited(lambda: set(self.rows()) == {"old", "fresh"}, 20))

    def test_moved_back_by_hand(self):
        """Late ones that a person puts into `again`: detail writes none where its reader reads."""
        it = self.lab
        it.stop_book()
        for pairs in (bad("bad", more=[(41, 90000)]), report("old", more=[(41, 90000)])):
            self.quick(pairs, 1)
        self.assertTrue(waited(lambda: it.waiting() == 2))
        it.stop_front()
        for path in pathlib.Path(it.kept, "waits").iterdir():
            path.rename(pathlib.Path(it.kept, "again", path.name))
        it.start_book()
        it.start_front()
        self.assertTrue(waited(lambda: "old" in self.rows() and it.waiting("aside") == 1))
        self.assertEqual(self.rows()["old"]["account"], "al")

    def test_an_outage_moves_no_moment(self):
        it = self.lab
        it.stop_book()
        sent = time.time()
        self.quick(report("early", more=[(41, 7)]), 1)
        time.sleep(12)
        it.start_book()
        self.assertTrue(waited(lambda: "early" in self.rows()))
        self.assertLess(abs(sent - 7 - int(self.rows()["early"]["last"])), 3)


class Pays(OneLab):
    """An access server cannot name a plan or a payer that nobody was given."""

    def test_stamps(self):
        it = self.lab
        given, mib = self.given(), lab.MEBIBYTE
        rows = (
            ("right", [(CLASS, given)], "al", "gold"),
            ("second", [(CLASS, b"x"), (CLASS, given)], "al", "gold"),
            ("bare", [(CLASS, b"gold")], "nobody", "free"),
            ("debit", [(CLASS, b"debit")], "nobody", "free"),
            ("none", [], "nobody", "free"),
            ("cut", [(CLASS, given[:-1])], "nobody", "free"),
            ("long", [(CLASS, given + b"0")], "nobody", "free"),
            ("other", [(CLASS, given.replace(b";al;", b";bo;"))], "nobody", "free"),
            ("plan", [(CLASS, given.replace(b"gold;", b"up;"))], "nobody", "free"),
            ("upper", [(CLASS, given.upper())], "nobody", "free"),
        )
        for name, more, _, _ in rows:
            self.assertTrue(it.report(report(name, mib, more=more, user="nobody")))
        found = self.rows()
        for name, _, account, plan in rows:
            self.assertEqual((found[name]["account"], found[name]["class"]), (account, plan), name)
        self.assertEqual(it.balances()["al"], 10**6 - 20)

    def test_the_outer_name_pays_nothing(self):
        text = self.lab.eap("PEAP", "al", "somebody-else", "right", "auth=MSCHAPV2").rpartition(
            "(Access-Accept)"
        )[2]
        given = bytes.fromhex(text.partition("(Class)")[2].partition("Value: ")[2].split()[0])
        self.assertTrue(
            self.lab.report(
                report("eap", lab.MEBIBYTE, more=[(CLASS, given)], user="somebody-else")
            )
        )
        self.assertEqual(self.rows()["eap"]["account"], "al")

    def test_a_restart_closes_one_device(self):
        it, given = self.lab, self.given()
        for device in ("ap-1", "ap-2"):
            self.assertTrue(
                it.report(
                    report("of " + device, status=START, device=device, more=[(CLASS, given)])
                )
            )
        self.assertTrue(it.report([(STATUS, ON), (NAS_NAME, "ap-1")]))
        self.assertEqual([self.rows()[f"of ap-{n}"]["state"] for n in (1, 2)], ["closed", "open"])

    def test_used_again(self):
        """With a LOGIN an id that is used again is another session."""
        it = self.lab
        for _ in range(2):
            given = radius.first(it.login(source="127.0.0.4"), CLASS)
            self.assertTrue(
                it.report(
                    report("00000001", lab.MEBIBYTE, more=[(CLASS, given)]), source="127.0.0.4"
                )
            )
        self.assertEqual(len(it.sessions()), 2)
        self.assertEqual(it.balances()["al"], 10**6 - 20)

    def test_a_stranger(self):
        packet = radius.report_packet(report("stranger"))
        self.assertIsNone(radius.asked(self.lab.reports, packet[:-1] + b"x", wait=1).code)
        self.assertIsNone(radius.asked(self.lab.reports, packet, source="127.0.9.9", wait=1).code)
        self.assertEqual(self.rows(), {})


if __name__ == "__main__":
    unittest.main(verbosity=1)
