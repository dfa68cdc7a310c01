"""Cut-off: who is overdrawn is disconnected, by nobody's leave but the desk's. Over the program or its stand-in."""
import contextlib
import hashlib
import io
import os
import socket
import subprocess
import threading
import time
import unittest

import cut
import test_lab as lab
import test_radius as radius
from test_radius import CLASS, ID, NAS_NAME, START, STATION, STATUS, USER


class AccessServer(threading.Thread):
    """Takes Disconnect-Requests on a port and keeps what they had."""

    def __init__(self, answers=True, at=("127.0.0.1", 0)):
        super().__init__(daemon=True)
        self.socket = socket.socket(socket.AF_INET, socket.SOCK_DGRAM)
        self.socket.bind(at)
        self.port = self.socket.getsockname()[1]
        self.answers, self.asked, self.seen = answers, [], []
        self.start()

    def run(self):
        while True:
            packet, where = self.socket.recvfrom(4096)
            digest = hashlib.md5(packet[:4] + bytes(16) + packet[20:] + b"coa-secret-1").digest()
            assert packet[0] == 40 and digest == packet[4:20]
            self.asked.append(dict(radius.unpacked(packet[20:])))
            if len(self.seen) < 3:
                self.seen.append(subprocess.run(["ps", "-eo", "args"], capture_output=True).stdout)
            if self.answers:
                head = bytes([41, packet[1], 0, 20])
                self.socket.sendto(
                    head + hashlib.md5(head + packet[4:20] + b"coa-secret-1").digest(), where
                )


class Cut(unittest.TestCase):
    def setUp(self):
        self.lab = lab.Lab()
        self.lab.start_book()
        self.lab.start_front()
        print(f"{self.id().partition('.')[2]}: over {lab.OVER}", flush=True)
        self.lab.group("fast", Class="gold")
        for name in ("al", "bo"):
            self.lab.user(name, "fast")
            self.lab.sell(name, 100)
        self.lab.user("bo", Cleartext_Password="right")

    def tearDown(self):
        self.lab.end()

    def open(self, session, octets, name="al", device="one", status=START):
        given = radius.first(self.lab.login(name), CLASS) or self.given
        self.given = given
        pairs = [
            (STATUS, status),
            (ID, session),
            (USER, name),
            (42, octets),
            (NAS_NAME, device),
            (CLASS, given),
            (STATION, f"02-{session}"),
        ]
        self.assertTrue(self.lab.report(pairs))

    def cut(self, now, more="", **servers):
        """A round, by the settings of the front and these clients."""
        text = "".join(
            f"client {name} {{\n\tipaddr = 127.0.0.1\n\tsecret = 'coa-secret-1'\n"
            f"\tcut = {it.port}, nas = {name}, user_name = {'yes' if name == 'two' else 'no'}\n"
            f"{more}}}\n"
            for name, it in servers.items()
        )
        with open(os.path.join(self.lab.raddb, "settings.conf"), encoding="utf-8") as file:
            return cut.cut(file.read(), text, now)

    def test_who_is_overdrawn(self):
        one, two = AccessServer(), AccessServer()
        for session in ("s1", "s2"):
            self.open(session, 100)
        self.open("s3", 100, "bo")
        self.open("s4", 100, "bo", "two")
        now, both = int(time.time()), {"one": one, "two": two}
        self.assertEqual(self.cut(now, **both), 0)
        self.open("s1", 20 * lab.MEBIBYTE, status=3)
        self.assertEqual(self.cut(now, **both), 2)
        self.assertEqual(sorted(it[ID] for it in one.asked), [b"s1", b"s2"])
        self.assertEqual({it[STATION] for it in one.asked}, {b"02-s1", b"02-s2"})
        self.assertEqual(two.asked, [])
        self.assertNotIn(b"coa-secret-1", b"".join(one.seen))
        self.assertIn(b"disconnect", b"".join(one.seen))
        self.assertEqual(self.cut(now + 2000, **both), 0)
        self.lab.sell("al", 1000)
        self.assertEqual(self.cut(now, **both), 0)
        self.open("s4", 20 * lab.MEBIBYTE, "bo", "two", status=3)
        self.assertEqual(self.cut(now, **both), 2)
        self.assertEqual([it.get(USER) for it in two.asked], [b"bo"])
        self.assertEqual(len(one.asked), 3)

    def test_many_sessions_at_two_members_of_a_network(self):
        one = AccessServer()
        two = AccessServer(at=("127.0.0.2", one.port))
        for n in range(300):
            self.open(f"s{n}", 100)
        self.open("s0", 20 * lab.MEBIBYTE, status=3)
        start = time.time()
        self.assertEqual(self.cut(int(start), "members = '127.0.0.1 127.0.0.2'\n", one=one), 600)
        print("300 sessions took", round(time.time() - start, 1), "s", flush=True)
        self.assertEqual([len({it[ID] for it in each.asked}) for each in (one, two)], [300, 300])

    def test_odd_texts(self):
        """What a device names itself is no line of another request."""
        one = AccessServer()
        self.open("s1", 20 * lab.MEBIBYTE)
        for n, name in enumerate(
            (b'x"\nUser-Name = "bo', b"0x616c", b"%{User-Name}\\", b"\0", b"a,b = c")
        ):
            pairs = [(STATUS, START), (ID, name), (USER, "al"), (NAS_NAME, "one"),
                     (CLASS, self.given), (STATION, name)]
            self.assertTrue(self.lab.report(pairs), n)
        self.assertEqual(self.cut(int(time.time()), one=one), 6)
        self.assertEqual(
            {it[ID] for it in one.asked},
            {b"s1", b'x"\nUser-Name = "bo', b"0x616c", b"%{User-Name}\\", b"\0", b"a,b = c"},
        )
        self.assertTrue(all(set(it) == {ID, STATION, 55} for it in one.asked))

    def test_a_silent_access_server_holds_up_no_other(self):
        one, two = AccessServer(answers=False), AccessServer()
        for n in range(30):
            self.open(f"s{n}", 100)
        self.open("t", 20 * lab.MEBIBYTE, device="two")
        start = time.time()
        with contextlib.redirect_stdout(io.StringIO()) as said:
            self.assertEqual(self.cut(int(start), one=one, two=two), 31)
        self.assertLess(time.time() - start, cut.LONGEST + 5)
        self.assertEqual(said.getvalue(), f"127.0.0.1:{one.port} answers no Disconnect-Request\n")
        self.assertEqual(len(two.asked), 1)

    def test_the_desk_is_away(self):
        self.open("s1", 100)
        self.lab.stop_book()
        with self.assertRaises(OSError):
            self.cut(int(time.time()), one=AccessServer())


if __name__ == "__main__":
    unittest.main(verbosity=1)
