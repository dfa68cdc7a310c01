"""Who is let in, who pays, how much: attacks on a front over the program or its stand-in.
Needs root, freeradius, freeradius-rest, freeradius-utils, eapoltest."""
import contextlib
import hashlib
import http.server
import os
import re
import shutil
import sqlite3
import subprocess
import threading
import time
import unittest

import test_expanded as expanded
import test_lab as lab
import test_radius as radius
from test_lab import MEBIBYTE

WAYS = (
    ("PEAP", "auth=MSCHAPV2"),
    ("PEAP", "auth=GTC"),
    ("TTLS", "auth=PAP"),
    ("TTLS", "auth=CHAP"),
    ("TTLS", "auth=MSCHAP"),
    ("TTLS", "auth=MSCHAPV2"),
    ("TTLS", "autheap=MSCHAPV2"),
    ("TTLS", "autheap=GTC"),
)


def stamp(reply):
    """PLAN, LOGIN and NAME of a reply's Class, or None."""
    it = [v for k, v in reply.pairs if k == radius.CLASS]
    return it[0].decode("latin-1").rsplit(";", 1)[0] if len(it) == 1 else None


def stamps(text):
    """The stamp of eapol_test's Access-Accept, or the word FAILURE."""
    if text.strip().splitlines()[-1] != "SUCCESS":
        assert "EAP-Success" not in text.rpartition("code=3 (Access-Reject)")[2]
        return "FAILURE"
    assert "MPPE keys OK: 1  mismatch: 0" in text, "keys"
    it = re.findall(
        r"Attribute 25 \(Class\).*\n\s+Value: ([0-9a-f]+)",
        text.rpartition("code=2 (Access-Accept)")[2],
    )
    assert len(it) == 1, it
    return bytes.fromhex(it[0]).decode("latin-1").rsplit(";", 1)[0]


def nothing_has(it, *texts):
    """No file of a lab has a text, but that of a device."""
    for root, _, names in os.walk(it.folder):
        for name in set(names) - {"eap.conf"}:
            with open(os.path.join(root, name), "rb") as file:
                text = file.read()
            assert not [it for it in texts if it in text], name


class OneLab(unittest.TestCase):
    settings = {}

    @classmethod
    def setUpClass(cls):
        cls.lab = lab.Lab(**cls.settings)
        cls.lab.start_book()
        cls.lab.start_front()
        print(f"{cls.__name__}: over {lab.OVER}", flush=True)
        it = cls.lab
        it.group("fast", Class="gold", Mikrotik_Rate_Limit="10M/10M")
        it.group("up", Class="up")
        it.group("down", Class="down")
        it.group("free", Class="free")
        it.user("al", "fast")
        it.sell("al", 105)
        it.sell("stranger", 105)

    @classmethod
    def tearDownClass(cls):
        cls.lab.end()


class Proved(OneLab):
    """The name that was proved pays, and no other."""

    def test_passwords(self):
        it = self.lab
        self.assertEqual(stamp(it.login()), "gold;;al")
        self.assertEqual(stamp(it.login(chap=True)), "gold;;al")
        self.assertEqual(it.radclient('User-Name = "al"', 'MS-CHAP-Password = "right"'), "accept")
        for chap in (False, True):
            self.assertEqual(it.login(password="wrong", chap=chap).code, 3)
        self.assertEqual(it.radclient('User-Name = "al"', 'MS-CHAP-Password = "wrong"'), "reject")
        self.assertEqual(it.login("nobody").code, 3)
        self.assertEqual(it.login("AL").code, 3)
        self.assertEqual(it.login(more=[(7, 1)]).code, 2)

    def test_tunnels(self):
        for method, phase2 in WAYS:
            with self.subTest(method=method, phase2=phase2):
                self.assertEqual(
                    stamps(self.lab.eap(method, "al", "somebody-else", "right", phase2)), "gold;;al"
                )
                self.assertEqual(
                    stamps(self.lab.eap(method, "al", "al", "wrong", phase2)), "FAILURE"
                )
                self.assertEqual(
                    stamps(self.lab.eap(method, "poor", "al", "right", phase2)), "FAILURE"
                )

    def test_the_name_in_the_accept_is_who_pays(self):
        text = self.lab.eap("PEAP", "al", "somebody-else", "right", "auth=MSCHAPV2").rpartition(
            "(Access-Accept)"
        )[2]
        self.assertEqual(re.findall(r"\(User-Name\).*\n\s+Value: '(.*)'", text), ["al"])
        self.assertIn(b"10M/10M".hex(), text)

    def test_certificates(self):
        it = self.lab
        shown = lambda cert, name="al": stamps(it.eap("TLS", name, password=None, cert=cert))
        it.user("stranger", Cleartext_Password="x")
        it.users.execute("DELETE FROM radusergroup WHERE username = 'stranger'")
        it.user("stranger", "up")
        self.assertEqual(shown("al", "somebody-else"), "gold;;al")
        self.assertEqual(shown("stranger"), "up;;stranger")
        # One without a name is nobody's, and one of another authority, too.
        self.assertEqual([shown(""), shown("foreign")], ["FAILURE"] * 2)
        it.user("stranger", Auth_Type="Reject")
        self.assertEqual(shown("stranger"), "FAILURE")
        it.users.execute("DELETE FROM radcheck WHERE username = 'stranger'")
        it.users.execute("DELETE FROM radusergroup WHERE username = 'stranger'")
        self.assertEqual(shown("stranger"), "FAILURE")

    def test_no_certificate_within_a_tunnel(self):
        for outer in ("al", "anon"):
            self.assertEqual(
                stamps(self.lab.eap("PEAP", "al", outer, None, "auth=TLS", None, "stranger")),
                "FAILURE",
            )
            self.assertEqual(
                stamps(self.lab.eap("TTLS", "al", outer, None, "autheap=TLS", None, "stranger")),
                "FAILURE",
            )

    def test_no_eap_without_a_tunnel(self):
        for method in ("MD5", "MSCHAPV2", "GTC", "PWD"):
            self.assertEqual(stamps(self.lab.eap(method, "al")), "FAILURE")

    def test_expanded_types(self):
        """A device that writes its types in the expanded form logs in as itself, or not at all."""
        it = self.lab
        port, between = it.logins, expanded.Between(it.logins)
        try:
            it.logins = between.port
            for method, phase2 in WAYS[:3]:
                self.assertIn(
                    stamps(it.eap(method, "al", "somebody-else", "right", phase2)),
                    ("gold;;al", "FAILURE"),
                )
                self.assertEqual(stamps(it.eap(method, "poor", "al", "right", phase2)), "FAILURE")
            self.assertIn(
                stamps(it.eap("TLS", "somebody-else", password=None, cert="al")),
                ("gold;;al", "FAILURE"),
            )
        finally:
            it.logins = port
        self.assertGreater(between.changed, 20)

    def test_a_resumed_tunnel_has_an_inner_login(self):
        text = self.lab.eap("PEAP", "al", "somebody-else", "right", "auth=MSCHAPV2", again=1)
        accepts = text.split("code=2 (Access-Accept)")[1:]
        self.assertEqual(len(accepts), 2)
        for it in accepts:
            self.assertIn(b"gold;;al;".hex(), it)

    def test_accept_without_proof(self):
        it = self.lab
        it.user("open", "free", Auth_Type="Accept")
        self.assertEqual(it.login("open", "x").code, 3)
        self.assertEqual(stamps(it.eap("TTLS", "open", "al", "x", "auth=PAP")), "FAILURE")

    def test_a_packet_names_no_attribute_of_ours(self):
        """Front-Payer and its kin in no form of a vendor's, an extended or an unknown attribute."""
        it = self.lab
        for more in (
            [(26, bytes([0, 0, 44, 80, 11, 5]) + b"xyz")],
            [(241, b"\x01al")],
            [(245, bytes([26, 0, 0, 0, 0, 11]))],
        ):
            self.assertEqual(stamp(it.login(more=more)), "gold;;al")

    def test_no_password_is_kept(self):
        """Debian's query of radpostauth keeps them in clear."""
        it = self.lab
        it.user("secret", "free", Cleartext_Password="never-kept-1")
        for chap in (False, True):
            self.assertEqual(it.login("secret", "never-kept-1", chap=chap).code, 2)
            self.assertEqual(it.login("secret", "never-kept-2", chap=chap).code, 3)
        nothing_has(it, b"never-kept-2")
        it.users.execute("DELETE FROM radcheck WHERE username = 'secret'")
        it.users.execute("VACUUM")
        nothing_has(it, b"never-kept-1")

    def test_two_names(self):
        self.assertEqual(stamp(self.lab.login(more=[(radius.USER, "stranger")])), "gold;;al")
        self.assertEqual(self.lab.login("poor", more=[(radius.USER, "al")]).code, 3)

    def test_a_class_of_the_access_server_counts_for_nothing(self):
        self.assertEqual(
            stamp(self.lab.login(more=[(radius.CLASS, b"free;;al;" + b"0" * 32)])), "gold;;al"
        )

    def test_two_names_are_one_account(self):
        self.lab.user("al@campus.example", "fast", Cleartext_Password="right", Front_Payer="al")
        self.assertEqual(stamp(self.lab.login("al@campus.example")), "gold;;al")
        self.assertEqual(
            stamps(self.lab.eap("PEAP", "al@campus.example", "x@y", "right", "auth=MSCHAPV2")),
            "gold;;al",
        )

    def test_an_access_server_where_nobody_pays(self):
        it = self.lab
        for name in ("al", "poor"):
            reply = it.login(name, source="127.0.0.5")
            self.assertEqual((reply.code, stamp(reply)), (2, None))
        self.assertEqual(it.login("al", "wrong", source="127.0.0.5").code, 3)

    def test_a_login_each(self):
        one, two = (stamp(self.lab.login(source="127.0.0.4")) for _ in range(2))
        self.assertRegex(one, "^gold;[0-9a-f]{16};al$")
        self.assertNotEqual(one, two)


class Names(OneLab):
    NAMES = {
        "Müller": "M%C3%BCller",
        "al ": "al%20",
        "0x616c": "0x616c",
        "room 12b": "room%2012b",
        "a-b.c_d": "a-b.c_d",
        "100% x": None,
        "a&login=zz": None,
        "it's": None,
        "a/../b?x#y": None,
        "x%{User-Name}": None,
        "a\\b": None,
        "..": None,
        ".": None,
        'q"q': None,
        "%61l": None,
        "al\n": None,
        "al;": None,
    }

    def test_names(self):
        for name, shown in self.NAMES.items():
            self.lab.user(name, "free", Cleartext_Password="right")
            reply = self.lab.login(name)
            with self.subTest(name=name):
                self.assertEqual(stamp(reply), shown and f"free;;{shown}")
                self.assertEqual(radius.first(reply, radius.USER), shown and name.encode())

    def test_octets(self):
        for name in (b"al\0", b"al\0x", b"\0al", b"", b"M\xfcller", b"\xff\xfe", b"al" * 126):
            self.assertIn(self.lab.login(name).code, (3, None), name)
        self.assertEqual(self.lab.login("al").code, 2)

    def test_stations(self):
        for station in (
            b"..",
            b".",
            b"../../..",
            b"a/b?c",
            b"\0",
            b"x%{User-Name}",
            b"\xff" * 253,
            b"' OR 1",
        ):
            self.assertEqual(
                stamp(self.lab.login(more=[(radius.STATION, station)])), "gold;;al", station
            )


class Plans(OneLab):
    """Plan, name and quota come from the desk."""

    def quota(self, source, name="al"):
        vendors = (radius.MIKROTIK, radius.CHILLISPOT, radius.PFSENSE)
        pairs = self.lab.login(name, source=source).pairs
        return {
            k: int.from_bytes(v, "big")
            for k, v in pairs
            if isinstance(k, tuple) and k[0] in vendors and k[1] != 8
        }

    def test_quotas(self):
        it, most = self.lab, (1 << 32) - 1
        for name, sum_ in (
            ("up", 3 * 5000),
            ("down", 4 * 10),
            ("free", 0),
            ("rich", 10 * 5000),
            ("giant", 10**12),
        ):
            it.user(
                name, {"rich": "fast", "giant": "fast"}.get(name, name), Cleartext_Password="right"
            )
            if sum_:
                it.sell(name, sum_)
        mikrotik, chilli, pfsense = radius.MIKROTIK, radius.CHILLISPOT, radius.PFSENSE
        octets = 5000 * MEBIBYTE
        both = {(mikrotik, 17): octets & most, (mikrotik, 18): octets >> 32}
        giant = 10**11 * MEBIBYTE
        rows = (
            ("al", "127.0.0.1", {(mikrotik, 17): 10 * MEBIBYTE, (mikrotik, 18): 0}),
            ("rich", "127.0.0.1", both),
            ("giant", "127.0.0.1", {(mikrotik, 17): giant & most, (mikrotik, 18): giant >> 32}),
            ("up", "127.0.0.1", {(mikrotik, 1): octets & most, (mikrotik, 14): octets >> 32}),
            ("down", "127.0.0.1", {(mikrotik, 2): 10 * MEBIBYTE, (mikrotik, 15): 0}),
            ("al", "127.0.0.2", {(chilli, 3): 10 * MEBIBYTE}),
            ("rich", "127.0.0.2", {(chilli, 3): most}),
            ("up", "127.0.0.2", {(chilli, 1): most}),
            ("down", "127.0.0.2", {(chilli, 2): 10 * MEBIBYTE}),
            ("al", "127.0.0.3", {(pfsense, 3): 10 * MEBIBYTE}),
            ("down", "127.0.0.3", {(pfsense, 3): 10 * MEBIBYTE}),
            ("rich", "127.0.0.3", {(pfsense, 3): most}),
            ("free", "127.0.0.1", {}),
            ("free", "127.0.0.2", {}),
            ("free", "127.0.0.3", {}),
            ("al", "127.0.0.4", {}),
        )
        for name, source, expected in rows:
            with self.subTest(name=name, source=source):
                self.assertEqual(self.quota(source, name), expected)

    def test_odd_plans(self):
        it = self.lab
        for name, shown in (("gäste", "default"), ("x;;y", "default"), ("a b/..", "default")):
            it.group("odd " + name, Class=name)
            it.user(f"odd{len(name)}", "odd " + name, Cleartext_Password="right")
            it.sell(f"odd{len(name)}", 5000)
            self.assertEqual(stamp(it.login(f"odd{len(name)}")), f"{shown};;odd{len(name)}", name)
            it.users.execute("DELETE FROM radcheck WHERE username LIKE 'odd%'")
            it.users.execute("DELETE FROM radusergroup WHERE username LIKE 'odd%'")

    def test_many_devices(self):
        it = self.lab
        it.group("two", [("Front-Devices", "2")], Class="free")
        it.user("fam", "two", Cleartext_Password="right")
        a, b, c = ([(radius.STATION, f"02-00-00-00-00-0{i}")] for i in range(3))
        for n, station in enumerate((a, b)):
            given = radius.first(it.login("fam", more=station), radius.CLASS)
            self.assertTrue(
                it.report(
                    [
                        (radius.STATUS, 1),
                        (radius.ID, f"d{n}"),
                        (radius.USER, "fam"),
                        (radius.CLASS, given),
                        *station,
                        (radius.NAS_NAME, "ap"),
                    ]
                )
            )
        self.assertEqual(it.login("fam", more=a).code, 2)
        refused = it.login("fam", more=c)
        self.assertEqual(
            (refused.code, radius.first(refused, 18)), (3, b"Too many devices use this login now.")
        )
        self.assertTrue(
            it.report(
                [
                    (radius.STATUS, 2),
                    (radius.ID, "d0"),
                    (radius.USER, "fam"),
                    (radius.CLASS, given),
                    *a,
                    (radius.NAS_NAME, "ap"),
                ]
            )
        )
        self.assertEqual(it.login("fam", more=c).code, 2)

    def test_whose_rows_count(self):
        """The name's own before its groups', and of these the first."""
        it = self.lab
        it.group("one", [("Front-Slow", "free")], Class="up", Mikrotik_Rate_Limit="1M")
        it.group(
            "two", [("Front-Devices", "9")], Class="down", Mikrotik_Rate_Limit="2M", Filter_Id="two"
        )
        it.user("both", Cleartext_Password="right")
        it.users.execute("INSERT INTO radusergroup VALUES ('both', 'two', 2), ('both', 'one', 1)")
        it.sell("both", 1000)
        self.assertEqual(stamp(it.login("both")), "up;;both")
        rates = [it for kind, it in it.login("both").pairs if kind == (radius.MIKROTIK, 8)]
        self.assertEqual(rates, [b"1M"])
        self.assertEqual(radius.first(it.login("both"), 11), b"two")
        it.row(it.users, "radreply", "both", "Class", "gold")
        self.assertEqual(stamp(it.login("both")), "gold;;both")

    def test_no_row_tells_a_secret(self):
        """FreeRADIUS expands a value in backquotes. Who writes rows may not read its files."""
        it, value = self.lab, "`%{config:front.key}`"
        it.group("odd", [("Front-Slow", "odder")], Filter_Id=value)
        it.group("odder", Class="free", Filter_Id=value)
        it.user("odd", "odd", Cleartext_Password="right")
        self.assertEqual(radius.first(it.login("odd"), 11), value[1:].encode())
        it.row(it.users, "radreply", "odd", "Reply-Message", value)
        it.sell("odd", 1000)
        self.assertEqual(radius.first(it.login("odd"), 18), value[1:].encode())

    def test_a_fixed_address(self):
        """An address of a reply is one, though that of a report is octets."""
        it = self.lab
        it.user("fixed", "free", Cleartext_Password="right")
        it.row(it.users, "radreply", "fixed", "Framed-IP-Address", "10.5.0.7")
        for more in ([], [(8, bytes(4))], [(8, bytes(16))]):
            self.assertEqual(radius.first(it.login("fixed", more=more), 8), b"\x0a\5\0\7")
        text = it.eap("PEAP", "fixed", "x", "right", "auth=MSCHAPV2")
        self.assertIn("Value: 10.5.0.7", text.rpartition("(Access-Accept)")[2])

    def test_slow_in_place_of_the_end(self):
        it = self.lab
        it.group("dsl", [("Front-Slow", "crawl")], Class="gold", Mikrotik_Rate_Limit="50M/50M")
        it.group("crawl", Class="free", Mikrotik_Rate_Limit="1M/1M")
        it.user("ppp", "dsl", Cleartext_Password="right")
        rate = lambda reply: radius.first(reply, (radius.MIKROTIK, 8))
        slow = it.login("ppp", more=[(7, 1)])
        self.assertEqual((stamp(slow), rate(slow)), ("free;;ppp", b"1M/1M"))
        # Nobody is priced by it: so it logs in anew each hour, and after a sale it is priced.
        self.assertEqual(radius.first(slow, 27), (3600).to_bytes(4, "big"))
        it.sell("ppp", 100)
        fast = it.login("ppp", more=[(7, 1)])
        self.assertEqual((stamp(fast), rate(fast)), ("gold;;ppp", b"50M/50M"))
        self.assertIsNone(radius.first(fast, 27))

    def test_slow_ends_with_the_login(self):
        it = self.lab
        it.group("vdsl", [("Front-Slow", "snail")], Class="gold")
        it.group("snail", Class="free", Session_Timeout="1800")
        end = time.strftime("%b %d %Y %H:%M:%S", time.localtime(time.time() + 600))
        it.user("ends", "vdsl", Cleartext_Password="right", Expiration=end)
        left = [int.from_bytes(it, "big") for kind, it in it.login("ends").pairs if kind == 27]
        self.assertEqual([590 < it < 601 for it in left], [True])


class Codes(OneLab):
    CODE = "ABCDE-FGHJK-MNPQR"

    def test_a_code_is_name_and_password(self):
        it = self.lab
        it.code(self.CODE, "t-1122aabb", "fast")
        it.sell("t-1122aabb", 50)
        for typed in (self.CODE, self.CODE.lower(), "ABCDEFGHJKMNPQR", "abcde fghjk mnpqr"):
            for chap in (False, True):
                self.assertEqual(
                    stamp(it.login(typed, typed, chap=chap)), "gold;;t-1122aabb", typed
                )
            self.assertEqual(
                it.radclient(f'User-Name = "{typed}"', f'MS-CHAP-Password = "{typed}"'), "accept"
            )
        self.assertEqual(
            stamps(it.eap("PEAP", self.CODE, "x", self.CODE, "auth=MSCHAPV2")), "gold;;t-1122aabb"
        )
        self.assertEqual(
            radius.first(it.login(self.CODE, self.CODE), (radius.MIKROTIK, 8)), b"10M/10M"
        )
        for name, password in (
            (self.CODE, "x"),
            (self.CODE, ""),
            ("ABCDE-FGHJK-MNPQZ", "ABCDE-FGHJK-MNPQZ"),
            ("al", self.CODE),
        ):
            self.assertEqual(it.login(name, password).code, 3)
        digest = hashlib.sha256(b"key-of-codesABCDEFGHJKMNPQR").hexdigest()
        self.assertEqual(it.login(digest, digest).code, 3)
        self.assertEqual(it.login(digest, "").code, 3)
        nothing_has(it, b"ABCDE", b"abcde")

    def test_a_code_without_a_plan(self):
        it = self.lab
        it.code("AAAAA-AAAAA-AAAAA", "t-none", None)
        it.sell("t-none", 5000)
        self.assertEqual(it.login("AAAAA-AAAAA-AAAAA", "AAAAA-AAAAA-AAAAA").code, 3)

    def test_a_name_like_a_code(self):
        self.lab.user("ABCDEFGHJKMNPQX", "fast", Cleartext_Password="right")
        self.lab.sell("ABCDEFGHJKMNPQX", 100)
        self.assertEqual(stamp(self.lab.login("ABCDEFGHJKMNPQX")), "gold;;ABCDEFGHJKMNPQX")

    def test_until_a_day(self):
        it = self.lab
        it.user("old", "free", Cleartext_Password="right", Expiration="Jan 01 2020 00:00:00")
        it.user(
            "new",
            "free",
            Cleartext_Password="right",
            Expiration=time.strftime("%b %d %Y %H:%M:%S", time.localtime(time.time() + 1000)),
        )
        self.assertEqual(it.login("old").code, 3)
        left = int.from_bytes(radius.first(it.login("new"), 27), "big")
        self.assertTrue(980 <= left <= 1000, left)
        it.code("BBBBB-BBBBB-BBBBB", "t-old", "free")
        it.user(
            hashlib.sha256(b"key-of-codes" + b"B" * 15).hexdigest(),
            Expiration="Jan 01 2020 00:00:00",
        )
        self.assertEqual(it.login("BBBBB-BBBBB-BBBBB", "BBBBB-BBBBB-BBBBB").code, 3)

    def test_from_the_first_login(self):
        it = self.lab
        it.group("day", [("Front-Valid", "3")], Class="gold")
        it.user("first", "day", Cleartext_Password="right")
        first = sqlite3.connect(os.path.join(it.kept, "first.db"), isolation_level=None)
        self.assertEqual(it.login("first").code, 3)
        self.assertEqual(it.login("first", "wrong").code, 3)
        self.assertEqual(first.execute("SELECT * FROM first").fetchall(), [])
        it.sell("first", 100)
        self.assertEqual(int.from_bytes(radius.first(it.login("first"), 27), "big"), 3)
        time.sleep(1.1)
        self.assertIn(int.from_bytes(radius.first(it.login("first"), 27), "big"), (1, 2))
        time.sleep(3)
        self.assertEqual(it.login("first").code, 3)
        first.execute("DROP TABLE first")
        it.group("days", [("Front-Valid", "300")], Class="free")
        it.user("other", "days", Cleartext_Password="right")
        self.assertEqual(it.login("other").code, 3)

    def test_tries(self):
        """A thousand wrong passwords shut out their station alone."""
        it, bad, good = self.lab, [(radius.STATION, "02-66")], [(radius.STATION, "02-77")]
        seen = [it.login(password="wrong", more=bad) for _ in range(60)]
        self.assertEqual({reply.code for reply in seen}, {3})
        self.assertEqual(radius.first(seen[-1], 18), b"Please try again in some minutes.")
        self.assertEqual(it.login(more=bad).code, 3)
        self.assertEqual(it.login(more=good).code, 2)
        self.assertEqual(it.login().code, 2)
        for _ in range(30):
            self.assertEqual(it.login(more=good).code, 2)


class Store(OneLab):
    """A store that cannot be asked lets nobody in."""

    def test_a_renamed_table(self):
        it = self.lab
        for table in ("radcheck", "radreply", "radusergroup", "radgroupcheck", "radgroupreply"):
            it.users.execute(f"ALTER TABLE {table} RENAME TO gone")
            with self.subTest(table=table):
                self.assertEqual(it.login().code, 3)
                self.assertEqual(
                    stamps(it.eap("PEAP", "al", "x", "right", "auth=MSCHAPV2")), "FAILURE"
                )
                self.assertEqual(stamps(it.eap("TLS", "x", password=None, cert="al")), "FAILURE")
            it.users.execute(f"ALTER TABLE gone RENAME TO {table}")
            self.assertEqual(it.login().code, 2)

    def test_a_lock(self):
        other = sqlite3.connect(self.lab.path("users.db"), isolation_level=None)
        other.execute("BEGIN EXCLUSIVE")
        start = time.time()
        self.assertEqual(self.lab.login().code, 3)
        self.assertLess(time.time() - start, 3)
        other.execute("ROLLBACK")
        self.assertEqual(self.lab.login().code, 2)

    def test_a_damaged_file(self):
        path = self.lab.path("users.db")
        with open(path, "r+b") as file:
            was = file.read()
            file.seek(0)
            file.write(b"x" * len(was))
        self.assertEqual(self.lab.login().code, 3)
        with open(path, "r+b") as file:
            file.write(was)


class Down(OneLab):
    """Without an answer of the desk nobody is let in."""

    def test_down(self):
        it = self.lab
        it.stop_book()
        self.assertEqual(it.login().code, 3)
        self.assertEqual(stamps(it.eap("PEAP", "al", "x", "right", "auth=MSCHAPV2")), "FAILURE")
        self.assertEqual(stamps(it.eap("TLS", "x", password=None, cert="al")), "FAILURE")
        it.start_book()
        time.sleep(1.5)
        self.assertEqual(it.login().code, 2)


class OddDesk(http.server.BaseHTTPRequestHandler):
    """Another server where the desk was: it gives each request the same status and body."""

    says = 200, ""

    def do_GET(self):
        status, body = self.says
        self.send_response(status)
        self.send_header("Content-Type", "application/json")
        self.send_header("Content-Length", str(len(body)))
        self.send_header("Location", self.path)
        self.end_headers()
        self.wfile.write(body.encode())

    def log_message(self, *_):
        pass


RIGHT = '{"counted":"total","octets":5,"open":0,"stamp":"free;;al;x","stations":0}'


class Odd(unittest.TestCase):
    """A 200 that is understood is a yes, 402 and 422 are a no, all else is silence."""

    ROWS = (
        (200, RIGHT, "free;;al"), (402, RIGHT, "no"), (422, RIGHT, "no"),
        *((status, RIGHT, None) for status in (201, 204, 302, 400, 401, 404, 429, 500, 503)),
        *((200, body, None) for body in (
            "", "yes", "<html>", RIGHT + " ", RIGHT[:-1], RIGHT.replace(":0", ": 0"),
            RIGHT.replace("total", "all"), RIGHT.replace(":5", ":-5"), "x" + RIGHT, RIGHT * 2)),
    )

    def test_odd_answers(self):
        it = lab.Lab(down_seconds=60)
        server = http.server.ThreadingHTTPServer(("127.0.0.1", 0), OddDesk)
        it.ask = server.server_address[1]
        threading.Thread(target=server.serve_forever, daemon=True).start()
        try:
            it.start_front()
            print(f"{type(self).__name__}: over a desk of the test", flush=True)
            for status, body, wanted in self.ROWS:
                OddDesk.says = status, body
                with self.subTest(status=status, body=body):
                    reply = it.login()
                    self.assertEqual((reply.code, stamp(reply)),
                                     (3, None) if wanted == "no" else (2, wanted))
                    # Whom silence lets in has a minute.
                    self.assertEqual(radius.first(reply, 27) is None, wanted is not None)
        finally:
            it.end()
            server.shutdown()


class Disk(unittest.TestCase):
    """The disk of FreeRADIUS is full, or slow."""

    def setUp(self):
        self.lab = it = lab.Lab()
        size = "size=64k,mode=0700,uid=freerad,gid=freerad"
        subprocess.run(["mount", "-t", "tmpfs", "-o", size, "none", it.kept], check=True)
        for name in ("waits", "aside", "again", "lost"):
            os.makedirs(os.path.join(it.kept, name))
            shutil.chown(os.path.join(it.kept, name), "freerad", "freerad")
        it.start_book()
        it.start_front()
        print(f"{self.id().partition('.')[2]}: over {lab.OVER}", flush=True)
        it.group("day", [("Front-Valid", "300")], Class="free")
        it.group("free", Class="free")
        it.user("first", "day", Cleartext_Password="right")
        it.user("al", "free")

    def tearDown(self):
        self.lab.stop_front()
        subprocess.run(["umount", "-l", self.lab.kept], check=True)
        self.lab.end()

    def test_a_first_login_on_a_full_disk(self):
        it, path = self.lab, os.path.join(self.lab.kept, "filler")
        with open(path, "wb", 0) as file, contextlib.suppress(OSError):
            while True:
                file.write(bytes(512))
        self.assertEqual((it.login("first").code, it.login().code), (3, 2))
        os.remove(path)
        reply = lab.waited(lambda: (said := it.login("first")).code == 2 and said, 10)
        self.assertIn(int.from_bytes(radius.first(reply, 27), "big"), range(290, 301))

    def test_nobody_waits_for_a_slow_disk(self):
        """But for a first login: 32 threads could otherwise wait, and no other is answered."""
        it = self.lab
        it.slow_down(1000, it.front)
        for n in range(50):
            self.assertEqual(it.login(wait=0.9).code, 2)
            pairs = [(radius.STATUS, 2), (radius.ID, f"s{n}"), (radius.USER, "al")]
            self.assertTrue(it.report([*pairs, (radius.NAS_NAME, "ap")], wait=0.9))
        begun = time.time()
        self.assertEqual(it.login("first", wait=20).code, 2)
        self.assertGreater(time.time() - begun, 1)


class Open(OneLab):
    """With down_seconds who was proved is let in for so long, without a stamp."""

    settings = {"down_seconds": 300}

    def test_open(self):
        it = self.lab
        self.assertEqual(it.login("poor").code, 3)
        it.group("day", [("Front-Valid", "1")], Class="free")
        it.user("over", "day", Cleartext_Password="right")
        self.assertEqual(it.login("over").code, 2)
        it.stop_book()
        time.sleep(1.5)
        self.assertEqual(it.login("over").code, 3)
        for name in ("al", "poor"):
            reply = it.login(name)
            self.assertEqual((reply.code, stamp(reply)), (2, None))
            self.assertEqual(int.from_bytes(radius.first(reply, 27), "big"), 300)
            self.assertEqual(radius.first(reply, radius.USER), name.encode())
        self.assertEqual(it.login("al", "wrong").code, 3)
        text = it.eap("PEAP", "al", "x", "right", "auth=MSCHAPV2")
        self.assertTrue(text.strip().endswith("SUCCESS"))
        self.assertNotIn("(Class)", text.rpartition("(Access-Accept)")[2])
        self.assertIn("'al'", text.rpartition("(Access-Accept)")[2])
        it.start_book()
        time.sleep(1.5)
        self.assertEqual(stamp(it.login()), "gold;;al")
        self.assertEqual(it.login("poor").code, 3)


class Observed(OneLab):
    """With observe everybody who was proved is let in, and stamped if there is money."""

    settings = {"observe": "yes"}

    def test_observed(self):
        it = self.lab
        self.assertEqual(stamp(it.login()), "gold;;al")
        self.assertEqual(
            [k for k, _ in it.login().pairs if isinstance(k, tuple)], [(radius.MIKROTIK, 8)]
        )
        self.assertEqual((it.login("poor").code, stamp(it.login("poor"))), (2, None))
        self.assertEqual(it.login("poor", "wrong").code, 3)
        self.assertEqual(it.login("nobody").code, 3)
        it.stop_book()
        self.assertEqual(it.login("poor").code, 2)


class Locale(OneLab):
    """A plan with other letters than ASCII's is one plan in each locale (seen: 11 of 18 sessions by default)."""

    def test_locales(self):
        it = self.lab
        with open(it.path("site.toml"), "a", encoding="utf-8") as file:
            file.write('[[plan]]\nclass = "gäste"\nblock = 1048576\nunit = 7\n')
        it.stop_book()
        it.add_plans()
        it.start_book()
        it.group("g", Class="gäste")
        it.user("guest", "g", Cleartext_Password="right")
        it.sell("guest", 70)
        for name in ("C", "C.UTF-8", "de_DE.UTF-8"):
            it.stop_front()
            os.environ["LC_ALL"] = name
            try:
                it.start_front()
            finally:
                del os.environ["LC_ALL"]
            self.assertEqual(stamp(it.login("guest")), "g%C3%A4ste;;guest", name)


if __name__ == "__main__":
    unittest.main(verbosity=1)
