"""A FreeRADIUS that a site has already: Debian's folder with the links and lines of README. Over the
program or its stand-in. Needs root."""
import hashlib
import os
import shutil
import socket
import threading
import unittest

import test_lab as lab
import test_radius as radius
from test_logins import stamp, stamps
from test_radius import CLASS, ID, NAS_NAME, STATUS, STOP, USER

STOCK = "/etc/freeradius/3.0"


class Home(threading.Thread):
    """Another site's server: it lets everybody in, and says who pays."""

    def __init__(self, given):
        super().__init__(daemon=True)
        self.socket, self.given = socket.socket(socket.AF_INET, socket.SOCK_DGRAM), given
        self.socket.bind(("127.0.0.1", 0))
        self.port = self.socket.getsockname()[1]
        self.start()

    def run(self):
        while True:
            packet, where = self.socket.recvfrom(4096)
            states = [(k, v) for k, v in radius.unpacked(packet[20:]) if k == 33]
            body = radius.packed([(USER, "al"), (CLASS, self.given), *states])
            head = bytes([2, packet[1]]) + (20 + len(body)).to_bytes(2, "big")
            digest = hashlib.md5(head + packet[4:20] + body + radius.SECRET).digest()
            self.socket.sendto(head + digest + body, where)


class Campus(lab.Lab):
    def made_folder(self):
        super().made_folder()
        self.stock = self.path("stock")
        shutil.copytree(STOCK, self.stock, symlinks=True)
        for link, name in (
            ("mods-enabled", "front.conf"),
            ("policy.d", "policy"),
            ("sites-enabled", "passing"),
        ):
            os.symlink(
                os.path.join(self.raddb, name), os.path.join(self.stock, link, "radacctd-front")
            )
        with open(os.path.join(self.stock, "dictionary"), "a", encoding="ascii") as file:
            file.write(f"$INCLUDE {self.raddb}/attributes-own\n")
        with open(
            os.path.join(self.stock, "mods-config/files/authorize"), "w", encoding="ascii"
        ) as file:
            file.write(
                'al Cleartext-Password := "right"\n\tClass = "gold"\n\n'
                'poor Cleartext-Password := "right"\n\tClass = "gold"\n'
            )
        for name, pairs in self.lines().items():
            lab.edited(os.path.join(self.stock, name), pairs)
        shutil.copy(os.path.join(self.raddb, "clients.conf"), self.stock)

    def lines(self):
        listen = "listen {{\n\ttype = {0}\n\tipaddr = 127.0.0.1\n\tport = {1}\n}}\n"
        ports = "".join(
            listen.format(*it) for it in (("auth", self.logins), ("acct", self.reports))
        )
        with open(os.path.join(STOCK, "sites-enabled/default"), encoding="utf-8") as file:
            text = file.read()
        listens = text[text.index("\nlisten {") : text.index("\nauthorize {")]
        return {
            "radiusd.conf": [
                (f"raddbdir = {STOCK}", f"raddbdir = {self.stock}"),
                ("\nmodules {", f"\n$INCLUDE {self.raddb}/settings.conf\nmodules {{"),
                ("run_dir = ${localstatedir}/run/${name}", f"run_dir = {self.path('run')}"),
                ("logdir = /var/log/freeradius", f"logdir = {self.path('run')}"),
            ],
            "sites-enabled/default": [
                (listens, "\n" + ports),
                ("\npost-auth {", "\npost-auth {\n\tfront_login"),
                ("\npreacct {\n\tpreprocess", "\npreacct {\n\tpreprocess\n\tupdate control { &Proxy-To-Realm := radacctd }"),
                (
                    "\n\tattr_filter.accounting_response\n",
                    "\n\tattr_filter.accounting_response\n\tfail\n",
                ),
            ],
            "sites-enabled/inner-tunnel": [
                ("\npost-auth {", "\npost-auth {\n\tfront_login_inner"),
                ("       port = 18120", f"       port = {lab.free_port()}"),
            ],
            "proxy.conf": [("\nrealm LOCAL {", self.realm() + "\nrealm LOCAL {")],
        }

    def realm(self):
        self.given = bytearray(b"gold;;al;" + b"0" * 32)
        port = Home(self.given).port
        return (
            f"\nhome_server other {{\n\ttype = auth\n\tipaddr = 127.0.0.1\n\tport = {port}\n\tsecret = testing123\n}}\n"
            "home_server_pool other {\n\thome_server = other\n}\nrealm other.example {\n\tauth_pool = other\n\tnostrip\n}\n"
        )

    def written_settings(self):
        super().written_settings()
        for root, folders, names in os.walk(self.stock):
            for name in [*folders, *names]:
                if not os.path.islink(os.path.join(root, name)):
                    shutil.chown(os.path.join(root, name), "freerad", "freerad")
        shutil.chown(self.stock, "freerad", "freerad")

    def front_words(self):
        return [
            "setpriv",
            "--reuid",
            "freerad",
            "--regid",
            "freerad",
            "--init-groups",
            "freeradius",
        ], self.stock


class Test(unittest.TestCase):
    def test_campus(self):
        with Campus() as it:
            print(f"Test.test_campus: over {lab.OVER}", flush=True)
            it.sell("al", 105)
            self.assertEqual(stamp(it.login()), "gold;;al")
            self.assertEqual(stamp(it.login(chap=True)), "gold;;al")
            self.assertEqual(
                it.radclient('User-Name = "al"', 'MS-CHAP-Password = "right"'), "accept"
            )
            self.assertEqual(it.login("poor").code, 3)
            self.assertEqual(it.login(password="wrong").code, 3)
            it.certs = None
            for method, phase2 in (
                ("PEAP", "auth=MSCHAPV2"),
                ("TTLS", "auth=PAP"),
                ("TTLS", "autheap=GTC"),
            ):
                self.assertEqual(
                    stamps(it.eap(method, "al", "somebody-else", "right", phase2)), "gold;;al"
                )
                self.assertEqual(stamps(it.eap(method, "poor", "al", "right", phase2)), "FAILURE")
            self.assertEqual(stamps(it.eap("MD5", "al")), "FAILURE")
            given = radius.first(it.login(), CLASS)
            it.given[:] = given
            visitor = it.login("al@other.example", "x")
            self.assertEqual(
                (visitor.code, stamp(visitor), radius.first(visitor, USER)), (2, None, None)
            )
            report = [
                (STATUS, STOP),
                (ID, "s1"),
                (USER, "x"),
                (42, 1000),
                (CLASS, given),
                (NAS_NAME, "ap"),
            ]
            self.assertTrue(it.report(report))
            self.assertEqual(it.balances()["al"], 95)
            it.stop_book()
            self.assertEqual(it.login().code, 3)
            report[1] = (ID, "s2")
            self.assertFalse(it.report(report, wait=5))
            self.assertTrue(lab.waited(lambda: it.waiting() == 1))
            it.start_book()
            self.assertTrue(lab.waited(lambda: len(it.sessions()) == 2))


if __name__ == "__main__":
    unittest.main(verbosity=1)
