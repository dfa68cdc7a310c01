"""What the set-up writes for FreeRADIUS, what stays as it was, and what its check sees."""

import os
import socket
import tempfile
import time
import unittest
from unittest import mock

from radacctd_site.core import Failed, book, files, looks as of_core, machine
from radacctd_site.core.test_client import answers as wanted
from radacctd_site.front import clients, cut, looks, setup, users

LOBBY = {"name": "lobby", "address": "10.0.0.1", "vendor": "mikrotik"}


class Clients(unittest.TestCase):
    def test_each_has_its_own_secret_which_stays(self):
        text = clients.written(None, wanted(LOBBY))
        self.assertEqual(clients.written(text, wanted(LOBBY)), text)
        found = dict(clients.BLOCK.findall(text))
        self.assertEqual(set(found), {"lobby", clients.TEST_NAME})
        self.assertEqual(len({clients.value(it, "secret") for it in found.values()}), 2)
        self.assertRegex(clients.value(found["lobby"], "secret"), "^[0-9a-f]{32}$")
        self.assertEqual([clients.value(found["lobby"], it) for it in ("quota", "login", "pays")],
                         ["mikrotik", "yes", "yes"])

    def test_what_a_site_wrote_stays(self):
        text = clients.written(None, wanted(LOBBY))
        mine = text.replace("pays = yes", "pays = no") + "\n# mine\n"
        mine = mine.replace("client lobby {", '\tclient "lobby" { # by hand')
        roof = {"name": "roof", "address": "10.0.1.0/24", "vendor": "other"}
        more = clients.written(mine, wanted(LOBBY, roof, secrets={"client-roof": "a, b #c"}))
        self.assertTrue(more.startswith(mine))
        self.assertIn("\tipaddr = 10.0.1.0/24\n\tsecret = 'a, b #c'\n", more)

    def test_another_address_of_a_client_is_told(self):
        text = clients.written(None, wanted(LOBBY))
        for why, other in (("10.0.0.1, not 10.0.0.2", {"address": "10.0.0.2"}),
                           ("of attic as lobby", {"name": "attic"})):
            self.assertRaisesRegex(Failed, why, clients.written, text,
                                   wanted({**LOBBY, **other}))

    def test_an_ipv6_address_needs_a_listener(self):
        one = wanted({**LOBBY, "address": "fd00::1"})
        self.assertRaisesRegex(Failed, "site.conf", clients.written, None, one)

    def test_a_secret_that_cannot_be_found_is_not_written_as_none(self):
        with mock.patch.object(files, "text", lambda _: ""):
            self.assertRaises(Failed, clients.secret_of, "lobby")

    def test_values(self):
        for text, found in (('x = "a b"', "a b"), ("y = 1, x = a, z", "a"), ('x = ""', ""),
                            ("code_x = b", ""), ("# x = b", ""), ("x = 'a \"b'", 'a "b')):
            self.assertEqual(clients.value(text, "x"), found, text)


class CutOff(unittest.TestCase):
    def test_who_can_be_asked(self):
        """By its name or its address, and each member of a network; else the check names it."""
        text = clients.written(None, wanted(
            {"name": "attic", "address": "10.0.2.0/24", "vendor": "other", "members": ["10.0.2.1",
             "10.0.2.2"]}, {"name": "hall", "address": "10.0.0.3", "vendor": "cisco"}))
        by_hand = 'client six { ipv6addr = fd00::1, cut = 3799, nas = "roof 1" }\n'
        found = cut.servers(by_hand + text)
        self.assertEqual({name: [it["address"] for it in all_] for name, all_ in found.items()}, {
            b"attic": ["10.0.2.1:3799", "10.0.2.2:3799"], b"\n\0\2\1": ["10.0.2.1:3799"],
            b"\n\0\2\2": ["10.0.2.2:3799"], b"hall": ["10.0.0.3:1700"],
            b"\n\0\0\3": ["10.0.0.3:1700"], b"roof 1": ["[fd00::1]:3799"],
            b"\xfd" + bytes(14) + b"\1": ["[fd00::1]:3799"]})
        self.assertRegex(found[b"attic"][0]["secret"], "^[0-9a-f]{32}$")
        self.assertEqual(cut.servers(text), cut.servers(text.replace("10.0.2.1 10", "10.0.2.1, 10")))
        for old, new, count in (("", "", 0), ("members", "#", 1), ("cut = 1700", "cut = no", 0),
                                (", cut = 1700", "", 1), ("cut = 1700", "cut = yes", 1),
                                ("10.0.2.1 10.0.2.2", "10.0.2.1, 10.0.2.2", 0),
                                ("10.0.2.1 10.0.2.2", "ap1.lan ap2.lan", 1),
                                ("10.0.2.1 10.0.2.2", "10.0.2.1 10.0.2.300", 1),
                                ('"10.0.2.1 10.0.2.2"', "10.0.2.1, 10.0.2.2", 1),
                                ('"10.0.2.1 10.0.2.2"', "10.0.2.1\n\tmembers = 10.0.2.2", 1)):
            with mock.patch.object(files, "text", lambda _, it=text.replace(old, new): it):
                self.assertEqual(len([*looks.access_servers()]), count, new)


class Settings(unittest.TestCase):
    def config(self):
        return mock.Mock(keys={"logins": "l" * 32}, clients={"front": {"secret": "b" * 32}})

    def written(self, old):
        text = files.text
        with mock.patch.object(setup.corrections, "where", lambda: ("127.0.0.1", 11813)), \
                mock.patch.object(files, "text", lambda path: (
                    "c" * 32 + "\n" if path == setup.CODES else text(path))):
            return setup.settings(old, self.config())

    def test_radacctds_values_are_written_and_the_sites_stay(self):
        text = self.written(None)
        self.assertIn("book_port = 11813", text)
        self.assertNotIn("change-me", text)
        self.assertEqual([clients.value(text, it) for it in ("key", "book_secret", "code_key")],
                         ["l" * 32, "b" * 32, "c" * 32])
        mine = text.replace("observe = no", "observe = yes").replace("l" * 32, "older-key")
        self.assertEqual(self.written(mine), text.replace("observe = no", "observe = yes"))

    def test_a_key_of_codes_that_freeradius_has_stays(self):
        for had, is_kept in (("\tcode_key = of-old-codes-0001\n", True), ("", False),
                             ("\tcode_key = change-me-key\n", False)):
            with mock.patch.object(files, "text", lambda _, it=had: it):
                found = setup.code_key(wanted())
            self.assertEqual(found == "of-old-codes-0001\n", is_kept)
            self.assertRegex(found, "^[A-Za-z0-9-]{16,64}\n$")


class Users(unittest.TestCase):
    def test_a_password_cannot_leave_its_line(self):
        with tempfile.NamedTemporaryFile() as file:
            for text, is_right in (('a"b', False), ("a\\b", False), ("a$b", False), ("a\nb", False),
                                   ("%{x}", False), ("", False), ("é", False), ("a:b'c d", True)):
                with open(file.name, "w", encoding="utf-8") as it:
                    it.write(text + "\n")
                if is_right:
                    self.assertEqual(users.password(file.name), text)
                else:
                    self.assertRaises(Failed, users.password, file.name)


class InUse(unittest.TestCase):
    def test_a_freeradius_of_the_sites_own_is_not_stopped(self):
        changed = "??5?????? c /etc/freeradius/3.0/clients.conf\n"
        for said, is_on, is_refused in ((changed, True, True), (changed, False, False),
                                        ("", True, False)):
            with mock.patch.object(machine, "run", lambda *_, it=said: (2, it)), \
                    mock.patch.object(setup, "is_debians_on", lambda it=is_on: it), \
                    mock.patch.object(os.path, "exists", lambda _: True):
                if is_refused:
                    self.assertRaisesRegex(Failed, "clients.conf", setup.refuse_if_in_use)
                else:
                    setup.refuse_if_in_use()


class Looks(unittest.TestCase):
    """What the check says of FreeRADIUS."""

    LINES = (
        "Info: Dropping packet without response because of error: Received Accounting-Request "
        "packet from client 10.0.0.7 with invalid Request Authenticator!  (Shared secret is "
        "incorrect.) (from client lobby)",
        "Error: Ignoring request to acct address * port 1813 bound to server reports from unknown "
        "client 10.0.0.9 port 32897 proto udp",
    )

    def ignored(self, *lines):
        begin = time.strftime("%a %b %d %H:%M:%S %Y")
        said = "".join(f"{begin} : {it}\n" for it in lines)
        said += "lobby, no: x unknown client 10.0.0.11 port 1 proto udp\n"
        with mock.patch.object(machine, "journal", lambda _: said):
            return [(it.name, it.text) for it in looks.ignored()]

    def test_devices_that_are_not_answered(self):
        secret, unknown = self.ignored(*self.LINES)
        self.assertEqual((secret[0], unknown[0]), ("device-secret", "device-unknown"))
        self.assertIn("10.0.0.7,", secret[1])
        self.assertIn("10.0.0.9:", unknown[1])
        storm = [self.LINES[1].replace("0.9", f"0.{it}") for it in range(1, 6)]
        [(_, text)] = self.ignored(*storm, *storm)
        self.assertIn("10.0.0.1, 10.0.0.2, 10.0.0.3 and 2 more:", text)

    def test_reports_that_wait_and_that_were_set_aside(self):
        now = time.time()
        for waits, aside, names in ((None, None, []), (now - 60, None, []),
                                    (now - 600, None, ["reports-wait"]),
                                    (None, now, ["reports-aside"] * 2)):
            oldest = lambda path, one=waits, two=aside: one if path.endswith("/waits") else two
            with mock.patch.object(of_core, "oldest_kept", oldest):
                self.assertEqual([it.name for it in looks.kept()], names)

    def test_the_oldest_of_a_folder(self):
        for said, found in (("\tTimestamp = 5\n\tTimestamp = 3\n", 3), ("", None),
                            ("find: no such folder\n", None)):
            with mock.patch.object(machine, "run", lambda *_, it=said: (1, it)):
                self.assertEqual(of_core.oldest_kept("/x"), found)

    def test_a_database_of_users_that_is_away_is_told(self):
        with socket.create_server(("127.0.0.1", 0)) as server:
            place = {"server": "127.0.0.1", "port": server.getsockname()[1]}
            self.assertEqual(list(looks.users_away(place)), [])
        self.assertEqual([it.name for it in looks.users_away(place)], ["users-away"])

    def test_what_lets_anybody_in_is_told(self):
        for address, count in (("0.0.0.0/0", 1), ("*", 1), ("::/0", 1), ("10.0.0.0/8", 0),
                               ("128.0.0.0/1", 1), ("0.0.0.0", 1),
                               ("10.0.0.0/8\n\tobserve = yes", 1)):
            text = f"client x {{\n\tipv4addr = {address}\n}}\n"
            with mock.patch.object(files, "text", lambda _, it=text: it), \
                    mock.patch.object(machine, "journal", lambda _: ""):
                self.assertEqual(len([it for it in looks.access_servers()
                                      if it.name == "front-wrong"]), count, address)

    def test_who_answers_no_request_to_cut_off_is_told(self):
        said = "10.0.0.7:3799 answers no Disconnect-Request\n" * 2 + "not done: x\n"
        with mock.patch.object(files, "text", lambda _: ""), \
                mock.patch.object(machine, "journal", lambda _: said):
            [fault] = looks.access_servers()
        self.assertEqual((fault.name, fault.text[:14]), ("device-deaf", "10.0.0.7:3799 "))

    def test_a_plan_of_a_group_that_there_is_not_is_told(self):
        for known, count in (({"gold": 1, "m%C3%BC": 1}, 0), ({"gold": 1}, 1), ({}, 0)):
            with mock.patch.object(book, "in_force", lambda it=known: it), \
                    mock.patch.object(of_core, "store", lambda _: ()), \
                    mock.patch.object(users, "sql", lambda it: "gold\nmü\n" * ("'Class'" in it)):
                self.assertEqual(len(list(looks.users_here())), count, known)


if __name__ == "__main__":
    unittest.main()
