"""Names, sums and keys as people and files spell them, and what the desk's answers mean."""

import json
import os
import socket
import tempfile
import threading
import unittest

from radacctd_site.core import Failed, desk, money, names


class Names(unittest.TestCase):
    def test_spellings_come_back(self):
        for octets in (b"al", b"a,b", b"50%", b'"', b"\\", "Łódź".encode(), bytes(range(256))):
            self.assertEqual(names.octets_of(names.shown(octets)), octets)
            self.assertEqual(names.octets_of(names.for_desk(octets)), octets)

    def test_desk_takes_no_quotation_mark_as_itself(self):
        self.assertEqual(names.for_desk(b'a "b\\c%d'), "a %22b%5Cc%25d")
        self.assertEqual(names.shown(b'a "b\\c%d'), 'a "b\\c%25d')

    def test_cells_are_no_formula_and_come_back(self):
        for text in ("=1", "'=1", "+49", "a;=1", "a|-b", "al", "@x", "a%3Bb"):
            written = names.cell(text)
            self.assertNotIn(written[:1], "=+-@")
            self.assertEqual(names.text_of_cell(written), text)

    def test_which_names_are_sold_to(self):
        for name in ("", "\x01a", " a", "a ", "a\u200b", "%{x}", "1.23457E+11", "a" * 61, "я" * 31,
                     "-a", "@a", ".", "..", b"\xff", b"a\0", "ä\n", "a\u00a0b", "e\u0301",
                     *(f"a{it}b" for it in "+'#&?;%\"\\/,=<>|:")):
            self.assertIsNotNone(names.why_not(name), name)
        for name in ("al", "room 12", "müller", "a.b-c_d@e", "Łódź", "王", "_x", "1" * 60, "я" * 30):
            self.assertIsNone(names.why_not(name), name)


class Money(unittest.TestCase):
    def test_sums_have_bounds(self):
        for text in ("1", "007", "1000000000000"):
            self.assertEqual(money.sum_of(text), int(text))
        for text in ("", "0", "1000000000001", "+5", "-5", " 5", "5.0", "٥", "5\n"):
            self.assertIsNone(money.sum_of(text))

    def test_what_people_write(self):
        euro = money.Money(2, "EUR")
        rows = {"5": 500, "5.00": 500, "5.5": 550, "5,5": 550, "5,05": 505, "0.01": 1,
                "10000000000": 10**12}
        self.assertEqual({it: euro.units(it) for it in rows}, rows)
        for text in ("", "0", "0.00", "5.001", "5.", ".5", "-5", "1e3", "10000000000.01", "5.5.5"):
            self.assertIsNone(euro.units(text))
        self.assertIsNone(money.Money(0).units("5.0"))

    def test_what_people_read(self):
        euro = money.Money(2, "EUR")
        rows = {0: "0.00 EUR", 5: "0.05 EUR", -5: "-0.05 EUR", 123456: "1234.56 EUR"}
        self.assertEqual({it: euro.shown(it) for it in rows}, rows)
        self.assertEqual(money.Money().plain(1234567), "1234567")

    def test_settings_of_a_wrong_kind_are_refused(self):
        with tempfile.TemporaryDirectory() as folder:
            path = os.path.join(folder, "settings.json")
            for found in ([], {"decimals": 7}, {"decimals": True}, {"decimals": "2"}, {"name": 1}):
                with open(path, "w", encoding="utf-8") as file:
                    json.dump(found, file)
                self.assertRaises(Failed, money.settings_in, path)


class Desk(unittest.TestCase):
    def test_answers(self):
        rows = [
            (201, {"result": "new"}, desk.NEW), (200, {"result": "repeat"}, desk.REPEAT),
            (409, {"error": "voucher differs"}, desk.DIFFERS),
            (422, {"error": "balance limit"}, desk.LIMIT), (401, {"error": "no key"}, desk.NO_KEY),
            (403, None, desk.NO_KEY), (503, None, desk.AWAY), (429, {}, desk.AWAY),
            (200, {"result": "new"}, desk.STRANGE), (201, None, desk.STRANGE),
            (422, {"error": "bad topup"}, desk.STRANGE), (409, [], desk.STRANGE),
        ]  # fmt: skip
        for status, said, wanted in rows:
            self.assertEqual(desk.meaning(status, said), wanted, (status, said))

    def test_half_an_answer_is_none(self):
        """As of a desk that was killed: it may have taken the voucher, so it is sent again."""
        head = b"HTTP/1.1 201 Created\r\nContent-Length: 16\r\n\r\n"
        for said in (b"", head, head + b'{"result":"ne', head + b'{"result":"new"}'):
            with socket.create_server(("127.0.0.1", 0)) as server:
                asking = threading.Thread(target=self.answer, args=(server, said))
                asking.start()
                ask = lambda: desk.credit(server.getsockname(), "k", "al", 5, "V-1", patience=5)
                if said.endswith(b"}"):
                    self.assertEqual(ask()[0], desk.NEW)
                else:
                    self.assertRaises(OSError, ask)
                asking.join()

    @staticmethod
    def answer(server, said):
        caller, _ = server.accept()
        with caller:
            caller.recv(4096)
            caller.sendall(said)

    def key(self, text, mode=0o600):
        with tempfile.TemporaryDirectory() as folder:
            path = os.path.join(folder, "key")
            with open(path, "wb") as file:
                file.write(text)
            os.chmod(path, mode)
            return desk.key_in(path)

    def test_keys(self):
        key = "cash-key-00000001"
        self.assertEqual(self.key(f" {key} \r\n\n".encode()), key)
        self.assertRaisesRegex(Failed, "one line", self.key, f"\n{key}\n".encode())
        for mode in (0o640, 0o604):
            self.assertRaises(Failed, self.key, key.encode(), mode)

    def test_a_wrong_key_is_not_printed(self):
        secret = "this-is-a-secret-of-somebody"
        for text in (f"{secret} {secret}", f"{secret}\n{secret}", "x" * 15, "x" * 65, ""):
            with self.assertRaises(Failed) as found:
                self.key(text.encode())
            self.assertNotIn("secret", str(found.exception).split("/", 1)[0])
