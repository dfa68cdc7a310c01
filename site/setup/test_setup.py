"""What the set-up is told, writes, finishes, leaves alone and refuses."""

import contextlib
import errno
import io
import json
import os
import pwd
import re
import shlex
import shutil
import socket
import sqlite3
import stat
import subprocess
import tempfile
import time
import tomllib
import unittest
from unittest import mock

from radacctd_site.core import (
    Failed, accounts, book, corrections, features, files, looks, machine, places, steps)
from radacctd_site.setup import (
    answers, beside, check, config, devices, pages, server, setup_command)

PLAN = {"class": "default", "block": 1000, "unit": 5}
LOBBY = {"name": "lobby", "address": "10.0.0.1"}
FULL = OSError(errno.ENOSPC, os.strerror(errno.ENOSPC))
NEEDS_ROOT = unittest.skipUnless(os.geteuid() == 0, "only root gives files away")
# A user of Debian's who has nothing, in the place of one that attacks.
ATTACKER = "games"


def wanted(**more):
    return answers.Answers({"plan": [PLAN], **more})


def hotel(**more):
    return wanted(host="a.example.org", name="x", currency="EUR", server="10.0.0.5",
                  cashiers=["anna"], access_server=[LOBBY], **more)


class Folder(unittest.TestCase):
    """Each test has a folder of its own, and the path of a file in it."""

    def setUp(self):
        self.folder = os.path.realpath(self.enterContext(tempfile.TemporaryDirectory()))
        self.addCleanup(os.umask, os.umask(0o022))
        self.path = os.path.join(self.folder, "file")

    def patch(self, target, **found):
        self.enterContext(mock.patch.multiple(target, **found))

    def write(self, octets, mode=0o640, path=None):
        with open(path or self.path, "wb") as file:
            file.write(octets)
        os.chmod(path or self.path, mode)

    def read(self, path=None):
        with open(path or self.path, "rb") as file:
            return file.read()

    def kept(self):
        return sorted(it for it in os.listdir(self.folder) if "~before-" in it)


class Answers(unittest.TestCase):
    def wrong(self, **found):
        self.assertRaises(answers.Wrong, answers.Answers, {"plan": [PLAN], **found})

    def test_what_would_be_read_otherwise_is_refused(self):
        for text in ('"', "x;", "x{", "a\nb", "%{x}", "a\\"):
            self.wrong(plan=[PLAN, {**PLAN, "class": text}])
            self.wrong(host=text, name="x", currency="EUR")
            self.wrong(access_server=[{"name": text, "address": "10.0.0.1"}])
            self.wrong(cashiers=[text], host="a.example.org", name="x", currency="EUR")
            self.wrong(certificate=text, certificate_key="/etc/x")
            self.wrong(server=text)

    def test_what_needs_something_else(self):
        one = {"access_server": [LOBBY], "freeradius": False}
        for found in ({"pair": {"own": "10.9.0.5", "other": "10.9.0.5"}}, one, {"sql": {}},
                      {**one, "server": "fd00::5"}, {"operators": ["anna"]}, {"freeradius": 1},
                      {"freeradius": "own", "sql": {"password_file": "/x"}},
                      {"host": "a.example.org"}, {"access_server": [LOBBY, LOBBY]},
                      {"access_server": [{**LOBBY, "members": ["10.0.0.0/24"]}]}):
            self.wrong(**found)

    def read(self, text, mode=0o600):
        with tempfile.NamedTemporaryFile("w", suffix=".toml") as file:
            file.write(text)
            file.flush()
            os.chmod(file.name, mode)
            try:
                return answers.read(file.name)
            except answers.Wrong as why:
                return str(why).removeprefix(file.name)

    def test_what_is_wrong_and_what_is_expected_is_named(self):
        """Each is put into a right file."""
        rows = (("decimals = 2", "decimals = 9", "`decimals` is a whole number from 0 to 6"),
                ("block = 10000000", "block = 0", "`block` is a whole number from 1 to"),
                ("unit = 1", "unit = 1.5", "`unit` is a whole number from 0 to"),
                ('"mikrotik" ', '"juniper" ', "`vendor` is one of mikrotik"),
                ('"10.0.0.1"', '5', "no address"), ('"10.0.0.1"', '"10.0.0.1/24"', "host bits"),
                ('"10.0.0.1"', '"127.0.0.8"', "this machine's own"),
                ('"10.0.0.1"', '"0.0.0.0/0"', "every address there is"),
                ('"10.0.0.5" ', '"10.0.0.0/24" ', "no address of one machine"),
                ('"ben"', '"-c"', "- is not first"), ('"ben"', "7", "a list of names"),
                ('"EUR"', '["EUR"]', "a text in quotation"),
                ('name = "lobby"', 'name = "../x"', "1 to 32 of"),
                ('name = "lobby"', 'name = "front"', "taken"),
                ("currency", "curency", "has no member `curency`"),
                ('vendor = "m', 'colour = "m', "has no member `colour`"))
        for old, new, expected in rows:
            self.assertEqual(setup_command.SAMPLE.count(old), 1, old)
            self.assertIn(expected, str(self.read(setup_command.SAMPLE.replace(old, new))))

    def test_the_second_of_two_is_named(self):
        plan = '[[plan]]\nclass = "default"\nblock = 1\nunit = 1\n'
        self.assertIn("two [[plan]] have one class: ['default']", self.read(plan + plan))
        self.assertIn("[[plan]] number 2 lacks `class`", self.read(plan + "[[plan]]\nblock = 1\n"))

    def test_a_file_with_secrets_is_for_its_owner(self):
        text = '[[plan]]\nclass = "default"\nblock = 1\nunit = 1\n'
        more = text + '[secrets]\nbooks = "0123456789abcdef"\n'
        self.assertIn("chmod 600", self.read(more, 0o644))
        for found in (self.read(more), self.read(text, 0o644)):
            self.assertIsInstance(found, answers.Answers)

    def test_what_was_told_is_read_again(self):
        one = hotel(sql={"password_file": "/root/x"})
        found = json.loads(setup_command.kept(one))
        self.assertIn("gunicorn", found["packages"])
        self.assertEqual(vars(answers.Answers(found["answers"])), vars(one))

    def test_what_to_type_has_the_secret_as_the_device_reads_it(self):
        for vendor, text in (("mikrotik", 'a\\22b'), ("openwrt", "'a\"b'"), ("cisco", "1700")):
            found = devices.text_of({**LOBBY, "vendor": vendor}, hotel(), 'a"b')
            self.assertIn(text, found)
        self.assertNotIn("host=", devices.text_of({**LOBBY, "vendor": "mikrotik"}, wanted(), "x"))


class Configuration(Folder):
    def made(self, one, text=None):
        if text is not None:
            self.write(text.encode())
        self.patch(places, CONFIG=self.path)
        return config.Config(one)

    def test_it_has_what_a_site_needs_once(self):
        made = self.made(wanted(access_server=[LOBBY]))
        text = made.wanted("")
        found = tomllib.loads(text)
        [front] = [it for it in found["client"] if it["name"] == "front"]
        [plan] = [it for it in found["plan"] if it["class"] == front["plan"]]
        self.assertEqual((front["stamped"], front["proxy"], plan["unit"]), (True, True, 0))
        self.assertEqual([it for it in found["plan"] if it["class"] == "debit"], [config.DEBIT])
        for key, right in (("logins", "logins"), ("site", "accounts")):
            tokens = [it["token"] for it in found["key"] if it.get(right)]
            self.assertEqual(tokens, [made.keys[key]])
        self.assertEqual({len(it["secret"]) for it in (*found["client"], found["stamp"])}, {32})
        again = self.made(wanted(access_server=[LOBBY]), text)
        self.assertEqual((again.wanted(text), again.keys), (text, made.keys))

    def test_without_freeradius_access_servers_are_its_clients(self):
        one = wanted(freeradius=False, server="10.0.0.5", access_server=[LOBBY])
        made = self.made(one)
        found = tomllib.loads(made.wanted(""))
        self.assertEqual([it["name"] for it in found["client"]], [corrections.CLIENT, "lobby"])
        self.assertEqual(made.secret_of("lobby"), found["client"][1]["secret"])
        self.assertIn('"RADACCTD_BIND=--bind 127.0.0.1 --bind 10.0.0.5"', server.listens(one))

    def test_what_a_site_decided_stays(self):
        own = {"class": "visitors", "block": 1000, "unit": 0}
        self.assertEqual(self.made(wanted(plan=[PLAN, own])).clients["front"]["plan"], "visitors")
        text = '[[client]]\nname = "front"\naddress = "127.0.0.1"\nsecret = "own-secret-0001"\n'
        text += 'stamped = true\nproxy = true\nplan = "mine"\n# mine\n'
        self.assertTrue(self.made(wanted(), text).wanted(text).startswith(text))
        for wrong in (text.replace("127.0.0.1", "127.0.0.2"), "client = 5\n", "plan = [1]\n", "x",
                      '[[plan]]\nclass = "default"\nblock = 1\nunit = 5\n'):
            self.assertRaises(Failed, self.made, wanted(), wrong)

    def test_the_other_machine_of_a_pair_has_the_same_secrets(self):
        one = self.made(wanted())
        other = config.Config(wanted(secrets={**one.secrets(), "client-lobby": "l"}))
        for it in ("keys", "clients", "stamp"):
            self.assertEqual(getattr(other, it), getattr(one, it))
        self.assertEqual(other.answers.secret("client-lobby"), "l")

    @NEEDS_ROOT
    def test_a_wrong_one_takes_no_place(self):
        self.patch(places, SERVER_USER="root")
        made = self.made(wanted(), "# mine\n")
        step, seen = config.ConfigFile(made), []

        def run(*words):
            # Not even for a moment could others read its secrets.
            seen.append(stat.S_IMODE(os.stat(words[3]).st_mode))
            return 1, "line 3"

        with mock.patch.object(machine, "run", run):
            self.assertRaisesRegex(Failed, "line 3", step.do)
        self.assertEqual((self.read(), seen), (b"# mine\n", [0o640]))
        self.assertEqual(os.listdir(self.folder), ["file"])
        with mock.patch.object(machine, "run", lambda *_: (0, "")):
            step.do()
            self.assertTrue(step.look())
        self.assertEqual(len(self.kept()), 1)

    def test_plans_that_are_not_in_the_book_are_put_there(self):
        made = self.made(wanted())
        made.found = {"plan": [PLAN, {**PLAN, "class": "gr\u00f6\u00dfe"}]}
        rows = "class,block,unit,count\ndefault,1000,5,both\ndebit,1,1,both\nfree,1000000,0,both\n"
        for more, holds in (("gr%C3%B6%C3%9Fe,1,1,both\n", True), ("", False)):
            with mock.patch.object(book, "written", lambda _, it=rows + more: it):
                self.assertEqual(config.plan_step(made).holds(), holds)


class Steps(Folder):
    def test_an_edited_file_is_kept_with_its_mode(self):
        self.write(b"mine\n", 0o604)
        step = steps.File(self.path, "ours\n", 0o640)
        with contextlib.redirect_stdout(io.StringIO()):
            step.finish()
        [kept] = self.kept()
        path = os.path.join(self.folder, kept)
        self.assertEqual((self.read(path), stat.S_IMODE(os.stat(path).st_mode)), (b"mine\n", 0o604))
        before = os.stat(self.path).st_ino
        step.finish()
        self.assertEqual(os.stat(self.path).st_ino, before, "what is done is not done again")

    def test_octets_that_are_no_text_stay(self):
        self.write(b"# caf\xe9\nold\n")
        step = steps.File(self.path, lambda it: it.replace("old", "new"), 0o640)
        step.do()
        self.assertEqual((self.read(), step.look()), (b"# caf\xe9\nnew\n", True))

    def test_a_full_disk_leaves_all_as_it_was(self):
        self.write(b"mine\n")
        for name in ("fsync", "rename", "link"):
            with mock.patch(f"os.{name}", side_effect=FULL):
                with self.assertRaisesRegex(Failed, self.path):
                    steps.File(self.path, "ours\n").do()
            self.assertEqual(self.read(), b"mine\n", name)
            self.assertNotIn("file" + files.NEW, os.listdir(self.folder), name)

    def test_a_step_that_failed_takes_back_what_it_did(self):
        done = []
        step = steps.Step("x", lambda: False, mock.Mock(side_effect=Failed("no")),
                          undo=lambda: done.append(1))
        with contextlib.redirect_stdout(io.StringIO()):
            self.assertRaises(Failed, step.finish)
        self.assertEqual(done, [1])

    def unit(self, state="active", ago=0, load="loaded"):
        found = {"ActiveState": state, "UnitFileState": "enabled", "NeedDaemonReload": "no",
                 "LoadState": load,
                 "StateChangeTimestampMonotonic": str(int((time.monotonic() - ago) * 1e6))}
        self.patch(machine, properties=lambda _, *names: {it: found[it] for it in names},
                   given=lambda *_, **__: "", refuse_if_away=lambda: None)
        return steps.Unit("x.service", [self.path]).look()

    def test_a_unit_is_restarted_if_a_file_is_newer(self):
        self.assertTrue(self.unit(), "there is no file")
        self.write(b"x")
        self.assertTrue(self.unit(ago=-5))
        self.assertFalse(self.unit(ago=60))
        self.assertFalse(self.unit("inactive", ago=-5))

    def test_what_keeps_a_unit_from_its_start_is_said(self):
        self.write(b"x")
        self.unit(ago=60)
        step = steps.Unit("x.service", [self.path], ("test",))
        with mock.patch.object(machine, "given", side_effect=Failed("line 7 is wrong")):
            [fault] = step.faults()
        self.assertEqual(fault.name, "unit-down")
        self.assertIn("line 7 is wrong", fault.text)
        self.assertTrue(fault.cure.startswith("mend that; then: radacctl setup"), fault.cure)

    def test_why_a_unit_does_not_run_is_said(self):
        said = "explained: the disk refused\nx.service: Failed\nFailed to start x.service - x.\n"
        with mock.patch.object(machine, "journal", lambda _: said):
            self.assertRaisesRegex(Failed, "^explained: the disk refused$", self.unit, "activating")
        self.assertRaisesRegex(Failed, "systemctl unmask x.service", self.unit, load="masked")

    def test_an_installation_that_was_cut_off_is_finished(self):
        """Also if dpkg fails, as while another run of apt has its lock, for which apt-get waits."""
        self.patch(machine, ENVIRONMENT={"PATH": f"{self.folder}:/usr/bin:/bin"})
        for name, text in (("dpkg", "echo $0 $* >>$0.log\nexit 2\n"),
                           ("apt-get", '[ -s ${0%/*}/dpkg.log ] && [ "$*" != "${*%x}" ]\n')):
            self.write(f"#!/bin/sh\n{text}".encode(), 0o755, os.path.join(self.folder, name))
        self.patch(steps, is_installed=lambda _: os.path.exists(f"{self.folder}/dpkg.log"))
        steps.packages(["x"]).do()
        self.assertRaisesRegex(Failed, "ended with 1", steps.packages(["y"]).do)


@NEEDS_ROOT
class Attacked(Folder):
    """Another user owns the folder of each step, and has put a link in the way of its name."""

    def setUp(self):
        super().setUp()
        os.chmod(self.folder, 0o711)
        self.secret = os.path.join(self.folder, "shadow")
        self.write(b"root's own\n", 0o600, self.secret)
        self.theirs = os.path.join(self.folder, "theirs")
        os.mkdir(self.theirs)
        shutil.chown(self.theirs, ATTACKER)
        self.before = self.state()

    def state(self):
        return self.read(self.secret), os.stat(self.secret), os.listdir(self.folder)

    def every(self):
        """Each step of a hotel, and of a machine of a pair."""
        self.patch(places, SERVER_USER="root", RADIUS_USER="root", USER="root",
                   CONFIG=f"{self.folder}/none")
        front = features.modules("SETUP").get("front")
        if front:
            self.patch(front, refuse_if_in_use=lambda: None)
        for one in (hotel(), wanted(pair={"own": "10.9.0.5", "other": "10.9.0.6"})):
            yield from setup_command.steps_of(one, config.Config(one))

    def test_each_step_looks_does_and_has_a_cure(self):
        known = {**features.meanings("CRITICAL"), **features.meanings("WARNINGS")}
        for step in self.every():
            self.assertTrue(step.what and step.cure and callable(step.look) and callable(step.do))
            self.assertIn(step.name, known)

    def test_no_step_writes_where_a_link_leads(self):
        count = 0
        for step in self.every():
            if not isinstance(step, (steps.File, steps.Folder)):
                continue
            for target in (self.secret, self.folder):
                step.path = os.path.join(self.theirs, os.path.basename(step.path))
                os.symlink(target, step.path)
                self.assertRaises((Failed, OSError), step.do)
                os.remove(step.path)
                count += 1
        self.assertGreater(count, 60)
        self.assertEqual(self.state(), self.before)
        self.assertEqual(os.listdir(self.theirs), [])

    def test_nor_with_a_link_in_a_folder_of_roots(self):
        above = os.path.join(self.folder, "above")
        os.symlink(self.theirs, above)
        for step in (steps.File(f"{above}/x", "x"), steps.Folder(f"{above}/x")):
            with self.assertRaisesRegex(OSError, "no link on the path is followed"):
                step.do()
        os.remove(above)
        os.symlink(self.secret, self.path)
        with contextlib.suppress(OSError):
            steps.File(self.path, "ours\n").do()
        self.assertEqual(self.read(self.secret), b"root's own\n")

    def test_nothing_is_read_as_root_where_another_user_may_write(self):
        path = os.path.join(self.theirs, "x")
        os.symlink(self.secret, path)
        for read in (files.text, files.linked_text, lambda it: files.give(it, ATTACKER, 0, 0o644)):
            with contextlib.suppress(OSError):
                self.assertNotIn("root's own", read(path) or "")
        self.assertRaises(Failed, machine.text_of, ATTACKER, path)
        os.remove(path)
        os.link(self.secret, path)
        for read in (files.text, lambda it: files.give(it, ATTACKER, 0, 0o644)):
            self.assertRaises(OSError, read, path)
        os.remove(path)
        os.mkfifo(path)
        self.assertRaises(OSError, files.text, path)
        self.assertEqual(machine.text_of(ATTACKER, path), "")
        with mock.patch.object(accounts, "BALANCES", path):
            self.assertRaises(Failed, accounts.balances)
        self.assertEqual(self.state()[1].st_mode, self.before[1].st_mode)

    def test_a_user_has_no_group_that_its_service_lacks(self):
        """Debian's freerad is in shadow, and its processes may lead one another."""
        many = [it for it in pwd.getpwall()
                if it.pw_uid and len(os.getgrouplist(it.pw_name, it.pw_gid)) > 1]
        for it in many:
            said = machine.given([*machine.as_user(it.pw_name), "id", "-G"])
            self.assertEqual(said.split(), [str(it.pw_gid)], it.pw_name)

    def test_a_user_reads_its_own(self):
        path = os.path.join(self.theirs, "x")
        self.assertEqual(machine.text_of(ATTACKER, path), "")
        self.write(b"theirs\n", 0o600, path)
        shutil.chown(path, ATTACKER)
        self.assertEqual(machine.text_of(ATTACKER, path), "theirs\n")
        files.give(path, ATTACKER, pwd.getpwnam(ATTACKER).pw_gid, 0o640)
        self.assertEqual(stat.S_IMODE(os.stat(path).st_mode), 0o640)

    def test_what_runs_as_a_user_has_nothing_of_roots(self):
        with mock.patch.dict(os.environ, {"ROOTS_PASSWORD": "secret"}):
            look = "id -un; id -Gn; env; grep NoNewPrivs /proc/self/status; : </dev/tty"
            words = [*machine.as_user(ATTACKER), "sh", "-c", look]
            # `script` has a terminal for it, as root has.
            said = machine.run("script", "-qec", shlex.join(words), "/dev/null")[1].split()
        self.assertEqual(said[:2], [ATTACKER, ATTACKER])
        self.assertEqual(said[said.index("NoNewPrivs:") + 1], "1")
        self.assertIn("/dev/tty:", said)
        self.assertNotIn("ROOTS_PASSWORD=secret", said)


class Book(Folder):
    def setUp(self):
        super().setUp()
        self.patch(places, BOOK=f"{self.folder}/book")
        self.found = {"ActiveState": "active", "MainPID": str(os.getpid())}
        self.patch(machine, properties=lambda *_: self.found)
        for end in ("", "-wal"):
            self.write(b"", 0o600, places.BOOK + end)
            self.enterContext(open(places.BOOK + end, "rb"))

    def test_a_book_that_was_moved_or_replaced_is_away(self):
        machine.refuse_if_away()
        for end in ("-wal", ""):
            os.rename(places.BOOK + end, f"{self.folder}/other")
            self.assertTrue(machine.is_away())
            self.write(b"", 0o600, places.BOOK + end)
            self.assertRaisesRegex(Failed, "Do not stop", machine.refuse_if_away)
            os.rename(f"{self.folder}/other", places.BOOK + end)
            self.assertFalse(machine.is_away())

    def test_a_server_that_does_not_run_has_none(self):
        self.found["ActiveState"] = "failed"
        os.remove(places.BOOK)
        machine.refuse_if_away()


class Site(Folder):
    def lost(self, *there, is_new_wanted=False, is_away=False):
        """What the set-up says without a book, where a site left these; None if it goes on."""
        away = mock.Mock(side_effect=Failed("the book is not at its name") if is_away else None)
        with mock.patch.object(book, "is_there", lambda: False), \
                mock.patch.object(book, "names", lambda: {"al"} if "names" in there else set()), \
                mock.patch.object(machine, "refuse_if_away", away), \
                mock.patch.object(server, "last_copy", lambda: "x" if "copy" in there else None), \
                mock.patch.object(server, "PROVED", "/" if "proved" in there else "/none"):
            try:
                server.refuse_if_lost(is_new_wanted)
            except Failed as why:
                return str(why)
        return None

    def test_a_site_that_lost_its_book_gets_no_empty_one(self):
        self.assertIsNone(self.lost())
        for trace in ("names", "copy", "proved"):
            said = self.lost(trace)
            self.assertIn('GONE.md, "The book is missing"', said)
            self.assertIn("--new-book", said)
            self.assertIsNone(self.lost(trace, is_new_wanted=True))
        for is_new_wanted in (False, True):
            self.assertEqual(self.lost(is_new_wanted=is_new_wanted, is_away=True),
                             "the book is not at its name")

    def test_a_clock_that_was_never_set_and_a_lost_book_are_told_before_all_else(self):
        words = mock.Mock(new_book=False, check=False)
        with mock.patch.object(setup_command, "Config") as made:
            with mock.patch("time.time", lambda: 86400.0):
                self.assertRaisesRegex(Failed, "set it first", setup_command.do, words, None)
            with mock.patch.object(server, "refuse_if_lost", mock.Mock(side_effect=Failed("lost"))):
                self.assertRaisesRegex(Failed, "lost", setup_command.do, words, None)
        made.assert_not_called()

    def test_a_server_is_not_led_to_an_address_of_another_machine(self):
        one = wanted(freeradius=False, server="192.0.2.7", access_server=[LOBBY])
        self.patch(corrections, DEFAULTS=self.path)
        self.assertRaisesRegex(Failed, "has no address 192.0.2.7", server.refuse_if_elsewhere, one)
        self.write(b"RADACCTD_BIND=--bind 192.0.2.7\n")
        server.refuse_if_elsewhere(one)

    def test_what_the_service_was_told(self):
        drop_in = os.path.join(self.folder, "drop-in")
        self.patch(corrections, DEFAULTS=self.path, DROP_IN=drop_in)
        self.assertEqual(corrections.settings(), {})
        self.write(server.listens(wanted()).encode(), path=drop_in)
        self.assertEqual(corrections.where(), ("127.0.0.1", 11813))
        self.write(b'#RADACCTD_RADIUS_PORT=1\nRADACCTD_RADIUS_PORT="1645"\n'
                   b'RADACCTD_BIND="--bind 10.1.0.5 \\\n --bind 10.1.0.6"\n')
        self.assertEqual(corrections.where(), ("10.1.0.5", 1645))

    def test_a_book_that_has_sold_keeps_its_decimals(self):
        """One more, and each sum of it would be a tenth."""
        one = wanted(name="x", currency="EUR", decimals=0)
        for names, is_told in (({"anna"}, True), ({"radacctd-setup"}, False), (set(), False)):
            with mock.patch.object(book, "names", lambda it=names: it):
                for old, is_other in (('{"decimals": 2}', True), ('{"decimals": 0}', False)):
                    if is_told and is_other:
                        self.assertRaisesRegex(Failed, "has 2 decimals", pages.settings, old, one)
                    else:
                        self.assertIn('"decimals": 0', pages.settings(old, one))
        for text in ("{", "[1]", "5"):
            self.assertRaises(Failed, pages.settings, text, wanted())
        self.assertIn('"mine"', pages.settings('{"mine": 1}', wanted()))

    def test_one_who_is_not_in_the_answers_is_told(self):
        self.patch(pages, persons=lambda: ["anna: operator", "carla: cashier"])
        self.patch(places, DATABASE=__file__)
        [told] = pages.others(hotel())
        self.assertIn("radacctl person remove carla", told)
        self.assertEqual(list(pages.others(wanted())), [])

    def test_notes_of_passwords_gain_a_line_and_no_other(self):
        self.patch(pages, PASSWORDS=self.path)
        self.patch(machine, given=lambda *_: "")
        for text in (b"", b"ben xxxx", b"ben xxxx\n"):
            self.write(text, 0o600)
            for _ in range(2):
                pages.make_person("anna", "cashier")
            self.assertRegex(self.read(), rb"^(ben xxxx\n)?anna (\w{5}-){3}\w{5}\n$")


class Pages(Folder):
    def test_the_file_for_nginx_has_the_names_of_a_site(self):
        text = pages.page(hotel())
        for line in ("server_name a.example.org;", f"ssl_certificate     {pages.CERTIFICATE};",
                     f"ssl_certificate_key {pages.PRIVATE_KEY};", "/etc/nginx/radacctd-own*.conf;"):
            self.assertIn(line, text)
        self.assertNotIn("example.org;  ", text.replace("a.example.org;", ""))
        self.assertLess(text.count("\n"), 61)

    @NEEDS_ROOT
    def test_what_nginx_does_not_take_is_taken_back(self):
        said = [subprocess.CompletedProcess([], 1, "", "nginx: [emerg] host not found")]
        self.patch(machine, ran=lambda *_, **__: said[0], given=lambda *_, **__: "")
        for old in (None, b"mine\n"):
            if old:
                self.write(old)
            step = pages.Page(self.path, "ours\n")
            with contextlib.redirect_stdout(io.StringIO()), \
                    self.assertRaisesRegex(Failed, "host not found"):
                step.finish()
            self.assertEqual(self.read() if os.path.exists(self.path) else None, old)

    def test_another_server_of_our_name_is_told(self):
        said = 'nginx: [warn] conflicting server name "{}" on 0.0.0.0:443, ignored\n'
        self.write(b"ours", 0o644)
        step = pages.Page(self.path, "ours", host="a.example.org")
        for name, is_told in (("b.example.org", False), ("a.example.org", True)):
            self.patch(machine, run=lambda *_, it=said.format(name): (0, it))
            found = [it.text for it in step.faults()]
            self.assertEqual(any("conflicting" in it for it in found), is_told, found)

    @NEEDS_ROOT
    @unittest.skipUnless(shutil.which("openssl"), "openssl is missing")
    def test_a_certificate_of_another_name_is_told(self):
        key, pem = (os.path.join(self.folder, it) for it in ("key", "pem"))
        self.patch(pages, serves_another=lambda *_: False)
        self.patch(socket, getaddrinfo=lambda *_: [])
        for host, names in (("a.example.org", []), ("b.example.org", ["certificate-other"])):
            subprocess.run(["openssl", "req", "-x509", "-newkey", "rsa:2048", "-nodes", "-keyout",
                            key, "-out", pem, "-subj", "/CN=x", "-addext",
                            f"subjectAltName=DNS:{host}"], check=True, capture_output=True)
            found = pages.seen(hotel(certificate=pem, certificate_key=key))
            self.assertEqual([it.name for it in found], names)

    @NEEDS_ROOT
    @unittest.skipUnless(shutil.which("openssl"), "openssl is missing")
    def test_a_certificate_is_made_once_and_what_was_there_is_kept(self):
        own = {it: os.path.join(self.folder, it) for it in ("own.key", "own.pem")}
        self.patch(pages, PRIVATE_KEY=own["own.key"], CERTIFICATE=own["own.pem"])
        step = pages.Certificate("wifi." + "a" * 60 + ".example.org")
        self.assertFalse(step.holds())
        step.do()
        self.assertTrue(step.holds())
        modes = [stat.S_IMODE(os.stat(it).st_mode) for it in own.values()]
        self.assertEqual((modes, self.kept()), ([0o600, 0o644], []))
        self.assertFalse(pages.Certificate("b.example.org").holds())
        # Half of a bought one.
        self.write(b"a bought certificate\n", 0o644, own["own.pem"])
        self.assertFalse(step.holds())
        step.do()
        self.assertEqual([it.split("~")[0] for it in self.kept()], ["own.key", "own.pem"])


class Check(Folder):
    def faults(self, *sides):
        self.patch(check, sides=lambda *_: sides)
        return check.faults(lambda: None, None, None, lambda *_: ())

    def test_a_side_that_surprises_keeps_no_other_one(self):
        def slow():
            yield steps.Fault("copy-old", "x", "y")
            time.sleep(60)

        def wrong():
            raise ValueError("what")

        self.patch(check, LONGEST=1)
        found = self.faults(wrong, slow, lambda: [steps.Fault("book-away", "x", "y")])
        self.assertEqual([it.name for it in found],
                         ["book-away", "not-seen", "copy-old", "not-seen"])

    def test_a_configuration_that_cannot_be_read_is_a_fault_beside_others(self):
        self.patch(server, away=lambda: [steps.Fault("book-away", "x", "y")])
        self.patch(beside, seen=lambda: [steps.Fault("disk-full", "x", "y")])
        found = check.faults(mock.Mock(side_effect=Failed("line 3")), None, None, None)
        self.assertEqual([it.name for it in found], ["book-away", "config-wrong", "disk-full"])

    def test_what_is_no_fault_of_the_site_is_named_last_and_fails_nothing(self):
        note, fault = steps.Fault("device-unknown", "x", "y"), steps.Fault("copy-old", "x", "y")
        for found, last, status in (([note], "nothing is wrong", 0), ([], "nothing is wrong", 0),
                                    ([note, fault], "device-unknown: x. Do: y", 1)):
            self.patch(check, sides=lambda *_, it=found: [lambda: it])
            with contextlib.redirect_stdout(io.StringIO()) as said:
                found_status = check.main(lambda: None, None, None, lambda *_: ())
            self.assertEqual((found_status, said.getvalue().splitlines()[-1]), (status, last))
            self.assertEqual(note in found, "device-unknown: " in said.getvalue())

    def test_access_servers_that_have_reported_nothing(self):
        heard = lambda client, days=0: {"client": client, "last": int(time.time()) - 86400 * days}
        rows = (((), 1, ""), (None, 0, ""), ([heard("lobby")], 0, ""), ([heard("hall")], 1, ""),
                ([heard("front/nlobby")], 0, ""), ([heard("front/a%0A%00%00%01")], 0, ""),
                ([heard("front/nlobby%20"), heard("front/"), heard("front")], 1, ""),
                ([heard("front/nlobby", 3)], 1, " since 20"),
                ([heard("lobby"), heard("front/nlobby", 3)], 0, ""))
        self.patch(places, book=lambda: None)
        for found, count, since in rows:
            told = mock.Mock(side_effect=[[], found, *[[]] * 3])
            self.patch(accounts, told=told)
            self.patch(book, written=lambda _: 'account,balance\na,0\n"b,",0\nc,0\n')
            said = list(looks.silent(it for it in [("lobby", [b"lobby", b"\n\0\0\1"])]))
            self.assertEqual((len(said), told.call_count), (count, 2 + count), found)
            self.assertEqual(told.call_args_list[1][0][1], b"b,")
            self.assertTrue(not said or f"lobby has reported nothing{since}" in said[0].text)
        self.patch(book, written=lambda _: "")
        self.assertEqual([len([*looks.silent(it)]) for it in ([], [("lobby", [b"lobby"])])], [0, 1])

    def test_no_cure_starts_a_server_whose_book_is_away(self):
        found = self.faults(lambda: [steps.Fault("unit-down", "x", "systemctl restart radacctd"),
                                     steps.Fault("book-away", "x", "look"),
                                     steps.Fault("differs", "x", "radacctl setup")])
        self.assertEqual([it.cure for it in found], ["look", check.FIRST, check.FIRST])

    def test_each_fault_that_is_named_has_a_meaning(self):
        known = {name for kind in ("CRITICAL", "WARNINGS", "NOTES") for name in features.meanings(kind)}
        named = set()
        for top, _, names in os.walk(places.TOP):
            for name in (it for it in names if it.endswith(".py") and not it.startswith("test_")):
                with open(os.path.join(top, name), encoding="utf-8") as file:
                    named |= set(re.findall(r'Fault\("([a-z-]+)"', file.read()))
        self.assertGreater(len(named), 20)
        self.assertEqual(named - known, set())

    def test_what_the_journal_of_the_server_has(self):
        said = "drop 1 BadAuthenticator from 10.0.0.7: x\ndrop 2 UnknownClient from 10.0.0.8: x\n"
        with mock.patch.object(machine, "journal", lambda _: said):
            found = [it.name for it in server.printed()]
        self.assertEqual(found, ["drop-secret", "device-unknown"])

    def test_counts_that_are_missing_or_of_a_time_to_come(self):
        now = time.time()
        rows = (("", ["balances-old"]), (f"radacctd_balances_time_seconds {now:.0f}\n", []),
                (f"radacctd_balances_time_seconds {now + 999:.0f}\n", ["clock-wrong"]),
                (f"radacctd_balances_time_seconds {now - 999:.0f}\n", ["balances-old"]),
                (f"radacctd_balances_time_seconds {now - 999:.0f}\nradacctd_accounts 20001\n", []),
                (f"radacctd_balances_time_seconds {now:.0f}\nradacctd_config_is_current 0\n",
                 ["config-wrong"]))
        for text, names in rows:
            with mock.patch.object(book, "written", lambda _, it=text: it), \
                    mock.patch.object(machine, "is_active", lambda _: True):
                self.assertEqual([it.name for it in server.counts()], names, text)

    def test_units_that_failed(self):
        lines = "radacctd-copy.service loaded failed x\nradacctd-x@7-1.service loaded failed\n" \
                "radacctd-old.timer not-found failed x\n"
        with mock.patch.object(machine, "given", lambda *_, **__: lines):
            acts = [it.cure.rpartition("systemctl ")[2] for it in beside.failed()]
        self.assertEqual([it.split()[0] for it in acts], ["start", *["reset-failed"] * 2])

    def test_a_store_that_cannot_be_written_or_is_damaged(self):
        self.patch(machine, as_user=lambda _: ())
        self.assertEqual(list(looks.store(self.path)), [])
        with contextlib.closing(sqlite3.connect(self.path, isolation_level=None)) as db:
            db.execute("CREATE TABLE a (a)")
            self.assertEqual(list(looks.store(self.path)), [])
            db.execute("BEGIN IMMEDIATE")
            [fault] = looks.store(self.path)
            self.assertIn("end who has it open", fault.cure)
            db.execute("COMMIT")
            db.execute("CREATE VIEW radcheck AS SELECT a FROM a")
            [fault] = looks.store(self.path)
            self.assertEqual(fault.text, f"{self.path}: it has a view")
        self.write(b"x" * 4096)
        [fault] = looks.store(self.path)
        self.assertIn(f"/var/backups/radacctd/site-DATE/{os.path.basename(self.path)}", fault.cure)
        os.remove(self.path)
        os.mkdir(self.path)
        [fault] = looks.store(self.path)
        self.assertIn(f"chown -h radacctd-site: {self.path}*", fault.cure)

    def test_a_desk_that_listens_beyond_the_machine(self):
        quiet = dict.fromkeys(("away", "counts", "printed"), lambda: ())
        self.patch(server, **quiet, plans_lost=lambda _: ())
        self.patch(machine, run=lambda *_: (0, ""))
        for bind, names in (("", []), ("127.0.0.3", []), ("0.0.0.0", ["desk-open"])):
            self.patch(corrections, settings=lambda it=bind: {"RADACCTD_DESK_BIND": it})
            found = server.seen(mock.Mock(found={}, clients={}))
            self.assertEqual([it.name for it in found], names)

    def test_a_name_without_an_address(self):
        self.patch(looks, certificate=lambda *_: [steps.Fault("certificate-ends", "x", "y")])
        unknown = socket.gaierror(socket.EAI_NONAME, "Name or service not known")
        for asked, names in (({"return_value": []}, []), ({"side_effect": unknown}, ["host-unknown"])):
            self.patch(socket, getaddrinfo=mock.Mock(**asked))
            found = pages.seen(mock.Mock(host="a.example.org", certificate=""))
            self.assertEqual([it.name for it in found], [*names, "certificate-ends"])

    def test_a_lost_plan(self):
        made = mock.Mock(found={"plan": [{"class": "a", "block": 1, "unit": 2}]})
        for plan, count in (("1,2,both", 0), ("1,3,both", 1)):
            text = f"class,block,unit,count\na,{plan}\n"
            with mock.patch.object(book, "written", lambda _, it=text: it):
                self.assertEqual(len(list(server.plans_lost(made))), count)

    def test_from_outside_a_shut_port_is_named(self):
        said = subprocess.run(["python3", f"{places.TOP}/setup/outside.py", "127.0.0.1"],
                              capture_output=True, text=True).stdout
        ports = [it.split(" ")[0].rstrip(":") for it in said.splitlines()]
        self.assertEqual(ports, ["443/tcp", "1812/udp", "1813/udp"])


if __name__ == "__main__":
    unittest.main()
