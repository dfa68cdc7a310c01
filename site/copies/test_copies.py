"""A copy is made, checked and put back, also while the users of its folders put links into them."""

import contextlib
import io
import json
import os
import pwd
import shutil
import sqlite3
import stat
import subprocess
import sys
import tarfile
import tempfile
import time
import unittest
from pathlib import Path
from unittest import mock

from radacctd_site.core import Failed, machine, places as of_core, steps
from radacctd_site.copies import (
    book, copy_command, kept, looks, owners, places, postgres, restore_command, taking)

subprocess_run = subprocess.run
# Two users of Debian's who have nothing, in the place of radacctd's.
USER, PAGES = "games", "man"
# What stands for the program: a book that begins with BAD is not sound.
PROGRAM = """#!/bin/sh
for it; do case $it in */book) book=$it ;; esac; done
if head -c 3 "$book" | grep -q BAD; then echo "db: Unbalanced" >&2; exit 3; fi
echo "client,session"
echo grown >>"$book"
"""
# What a user does in a folder that is theirs: links to a file of root's in the place of files.
RACE = """
import os, sys
folder, target, *names = sys.argv[1:]
while True:
    for name in names:
        path = os.path.join(folder, name)
        try:
            os.link(path, path + ".was")
            os.symlink(target, path + ".link")
            os.rename(path + ".link", path)
            os.rename(path + ".was", path)
        except OSError:
            pass
"""


def written(path, text, user="root", mode=0o600):
    Path(path).write_text(text)
    shutil.chown(path, user, pwd.getpwnam(user).pw_gid)
    os.chmod(path, mode)


@unittest.skipUnless(os.geteuid() == 0, "only root becomes another user")
class Site(unittest.TestCase):
    """A site below a folder, whose server runs as far as the copy sees."""

    def setUp(self):
        self.stack = contextlib.ExitStack()
        self.addCleanup(self.stack.close)
        self.top = os.path.realpath(self.stack.enter_context(tempfile.TemporaryDirectory()))
        os.chmod(self.top, 0o711)
        for name, user in (("etc", "root"), ("copies", "root"), ("state", USER), ("site", PAGES)):
            os.mkdir(f"{self.top}/{name}", 0o700)
            shutil.chown(f"{self.top}/{name}", user)
        self.secret = f"{self.top}/shadow"
        # As a store, so that SQLite would take it for one, too.
        with contextlib.closing(sqlite3.connect(self.secret)) as made, made:
            made.execute("CREATE TABLE own (content)")
            made.execute("INSERT INTO own VALUES ('content of root''s own file')")
        os.chmod(self.secret, 0o600)
        written(f"{self.top}/program", PROGRAM, mode=0o755)
        self.patch_places()
        self.calls = []
        self.fill()

    def patch_places(self):
        top = self.top
        self.patch(of_core, BOOK=f"{top}/state/book", STATE=f"{top}/state", SERVER_USER=USER)
        self.patch(places, FOLDER=f"{top}/copies", EXPORTS=f"{top}/copies/exports",
                   STORES={f"{top}/site/site.db": (PAGES, 0o711)}, ROOTS=[f"{top}/etc/radacctd*"])
        self.patch(taking, NEW=f"{top}/copies/.new", AWAY=f"{top}/copies/away",
                   READERS=f"{top}/etc/recipients")
        self.patch(book, STOPPED=f"{top}/stopped")
        self.patch(machine, refuse_if_away=lambda: None, is_active=lambda _: True)
        self.patch(of_core, binary=lambda: f"{top}/program")
        self.patch(postgres, settings=lambda: {})
        given = machine.given
        self.patch(machine, given=lambda words, **how: self.calls.append(words[1:]) if words[0] in (
            "systemctl", "systemd-sysusers") else given(words, **how))

    def patch(self, module, **found):
        self.stack.enter_context(mock.patch.multiple(module, **found))

    def fill(self):
        top = self.top
        with contextlib.closing(sqlite3.connect(f"{top}/state/book")) as made, made:
            made.execute("CREATE TABLE price_plan (class BLOB, block INTEGER, unit INTEGER)")
            made.execute("CREATE TABLE plan_count (class BLOB, mode INTEGER)")
            made.execute("INSERT INTO price_plan VALUES (X'676F6C64', 5, 1)")
            made.execute("INSERT INTO plan_count VALUES (X'676F6C64', 0)")
        self.give(f"{top}/state/book", USER)
        self.sell(1)
        written(f"{top}/etc/radacctd.toml", "secret = 1\n", mode=0o640)
        written(f"{top}/etc/radacctd.toml~before-1", "older\n")
        os.mkdir(f"{top}/etc/radacctd-front", 0o750)
        written(f"{top}/etc/radacctd-front/queries", "\udcff".encode(
            "utf-8", "surrogateescape").decode("latin-1"))
        os.symlink("queries", f"{top}/etc/radacctd-front/link")

    @staticmethod
    def give(path, user):
        shutil.chown(path, user, pwd.getpwnam(user).pw_gid)

    def sell(self, number):
        """A sale of the pages, which is in the log of their store."""
        path = f"{self.top}/site/site.db"
        with contextlib.closing(sqlite3.connect(path)) as made, made:
            made.execute("CREATE TABLE IF NOT EXISTS sale (number INTEGER)")
            made.execute("INSERT INTO sale VALUES (?)", (number,))
        self.give(path, PAGES)

    def sales(self):
        with contextlib.closing(sqlite3.connect(f"{self.top}/site/site.db")) as found:
            return [it for (it,) in found.execute("SELECT number FROM sale")]

    def night(self):
        with contextlib.redirect_stdout(io.StringIO()):
            taking.night()
        return f"{places.FOLDER}/{places.names()[-1]}"

    @contextlib.contextmanager
    def racing(self, folder, user, *names):
        """A user at work in a folder meanwhile."""
        it = subprocess.Popen([sys.executable, "-c", RACE, folder, self.secret, *names], user=user,
                              group=pwd.getpwnam(user).pw_gid, extra_groups=[], cwd="/")
        try:
            yield
        finally:
            it.kill()
            it.wait()


class Taking(Site):
    def test_a_copy_has_all_and_the_server_stood_still_for_the_book(self):
        path = self.night()
        self.assertEqual(self.calls, [["stop", book.UNIT], ["start", book.UNIT]])
        self.assertFalse(os.path.exists(book.STOPPED))
        self.assertRegex(kept.check(path), time.strftime("%F [0-9:]{8}"))
        self.assertEqual(sorted(os.listdir(path)), [kept.SUMS, "book", kept.ROOTS, "site.db"])
        etc = self.top[1:] + "/etc/radacctd"
        with tarfile.open(f"{path}/{kept.ROOTS}") as found:
            self.assertEqual(sorted(found.getnames()), [
                f"{etc}-front", f"{etc}-front/link", f"{etc}-front/queries", f"{etc}.toml"])
            self.assertEqual(found.extractfile(f"{etc}.toml").read(), b"secret = 1\n")
            self.assertEqual(found.getmember(f"{etc}-front/link").linkname, "queries")
        said = subprocess.run(["sha256sum", "-c", "--quiet", kept.SUMS], cwd=path)
        self.assertEqual(said.returncode, 0)
        modes = {stat.S_IMODE(os.stat(f"{path}/{it}").st_mode) & 0o077
                 for it in (".", *os.listdir(path))}
        self.assertEqual(modes, {0})
        day = f"{places.EXPORTS}/{os.path.basename(path).removeprefix('site-')}"
        self.assertEqual(sorted(os.listdir(day)), ["balances.csv.gz", "sessions.csv.gz",
                                                   "topups.csv.gz"])

    def test_a_book_that_is_not_sound_is_kept_apart_and_no_older_copy_goes(self):
        self.night()
        self.patch(places, NIGHTS=1)
        for _ in range(2):
            with mock.patch.object(machine, "run", lambda *_, **__: (3, "db: Unbalanced\n")):
                self.assertRaisesRegex(Failed, "Unbalanced.*refused-site-", self.night)
        self.assertEqual(len(places.names()), 1)
        self.assertEqual(len(places.names(places.REFUSED)), 1)
        self.assertEqual([it.name for it in looks.look_at(None)], ["copy-bad"])

    def test_the_oldest_go_and_what_a_killed_run_left(self):
        self.patch(places, NIGHTS=3)
        for name in (".old/x", ".look-1/x", ".new/x"):
            os.makedirs(f"{places.FOLDER}/{name}")
        for day in range(1, 6):
            os.mkdir(f"{places.FOLDER}/site-2026-01-0{day}")
        new = os.path.basename(self.night())
        self.assertEqual(places.names(), ["site-2026-01-04", "site-2026-01-05", new])
        self.assertEqual(sorted(os.listdir(places.FOLDER)), [".lock", "exports", *places.names()])

    def test_old_sessions_are_carried_forward_on_the_second_of_a_month(self):
        words = {"RADACCTD_FORWARD": "--before 90 --keep books",
                 "RADACCTD_OLDEST_REPORT": "--oldest-report 60"}
        said = f"#!/bin/sh\necho \"$@\" >>{self.top}/said\n"
        written(f"{self.top}/forward", said, mode=0o755)
        self.patch(of_core, PROGRAM=f"{self.top}/forward")
        for day, env, count in ((1, words, 0), (2, {}, 0), (2, words, 1)):
            now = time.localtime()[:2] + (day,) + time.localtime()[3:]
            with mock.patch.dict(os.environ, env), mock.patch.object(
                    time, "localtime", lambda *_, now=now: time.struct_time(now)):
                taking.carry_forward()
            self.assertEqual(len(self.calls), 2 * count, day)
        self.assertEqual(self.calls, [["stop", book.UNIT], ["start", book.UNIT]])
        self.assertRegex(Path(f"{self.top}/said").read_text(), "forward --config /etc/radacctd.toml "
                         "--db .* --oldest-report 60 --before 90 --keep books")

    def test_no_server_stays_stopped_for_a_copy_whose_unit_was_killed(self):
        open(book.STOPPED, "w").close()
        self.patch(machine, run=lambda *_, **__: (1, ""),
                   given=lambda words: self.calls.append(words[:3]) or "")
        self.assertRaises(Failed, copy_command.now)
        self.assertEqual(self.calls[0], ["systemctl", "start", book.UNIT])
        self.assertFalse(os.path.exists(book.STOPPED))

    def test_a_server_that_was_stopped_stays_so(self):
        with mock.patch.object(machine, "is_active", lambda _: False):
            self.night()
        self.assertEqual(self.calls, [])

    def test_a_full_disk_leaves_no_copy_and_the_server_runs(self):
        def full(*_):
            raise OSError(28, "No space left on device")

        for name in ("clone", "marks"):
            with mock.patch.object(book, name, full):
                self.assertRaises(OSError, self.night)
            self.assertEqual(self.calls[-1], ["start", book.UNIT])
        self.assertEqual(places.names(), [])
        self.assertFalse(os.path.exists(taking.NEW))

    def test_a_book_that_another_process_writes_meanwhile(self):
        with mock.patch.object(book, "clone", lambda *_: written(of_core.BOOK, "more", USER)):
            self.assertRaisesRegex(Failed, "was written meanwhile", self.night)

    def test_a_damaged_copy_is_told(self):
        path = self.night()
        for name in ("book", kept.ROOTS):
            file = Path(f"{path}/{name}")
            was = file.read_bytes()
            file.write_bytes(bytes([was[0] ^ 1]) + was[1:])
            self.assertRaisesRegex(kept.Unsound, f"{name} is not as it was", kept.check, path)
            file.write_bytes(was)
        kept.check(path)
        for does in (os.remove, lambda it: written(it, "")):
            does(f"{path}/site.db")
            self.assertRaisesRegex(kept.Unsound, "site.db is not as it was", kept.check, path)

    def test_a_store_that_is_damaged(self):
        store = Path(f"{self.top}/site/site.db")
        store.write_bytes(store.read_bytes()[:4096] + b"\xff" * 4096)
        self.assertRaisesRegex(Failed, f"as {PAGES}", self.night)

    def test_a_store_that_was_there_fails_the_night_which_has_its_copy(self):
        self.night()
        self.patch(places, NIGHTS=1)
        os.rename(f"{self.top}/site/site.db", f"{self.top}/site/away")
        for nights in (2, 3):
            self.assertRaisesRegex(Failed, "lacks .*site.db, which older ones have", self.night)
            self.assertEqual(len(places.names()), nights)
            self.assertIn("lacks", kept.check(f"{places.FOLDER}/{places.names()[-1]}"))
            time.sleep(1)

    def test_more_copies_a_day_than_stay(self):
        self.patch(places, NIGHTS=2, EXPORTED_DAYS=1)
        os.makedirs(f"{places.EXPORTS}/2020-01-01")
        taken = []
        for _ in range(4):
            before = set(places.names())
            self.night()
            taken += set(places.names()) - before
            time.sleep(1.1)
        self.assertEqual(places.names(), taken[-2:])
        exported = sorted(os.listdir(places.EXPORTS))
        self.assertEqual([f"site-{it}" for it in exported], taken)

    def test_a_view_is_no_table(self):
        """It may have no end, and no set-up after a restore could write it."""
        with contextlib.closing(sqlite3.connect(f"{self.top}/site/site.db")) as made, made:
            made.execute("CREATE VIEW other AS WITH RECURSIVE it(x) AS (SELECT 1 UNION ALL "
                         "SELECT x FROM it) SELECT x FROM it")
        self.assertRaisesRegex(Failed, "is a view or a trigger", self.night)

    def test_a_database_that_is_away_fails_the_night_which_has_its_copy(self):
        self.patch(postgres, settings=lambda: {"server": "127.0.0.1", "port": "1"})
        self.assertRaisesRegex(Failed, "lacks FreeRADIUS' database", self.night)
        self.assertEqual(len(places.names()), 1)

    def test_a_folder_of_another_user_is_not_copied_as_roots(self):
        os.chmod(f"{self.top}/etc/radacctd-front", 0o777)
        self.assertRaisesRegex(Failed, "others than root", self.night)

    @unittest.skipUnless(shutil.which("age-keygen"), "Debian's age is missing")
    def test_what_leaves_the_machine_is_encrypted(self):
        key = f"{self.top}/key"
        said = subprocess.run(["age-keygen", "-o", key], capture_output=True, text=True).stderr
        written(taking.READERS, said.rpartition(": ")[2])
        path = self.night()
        [name] = os.listdir(taking.AWAY)
        self.assertEqual(name, f"{os.path.basename(path)}.tar.age")
        shell = f"age -d -i {key} {taking.AWAY}/{name} | tar -t"
        listed = subprocess.run(shell, shell=True, capture_output=True, text=True).stdout
        self.assertIn(f"{os.path.basename(path)}/book\n", listed)


class Attacked(Site):
    def test_who_owns_a_folder_gets_nothing_of_roots_into_a_copy(self):
        for folder, *words in (("site", PAGES, "site.db"), ("state", USER, "book", "book-wal")):
            with self.racing(f"{self.top}/{folder}", *words):
                for _ in range(20):
                    self.copy_without_roots()

    def copy_without_roots(self):
        with contextlib.suppress(Failed, OSError):
            shutil.rmtree(taking.NEW, ignore_errors=True)
            taking.make(0)
        for it in os.listdir(taking.NEW):
            self.assertNotIn(b"root's own", Path(f"{taking.NEW}/{it}").read_bytes(), it)

    def test_nor_does_a_pipe_or_a_second_name(self):
        for path in (of_core.BOOK, f"{self.top}/site/site.db"):
            os.rename(path, f"{path}.was")
            for make in (os.mkfifo, lambda it: os.link(self.secret, it),
                         lambda it: os.symlink(self.secret, it)):
                make(path)
                with machine.within(20):
                    self.assertRaisesRegex((Failed, OSError), "^(?!it took)", taking.make, 0)
                os.remove(path)
            os.rename(f"{path}.was", path)

    def test_nor_keeps_a_pipe_a_restore_waiting(self):
        os.mkfifo(f"{of_core.BOOK}.new")
        self.give(f"{of_core.BOOK}.new", USER)
        with machine.within(20):
            owners.put(of_core.BOOK, USER, "1", {"": self.secret})
        self.assertEqual(Path(of_core.BOOK).read_bytes(), Path(self.secret).read_bytes())

    def test_nor_changes_a_restore_a_file_of_roots(self):
        part = f"{self.top}/part"
        written(part, "a book")
        before, content = os.stat(self.secret), Path(self.secret).read_bytes()
        with self.racing(f"{self.top}/state", USER, "book", "book.new", "book-wal"):
            for number in range(20):
                with contextlib.suppress(Failed, OSError):
                    owners.put(of_core.BOOK, USER, str(number), {"": part, "-wal": part})
        after = os.stat(self.secret)
        self.assertEqual(Path(self.secret).read_bytes(), content)
        self.assertEqual((after.st_mode, after.st_uid, after.st_ino),
                         (before.st_mode, before.st_uid, before.st_ino))


class Restoring(Site):
    def setUp(self):
        super().setUp()
        self.patch(of_core, USER=PAGES)
        self.patch(restore_command, LOCK=f"{self.top}/lock")

    def restore(self, folder, is_sure=True, **how):
        with contextlib.redirect_stdout(io.StringIO()), mock.patch("sys.stdin", io.StringIO()):
            return restore_command.restore(folder, is_sure, **how)

    def test_all_is_as_it_was_and_what_was_there_is_kept(self):
        path = self.night()
        was = {it: Path(f"{self.top}/{it}").read_bytes()
               for it in ("state/book", "etc/radacctd-front/queries")}
        self.sell(2)
        written(f"{self.top}/state/book", "another", USER)
        written(f"{self.top}/state/book-wal", "its log", USER)
        written(f"{self.top}/etc/radacctd.toml", "other\n", mode=0o600)
        self.restore(path)
        self.assertEqual({it: Path(f"{self.top}/{it}").read_bytes() for it in was}, was)
        self.assertEqual(os.readlink(f"{self.top}/etc/radacctd-front/link"), "queries")
        self.assertEqual(self.sales(), [1])
        owner = pwd.getpwuid(os.stat(of_core.BOOK).st_uid).pw_name
        self.assertEqual((owner, os.listdir(f"{self.top}/etc").count("radacctd.toml")), (USER, 1))
        self.assertEqual(stat.S_IMODE(os.stat(f"{self.top}/etc/radacctd.toml").st_mode), 0o640)
        kept_there = sorted(it for it in os.listdir(f"{self.top}/state") if "before" in it)
        self.assertEqual(len(kept_there), 2)
        self.assertEqual([Path(f"{self.top}/state/{it}").read_text() for it in kept_there],
                         ["another", "its log"])
        self.assertFalse(os.path.exists(f"{of_core.BOOK}-wal"))

    def test_a_book_that_is_there_is_replaced_only_if_that_is_wanted(self):
        path, today = self.night(), time.strftime("%F")
        self.calls.clear()
        self.assertRaisesRegex(Failed, f"written on {today}.*--yes", self.restore, path, False)
        self.assertEqual(self.calls, [])
        os.remove(of_core.BOOK)
        self.restore(path, False)
        self.assertTrue(os.path.exists(of_core.BOOK))

    def test_the_book_alone(self):
        path = self.night()
        self.sell(2)
        written(of_core.BOOK, "another", USER)
        self.calls.clear()
        self.assertEqual(self.restore(path, is_book_alone=True), 0)
        self.assertEqual(self.sales(), [1, 2])
        self.assertEqual(self.calls, [["stop", f"radacctd{it}.service"] for it in ("-copy", "")])
        self.assertEqual(Path(of_core.BOOK).read_bytes(), Path(f"{path}/book").read_bytes())

    def test_a_damaged_copy_changes_nothing(self):
        path = self.night()
        Path(f"{path}/book").write_bytes(Path(f"{path}/book").read_bytes() + b"x")
        self.calls.clear()
        self.assertRaises(kept.Unsound, self.restore, path)
        self.assertEqual(self.calls, [])

    def test_a_copy_that_another_user_may_change(self):
        path = self.night()
        os.chown(f"{path}/book", pwd.getpwnam(USER).pw_uid, 0)
        self.assertRaisesRegex(Failed, "another user may change .*/book", self.restore, path)
        shutil.chown(path, USER)
        self.assertRaisesRegex(OSError, "others than root may write", self.restore, path)

    def test_the_set_up_does_the_rest_by_its_own_answers(self):
        self.patch(restore_command, ANSWERS=f"{self.top}/etc/radacctd-answers.json")
        written(restore_command.ANSWERS, json.dumps({"packages": ["nginx"], "answers": {}}))
        path = self.night()
        packages, run = mock.Mock(), mock.Mock(return_value=mock.Mock(returncode=0))
        self.patch(steps, packages=packages)
        self.patch(restore_command.subprocess, run=lambda words, **how: (
            run(words) if words[1:] == ["setup", "--yes"] else subprocess_run(words, **how)))
        self.assertEqual(self.restore(path), 0)
        packages.assert_called_once_with(["nginx"])
        run.assert_called_once_with([of_core.RADACCTL, "setup", "--yes"])


class Looks(Site):
    def test_an_old_copy_or_none_is_named(self):
        self.assertEqual([it.name for it in looks.look_at(None)], ["copy-old"])
        path = self.night()
        self.assertEqual(list(looks.look_at(None)), [])
        os.utime(path, (0, time.time() - 2 * 86400))
        self.assertEqual([it.name for it in looks.look_at(None)], ["copy-old"])
        with mock.patch.object(os, "access", lambda *_: False):
            self.assertEqual([it.name for it in looks.look_at(None)], ["copy-bad", "copy-old"])


if __name__ == "__main__":
    unittest.main()
