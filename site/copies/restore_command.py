"""Puts a copy back, on the machine of the site or on an empty one, and starts the site.

The copy is checked first. Then Debian's packages are installed, files, stores and the book are put
into place with their owners, and the set-up does the rest and tries it. What was there is kept
beside: NAME~before-DATE, and in /var/lib NAME.before-DATE. What came after the copy is lost.

With --book all else stays as it is, `site.db` with the sales since, too, and radacctd stays stopped.
"""

import json
import os
import subprocess
import time

from radacctd_site.core import Failed, cli, files, machine, places as of_kit, steps
from radacctd_site.core.steps import Folder
from radacctd_site.copies import kept, owners, places

# What the set-up was told, with the packages that it installed; and what only one has at a time.
ANSWERS, LOCK = f"{of_kit.NOTES}/answers.json", "/run/radacctd-setup.lock"


def arguments(it):
    it.add_argument("folder", help="the copy, in a folder of root's")
    it.add_argument("--book", action="store_true", help="put back the book alone")
    it.add_argument("--yes", action="store_true", help="ask nothing, also if a book is there")


def main(words):
    return restore(words.folder.rstrip("/"), words.yes, words.book)


def restore(folder, is_sure, is_book_alone=False):
    """All of it, or the book. Nothing is changed before the copy is known to be whole and wanted."""
    os.umask(0o077)
    need_root_only(folder)
    confirm(is_sure)
    os.makedirs(places.FOLDER, exist_ok=True)
    print("checking the copy, which takes as long as two starts", flush=True)
    when = kept.check(folder)
    machine.refuse_if_away()
    lock = files.open_lock(LOCK)
    if not files.is_locked(lock):
        raise Failed("a set-up is going on")
    date = time.strftime("%Y%m%d-%H%M%S")
    lost = f"{of_kit.BOOK} is as it was on {when}. What came after that is lost"
    # A copy that goes on starts the server at its end: so it is stopped before.
    for it in ("radacctd-copy.service", "radacctd.service" if is_book_alone else "radacctd*"):
        machine.given(["systemctl", "stop", it])
    if is_book_alone:
        put_book(folder, date)
        print(f"{lost}. Now: radacctd plans, and systemctl start radacctd")
        return 0
    packages = packages_of(folder)
    steps.packages(packages or []).finish()
    # The users and groups that have the files.
    machine.given(["systemd-sysusers"])
    machine.given(["tar", "-xpf", f"{folder}/{kept.ROOTS}", "-C", "/", "--backup=simple",
                   f"--suffix=~before-{date}"])
    put_stores(folder, date)
    put_book(folder, date)
    print(lost, flush=True)
    machine.given(["systemctl", "daemon-reload"])
    if packages is None:
        print("no set-up made this site: start its units, and try it")
        return 0
    os.close(lock)
    return subprocess.run([of_kit.RADACCTL, "setup", "--yes"]).returncode


def need_root_only(folder):
    """No other user may change the copy between its check and its use."""
    with files.opened_folder(folder) as inner:
        for name in os.listdir(inner):
            with files.regular(inner, name) as (_, status):
                if files.is_others(status):
                    raise Failed(f"another user may change {folder}/{name}: give the copy to root: "
                                 "chown -R root:, chmod -R go-w")


def confirm(is_sure):
    """A book that is there is replaced only if that is wanted."""
    found = [os.lstat(it).st_mtime for it in (of_kit.BOOK, f"{of_kit.BOOK}-wal")
             if os.path.lexists(it)]
    if found:
        date = time.strftime("%F %T", time.localtime(max(found)))
        cli.confirm(f"{of_kit.BOOK} is there, last written on {date}. Keep it beside, and put the "
                    "copy in its place?", is_sure)


def packages_of(folder):
    """Debian's packages that the set-up installed, or None if no set-up made the site."""
    done = machine.ran(["tar", "-xOf", f"{folder}/{kept.ROOTS}", ANSWERS.lstrip("/")])
    return None if done.returncode else json.loads(done.stdout)["packages"]


def put_stores(folder, date):
    for path, (user, mode) in places.STORES.items():
        source = f"{folder}/{os.path.basename(path)}"
        if os.path.exists(source):
            Folder(os.path.dirname(path), mode, user, user).do()
            owners.put(path, user, date, {"": source})


def put_book(folder, date):
    Folder(of_kit.STATE, 0o700, of_kit.SERVER_USER, of_kit.SERVER_USER).do()
    parts = {"": f"{folder}/book", "-wal": f"{folder}/book-wal"}
    owners.put(of_kit.BOOK, of_kit.SERVER_USER, date,
               {end: it for end, it in parts.items() if os.path.exists(it)})
