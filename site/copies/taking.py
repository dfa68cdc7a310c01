"""Makes a copy of the site under another name, checks it, and gives it its own."""

import fcntl
import glob
import os
import shutil
import time

from radacctd_site.core import Failed, files, machine, places as of_kit, told
from radacctd_site.copies import book, kept, owners, places, postgres

NEW, AWAY = f"{places.FOLDER}/.new", f"{places.FOLDER}/away"
OLD = ".old"
# Whose keys of age may read the copy that leaves the machine.
READERS = "/etc/radacctd-copies.recipients"


def take_roots(to):
    """Archives root's places, with owners and modes. tar follows no link of theirs, and a folder
    in which others may put one fails."""
    found = places.roots()
    for path in found:
        with files.opened_folder(os.path.dirname(path)):
            pass
    others = machine.given(["find", *found, "-type", "d", "(", "!", "-uid", "0", "-o", "-perm",
                            "/022", ")"]).splitlines()
    if others:
        raise Failed(f"others than root may write in {others[0]}: chown root and chmod go-w it")
    machine.given(["tar", "-cf", to, "--exclude=*~*", *found])


def make(taken):
    """Makes the copy under its first name. Returns for how long the server stood still, and what
    the copy lacks."""
    shutil.rmtree(NEW, ignore_errors=True)
    os.mkdir(NEW, 0o700)
    seconds, lacks = book.copy(NEW), None
    for path, (user, _) in places.STORES.items():
        name = os.path.basename(path)
        if os.path.exists(path):
            owners.read_store(path, user, f"{NEW}/{name}")
        elif any(os.path.exists(f"{places.FOLDER}/{it}/{name}") for it in places.names()):
            lacks = f"the copy lacks {path}, which older ones have: put it back, or remove those"
    take_roots(f"{NEW}/{kept.ROOTS}")
    lacks = postgres.dump(f"{NEW}/{kept.DUMP}") or lacks
    moment = time.strftime("%F %T", time.localtime(taken))
    kept.seal(NEW, f"{moment}, and {lacks}" if lacks else moment)
    return seconds, lacks


def rename(path, new):
    os.rename(path, new)
    files.sync_folder(places.FOLDER)


def piped(pipe, to, *words):
    """Writes what a pipe of programs prints into a file. Each of them must end well."""
    machine.given(["bash", "-o", "pipefail", "-c", f'{pipe} >"$0"', to, *words], seconds=86400)


def export(folder, name):
    """Writes what a month is reckoned of: the book's sessions, balances and vouchers on that day."""
    new = f"{places.EXPORTS}/.new"
    shutil.rmtree(new, ignore_errors=True)
    os.makedirs(new, 0o700)
    with kept.looked_at(folder) as words, told(Failed, f"{folder} is sound, but: ", Failed):
        for what in ("sessions", "balances", "topups"):
            piped('"$@" | gzip', f"{new}/{what}.csv.gz", of_kit.binary(), "export", what, *words)
    os.rename(new, f"{places.EXPORTS}/{name}")


def send_off(path):
    """Encrypts the copy for whoever takes it elsewhere: AWAY has the newest one alone."""
    if not os.path.exists(READERS):
        return
    shutil.rmtree(AWAY, ignore_errors=True)
    os.mkdir(AWAY, 0o700)
    name = os.path.basename(path)
    with told(Failed, f"{path} is sound, but not encrypted for {READERS}: ", Failed):
        piped('tar -C "$1" -c "$2" | age -R "$3"', f"{AWAY}/.new", places.FOLDER, name, READERS)
    os.rename(f"{AWAY}/.new", f"{AWAY}/{name}.tar.age")


def remove_old():
    """Each one loses its name first: half a copy is never taken for one."""
    exported = os.listdir(places.EXPORTS)
    days = sorted({it.partition(".")[0] for it in exported})[:-places.EXPORTED_DAYS]
    old = [f"{places.FOLDER}/{it}" for it in places.names()[:-places.NIGHTS]]
    old += [f"{places.EXPORTS}/{it}" for it in exported if it.partition(".")[0] in days]
    for path in old:
        rename(path, f"{places.FOLDER}/{OLD}")
        shutil.rmtree(f"{places.FOLDER}/{OLD}")
        print(f"removed {path}")


def free_name(taken):
    """The day's; a second one of a day has its time, too."""
    name = time.strftime("%F", time.localtime(taken))
    is_there = any(map(os.path.exists, (f"{places.FOLDER}/site-{name}", f"{places.EXPORTS}/{name}")))
    return time.strftime("%F.%H%M%S", time.localtime(taken)) if is_there else name


def checked(name):
    """Gives the copy its name once it is known to be sound. One that is not is kept apart, and then
    no older one goes."""
    try:
        kept.check(NEW)
    except kept.Unsound as why:
        for it in places.names(places.REFUSED):
            shutil.rmtree(f"{places.FOLDER}/{it}")
        path = f"{places.FOLDER}/{places.REFUSED}site-{name}"
        rename(NEW, path)
        raise Failed(f"{why}. It is {path}; no older copy was removed") from None
    path = f"{places.FOLDER}/site-{name}"
    rename(NEW, path)
    return path


def carry_forward():
    """On the second of a month, if the site says which old sessions: the copy has them as they were.
    The server stands still for it."""
    words = os.environ.get("RADACCTD_FORWARD", "").split()
    if not words or time.localtime().tm_mday != 2:
        return
    oldest = os.environ.get("RADACCTD_OLDEST_REPORT", "").split()
    with book.stopped() as did_run:
        if did_run:
            print(machine.given([of_kit.PROGRAM, "forward", "--config", of_kit.CONFIG, "--db",
                                 of_kit.BOOK, "--explain", *oldest, *words]), end="")


def night():
    """All of a night, one at a time."""
    os.umask(0o077)
    os.makedirs(places.EXPORTS, exist_ok=True)
    lock = files.open_lock(f"{places.FOLDER}/.lock")
    fcntl.flock(lock, fcntl.LOCK_EX)
    # What a killed run left.
    for it in (OLD, *glob.glob(f"{kept.LOOK}*", root_dir=places.FOLDER)):
        shutil.rmtree(f"{places.FOLDER}/{it}", ignore_errors=True)
    try:
        taken = int(time.time())
        name = free_name(taken)
        seconds, lacks = make(taken)
        path = checked(name)
        export(path, name)
        if not lacks:
            remove_old()
        send_off(path)
        carry_forward()
    finally:
        shutil.rmtree(NEW, ignore_errors=True)
        os.close(lock)
    stood = "the server did not run" if seconds is None else f"{seconds:.1f} s without the server"
    print(f"{path} is a sound copy: {stood}")
    if lacks:
        raise Failed(lacks)
