"""How root reads and writes in a folder that another user may change: as that user, by pipes. So no
name there leads root elsewhere, at any moment."""

import subprocess

from radacctd_site.core import Failed, files, machine

# Prints a store of SQLite that is sound, with the rows of its log, while its user writes on.
PRINT = """
import os, sqlite3, sys
assert os.path.isfile(sys.argv[1]), "it is no file"
new = sqlite3.connect(":memory:")
sqlite3.connect(f"file:{sys.argv[1]}?mode=ro", uri=True, timeout=60).backup(new)
said = new.execute("PRAGMA integrity_check").fetchone()[0]
assert said == "ok", f"PRAGMA integrity_check says {said}"
more = new.execute("SELECT name FROM sqlite_master WHERE type IN ('view', 'trigger')").fetchone()
assert not more, f"{more[0]!r} is a view or a trigger, and no table of this site's"
sys.stdout.buffer.write(new.serialize())
"""
WRITE = 'umask 077; rm -rf "$1"; exec cat >"$1"'
# A file loses its name first and gets it last: without it nothing takes a log for a book.
RENAME = """
set -e; path=$1 date=$2; shift 2
for end; do sync "$path$end.new"; done
for end in '' -wal -shm -journal; do
    [ ! -e "$path$end" ] || mv -T "$path$end" "$path.before-$date$end"
done
for end; do mv -T "$path$end.new" "$path$end"; done
sync -f "$path"
"""


def given(user, program, path, *more, source=subprocess.DEVNULL):
    """What a program printed that a user ran with a path. Its input is a file that is open."""
    with machine.within(3600):
        done = subprocess.run([*machine.as_user(user), *program, path, *more], stdin=source,
                              capture_output=True, cwd="/", env=machine.ENVIRONMENT)
    if done.returncode:
        why = machine.last_line(done.stderr.decode("utf-8", "replace"))
        raise Failed(f"{path} as {user}: {why}")
    return done.stdout


def read_store(path, user, to):
    files.make(to, given(user, ["python3", "-I", "-c", PRINT], path))


def put(path, user, date, parts):
    """Puts files into place, by their endings; what was there is PATH.before-DATE."""
    for end, source in parts.items():
        with open(source, "rb") as file:
            given(user, ["sh", "-c", WRITE, "sh"], f"{path}{end}.new", source=file)
    given(user, ["sh", "-c", RENAME, "sh"], path, date, *sorted(parts, reverse=True))
