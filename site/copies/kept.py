"""A copy: a folder with the book, its log, the stores, an archive of root's files, and sums."""

import contextlib
import hashlib
import os
import sqlite3
import tempfile

from radacctd_site.core import Failed, book as of_core, machine, places as of_kit, told
from radacctd_site.copies import places

SUMS, ROOTS, DUMP = "SHA256SUMS", "root.tar", "radius.sql"
# The folder of a book that is looked at begins so.
LOOK = ".look-"
# The plans of a book, and what is counted by its numbers.
PLANS = ("SELECT class, block, unit, mode FROM price_plan JOIN plan_count USING (class) "
         "ORDER BY price_plan.rowid")
COUNTS = ("both", "in", "out")


class Unsound(Failed):
    """What is wrong with a copy."""


def sums(folder):
    """The sums of a copy's files, as sha256sum reads them."""
    lines = []
    for name in sorted({*os.listdir(folder)} - {SUMS}):
        with open(f"{folder}/{name}", "rb") as file:
            lines.append(f"{hashlib.file_digest(file, 'sha256').hexdigest()}  {name}\n")
    return "".join(lines)


def seal(folder, when):
    """Writes of which moment the copy is, and its sums, and lets all of it outlive a power cut."""
    with open(f"{folder}/{SUMS}", "x", encoding="utf-8") as file:
        file.write(f"# {when}\n{sums(folder)}")
    machine.given(["sync", "-f", folder])


def plans_of(book):
    """Each plan that a book keeps, as a configuration has it."""
    with told(Unsound, "the plans of the book cannot be read: ", sqlite3.Error, ValueError), \
            contextlib.closing(sqlite3.connect(f"file:{book}?mode=ro&immutable=1", uri=True)) as db:
        return [of_core.block("plan", {"class": name.decode("utf-8"), "block": block, "unit": unit,
                                       "count": COUNTS[mode]})
                for name, block, unit, mode in db.execute(PLANS)]


@contextlib.contextmanager
def looked_at(folder):
    """The words for a command of radacctd over a copy's book. It may write: so it gets another one,
    with the plans that the book keeps."""
    with tempfile.TemporaryDirectory(dir=places.FOLDER, prefix=LOOK) as place:
        for it in ("book", "book-wal"):
            if os.path.exists(f"{folder}/{it}"):
                machine.given(["cp", "--reflink=auto", f"{folder}/{it}", place])
        with open(f"{place}/plans.toml", "w", encoding="utf-8") as file:
            file.writelines(plans_of(f"{place}/book"))
        yield ["--config", f"{place}/plans.toml", "--db", f"{place}/book"]


def check(folder):
    """Fails unless each file is as it was written, and the book is sound and balances. Returns of
    which moment the copy is."""
    try:
        with open(f"{folder}/{SUMS}", encoding="utf-8") as file:
            when, _, wanted = file.read().partition("\n")
    except FileNotFoundError:
        raise Unsound(f"{folder} has no {SUMS}: it is no whole copy") from None
    if wrong := {*wanted.splitlines()} ^ {*sums(folder).splitlines()}:
        name = min(it.partition("  ")[2] for it in wrong)
        raise Unsound(f"{folder} is damaged: {name} is not as it was written")
    with looked_at(folder) as book:
        status, said = machine.run(of_kit.binary(), "check", *book, "--audit", seconds=86400)
    if status:
        raise Unsound(f"{folder}: the book is not sound: {machine.last_line(said)}")
    return when.removeprefix("# ")
