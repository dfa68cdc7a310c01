"""Which names are sold to, and how files and requests spell the names of accounts.

A name is octets, and two names are one only if each octet is the same. A text spells an octet as
itself, or as % and two hexadecimal digits. The book may have other names than are sold to: they are
found and shown like any other.
"""

import csv
import io
import re
import string
import urllib.parse

from radacctd_site.core import Failed, told

# What is sold to: FreeRADIUS' tables find it, and a stamp has space for it (docs/reference/files.md).
LONGEST = 60
FIRST, OTHER = re.compile(r"\w"), re.compile(r"[^\w .@-]")
# What the desk takes as itself; any other octet is % and two digits there.
PLAIN = frozenset(string.printable[:95].encode()) - frozenset(b'%"\\')
# What makes a field a formula, in spite of apostrophes before it.
BELOW_0, FORMULA = re.compile(r"-[0-9]+(?:\.[0-9]+)?"), re.compile(r"'*[=+\-@\t\r]")


def octets_of(text):
    """The octets of a name as a file or a command line spells it."""
    return urllib.parse.unquote_to_bytes(text.encode("utf-8", "surrogateescape"))


def octets_typed(text):
    """The octets of a name that a person typed at a page: each letter is itself."""
    return text.encode("utf-8", "surrogateescape")


def shown(octets):
    """Octets as exports spell them: % and whatever is not plain as % and two digits."""
    return "".join(chr(it) if 32 <= it < 127 and it != 37 else f"%{it:02X}" for it in octets)


def readable(text):
    """A name as it is, unless it has what cannot be shown; then as exports spell it."""
    try:
        shown = octets_of(text).decode("utf-8")
    except UnicodeDecodeError:
        return text
    return shown if shown.isprintable() else text


def for_desk(octets):
    """An account as a request to the desk spells it."""
    return "".join(chr(it) if it in PLAIN else f"%{it:02X}" for it in octets)


def why_not(name):
    """Why nothing is sold to a name, octets or a text of them, or None if it may be.

    FreeRADIUS' tables would not find it, so that nobody could log in by it.
    """
    octets = name if isinstance(name, bytes) else octets_typed(name)
    if not 1 <= len(octets) <= LONGEST:
        return f"it has {len(octets)} octets, not 1 to {LONGEST}"
    try:
        text = octets.decode("utf-8")
    except UnicodeDecodeError:
        return "it is not UTF-8"
    if other := OTHER.search(text):
        mark = shown(other[0].encode())
        return f"it has {mark}, and a name has letters, digits, spaces and . _ @ -"
    if not FIRST.match(text) or text.endswith(" "):
        return "it begins with a space or . @ -, or ends with a space"
    return None


def plain(text, also=""):
    """A text as a terminal may have it: other users chose names and lines that are in it."""
    return "".join(it if it.isprintable() or it in also else "?" for it in str(text))


def cell(text):
    """A field of a CSV file for people: no spreadsheet takes it for a formula."""
    return "'" + text if FORMULA.match(text) else text


def text_of_cell(field):
    """What a field of a CSV file for people says."""
    return field[1:] if field[:1] == "'" and FORMULA.match(field) else field


def csv_of(header, rows):
    """Rows as a CSV file for people: a sum may be below 0, and no field is a formula."""
    file = io.StringIO(newline="")
    writer = csv.writer(file, lineterminator="\n")
    writer.writerow(header)
    writer.writerows([it if BELOW_0.fullmatch(it) else cell(it) for it in map(plain, row)]
                     for row in rows)
    return file.getvalue()


def records_in(path, columns, one):
    """What `one` makes of each record of a CSV file of a person's, which it gets by column, or the
    ValueError that says why not. Nothing is taken of a file of which a part is wrong.
    """
    with told(Failed, f"cannot read {path}: ", OSError, csv.Error):
        with open(path, encoding="utf-8-sig", errors="surrogateescape", newline="") as file:
            header, *rows = [it for it in csv.reader(file) if it] or [[]]
    if any(header.count(it) != 1 for it in columns):
        raise Failed(f"the header of {path} is `{','.join(header)[:200]}`, and is to have "
                        f"{','.join(columns)}, each once")
    found, faults = [], []
    for number, row in enumerate(rows, 2):
        try:
            if len(row) != len(header):
                raise ValueError(f"it has {len(row)} fields, not {len(header)}")
            found.append(one(dict(zip(header, map(text_of_cell, row)))))
        except ValueError as why:
            faults.append(f"record {number}: {why}")
    if faults:
        raise Failed("\n".join([f"{path} is not taken:", *faults[:20]]))
    return found
