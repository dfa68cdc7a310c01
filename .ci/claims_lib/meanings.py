"""What texts and names of the sources mean, and what to do: meanings.csv.

Each made table of texts has its rows there: `text` is as the source has it. A text without a row is
a finding, and so is a row of a text that no source has.
"""

import csv

from claims_lib.tree import text_of

PATH = ".ci/claims_lib/meanings.csv"


def rows_of(table):
    """The rows of a table, in their order: text, meaning, cure."""
    for row in csv.DictReader(text_of(PATH).splitlines()):
        if row["table"] == table:
            yield row["text"], row["meaning"], row["cure"]


def compared(checker, table, found):
    """The rows of a table, which are those of these texts."""
    rows = list(rows_of(table))
    for text in sorted({it[0] for it in rows} ^ set(found)):
        checker.find(1, f"`{text}`: no source has it, or {PATH} has no row of it in `{table}`")
    return rows
