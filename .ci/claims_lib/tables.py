"""The tables of a book and the columns of an export on docs/reference/files.md, as statements and a
header have them. What each means is in meanings.csv.
"""

import re

from claims_lib import meanings
from claims_lib.tree import text_of

SOURCE = "crates/acct_sql_tables/src/statements.rt"


def columns():
    """Each column of each table: both names, its type, and whether it is of the key."""
    text = re.sub(r"\\\n\s*", "", text_of(SOURCE))
    for table, inside in re.findall(r'"CREATE TABLE (\w+) \((.*?)\) STRICT"', text):
        key = re.search(r"PRIMARY KEY \(([^)]*)\)", inside)
        keys = key[1].split(", ") if key else re.findall(r"(\w+) \w+ NOT NULL PRIMARY", inside)
        for name, kind in re.findall(r"(\w+) (TEXT|BLOB|INTEGER) NOT NULL", inside):
            yield table, name, kind, name in keys


def rows(checker):
    found = list(columns())
    named = {f"{table}.{name}" for table, name, _, _ in found}
    about = {text: meaning for text, meaning, _ in meanings.compared(checker, "book", named)}
    yield "| Column | Type | Meaning |"
    yield "|---|---|---|"
    last = ""
    for table, name, kind, is_key in found:
        if table != last:
            yield f"| **`{table}`** | | |"
        kind = f"{kind}, key" if is_key else kind
        yield f"| `{name}` | {kind} | {about.get(f'{table}.{name}', '')} |"
        last = table


EXPORT = "crates/acct_files/src/session_lines.rt"


def export_rows(checker):
    """A row for each column of the export of sessions: most are those of the table."""
    header = re.search(r"fn begin.*?&\[(.*?)\]", text_of(EXPORT), re.S)
    names = re.findall(r'b"(\w+)"', header[1]) if header else []
    own = {text: meaning for text, meaning, _ in meanings.rows_of("export")}
    about = {text: meaning for text, meaning, _ in meanings.rows_of("book")}
    for name in sorted(set(own) - set(names)):
        checker.find(1, f"{name}: no column of an export: see {meanings.PATH}")
    yield "| Column | Meaning |"
    yield "|---|---|"
    for name in names:
        yield f"| {name} | {own.get(name) or about[f'session.{name}']} |"


MAKERS = {"tables": rows, "export-sessions": export_rows}
