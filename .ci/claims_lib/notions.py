"""The notions of docs/proofs/DEFINITIONS.md: each definition with its comment and its file.

A mark names files, each with definitions of it: `notions CRATE/specs/FILE: name name; FILE: name`. A
file without a folder is in the folder of the file before it. A definition has its comment directly
above it, in lines that begin with `--`, or `///` in a source of the code. `members CRATE/specs/FILE:
name` has the members of a record or the variants of a type, each with its comment.
"""

import os
import re

from claims_lib import contracts
from claims_lib.tree import text_of

HEAD = r"^ *(?:(?:abbrev|unfoldable|data|record|pub|ghost|struct|enum|trait)\s+)+{}(?![\w'])"


def comment_of(text, name):
    """The comment of a definition, or nothing."""
    found = re.search(HEAD.format(re.escape(name)), text, re.M)
    return contracts.comment_before(text, found.start()) if found else ""


def named(words):
    """Each file of a mark with the names after it."""
    folder = ""
    for part in words.split(";"):
        path, names = part.split(":")
        folder, file = os.path.split(path.strip())[0] or folder, os.path.basename(path.strip())
        file += "" if "." in file else ".antt"
        yield f"crates/{folder}/{file}", names.split()


def shown(comment):
    """A comment as a cell: it begins in small letters and has no full stop, as the others do."""
    comment = comment.rstrip(".")
    is_word = re.match(r"[A-Z][a-z']*\b(?!-)", comment) and not comment.startswith("Acct")
    comment = comment[0].lower() + comment[1:] if is_word else comment
    return comment.replace("|", "\\|")


def notions(checker, words):
    """A row for each definition."""
    yield "| Definition | What it is |"
    yield "|---|---|"
    for path, names in named(words):
        text = text_of(path) if path in checker.tree.paths else ""
        for name in names:
            comment = comment_of(text, name)
            if not comment:
                checker.find(1, f"{path} has no `{name}` with a comment")
                continue
            yield f"| [`{name}`](../{path}) | {shown(comment)} |"


def members(checker, words):
    """A row for each member of a record, or variant of a type."""
    [(path, [of])] = named(words)
    text = text_of(path) if path in checker.tree.paths else ""
    head = re.search(HEAD.format(re.escape(of)), text, re.M)
    yield f"| Of `{of}` | What it is |"
    yield "|---|---|"
    if not head:
        checker.find(1, f"{path} has no `{of}`")
        return
    comment = []
    for line in text[head.end() :].split("\n\n")[0].split("\n")[1:]:
        found = re.match(r"  (?:pub )?(\w+) :", line)
        if line.strip().startswith("--"):
            comment.append(line.strip(" -"))
        elif found and comment:
            yield f"| `{found[1]}` | {shown(' '.join(comment))} |"
            comment = []
        elif found:
            checker.find(1, f"{path}: `{found[1]}` has no comment")


MAKERS = {"notions": notions, "members": members}
