"""What an auditor reads: the definitions that the seven contracts of docs/proofs/AUDIT.md rest on,
as claims_lib/cited.py finds them. Lines are counted with the comments directly above and in a
definition, without empty lines and `use` lines.
"""

import re

from claims_lib.cited import Cited
from claims_lib.tree import text_of

PAGE, TITLE = "docs/proofs/AUDIT.md", "The promise, in seven rows"


def promise_of(checker):
    """The seven functions of the promise, each with its file."""
    for block in checker.pages[PAGE]:
        found = re.fullmatch(r"\|[^|]*\| \[`(\w+)`\]\(../../(crates/[\w/]+\.rt)\) \|", block.text)
        if found and block.title == TITLE:
            yield found[1], found[2]


def needed(checker):
    """The definitions that each contract needs beside those of the rows above it."""
    cited, rows = Cited(checker.tree), {}
    for name, path in promise_of(checker):
        contract = re.search(rf"^pub fn {name}\b.*?(?=^\{{)", text_of(path), re.M | re.S)
        if not contract:
            checker.find(1, f"no public function `{name}` in {path}")
        rows[name] = cited.meet(path, contract[0] if contract else "")
    for fault in cited.faults:
        checker.find(1, fault)
    return rows


def definitions(checker):
    """What an auditor reads of definitions: a row for each contract, and the sum."""
    page, rows, total = checker.page, needed(checker), 0
    for name, parts in rows.items():
        crates = ", ".join(dict.fromkeys(f"`{it.path.split('/')[1]}`" for it in parts))
        count = sum(len(it.lines) for it in parts)
        total += count
        yield f"- `{name}`: {count:,} lines, in the `specs` of {crates}"
    paths = {it.path for parts in rows.values() for it in parts}
    yield ""
    yield (f"These are {total:,} lines of {len(paths)} files: each definition that a contract names"
           " or that such a definition names in turn, also through a type or a trait, with its"
           " comments. `.ci/claims --read` prints them.")
    for path in sorted(it for it in paths if "/inner/" in it):
        checker.find(1, f"the promise enters {path}")
    if len(rows) != 7:
        checker.find(1, f"the promise has {len(rows)} rows, not seven")
    checker.page = "README.md"
    if f"{total:,} lines of definitions" not in text_of("README.md"):
        checker.find(1, f"say: {total:,} lines of definitions")
    checker.page = page


def printed(checker):
    """These definitions, by contract and file."""
    for name, parts in needed(checker).items():
        for path in dict.fromkeys(it.path for it in parts):
            yield f"\n==== {name}: {path}"
            own = sorted((it for it in parts if it.path == path), key=lambda it: it.at)
            yield from ("\n".join(["", *it.lines]) for it in own)


MAKERS = {"definitions": definitions}
