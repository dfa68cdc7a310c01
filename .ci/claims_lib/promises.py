"""Each promise on a page for operators or auditors names what holds it.

A sentence with a word such as "never", "always" or "charged once" is followed by a comment:

    A reply means recorded, always. <!-- held: interop/kill: nothing answered is lost -->

The words after the path stand in that file, as the name of a row or in a clause. So a promise whose
test or clause goes, or is renamed, is found. In some parts each row or item has such a mark,
whatever its words: what one can rely on, what is not found, what is only tested. Who promises that
a report is charged once says what carrying forward does to that. Who promises something of a pair,
of Debian 13, of a slow disk or of FreeRADIUS in front names a script of interop that ran there. An
instruction ("Never copy one file alone") is no promise. If a sentence only looks like one,
`<!-- no promise -->` follows it.
"""

import os
import re

from claims_lib.style import made_lines, plain
from claims_lib.tree import ROOT, text_of

OPERATORS = (
    "README docs/START docs/TROUBLE docs/GONE docs/ACCESS-SERVERS docs/A-LARGE-SITE docs/CAMPUS"
    " site/copies/README site/core/README site/desk/README site/front/README site/guests/README"
    " site/monitor/README site/operator/README site/packages/README site/pair/README"
    " site/setup/README site/vouchers/README"
).split()
# Pages that speak of contracts themselves, or of work on the repository.
ENGINEERS = ("CHANGELOG.md", "docs/CODEC.md", *(f"docs/proofs/{it}.md" for it in (
    "DECISIONS", "DEFINITIONS", "ENGINEERING", "FIGURES")))
PROMISE = re.compile(
    r"\b(?:never|always|charged\s+once|credited\s+once|exactly\s+once|acts?\s+once|counts\s+once"
    r"|(?:nothing|none|no\s\w+)\b[^.;|]{0,40}?\bis\s+lost|loses\s+nothing|not\s+lost"
    r"|nobody\s+else\s+gets|(?:charges|credits|takes)\s+nothing"
    r"|nothing\s+is\s+(?:charged|credited|taken|filed)|at\s+most\s+one\s+more"
    r"|no\s+(?:crash|kill|power\s+cut)|(?:costs|forgets|loses)\s+(?:nothing|none)"
    r"|(?:not|none\s+is)\s+charged\s+twice"
    r"|(?:charges|credits|takes)(?:\s+\w+){1,3}\s+once(?!\s\w))\b",
    re.I,
)
# What carrying forward does to a report that comes again; and those that come again at once.
ONCE, CARRIED = re.compile(r"charged\s+once", re.I), re.compile(r"carried\s+forward|`forward`")
AT_ONCE = re.compile(r"If its sync\s+failed")
# Where a promise says that it holds, and what a script of interop has that ran there.
CASES = {
    r"\b(?:in|of) a pair\b": "[pair]", r"\bon Debian 13\b": "RADACCTD_SUITE",
    r"\bon a slow disk\b": "slow disk", r"\b(?:through|behind) FreeRADIUS\b": "FreeRADIUS",
}
# Parts of which each row, or each item, names what holds it.
WHOLE = (
    ("docs/proofs/AUDIT.md", "What is only tested", "row"),
    ("site/desk/README.md", "Who sold what", "row"),
    ("docs/GONE.md", "What is not found", "text"),
    ("docs/proofs/SEMANTICS.md", "What a kill leaves", "row"),
    ("docs/A-LARGE-SITE.md", "How often a commit syncs", "row"),
    ("docs/TROUBLE.md", "What an outage costs", "row"),
)
# A sentence that says what to do begins so.
ADVICE = re.compile(r"(?:^|[.:;] |\| |\*\*|- )(?:\*\*)?Never\b")
# How a sentence begins, or a cell.
BEGINS = (". ", ": ", "; ", "| ", ".\n", "\n- ")
MARK = re.compile(r"<!-- (?:held: ([^:>]+): ((?:(?!-->).)+?)|(no promise)) -->", re.S)


def page_of(name):
    return f"{name}.md"


def found_in(text):
    """The promises of a block: where the sentence of each begins, where it does, and where the next
    one does.
    """
    # The name of a heading or a file promises nothing.
    bare = re.sub(r"`[^`]*`|\]\([^)]*\)|<!--.*?-->", lambda it: "_" * len(it[0]), text, flags=re.S)
    places = []
    for found in PROMISE.finditer(bare):
        begun = max(bare.rfind(it, 0, found.start()) for it in BEGINS)
        if not ADVICE.search(bare[max(begun, 0) : found.end()]) and not re.match(
            r"[-*\d. ]*(?:\*\*)?Never\b", bare[max(begun + 1, 0) : found.end()].lstrip("| ")
        ):
            places.append((begun, found.start()))
    whole = [place for at, place in enumerate(places) if not at or place[0] != places[at - 1][0]]
    for at, (begun, start) in enumerate(whole):
        yield max(begun, 0), start, whole[at + 1][1] if at + 1 < len(whole) else len(text)


def fault_of(mark, tree):
    """What is wrong with a mark, or nothing."""
    if mark[3]:
        return ""
    path = mark[1] if os.path.exists(os.path.join(ROOT, mark[1])) else f"crates/{mark[1]}"
    if path not in tree.paths:
        return f"{mark[1]}: no such file"
    has = " ".join(text_of(path).replace('"\n', "").split())
    words = " ".join(mark[2].split())
    joined = re.sub(r'" *f?"', "", has)
    return "" if words in has or words in joined else f"{path} has no `{words}`"


def check_whole(checker):
    """Each row or item of these parts names what holds it."""
    for checker.page, title, kind in WHOLE:
        blocks = checker.pages.get(checker.page, [])
        found = [it for it in blocks if it.title == title]
        if not found:
            checker.find(1, f"it has no part `{title}`: see claims_lib/promises.py")
        for block, after in zip(found, [*found[1:], None]):
            is_head = re.match(r"\|-", after.text if after else "")
            is_one = block.kind == kind and re.match(r"- |\| ", block.text) and not is_head
            if is_one and not MARK.search(block.text):
                said = " ".join(block.text[:60].split())
                checker.find(block.line, f"`{said}`: which script or clause holds it?")
            check_marks(checker, block)


def check(checker):
    check_whole(checker)
    for checker.page in sorted(set(checker.pages) - set(ENGINEERS)):
        kept = made_lines(text_of(checker.page))
        for block in checker.pages[checker.page]:
            if block.kind in ("text", "row") and block.line not in kept:
                check_block(checker, block)


def check_block(checker, block):
    marks = list(MARK.finditer(block.text))
    for begun, start, end in found_in(block.text):
        check_cases(checker, block, begun, start, end)
        # The mark of a later sentence holds no promise of this one.
        places = [it.start() for it in marks if start <= it.start() < end]
        if all(re.search(r"\.\s+\S", block.text[start:it].rstrip()) for it in places):
            said = " ".join(block.text[start : start + 60].split())
            checker.find(block.line_at(start), f"`{said}`: which script or clause holds it?")
        said = plain(block.text[start:end])
        if ONCE.search(said) and not CARRIED.search(said) and not AT_ONCE.search(block.text):
            checker.find(block.line_at(start), "charged once: what if it was carried forward?")
    check_marks(checker, block)


def check_cases(checker, block, begun, start, end):
    """A promise of a case names a script of interop that has it. A row has its case in any cell."""
    said = block.text if block.kind == "row" else block.text[begun:end]
    held = [it[1] for it in MARK.finditer(block.text[start:end]) if it[1]]
    for case, has in CASES.items():
        found = re.search(case, re.sub(r"\s+", " ", plain(said)), re.I)
        scripts = (checker.tree.scripts.get(it, "") for it in held if it.startswith("interop/"))
        if found and not any(has in it for it in scripts):
            checker.find(block.line_at(start), f"`{found[0]}`: which row of interop ran there?")


def check_marks(checker, block):
    """Each mark names words that its file has."""
    for mark in MARK.finditer(block.text):
        wrong = fault_of(mark, checker.tree)
        if wrong:
            checker.find(block.line_at(mark.start()), wrong)
