"""How long pages are, and their sentences and cells.

Only what a hand wrote counts: made parts, code, comments and links' targets do not.
"""

import re

from claims_lib import made
from claims_lib.tree import text_of

# The most words by hand of a page, and of pages together: all whose paths begin so.
MOST = {"CHANGELOG.md": 1048, "README.md": 650}
TOGETHER = {
    ("docs/proofs/", "docs/CODEC.md", "docs/reference/files.md"): 9000,
    ("docs/START", "docs/TROUBLE", "docs/GONE", "docs/ACCESS-", "docs/A-LARGE-", "docs/CAMPUS"): 6000,
    ("site/",): 6000,
    ("site/front/", "docs/ACCESS-SERVERS", "site/packages/", "site/pair/"): 3500,
    ("docs/reference/",): 2000,
}
MOST_IN_SENTENCE, MOST_IN_CELL = 30, 25


def words_of(text):
    """The words of a page that a hand wrote and a reader sees: no code, and no target of a link."""
    text = re.sub(r"<!--.*?-->", "", made.by_hand(text), flags=re.S)
    text = re.sub(r"^```.*?^```$", "", text, flags=re.M | re.S)
    return len(plain(re.sub(r"^(?: {4}|\t).*$", "", text, flags=re.M)).split())


def check_words(checker):
    """No page is longer than its bound, and no pages together are."""
    counts = {page: words_of(text_of(page)) for page in checker.pages}
    for checker.page, count in counts.items():
        if count > MOST.get(checker.page, count):
            checker.find(1, f"{count} words by hand, at most {MOST[checker.page]}")
    checker.page = ".ci/claims_lib/style.py"
    for begins, most in TOGETHER.items():
        total = sum(count for page, count in counts.items() if page.startswith(begins))
        if total > most:
            checker.find(1, f"{', '.join(begins)}: {total} words by hand, at most {most}")


def plain(text):
    """A text as it is read: links by what they show, without comments."""
    text = re.sub(r"<!--.*?-->", "", text, flags=re.S)
    return re.sub(r"!?\[([^\]]*)\]\([^()\s]+\)", r"\1", text)


def made_lines(text):
    """The lines of a page that are in a made part."""
    lines = set()
    for found in made.PART.finditer(text):
        first = text.count("\n", 0, found.start()) + 1
        lines.update(range(first, first + found[0].count("\n") + 1))
    return lines


def sentences(text):
    words = " ".join(plain(text).replace("**", "").split())
    return re.split(r"(?<=[.!?;:])\s+", re.sub(r"^(?:-|\d+\.) ", "", words))


def too_long(block):
    """The cells of a row and the sentences of a paragraph that have too many words."""
    parts, most = [], MOST_IN_SENTENCE
    if block.kind == "row":
        parts, most = map(plain, block.cells()), MOST_IN_CELL
    elif block.kind == "text":
        parts = sentences(block.text)
    return [it for it in parts if len(it.split()) > most]


def check(checker):
    check_words(checker)
    for checker.page, blocks in checker.pages.items():
        if checker.page.startswith("site/"):
            continue
        kept = made_lines(text_of(checker.page))
        for block in blocks:
            for part in too_long(block) if block.line not in kept else ():
                first, count = " ".join(part.split()[:6]), len(part.split())
                checker.find(block.line, f"{count} words in one {block.kind}: {first} ...")
