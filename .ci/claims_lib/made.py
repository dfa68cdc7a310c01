"""The parts of pages that are made from the sources, and whether they are as these make them.

A page marks such a part by two comments, each on a line of its own. What is between them is made:

    <!-- made: NAME -->
    ...
    <!-- end -->

`.ci/claims --write` puts it there, and `.ci/claims` fails if it differs. MAKERS has each name with
the function that gives the lines, whose links are those of a page of docs.
"""

import os
import re

from claims_lib import configured, contracts, failures, faults, history, made_tables
from claims_lib import notions, reading, statuses, tables, typed
from claims_lib.tree import ROOT, text_of

PART = re.compile(r"^<!-- made: ([^\n]+?) -->\n(.*?)^<!-- end -->$", re.M | re.S)
MAKERS = {}
for source in (configured, contracts, failures, faults, history, made_tables, notions, reading,
               statuses, tables, typed):
    MAKERS.update(source.MAKERS)


def maker_of(name):
    """The function that makes a part, with the words behind its name as arguments."""
    first, *words = name.split(" ", 1)
    return (lambda checker: MAKERS[first](checker, *words)) if first in MAKERS else None


def seen_from(page, line):
    """A line with its links, which are those of a page of docs, as another page has them."""
    folder = os.path.dirname(page)

    def led(found):
        path = os.path.normpath(os.path.join("docs", found[1]))
        return f"]({os.path.relpath(path, folder)}{found[2]})"

    return re.sub(r"\]\(([\w./-]+)((?:#[\w-]+)?)\)", led, line)


def made(checker, text):
    """A page's text with each made part as the sources make it, and what no function makes."""
    lost = []

    def again(found):
        maker = maker_of(found[1])
        if not maker:
            lost.append(found[1])
            return found[0]
        lines = "\n".join(seen_from(checker.page, it) for it in maker(checker))
        return f"<!-- made: {found[1]} -->\n\n{lines}\n\n<!-- end -->"

    return PART.sub(again, text), lost


def by_hand(text):
    """A page without its made parts."""
    return PART.sub("", text)


def check(checker):
    """Each made part is as its source makes it, and each maker is used."""
    used = set()
    for checker.page in checker.pages:
        text = text_of(checker.page)
        whole, lost = made(checker, text)
        used.update(it[1].split(" ", 1)[0] for it in PART.finditer(text))
        for name in lost:
            checker.find(1, f"nothing makes `{name}`: see claims_lib/made.py")
        if text.count("<!-- made: ") != len(PART.findall(text)):
            checker.find(1, "a made part has no end, or its marks are not alone on their lines")
        if whole != text:
            pairs = zip(text.split("\n"), whole.split("\n") + [""])
            line = next((n for n, (is_so, new) in enumerate(pairs, 1) if is_so != new), 1)
            checker.find(line, "its source has changed: make it again: .ci/claims --write")
    checker.page = ".ci/claims_lib/made.py"
    for name in sorted(set(MAKERS) - used):
        checker.find(1, f"no page has the part `{name}`")


def write(checker):
    """Puts each made part into its page, and says which pages changed."""
    for checker.page in checker.pages:
        text = text_of(checker.page)
        whole, _ = made(checker, text)
        if whole != text:
            with open(os.path.join(ROOT, checker.page), "w", encoding="utf-8") as file:
                file.write(whole)
            print(f"claims: {checker.page} is made again")
