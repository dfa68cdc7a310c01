"""Whether what a page names is in the repository: texts in backticks, links, paths in code.

Each word of a text in backticks is a word of some file that is no page. So a name that was changed,
or an option that went, is found; whether it means what the page says is for a reader.
"""

import os
import re

from claims_lib.pages import anchors_of, blocks_of
from claims_lib.tree import Tree, text_of

TOP = ("README.md", "CHANGELOG.md")
# Words that no file has but pages: of other makers' programs, and of examples.
OTHERS = {
    "accounting_close_on_timeout", "accounting_send_class", "fuser", "ltnp", "lunp", "sport",
    "cron", "its_name", "sqlite_stat1", "LimitAS", "LimitDATA", "LimitFSIZE", "MemoryMax",
    "--vacuum-size", "samefile", "HEX", "--standalone", "--pre-hook", "--post-hook",
}
WORD = r"(?<![\w.-])--[a-z][a-z-]+|[A-Za-z_]\w{2,}"
PLACES = r"(?:\.ci|bench|bin|crates|debian|docs|interop|man|site|acct_\w+)"
IN_CODE = re.compile(rf"(?<![\w/.*-]){PLACES}/[\w./-]*\w")
LISTED = r"((?:`[^`]+`(?:, | and )?)+)"


class Checker:
    """The pages, what is in the repository, and what is wrong."""

    def __init__(self):
        self.tree = Tree()
        self.findings, self.count, self.page = [], 0, ""
        pages = [it for it in self.tree.files
                 if it in TOP or re.fullmatch(r"docs/.*\.md|site/[a-z]+/README\.md", it)]
        self.pages = {it: blocks_of(text_of(it)) for it in pages}
        self.anchors = {it: anchors_of(blocks) for it, blocks in self.pages.items()}

    def find(self, line, what):
        self.findings.append((self.page, line, what))


def resolved(checker, text):
    """The path of the repository that a text names, from the top, from crates or from its page."""
    for place in ("", "crates", os.path.dirname(checker.page)):
        path = os.path.normpath(os.path.join(place, text))
        if path in checker.tree.paths:
            return path
    found = checker.tree.by_name.get(text, [])
    return found[0] if found else None


def check_span(checker, line, text):
    """A text in backticks: a path that is there, or words that some file has."""
    if re.fullmatch(rf"{PLACES}/[\w./-]*[\w/]", text) and not resolved(checker, text):
        if not re.search(r"\b(?:NAME|WHAT)\b", text):
            checker.find(line, f"`{text}`: no such file or folder")
        return
    for word in re.findall(WORD, text):
        if word.lstrip("-") not in checker.tree.words and word not in OTHERS:
            checker.find(line, f"`{text}`: no file has `{word}`")


def check_neighbours(checker, block):
    """`name` (`file`): the file has the name."""
    for found in re.finditer(rf"{LISTED}\s\(`([\w/.-]+\.(?:rt|antt))`\)", block.text):
        path = resolved(checker, found[2])
        for name in re.findall(r"`(?:\w+::)?(\w+)`", found[1]) if path else ():
            if not re.search(rf"\b{name}\b", text_of(path)):
                checker.find(block.line_at(found.start()), f"`{name}`: not in {path}")


def check_link(checker, line, shown, target):
    """A link leads to a file, and to a heading of it."""
    if re.match(r"[a-z]+:", target):
        return
    path, _, anchor = target.partition("#")
    folder = os.path.dirname(checker.page)
    path = os.path.normpath(os.path.join(folder, path)) if path else checker.page
    if path not in checker.tree.paths:
        checker.find(line, f"[{shown}]({target}): no such page")
    elif anchor and anchor not in checker.anchors.get(path, ()):
        checker.find(line, f"[{shown}]({target}): no such heading in {path}")


def check_code(checker, block):
    """A block of code: the paths of the repository in it, and its options."""
    for line, text in block.lines():
        for path in IN_CODE.findall(text):
            if not resolved(checker, path):
                checker.find(line, f"{path}: no such file or folder")
        for option in re.findall(r"(?<!\S)--([a-z][a-z-]+)", text):
            if option not in checker.tree.words and f"--{option}" not in OTHERS:
                checker.find(line, f"--{option}: no file has this option")


def check_mentions(checker):
    """A page that a script or a source names is there, and so is a heading in quotes after it."""
    tree = checker.tree
    pattern = r'(?<![\w$}/])docs/((?:[a-z]+/)?[A-Za-z-]+\.md)(?:,[\s#]+"([^"]+)")?'
    sources = [it for it in tree.files if re.match(r"crates/.*\.(?:rt|antt)$", it)]
    for checker.page in [*tree.scripts, *sources]:
        text = tree.scripts.get(checker.page) or text_of(checker.page)
        for found in re.finditer(pattern, text) if "docs/" in text else ():
            line, page = text.count("\n", 0, found.start()) + 1, f"docs/{found[1]}"
            heading = " ".join((found[2] or "").replace("#", " ").split())
            titles = [it.title for it in checker.pages.get(page, [])]
            if page not in tree.paths and found[1] != "PAGE.md":
                checker.find(line, f"{page}: no such page")
            elif heading and heading not in titles and found[1] != "PAGE.md":
                checker.find(line, f'{page} has no heading "{heading}"')


def check_notice(checker):
    """The page on licences has each crate of the kit that a crate uses."""
    checker.page = "NOTICE"
    columns = [re.split(r"\s{2,}", it.strip())[0] for it in text_of("NOTICE").split("\n")]
    listed = {name.strip() for it in columns for name in it.split(",")}
    for name in sorted(checker.tree.kit - checker.tree.crates - listed):
        checker.find(1, f"no licence of the kit's crate {name}")


def check_reached(checker):
    """A link of another page leads to each page."""
    reached = {"README.md"}
    for page, blocks in checker.pages.items():
        targets = {it[2].partition("#")[0] for block in blocks for it in block.links()}
        folder = os.path.dirname(page)
        reached |= {os.path.normpath(os.path.join(folder, it)) for it in targets} - {page}
    for checker.page in sorted({it for it in checker.pages if it.startswith("docs/")} - reached):
        checker.find(1, "no link of another page leads to it")


def check(checker):
    for checker.page, blocks in checker.pages.items():
        for block in blocks:
            spans, links = block.spans(), block.links()
            checker.count += len(spans) + len(links)
            for line, text in spans:
                check_span(checker, line, text)
            for line, shown, target in links:
                check_link(checker, line, shown, target)
            check_neighbours(checker, block)
            if block.kind == "code":
                check_code(checker, block)
    check_mentions(checker)
    check_notice(checker)
    check_reached(checker)
