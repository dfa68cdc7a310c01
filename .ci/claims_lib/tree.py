"""What the repository has: its paths, its scripts, and each word of its files that are no pages."""

import functools
import os
import re

ROOT = os.path.dirname(os.path.dirname(os.path.dirname(os.path.abspath(__file__))))
# Folders that are made by a build, and no part of the repository.
MADE = {".git", "out", "target", "__pycache__"}
FOR_TESTS = re.compile(r"_tests$|^acct_book_fakes$|^foreign_packets$")
# The folders of what is no crate.
SCRIPTS = (".ci/", "bench/", "bin/", "debian/", "interop/", "site/")
# What gives no name: pages, which are compared with names, and what is put into pages.
OWN = (".ci/claims", ".ci/claims_lib/", "docs/")


@functools.lru_cache(maxsize=None)
def text_of(path):
    """The text of a file of the repository."""
    with open(os.path.join(ROOT, path), encoding="utf-8") as file:
        return file.read()


def read(path):
    """The text of a file; nothing of one that is no text."""
    try:
        return text_of(path)
    except UnicodeDecodeError:
        return ""


def without_comments(text):
    """A Rust source with its comments as empty lines."""
    return re.sub(r"^[ \t]*//.*$", "", text, flags=re.M)


def paths_of():
    """Each file and folder, from the top of the repository, and those that are files."""
    every, files = set(), []
    for folder, folders, names in os.walk(ROOT):
        folders[:] = sorted(it for it in folders if it not in MADE)
        at = os.path.relpath(folder, ROOT)
        every.update(os.path.normpath(os.path.join(at, it)) for it in [*folders, *names])
        files += [os.path.normpath(os.path.join(at, it)) for it in sorted(names)]
    return every, files


class Tree:
    """The repository."""

    def __init__(self):
        self.paths, self.files = paths_of()
        self.by_name = {}
        for path in self.files:
            self.by_name.setdefault(os.path.basename(path), []).append(path)
        self.crates = set(os.listdir(os.path.join(ROOT, "crates")))
        rows = [it.partition("#")[0] for it in text_of("crates.txt").splitlines()]
        self.kit = {it for row in rows for it in row.split()[1:]}
        scripts = [it for it in self.files if it.startswith(SCRIPTS) and not it.startswith(OWN)]
        self.scripts = {it: read(it) for it in scripts}
        # Whole words, and words that hyphens join.
        self.words = set(re.findall(r"\w+", " ".join(self.paths)))
        for path in self.files:
            if not path.startswith(OWN) and not path.endswith(".md"):
                text = read(path)
                self.words.update(re.findall(r"\w+", text), re.findall(r"\w+(?:-\w+)+", text))
