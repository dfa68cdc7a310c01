"""Which script types the commands of an operator's page, and what such a page may name.

A page with commands stands here with the scripts that read it and run its steps, or with the reason
why nobody but a person does. A block of code on such a page has only what an installed machine has.
"""

import re

from claims_lib.promises import OPERATORS, page_of
from claims_lib.tree import text_of
from claims_lib.typed import BY_HAND, RUN

COMMAND = re.compile(r"^\s*(?:systemctl|radacctd|radacctl|runuser|scp|apt|apt-get|sqlite3|nginx"
                     r"|freeradius)\b", re.M)
# A path of the repository in a command: on these pages it is meant so.
FROM_REPOSITORY = ("README",)
OF_REPOSITORY = re.compile(r"^\s*(?:sudo )?((?:bin|interop|bench|crates|\.ci)/[\w.-]+)", re.M)
# A secret or a key that a page shows, and those that the program and the check warn of.
SHOWN = re.compile(r"(?:secret|token) = \"?([^\s\"]+)|Desk-Key: ([\w-]+)")
PLAIN = re.compile(r"change-me\b.*|\.\.\.|[A-Z]+")


def check_secrets(checker):
    """What a page shows as a secret is plainly none: the public sample's, or change-me."""
    sample = set(re.findall(r'^(?:secret|token) = "([^"]+)"', text_of("debian/radacctd.toml"), re.M))
    for checker.page in map(page_of, OPERATORS):
        for block in checker.pages.get(checker.page, ()):
            for found in SHOWN.finditer(block.text):
                value = found[1] or found[2]
                if value not in sample and not PLAIN.fullmatch(value):
                    line = block.line_at(found.start())
                    checker.find(line, f"{value}: no secret of the sample, and not change-me")


def check(checker):
    check_secrets(checker)
    for name in OPERATORS:
        checker.page = page_of(name)
        blocks = [it for it in checker.pages.get(checker.page, []) if it.kind == "code"]
        if any(COMMAND.search(it.text) for it in blocks):
            check_run(checker, name)
        for block in blocks if name not in FROM_REPOSITORY else ():
            for found in OF_REPOSITORY.finditer(block.text):
                line = block.line_at(found.start())
                checker.find(line, f"{found[1]}: no installed machine has it")
    checker.page = ".ci/claims_lib/typed.py"
    for name in sorted({*RUN, *BY_HAND} - {*OPERATORS}):
        checker.find(1, f"{name} is no page for operators")


def check_run(checker, name):
    """The page's commands are run by the script that stands here, or there is a reason."""
    script = RUN.get(name)
    if not script and name not in BY_HAND:
        checker.find(1, "which script runs its commands? See claims_lib/typed.py")
    elif script and (script not in checker.tree.scripts or f"{name}.md" not in text_of(script)):
        checker.find(1, f"{script} does not read this page: see claims_lib/typed.py")
