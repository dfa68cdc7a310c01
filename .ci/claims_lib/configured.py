"""The tables of docs/reference/settings.md and metrics.md: the configuration, made of its manual page,
the service's settings, made of their sample, and its counts, made of the source that writes them.
"""

import re

from claims_lib import contracts
from claims_lib.tree import text_of

PAGE = "man/radacctd.toml.5"
TABLES = ("An access server", "A plan", "A key of the desk")


def plain(text):
    """What a part of a manual page says, with names in backticks."""
    text = re.sub(r"^\.(?:Ql|Ic|Li|Xr|Pa) (\S+)(?: ([;:,.)]+))?$", r"`\1`\2", text, flags=re.M)
    text = re.sub(r"^\.\w+ ?", "", text, flags=re.M)
    return " ".join(text.split())


def rows(checker):
    """Each table of the configuration with its names, and what the manual page says of each."""
    page = text_of(PAGE)
    yield "| Table | Name | Value |"
    yield "|---|---|---|"
    for title in TABLES:
        found = re.search(rf"^\.Ss {title}\n(.*?)^\.(?:Ss|Sh) ", page, re.M | re.S)
        head = re.search(r"at most ([\d,]+) tables\n\.Ic \[\[(\w+)\]\]", found[1]) if found else None
        if not head:
            checker.find(1, f"{PAGE} has no part `{title}` with its number of tables")
            continue
        first = f"{head[2]}, at most {head[1]}"
        for name, text in re.findall(r"^\.It Ic (\w+)\n(.*?)(?=^\.It |^\.El)", found[1],
                                     re.M | re.S):
            yield f"| {first} | `{name}` | {plain(text)} |".replace("|  |", "| |")
            first = ""


SAMPLE = "debian/radacctd.default"


def settings(_checker):
    """Each setting of the service with its default, and the first sentence of its comment."""
    for part in text_of(SAMPLE).split("\n\n")[1:]:
        about = contracts.first_of(" ".join(re.findall(r"(?m)^# (.*)$", part))).rstrip(".")
        about = re.sub(r"(--[a-z-]+(?: once)?|/var/\S+)", r"`\1`", about)
        for name, value in re.findall(r'(?m)^#(\w+)="?([^"\n]*)"?$', part):
            value = f" (`{value}`)" if value else ""
            yield f"- `{name}`{value}: {about}"


COUNTS = "crates/acct_program_commands/src/figures.rt"
ONE = r'let about =\s*"([^"]*)";\s*write_\w+\(output, "(radacctd_\w+)"'


def metrics(_checker):
    """Each count with what the program writes of it."""
    text = text_of(COUNTS)
    found = re.findall(r'let name = "(radacctd_\w+)";\s*let about =\s*"([^"]*)";', text)
    found += [(name, about) for about, name in re.findall(ONE, text)]
    found += re.findall(r"# HELP (radacctd_[a-z]\w+) ([^\\]*)", text)
    for name, about in found:
        yield f"- `{name}`: {about.rstrip('.')}"


MAKERS = {"configuration": rows, "settings": settings, "metrics": metrics}
