"""Tables of pages, each made from the one place that has what it says."""

import ast
import collections
import re

from claims_lib import contracts, openers
from claims_lib.tree import text_of


def row(*cells):
    return ("| " + " | ".join(cells) + " |").replace("|  |", "| |")


def commands(_checker):
    """Each command of the program with what its help says."""
    text = text_of("crates/acct_program_args/src/commands.rt")
    yield row("Command", "What it does")
    yield "|---|---|"
    found = re.findall(r'(?s)\nfn (\w+)_command<.{1,200}? about =\s+"([^"]+)"', text)
    yield from (row(f"`{name}`", about) for name, about in sorted(found))


# Where each command of radacctl is explained.
EXPLAINED = {
    "setup": "[START](START.md), [set-up](../site/setup/README.md)",
    "sell": "[desk](../site/desk/README.md#credit-a-file)",
    "voucher": "[vouchers](../site/vouchers/README.md)",
    **dict.fromkeys(("person", "minute", "night"), "[core](../site/core/README.md)"),
    "sales": "[desk](../site/desk/README.md#who-sold-what)",
    "balance": "[desk](../site/desk/README.md)",
    **dict.fromkeys(("show", "who"), "[operator](../site/operator/README.md)"),
    **dict.fromkeys(("package", "code"), "[packages](../site/packages/README.md)"),
    **dict.fromkeys(("copy", "restore"), "[copies](../site/copies/README.md)"),
}


def radacctl(checker):
    """Each command of radacctl with what its feature says, and the page on it."""
    paths = [it for it in checker.tree.files if re.fullmatch(r"site/\w+/feature\.py", it)]
    found = {name: text for path in sorted(paths, key=lambda it: ("/core/" not in it, it))
             for name, text in re.findall(r'"(\w+)": \("([^"]+)", "\w+"\)', text_of(path))}
    for name in sorted(set(found) ^ set(EXPLAINED)):
        checker.find(1, f"`radacctl {name}`: no such command, or no page: see made_tables.py")
    yield row("Command", "What it does", "Read")
    yield "|---|---|---|"
    for name, text in found.items():
        yield row(f"`radacctl {name}`", text, EXPLAINED.get(name, ""))


# A limit of the site, in words, with the constants that it has in the order of the words.
CONFIG, CALLER = "acct_site_config/src/config_text.rt", "acct_net_callers/src/caller.rt"
LIMITS = (
    ("a site", "{} access servers, {} plans, {} keys",
     (f"{CONFIG} MOST_CLIENTS", f"{CONFIG} MOST_PLANS", f"{CONFIG} MOST_KEYS")),
    ("reports", "IPv4, at {} addresses; datagrams of {} octets",
     ("acct_program_args/src/option_limits.rt MOST_ADDRESSES",
      "radius_codec/src/limits.rt LONGEST_PACKET")),
    ("the desk", "{} connected callers; others wait for a place", ("acct_net/src/desk.rt PLACES",)),
    ("a request of the desk",
     "{} octets of head, {} of body; sent in {} seconds, silent for at most {}",
     ("acct_desk/src/framing.rt HEAD_LIMIT", "acct_desk/src/framing.rt BODY_LIMIT",
      f"{CALLER} SECONDS_TO_ASK", f"{CALLER} SECONDS_OF_SILENCE")),
    ("a response of the desk", "taken without a silence of {} seconds",
     (f"{CALLER} SECONDS_TO_TAKE",)),
    ("an import", "{} vouchers", ("acct_files/src/importing.rt MOST_RECORDS",)),
    ("a file that is read whole", "{} octets", ("acct_program/src/input.rt MOST_OCTETS",)),
)


def constant(named):
    """The number of a constant of a source."""
    path, name = named.split()
    found = re.search(rf"\b{name}: \w+ = ([\d_]+);", text_of(f"crates/{path}"))
    return int(found[1].replace("_", ""))


def limits(_checker):
    """The limits of a site, with the numbers of the sources."""
    yield row("Limit", "")
    yield "|---|---|"
    for what, words, names in LIMITS:
        yield row(what, words.format(*(f"{constant(it):,}" for it in names)))
    yield row("a balance", "-2^62 to 2^62")


def crates(_checker):
    """The crates of the program, the lowest first, each with what it is."""
    yield row("Crate", "What it is")
    yield "|---|---|"
    for name in contracts.crates():
        top = f"crates/{name}/src/{'main' if name == 'radacctd' else 'lib'}.rt"
        about = re.match(r"(?://!.*\n)+", text_of(top))[0]
        about = contracts.first_of(contracts.comment_before(about, len(about)))
        yield row(f"`{name}`", about.rstrip("."))


def wrong_bodies(checker):
    """How many wrong bodies each crate has."""
    counts = collections.Counter(it.split("/")[1] for it in checker.tree.files
                                 if it.startswith("crates/") and it.endswith(".edit"))
    yield f"The gate tries {sum(counts.values())} wrong bodies, and each must be refused:"
    yield ""
    yield row("Wrong bodies", "Crates")
    yield "|---|---|"
    for number in sorted(set(counts.values()), reverse=True):
        names = sorted(it for it in counts if counts[it] == number)
        yield row(str(number), ", ".join(f"`{it}`" for it in names))


def by_eye(_checker):
    """What a person reads of code, with why."""
    for cell, count, why in openers.by_eye():
        yield f"- {cell}, {count} lines: {why}"
    total = sum(count for _, count, _ in openers.by_eye())
    yield ""
    most = openers.MOST_BY_EYE
    yield f"They have {total} lines without comments and clauses; above {most} `.ci/claims` fails."


def by_hand(checker):
    """Each script of interop and bench with the first sentence of what it says of itself."""
    yield row("Run", "What it does")
    yield "|---|---|"
    for path in sorted(checker.tree.scripts):
        folder, _, name = path.rpartition("/")
        if folder in ("interop", "bench") and "." not in name:
            about = ast.get_docstring(ast.parse(text_of(path)))
            if not about:
                checker.find(1, f"{path} does not say what it does")
                continue
            about = " ".join(about.split("\n\n")[0].split())
            yield row(f"`{path}`", contracts.first_of(about).rstrip(".").replace("|", "\\|"))


# The test that is a whole caller of two crates.
CALLER = "crates/acct_model_tests/src/caller.rt"


def caller(_checker):
    """That test, without its first comment."""
    lines = text_of(CALLER).rstrip("\n").split("\n")
    return ["```rust", *(it for it in lines if not it.startswith("//!")), "```"]


MAKERS = {
    "caller": caller,
    "commands": commands,
    "radacctl": radacctl,
    "limits": limits,
    "crates": crates,
    "wrong-bodies": wrong_bodies,
    "by-eye": by_eye,
    "by-hand": by_hand,
}
