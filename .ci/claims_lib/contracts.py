"""Public functions: what their comments say, and which of them ensure nothing.

It reads the sources as text: a function is public if it says so, or stands in a public trait. A
clause has the name that the source gives it, or none.
"""

import os
import re

from claims_lib.tree import FOR_TESTS, ROOT, text_of

HEAD = re.compile(r"^(?:pub )?(?:impl|trait)\b[^{]*|^( *)(pub |(?<=    ))fn (\w+)", re.M)
SENTENCE = re.compile(r"(?<=[.!])\s+(?=[A-Z`])")


def crates(_checker=None):
    """The crates of the program, in the order of crates.txt."""
    names = re.findall(r"^(\w+):", text_of("crates.txt"), re.M)
    return [it for it in names if not FOR_TESTS.search(it)]


def sources_of(crate):
    folder = f"crates/{crate}/src"
    return [f"{folder}/{it}" for it in sorted(os.listdir(os.path.join(ROOT, folder)))
            if it.endswith(".rt")]


def comment_before(text, place):
    """The comment above a place: its first paragraph, without what makes it a comment."""
    lines = []
    for line in reversed(text[:place].split("\n")[:-1]):
        found = re.match(r" *(?:///|//!|--)(.*)|( *#\[)", line)
        if not found:
            break
        if found[1] is not None:
            lines.insert(0, found[1].strip())
    whole = "\n".join(lines).strip()
    return " ".join(re.split(r"\n\n|\n# ", whole)[0].split())


def first_of(comment):
    """The first sentence of a comment, without what would be a link of its own."""
    return re.sub(r"\[(`[^`]+`)\]", r"\1", SENTENCE.split(comment)[0])


def functions(text):
    """Each public function of a source: its type, its name, its comment and its clauses."""
    owner, is_trait = "", False
    for found in HEAD.finditer(text):
        if not found[3]:
            kind = re.search(r"(?:impl(?:<[^>]*>)?|trait) (?:[\w:<>', ]+ for )?(\w+)", found[0])
            owner, is_trait = kind[1] if kind else "", found[0].startswith("pub trait")
            continue
        if found[2] != "pub " and not (is_trait and len(found[1]) == 4):
            continue
        yield owner if found[1] else "", found[3], comment_before(text, found.start()), (
            clauses_of(text, found)
        )


def contract_of(text, found):
    """What stands between the name of a function and its body: its signature and its contract.

    A contract is indented deeper than its function. So it ends before the first line that is not,
    but for the end of the arguments.
    """
    first, *lines = text[found.end() :].split("\n")
    head = [first]
    for line in [] if re.search(r"\{\}?$", first) else filter(str.strip, lines):
        is_deeper = len(line) - len(line.lstrip()) > len(found[1])
        if not is_deeper and line.lstrip()[0] not in ")>w":
            break
        head.append(line)
        if not is_deeper and re.search(r"\{\}?$", line):
            break
    return "\n".join(head)


def clauses_of(text, found):
    """The names of the clauses of a function."""
    named = re.findall(r"^\s*ensures(?: (\w+))? *\{", contract_of(text, found), re.M)
    return [it or "result" for it in named]


def unclaimed(_checker):
    """How many public functions there are, and those that have no clause."""
    count, without = 0, {}
    for crate in crates():
        for path in sources_of(crate):
            for owner, function, _, clauses in functions(text_of(path)):
                count += 1
                if not clauses:
                    name = f"{owner}::{function}" if owner else function
                    without.setdefault(crate, []).append(name)
    total = sum(map(len, without.values()))
    explaining = len(without.get("acct_program_explain", ()))
    yield (f"Of {count} public functions {total} have no clause: {explaining} of"
           f" `acct_program_explain`, whose texts decide nothing, and {total - explaining} others:")
    yield ""
    for crate, names in without.items():
        yield f"- `{crate}`: {', '.join(f'`{it}`' for it in names)}"


# Public functions that claim much, and are none of the seven.
CLAIMING = {
    "radius_codec": "read write_response",
    "acct_book_forward": "carry_account",
    "acct_book_audit": "audit",
    "acct_sql": "SqlBook::adopt SqlBook::create SqlBook::migrate SqlBook::add_plans",
    "acct_sql_log": "damage_in",
    "acct_desk": "handle",
    "acct_files": "import",
    "acct_site_config": "config_of",
    "acct_net_callers": "Caller::has_timed_out Caller::may_be_dropped",
    "acct_program_commands": "take_site run_forward run_audit",
    "acct_program_serving": "balances_are_told",
}


def claims(checker):
    """Each of these functions with its file, its comment, and the names of its clauses."""
    for crate, wanted in CLAIMING.items():
        found = {}
        for path in sources_of(crate):
            for owner, name, comment, clauses in functions(text_of(path)):
                about = re.sub(r"\[(`[^`]+`)\]", r"\1", comment).rstrip(".")
                found[f"{owner}::{name}" if owner else name] = (path, about, clauses)
        for name in wanted.split():
            if name not in found:
                checker.find(1, f"`{name}` is no public function of {crate}: see contracts.py")
                continue
            path, about, clauses = found[name]
            said = ", ".join(f"`{it}`" for it in clauses)
            yield f"- [`{name}`](../{path}): {about} ({said})"


MAKERS = {"unclaimed": unclaimed, "claims": claims}
