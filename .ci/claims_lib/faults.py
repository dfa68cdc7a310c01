"""The tables of docs/reference/faults.md and of imports: what ends a command, why a datagram is
dropped or a book cannot be opened, what is wrong with a configuration or a record, the lines of a
server, and what the kit's check names.

Texts, names, statuses and numbers are those of the sources; what they mean is in meanings.csv.
"""

import ast
import re

from claims_lib import contracts, meanings
from claims_lib.tree import text_of, without_comments

COMMANDS, EXPLAIN = "crates/acct_program_commands/src", "crates/acct_program_explain/src"
FAULT, STATUS = f"{COMMANDS}/fault.rt", "crates/acct_program/src/status.rt"
# What ends a command without one of these texts.
OTHERS = (
    "| usage, or `error: invalid data`, 2 | bad command line, not UTF-8, or out of memory while"
    " reading it | `--help` |",
    "| no text, 1 | standard output is closed or full | give it again |",
)


def variants(source, kind):
    """Each name of a type with what its comment says and its number."""
    body = re.search(rf"^pub enum {kind} \{{\n(.*?)^\}}", text_of(source), re.M | re.S)
    found = re.findall(r"^    /// (.+)\n    (\w+) = (\d+),", body[1], re.M) if body else []
    first = lambda about: contracts.first_of(re.sub(r" \(RFC[^)]*\)", "", about)).rstrip(".")
    return {name: (first(about), number) for about, name, number in found}


# ---- what ends a command


def faults():
    """The variant of each text that ends a command."""
    text = text_of(FAULT)
    own = re.findall(r'Fault::(\w+) => (?:\{\s*)?f\.write_str\(\s*"([^"]+)"', text)
    store = re.findall(r'StoreFault::\w+ => "([^"]+)"', text)
    found = own + [("Store", it) for it in store] + [("Config", "config: KIND in TABLE INDEX")]
    # Nobody reads what could not be written.
    return {text: variant for variant, text in found if variant != "CannotWrite"}


def status_of(variant):
    """The exit status of a variant, by the arms of `status`."""
    numbers = dict(re.findall(r"^    (\w+) = (\d+),", text_of(STATUS), re.M))
    arms = text_of(FAULT).split("pub fn status(self)")[1]
    arm = r"((?:\s*\|?\s*Fault::\w+(?:\(_\))?)+)\s*=> Status::(\w+)"
    for names, status in re.findall(arm, arms):
        if re.search(rf"Fault::{variant}\b", names):
            return numbers.get(status, "")
    return ""


def fault_rows(checker):
    found = faults()
    yield "| Text, status | Cause | What to do |"
    yield "|---|---|---|"
    for text, cause, cure in meanings.compared(checker, "faults", found):
        yield f"| `{text}`, {status_of(found.get(text))} | {cause} | {cure} |"
    yield from OTHERS


# ---- why a datagram is dropped


def reason_rows(checker):
    """A line for each reason, in the order in which they are tested."""
    found = variants("crates/acct_wire/src/reason.rt", "Reason")
    for name, _, cure in meanings.compared(checker, "reasons", found):
        about, number = found.get(name, ("", ""))
        yield f"- {number} {name}: {about}. Cure: {cure}"


# ---- what is wrong with a configuration or a record

# Of each list its source and the type.
LISTS = {
    "config": ("acct_site_config/src/config_error.rt", "ConfigKind"),
    "record": ("acct_files/src/import_report.rt", "Cause"),
    "stopped": ("acct_files/src/import_report.rt", "Stopped"),
}


def variant_rows(checker, name):
    source, kind = LISTS[name]
    found = variants(f"crates/{source}", kind)
    cures = {text: cure for text, _, cure in meanings.compared(checker, name, found)}
    for variant, (about, _) in found.items():
        yield f"- {variant}: {about}. Cure: {cures.get(variant, '')}"


# ---- why a book cannot be opened

# What a line has in the place of a value.
VALUES = {"{frame}": "12", "{commits}": "36", "{log}": "LOG"}


def unopened_texts():
    """Each text of `--explain` about a book, as it is printed."""
    parts = re.split(r"\nfn |\npub\(crate\) fn ", without_comments(text_of(f"{EXPLAIN}/files.rt")))
    # One function's texts are about a configuration.
    about = "".join(it for it in parts if not it.startswith("why_unread"))
    found = re.findall(r'(?<!")"((?:it|its|the|this|there|root|another) [^"]+)"', about)
    log = without_comments(text_of(f"{EXPLAIN}/log_faults.rt"))
    for text in [*found, *re.findall(r'"explained: \{file\}: ([^"]+)"', log)]:
        text = re.split(r"\{to_\w+\}", re.sub(r"\\\n\s*", "", text))[0]
        for name, value in VALUES.items():
            text = text.replace(name, value)
        if text != "there is no such file" and "1 commit ends" not in text:
            yield text


def unopened_rows(checker):
    """A row for each cure, with the texts that have it."""
    known = [text for text, _, _ in meanings.rows_of("unopened")]
    printed = {next((it for it in known if text == it or text.startswith(f"{it}:")), text)
               for text in unopened_texts()}
    yield "| `explained:` says, after the file's name | What to do |"
    yield "|---|---|"
    merged = {}
    for text, _, cure in meanings.compared(checker, "unopened", printed):
        merged.setdefault(cure, []).append(f"`{text}`")
    for cure, texts in merged.items():
        yield f"| {', or '.join(texts)} | {cure} |"


# ---- the lines of a server

LINES = [f"{COMMANDS}/{it}.rt"
         for it in ("told", "new_site", "fresh_file", "book_clock", "book_names")]
LINES += [f"{EXPLAIN}/sample_values.rt", "crates/acct_program_serving/src/counts.rt"]


def line_texts():
    """Each text of a line, but those that only join others."""
    for path in LINES:
        text = without_comments(text_of(path))
        found = re.findall(r'write(?:ln)?!\(\s*\w+,\s*"([^"]+)"', text)
        found += re.findall(r'Change::\w+ => f\.write_str\("([^"]+)"\)', text)
        yield from (it for it in found if re.sub(r"\{\w+\}", "", it))


def line_rows(checker):
    """An example of each line, and what it means: of a part of a line neither."""
    yield "| Line | Meaning |"
    yield "|---|---|"
    for _, example, meaning in meanings.compared(checker, "lines", line_texts()):
        if example:
            yield f"| `{example}` | {meaning} |"


# ---- what `radacctl setup --check` names


def check_rows(checker, which):
    """What each feature of the kit says that a fault means, set-up's first."""
    paths = [it for it in checker.tree.files if re.fullmatch(r"site/\w+/feature\.py", it)]
    yield "| Name | It means |"
    yield "|---|---|"
    for path in sorted(paths, key=lambda it: (not it.startswith("site/setup/"), it)):
        for it in ast.parse(text_of(path)).body:
            if isinstance(it, ast.Assign) and getattr(it.targets[0], "id", "") == which.upper():
                for name, meaning in ast.literal_eval(it.value).items():
                    yield f"| {name} | {meaning} |"


MAKERS = {"faults": fault_rows, "reasons": reason_rows, "variants": variant_rows,
          "unopened": unopened_rows, "lines": line_rows, "check": check_rows}
