"""Figures: the tables of docs/proofs/FIGURES.md, and the numbers that other pages round.

bench/history.csv has a row for each measurement, and only grows. Rows of one id are the history of
one question: the last one is what pages say. A page marks a number as `1.2 s <!-- large/start -->`;
it is right if it is the row's value, or one of its range, or within a quarter of one of these.
"""

import csv
import re

from claims_lib.tree import text_of

PATH = "bench/history.csv"
COLUMNS = (
    "id date commit script what unit low value high processors load medium compared_with"
    " compared_value note"
).split()
MARK = re.compile(r"<!-- ([a-z0-9]+/[a-z0-9-]+) -->")
NUMBER = re.compile(r"\d[\d,]*(?:\.\d+)?")
UNITS = {"1/s": "a second", "lines/s": "lines a second"}


def rows():
    return list(csv.DictReader(text_of(PATH).splitlines()))


def latest():
    """The last row of each question, in the order in which the questions came."""
    return {it["id"]: it for it in rows()}


def number(text):
    """A number of the file, with commas between thousands."""
    whole, dot, rest = text.partition(".")
    return f"{int(whole):,}{dot}{rest}" if whole.isdigit() else text


def numbers(text):
    # A seed and a date are typed as they stand.
    large = r"(?<!seed )\b\d{4,}(?!-\d\d)(?:\.\d+)?"
    return re.sub(large, lambda it: number(it[0]), text)


def shown(row):
    """The value of a row with its range and its unit."""
    low, value, high = (number(row[it]) for it in ("low", "value", "high"))
    if value and low:
        text = f"{value} ({low} to {high})"
    elif value and high:
        text = f"{value} (up to {high})"
    else:
        text = value or (f"{low} to {high}" if low else "")
    return f"{text} {UNITS.get(row['unit'], row['unit'])}".strip()


def compared(row):
    """What a row is compared with, each with its value."""
    names, values = (row[it].split("; ") for it in ("compared_with", "compared_value"))
    return "; ".join(f"{one}: {numbers(two)}" for one, two in zip(names, values) if one)


def seen(row):
    """When and how a row was measured."""
    load = f"load {row['load']}" if row["load"][:1].isdigit() else row["load"]
    words = [row["date"], row["commit"], load, row["medium"]]
    return ", ".join(it for it in words if it)


def plain(text):
    """A text of the file for a page: scripts and names of crates in backticks."""
    names = r"(?<![\w/`-])(radius_codec|acct_\w+|both_books_tests|--sync \w+|\.ci/\w+)"
    return re.sub(names, r"`\1`", text.replace("|", "\\|"))


def figures(checker, topics):
    """The last figure of each question of these topics."""
    yield "| What | Figure; compared with, notes; when |"
    yield "|---|---|"
    for topic in topics.split():
        chosen = [it for it in latest().values() if it["id"].startswith(f"{topic}/")]
        if not chosen:
            checker.find(1, f"{PATH} has no topic {topic}")
        for row in chosen:
            beside = "; ".join(it for it in (compared(row), numbers(row["note"]), seen(row)) if it)
            what = f"{plain(row['what'])} (`{row['script']}`)"
            what = what if row["script"] not in ("by hand", "computed") else plain(row["what"])
            yield f"| {what} | **{shown(row)}**; {plain(beside)} |"


# ---- whether the file and the marks are right


def check(checker):
    """Each mark is of a row, and near it; each topic is in a table; each row is whole."""
    known = latest()
    shown_topics = set()
    for checker.page in checker.pages:
        text = text_of(checker.page)
        tables = re.findall(r"<!-- made: figures ([^>]*) -->", text)
        shown_topics.update(" ".join(tables).split())
        for found in MARK.finditer(text):
            line = text.count("\n", 0, found.start()) + 1
            row = known.get(found[1])
            before = re.split(r"\n\n|\|", text[: found.start()])[-1]
            if not row:
                checker.find(line, f"{PATH} has no row `{found[1]}`")
            elif not is_near(before, row):
                said = " ".join(before.split())[-40:]
                checker.find(line, f"`{said}`: {found[1]} is {shown(row)}")
    checker.page = PATH
    for topic in sorted({it.split("/")[0] for it in known} - shown_topics):
        checker.find(1, f"no page has a table of the figures of `{topic}`")
    for at, row in enumerate(rows(), 2):
        wrong = wrong_with(row, checker)
        if wrong:
            checker.find(at, wrong)


def is_near(text, row):
    """Whether the last number of a text is about one of a row."""
    given = [float(it.replace(",", "")) for it in NUMBER.findall(MARK.sub("", text))]
    known = [float(row[it]) for it in ("low", "value", "high") if row[it]]
    if re.search(r"\bunder [\d.,]+ \w+\s*$", text):
        return bool(known) and max(known) <= given[-1]
    return bool(given) and any(abs(given[-1] - it) <= 0.25 * max(given[-1], it) for it in known)


def wrong_with(row, checker):
    """What is wrong with a row of the file."""
    if None in row or None in row.values() or list(row) != COLUMNS:
        return f"it has not {len(COLUMNS)} fields"
    if not re.fullmatch(r"20\d\d-\d\d-\d\d", row["date"]):
        return f"{row['date']}: no date"
    script = row["script"].split(" ")[0]
    if script not in ("by", "computed") and script not in checker.tree.paths:
        return f"{row['script']}: no such script"
    numbers_of = [row[it] for it in ("low", "value", "high")]
    bad = [it for it in numbers_of if not re.fullmatch(r"(\d+(\.\d+)?)?", it)]
    return f"{bad[0]}: no number" if bad else ""


MAKERS = {"figures": figures}
