"""The questions of docs/questions.csv, twenty each of a hotel, a campus and a WISP: each has its
answering line, by its first words. Who betters a line changes its row with it.
"""

import csv

from claims_lib.hazards import said
from claims_lib.tree import text_of

TABLE = "docs/questions.csv"


def check(checker):
    checker.page, rows = TABLE, list(csv.DictReader(text_of(TABLE).splitlines()))
    if [it["reader"] for it in rows] != ["hotel"] * 20 + ["campus"] * 20 + ["wisp"] * 20:
        checker.find(1, "not twenty questions of each reader, in their order")
    for number, it in enumerate(rows, 2):
        if it["line"] not in said(text_of(it["page"])):
            checker.find(number, f"{it['page']} no longer answers: {it['question']}")
