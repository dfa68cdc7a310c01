"""How much in crates/ is too long, or said in other words than elsewhere: counts that only fall.

tidy.csv has the most of each: more than 7 parameters of functions and definitions, not of lemmas;
bodies above 40 lines, also of lemmas; clauses above 10 lines; lines above 100 columns; comments of
sources that are no full sentence; words of comments in British spelling, and private ones; private
functions of the product without a clause, but for methods of a trait, whose clauses are the trait's.
"""

import csv
import os
import re

from claims_lib.openers import is_of_program
from claims_lib.tree import ROOT, text_of

LIMITS, PARAMETERS, BODY, CLAUSE, COLUMNS = ".ci/claims_lib/tidy.csv", 7, 40, 10, 100
FUNCTION = re.compile(r"^( *)(?:pub(?:\([a-z]+\))? )?(?:const )?fn \w+(?:<[^(]*>)?\(", re.M)
CONTRACT = re.compile(r"^ *(?:ensures|requires)(?: \w+)? \{", re.M)
UNCLAIMED = re.compile(r"^impl[^{]* for |^(?:pub )?trait |^impl|^( *)(pub )?(?:const )?fn \w+", re.M)
DEFINED = (r"^( *)(?:pub )?((?:abbrev|unfoldable|record|data) (?!\{))*"
           r"(?:pub )?(?(2)\S|[^\s(){}:]+ :\s)")
# Comments of a kind of file begin so. A list of tests or options has some that are a few words.
COMMENT = {".rt": "//", ".antt": "--"}
SENTENCE = re.compile(r"\W*[A-Z0-9`].*[.:!?][)`\"]*")
WORDS = {
    "spelling": re.compile(
        r"\b(?:(?:behavi|col|fav|flav|hon|lab|neighb)our\w*|judgement\w*|analys(?:e|es|ed|ing)"
        r"|(?:author|categor|general|initial|minim|maxim|normal|optim|organ|random|real|recogn"
        r"|serial|summar|synchron|util)is(?:e|es|ed|ing|ation)|grey|whilst|artefact\w*|defence"
        r"|(?:cancel|label|model|signal|travel)l(?:ed|ing)|cent(?:re|red|res)|licence\w*"
        r"|catalogue\w*|programme\w*)\b", re.I),
    "words": re.compile(r"\b(?:tells?|told|hears?|heard|rous(?:e|es|ed)|looks? round|meanwhile)\b",
                        re.I),
}


def to_its_end(text, opening, closing):
    """What follows an opened bracket up to the one that closes it, without what inner ones hold."""
    depth, kept = 1, ""
    for letter in text.replace("->", "  "):
        depth += (letter in opening) - (letter in closing)
        if not depth:
            break
        kept += letter if depth == 1 or letter == "\n" else ""
    return kept


def in_code(text):
    """What is too long in a source, by its place."""
    heads = list(FUNCTION.finditer(text))
    for head, after in zip(heads, [*heads[1:], None]):
        whole = text[head.end() : after.start() if after else len(text)]
        if len(re.findall(r"[^\s,][^,]*", to_its_end(whole, "([{<", ")]}>"))) > PARAMETERS:
            yield "parameters", head.start()
        body = re.search(rf"(?:^{head[1]}| )\{{\n(.*?)^{head[1]}\}}", whole, re.M | re.S)
        if body and body[1].count("\n") > BODY:
            yield "bodies", head.start()
    for head in CONTRACT.finditer(text):
        if to_its_end(text[head.end() :][:2000], "{", "}").count("\n") >= CLAUSE:
            yield "clauses", head.start()


def unclaimed_in(text):
    """The private functions without a clause, by their place."""
    heads = list(UNCLAIMED.finditer(text))
    is_of_trait = False
    for head, after in zip(heads, [*heads[1:], None]):
        if head[1] is None:
            is_of_trait = not re.fullmatch("impl", head[0])
            continue
        whole = text[head.end() : after.start() if after else len(text)]
        contract = re.split(rf"(?m)^{head[1]}\{{$| \{{$", whole)[0]
        is_own = not head[2] and not (is_of_trait and head[1])
        if is_own and not re.search(r"\bensures\b", contract):
            yield "unclaimed", head.start()


def in_definitions(text):
    """What is too long in a file of definitions or proofs, by its place."""
    heads = list(re.finditer(DEFINED, text, re.M))
    for head, after in zip(heads, [*heads[1:], None]):
        whole = text[head.start() : after.start() if after else len(text)]
        first, *lines = [it for it in whole.split("\n") if it.strip(" -")]
        size = [*(it.startswith(head[1] + " ") for it in lines), False].index(False)
        kind = " ".join([first, *lines[:size]]).split(" where")[0]
        while re.search(r"[({][^(){}:]*[)}]", kind):
            kind = re.sub(r"[({][^(){}:]*[)}]", "", kind)
        count = sum(len(it.split()) for it in re.findall(r"[({]([^(){}:]+) : ", kind))
        while re.search(r"[({][^(){}]*[)}]", kind):
            kind = re.sub(r"[({][^(){}]*[)}]", ")", kind)
        # An arrow after no named parameter is of one that has no name. A lemma's are its premises.
        if head[2] and count + len(re.findall(r"(?<![)}]) →", kind)) > PARAMETERS:
            yield "parameters", head.start()
        if len(lines) - size > BODY:
            yield "bodies", head.start()


def in_comments(text, mark):
    """The comments that are no sentence, and words to be replaced, by their place."""
    for found in re.finditer(rf"(?m)(?:^[ \t]*{mark}.*\n)+", text):
        said = " ".join(re.sub(rf"(?m)^[ \t]*{mark}[/!]?", "", found[0]).split())
        if mark == COMMENT[".rt"] and said and not SENTENCE.fullmatch(said):
            yield "sentences", found.start()
        for kind, words in WORDS.items():
            yield from ((kind, found.start() + it.start()) for it in words.finditer(found[0]))


def counts_of(tree):
    """The most of each kind, and the places that are too long now."""
    most = {row["kind"]: int(row["most"]) for row in csv.DictReader(text_of(LIMITS).splitlines())}
    found = {kind: [] for kind in most}
    for path in (it for it in tree.files if re.match(r"crates/.*\.(?:rt|antt)$", it)):
        text = text_of(path)
        long = in_code(text) if path.endswith(".rt") else in_definitions(text)
        own = unclaimed_in(text) if is_of_program(path) else ()
        for kind, at in (*long, *own, *in_comments(text, COMMENT[os.path.splitext(path)[1]])):
            found[kind].append((path, text.count("\n", 0, at) + 1))
        sizes = enumerate(map(len, text.split("\n")), 1)
        found["lines"] += [(path, line) for line, size in sizes if size > COLUMNS]
    return most, found


def check(checker):
    """No kind has more places than before. If one has, each is listed, the new one among them."""
    most, found = counts_of(checker.tree)
    for kind, places in found.items():
        for checker.page, line in places if len(places) > most[kind] else ():
            checker.find(line, f"{kind}: {len(places)} here, at most {most[kind]} may be")


def write(tree):
    most, found = counts_of(tree)
    rows = [f"{kind},{min(count, len(found[kind]))}\n" for kind, count in most.items()]
    with open(os.path.join(ROOT, LIMITS), "w", encoding="ascii") as file:
        file.writelines(["kind,most\n", *rows])
