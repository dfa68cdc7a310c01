"""Each failure that a body of the product names, of which docs/proofs/AUDIT.md has a table: a clause
that allows a failure allows a body that always fails. What a pattern compares is not named. The table
has a sum of the bodies of each source that may fail, take an error for an answer, note something
beside what they return, or watch a run: one that does so at one size more is another body.
"""

import hashlib
import re

from claims_lib.openers import is_of_program
from claims_lib.tree import text_of, without_comments

WORD = (
    r"(?:(?:Unavailable|NoMemory|Memory|AllocError|CannotRead|Unreadable|Mute|Fault|OutOfMemory"
    r"|Trouble|Refused|WriteFault|ReadFault::\w+|Stopped::\w+|fmt::Error|ErrorKind::\w+"
    # Who asks for too much gets no memory.
    r"|io::Error::\w+|with_capacity|reserve\w*|resize\w*|try_resize\w*)\b|vec!\[in \w+;[^;\]]*;)"
)
# One more name would hide a failure.
RENAMED = re.compile(rf"\b{WORD} as (?!OutOfMemory|Trouble)(\w+)"
                     rf"|^ *(?:pub(?:\(\w+\))? )?(?:type|const|static) (\w+)\b[^;]*= [\w:]*\b{WORD}", re.M)
HEAD = re.compile(r"^( *)(?:pub(?:\([a-z]+\))? )?(?:const )?fn (\w+)", re.M)
MENTION = re.compile(rf"(?:\w+\()*(?:\w+::)*\b{WORD}(?:::\w+)*")
# What follows the mention in a pattern, and what is before it in a type.
PATTERN = re.compile(r"(?:\([^()]*\)|\{[^{}]*\})?\)* (?:\||=>|if )")
OF_A_TYPE = re.compile(r"(?:-> |: |<|impl \w+ for )(?:Result<[^<>]*, )?$")
# What is before it where a call's failure is passed on.
PASSED_ON = re.compile(
    r"(?:Err\((?:_|\w+|[\w:]+(?:\([^()]*\))?)\) => (?:\{ )?(?:return )?"
    r"|let Ok\([^;{}]*\) = [^;{}]* else \{ (?:return )?"
    r"|is_err\(\) \{ (?:let _ = [^;]*; )?(?:return )?|map_err\([^;]*)$")
# Who asks with `?`, takes an error for an answer, notes something, or watches.
HANDS_ON = re.compile(r"\?|Err\(_\) =>|\.note\w*\(|\bWatched::new\(")


def bodies_of(text):
    """Each function of a source, and its body."""
    for head in HEAD.finditer(text):
        begun = [it for it in (text.find(f"\n{head[1]}{{\n", head.end()), text.find(" {\n", head.end()))
                 if it >= 0]
        end = text.find(f"\n{head[1]}}}", min(begun)) if begun else -1
        if begun and not re.search(r";\n", text[head.end() : min(begun)]):
            yield head[2], re.sub(r"\s+", " ", text[min(begun) : end])


def mentions_in(body):
    """Of each failure that a body makes, whether it passes on what a call gave."""
    for found in MENTION.finditer(body):
        before = body[: found.start()]
        if not PATTERN.match(body, found.end()) and not OF_A_TYPE.search(before):
            yield bool(PASSED_ON.search(before))


def counted(text):
    """How many failures each function makes by itself, how many of a source are passed on, and a sum
    of the bodies that name one or hand one on, if there is one.
    """
    own, passed, named = {}, 0, []
    for name, body in bodies_of(re.sub(r'"(?:[^"\\]|\\.)*"', '""', text)):
        found = list(mentions_in(body))
        named += [body] if found or HANDS_ON.search(body) else []
        for is_passed in found:
            # A conversion is asked by `?`, of what a call gave.
            is_passed = is_passed or name == "from"
            passed += is_passed
            own[name] = own.get(name, 0) + (not is_passed)
    seen = named and hashlib.sha256("\n".join(named).encode()).hexdigest()[:8]
    return {name: count for name, count in own.items() if count}, passed, seen


def rows(checker):
    for path in sorted(filter(is_of_program, checker.tree.files)):
        text = without_comments(text_of(path))
        for found in RENAMED.finditer(text):
            checker.find(1, f"{path}: {found[1] or found[2]}: another name of a failure")
        own, passed, seen = counted(text)
        if seen:
            told = [f"`{name}` {count}" for name, count in own.items()]
            told += [f"{passed} passed on"] if passed else []
            told += [f"seen as {seen}"]
            yield f"- `{path.removeprefix('crates/')}`: {', '.join(told)}"


MAKERS = {"failures": rows}
