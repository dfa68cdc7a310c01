"""Which sources say what the files of a book hold as the program begins, open a book, or call the
system on files.

What is assumed of the files is one value, which an open uses up. So if one source names it, and one
opens a book with it, no book is opened twice. And no contract of the kit says what a call on a file
does to it: so those that change a file stand in one source, and who only looks is given no more
than `ReadsFiles`. A person reads these sources; each stands here with its reason.
"""

import hashlib
import re

from claims_lib.tree import FOR_TESTS, text_of, without_comments

READS = "crates/acct_reads/src/lib.rt"
JOBS = "crates/acct_program_jobs/src/"
SQL_TABLES = "crates/acct_sql_tables/src/"
COMMANDS = "crates/acct_program_commands/src/"
CHANGES = COMMANDS + "file_changes.rt"
MAIN = "crates/radacctd/src/main.rt"
NET = "crates/acct_net/src/"
DATAGRAMS = NET + "datagrams.rt"

# Each rule: what it finds, how, and the sources that may have it.
RULES = (
    (
        "what the files of a book hold as the program begins",
        r"\bWary\b|\bsqlite::(?:\w+::|\{[^;]*)?(?:Unknown\b|\*)|\buse sqlite as\b",
        {MAIN: "it says so once, and hands it down"},
    ),
    (
        "an open of a book",
        r"\b\w*Connection(?:::<[^;]*>)?::open\w*|\bopen_(?:from|in_memory)\b",
        {
            JOBS + "database.rt": "it opens the book in a file",
            JOBS + "feed_job.rt": "it opens an empty one in memory",
        },
    ),
    (
        "a call that changes a name, a length or a mode",
        r"\b(?:remove_file|remove_dir\w*|rename|set_len|set_permissions|set_times|create_new"
        r"|create_dir\w*|hard_link|symlink|l?chown|OpenOptions|open_file|bind_unix|libc)\b"
        r"|\btruncate\((?:true|false)\)|\bFile::create\b|\bfs::(?:write|copy|create)\b"
        r"|\bruntime\.copy\b|\bFiles::",
        {
            CHANGES: "all are here",
            READS: "it opens for reading and writing, and lets nobody write",
        },
    ),
    (
        "a file that is made or replaced",
        r"\b(?:open_empty|put_in_place|make_private)\b",
        {
            CHANGES: "it says what each call does",
            COMMANDS + "fresh_file.rt": "it writes the files of counts and of balances",
            JOBS + "database.rt": "it makes the two files of a new book",
        },
    ),
    (
        "a proof that a file was put or read, or octets sent",
        r"\bunfolding\([^)]*\b(?:Puts|Seen|Sent)::\w+",
        {
            READS: "its calls alone say what was opened, and where a name leads",
            CHANGES: "`put_in_place` alone says that a file was put",
            COMMANDS + "config_file.rt": "`read_file` alone says what was read",
            DATAGRAMS: "`send_waiting` alone says what was sent",
        },
    ),
    (
        "the network, by which connections are made",
        r"(?<!specs\.)\bNet\b",
        {
            NET + "binds.rt": "it binds, for all others",
            "crates/acct_program_explain/src/socket_faults.rt": "it binds to see why not",
            "crates/radacctd/src/explaining.rt": "it hands it to that",
        },
    ),
    (
        "a datagram that is sent, or a connection that is made",
        r"\b(?:send_to|connect(?:_timeout)?)\(",
        {DATAGRAMS: "it sends replies"},
    ),
)
# A proof that unfolds one of these says of a file whatever it likes.
SEALED = re.compile(r"\bunfolding\b[^\n]*\b(?:Was(?:Asked|Opened|Put|Read|Sent)|LeadsTo)\b")

# How many calls of some kinds stand in each source: no second one, and none elsewhere. A clause says
# what is bound, put or sent, and of none that nothing else is.
COUNTED = (
    (
        "binds of sockets",
        re.compile(r"(?:\b\w+::|\bruntime\.)bind\w*\(|(?<!fn )\b(?:bound|bind_reports)\("),
        {
            NET + "binds.rt": 2,
            DATAGRAMS: 2,
            NET + "desk.rt": 1,
            NET + "sockets.rt": 1,
            "crates/acct_program_explain/src/socket_faults.rt": 2,
            "crates/acct_program_serving/src/sockets_server.rt": 2,
            "crates/acct_program_jobs/src/serving.rt": 1,
        },
    ),
    (
        "calls on the way of a datagram that is sent",
        re.compile(r"\bsend_to\(|(?<!fn )\bsend_waiting\(|\b(?:socket|event_loop)\.send\("
                   r"|\bdatagrams\.reply\("),
        {DATAGRAMS: 4, NET + "event_loop.rt": 1, NET + "sockets.rt": 1},
    ),
    (
        "calls on the way of a response",
        re.compile(
            r"\.accept\(\)|\bCaller::new\(|\b(?:caller|desk)\.answer\(|\bresponse\.write\("
            r"|\bstream\.write\w*\(|\bwrite(?:ln)?!\((?:stream|caller)"
        ),
        {
            NET + "desk.rt": 3,
            NET + "event_loop.rt": 1,
            "crates/acct_net_callers/src/caller.rt": 1,
        },
    ),
    (
        "calls that open or put a file that is rewritten",
        re.compile(r"\bruntime\.(?:open_empty|put_in_place)\("),
        {COMMANDS + "fresh_file.rt": 2},
    ),
    (
        "files that are rewritten from time to time",
        re.compile(r"\b(?:FreshFile::new|ReplacedName::of)\("),
        {
            COMMANDS + "balances_file.rt": 1,
            COMMANDS + "fresh_file.rt": 1,
            COMMANDS + "status_file.rt": 1,
        },
    ),
    (
        "opens of the files of a book",
        re.compile(r"\bopen_(?:from|files_with)\("),
        {JOBS + "database.rt": 2},
    ),
    (
        "reads of a column of a row",
        re.compile(r"\bcolumns\.get\(|(?<!fn )\b\w+_at\((?:alloc, )?columns\b"),
        {
            SQL_TABLES + "columns.rt": 31,
            SQL_TABLES + "listing.rt": 2,
            SQL_TABLES + "queries.rt": 2,
            SQL_TABLES + "session_classes.rt": 4,
        },
    ),
    (
        "makers of a job that has a moment",
        re.compile(r"-> (?:Import|Forward)<"),
        {JOBS + "work.rt": 2},
    ),
    (
        "readings of the clock for the file of a book",
        re.compile(r"\bread_clock\(runtime, files\.database\)"),
        {JOBS + "command.rt": 2},
    ),
    (
        "names of a way to make a book",
        re.compile(r"\bMaking::\w+|\bSelf::(?:New|Migrated|Extended)\b"),
        {JOBS + "command.rt": 3, JOBS + "database.rt": 6, JOBS + "making.rt": 7},
    ),
)
# What is known of files and of sent octets is sealed in these, once each.
SEALS = re.compile(r"^(\w+ pub) (?:Was(?:Asked|Opened|Put|Read|Sent)|LeadsTo)\b", re.M)
# How often each source unfolds one.
UNFOLDS = {CHANGES: 1, COMMANDS + "config_file.rt": 1, READS: 4, DATAGRAMS: 1}

# What a source may name of std where files and processes are. Else all of it is only for the two.
SYSTEM = re.compile(r"std(?:$| |::\*|::(?:fs|rt|process|os)\b)")
NAMED = {
    "std::fs::Metadata",
    "std::os::fd::AsRawFd",
    "std::os::unix::fs::MetadataExt",
    "std::process::ExitCode",
}
CALLERS = {
    READS: "it looks, for all others",
    CHANGES: "it changes, for all others",
}

# The functions that are given the runtime itself. They open a book, or hand the runtime to one that
# does. All others are given the traits that they need.
GIVEN = {
    MAIN: "main order_of explain_wrong_words words_of",
    JOBS + "audit_job.rt": "audit_book audited_from",
    JOBS + "checking.rt": "check check_or_audit check_files check_book checked_from",
    JOBS + "command.rt": "carry_out do_book_job serve_files export exported",
    JOBS + "database.rt": "made adopted listed opened opened_for opened_anew emptied",
    JOBS + "making.rt": "make made_and_closed",
    JOBS + "plans_job.rt": "list_plans listed_from",
    JOBS + "work.rt": "over work_on",
}

# What a person reads, since no clause says it: whole sources, and functions of others.
PAGE = "docs/proofs/AUDIT.md"
BY_EYE = (
    (
        MAIN,
        "main",
        "it passes the streams on, with nothing in between, and says once what is assumed of the"
        " files",
    ),
    (MAIN, "order_of", "the order is the one that the words ask for"),
    (READS, None, "it looks at files, and changes none"),
    (CHANGES, None, "it makes and replaces files as its comments say"),
    (
        COMMANDS + "config_file.rt",
        "read_file",
        "what it gives is all that the file of this name has, or why not",
    ),
    (COMMANDS + "config_file.rt", "opened", "the file read is the one named"),
    (JOBS + "database.rt", "opened", "the file opened is the one named"),
    (
        "crates/acct_net/src/datagrams.rt",
        "RadiusSocket::bind",
        "the socket is bound at the address and port that are kept beside it",
    ),
    ("crates/acct_net/src/desk.rt", "opened", "so is the desk's"),
    (NET + "binds.rt", "Binds::bind_listener", "what it binds is bound there"),
    (NET + "binds.rt", "Binds::bind_datagrams", "so is this"),
    (
        "crates/acct_net/src/datagrams.rt",
        "RadiusSocket::receive",
        "it keeps beside the socket what the system gave: the size and the source of a datagram,"
        " none, or a fault",
    ),
    (DATAGRAMS, "send_waiting", "it sends the octets that it is given, and says how that ended"),
    (NET + "readiness.rt", "Readiness::wait", "it waits no longer than it is told"),
    (JOBS + "database.rt", "keep_private", "nobody but its owner may read a book, whatever its name"),
    (COMMANDS + "book_names.rt", "target_of", "it says where a name leads, whatever the name"),
    (COMMANDS + "site_file.rt", "see", "it looks at the file of this name, each time"),
    (COMMANDS + "kept_names.rt", "is_foreign", "a file that is none of these is foreign"),
    (COMMANDS + "gauges.rt", "note_config", "what is noted is what is shown"),
    (COMMANDS + "gauges.rt", "note_away", "so is this"),
    (COMMANDS + "book_clock.rt", "read_clock", "the moment is the clock's, and the date is that file's"),
    (COMMANDS + "counted_lines.rt", "overdrawn", "as many lines passed of accounts below 0"),
    (COMMANDS + "shared.rt", "write", "each text that it is given is written"),
)
MOST_BY_EYE = 297
MOST_OF_CHANGES = 120

USE = re.compile(r"^\s*(?:pub(?:\([^)]*\))? )?use ([^;]+);", re.M)


def is_of_program(path):
    return path.endswith(".rt") and path.startswith("crates/") and "/src/" in path and not (
        FOR_TESTS.search(path.split("/")[1])
    )


def expanded(tree):
    """The paths of a `use`: `a::{b, c::d}` is `a::b` and `a::c::d`."""
    before, brace, rest = " ".join(tree.split()).partition("{")
    if not brace:
        return [before.strip()]
    parts, depth, begun = [], 0, 0
    inner = rest[: rest.rindex("}")]
    for at, letter in enumerate(inner + ","):
        depth += {"{": 1, "}": -1}.get(letter, 0)
        if letter == "," and not depth:
            parts.append(inner[begun:at].strip())
            begun = at + 1
    paths = [it for part in parts if part for it in expanded(part)]
    return [before if it == "self" else before + it for it in paths]


def named_in(text):
    """What a source names of std: each path, and where it stands."""
    for found in USE.finditer(text):
        for path in expanded(found[1]):
            yield path.removesuffix("::"), found.start(1)
    for found in re.finditer(r"\bstd(?:::\w+)+", USE.sub(lambda it: " " * len(it[0]), text)):
        yield found[0], found.start()


def given_in(text):
    """Each function of a source that names the runtime itself, but in a type of its contract."""
    for found in re.finditer(r"\bHostRuntime\b(?![^⟦⟧]*⟧)", text):
        names = re.findall(r"\bfn (\w+)", text[: found.start()])
        yield names[-1] if names else "", found.start()


def found_in(path, text):
    """What a source has that is not for it: each with its place."""
    for what, pattern, allowed in RULES:
        for found in re.finditer(pattern, text) if path not in allowed else ():
            yield found.start(), " ".join(found[0].split()), what
    for name, at in named_in(text) if path not in CALLERS else ():
        if SYSTEM.match(name) and name not in NAMED:
            yield at, name, "the system's files"
    for name, at in given_in(text):
        if name not in GIVEN.get(path, "").split():
            yield at, f"{name}(.. HostRuntime ..)", "the runtime itself"
    for what, calls, sources in COUNTED:
        found, wanted = list(calls.finditer(text)), sources.get(path, 0)
        if len(found) != wanted:
            at = found[-1].start() if found else 0
            yield at, f"{len(found)} calls", f"other than {wanted} {what}"


def function_in(text, name):
    """A function of a source, or the method of a type, up to the brace that closes it."""
    owner, _, last = name.rpartition("::")
    block = re.search(rf"^impl\b[^{{]*\b{owner}\b[^{{]*\{{", text, re.M) if owner else None
    head = re.compile(rf"^( *)(?:pub(?:\(crate\))? )?fn {last}\b", re.M)
    found = head.search(text, block.end() if block else 0)
    return text[found.start() : text.index(f"\n{found[1]}}}", found.end()) + 2] if found else ""


# What the prover holds a body to is not for a person's eye.
CLAUSE = re.compile(r"\s*(?:ensures|requires|ghost|#\[tactic)\b")


def by_eye():
    """What a person reads: how a page names it, its lines without comments and clauses, and why.

    Its name has a sum of these lines: if they change, the page is made again, and read again.
    """
    for path, name, why in BY_EYE:
        text = without_comments(text_of(path))
        text = function_in(text, name) if name else text
        lines = [it.strip() for it in text.splitlines() if it.strip() and not CLAUSE.match(it)]
        seen = hashlib.sha256("\n".join(lines).encode()).hexdigest()[:8]
        file = f"`{path.removeprefix('crates/')}`"
        yield (f"`{name}` ({file})" if name else file) + f", seen as {seen}", len(lines), why


def check_by_eye(checker):
    """What a person reads has not too many lines. The page's table is made of it."""
    checker.page = PAGE
    if len(text_of(CHANGES).splitlines()) > MOST_OF_CHANGES:
        checker.find(1, f"{CHANGES} has more than {MOST_OF_CHANGES} lines")
    for cell, count, _ in by_eye():
        if not count:
            checker.find(1, f"{cell}: not there")
    total = sum(count for _, count, _ in by_eye())
    if total > MOST_BY_EYE:
        checker.find(1, f"what is read by eye has {total} lines; at most {MOST_BY_EYE} are right")


def check_sealed(checker):
    """What is known of a file comes from the functions that a person reads, once from each."""
    for path, count in UNFOLDS.items():
        if len(re.findall(r"\b(?:Puts|Seen|Sent)::\w+", text_of(path))) != count:
            checker.page = path
            checker.find(1, f"it unfolds what is known of a file other than {count} times")
    seals = []
    for path in checker.tree.files:
        if path.startswith("crates/") and path.endswith(".antt"):
            text = text_of(path)
            seals += SEALS.findall(text)
            if SEALED.search(text):
                checker.page = path
                checker.find(1, "its proof unfolds what is known of a file")
    if seals != ["unfoldable pub"] * 6:
        said = "what was put, read, opened, asked, led to and sent is sealed once each"
        checker.find(1, f"{said}: {seals}")


def check(checker):
    """No other source has what a rule finds, and each that may have it is there."""
    for path in filter(is_of_program, checker.tree.files):
        checker.page, text = path, without_comments(text_of(path))
        for at, found, what in found_in(path, text):
            line = text.count("\n", 0, at) + 1
            checker.find(line, f"`{found}`: {what} is not for this file")
    check_sealed(checker)
    check_by_eye(checker)
    checker.page = ".ci/claims_lib/openers.py"
    allowed = {path for _, _, sources in RULES for path in sources}.union(CALLERS)
    for path in sorted(allowed - checker.tree.paths):
        checker.find(1, f"{path} does not exist: take it out")
    for path, names in GIVEN.items():
        given = {name for name, _ in given_in(without_comments(text_of(path)))}
        for name in sorted(set(names.split()) - given):
            checker.find(1, f"`{name}` of {path} is not given the runtime: take it out")
