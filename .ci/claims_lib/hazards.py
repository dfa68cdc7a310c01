"""Hazards, premises and limits that pages must not lose: each page with the words that say them.

Who shortens a page finds here what has to stay. If the program or its files change so that a hazard
is gone, its row goes with the sentence.
"""

from claims_lib.style import plain
from claims_lib.tree import text_of

KEPT = {
    "README.md": (
        "until its session is carried forward",
        "Reports are signed, not encrypted",
    ),
    "docs/CODEC.md": ("no call tests them for you",),
    "docs/A-LARGE-SITE.md": (
        "A report of a session that was carried forward opens it anew, and charges it again in whole",
        "as long as the server's clock was right all the while",
        "It does not notice a clock that is up to 8 days ahead",
        "If an open session that `--silent` took reports again, credit what it was charged before",
        "An old report without it is taken for one of now",
        "and sums by plan stay for ever",
        "nothing of what was written; other octets of the sector stay",
        "the kernel drops the rest",
        "or the next start fails",
    ),
    "docs/CAMPUS.md": ("A report without a stamp is charged by the client's `plan`",),
    "docs/GONE.md": (
        "The book is `book` and `book-wal`",
        "those commits, for good",
        "If a device garbled the header as power failed, way 1 may lose nothing",
        "a log that was cut short",
        "or of the octets that seal a commit",
        "A removed one ends with the server",
        "do not stop it: the book is missing",
        "damage of the last commit in the log",
        "`init` refuses next to a log with commits",
    ),
    "docs/START.md": (
        "Both files have all secrets. Remove the first one",
        "The book of a site that has sold is copied by hand",
        "It never changes a plan, a secret or a key that is there",
        "Without a certificate it makes one that browsers warn of",
        "its sessions are priced by `default` until then",
        "a restart fails",
    ),
    "docs/TROUBLE.md": (
        "Delete nothing in `/var/lib/radacctd`",
        "these are reports that are not charged yet",
        "FreeRADIUS keeps them, and sends them later",
        "that report is lost until the session's next report",
        "what it used since the last answered one is lost",
        "a Stop of a MikroTik, which tries for seconds",
        "a pair's last seconds, if a disk is lost",
        "what a report that was set aside says, until somebody mends its cause",
        "do not sell it again",
    ),
    "docs/proofs/AUDIT.md": (
        "It needs the copy's right delay, and a clock that was not behind before",
        "the octets of a sector that were not being written stay",
        "an argument (parametricity), not a proof",
        "What a start finds is taken as written",
        "one wrong read, at any time, and nothing is promised of that run",
    ),
    "docs/proofs/BOOK.md": (
        "Change nothing by hand",
        "The file without its log is the whole book only",
        "`cp` of the two files from a running server gives no book",
        "no other program may write such a book",
        "It cannot see a change that leaves every sum right",
    ),
    "docs/proofs/DECISIONS.md": ("nothing is assumed of the octets written",),
    "docs/proofs/DEFINITIONS.md": ("for copies of the right delay, if no clock went back",),
    "docs/proofs/SEMANTICS.md": (
        "of a session that was carried forward: again",
        "at most one more",
        "If an access server uses an id again, the two sessions are one here",
        "Whoever chooses the User-Name chooses who pays",
        "All of this rests on a disk that keeps what it took",
    ),
    "docs/reference/faults.md": (
        "A restart fails",
        "look for the book first, then give `init` again",
        "Moments will be wrong, balances not",
        "the server blocks",
    ),
    "docs/reference/files.md": ("Import from a file, not from a pipe that may break",),
    "docs/reference/requests.md": (
        "Anyone who can watch the network reads keys and answers",
        "an access server that gives one session id to two guests",
    ),
    "docs/reference/settings.md": (
        "that group reads every secret and the cashiers' keys",
        "The secrets and keys of the sample are public",
        "never with `cp` while the server runs",
        "If you run the server without the unit, write that file yourself",
    ),
    "site/desk/README.md": (
        "Do not sell it a second time",
        "They count in the next shift, once the book has them",
        "it cannot be undone",
        "A debit that comes before its plan is priced by `default`, for ever",
        "A name that is misspelled becomes a new account with a debt",
        "It acts once only while it is in the book",
        "Let no access server send the Class `debit`",
    ),
    "site/front/README.md": (
        "MikroTik for seconds only",
        "Somebody who has seen a stamp can charge that account from any access server",
    ),
    "site/guests/README.md": ("So end cards at check-out",),
    "site/monitor/README.md": ("each report that was set aside is money that nobody was charged",),
    "site/pair/README.md": (
        "With a lost disk goes what that machine had answered and not yet passed on",
        "What one book refuses lies in that machine's `aside`",
    ),
    "site/vouchers/README.md": ("the withdrawals since the copy of the night are lost",),
}


def said(text):
    """A page as its words, without marks of bold text, so that a hazard may be in bold or not."""
    return " ".join(plain(text).replace("**", "").split())


def check(checker):
    for checker.page, kept in KEPT.items():
        text = said(text_of(checker.page)) if checker.page in checker.pages else ""
        for words in kept:
            if words.replace("**", "") not in text:
                checker.find(1, f"it no longer says: {words}")
