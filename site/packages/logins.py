"""Codes that log in, and names with a password: each is of a package, sold once, ended for ever.

A login and its credit are in site.db before the one request to the book. It logs in once the book
has the credit: then FreeRADIUS' tables get its rows. What a kill leaves the next minute does.
"""

import collections
import hashlib
import os
import sys
import time
import urllib.parse

from radacctd_site.core import Failed, accounts, acts, codes, desk, names
from radacctd_site.core.acts import Act
from radacctd_site.packages import packages, users

KIND, MOST = "code", 1000
quoted = lambda text: urllib.parse.quote(text, safe="")
# What codes are digested with, as FreeRADIUS does it: front.code_key.
KEY = os.path.join(os.environ.get("CREDENTIALS_DIRECTORY", "/etc"), "radacctd-codes.key")
LIVE, WAITING, REFUSED, ENDED = STATES = ("live", "waiting", "refused", "ended")
Login = collections.namedtuple(
    "Login", "account name secret package sum number sheet who made ended", defaults=[None])
# The state of a login, by what the book said of its credit.
LOGINS = f"""
SELECT login.*, CASE WHEN ended IS NOT NULL THEN '{ENDED}'
    WHEN login.sum = 0 OR act.answer IN ('new', 'repeat') THEN '{LIVE}'
    WHEN act.answer IS NULL THEN '{WAITING}' ELSE '{REFUSED}' END AS state
FROM login LEFT JOIN act ON act.number = login.number AND act.kind = '{KIND}'
"""


def key():
    return desk.key_in(KEY, "CREDENTIALS_DIRECTORY" in os.environ)


def drawn(digest_key, package, code, who, name="", sheet=""):
    """The login of a code: its name in the tables is a digest, its account a serial number. Or that
    of a name, with letters of the code as password."""
    digest = hashlib.sha256((digest_key + code.replace("-", "")).encode()).hexdigest()
    return Login(name or f"c-{digest[:12]}", name or digest, code[:11].lower() if name else code,
                 package.name, package.sum, f"P-{digest[:24].upper()}", sheet, who,
                 int(time.time()))


def refuses(db, account, text=accounts.plain):
    """Why nothing is sold to an account: it is a code, or its login has ended. Else None."""
    if codes.read(account):
        return text("%(account)s is a code. Its account is the number below it on the card, as "
                    "c-0123456789ab.", account=account)
    if db.execute("SELECT 1 FROM login WHERE account = ? AND ended IS NOT NULL",
                  (account,)).fetchone():
        return text("%(account)s has ended: nobody logs in by it any more.", account=account)
    return None


def whose(db, text):
    """The account of a code that logs in, or None."""
    found = db.execute("SELECT account FROM login WHERE secret = ? AND name <> account "
                       "AND ended IS NULL", (codes.read(text),)).fetchone()
    return found and found["account"]


def make(db, book, made):
    """Makes logins, and sells each by one credit. One that is there already stays as it is."""
    taken = users.names(users.PAYERS)[0]
    for it in (it.name for it in made if it.name == it.account):
        # The book says whose a name is: its file of balances may be an hour old.
        asked = accounts.SESSIONS, accounts.TOPUPS
        found = [accounts.told(book, it.encode(), question) for question in asked]
        if None in found:
            raise Failed("the book does not say whose this name is: try again in a minute")
        taken |= {it} if any(found) else set()
    with db:
        db.execute("BEGIN IMMEDIATE")
        for it in made:
            if is_new(db, it, taken):
                db.execute(f"INSERT INTO login VALUES ({', '.join('?' * len(it))})", it)
                acts.begin(db, [act_of(it)] if it.sum else [])
    for it in made:
        row = db.execute("SELECT * FROM login WHERE number = ?", (it.number,)).fetchone()
        if (row["account"], row["package"]) != (it.account, it.package):
            raise Failed(f"this form sold {row['account']} before, and nothing now: load it again")
        if row["sum"] and acts.send(db, book, act_of(row)) in (desk.AWAY, desk.NO_KEY):
            break
    try:
        settle(db)
    except Failed as why:
        print(why, file=sys.stderr, flush=True)  # They are sold: the next minute lets them in.


def is_new(db, it, taken):
    """Whether a login is to be made. Ends if FreeRADIUS, the book or a login has its name."""
    if db.execute("SELECT 1 FROM login WHERE number = ?", (it.number,)).fetchone():
        return False
    asked = ("SELECT 1 FROM login WHERE account = ?1 OR name = ?1 UNION "
             "SELECT 1 FROM act WHERE account = ?2 AND answer IS NULL")
    had = db.execute(asked, (it.account, act_of(it).account))
    if had.fetchone() or it.name in taken:
        raise Failed(f"{it.account} is there already, or was: nothing was sold. Give another name")
    return True


def act_of(it):
    it = Login(*it)
    return Act(it.number, names.for_desk(it.account.encode()), it.sum, KIND, it.who)


def listed(db, where="true", *values, most=-1):
    """Logins, the newest first. Who logs in is who has a row of FreeRADIUS' tables now."""
    try:
        has = users.names()[0]
    except Failed:
        has = set()
    found = f"SELECT * FROM ({LOGINS}) WHERE {where} ORDER BY made DESC, account LIMIT {most}"
    for it in db.execute(found, values).fetchall():
        state = LIVE if it["name"] in has else WAITING if it["state"] == LIVE else it["state"]
        yield {**it, "state": state, "is_code": it["name"] != it["account"]}


def named(db, what):
    """The logins that a person means: by code, name or serial number, or all of a sheet."""
    return list(listed(db, "secret = ? OR account = ?", codes.read(what), what)) or [
        *listed(db, "sheet = ? AND sheet <> ''", what)]


def end(db, accounts):
    """Ends logins: nobody logs in by them from now on."""
    with db:
        db.executemany("UPDATE login SET ended = ? WHERE account = ? AND ended IS NULL",
                       [(int(time.time()), it) for it in accounts])
    settle(db)


def remove_package(db, name):
    """Removes a package, and ends its logins."""
    with db:
        db.execute("BEGIN IMMEDIATE")
        packages.remove(db, name)
        db.execute("UPDATE login SET ended = ? WHERE package = ? AND ended IS NULL",
                   (int(time.time()), name))
    settle(db)


def wanted(db):
    """Which names of FreeRADIUS' tables are the site's, and the rows that they are to have."""
    known, rows = packages.every(db), collections.defaultdict(set)
    for name, package in known.items():
        for table, attribute, value in packages.rows(package):
            rows[table].add((name, attribute, ":=", value))
    for it in db.execute(LOGINS).fetchall():
        if it["state"] == LIVE and it["package"] in known:
            says = (("Cleartext-Password", it["secret"]) if it["name"] == it["account"] else
                    ("Front-Payer", it["account"]))
            rows["radcheck"].add((it["name"], says[0], ":=", says[1]))
            rows["radusergroup"].add((it["name"], it["package"], 1))
    return {"login": {it for it, in db.execute("SELECT name FROM login")},
            "package": {it for it, in db.execute("SELECT name FROM package")}}, rows


def settle(db):
    """Gives FreeRADIUS' tables the rows of packages and logins, as site.db has them."""
    users.put(lambda: wanted(db))


def settle_each_minute(db, book):
    """The same, unless this site has no such tables."""
    del book
    if os.path.exists(users.path()):
        settle(db)
