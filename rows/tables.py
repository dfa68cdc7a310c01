"""Books that Python's SQLite made and spoiled: which of them `check`, `plans` and `migrate` refuse,
what a migration leaves, and what is served of damaged rows.
"""

import contextlib
import os
import shutil
import socket
import sqlite3

from served import CASHIER, CLIENT_AND_KEYS, GUEST, PLANS, ROOT
from served import Server, check, is_response, plan, signed, text_of, write

GOLD, ROOM = "CAST('gold' AS BLOB)", "CAST('room 12' AS BLOB)"
TABLES = text_of(os.path.join(ROOT, "interop", "book.sql"))
# Sessions of a Class with a plan, of one without, and of none. Their rowids are not in the order of
# their keys. Each balance is right.
ROWS = f"""
INSERT INTO account VALUES ({ROOM}, 465), (x'626f', -5);
INSERT INTO voucher VALUES ('V-1', {ROOM}, 500, 1000);
INSERT INTO session (rowid, client, id, account, class, input, output, seconds, first_seen,
  last_seen, state, cause, calling, framed) VALUES
  (7, 'nas-7', x'7332', {ROOM}, {GOLD}, 1048577, 0, 30, 2000, 2001, 2, 6, x'30', x'0a090807'),
  (-3, 'nas-7', x'7331', x'626f', x'', 5, 6, 7, 8, 9, 0, 0, x'', x''),
  (9223372036854775807, 'nas-7', x'', {ROOM}, x'73696c766572', 1, 0, 0, 3, 3, 1, 11, x'', x''),
  (8, 'ap0', x'7332', {ROOM}, {GOLD}, 2, 0, 0, 4, 4, 0, 0, x'', x'');
INSERT INTO session_plan SELECT client, id,
  CASE class WHEN {GOLD} THEN class ELSE CAST('default' AS BLOB) END FROM session;
"""
# What makes a book of today one of an earlier schema number.
OLDER = {
    3: "", 2: "DROP TABLE session_plan; UPDATE meta SET value = 2;",
    1: "DROP TABLE session_plan; DROP TABLE plan_count; UPDATE meta SET value = 1;"}
OF_GOLD = f"WHERE class = {GOLD}"
# A command over a book of a schema number, and what it says after each of these statements.
REFUSED = [
    ("check", 3, "NotABook", [
        "DELETE FROM meta", "DROP TABLE meta", "DROP TABLE session_plan",
        "DROP INDEX voucher_account", "CREATE INDEX other ON session (class)",
        "DROP INDEX session_account; CREATE INDEX session_account ON session (account)"]),
    ("check", 3, "WrongSchema", [
        "UPDATE meta SET value = 1", "UPDATE meta SET value = 9",
        "CREATE TABLE other (name TEXT); UPDATE meta SET value = 9"]),
    ("check", 3, "PlansDiffer", [
        f"UPDATE price_plan SET block = 7 {OF_GOLD}", f"DELETE FROM price_plan {OF_GOLD}",
        f"UPDATE plan_count SET mode = 2 {OF_GOLD}", f"DELETE FROM plan_count {OF_GOLD}",
        "INSERT INTO plan_count VALUES (x'73696c766572', 1)"]),
    ("check", 2, "WrongSchema", [""]), ("check", 1, "WrongSchema", [""]),
    ("plans", 3, "NotABook", ["DELETE FROM meta", "DROP INDEX voucher_account"]),
    ("plans", 3, "WrongSchema", ["UPDATE meta SET value = 1", "UPDATE meta SET value = 9"]),
    ("plans", 3, "PlansDiffer", [
        f"UPDATE price_plan SET block = 7 {OF_GOLD}", f"UPDATE price_plan SET unit = 11 {OF_GOLD}",
        f"UPDATE plan_count SET mode = 1 {OF_GOLD}", f"UPDATE plan_count SET mode = 2 {OF_GOLD}",
        f"DELETE FROM plan_count {OF_GOLD}", "INSERT INTO price_plan VALUES (x'626f', 1, 1)"]),
    ("plans --list", 3, "PlansDiffer", [
        f"UPDATE plan_count SET mode = 3 {OF_GOLD}", f"DELETE FROM plan_count {OF_GOLD}",
        f"UPDATE price_plan SET block = 0 {OF_GOLD}"]),
    ("migrate", 3, "WrongSchema", [""]),
    ("migrate", 2, "WrongSchema", ["UPDATE meta SET value = 3"]),
    ("migrate", 2, "NotABook", [
        "UPDATE meta SET value = 1", "DELETE FROM meta", "DROP TABLE plan_count",
        "CREATE INDEX other ON plan_count (mode)"]),
    ("migrate", 2, "PlansDiffer", [
        f"UPDATE plan_count SET mode = 1 {OF_GOLD}", f"UPDATE plan_count SET mode = 3 {OF_GOLD}",
        f"DELETE FROM plan_count {OF_GOLD}", f"UPDATE price_plan SET unit = 11 {OF_GOLD}",
        "INSERT INTO plan_count VALUES (x'73696c766572', 0)"]),
    ("migrate", 1, "WrongSchema", ["UPDATE meta SET value = 9"]),
    ("migrate", 1, "NotABook", [
        "UPDATE meta SET value = 2", "DELETE FROM meta", "DROP TABLE meta",
        "DROP INDEX voucher_account",
        "CREATE TABLE plan_count (class BLOB NOT NULL PRIMARY KEY, mode INTEGER NOT NULL) STRICT"]),
    ("migrate", 1, "PlansDiffer", [
        f"DELETE FROM price_plan {OF_GOLD}", "INSERT INTO price_plan VALUES (x'626f', 1, 1)"]),
]


def changed(path, *scripts):
    """Runs these over a file, which it makes if there is none."""
    with contextlib.closing(sqlite3.connect(path)) as book:
        for it in scripts:
            book.executescript(it)
    return path


def content(path):
    """The tables and indices of a book, and its rows. Those of sessions have their rowids."""
    with contextlib.closing(sqlite3.connect(path)) as book:
        made = [*book.execute("SELECT type, name, replace(sql, char(10) || ' ', '') FROM"
                              " sqlite_schema")]
        names = [it[1] for it in made if it[0] == "table"]
        what = {it: "rowid, *" if it == "session" else "*" for it in names}
        rows = {it: sorted(book.execute(f"SELECT {what[it]} FROM {it}"), key=repr) for it in names}
    return made, rows


def site(folder, plans=PLANS):
    """A site without a book, in a folder of its own."""
    os.mkdir(folder)
    return Server(folder, plans)


def spoiled(folder):
    """Databases that are refused, and stay as they are."""
    server = site(folder)
    whole = changed(os.path.join(folder, "whole"), TABLES, ROWS)
    rows = [(*it, sql) for *it, scripts in REFUSED for sql in scripts]
    for at, (command, number, fault, sql) in enumerate(rows):
        server.book = os.path.join(folder, f"book-{at}")
        shutil.copyfile(whole, server.book)
        changed(server.book, OLDER[number], sql)
        before = content(server.book)
        said = server.told(*command.split())
        check(f"{command} of number {number}: {sql}", (said, content(server.book) == before),
              ((3, "", f"db: {fault}\n"), True))


def two(count):
    """The plans of a book, of which gold counts this."""
    return plan("gold", count) + plan("default", block=1_000_000, unit=5)


def migrated(folder):
    """Older books become what a book of today is, if the plans count what they counted."""
    for number, mode, count, other in ((1, 0, "both", "in"), (2, 1, "in", "both")):
        server = site(f"{folder}-{number}", two(other))
        changed(server.book, TABLES, ROWS, f"UPDATE plan_count SET mode = {mode} {OF_GOLD}")
        today = content(server.book)
        older = content(changed(server.book, OLDER[number]))
        check(f"number {number}: a plan counts something else",
              (server.told("migrate"), content(server.book) == older),
              ((3, "", "db: PlansDiffer\n"), True))
        write(server.config, CLIENT_AND_KEYS + two(count))
        check("and then what it counted", server.told("migrate"), (0, "schema 3\n", ""))
        check("the book is one of today, with the same rows", content(server.book), today)
        check("its plans are listed", server.told("plans", "--list"), (
            0, f"class,block,unit,count\ngold,1048576,10,{count}\ndefault,1000000,5,both\n", ""))
        check("and audited", server.told("check", "--audit"),
              (0, "ok: 1 clients, 2 plans, 2 keys\n"
                  "balanced: 2 accounts, 4 sessions, 1 vouchers\n", ""))


def answered(server, session, tries):
    """Whether a report of a session is answered within so many tries of a second."""
    request = signed(7, [(40, 3), (44, session), (1, b"room 12"), (25, b"gold"), (42, 1)])
    with socket.socket(socket.AF_INET, socket.SOCK_DGRAM) as caller:
        caller.connect(("127.0.0.1", server.radius))
        caller.settimeout(1)
        for _ in range(tries):
            caller.send(request)
            with contextlib.suppress(TimeoutError):
                return is_response(caller.recv(4_096), request)
    return False


def damaged(folder):
    """Rows that no call of a book makes: a session without a plan, and a plan without a session."""
    server = site(folder)
    # No session can begin behind the greatest rowid.
    changed(server.book, TABLES, ROWS, "UPDATE session SET rowid = 9 WHERE rowid > 8",
            "DELETE FROM session_plan WHERE id = x'7332'",
            f"INSERT INTO session_plan VALUES ('nas-7', x'7333', {GOLD})")
    refused = (3, "db: Unavailable\n")
    check("a session without a plan is not exported", server.told("export", "sessions")[::2],
          refused)
    check("nor audited", server.told("check", "--audit")[::2], refused)
    with server.serving():
        check("a session whose plan is there begins", answered(server, b"s3", 10), True)
        check("a session without a plan is not listed",
              server.ask("GET", "/me/sessions", GUEST)[0], 503)
        check("the balance is told, with what the new one costs",
              server.ask("GET", "/me/balance", GUEST),
              (200, {"account": "room 12", "balance": 455, "overrun": 0}))
        sold = '{"account":"room%2012","sum":45,"voucher":"V-2"}'
        check("a voucher is sold", server.ask("POST", "/topups", CASHIER, sold)[0], 201)
        check("a session without a plan is not charged", answered(server, b"s2", 1), False)
    changed(server.book, "DELETE FROM session WHERE id = x'7332'",
            "UPDATE session_plan SET plan_class = CAST('default' AS BLOB) WHERE id = x'7333'")
    check("a session costs what its kept plan says",
          [it.split(",")[1:8:6] for it in server.export("sessions")[1:]],
          [["", "5"], ["s1", "5"], ["s3", "5"]])


def run(folder):
    """Tries the rows in an empty folder."""
    for part in (spoiled, migrated, damaged):
        part(os.path.join(folder, part.__name__))
