"""Users and groups: in a file that the pages' user writes, or in a PostgreSQL database."""

import os
import re
import secrets

from radacctd_site.core import Failed, files, machine, places, steps
from radacctd_site.core.steps import Step
from radacctd_site.front import clients

FILE = f"{places.USUAL}/users.db"
# FreeRADIUS' tables, as its queries read them. Its own file of them is its user's to write.
PAIR = "attribute TEXT NOT NULL, op TEXT NOT NULL, value TEXT NOT NULL"
TABLES = "".join(f"CREATE TABLE {name} (id INTEGER PRIMARY KEY, {whose} TEXT NOT NULL, {more});\n"
                 f"CREATE INDEX {name}_{whose} ON {name} ({whose});\n" for name, whose, more in (
                     ("radcheck", "username", PAIR), ("radgroupcheck", "groupname", PAIR),
                     ("radreply", "username", PAIR), ("radgroupreply", "groupname", PAIR),
                     ("radusergroup", "username", "groupname TEXT, priority INTEGER DEFAULT 1")))
POSTGRESQL = """\
# Where users and groups are: FreeRADIUS' schema. `radacctl setup` wrote this file.
driver = "rlm_sql_postgresql", dialect = "postgresql", query_timeout = 3
server = "{server}", port = {port}, radius_db = "{database}"
login = "{login}", password = "{password}"
"""


def of(answers, of_group):
    """The steps to users.conf, and to what it names."""
    if answers.sql:
        yield of_group("users.conf", lambda old: old or POSTGRESQL.format(
            password=password(answers.sql["password_file"]), **answers.sql))
        return
    yield of_group("users.conf", lambda old: old or clients.own("raddb/users.conf"))
    if answers.is_own:
        return
    yield Step(f"make {FILE}, with FreeRADIUS' tables of users",
               lambda: rows("radusergroup") is not None, lambda: sql(f"BEGIN;\n{TABLES}COMMIT;\n"))
    rights = lambda: (*steps.ids(places.USER, places.RADIUS_USER), 0o640)
    yield Step(f"let {places.RADIUS_USER} read {FILE}",
               lambda: steps.rights_of(os.lstat(FILE)) == rights(),
               lambda: files.give(FILE, places.USER, *rights()[1:]))
    yield Step(f"make the login {clients.TEST_NAME}, which has no money but for a try",
               lambda: bool(rows("radcheck")), make_login)


def password(path):
    found = files.text(path).rstrip("\n")
    if not re.fullmatch(r'[ -~]{1,200}', found) or set(found) & set('"\\$%{'):
        raise Failed(f"{path} has no password of one line without \" \\ $ % and {{")
    return found


def sql(text):
    """What SQL prints, which the user does whose file it is."""
    words = [*machine.as_user(places.USER), "sqlite3", "-safe", "-bail", FILE]
    return machine.given(words, text, 60)


def rows(table):
    """What a table has of the try's login; None if it cannot be read."""
    column = "value" if table == "radcheck" else "groupname"
    try:
        return sql(f"SELECT {column} FROM {table} WHERE username = '{clients.TEST_NAME}';").split()
    except Failed:
        return None


def open_to_all():
    """The names that need no password."""
    return sql("SELECT DISTINCT username FROM radcheck WHERE attribute = 'Auth-Type' OR "
               "attribute LIKE '%-Password' AND value = '';").splitlines()


def classes():
    """The plans that groups have."""
    return sql("SELECT DISTINCT value FROM radgroupreply WHERE attribute = 'Class';").splitlines()


def make_login():
    sql("INSERT INTO radcheck (username, attribute, op, value) VALUES "
        f"('{clients.TEST_NAME}', 'Cleartext-Password', ':=', '{secrets.token_hex(16)}');\n")
