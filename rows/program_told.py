"""What `--explain` tells, behind the fault, of configurations, files, databases and plans."""

import os

from rows.program import DEFAULT, MADE, NO_BOOK, SHUT, SILVER, SIZES, UNREAD, Site, flipped
from rows.program import done, log_of, refused
from served import CLIENT_AND_KEYS, check, plan

PLAN, CLIENT = "[[plan]];class='default';block=1;unit=0", "[[client]];name='a';address='1.2.3.4'"
TOKEN = "token='abcdefghijklmnop';"
# A table whose last name has a wrong value, and the rule of that name.
RULES = [
    ("client;address='1.2.3.4';secret='s';name='a b'", "1 to 32 of A-Z a-z 0-9 . - _ in quotes"),
    ("client;name='a';secret='s';address='1.2.3.04'",
     "four numbers from 0 to 255 with dots, without leading zeros, in quotes"),
    ("client;name='a';address='1.2.3.4';secret=''", "1 to 128 octets in quotes"),
    ("plan;block=1;unit=0;class=''", "1 to 253 octets in quotes"),
    ("plan;class='a';unit=0;block=0",
     "a whole number from 1 to 9007199254740992, without quotes"),
    ("plan;class='a';block=1;unit='1'", "a whole number from 0 to 1000000000, without quotes"),
    ("plan;class='a';block=1;unit=0;count='up'", "both, in or out, in quotes"),
    ("key;account='a';token='abcdefghijklmno'", "16 to 64 of A-Z a-z 0-9 - in quotes"),
    (f"key;{TOKEN}account=''", "1 to 253 octets in quotes"),
    (f"key;{TOKEN}cashier=false", "true, without quotes, where the key is the cashier's"),
    (f"key;{TOKEN}logins=false", "true, without quotes, where the key asks what a login may use"),
    (f"key;{TOKEN}cashier=true;accounts=false",
     "true, without quotes, where the cashier sees accounts"),
    ("withdrawn;until=1;account=''", "1 to 253 octets in quotes"),
    ("withdrawn;account='a';until=-1",
     "the last second, counted since 1970, as a whole number without quotes")]
# A configuration, with a sign for each line's end; the line and what is told of its first fault.
WRONG = [
    ("[[client]];name = 'a;", 2, "this is not TOML: invalid string"),
    ("", 0, "no [[plan]] has the class default"),
    ('"na\\ns"=1', 0, '"na\\ns" is no name: there are [[client]], [[plan]], [[key]], [stamp] and '
     "[[withdrawn]]"),
    ("[client];name='a'", 0, "client is written [[client]]"),
    ("client=[1]", 0, "a table of names stands in double brackets, as [[client]]"),
    ("plan=[{class='a',block=1}]", 0, "this [[plan]] has no unit"),
    ("plan=[{class='a',block=1,unit=0},{class='a',block=2,unit=0}]", 0,
     "this [[plan]] has the class of an earlier one"),
    (f";{CLIENT};port=1", 2, '"port" is no name of a [[client]], which has name, address and '
     "secret, and perhaps stamped, proxy and plan"),
    ("[[client]];name=''';[[client]];''';address='1.2.3.4';secret='s'", 0,
     f"name of this [[client]] is {RULES[0][1]}"),
    (f"{CLIENT};secret='s';;  [[ client ]] # b;name='a';address='1.2.3.5';secret='t'", 6,
     "this [[client]] has the name of the one at line 1"),
    (f"{CLIENT};secret='s';[[client]];name='b';address='1.2.3.4';secret='t'", 5,
     "this [[client]] has the address of the one at line 1"),
    (f"{PLAN};[[key]];{TOKEN}account='a';[[key]];{TOKEN}account='b'", 8,
     "this [[key]] has the token of the one at line 5"),
    (f"{PLAN};[[withdrawn]];account='a'", 5, "this [[withdrawn]] has no until"),
    (f"{PLAN};[[key]];{TOKEN}", 5, "this [[key]] has none of account, cashier and logins"),
    (f"{PLAN};[[key]];{TOKEN}account='a';cashier=true", 5,
     "this [[key]] has more than one of account, cashier and logins"),
    (f"{PLAN};[[key]];{TOKEN}account='a';accounts=true", 5,
     "this [[key]] has accounts without cashier"),
    (f"[stamp];secret='0123456789abcde';{PLAN}", 0, "a secret of [stamp] has 16 to 64 octets"),
    ("[stamp];secret='0123456789abcdef';new='a'", 0,
     "[stamp] has secret, perhaps old, and no other name"),
    (f"{PLAN};{CLIENT};secret='s';stamped=true", 5, "the logins of this [[client]] are stamped, "
     "and there is no [stamp] with a secret")]


# Texts, and how their first fault is printed: what is behind it is wrong, too. Of each array there
# are the most elements, and one more.
BOTH = "{name='a',address='1.2.3.4',secret='s'},{name='b',address='1.2.3.4',secret='s'}"
PRICE, KEY = "{class='a',block=1,unit=0}", "{token='al-key-000000000',account='al'}"
FAULTS = [
    (f"client=[{BOTH},1]", "TwiceClient in Client 1"),
    (f"client=[{BOTH.replace('4', '256', 1)}]", "BadClient in Client 0"),
    ("client=[{name='',address='1.2.3.4',secret='s',port=1}]", "BadShape in Client 0"),
    (f"plan=[{PRICE},{PRICE},1]", "TwicePlanned in Plan 1"),
    (f"plan=[{PRICE},{PRICE.replace('0', '1000000001')}]", "BadPlan in Plan 1"),
    (f"key=[{KEY},{KEY},1];{PLAN}", "TwiceKeyed in Key 1"),
    (f"withdrawn=[1];key=[{KEY.replace('-', '_')}];{PLAN}", "BadKey in Key 0"),
    (f"withdrawn=[1];stamp={{secret='0123456789abcdef',old=''}};{PLAN}", "BadStamp in Top 0"),
    (f"withdrawn=[{{account='',until=1}},1];{PLAN}", "BadWithdrawn in Withdrawn 0"),
    *((f"{name}=[{'0,' * (most + more)}];{end}", f"BadShape in {'Top' if more else name.title()} 0")
      for name, most, end in (
          ("client", 1024, ""), ("plan", 256, ""), ("key", 4096, PLAN), ("withdrawn", 1024, PLAN))
      for more in (0, 1))]


def ruled():
    """A configuration for each rule, which its second table breaks."""
    for text, rule in RULES:
        table, *names = text.split(";")
        told = f"{names[-1].split('=')[0]} of this [[{table}]] is {rule}"
        yield ";".join([PLAN, f"[[{table}]]", *names]), 5, told


def configurations(folder):
    """The first fault of a configuration, and its line."""
    site = Site(folder, "configurations")
    for text, line, told in [*WRONG, *ruled()]:
        site.put("f", text.replace(";", "\n"))
        status, said, errors = site.ran("check - --config f --explain")
        begun, place = errors.startswith("config: "), f"f line {line}" if line else "f"
        check(f"explained: {text[:60]}", (status, said, begun, errors.splitlines()[1:]),
              (1, "", True, [f"explained: {place}: {told}"]))
    for text, told in FAULTS:
        site.put("f", text.replace(";", "\n"))
        check(f"{told}: {text[:40]}", site.ran("check - --config f"), refused(f"config: {told}"))


# Two clients and two keys, of which the second each has a value of the sample.
SAMPLE = (f"{CLIENT};secret='xyzzy5462';[[client]];name='b';address='10.0.0.2';secret='xyzzy5461';"
          f"{PLAN};[[key]];{TOKEN}account='a';[[key]];token='cash-key-00000001';account='bo'")
# The same in tables that no header begins.
INLINE = ("client=[{name='b',address='10.0.0.2',secret='xyzzy5461'}];plan=[{class='default',"
          "block=1,unit=0}];key=[{token='bo-key-0000000001',cashier=true}]")


def samples(folder):
    """Values of the sample, which is public, are named."""
    site, public = Site(folder, "samples", SAMPLE.replace(";", "\n")), "is the sample's, which is"
    wanted = (f"warning: radacctd.toml line 5: the secret of client b {public} public\n"
              f"warning: radacctd.toml line 16: the token of Key 1 {public} public\n")
    sizes = "ok: 2 clients, 1 plans, 2 keys\n"
    site.comes(("check - --explain", (0, sizes, wanted)), ("check -", (0, sizes, "")))
    site.put("inline", INLINE.replace(";", "\n"))
    site.comes(("check - --config inline --explain", (
        0, "ok: 1 clients, 1 plans, 1 keys\n", f"warning: inline: the secret of client b {public} "
        f"public\nwarning: inline: the token of Key 0 {public} public\n")))


TO_DO = ": restore a copy, or give --lose-damaged-commits, which loses them"
BEHIND = "frame 1 of its log is damaged, and {} there or behind it" + TO_DO
UNSEEN = "frame 1 of its log is damaged, and this log shows no lost commit"
LEFT = ("next to it is a log, LOG, of a book that is missing: put the book's file back; init makes "
        "no book next to that log").replace("LOG", "lost-wal")
HURT = "the header of its log is damaged, and each commit in it is lost"
TOLD = [
    ("check - --config none", UNREAD, "none: there is no such file"),
    ("check - --config .", UNREAD, ".: it is no regular file"),
    ("check --db none", SHUT, "none: there is no such file, and init makes one"),
    ("check --db short", SHUT, "short: it has fewer than 100 octets, so it is no book: move it "
     "away, and init makes one"),
    ("check --db empty", NO_BOOK, "empty: it is an empty file, and init makes a book in it"),
    ("check --db text", SHUT, "text: it is no SQLite database"),
    ("check --db two", SHUT, "two: it has a second name (a hard link)"),
    ("check --db hurt", SHUT, f"hurt: {HURT}{TO_DO}"),
    ("check --db torn", SHUT, f"torn: {BEHIND.format('2 commits end')}"),
    ("check --db one", SHUT, f"one: {BEHIND.format('1 commit ends')}"),
    ("check --db spilt", SHUT, f"spilt: {UNSEEN}: a killed sqlite3 leaves that, and so does a lost "
     "block: restore a copy, or give --lose-damaged-commits to go on"),
    ("check --db hurt --lose-damaged-commits", SHUT, "hurt: it is no SQLite database"),
    ("check --db lost", SHUT, f"lost: {LEFT}"), ("init --db lost", SHUT, f"lost: {LEFT}"),
    ("init --db spilt", SHUT, f"spilt: {UNSEEN}"), ("init --db hurt", SHUT, f"hurt: {HURT}"),
    ("init --db none/book", SHUT, "none/book: its folder is missing"),
    ("init --db .", SHUT, ".: it is no regular file"),
    ("init --db " + "n" * 248, SHUT, "n" * 248 + ": its name has more than 247 octets"),
    ("check --db blank", NO_BOOK, "blank: it is an empty database, and init makes a book in it"),
    ("check --db foreign", NO_BOOK, "foreign: it has the tables of another program"),
    ("check --db dumped", NO_BOOK, "dumped: it has the tables of a book in another form or order, "
     "as VACUUM or a dump leaves them"),
    ("check --db summed", SIZES, "summed: each page ends in a sum"), ("check", SIZES, None),
    ("check --status book", refused("file: would be overwritten"), "a file of --status or "
     "--balances, or the same name with .new, is the book, its log, the configuration or the other "
     "file, or radacctd did not write it"),
    ("serve --turns 1 --bind 127.0.0", (4, "", "socket: cannot bind\n"),
     "UDP 127.0.0:1813: the address is four numbers from 0 to 255 with dots")]


def files(folder):
    """Why a file is not read, opened or made."""
    site, hurt = Site(folder, "files"), flipped(log_of(1, 1), 99)
    for name, log in (("hurt", flipped(hurt, 30)), ("one", flipped(log_of(1), 99)), ("torn", hurt),
                      ("spilt", flipped(log_of(0), 99)), ("lost", log_of(1, 1, 1))):
        site.put(name, b"-" * 200)
        site.put(name + "-wal", log)
    os.remove(site.at("lost"))
    for name, octets in (("short", 99), ("empty", 0), ("text", 200), ("two", 200)):
        site.put(name, b"-" * octets)
    os.link(site.at("two"), site.at("three"))
    site.comes(("init", MADE), ("init --db summed --page-sums", MADE))
    site.alter("PRAGMA user_version = 1", "blank")
    site.alter("CREATE TABLE meta (name TEXT) STRICT", "foreign")
    tables = ("meta", "account", "voucher", "session", "price_plan")
    site.alter("".join(f"CREATE TABLE {it} (name TEXT) STRICT;" for it in tables), "dumped")
    for line, (status, said, errors), told in TOLD:
        wanted = (status, said, errors + (f"explained: {told}\n" if told else ""))
        check(f"{line[:60]} --explain", site.ran(line + " --explain"), wanted)


# Plans next to `default`, and what is told of them, if the book counts the output of `gold`.
PLANS = [
    (plan("gold", "out"), None),
    (plan("gold", "out", 1_048_575), "plan gold has another block in the book"),
    (plan("gold", "out", unit=11), "plan gold has another unit in the book"),
    (plan("gold", "in"), "plan gold counts other octets in the book"),
    ("", "plan gold is in the book, and not in the configuration"),
    (plan("gold", "out") + SILVER, "plan silver is in the configuration, and not in the book: "
     "`radacctd plans` adds it")]


def plans(folder):
    """Which plan differs from those that a book keeps, and how."""
    site = Site(folder, "plans", CLIENT_AND_KEYS + DEFAULT + PLANS[0][0])
    site.comes(("init", MADE), ("plans --list", done(
        "class,block,unit,count", "default,1000000,5,both", "gold,1048576,10,out")))
    for text, told in PLANS:
        site.put("radacctd.toml", CLIENT_AND_KEYS + DEFAULT + text)
        wanted = f"db: PlansDiffer\nexplained: book: {told}\n" if told else ""
        check(f"explained: {told}", site.ran("check --explain")[2], wanted)


def run(folder):
    """Tries the rows in an empty folder."""
    for part in (configurations, samples, files, plans):
        part(folder)
