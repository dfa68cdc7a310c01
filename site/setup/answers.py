"""What a site is to be: the answers of a file, each within its bounds."""

import ipaddress
import os
import re
import secrets
import stat
import tomllib

from radacctd_site.core import Failed, names, people
from radacctd_site.core.money import MOST_DECIMALS

VENDORS = ("mikrotik", "unifi", "pfsense", "openwrt", "aruba", "cisco", "other")
# What stands between marks in each file, as it is.
SECRET = re.compile(r"""[^'"\\\x00-\x1f]{1,128}""")
# Names and addresses that the set-up has itself.
TAKEN_NAMES = ("front", "other", "books", "radacctd-setup")
TAKEN_ADDRESSES = ("127.0.0.1", "127.0.0.8", "127.0.0.9", "::1")


class Wrong(Failed):
    """Which answer is wrong, and what is expected."""

    status = 2


def need(holds, what):
    if not holds:
        raise Wrong(what)


# A rule of a member takes its value. It returns the value as all files spell it, or raises a
# ValueError that says what the member is to be.


def rule(says, holds):
    """A rule for a value that stays as it is."""

    def read(value):
        if not holds(value):
            raise ValueError(says)
        return value

    return read


def matches(says, pattern):
    return rule(says, lambda it: isinstance(it, str) and re.fullmatch(pattern, it))


def number(least, most):
    return rule(f"a whole number from {least} to {most}",
                lambda it: type(it) is int and least <= it <= most)


def one_of(*known):
    return rule(f"one of {', '.join(known)}", lambda it: it in known)


def of(kind, says):
    return rule(says, lambda it: isinstance(it, kind))


def is_class(it):
    """Whether FreeRADIUS' files read the class of a plan as it is, and setup makes no such plan."""
    is_text = isinstance(it, str) and 1 <= len(it.encode()) <= names.LONGEST
    return is_text and it.isprintable() and not set(it) & set('";\\%{') and it != "debit"


def network_of(text):
    """An address or a network, as a text has it."""
    try:
        # A number is an address to this module, and no operator's; nor has a file a zone's name.
        return ipaddress.ip_network(text if isinstance(text, str) and "%" not in text else "")
    except ValueError as why:
        what = why if "host bits" in str(why) else repr(text)
        raise ValueError(f"no address, and no network: {what}") from None


def one_address(text):
    """An address of one machine, as all files spell it: without the /32 that a network has."""
    network = network_of(text)
    it = network.network_address
    is_none = (it.is_unspecified or it.is_multicast or str(it) == "255.255.255.255"
               or it.version == 6 and it.ipv4_mapped)
    if network.num_addresses > 1 or is_none:
        raise ValueError(f"no address of one machine: {text!r}")
    return str(it)


def address(text):
    """An access server's address, or the network of several."""
    network = network_of(text)
    found = one_address(text) if network.num_addresses == 1 else str(network)
    if not network.prefixlen:
        raise ValueError(f"every address there is: {found}")
    if found in TAKEN_ADDRESSES:
        raise ValueError(f"this machine's own: {found}")
    return found


FLAG, TABLE = of(bool, "true or false"), of(dict, "a table")
FREERADIUS = rule('true, false or "own"', lambda it: isinstance(it, bool) or it == "own")
LIST = of(list, "a list in brackets")
PRINTABLE = rule("a text in quotation marks, and printable",
                 lambda it: isinstance(it, str) and it.isprintable())
PATH = matches("a path from the root", "(/[A-Za-z0-9._/-]+)?")
HOST = r"(?=.{1,253}$)[a-z0-9]([a-z0-9-]*[a-z0-9])?(\.[a-z0-9]([a-z0-9-]*[a-z0-9])?)+"
PERSONS = rule("a list of names, each 1 to 32 letters, digits or . _ - @, and - is not first",
               lambda found: isinstance(found, list) and all(
                   isinstance(it, str) and people.NAME.fullmatch(it) for it in found))
OF_SQL = matches("1 to 253 letters, digits or . _ : -", "[A-Za-z0-9._:][A-Za-z0-9._:-]{0,252}")
# The members of a file and of its tables: what each is if it is left out, and its rule. None: it
# must be there.
TOP = {
    "name": ("", PRINTABLE), "freeradius": (True, FREERADIUS),
    "server": ("", lambda it: one_address(it) if it != "" else it),
    "host": ("", matches("no name of a host, as wifi.example.org", f"({HOST})?")),
    "certificate": ("", PATH), "certificate_key": ("", PATH),
    "currency": ("", PRINTABLE), "decimals": (2, number(0, MOST_DECIMALS)),
    "cashiers": ([], PERSONS), "operators": ([], PERSONS),
    "plan": (None, LIST), "access_server": ([], LIST),
    "pair": ({}, TABLE), "sql": ({}, TABLE), "secrets": ({}, TABLE),
}  # fmt: skip
PLAN = {
    "class": (None, rule('a text of 1 to 253 octets without " ; \\ % { and what nobody sees: '
                         "FreeRADIUS' files would read that otherwise. And setup makes the plan "
                         "debit itself", is_class)),
    "block": (None, number(1, 9_007_199_254_740_992)), "unit": (None, number(0, 1_000_000_000)),
    "count": ("both", one_of("both", "in", "out")),
}  # fmt: skip
ACCESS_SERVER = {
    "name": (None, matches("1 to 32 of A-Z a-z 0-9 . _ -, and no . or - is first. These are taken: "
                        + ", ".join(TAKEN_NAMES),
                        rf"(?!({'|'.join(TAKEN_NAMES)})$)[A-Za-z0-9_][A-Za-z0-9._-]{{0,31}}")),
    "address": (None, address), "vendor": ("other", one_of(*VENDORS)),
    "members": ([], lambda found: [one_address(it) for it in LIST(found)]),
}  # fmt: skip
PAIR = {"own": (None, one_address), "other": (None, one_address), "second": (False, FLAG)}
SQL = {"server": ("localhost", OF_SQL), "port": (5432, number(1, 65535)),
       "database": ("radius", OF_SQL), "login": ("radius", OF_SQL),
       "password_file": (None, matches("a path from the root", "/[A-Za-z0-9._/-]+"))}
# What a member needs next to it.
NEEDS = [("cashiers", "host"), ("host", "name"), ("host", "currency"),
         ("certificate", "certificate_key"), ("certificate_key", "certificate")]


def table(found, rules, where="the file"):
    """The members of a table as they are read, each that is left out as it is usual."""
    need(isinstance(found, dict), f"{where} is a table")
    for it in found:
        need(it in rules, f"{where} has no member `{it}`, only {', '.join(rules)}")
    return {it: member(found, it, where, *rules[it]) for it in rules}


def member(found, it, where, usual, read):
    need(it in found or usual is not None, f"{where} lacks `{it}`")
    try:
        return read(found[it]) if it in found else usual
    except ValueError as why:
        raise Wrong(f"{where}: `{it}` is {why}") from None


class Answers:
    """What the site is to be."""

    def __init__(self, found):
        it = table(found, TOP)
        self.found = {**it, **found}
        # One without a member is no site without it: what it lacks is said.
        for name, rules in (("pair", PAIR), ("sql", SQL)):
            it[name] = table(it[name], rules, f"[{name}]") if name in found else None
        vars(self).update(it)
        self.plans, self.access_servers = (
            [table(each, rules, f"[[{name}]] number {at}") for at, each in enumerate(it[name], 1)]
            for name, rules in (("plan", PLAN), ("access_server", ACCESS_SERVER)))
        self.has_front, self.is_own = bool(it["freeradius"]), it["freeradius"] == "own"
        need("default" in [each["class"] for each in self.plans],
             "each site has a plan `default`: write a [[plan]] of it")
        for name, rows, key in (("plan", self.plans, "class"),
                                ("access_server", self.access_servers, "name"),
                                ("access_server", self.access_servers, "address")):
            values = [each[key] for each in rows]
            twice = [each for each in values if values.count(each) > 1]
            need(not twice, f"two [[{name}]] have one {key}: {twice[:1]}")
        for name, needed in NEEDS:
            need(it[needed] or not it[name], f"`{name}` needs `{needed}`")
        need(it["freeradius"] is True or not (self.pair or self.sql),
             "`pair` and `sql` need a FreeRADIUS that setup makes: freeradius = true")
        self.test_addresses()
        for name, value in self.secrets.items():
            need(isinstance(value, str) and SECRET.fullmatch(value),
                 f"[secrets]: `{name}` is no secret of a set-up")

    def secret(self, name, begin=""):
        """128 bits, in letters and digits; or what the other machine of a pair has."""
        return self.secrets.get(name) or begin + secrets.token_hex(16)

    def test_addresses(self):
        """Without FreeRADIUS access servers report to radacctd itself, by IPv4 alone."""
        for it in self.access_servers:
            need(self.has_front or not set("/:") & set(it["address"]),
                 f"access server {it['name']}: without FreeRADIUS `address` is one of IPv4")
        need(self.has_front or ":" not in self.server,
             "without FreeRADIUS `server` is an address of IPv4")
        need(self.has_front or self.server or not self.access_servers,
             "without FreeRADIUS access servers report to radacctd itself: give `server`")
        own, other = [self.pair[it] for it in ("own", "other")] if self.pair else ("own", "other")
        need(own != other, "[pair]: both machines have one address")
        need(":" not in own + other, "[pair]: own and other are addresses of IPv4")
        for each in self.operators:
            need(each in self.cashiers, f"operators: {each!r} is none of `cashiers`")


def read(path):
    """The answers of a file. One with secrets is for its owner alone."""
    try:
        with open(path, "rb") as file:
            status = os.fstat(file.fileno())
            # As an editor of Windows marks it.
            text = file.read().decode("utf-8-sig")
        found = Answers(tomllib.loads(text.replace("\r\n", "\n")))
        need(not found.secrets or not stat.S_IMODE(status.st_mode) & 0o077,
             f"others may read {path}, which has secrets: chmod 600 {path}")
        return found
    except OSError as fault:
        raise Wrong(f"cannot read {path}: {fault.strerror}") from None
    except (tomllib.TOMLDecodeError, UnicodeDecodeError) as fault:
        raise Wrong(f"{path} is no TOML: {fault}") from None
    except Wrong as why:
        raise Wrong(f"{path}: {why}") from None
