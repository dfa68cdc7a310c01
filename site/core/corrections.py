"""Takes money from an account: a report (RFC 2866) of the client `books`, by the plan `debit`.

The plan costs 1 for each octet, and the report has as many octets as are to be taken. Its session
is the number of what is taken back: so the same report again takes nothing more.
"""

import contextlib
import hashlib
import hmac
import os
import re
import socket
import time

from radacctd_site.core import accounts

CLIENT, CLASS, SOURCE = "books", "debit", "127.0.0.9"
WANTED = {"block": 1, "unit": 1, "count": "both"}
# What the set-up and then a person told the service of radacctd: the last one counts.
DROP_IN = "/etc/systemd/system/radacctd.service.d/radacctd-setup.conf"
DEFAULTS = os.environ.get("RADACCTD_DEFAULTS", "/etc/default/radacctd")
USUAL = "127.0.0.1", 1813
# How often a report is sent, and how long an answer is waited for each time, in seconds.
TRIES, PATIENCE = 2, 3


def is_use(session):
    """Whether a session is a guest's own: no correction, and nothing that was carried forward."""
    return session["client"] != CLIENT and not session["client"].startswith("(")


def settings():
    """Addresses and ports of the service, by the names of its unit, that are not the usual ones."""
    text = ""
    for path in (DROP_IN, DEFAULTS):
        with contextlib.suppress(OSError), open(path, encoding="utf-8") as file:
            text += file.read().replace("\\\n", "") + "\n"
    found = re.findall(r"""(?m)^\s*(?:Environment=)?["']?(RADACCTD_\w+)=["']?([^"'\n]*)""", text)
    return {name: value.strip() for name, value in found}


def where():
    """Where radacctd hears reports."""
    values = settings()
    binds = re.findall(r"--bind[ =](\S+)", values.get("RADACCTD_BIND", ""))
    host = binds[0] if binds and not {USUAL[0], "0.0.0.0"} & set(binds) else USUAL[0]
    return host, int(values.get("RADACCTD_RADIUS_PORT") or USUAL[1])


def has_plan():
    """Whether the book has the plan: another one would price the report otherwise, for ever."""
    return accounts.plans().get(CLASS) == WANTED


def signed(pairs, secret, identifier):
    """An Accounting-Request (RFC 2866, 3) of attributes: a number is one of four octets."""
    values = [(kind, it.to_bytes(4, "big") if isinstance(it, int) else it) for kind, it in pairs]
    attributes = b"".join(bytes([kind, len(it) + 2]) + it for kind, it in values)
    head = bytes([4, identifier]) + (20 + len(attributes)).to_bytes(2, "big")
    return head + hashlib.md5(head + bytes(16) + attributes + secret).digest() + attributes


def is_reply(reply, sent, secret):
    """Whether this is the signed answer to the report that was sent."""
    if len(reply) < 20 or reply[:2] != bytes([5, sent[1]]):
        return False
    reply = reply[: int.from_bytes(reply[2:4], "big")]
    digest = hashlib.md5(reply[:4] + sent[4:20] + reply[20:] + secret).digest()
    return hmac.compare_digest(reply[4:20], digest)


def take(place, secret, account, total, number):
    """Whether the book has answered to a Stop of as many octets as an account is to lose."""
    gigawords, octets = divmod(total, 1 << 32)
    pairs = [(40, 2), (44, number.encode()), (1, account), (25, CLASS.encode()), (42, octets),
             (52, gigawords)]
    sent = signed(pairs, secret, os.urandom(1)[0])
    with contextlib.suppress(OSError), socket.socket(socket.AF_INET, socket.SOCK_DGRAM) as sender:
        sender.bind((SOURCE, 0))
        sender.connect(place)
        for _ in range(TRIES):
            sender.send(sent)
            end = time.monotonic() + PATIENCE
            while (left := end - time.monotonic()) > 0:
                sender.settimeout(left)
                with contextlib.suppress(TimeoutError):
                    if is_reply(sender.recv(4096), sent, secret):
                        return True
    return False
