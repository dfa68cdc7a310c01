"""The desk: the keys that it takes, how a voucher is sent to it, and what its answers mean."""

import http.client
import json
import os
import re
import stat
import urllib.parse

from radacctd_site.core import Failed, corrections, told

# The number of a voucher, and a key.
NUMBER, TOKEN = re.compile("[A-Z0-9-]{1,32}"), re.compile("[A-Za-z0-9-]{16,64}")
# The longest list of what an account has, in octets.
LONGEST_LIST = 1 << 26
# What became of a voucher.
NEW, REPEAT, DIFFERS, LIMIT, NO_KEY = "new", "repeat", "differs", "limit", "no key"
# The book could not say, or a proxy before it; and what is no answer of a desk.
AWAY, STRANGE = "away", "strange"
ANSWERS = {(201, "result", "new"): NEW, (200, "result", "repeat"): REPEAT,
           (409, "error", "voucher differs"): DIFFERS, (422, "error", "balance limit"): LIMIT}


def meaning(status, said):
    """What became of a voucher, by the status and the object that was answered."""
    for (number, member, value), found in ANSWERS.items():
        if status == number and isinstance(said, dict) and said.get(member) == value:
            return found
    if status in (401, 403):
        return NO_KEY
    return AWAY if status in (429, 502, 503, 504) else STRANGE


def object_of(body):
    """The object of an answer, or None."""
    try:
        return json.loads(body)
    except (ValueError, RecursionError):
        return None


def credit(where, key, account, total, number, **how):
    """Sends a voucher to a desk: what became of it, and the status and the body of the answer."""
    body = json.dumps({"account": account, "sum": total, "voucher": number})
    status, said = ask(where, "POST", "/topups", key, body, **how)
    return meaning(status, object_of(said)), status, said


def ask(where, method, path, key, body=None, patience=30, connect=None, most=1 << 20):
    """The status and the body that the desk at an address and a port gave. It has `connect` seconds
    for a connection. OSError says why there is no answer, and has no word of what came."""
    caller = http.client.HTTPConnection(*where, timeout=connect or patience)
    try:
        caller.connect()
        caller.sock.settimeout(patience)
        caller.request(method, path, body, {"Desk-Key": key, "Connection": "close"})
        response = caller.getresponse()
        said = response.read(most)
        if response.length:
            # The desk was killed, say. It is no answer, and nobody knows what became of it.
            raise ConnectionError("half an answer")
        return response.status, said
    except http.client.HTTPException as why:
        raise ConnectionError(type(why).__name__) from None
    finally:
        caller.close()


def secret_in(path, is_handed=False):
    """The octets of a file that only its owner may read, or that systemd has handed on."""
    with told(Failed, f"cannot read {path}: "), open(path, "rb") as file:
        found = os.fstat(file.fileno())
        octets = file.read(65_536)
    is_open = stat.S_IMODE(found.st_mode) & 0o077 or found.st_uid not in (0, os.getuid())
    if is_open and not is_handed:
        raise Failed(f"others may read {path}, or it is another user's: chmod 600 {path}")
    return octets


def key_in(path, is_handed=False):
    """The key of a file, which stands alone on its first line."""
    line, _, rest = secret_in(path, is_handed).decode("ascii", "replace").partition("\n")
    if not TOKEN.fullmatch(line.strip()) or rest.strip():
        raise Failed(f"{path} is to have one key on one line: 16 to 64 of A-Z a-z 0-9 and -")
    return line.strip()


class Desk:
    """The book's desk at an address, for who has a cashier's key."""

    # In seconds: for a connection, and for an answer. nginx waits for 20.
    CONNECT, PATIENCE = 2, 6

    def __init__(self, where, key, secret=b""):
        self.where, self.key, self.secret = where, key, secret

    def look(self, path):
        """The status and the object that is answered to a question; 0 if there is no answer."""
        try:
            status, body = ask(self.where, "GET", path, self.key, patience=self.PATIENCE,
                               connect=self.CONNECT, most=LONGEST_LIST)
        except OSError:
            return 0, None
        found = object_of(body)
        return (status, found) if status != 200 or isinstance(found, dict) else (0, None)

    def debit(self, account, total, number):
        """What became of a correction: new if the book answered it, else nobody knows."""
        octets = urllib.parse.unquote_to_bytes(account)
        is_taken = self.corrects() and corrections.take(
            corrections.where(), self.secret, octets, total, number)
        return NEW if is_taken else STRANGE

    def corrects(self):
        """Whether a correction may be sent: without its plan the book would price it otherwise."""
        return bool(self.secret) and corrections.has_plan()

    def credit(self, account, total, number):
        """What became of a voucher. One without an answer may have been credited."""
        try:
            return credit(self.where, self.key, account, total, number, connect=self.CONNECT,
                          patience=self.PATIENCE)[0]
        except OSError:
            return AWAY
