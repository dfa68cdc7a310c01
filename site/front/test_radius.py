"""For tests: requests of an access server, octet for octet."""
import collections
import hashlib
import os
import socket
import struct

USER, PASSWORD, CHAP, NAS_ADDRESS, CLASS, VENDOR, STATION, NAS_NAME, STATUS, ID = (
    1,
    2,
    3,
    4,
    25,
    26,
    31,
    32,
    40,
    44,
)
MIKROTIK, CHILLISPOT, PFSENSE = 14988, 14559, 13644
START, STOP, INTERIM, ON = 1, 2, 3, 7
SECRET = b"testing123"
Reply = collections.namedtuple("Reply", "code pairs")
CODES = {2: "accept", 3: "reject", 5: "answered", 11: "challenge", None: "silence"}


def octets(value):
    if isinstance(value, int):
        return struct.pack(">I", value)
    return value.encode() if isinstance(value, str) else value


def packed(pairs):
    return b"".join(bytes([kind, len(octets(v)) + 2]) + octets(v) for kind, v in pairs)


def unpacked(body):
    at = 0
    while at < len(body):
        kind, value = body[at], body[at + 2 : at + body[at + 1]]
        if kind == VENDOR:
            kind, value = (int.from_bytes(value[:4], "big"), value[4]), value[6 : 4 + value[5]]
        yield kind, value
        at += body[at + 1]


def hidden(password, authenticator):
    password, last, out = octets(password), authenticator, b""
    password += bytes(-len(password) % 16 or (16 if not password else 0))
    for at in range(0, len(password), 16):
        key = hashlib.md5(SECRET + last).digest()
        last = bytes(x ^ y for x, y in zip(password[at : at + 16], key))
        out += last
    return out


def login_packet(name, password, more=(), chap=False, number=None):
    random, number = os.urandom(16), os.urandom(1)[0] if number is None else number
    proof = (PASSWORD, hidden(password, random))
    if chap:
        proof = (CHAP, bytes([7]) + hashlib.md5(bytes([7]) + octets(password) + random).digest())
    body = packed([(USER, name), proof, *more])
    return bytes([1, number]) + struct.pack(">H", 20 + len(body)) + random + body


def report_packet(pairs, number=None, secret=SECRET):
    body = packed(pairs)
    head = bytes([4, os.urandom(1)[0] if number is None else number]) + struct.pack(
        ">H", 20 + len(body)
    )
    return head + hashlib.md5(head + bytes(16) + body + secret).digest() + body


def opened(source, port):
    it = socket.socket(socket.AF_INET, socket.SOCK_DGRAM)
    it.bind((source, 0))
    it.connect(("127.0.0.1", port))
    return it


def asked(port, packet, source="127.0.0.1", tries=1, wait=4):
    """The reply to a packet, or one with the code None."""
    with opened(source, port) as it:
        it.settimeout(wait)
        for _ in range(tries):
            it.send(packet)
            try:
                data = it.recv(4096)
                return Reply(data[0], list(unpacked(data[20:])))
            except OSError:
                pass
    return Reply(None, [])


def first(reply, kind):
    return next((v for k, v in reply.pairs if k == kind), None)
