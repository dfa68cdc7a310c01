"""Attributes by their names: the octets of a value, as FreeRADIUS' dictionaries have its type."""

import os
import re
import socket
import struct

FOLDER = "/usr/share/freeradius"
VENDOR_SPECIFIC = 26


class Attribute:
    """How an attribute is written: its number or that of its vendor's, and its type."""

    def __init__(self, vendor, number, kind, is_tagged):
        self.vendor, self.number, self.kind, self.is_tagged = vendor, number, kind, is_tagged
        self.values = {}


class Dictionary:
    def __init__(self, folder=FOLDER):
        self.folder, self.attributes, self.vendors = folder, {}, {}
        self.vendor = None
        self.read("dictionary")

    def read(self, name):
        with open(os.path.join(self.folder, name), encoding="utf-8") as file:
            for line in file:
                words = line.partition("#")[0].split()
                if words:
                    self.take(words)

    def take(self, words):
        what, rest = words[0], words[1:]
        if what.startswith("$INCLUDE"):
            if os.path.exists(os.path.join(self.folder, rest[0])):
                self.read(rest[0])
        elif what == "VENDOR":
            # Those with longer types or lengths have `format=`.
            plain = not any(it.startswith("format=") for it in rest[2:])
            self.vendors[rest[0]] = int(rest[1]) if plain else None
        elif what == "BEGIN-VENDOR":
            self.vendor = rest[0]
        elif what == "END-VENDOR":
            self.vendor = None
        elif what == "ATTRIBUTE":
            self.add(*rest)
        elif what == "VALUE" and rest[0] in self.attributes:
            self.attributes[rest[0]].values[rest[1]] = int(rest[2], 0)

    def add(self, name, number, kind, *flags):
        vendor = None
        if self.vendor is not None:
            vendor = self.vendors.get(self.vendor)
            if vendor is None or not number.isdigit():
                return
        tagged = any("has_tag" in it.split(",") for it in flags)
        self.attributes.setdefault(name, Attribute(vendor, number, kind, tagged))

    def written(self, name, value):
        """The number and value of each attribute that a packet has for a name and a text."""
        if re.fullmatch(r"[0-9.]+", name):
            return [numbered(name, octets(value))]
        known = self.attributes[name]
        if value.startswith("0x"):
            found = octets(value)
        else:
            found = TYPES.get(known.kind, text)(known.values.get(value, value))
        if known.is_tagged and known.kind == "integer":
            found = b"\0" + found[1:]
        if known.vendor is not None:
            inner = bytes([int(known.number), len(found) + 2]) + found
            return [(VENDOR_SPECIFIC, struct.pack(">I", known.vendor) + inner)]
        return [numbered(known.number, found)]


def numbered(name, value):
    """The number and value of an attribute, or of one of RFC 6929, 241.1 say."""
    number, *inner = map(int, name.split("."))
    more = b"\0" if number in (245, 246) and inner else b""
    return number, bytes(inner[:1]) + more + value


def octets(value):
    """The octets of a text, or of hexadecimal digits: 0x00ff, say, or 0x7a*253 for as many."""
    if not value.startswith("0x"):
        return value.encode()
    digits, _, count = value[2:].partition("*")
    return bytes.fromhex(digits) * int(count or 1)


def text(value):
    return value.encode()


def number(form):
    return lambda value: struct.pack(form, int(value))


def prefix(family):
    def written(value):
        address, _, length = value.partition("/")
        found = socket.inet_pton(family, address)
        kept = found if family == socket.AF_INET else found[: -(-int(length) // 8)]
        return bytes([0, int(length)]) + kept

    return written


TYPES = {
    "integer": number(">I"), "date": number(">I"), "signed": number(">i"), "short": number(">H"),
    "byte": number(">B"), "integer64": number(">Q"), "ipaddr": socket.inet_aton,
    "ipv6addr": lambda value: socket.inet_pton(socket.AF_INET6, value),
    "ipv6prefix": prefix(socket.AF_INET6), "ipv4prefix": prefix(socket.AF_INET),
    "ifid": lambda value: b"".join(struct.pack(">H", int(it, 16)) for it in value.split(":")),
    "ether": lambda value: bytes.fromhex(value.replace(":", "")), "octets": octets}
