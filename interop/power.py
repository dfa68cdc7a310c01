"""What the disk may hold of a book if the power goes: from a trace of the calls of a program.

`strace` writes down each write, sync and change of length of the book's file and of its log, and
each answer that was sent. A `Disk` is one of the two files: what was synced last, and the writes
since. Each of these may be lost, be there whole or in part, and in any order.
"""

import functools
import os
import random
import re
import struct

SECTOR = 512
CALLS = "openat,close,pwrite64,write,fdatasync,fsync,ftruncate,sendto,rename,unlink,unlinkat"
CALL = re.compile(r"^\d+ +(\w+)\((.*)\) += (-?\d+)")
TEXT = re.compile(r'"((?:\\x[0-9a-f]{2})*)"')
# The octets that a header of the log and of a frame have.
HEADER, FRAME = 32, 24
MAGIC = (0x377F0682, 0x377F0683)
MAGIC_OCTET = b"\x37"
SIZES = [1 << it for it in range(9, 17)]
# The number of a frame that counts the zeros of its commit.
COUNTS = 0xFF000000


def traced(path):
    """The words that run a program and write its calls into a file."""
    whole = ["-xx", "-s", "99999999"]
    return ["strace", "-f", "--seccomp-bpf", *whole, "-e", f"trace={CALLS}", "-o", path]


def octets_of(text):
    return bytes.fromhex(text.replace("\\x", ""))


def events(path, book):
    """The events of a trace, in their order: ("write", file, place, octets), ("length", file,
    octets), ("sync", file) and ("answer",). A file is "book" or "log".
    """
    names, files = {book.encode(): "book", book.encode() + b"-wal": "log"}, {}
    with open(path, encoding="ascii") as lines:
        for line in lines:
            found = CALL.match(line)
            if found is None:
                if "unfinished" in line or "resumed" in line:
                    raise SystemExit(f"a call of several at once: {line[:200]}")
                continue
            name, words, result = found[1], found[2], int(found[3])
            if name == "openat" and result >= 0:
                files[result] = names.get(octets_of(TEXT.search(words)[1]))
            elif event := event_of(name, words, result, files):
                yield event


def event_of(name, words, result, files):
    """The event that a call is, or none. What it is of is its first word."""
    if name in ("rename", "unlink", "unlinkat"):
        raise SystemExit(f"a call that no cut is made of: {name}({words[:200]})")
    number = words.split(",")[0]
    file = files.get(int(number)) if number.isdigit() else None
    if name == "close":
        files.pop(int(number), None)
    elif name in ("sendto", "write") and file is None:
        text = octets_of(TEXT.search(words)[1])
        if text[:1] == b"\x05" or text[:11] == b"HTTP/1.1 20":
            return ("answer",)
    elif file is None:
        return None
    elif name == "pwrite64":
        octets, place = octets_of(TEXT.search(words)[1]), int(words.rsplit(",", 1)[1])
        # A write past a limit of the file is short, or fails.
        return ("write", file, place, octets[:result]) if result > 0 else None
    elif name == "ftruncate" and result == 0:
        return ("length", file, int(words.split(",")[1]))
    elif name in ("fdatasync", "fsync") and result == 0:
        return ("sync", file)
    else:
        raise SystemExit(f"a call that no cut is made of: {name}({words[:200]}) = {result}")
    return None


class Disk:
    """A file: its octets at the last sync, and the writes since, as (place, octets). A change of
    length is (length, None).
    """

    def __init__(self, octets):
        self.synced, self.pending = bytearray(octets), []

    def happen(self, event):
        if event[0] == "write":
            self.pending.append(event[2:])
        elif event[0] == "length":
            self.pending.append((event[2], None))
        else:
            for place, octets in self.pending:
                put(self.synced, place, octets)
            self.pending.clear()

    def left(self, rng, how, has_garbage):
        """What it may hold after a cut. Garbage may be in any write that was not synced, or only in
        what lies past the end at the last sync.
        """
        octets, end = bytearray(self.synced), len(self.synced)
        pending = list(self.pending)
        if how == "none" or not pending:
            return bytes(octets)
        if how == "sector":
            return garbled(octets, pending, rng)
        if how == "some" and rng.random() < 0.5:
            rng.shuffle(pending)
        if how == "first":
            del pending[rng.randrange(len(pending)) + 1 :]
        last = len(pending) - 1
        for number, (place, new) in enumerate(pending):
            if new is None:
                if how in ("all", "first") or rng.random() < 0.5:
                    put(octets, place, None)
                continue
            fate = fate_of(rng, how, number == last)
            if fate != "lost":
                tear(octets, place, new, rng, fate, 0 if has_garbage else end)
        return bytes(grown(octets, end, rng))


def garbled(octets, pending, rng):
    """All writes are there, but that a whole sector of the last one is garbage: with octets that were
    not being written.
    """
    for place, new in pending:
        put(octets, place, new)
    place, new = pending[-1]
    if new is not None:
        begin = rng.randrange(place, place + len(new)) // SECTOR * SECTOR
        octets[begin : begin + SECTOR] = rng.randbytes(len(octets[begin : begin + SECTOR]))
    return bytes(octets)


def put(octets, place, new):
    """Does a write, or a change of length."""
    if new is None:
        del octets[place:]
        place, new = len(octets), bytes(place - len(octets))
    if place > len(octets):
        octets.extend(bytes(place - len(octets)))
    octets[place : place + len(new)] = new


def fate_of(rng, how, is_last):
    """What becomes of a write."""
    if how == "all" or (how == "first" and not is_last):
        return "whole"
    if how == "some":
        return rng.choice(("lost", "lost", "whole", "whole", "sectors", "octets"))
    return rng.choice(("whole", "start", "sectors", "octets", "garbage"))


def tear(octets, place, new, rng, fate, clear_to):
    """Does a part of a write. Garbage comes only from this place on."""
    if place > len(octets):
        octets.extend(bytes(place - len(octets)))
    kept = bytearray(octets[place : place + len(new)])
    kept.extend(bytes(len(new) - len(kept)))
    if fate == "whole":
        kept[:] = new
    elif fate == "start":
        cut = rng.randrange(len(new) + 1)
        kept[:cut] = new[:cut]
    elif fate == "octets":
        for at in range(len(new)) if len(new) < 2 * SECTOR else some_places(rng, len(new)):
            if rng.random() < 0.5:
                kept[at] = new[at]
    else:
        tear_sectors(kept, place, new, rng, fate == "garbage", clear_to)
    octets[place : place + len(new)] = kept


def some_places(rng, length):
    """The octets of one sector's length somewhere, and of all else the first half."""
    at = rng.randrange(length - SECTOR)
    return [*range(at // 2), *range(at, at + SECTOR)]


def tear_sectors(kept, place, new, rng, is_garbage, clear_to):
    """Each sector is the old one, the new one, or garbage."""
    begin = 0
    while begin < len(new):
        end = min(len(new), begin + SECTOR - (place + begin) % SECTOR)
        share = rng.random()
        if is_garbage and share < 0.4 and place + begin >= clear_to:
            kept[begin:end] = rng.randbytes(end - begin)
        elif share < 0.7:
            kept[begin:end] = new[begin:end]
        begin = end


def grown(octets, end, rng):
    """The file, whose new length may not be all there yet."""
    if len(octets) > end and rng.random() < 0.2:
        del octets[rng.randrange(end, len(octets) + 1) :]
    return octets


def read(path):
    with open(path, "rb") as file:
        return file.read()


def write(path, octets):
    with open(path, "wb") as file:
        file.write(octets)


def memory():
    """A folder in memory, if there is one."""
    return "/dev/shm" if os.path.isdir("/dev/shm") else None


HOWS = ["none", "all", "first", "some", "torn"]


def seeded(*parts):
    """A generator of its own for each of what these name."""
    return random.Random("/".join(map(str, parts)))


@functools.lru_cache(maxsize=20_000)
def sum_of(octets, first, second):
    """The log's checksum, from this one on. Its numbers are little-endian, as the program's are."""
    numbers = struct.unpack(f"<{len(octets) // 4}I", octets)
    for low, high in zip(numbers[::2], numbers[1::2]):
        first = (first + low + second) & 0xFFFFFFFF
        second = (second + high + first) & 0xFFFFFFFF
    return first, second


def numbers(octets):
    return struct.unpack(f">{len(octets) // 4}I", octets)


def frames_of(log):
    """The frames of a log: the place of each, its six numbers and its page."""
    size = numbers(log[8:12])[0]
    for at in range(HEADER, len(log) - size - FRAME + 1, FRAME + size) if size in SIZES else ():
        yield at, numbers(log[at : at + FRAME]), log[at + FRAME : at + FRAME + size]


def is_signed(log):
    """Whether the header of a log meets its own sum."""
    sums = sum_of(log[: HEADER - 8], 0, 0)
    return numbers(log[:4])[0] in MAGIC and sums == numbers(log[24:HEADER])


def chained(log):
    """The places of the log's frames up to the first that breaks the chain of sums, and which of
    them commit. A header that breaks it has none.
    """
    sums, salts, places, commits = numbers(log[24:HEADER]), numbers(log[16:24]), [], []
    if not is_signed(log):
        return places, commits
    for at, head, page in frames_of(log):
        if head[2:4] != salts:
            break
        sums = sum_of(page, *sum_of(log[at : at + 8], *sums))
        if sums != head[4:]:
            break
        places.append(at)
        if head[1]:
            commits.append(at)
    return places, commits


def behind_the_break(log):
    """Which link first breaks the chain of the log, and whether the commit there was answered.

    A link is the header or a frame. The store writes one octet of it last: the first octet of the
    header, and that of the salts of a commit's first frame. With that octet the link is sealed,
    else it is shut. The store syncs before it seals a link and after that, and answers then. With
    `--sync once` most commits are synced only after it. These are written over zeros, and their
    first frame counts: its number is no page's. Of one that was cut it is that number or 0. So no
    crash leaves

    - a sealed header that breaks its own sum;
    - a break in a commit whose first frame is sealed, has one of the salts and does not count;
    - the same commit without a break, if the log ends before it does;
    - a frame that counts behind the break, since each commit is answered before the next one.
    """
    if len(log) < HEADER:
        return "no log", False
    if not is_signed(log):
        is_sealed = log[:1] == MAGIC_OCTET
        return ("sealed header" if is_sealed else "shut header"), is_sealed
    if len(log) < HEADER + FRAME:
        return "no log", False
    salts, heads = numbers(log[16:24]), [head for _, head, _ in frames_of(log)]
    broken = len(chained(log)[0])
    first = 1 + max((it for it in range(broken) if heads[it][1]), default=-1)
    head = log[HEADER + first * places_apart(log) :][:FRAME]
    is_sealed = is_sealed_plain(log, head)
    if broken == len(heads):
        is_cut = is_sealed and places_apart(log) - FRAME in SIZES
        return ("cut commit" if is_cut else "end"), is_cut
    if is_sealed:
        return "sealed commit", True
    is_followed = any(it[2:4] == salts and it[0] == COUNTS for it in heads[broken + 1 :])
    is_shut = head[8] != log[16] or not has_a_salt(log, head)
    return ("shut commit" if is_shut else "commit that counts"), is_followed


def is_sealed_plain(log, head):
    """Whether a commit that begins with these octets of a frame is sealed, and does not count."""
    if len(head) < FRAME or head[8] != log[16] or not has_a_salt(log, head):
        return False
    return numbers(head)[0] not in (0, COUNTS)


def has_a_salt(log, head):
    """Whether a frame has one of the salts of the log."""
    return any(head[at : at + 4] == log[8 + at : 12 + at] for at in (8, 12))


def places_apart(log):
    """How many octets a frame has with its page."""
    return FRAME + numbers(log[8:12])[0]
