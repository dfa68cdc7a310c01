"""The same lines over both books: `feed` answers over one in memory, `serve` over one in tables.

What each line is answered was worked out by hand; digests are those of hashlib. Then the desk says
the same of the book in tables, octet by octet, and so does each export. In these a moment of this
run is written as T, and one that is 700 seconds earlier as T-700.
"""

import contextlib
import hashlib
import itertools
import os
import re
import socket
import time

import served
from served import CASHIER, GUEST, PROGRAM, SECRET, attribute, check, is_response, ran, signed
from served import text_of

START, STOP, INTERIM, ON, OFF = 1, 2, 3, 7, 8
MIB, MOST, LEAST = 1 << 20, (1 << 63) - 1, -4_611_686_018_000_000_000
DELAY, SECONDS, CAUSE, CALLING, FRAMED, PROXY = 41, 46, 49, 31, 8, 33
CLIENTS = {"ap1": "127.0.0.1", "ap2": "127.0.0.2", "ap10": "127.0.0.10", "books": "127.0.0.8"}
STRANGER = "127.0.0.9"
HEADER = ("client,session,account,class,input,output,total,charged,seconds,first,last,state,cause,"
          "calling,framed\n")
EXPORTS = "sessions", "topups", "balances", "overruns"
CREDITED = {201: "new", 200: "repeat", 409: "differs", 422: "limit"}


def site(clients, plans, account, token=GUEST):
    """A configuration: clients with their addresses, plans, keys of an account and a cashier."""
    tables = [f'[[client]]\nname = "{name}"\naddress = "{address}"\nsecret = "{SECRET}"\n'
              for name, address in clients.items()]
    tables += [served.plan(*it) for it in plans]
    tables += [f'[[key]]\ntoken = "{token}"\naccount = "{account}"\n',
               f'[[key]]\ntoken = "{CASHIER}"\ncashier = true\naccounts = true\n']
    return "".join(tables)


class Tables(served.Server):
    """A server over a book in tables, which answers the lines of `feed`."""

    def __init__(self, folder, clients, text, names):
        os.makedirs(folder)
        super().__init__(folder, text, "")
        self.clients, self.senders = clients, {}
        # Moments have the names of their distance to this run, or the name U in its last part.
        self.begin, self.last, self.names = int(time.time()), MOST, names
        self.init()

    def timed(self, text):
        """A text with names in the place of moments."""
        def named(found):
            now, moment = time.time(), int(found[0])
            if self.last <= moment <= now:
                return "U"
            fit = [name for late, name in self.names.items() if self.begin <= moment + late <= now]
            return fit[0] if fit else found[0]
        return re.sub(r"\b[0-9]{10}\b", named, text)

    def exports(self):
        return [self.timed(self.told("export", it)[1]) for it in EXPORTS]

    def sent(self, packet, source):
        """The reply to a datagram from an address, or the number of the reason for its drop.

        A drop is printed only if it is the first of its reason and address.
        """
        if source not in self.senders:
            self.senders[source] = socket.socket(socket.AF_INET, socket.SOCK_DGRAM)
            self.senders[source].bind((source, 0))
            self.senders[source].settimeout(0.02)
        before, end = self.dropped(), time.monotonic() + 20
        self.senders[source].sendto(packet, ("127.0.0.1", self.radius))
        while time.monotonic() < end:
            with contextlib.suppress(TimeoutError):
                return self.senders[source].recv(4096)
            drops = self.dropped()[len(before):]
            if drops:
                return drops[0]
        return "neither"

    def dropped(self):
        """The reasons of the drops that it has printed."""
        return re.findall("^drop ([0-9]+) ", text_of(self.errors), re.MULTILINE)

    def ask(self, method, path, key=CASHIER, body=""):
        """The head and the body that the desk answers with."""
        keyed = f"Desk-Key: {key}\r\n" if key else ""
        length = f"Content-Length: {len(body)}\r\n" if body else ""
        with socket.create_connection(("127.0.0.1", self.desk), timeout=20) as caller:
            caller.sendall(f"{method} {path} HTTP/1.1\r\n{keyed}{length}\r\n{body}".encode())
            with caller.makefile("rb") as file:
                return file.read().decode().split("\r\n\r\n", 1)

    def answer(self, line):
        """The answer to a line of `feed`."""
        word, *words = line.split(" ")
        return {"signed": self.of_signed, "packet": self.of_packet, "topup": self.of_topup,
                "balance": self.of_balance}[word](*words)

    def of_signed(self, _, client, identifier, octets):
        request = signed(int(identifier), bytes.fromhex(octets.replace("-", "")))
        reply = self.sent(request, self.clients[client])
        if isinstance(reply, str):
            return f"drop {reply}"
        more = f" {reply[20:].hex()}" if reply[20:] else ""
        return f"reply {reply[:4].hex()}{more}" if is_response(reply, request) else "wrong digest"

    def of_packet(self, _, source, octets):
        reply = self.sent(bytes.fromhex(octets), source)
        return f"drop {reply}" if isinstance(reply, str) else f"reply {reply.hex()}"

    def of_topup(self, _, number, account, total):
        body = f'{{"account":"{account}","sum":{total},"voucher":"{number}"}}'
        head, _ = self.ask("POST", "/topups", body=body)
        return CREDITED[int(head.split(" ")[1])]

    def of_balance(self, account):
        _, body = self.ask("GET", f"/accounts/{account}/balance")
        account, balance = re.match('{"account":"(.*)","balance":(-?[0-9]+),', body).groups()
        return f"balance {account} {balance}"


def octets_of(*pairs):
    """The octets of attributes, each a number and a value."""
    coded = ((kind, it.encode() if isinstance(it, str) else it) for kind, it in pairs)
    return b"".join(attribute(*it) for it in coded)


def used(session, account, octets=0, other=0, plan="gold", kind=INTERIM, more=()):
    """The attributes of a report: what came from the user, and what went to him."""
    pairs = [(40, kind), (44, session), (1, account), *([(25, plan)] if plan else []), *more]
    for low, high, total in ((42, 52, octets), (43, 53, other)):
        pairs += [(low, total & 0xffffffff), (high, total >> 32)]
    return octets_of(*pairs)


def line(octets, client="ap1", identifier=7):
    return f"signed 2000 {client} {identifier} {octets.hex()}"


def costs(account, *rows, client="ap1", **how):
    """Reports of an account: the session, its octets each way, and the balance after it."""
    return [pair for session, octets, other, balance in rows for pair in (
        (line(used(session, account, octets, other, **how), client), "reply 05070014"),
        (f"balance {account}", f"balance {account} {balance}"))]


def packet(octets, source="127.0.0.1"):
    return f"packet 2000 {source} {octets.hex()}"


def reply_to(request, more=b""):
    """The response to a request, by RFC 2866, 3."""
    head = bytes([5, request[1]]) + (20 + len(more)).to_bytes(2, "big")
    proof = hashlib.md5(head + request[4:20] + more + SECRET.encode()).digest()
    return f"reply {(head + proof + more).hex()}"


BARE = octets_of((40, START), (44, "s1"), (1, "al"))
FIRST = signed(7, BARE)
PROXIES = octets_of((PROXY, "p"), (PROXY, "Z" * 253))
PROXIED = signed(9, BARE + PROXIES)
# No two fields alike, and none 0.
FULL = used("f1", "al", 0x1_0010_0001, 0x2_0020_0003, kind=STOP, more=[
    (SECONDS, 3601), (CAUSE, 4), (DELAY, 700), (CALLING, "00-41-03"),
    (FRAMED, bytes([192, 168, 7, 5])), (PROXY, b"\xef")])
STORIES = {
    "a packet by its octets": [
        (packet(FIRST), reply_to(FIRST)), (packet(FIRST + b"\xee" * 5), reply_to(FIRST)),
        (packet(PROXIED), reply_to(PROXIED, PROXIES))],
    # No two have both their reason and their address alike: of such only the first is printed.
    "drops": [
        (packet(FIRST, STRANGER), "drop 1"), (packet(FIRST[:19]), "drop 2"),
        (packet(bytes([4, 7, 0, 19]) + bytes(16)), "drop 3"),
        (packet(bytes([4, 7, 0, 21]) + bytes(16), CLIENTS["ap2"]), "drop 3"),
        (packet(bytes([4, 7, 16, 1]) + bytes(4093), CLIENTS["ap10"]), "drop 3"),
        (packet(b"\1" + FIRST[1:]), "drop 4"), (packet(FIRST[:-1] + b"m"), "drop 5"),
        (line(b"\x28\1"), "drop 6"), ("signed 2000 ap1 7 -", "drop 7"),
        (line(octets_of((40, 9))), "drop 8"), (line(b"\x28\5\0\0\1", "ap2"), "drop 8"),
        (line(octets_of((40, START))), "drop 9"),
        (line(octets_of((40, START), (44, "s1")) + b"\x2a\5\0\0\0"), "drop 10"),
        (line(used("s1", "al", MOST, 1)), "drop 11"),
        (line(used("s1", "al", MOST, 1 << 63), "ap2"), "drop 11"),
        ("balance al", "balance al 0")],
    "each field another": [
        (line(FULL, identifier=200), "reply 05c80017 2103ef"),
        ("session ap1 f1", "session ap1 f1 al gold 4296015873 8592031747 122920 stopped 4"),
        ("topup 3000 V-9 al 122937", "new"), ("balance al", "balance al 17")],
    "started blocks": costs("blocks", ("b1", 0, 0, 0), ("b1", 1, 0, -10), ("b1", MIB, 0, -10),
                            ("b1", MIB, 1, -20), ("b1", 1 << 32, 0, -40_960)),
    "totals fall and rise": costs("falls", ("w1", 3 * MIB, 0, -30), ("w1", MIB, 0, -30),
                                  ("w1", 3 * MIB, 1, -40)),
    "a Stop alone": costs("lost", ("l1", 2 * MIB, 1, -30), kind=STOP, more=[(CAUSE, 2)]),
    "a Stop before its Start":
        costs("early", ("e1", 0, 0, 0), kind=STOP, plan="", more=[(CAUSE, 1)])
        + costs("early", ("e1", 0, 0, 0), kind=START, plan=""),
    "the Class of the first report prices":
        costs("rich", ("g1", 3_000_000, 0, -30)) + costs("rich", ("g1", 3_000_000, 0, -30), plan="")
        + costs("bare", ("g2", 3_000_000, 0, -15), plan="")
        + costs("bare", ("g2", 3_000_000, 0, -15)),
    "delays": [pair for delay in (0, 5, 2, 1011) for pair in costs(
        "waits", ("d1", 1, 0, -10), more=[(DELAY, delay)])]
        + costs("waits", ("d2", 1, 0, -20), more=[(DELAY, 0xffffffff)]),
    "totals from 2^35 to 2^63 - 1 octets": costs(
        "large", ("t1", 34359738373, 68719476743, -983_050),
        ("t2", 2199023255563, 17592186044429, -189_726_740),
        ("t3", 1125899906842641, 9007199254741011, -96_826_490_910),
        ("t4", 576460752303423511, 2305843009213693981, -27_584_617_185_320),
        ("t5", 4611686018427387935, 1152921504606847013, -82_560_198_574_130),
        ("t6", MOST, 0, -170_521_128_796_210)),
    "the least balances": costs("least", ("u1", 4611686018, 0, LEAST), plan="dear")
        + costs("less", ("u2", 4611686018, 0, LEAST), plan="dear")
        + [(line(used("u1", "least", 4611686019, plan="dear")), "drop 12"),
           ("balance least", f"balance least {LEAST}")],
    "a client that restarts, and late reports":
        costs("again", ("r1", MIB, 1, -20), ("r2", 1, 0, -30), client="ap2")
        + [(line(octets_of((40, ON)), "ap2"), "reply 05070014"),
           ("session ap2 r1", "session ap2 r1 again gold 1048576 1 20 closed 11")]
        + costs("again", ("r1", 2 * MIB, 1, -40), client="ap2")
        + [("session ap2 r1", "session ap2 r1 again gold 2097152 1 30 closed 11")]
        + costs("again", ("r1", 2 * MIB, 1, -40), client="ap2", kind=STOP, more=[(CAUSE, 2)])
        + costs("again", ("r3", 1, 0, -50), client="ap2")
        # Of a restart only the status is read: this delay is no number.
        + [(line(octets_of((40, OFF), (DELAY, b"")), "ap2"), "reply 05070014")],
    # Of reports of which no more is counted the greater total is kept, and then the greater input.
    "what plans count, in any order":
        costs("counts", ("c1", 5_000_000, 1, -10), ("c1", 0, MIB + 1, -20),
              ("c2", 0, MIB + 1, -40), ("c2", 5_000_000, 1, -40), plan="down")
        + costs("counts", ("c3", 5_000_000, 1, -90), ("c3", 0, MIB + 1, -90),
                ("c4", 0, MIB + 1, -90), ("c4", 5_000_000, 1, -140), plan="up")
        + costs("counts", ("c5", 0, 5, -150), ("c5", 3, 5, -150),
                ("c6", 3, 5, -160), ("c6", 0, 5, -160), plan="down")
        + costs("counts", ("c7", 3, 5, -170), ("c7", 5, 3, -170),
                ("c8", 5, 3, -180), ("c8", 3, 5, -180)),
    "each field of several reports":
        costs("keeps", ("k1", MIB - 6, 8, -20), more=[
            (SECONDS, 60), (CAUSE, 3), (FRAMED, bytes([10, 9, 8, 7]))])
        + costs("keeps", ("k1", 5, MIB - 5, -20), plan="silver", kind=STOP, more=[
            (DELAY, 700), (SECONDS, 59), (CAUSE, 0xffffffff), (CALLING, "00-0c"),
            (FRAMED, bytes([10, 9, 8, 6]))])
        + costs("keeps", ("k1", 7, 0, -20), kind=STOP, more=[
            (SECONDS, 0xffffffff), (CAUSE, 5), (CALLING, "00-0d")]),
    "sessions at several clients": [pair for at, (client, session) in enumerate(
        [("ap2", "s1"), ("ap1", "z"), ("ap2", "a"), ("ap10", "zz"), ("ap1", "m")], 1)
        for pair in costs("roams", (session, MIB, 1, -20 * at), client=client)],
    "ids that are hard to tell apart": costs(
        "ids", (b"\xff", 1, 0, -10), (b"", 2, 0, -20), ("x", 3, 0, -30), (b"\0\0", 4, 0, -40),
        (b"\0", 5, 0, -50)),
    "octets that are escaped, and a name in quotes": [
        (line(used("%4g", b"a%\xc3\xa9\n ~", 3)), "reply 05070014"),
        ("topup 3000 V-2 a%25%C3%A9%0A%20~ 17", "new"), ("topup 3000 V-3 a,b 5", "new"),
        ("balance a%25%C3%A9%0A%20~", "balance a%25%C3%A9%0A ~ 7")],
    "a voucher": [
        ("topup 3000 V-1 bo 500", "new"), ("topup 3000 V-1 bo 500", "repeat"),
        ("topup 3000 V-1 bo 501", "differs"), ("topup 3000 V-1 al 500", "differs"),
        ("balance bo", "balance bo 500")],
}
# Every session, voucher and balance that they leave.
SESSIONS = """\
ap1,,ids,gold,2,0,2,10,0,T,T,open,0,,
ap1,%00,ids,gold,5,0,5,10,0,T,T,open,0,,
ap1,%00%00,ids,gold,4,0,4,10,0,T,T,open,0,,
ap1,%254g,a%25%C3%A9%0A ~,gold,3,0,3,10,0,T,T,open,0,,
ap1,b1,blocks,gold,4294967296,0,4294967296,40960,0,T,T,open,0,,
ap1,c1,counts,down,0,1048577,1048577,20,0,T,T,open,0,,
ap1,c2,counts,down,0,1048577,1048577,20,0,T,T,open,0,,
ap1,c3,counts,up,5000000,1,5000001,50,0,T,T,open,0,,
ap1,c4,counts,up,5000000,1,5000001,50,0,T,T,open,0,,
ap1,c5,counts,down,3,5,8,10,0,T,T,open,0,,
ap1,c6,counts,down,3,5,8,10,0,T,T,open,0,,
ap1,c7,counts,gold,5,3,8,10,0,T,T,open,0,,
ap1,c8,counts,gold,5,3,8,10,0,T,T,open,0,,
ap1,d1,waits,gold,1,0,1,10,0,T-1011,T,open,0,,
ap1,d2,waits,gold,1,0,1,10,0,0,0,open,0,,
ap1,e1,early,,0,0,0,0,0,T,T,stopped,1,,
ap1,f1,al,gold,4296015873,8592031747,12888047620,122920,3601,T-700,T-700,stopped,4,\
00-41-03,192.168.7.5
ap1,g1,rich,gold,3000000,0,3000000,30,0,T,T,open,0,,
ap1,g2,bare,,3000000,0,3000000,15,0,T,T,open,0,,
ap1,k1,keeps,gold,1048570,8,1048578,20,4294967295,T-700,T,stopped,4294967295,00-0c,10.9.8.7
ap1,l1,lost,gold,2097152,1,2097153,30,0,T,T,stopped,2,,
ap1,m,roams,gold,1048576,1,1048577,20,0,T,T,open,0,,
ap1,s1,al,,0,0,0,0,0,T,T,open,0,,
ap1,t1,large,gold,34359738373,68719476743,103079215116,983050,0,T,T,open,0,,
ap1,t2,large,gold,2199023255563,17592186044429,19791209299992,188743690,0,T,T,open,0,,
ap1,t3,large,gold,1125899906842641,9007199254741011,10133099161583652,96636764170,0,T,T,open,0,,
ap1,t4,large,gold,576460752303423511,2305843009213693981,2882303761517117492,27487790694410,0,T,T,\
open,0,,
ap1,t5,large,gold,4611686018427387935,1152921504606847013,5764607523034234948,54975581388810,0,T,T,\
open,0,,
ap1,t6,large,gold,9223372036854775807,0,9223372036854775807,87960930222080,0,T,T,open,0,,
ap1,u1,least,dear,4611686018,0,4611686018,4611686018000000000,0,T,T,open,0,,
ap1,u2,less,dear,4611686018,0,4611686018,4611686018000000000,0,T,T,open,0,,
ap1,w1,falls,gold,3145728,1,3145729,40,0,T,T,open,0,,
ap1,x,ids,gold,3,0,3,10,0,T,T,open,0,,
ap1,z,roams,gold,1048576,1,1048577,20,0,T,T,open,0,,
ap1,%FF,ids,gold,1,0,1,10,0,T,T,open,0,,
ap10,zz,roams,gold,1048576,1,1048577,20,0,T,T,open,0,,
ap2,a,roams,gold,1048576,1,1048577,20,0,T,T,open,0,,
ap2,r1,again,gold,2097152,1,2097153,30,0,T,T,stopped,2,,
ap2,r2,again,gold,1,0,1,10,0,T,T,closed,11,,
ap2,r3,again,gold,1,0,1,10,0,T,T,closed,11,,
ap2,s1,roams,gold,1048576,1,1048577,20,0,T,T,open,0,,
"""
ROAMS = "ap1/m ap1/z ap10/zz ap2/a ap2/s1"
TOPUPS = """\
V-1,bo,500,T
V-2,a%25%C3%A9%0A ~,17,T
V-3,"a,b",5,T
V-9,al,122937,T
W-1,al,12,T
"""
BALANCES = {
    "a%25%C3%A9%0A ~": 7, '"a,b"': 5, "again": -50, "al": 29, "bare": -15, "blocks": -40_960,
    "bo": 500, "counts": -180, "early": 0, "falls": -40, "ids": -50, "keeps": -20,
    "large": -170_521_128_796_210, "least": LEAST, "less": LEAST, "lost": -30, "rich": -30,
    "roams": -100, "waits": -20}


def wanted(sessions, topups, balances):
    """The exports of a book with these lines and balances."""
    below = [f"{name},{-it}\n" for name, it in balances.items() if it < 0]
    lines = [f"{name},{it},{max(0, -it)}\n" for name, it in balances.items()]
    return [HEADER + sessions, "voucher,account,sum,when\n" + topups,
            "".join(["account,balance,overrun\n", *lines]), "".join(["account,overrun\n", *below])]


def compares(server, texts):
    """Compares the exports of a book with these, line by line."""
    for what, told, text in zip(EXPORTS, server.exports(), texts):
        pairs = itertools.zip_longest(told.splitlines(), text.splitlines())
        other = next((pair for pair in pairs if pair[0] != pair[1]), None)
        check(f"export {what}: no line is another", other, None)


OK, DENIED = "200 OK", "401 Unauthorized\r\nWWW-Authenticate: Desk-Key"
SALE = '{"account":"al","sum":12,"voucher":"W-1"}'
# What the desk is asked, and its status and body. The account al has two sessions and vouchers.
DESK = [
    ("no key", ("GET", "/me/sessions", ""), DENIED, '{"error":"no key"}'),
    ("the cashier's key", ("GET", "/me/sessions"), "403 Forbidden", '{"error":"not allowed"}'),
    ("a sale", ("POST", "/topups", CASHIER, SALE), "201 Created", '{"result":"new"}'),
    ("the same", ("POST", "/topups", CASHIER, SALE), OK, '{"result":"repeat"}'),
    ("another sum", ("POST", "/topups", CASHIER, SALE.replace("12", "13")), "409 Conflict",
     '{"error":"voucher differs"}'),
    ("a balance", ("GET", "/me/balance", GUEST), OK, '{"account":"al","balance":29,"overrun":0}'),
    ("sessions", ("GET", "/me/sessions", GUEST), OK,
     '{"account":"al","sessions":[{"calling":"00-41-03","cause":4,"charged":"122920",'
     '"class":"gold","client":"ap1","first":T-700,"framed":"192.168.7.5","input":4296015873,'
     '"last":T-700,"output":8592031747,"seconds":3601,"session":"f1","state":"stopped",'
     '"total":12888047620},{"calling":"","cause":0,"charged":"0","class":"","client":"ap1",'
     '"first":T,"framed":"","input":0,"last":T,"output":0,"seconds":0,"session":"s1",'
     '"state":"open","total":0}]}'),
    ("vouchers", ("GET", "/me/topups", GUEST), OK,
     '{"account":"al","topups":[{"sum":122937,"voucher":"V-9","when":T},'
     '{"sum":12,"voucher":"W-1","when":T}]}'),
    ("no sessions", ("GET", "/accounts/bo/sessions"), OK, '{"account":"bo","sessions":[]}'),
    ("overruns", ("GET", "/overruns"), OK, '{"overruns":[' + ",".join(
        f'{{"account":"{name}","overrun":{-it}}}' for name, it in BALANCES.items() if it < 0)
     + "]}")]


def responds(server, rows):
    """Compares what the desk answers, octet by octet."""
    for name, asked, status, body in rows:
        head, told = server.ask(*asked)
        status, *more = status.split("\r\n")
        lines = [f"HTTP/1.1 {status}", "Content-Type: application/json",
                 f"Content-Length: {len(told)}", "Connection: close", *more]
        check(f"desk: {name}", (head, server.timed(told)), ("\r\n".join(lines), body))


# Files that are imported, one after the other, and what is printed of each.
UPLOAD = "voucher,account,sum\nV-1,bo,500\nX-1,cy,300\nV-1,bo,501\n"
FILES = [
    (UPLOAD, "added 1, repeated 1, refused 1\n4: VoucherDiffers\n"),
    (UPLOAD, "added 0, repeated 2, refused 1\n4: VoucherDiffers\n"),
    ("voucher,account,sum\nX-2,cy\nx-2,cy,1\nX-2,cy,0\n",
     "added 0, repeated 0, refused 3\n2: FieldCount\n3: BadVoucher\n4: BadSum\n"),
    ("", "added 0, repeated 0, refused 0\nstopped: BadHeader\n")]


def imports(server):
    """Files of vouchers, one of them twice."""
    found = [server.told("import", input=text)[:2] for text, _ in FILES]
    check("files of vouchers", found, [(1, it) for _, it in FILES])
    _, topups, balances, _ = server.exports()
    check("the vouchers that were added", topups.splitlines()[-2:], ["W-1,al,12,T", "X-1,cy,300,T"])
    check("are credited once", [it for it in balances.splitlines() if it[:3] in ("bo,", "cy,")],
          ["bo,500,0", "cy,300,0"])


def in_memory(config):
    """All lines by `feed`."""
    lines = "".join(f"{it}\n" for rows in STORIES.values() for it, _ in rows)
    status, output, _ = ran([PROGRAM, "feed", "--config", config], input=lines)
    check("feed ends", status, 0)
    answers = iter(output.splitlines())
    for name, rows in STORIES.items():
        told = [next(answers, None) for _ in rows]
        check(f"memory: {name}", told, [it for _, it in rows])


def spoiled(config):
    """A packet that is cut, or of which any bit is another, is dropped and says nothing."""
    cut = [FIRST[:it] for it in range(1, len(FIRST))]
    turned = [(int.from_bytes(FIRST, "big") ^ 1 << it).to_bytes(len(FIRST), "big")
              for it in range(8 * len(FIRST))]
    lines = [*map(packet, cut + turned), "session ap1 s1", "balance al"]
    told = ran([PROGRAM, "feed", "--config", config], input="\n".join(lines))[1].splitlines()
    check("what is cut", told[: len(cut)], ["drop 2"] * 19 + ["drop 3"] * 14)
    kept = [it for it in told[len(cut) :] if it[:5] != "drop "]
    check("what is turned", (len(told), kept), (len(lines), ["no session", "balance al 0"]))


def in_tables(server):
    """The same lines by `serve`, but for sessions, which the exports have."""
    with server.serving():
        for name, rows in STORIES.items():
            rows = [it for it in rows if not it[0].startswith("session ")]
            told = [server.answer(it) for it, _ in rows]
            check(f"tables: {name}", told, [it for _, it in rows])
        responds(server, DESK)
        page = server.ask("GET", "/accounts/roams/sessions")[1]
    found = re.findall('"client":"(.*?)".*?"session":"(.*?)"', page)
    check("sessions by client and id", " ".join(map("/".join, found)), ROAMS)
    compares(server, wanted(SESSIONS, TOPUPS, BALANCES))


def run(folder):
    """Tries the rows in an empty folder."""
    plans = [("gold", "both", MIB, 10), ("default", "both", 1_000_000, 5),
             ("dear", "both", 1, 1_000_000_000), ("down", "out", MIB, 10), ("up", "in", MIB, 10)]
    names = {0: "T", 700: "T-700", 1011: "T-1011"}
    server = Tables(os.path.join(folder, "book"), CLIENTS, site(CLIENTS, plans, "al"), names)
    in_memory(server.config)
    spoiled(server.config)
    in_tables(server)
    check("an audit", server.told("check", "--audit"), (
        0, "ok: 4 clients, 5 plans, 2 keys\n"
        f"balanced: {len(BALANCES)} accounts, 41 sessions, 5 vouchers\n", ""))
    imports(server)
