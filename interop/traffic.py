"""Reports and sales of a few accounts, a window of them in flight, and a model of what was sent and
acknowledged. After a kill no row may be below what was acknowledged or above what was sent, each
charge is the price of its row, and each balance is the vouchers less the charges.
"""

import json
import random
import socket
import subprocess
import time

import served
from served import free_port, signed

ACCOUNTS, SESSIONS, WINDOW = ["al", "bo", "cy"], 60, 16
BLOCK, UNIT = 1_048_576, 10


def key_of(account):
    return f"{account}-key-0000000007"


class Model:
    """What was sent, and what was acknowledged."""

    def __init__(self):
        self.owner = {f"s{index}": ACCOUNTS[index % len(ACCOUNTS)] for index in range(SESSIONS)}
        self.sent = dict.fromkeys(self.owner, None)
        self.acknowledged = dict.fromkeys(self.owner, None)
        self.vouchers, self.sold = {}, {}


class Server(served.Server):
    """The program, with a key of each account."""

    def __init__(self, folder):
        keys = "".join(f'[[key]]\ntoken = "{key_of(it)}"\naccount = "{it}"\n' for it in ACCOUNTS)
        super().__init__(folder, served.PLANS + keys)
        subprocess.run(self.words("init"), check=True, stdout=subprocess.DEVNULL)

    def start(self, **how):
        self.radius, self.desk = free_port(socket.SOCK_DGRAM), free_port(socket.SOCK_STREAM)
        self.process = subprocess.Popen(self.serve(), stdout=subprocess.PIPE, text=True, **how)
        line = self.process.stdout.readline()
        if line != "serving\n":
            raise SystemExit(f"the server did not start: {line!r}")

    def list_of(self, what, account):
        return self.ask("GET", f"/me/{what}", key_of(account))[1][what]


class Sender:
    """Sends reports with a window of them in flight, each under an identifier of its own."""

    def __init__(self, server):
        self.socket = socket.socket(socket.AF_INET, socket.SOCK_DGRAM)
        self.socket.connect(("127.0.0.1", server.radius))
        self.out, self.next = {}, 0

    def send(self, model, session, total):
        while self.next in self.out:
            self.next = (self.next + 1) % 256
        self.out[self.next] = (session, total)
        model.sent[session] = max(total, model.sent[session] or 0)
        gigawords, octets = divmod(total, 1 << 32)
        pairs = [(40, 3), (44, session.encode()), (1, model.owner[session].encode()),
                 (25, b"gold"), (42, octets), (52, gigawords)]
        self.socket.send(signed(self.next, pairs))
        self.next = (self.next + 1) % 256

    def take(self, model, patience):
        self.socket.settimeout(patience)
        try:
            reply = self.socket.recv(4096)
        except OSError:
            return False
        session, total = self.out.pop(reply[1], (None, 0))
        if session is not None:
            known = model.acknowledged[session]
            model.acknowledged[session] = total if known is None else max(known, total)
        return True


def traffic(server, model, rng, seconds):
    """Sends reports and sells vouchers for some time."""
    sender = Sender(server)
    end = time.monotonic() + seconds
    while time.monotonic() < end:
        if len(sender.out) < WINDOW:
            session = f"s{rng.randrange(SESSIONS)}"
            sender.send(model, session, (model.sent[session] or 0) + rng.randrange(3 * BLOCK))
        else:
            sender.take(model, 0.01)
        if rng.random() < 0.01:
            number = f"V-{len(model.vouchers)}"
            model.vouchers[number] = (rng.choice(ACCOUNTS), rng.randrange(1, 1000))
            credit(server, model, number)


def credit(server, model, number):
    account, total = model.vouchers[number]
    body = json.dumps({"account": account, "sum": total, "voucher": number})
    try:
        status, _ = server.ask("POST", "/topups", served.CASHIER, body)
    except OSError:
        return
    if status in (200, 201):
        model.sold[number] = model.vouchers[number]


def faults_of(server, model, is_settled):
    """What isn't as it must be: every row and every balance."""
    faults = []
    for account in ACCOUNTS:
        rows = {row["session"]: row for row in server.list_of("sessions", account)}
        sold = {topup["voucher"]: topup["sum"] for topup in server.list_of("topups", account)}
        charged = sum(int(row["charged"]) for row in rows.values())
        if server.list_of("balance", account) != sum(sold.values()) - charged:
            faults.append(f"the balance of {account}")
        faults += [f"the voucher {number} is lost" for number, (owner, total) in model.sold.items()
                   if owner == account and sold.get(number) != total]
        for session, owner in model.owner.items():
            if owner == account:
                faults += row_faults(rows.get(session), session, model, is_settled)
    return faults


def row_faults(row, session, model, is_settled):
    sent, acknowledged = model.sent[session], model.acknowledged[session]
    if row is None:
        return [f"the session {session} is lost"] if acknowledged is not None else []
    faults = []
    least = sent if is_settled else acknowledged
    if sent is None or row["total"] > sent or (least is not None and row["total"] < least):
        faults.append(
            f"the total of {session} is {row['total']}, sent {sent}, acknowledged {acknowledged}")
    if int(row["charged"]) != -(-row["total"] // BLOCK) * UNIT:
        faults.append(f"the charge of {session}")
    return faults


def settle(server, model):
    """Sends again what was not acknowledged, until all of it is."""
    for number in [number for number in model.vouchers if number not in model.sold]:
        credit(server, model, number)
    sender = Sender(server)
    for session, total in model.sent.items():
        while total is not None and model.acknowledged[session] != total:
            sender.send(model, session, total)
            sender.take(model, 1)


def checked(server, model):
    """What isn't as it must be after a start, before and after what is sent again."""
    found = faults_of(server, model, False)
    settle(server, model)
    return found + faults_of(server, model, True)


def killed(folder, kills, seed):
    """Kills a server so often: the model, and the faults, which it prints."""
    rng, model, faults = random.Random(seed), Model(), []
    server = Server(folder)
    for kill in range(kills):
        server.start()
        found = checked(server, model)
        traffic(server, model, rng, rng.uniform(0.0, 0.12))
        server.kill()
        for fault in found:
            print(f"after kill {kill}: {fault}")
        faults += found
    return model, faults
