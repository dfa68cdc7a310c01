"""radacctd as interop/access-servers sends to it where logins are stamped: straight, and passed on
by FreeRADIUS. What the desk would say of a login is made here, as docs/proofs/SEMANTICS.md has it.
"""

import hmac
import os

import access_targets
import front
from access_cases import CLASS, USER
from front import SECRET

STAMP_SECRET, LONGEST = "stamp-secret-0001", 253
# Which octets of a plan or a name a stamp has as they are.
PLAIN = set(b"ABCDEFGHIJKLMNOPQRSTUVWXYZabcdefghijklmnopqrstuvwxyz0123456789._-")
# FreeRADIUS passes reports on, to a realm for each of radacctd's clients.
SERVER = """
server passed_on {{
	listen {{ type = acct, ipaddr = 127.0.0.1, port = {port} }}
	preacct {{
		update control {{ &Proxy-To-Realm := "%{{client:realm}}" }}
	}}
	accounting {{
		fail
	}}
}}
"""
REALM = """
home_server {name} {{
	type = acct, ipaddr = 127.0.0.1, port = {port}, src_ipaddr = {place}, secret = {secret}
	status_check = none, response_window = 3, response_timeouts = 1000
}}
home_server_pool {name} {{ home_server = {name} }}
realm {name} {{ acct_pool = {name} }}
"""
CLIENT = "client {place} {{ secret = {secret}, realm = {realm} }}\n"
# It passes on no report with an attribute of these that it does not know.
EXTENDED = "".join(f"ATTRIBUTE Extended-{it} {it} octets\n" for it in range(241, 247))


def coded(name):
    return "".join(chr(it) if it in PLAIN else f"%{it:02X}" for it in name)


class Logins(access_targets.Target):
    """Logins are stamped."""

    top = f'[stamp]\nsecret = "{STAMP_SECRET}"\n'

    @staticmethod
    def given(account, plan, login=""):
        """The stamp of a login, or nothing: nobody logged in, or it would be too long."""
        if account is None:
            return b""
        text = f"{coded(plan.encode())};{login};{coded(account)};"
        text += hmac.new(STAMP_SECRET.encode(), f"stamp;{text}".encode(), "md5").hexdigest()
        return text.encode() if len(text) <= LONGEST else b""

    def logs_in(self, case, step):
        """What the Access-Accept has: a LOGIN only where ids are used again."""
        own = case.account(case.logs_in())
        found = self.given(own, "silver", os.urandom(16).hex() if case.setting("login") else "")
        return {USER: [own], CLASS: [found] if found else []}


class Stamped(Logins, access_targets.Alone):
    """radacctd, with a client for each access server."""

    name = "stamped logins"

    def more(self, case):
        plan = case.setting("plan")
        return "stamped = true\n" + (f'plan = "{plan}"\n' if plan else "")


class Proxied(Logins, access_targets.Debian):
    """radacctd behind FreeRADIUS, which passes reports on and does nothing else. VPN servers, whose
    reports have no Class, come from another address: the plan of that client is theirs.
    """

    name = "stamped logins, passed on"
    realms = {"proxy": ("127.0.0.1", ""), "vpn": ("127.0.0.2", 'plan = "silver"\n')}
    # FreeRADIUS goes on while radacctd is started again.
    restart = access_targets.Target.restart

    def __init__(self, folder, cases):
        self.vpn_servers = [it.source() for it in cases if it.setting("plan")]
        more = "stamped = true\nproxy = true\n"
        clients = [front.client_text(name, place, front.BOOK_SECRET, more + plan)
                   for name, (place, plan) in self.realms.items()]
        self.book = access_targets.Book(folder, clients, self.top)
        super().__init__(folder, access_targets.debians(folder))
        self.book.start()
        self.start()

    def ports(self):
        """Takes reports, and passes them on."""
        front.without_listen(self.raddb)
        text = SERVER.format(port=self.port)
        for name, (place, _) in self.realms.items():
            text += REALM.format(name=name, place=place, port=self.book.radius,
                                 secret=front.BOOK_SECRET)
        front.written(os.path.join(self.raddb, "sites-enabled", "port"), text)
        text = CLIENT.format(place="127.0.0.0/8", secret=SECRET, realm="proxy")
        for it in self.vpn_servers:
            text += CLIENT.format(place=it, secret=SECRET, realm="vpn")
        front.written(os.path.join(self.raddb, "clients.conf"), text)
        with open(os.path.join(self.raddb, "dictionary"), "a", encoding="utf-8") as file:
            file.write(EXTENDED)
