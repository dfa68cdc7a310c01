"""Rows of interop/package: an upgrade behind FreeRADIUS, with open sessions and reports that wait;
and a removal.
"""

import json
import os
import re

import start_site
from served import check, until
from service import BALANCES

WAITS = "/var/lib/radacctd-front/waits"
COUNT, SOLD, BLOCK = 5, 1000, 10_000_000
SALE = f"printf 'voucher,account,sum\\nQ-1,al,{SOLD}\\n' | radacctl sell"


class Front:
    """A site of the package with FreeRADIUS in front, and the sessions of one account."""

    def __init__(self, box):
        self.box = box
        text = box.must(f"cat {start_site.FRONT}/clients.conf")
        self.secret = re.search(r"client radacctd-setup \{\n.*\n\tsecret = '(\S+)'", text)[1]
        key = re.search(r"\tkey = (\S+)", box.must(f"cat {start_site.FRONT}/settings.conf"))[1]
        said = box.beside(["curl", "-s", "-H", f"Desk-Key: {key}",
                           "http://127.0.0.1:8066/logins/al/default"])[1]
        self.stamp = json.loads(said)["stamp"]

    def reported(self, status, blocks):
        """How many sessions' reports were answered, each of so many blocks."""
        return sum(self.answered(f"Q-{it}", status, blocks) for it in range(COUNT))

    def answered(self, session, status, blocks):
        lines = ["User-Name=al", f"Acct-Session-Id={session}", f"Acct-Status-Type={status}",
                 f'Class="{self.stamp}"', f"Acct-Input-Octets={blocks * BLOCK}",
                 "Packet-Src-IP-Address=127.0.0.8"]
        words = f"radclient -r 2 -t 3 -x 127.0.0.1:1813 acct {self.secret}"
        said = self.box.run(f"echo '{','.join(lines)}' | {words}")[1]
        return "Received Accounting-Response" in said

    def balance(self):
        return self.box.run(f"grep ^al, {BALANCES}")[1].strip()

    def charged(self, blocks):
        """Waits until each session is charged once, by its greatest total."""
        wanted = f"al,{SOLD - COUNT * blocks},0"
        return until(lambda: self.balance() == wanted, 90) or self.balance()

    def waiting(self):
        found = self.box.run(f"grep -rhc '^\tTimestamp' {WAITS}")[1].split()
        return sum(map(int, found))


def made(box, folder):
    """The site, by the older package and its set-up."""
    os.rename(f"{folder}/old.deb", f"{folder}/radacctd.deb")
    start_site.prepare(box, folder)
    start_site.set_up(box)
    box.must(SALE)
    return Front(box)


def upgraded(box, folder):
    front = made(box, folder)
    check("sessions are open", front.reported("Interim-Update", 2), COUNT)
    check("and charged", front.charged(2), True)
    box.must("kill -STOP $(systemctl show -P MainPID radacctd)")
    check("while radacctd is silent no report is answered", front.reported("Interim-Update", 4), 0)
    check("and all wait", until(lambda: front.waiting() == COUNT, 30), True)
    status, said = box.run("dpkg -i /root/new.deb")
    check("an upgrade meanwhile ends well", (status, "not" in said.split()), (0, False))
    check("what waited is charged, once", front.charged(4), True)
    check("nothing waits", until(lambda: front.waiting() == 0, 30), True)
    check("the sessions go on", front.reported("Stop", 6), COUNT)
    check("as those that they were", front.charged(6), True)
    check("the same again", front.reported("Stop", 6), COUNT)
    check("costs nothing", front.charged(6), True)
    status, said = box.run(f"radacctl setup --yes {start_site.ANSWERS}")
    check("the set-up brings the rest to this version", (status, said[-300:] if status else ""),
          (0, ""))
    check("and the check finds nothing", start_site.is_sound(box), [])
    removed(box)


def removed(box):
    """apt removes the package with its units, and nginx goes on."""
    check("apt removes it", box.run("apt-get remove -y radacctd")[0], 0)
    for it, state in (("nginx", "active"), ("radacctd-front", "inactive")):
        check(f"{it} is {state}", box.run(f"systemctl is-active {it}")[1], f"{state}\n")
