"""The access servers: FreeRADIUS' clients.conf.

The file is the site's: a set-up adds what it lacks, and changes nothing that is there.
"""

import contextlib
import ipaddress
import os

from radacctd_site.core import Failed, files
from radacctd_site.front.cut import BLOCK, value

HERE = os.path.dirname(os.path.realpath(__file__))
RADDB = "/etc/radacctd-front"
# The account of the try at the end of a set-up, and where its login and its reports come from.
TEST_NAME, TEST_ADDRESS = "radacctd-setup", "127.0.0.8"
TEST = {"name": TEST_NAME, "address": TEST_ADDRESS, "vendor": "mikrotik", "members": []}
# By vendor: the attributes of a quota, and another port for Disconnect-Requests than the usual one.
QUOTAS = {"mikrotik": "mikrotik", "pfsense": "pfsense"}
CUT_PORT, CUT_PORTS = 3799, {"cisco": 1700}
CLIENT = """
client {name} {{
	ipaddr = {address}
	secret = '{secret}'
	quota = {quota}, login = {login}, pays = yes, cut = {cut}{named}
}}
"""


def own(path):
    """A file as this version has it."""
    with open(f"{HERE}/{path}", encoding="utf-8") as file:
        return file.read()


def known():
    """The access servers of clients.conf: name and text of each."""
    return BLOCK.findall(files.text(f"{RADDB}/clients.conf"))


def written(old, answers):
    """clients.conf with those that it lacks. Of one that is there nothing is changed."""
    text = own("raddb/clients.conf") if old is None else old
    there = dict(BLOCK.findall(text))
    named = {value(block, "ipaddr"): name for name, block in there.items()}
    for it in [*answers.access_servers, TEST]:
        if it["name"] in there:
            refuse_other(it, value(there[it["name"]], "ipaddr"))
            continue
        if it["address"] in named:
            raise Failed(f"clients.conf has the address of {it['name']} as "
                               f"{named[it['address']]}: change one of both")
        if ":" in it["address"] and not os.path.exists(f"{RADDB}/site.conf"):
            raise Failed(f"{it['name']} has an IPv6 address: first write a `listen` for it "
                               f"into {RADDB}/site.conf")
        more = {"secret": answers.secret(f"client-{it['name']}"),
                "quota": QUOTAS.get(it["vendor"], "none"),
                "named": f'\n\tmembers = "{" ".join(it["members"])}"' if it["members"] else "",
                "cut": "no" if it is TEST else CUT_PORTS.get(it["vendor"], CUT_PORT),
                # A router that begins its ids anew at a boot.
                "login": "yes" if it["vendor"] == "mikrotik" else "no"}
        text += CLIENT.format(**it, **more)
    return text


def refuse_other(wanted, found):
    """Another address is for a person to decide."""
    with contextlib.suppress(ValueError):
        if ipaddress.ip_network(found) != ipaddress.ip_network(wanted["address"]):
            raise Failed(f"clients.conf has the client {wanted['name']} with the address "
                               f"{found}, not {wanted['address']}: change one of both")


def secret_of(name):
    """The secret that FreeRADIUS has with an access server."""
    found = value(dict(known()).get(name, ""), "secret")
    if not found:
        raise Failed(f"{RADDB}/clients.conf has no secret of {name}")
    return found
