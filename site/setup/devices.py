"""What to type or to click at an access server. The text has its secret: only root reads it."""

import re
import shlex

from radacctd_site.core import places
from radacctd_site.core.steps import File, Folder

FOLDER = f"{places.NOTES}/access-servers"
# How often a session is reported, in minutes: a report that overdraws cuts off at the next one.
INTERVAL = 5
MIKROTIK = """\
# RouterOS 7: paste this into a terminal of the router, without a service that it lacks.
/radius add service=hotspot,ppp address={server} secret="{routeros}" timeout=3s comment=radacctd
/radius incoming set accept=yes port=3799
# The router gets this name. Reports have it: who overdraws is disconnected by it.
/system identity set name={name}
/system ntp client set enabled=yes servers=pool.ntp.org
# A hotspot:
/ip hotspot profile set [find] use-radius=yes radius-accounting=yes \\
    radius-interim-update={interval}m login-by=http-pap,https
/ip hotspot walled-garden ip add action=accept dst-host={host} comment=radacctd
# PPPoE:
/ppp aaa set use-radius=yes accounting=yes interim-update={interval}m
"""
UNIFI = """\
UniFi Network, for {name}:
 1. Settings, Profiles, RADIUS, Create New. Name: radacctd.
 2. Authentication Servers: {server}, port 1812, the shared secret below. Add.
 3. RADIUS Accounting: on. Accounting Servers: {server}, port 1813, the same secret. Add.
 4. Interim Update Interval: on, {seconds} seconds. Apply.
 5. WiFi, your network, Security: WPA2/3 Enterprise with this profile. Or Hotspot Portal,
    Authentication: RADIUS, with this profile; Disconnect Requests (CoA): on, port 3799.
    NAS ID: {name}.
 6. Each access point reports from its own address: all are in {address}, and in `members`.
 7. Hotspot, Landing Page, Pre-Authorization Access: {host}.

    shared secret: {secret}
"""
PFSENSE = """\
pfSense, for {name}:
 1. System, User Manager, Authentication Servers, Add. Type RADIUS, Protocol PAP, Hostname
    {server}, Services Authentication and Accounting, ports 1812 and 1813, the secret below. Save.
 2. Services, Captive Portal, your zone. Authentication: this server, also for accounting. NAS
    Identifier: {name}.
 3. Accounting: send RADIUS accounting packets; Accounting updates: Interim.
 4. Reauthentication: off; updates come each minute. System, General Setup: a time server.
 5. Allowed Hostnames, Add: {host}, both directions.

    shared secret: {secret}
"""
OPENWRT = """\
# OpenWrt with wpad of WPA Enterprise: paste this into a shell of {name}, for its first network.
uci set wireless.@wifi-iface[0].encryption=wpa2
uci set wireless.@wifi-iface[0].nasid={name}
uci set wireless.@wifi-iface[0].auth_server={server}
uci set wireless.@wifi-iface[0].auth_secret={quoted}
uci set wireless.@wifi-iface[0].acct_server={server}
uci set wireless.@wifi-iface[0].acct_secret={quoted}
uci set wireless.@wifi-iface[0].acct_interval={seconds}
uci set wireless.@wifi-iface[0].dae_client={server}
uci set wireless.@wifi-iface[0].dae_port=3799
uci set wireless.@wifi-iface[0].dae_secret={quoted}
uci commit wireless; wifi reload
"""
OTHER = """\
{name}, as its own manual names these:
    RADIUS server {server}, authentication port 1812, accounting port 1813
    NAS-Identifier {name}; a clock set by NTP
    interim updates each {interval} minutes, gigawords on, Acct-Delay-Time on
    Disconnect-Requests (RFC 5176) from {server} at port {port}
    what may be reached without a login: {host}
    shared secret: {secret}
"""
# A line with the name of the pages is for a site that has them.
TEXTS = {"mikrotik": MIKROTIK, "unifi": UNIFI, "pfsense": PFSENSE, "openwrt": OPENWRT}
# The first line without FreeRADIUS.
ALONE = "# Only reports go to this machine: leave the server of logins as it is, whatever is said.\n"


def routeros(text):
    """A text between double marks as RouterOS reads it: what could mean more is in digits."""
    return re.sub(r"[^A-Za-z0-9._-]", lambda it: "".join(f"\\{at:02X}" for at in it[0].encode()),
                  text)


def text_of(device, answers, secret):
    lines = TEXTS.get(device["vendor"], OTHER).splitlines(True)
    text = "" if answers.has_front else ALONE
    text += "".join(it for it in lines if answers.host or "{host}" not in it)
    values = {**device, "secret": secret, "server": answers.server or "ADDRESS-OF-THIS-MACHINE",
              "host": answers.host, "interval": INTERVAL, "seconds": 60 * INTERVAL,
              "routeros": routeros(secret), "quoted": shlex.quote(secret),
              "port": 1700 if device["vendor"] == "cisco" else 3799}
    return text.format(**values)


def of(answers, secret_of):
    """A file for each access server, by what says its secret. The steps before it made these."""
    yield Folder(FOLDER, 0o700)
    for it in answers.access_servers:
        yield File(f"{FOLDER}/{it['name']}.txt",
                   lambda _, it=it: text_of(it, answers, secret_of(it["name"])), 0o600, keeps=False)
