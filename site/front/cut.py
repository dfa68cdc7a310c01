"""Ends open sessions of accounts below 0: `cut.py FOLDER` asks the desk once a minute. radclient
sends each one's access server a Disconnect-Request, if it has `cut` in clients.conf. It keeps
nothing. Each hour FreeRADIUS gets to send again what went aside."""
import concurrent.futures
import contextlib
import ipaddress
import json
import os
import pathlib
import re
import subprocess
import sys
import time
import urllib.parse
import urllib.request

MINUTE, HOUR, LONGEST = 60, 3600, 40
USER_NAME, STATION, SESSION, EVENT_TIME = 1, 31, 44, 55
# A client of FreeRADIUS: its name, and what is in it.
BLOCK = re.compile(r'(?ms)^[ \t]*client\s+"?([^\s"{]+)"?\s*\{([^\n{}#]*|.*?^[ \t]*)\}')


def value(text, name):
    """The value of a name in FreeRADIUS' files, without its marks, or ""."""
    found = re.search(rf"""(?m)^[^#\n]*?(?<!\w){name}[ \t]*=[ \t]*("[^"\n]*"|'[^'\n]*'|[^\s,]+)""",
                      text)
    return found[1].strip("\"'") if found else ""


def servers(text):
    """Who can end a session, by NAS-Identifier and address. Of a network all members are asked."""
    found = {}
    for name, block in BLOCK.findall(text):
        members = re.findall(r"[^\s,]+", value(block, "members"))
        for host in members or [value(block, "ip(?:v[46])?addr")]:
            with contextlib.suppress(ValueError):
                address = ipaddress.ip_address(host)
                it = {key: value(block, key) for key in ("secret", "user_name")}
                host = f"[{address}]" if address.version > 4 else address
                it["address"] = f"{host}:{int(value(block, 'cut'))}"
                for device in ((value(block, "nas") or name).encode(), address.packed):
                    found.setdefault(device, []).append(it)
    return found


def overruns(settings):
    """The open sessions of accounts below 0, asked for in parts."""
    desk, key = value(settings, "desk"), value(settings, "key")
    path = "/overruns/sessions"
    while path:
        asked = urllib.request.Request(f"http://{desk}{path}", headers={"Desk-Key": key})
        with urllib.request.urlopen(asked, timeout=10) as answer:
            part = json.load(answer)
        yield from part["sessions"]
        path = part["next"] and f"/overruns/sessions/after/{part['next']}"


def request(session, server, now):
    """A Disconnect-Request for radclient: attributes by number and in hex, so no text is read."""
    names = {SESSION: "id", STATION: "calling"}
    if server["user_name"] == "yes":
        names[USER_NAME] = "account"
    pairs = [(kind, urllib.parse.unquote_to_bytes(session[it])) for kind, it in names.items()]
    pairs.append((EVENT_TIME, now.to_bytes(4, "big")))
    return "".join(f"Attr-{kind} = 0x{value.hex()}\n" for kind, value in pairs if value)


def ask(server, requests):
    """Has radclient send them. It reads the secret from memory, not from its arguments."""
    with open(os.memfd_create("secret"), "w", encoding="utf-8") as secret:
        print(server["secret"], file=secret, flush=True)
        words = ["radclient", "-qs", "-S", f"/proc/self/fd/{secret.fileno()}", "-p", "20",
                 "-r", "2", "-t", "2", server["address"], "disconnect"]
        is_lost = True
        with contextlib.suppress(subprocess.TimeoutExpired):
            done = subprocess.run(words, input="\n".join(requests).encode(), stdout=subprocess.PIPE,
                                  pass_fds=[secret.fileno()], timeout=LONGEST, check=False)
            is_lost = re.search(rb"Lost\s+: [1-9]", done.stdout)
        if is_lost:
            print(f"{server['address']} answers no Disconnect-Request", flush=True)


def cut(settings, clients, now):
    """One round. A session that was not heard of lately has no device any more."""
    known, heard, asked = servers(clients), int(value(settings, "heard")), {}
    for it in overruns(settings):
        device = urllib.parse.unquote_to_bytes(it["device"][1:])
        for server in known.get(device, []) if now - it["last"] <= heard else ():
            asked.setdefault(server["address"], (server, []))[1].append(request(it, server, now))
    with concurrent.futures.ThreadPoolExecutor(max(1, len(asked))) as pool:
        list(pool.map(lambda it: ask(*it), asked.values()))
    return sum(len(requests) for _, requests in asked.values())


def send_again(kept, now):
    """Files that went aside, and were not written for an hour, go where FreeRADIUS sends from."""
    for name in os.listdir(os.path.join(kept, "aside")):
        path = os.path.join(kept, "aside", name)
        if now - os.stat(path).st_mtime > HOUR:
            os.rename(path, os.path.join(kept, "again", f"{name}.{now:.0f}"))
            print(f"{name}: reports that radacctd did not take are sent again", flush=True)


def main(folder):
    while True:
        began = time.monotonic()
        files = (pathlib.Path(folder, it) for it in ("settings.conf", "clients.conf"))
        settings, clients = (it.read_text(encoding="utf-8") for it in files)
        for work, of in ((cut, (settings, clients)), (send_again, (value(settings, "kept"),))):
            try:
                work(*of, int(time.time()))
            except (OSError, ValueError, KeyError) as why:
                print(f"not done: {why!r}", flush=True)
        time.sleep(max(1, MINUTE - (time.monotonic() - began)))


if __name__ == "__main__":
    sys.exit(main(*sys.argv[1:]))
