"""The steps to the pages: nginx with a certificate, the settings, persons, the service's socket."""

import http.client
import json
import os
import re
import shlex
import socket
import ssl

from radacctd_site.core import Failed, book, codes, files, looks, machine, money, places
from radacctd_site.core.steps import Fault, File, Folder, Step, Unit
from radacctd_site.setup import server

PAGE, OWN = "/etc/nginx/conf.d/radacctd.conf", "/etc/nginx/radacctd-own*.conf"
CERTIFICATE, PRIVATE_KEY = "/etc/ssl/radacctd.pem", "/etc/ssl/private/radacctd.key"
PASSWORDS = f"{places.NOTES}/cashiers.txt"
TEST, HERE = ("nginx", "-t"), ("127.0.0.1", 443)


def of(answers):
    """The steps, in their order."""
    if not answers.certificate:
        yield Certificate(answers.host)
        yield File(PRIVATE_KEY, lambda old: old or "", 0o600)
    yield Page(PAGE, page(answers), host=answers.host)
    yield Folder("/etc/radacctd-web")
    yield File(money.SETTINGS, lambda old: settings(old, answers))
    for name in answers.cashiers:
        role = "operator" if name in answers.operators else "cashier"
        yield Step(f"make a login for the {role} {name}; its password is in {PASSWORDS}",
                   lambda name=name, role=role: f"{name}: {role}" in persons(),
                   lambda name=name, role=role: make_person(name, role))
    yield from map(Unit, server.units(".socket"))
    yield Unit("nginx.service", [PAGE, OWN], TEST)


class Page(File):
    """The file for nginx: if nginx finds a fault with it, what was there before is put back."""

    name = "nginx-wrong"

    def test(self, more=""):
        """nginx takes its files. Of two servers of one name it hears one, and says so only here."""
        status, said = machine.run(*TEST)
        if status or re.search(f'conflicting server name "{re.escape(self.host)}"', said):
            raise Failed(f"nginx says{more}: {machine.last_line(said, 'emerg|conflicting')}")

    def look(self):
        self.test()
        return super().look()

    def do(self):
        machine.given(TEST)
        old, _ = self.found()
        self.write(self.wanted(old), old)
        self.undo = lambda: self.write(old, None) if old is not None else files.remove(self.path)
        self.test(f" of {self.path}, so it was taken back")


def page(answers):
    """The file for nginx with the site's names."""
    with open(f"{places.TOP}/core/nginx/radacctd.conf", encoding="utf-8") as file:
        text = file.read()
    for name, value in (("server_name", answers.host),
                        ("ssl_certificate", answers.certificate or CERTIFICATE),
                        ("ssl_certificate_key", answers.certificate_key or PRIVATE_KEY)):
        text = re.sub(rf"(?m)^(\s+{name}\s+)\S+;.*$", rf"\g<1>{value};", text)
    return text


class Certificate(Step):
    """A certificate of the host, of which browsers warn. One that somebody else signed stays."""

    def __init__(self, host):
        super().__init__(f"make a certificate of {host}, of which browsers warn",
                         name="certificate-ended")
        self.host = host

    def look(self):
        """One belongs to the other; and it is of this host, or somebody else has signed it."""
        # A key with a passphrase, which nginx would ask for, is none either.
        ssl.create_default_context().load_cert_chain(CERTIFICATE, PRIVATE_KEY, "")
        said = machine.given(["openssl", "x509", "-noout", "-subject", "-issuer", "-checkhost",
                              self.host], files.text(CERTIFICATE))
        subject, issuer, *_ = [it.partition("=")[2] for it in said.splitlines()]
        return subject != issuer or "does match" in said

    def do(self):
        # A subject has at most 64 characters, and browsers read the other name.
        said = machine.given(["openssl", "req", "-x509", "-newkey", "rsa:2048", "-nodes", "-days",
                              "3650", "-subj", f"/CN={self.host[:64]}", "-addext",
                              f"subjectAltName=DNS:{self.host}", "-keyout", "-", "-out", "-"])
        key, begin, pem = said.partition("-----BEGIN CERTIFICATE")
        File(PRIVATE_KEY, key, 0o600).do()
        File(CERTIFICATE, begin + pem).do()


def settings(old, answers):
    """The settings of the pages; further members of a site stay."""
    try:
        found = {**(json.loads(old) if old else {})}
    except (ValueError, TypeError):
        raise Failed(f"{money.SETTINGS} is no object of settings: mend it, or move it") from None
    known = found.get("decimals", answers.decimals)
    # Whether the book has an account besides that of the proof.
    if known != answers.decimals and book.names() - {"radacctd-setup"}:
        raise Failed(f"{money.SETTINGS} has {known} decimals, and the answers have "
                     f"{answers.decimals}: each sum of the book would be another one")
    found |= {"name": answers.name, "url": f"https://{answers.host}",
              "currency": answers.currency, "decimals": answers.decimals}
    return json.dumps(found, indent=2, ensure_ascii=False) + "\n"


def persons():
    """Each login, with its role."""
    return machine.given([places.RADACCTL, "person", "list"], seconds=60).splitlines()


def make_person(name, role):
    """The login of a person, by the password in setup's notes, which only root reads."""
    found = re.search(rf"(?m)^{re.escape(name)} (\S+)$", files.text(PASSWORDS))
    password = found[1] if found else "-".join(codes.letters(5) for _ in range(4))
    line = f"{name} {password}\n"

    def notes(old):
        had = (old or "").rstrip("\n")
        return old if line in (old or "") else f"{had}\n{line}" if had else line

    File(PASSWORDS, notes, 0o600, keeps=False).do()
    more = ["--operator"] if role == "operator" else []
    machine.given([places.RADACCTL, "person", "put", name, *more], password + "\n")


def others(answers):
    """What to say of persons whose login is there, and who are not in the answers."""
    if not answers.host or not os.path.exists(places.DATABASE):
        return
    for name in (it.rpartition(": ")[0] for it in persons()):
        if name not in answers.cashiers:
            yield (f"{name} may still log in, and is not in `cashiers`. To end that: "
                   f"radacctl person remove {shlex.quote(name)}")


def seen(answers):
    """What a step does not see: a name without an address, a certificate that ends or was not read."""
    try:
        socket.getaddrinfo(answers.host, 443)
    except OSError as why:
        yield Fault("host-unknown", f"{answers.host} has no address: {why.strerror}",
                    "write it into your DNS, with this machine's address")
    path = answers.certificate or CERTIFICATE
    found = list(looks.certificate(path, "renew it, then: systemctl reload nginx"))
    yield from found
    if not found and "does match" not in machine.given(
            ["openssl", "x509", "-noout", "-checkhost", answers.host], files.linked_text(path)):
        yield Fault("certificate-other", f"{path} is not of {answers.host}: browsers warn of it",
                    "name one of this host in the answers, or remove it; then: radacctl setup")
    if not found and serves_another(answers.host, path):
        yield Fault("certificate-old", f"nginx serves another certificate than {path}",
                    "systemctl reload nginx")


def connected(host):
    """A connection to nginx here for a name. Whether browsers trust it is another question."""
    context = ssl.create_default_context()
    context.check_hostname, context.verify_mode = False, ssl.CERT_NONE
    with socket.create_connection(HERE, timeout=10) as plain:
        return context.wrap_socket(plain, server_hostname=host)


def serves_another(host, path):
    """Whether nginx serves a certificate that its file has not: it was not reloaded since."""
    try:
        with connected(host) as connection:
            found = ssl.DER_cert_to_PEM_cert(connection.getpeercert(True))
    except OSError:
        return False
    return "".join(found.split()) not in "".join(files.linked_text(path).split())


def tries(answers):
    """Each kind of page is answered through nginx."""
    for path, status in (("/login/", 200), ("/desk/", 303), ("/bootstrap.min.css", 200)):
        found = asked(answers.host, path)
        if found != status:
            raise Failed(f"the page {path} is answered by {found}, not {status}: journalctl -n 20 "
                         "-u radacctd-site -u nginx")
    yield "the pages are answered"


def asked(host, path):
    """The status that nginx gives on this machine for a page."""
    try:
        with connected(host) as connection:
            caller = http.client.HTTPConnection(host)
            caller.sock = connection
            caller.request("GET", path)
            return caller.getresponse().status
    except (OSError, http.client.HTTPException) as fault:
        return type(fault).__name__
