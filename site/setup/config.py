"""radacctd's configuration: what is there stays, and plans, clients and keys are added."""

import os
import tomllib

from radacctd_site.core import (
    Failed, book, corrections, files, machine, names, places, steps, told)
from radacctd_site.core.steps import File

HEAD = """\
# The site: who reports, what the plans cost, who may use the desk. `radacctl setup` wrote it, and
# only adds to it. man radacctd.toml has the rules, docs/reference/settings.md how it is changed.
"""
DEBIT = {"class": corrections.CLASS, **corrections.WANTED}
# FreeRADIUS' reports of somebody whom nobody let in have it.
FREE = {"class": "free", "block": 1_000_000, "unit": 0, "count": "both"}
# Where FreeRADIUS reports to, which has the usual port itself.
BESIDE_FREERADIUS = 11813


class Config:
    """The configuration as it is, and what the site needs besides.

    Secrets and keys that are there stay. New ones are the same for all steps of a run. A feature
    adds to `of_features` what returns secrets of its own for the other machine of a pair; one that
    keeps the access servers' secrets puts what tells them into `secret_of`.
    """

    def __init__(self, answers):
        self.answers, self.of_features = answers, []
        self.text = files.text(places.CONFIG)
        with told(Failed, f"{places.CONFIG} is wrong: ", tomllib.TOMLDecodeError):
            self.found = tomllib.loads(self.text.replace("\r\n", "\n"))
        self.more = []
        self.secret_of = lambda name: self.clients[name]["secret"]
        try:
            self.clients = {it.get("name"): it for it in self.found.get("client", [])}
            self.plans = self.wanted_plans()
            self.add_clients()
            self.add_plans()
            self.keys = {"site": self.key("site", "/etc/radacctd-site.key", cashier=True,
                                          accounts=True)}
            self.stamp = self.found.get("stamp", {}).get("secret")
            if answers.has_front:
                self.keys["logins"] = self.key("logins", None, logins=True)
                self.add_stamp()
        except (AttributeError, KeyError, TypeError):
            raise Failed(f"{places.CONFIG} is wrong: radacctd check --explain says where") from None

    def wanted_plans(self):
        """The plans of the answers, that of corrections, and one that costs nothing."""
        found = [*self.answers.plans, DEBIT]
        self.free = next((it for it in self.answers.plans if it["unit"] == 0), FREE)
        return found + ([FREE] if self.answers.has_front and self.free is FREE else [])

    def add_clients(self):
        wanted = [{"name": corrections.CLIENT, "address": corrections.SOURCE}]
        if self.answers.has_front:
            wanted.append({"name": "front", "address": "127.0.0.1", "stamped": True, "proxy": True,
                           "plan": self.free["class"]})
        else:
            wanted += [{"name": it["name"], "address": it["address"]}
                       for it in self.answers.access_servers]
        for it in wanted:
            name, known = it["name"], self.clients.get(it["name"])
            if known is None:
                self.clients[name] = {**it, "secret": self.answers.secret(name)}
                self.more.append(book.block("client", self.clients[name]))
                continue
            for member in it:
                # Which free plan a site chose stays.
                if known.get(member) != it[member] and member != "plan":
                    raise Failed(f"{places.CONFIG} has the client {name} with the {member} "
                                 f"{known.get(member)}, not {it[member]}: change one of both")

    def add_plans(self):
        known = {it.get("class"): it for it in self.found.get("plan", [])}
        for plan in self.plans:
            old = known.get(plan["class"])
            if old is None:
                self.more.append(book.block("plan", plan))
            elif {"count": "both", **old} != {"count": "both", **plan}:
                raise Failed(f"the plan {plan['class']} is another one in {places.CONFIG}: "
                             "a plan stays what it is, so add one of a new class")

    def key(self, name, path, **rights):
        """A key of the desk with these rights: that of its file, another one, or a new one."""
        known = [it["token"] for it in self.found.get("key", [])
                 if {**it, "token": None} == {"token": None, **rights}]
        had = files.text(path).strip() if path else ""
        if known:
            # That of a run which was killed before it wrote the file, perhaps.
            return had if had in known else known[0]
        key = self.answers.secret(name, f"{name}-")
        self.more.append(book.block("key", {"token": key, **rights}))
        return key

    def add_stamp(self):
        if not self.stamp:
            self.stamp = self.answers.secret("stamp")
            self.more.append(f'[stamp]\nsecret = "{self.stamp}"\n')

    def secrets(self):
        """What the other machine of a pair is to have, too."""
        found = {it: self.clients[it]["secret"] for it in ("front", corrections.CLIENT)}
        found |= {**self.keys, "stamp": self.stamp}
        for more in self.of_features:
            found |= more()
        return found

    def wanted(self, old):
        """What the file is to be, of what it was as it was read."""
        text = self.text or HEAD
        for more in self.more:
            text = text.rstrip("\n") + "\n\n" + more
        if (old or "") not in (self.text, text):
            raise Failed(f"{places.CONFIG} was changed meanwhile: give the command again")
        return text


class ConfigFile(File):
    """The configuration: it takes its place only if radacctd finds it right."""

    name = "config-wrong"

    def __init__(self, config):
        super().__init__(places.CONFIG, config.wanted, 0o640, places.SERVER_USER)

    def look(self):
        if os.path.exists(self.path):
            self.test(self.path)
        return super().look()

    def test(self, path):
        """What radacctd says against it is why it stays as it was."""
        status, said = machine.run(places.PROGRAM, "check", "--config", path, "--explain")
        if status:
            raise Failed(machine.last_line(said))


def plan_step(config):
    """The step to new plans, which the book gets while its server stands still."""
    of_book = ("--config", places.CONFIG, "--db", places.BOOK)
    wanted = {names.shown(it["class"].encode())
              for it in (*config.plans, *config.found.get("plan", []))}

    def put():
        machine.refuse_if_away()
        machine.given(["systemctl", "stop", "radacctd.service"])
        try:
            machine.given([places.PROGRAM, "plans", *of_book])
        finally:
            machine.given(["systemctl", "start", "radacctd.service"])

    return steps.Step("put the new plans into the book: radacctd stops for some seconds",
                      lambda: wanted <= set(book.in_force()), put, name="plan-waits")
