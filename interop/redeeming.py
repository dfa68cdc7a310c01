"""A guest and a cashier at the pages, by curl: a form is loaded, and sent as one who is sure."""

import re
import tempfile

import kit  # radacctd_site is found by it
from radacctd_site.core import live  # for who imports this


class Visitor:
    """One browser. `run` runs a command: its status and what it printed."""

    def __init__(self, run, url, *more):
        self.run, self.url, self.folder = run, url, tempfile.TemporaryDirectory()
        self.jar = f"{self.folder.name}/jar"
        self.words = ["curl", "-sk", "-m", "30", "-b", self.jar, "-c", self.jar, *more]

    def get(self, path):
        return self.run([*self.words, f"{self.url}{path}"])[1]

    def sent(self, path, page=None, **fields):
        """What a form of a page is answered, and behind it the status and where it leads."""
        found = re.search(r'name="token" value="(\w+)"', self.get(page or path))
        fields["token"] = found[1] if found else ""
        words = [it for name, value in fields.items()
                 for it in ("--data-urlencode", f"{name}={value}")]
        words += ["-w", "\n%{http_code} %{redirect_url}", "-H", f"Origin: {self.url}",
                  f"{self.url}{path}"]
        return self.run([*self.words, *words])[1]

    def post(self, path, page=None, **fields):
        """The status of a form of a page, and where it leads."""
        status, _, to = self.sent(path, page, **fields).rpartition("\n")[2].partition(" ")
        return int(status or 0), to.strip().removeprefix(self.url)


def redeem(run, url, account, code, *more):
    """The status of the page for a guest who redeems a code."""
    return Visitor(run, url, *more).post("/redeem/", account=account, code=code, sure="yes")[0]


def sold(run, url, name, password, account, total, *more):
    """The text of the receipt of a cashier who logs in, and sells."""
    visitor = Visitor(run, url, *more)
    visitor.post("/login/", name=name, password=password)
    fields = {"account": account, "sum": total}
    number = re.search(r'name="number" value="([^"]+)"', visitor.sent("/desk/", **fields))
    sold_at = visitor.post("/desk/", **fields, number=number and number[1], sure="yes")[1]
    return visitor.get(sold_at)


def card(run, url, name, password, account, *more):
    """The key of a new card that a cashier prints for an account, and the cashier."""
    visitor = Visitor(run, url, *more)
    visitor.post("/login/", name=name, password=password)
    said = visitor.sent("/card/", account=account, act="make", sure="yes")
    found = re.search(r'id="key">([a-z0-9-]+)<', said)
    return found and found[1], visitor


def sheet(run, count, total="5.00"):
    """The name of a new sheet, and its codes; `run` runs a shell's command and returns its text."""
    name = run(f"radacctl voucher make {count} {total} --yes").strip().rpartition("/")[2]
    lines = run(f"radacctl voucher list {name}").splitlines()[1:]
    return name, [it.partition(",")[0] for it in lines]
