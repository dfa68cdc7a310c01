"""The steps to one machine of a pair, the file of answers for the other one, and its look."""

import hashlib
import json
import os
import re

from radacctd_site.core import Failed, book, files as on_disk, looks, places, steps
from radacctd_site.core.steps import File

HERE = os.path.dirname(os.path.realpath(__file__))
RADDB, CONF = "/etc/radacctd-front", "/etc/radacctd-front/pair.conf"
OTHER, WRITTEN = f"{places.NOTES}/other-machine.toml", f"{places.NOTES}/other-machine.written"
# The one account that the try of a set-up uses.
TEST = "radacctd-setup"


def files(answers, config):
    """FreeRADIUS' part: what one book took goes to the other one."""
    if not answers.pair:
        return
    # A book that has sold is not copied by a set-up.
    others = book.names() - {TEST}
    if others and not os.path.exists(CONF):
        raise Failed(f"the book has {len(others)} accounts already: make a pair of it by the "
                     "steps of site/pair/README.md, which copy the book")
    # What both machines share: that of the file, or a new one.
    found = re.search(r"(?m)^\s*secret = (\S+)$", on_disk.text(CONF))
    secret = found[1] if found else answers.secret("pair")
    for name, change in (("pair.conf", lambda old: conf(old, answers, secret)),
                         ("pair", own("pair")), ("pair-taken", own("pair-taken"))):
        yield File(f"{RADDB}/{name}", change, 0o640, places.RADIUS_USER)
    yield steps.folder_of(places.RADIUS_USER, "/var/lib/radacctd-front/other")
    if not answers.secrets and not answers.pair["second"]:
        yield Once(OTHER, lambda _: text(answers, {**config.secrets(), "pair": secret}), 0o600)


def look_at(answers, _):
    """What no step sees: reports that wait for the other machine."""
    if answers.pair:
        yield from looks.waits("/var/lib/radacctd-front/other", "pair-waits", "the other machine",
                               "start it, or look at the way to it: journalctl -u radacctd-front "
                               "-n 20")


def own(name):
    with open(f"{HERE}/raddb/{name}", encoding="utf-8") as file:
        return file.read()


def conf(old, answers, secret):
    """pair.conf with both addresses; the port stays."""
    text = old or own("pair.conf")
    for name, value in (("address", answers.pair["own"]), ("other", answers.pair["other"]),
                        ("secret", secret)):
        text = re.sub(rf"(?m)^([^#\n]*?\b{name} = )[^\s,]+", rf"\g<1>{value}", text, count=1)
    return text


class Once(File):
    """A file with secrets, which a person takes away: it is written again only if it is another."""

    def mark(self):
        return hashlib.sha256(self.wanted(None)).hexdigest() + "\n"

    def look(self):
        return on_disk.text(WRITTEN) == self.mark()

    def do(self):
        super().do()
        File(WRITTEN, self.mark(), 0o600).do()


def text(answers, secrets):
    """The answers of the other machine, once all secrets are there."""
    found = {name: value for name, value in answers.found.items() if value != {}}
    # Only a person knows where access servers reach the other one.
    found |= {"certificate": "", "certificate_key": "", "server": "", "secrets": secrets,
              "pair": {"own": answers.pair["other"], "other": answers.pair["own"], "second": True}}
    lines = ["# The other machine of the pair: radacctl setup --yes with this file. It has",
             "# all secrets: once that is done, remove the first machine's, and the table",
             "# [secrets] of the other one's, which is for upgrades.",
             f"# Copy {places.NOTES}/authority there before, so that devices trust both."]
    if "sql" in found:
        path = found["sql"]["password_file"]
        lines.append(f"# The password of [sql] is not in it: copy {path}, too.")
    tables = [(f"[{it}]", row) for it in ("plan", "access_server") for row in found.pop(it)]
    tables += [(it, found.pop(it)) for it in ("pair", "sql", "secrets") if it in found]
    lines += members(found)
    for name, row in tables:
        lines += ["", f"[{name}]", *members(row)]
    return "\n".join(lines) + "\n"


def members(row):
    """Members of a table as TOML has them: texts, numbers, truths, lists and no table."""
    return [f"{json.dumps(name)} = {json.dumps(it, ensure_ascii=False)}"
            for name, it in row.items()]
