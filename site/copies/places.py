"""Where copies are, what a copy has of a machine, and as which user each part is read."""

import glob
import os
import re

from radacctd_site.core import places

FOLDER = places.BACKUPS
EXPORTS = f"{FOLDER}/exports"
NAME = re.compile(r"site-\d{4}-\d{2}-\d{2}(?:\.\d{6})?")
# A copy that its check refused.
REFUSED = "refused-"
# How many nights stay, and of how many days the exports.
NIGHTS, EXPORTED_DAYS = 14, 400
# The stores of SQLite: the user in whose folder each lies, and the mode of that.
STORES = {
    f"{places.USUAL}/site.db": (places.USER, 0o711),
    f"{places.USUAL}/users.db": (places.USER, 0o711),
    # When logins with a validity were first used.
    "/var/lib/radacctd-front/first.db": (places.RADIUS_USER, 0o700),
}
# What lies in folders that only root may write: configuration, secrets, certificates, notes of the
# set-up.
ROOTS = ["/etc/radacctd*", "/etc/default/radacctd*", "/etc/systemd/system/radacctd*",
         "/etc/sysctl.d/radacctd*", "/etc/nginx/conf.d/radacctd*", "/etc/ssl/radacctd.pem",
         "/etc/ssl/private/radacctd.key", "/etc/letsencrypt", places.NOTES]


def roots():
    """The places of root's that are there. What a set-up kept beside a file stays behind."""
    found = (path for pattern in ROOTS for path in glob.glob(pattern))
    return sorted(it for it in found if "~" not in it)


def names(prefix=""):
    """The names of copies, the oldest first."""
    found = os.listdir(FOLDER) if os.path.isdir(FOLDER) else []
    return sorted(it for it in found if it.startswith(prefix)
                  and NAME.fullmatch(it.removeprefix(prefix)))
