"""Steps to a site. Each says whether it holds, does what is missing, and is done again without harm
after a kill at any moment.

A file is replaced by a rename. One that was there and differs is kept as PATH~before-DATE-TIME,
with its owner and mode: it is another name of the same file, which no program reads.
"""

import collections
import contextlib
import datetime
import glob
import grp
import os
import pwd
import stat

from radacctd_site.core import Failed, files, machine, places, told

AGAIN = "radacctl setup"
# What was found: its name, as a page lists them, what it is, and what to do.
Fault = collections.namedtuple("Fault", "name text cure")


def ids(owner, group):
    """The numbers of a user and of a group."""
    try:
        return pwd.getpwnam(owner).pw_uid, grp.getgrnam(group).gr_gid
    except KeyError:
        raise Failed(f"there is no user {owner}, or no group {group}: is its package "
                     "installed?") from None


class Step:
    """What is to hold: `look` tells whether it does, `do` makes it so, `cure` is for a person, and
    `undo` takes back what a `do` that failed has changed. Without one the next run ends it."""

    name, cure, undo = "differs", AGAIN, None

    def __init__(self, what, look=None, do=None, **more):
        self.what = what
        self.look, self.do = look or self.look, do or self.do
        vars(self).update(more)

    def holds(self):
        """What cannot be looked at yet is still to be done: a user whose package lacks, say."""
        try:
            return bool(self.look())
        except (Failed, OSError):
            return False

    def finish(self):
        """Does it if it does not hold. What one step makes may be what a later one looks for."""
        if self.holds():
            return
        print(f"{self.what} ..", flush=True)
        try:
            self.do()
        except (Failed, OSError):
            if self.undo:
                self.undo()
            raise

    def faults(self):
        """The fault of a step that does not hold."""
        try:
            if self.look():
                return
            why, cure = "", self.cure
        except (Failed, OSError) as fault:
            why, cure = f" ({fault})", f"mend that; then: {self.cure}"
        yield Fault(self.name, f"to be done: {self.what}{why}", cure)


class Command(Step):
    """A command, and what tells whether it is still to be given."""

    def __init__(self, what, look, *words, **more):
        super().__init__(what, look, **more)
        self.words = words

    def do(self):
        said = machine.given(self.words)
        if not self.look():
            raise Failed(f"{' '.join(self.words)}: it did not help: {said[-300:]}")


@contextlib.contextmanager
def placed(path):
    """The folder of a name, open, and the name in it. What is done there is on the disk then."""
    above, name = os.path.split(path)
    with files.opened_folder(above) as folder:
        yield folder, name
        os.fsync(folder)


class Folder(Step):
    """A folder in one of root's, with its owner and mode."""

    def __init__(self, path, mode=0o755, owner="root", group="root"):
        super().__init__(f"make {path}, mode {mode:o}, of {owner}")
        self.path, self.mode, self.owner, self.group = path, mode, owner, group

    def look(self):
        with contextlib.suppress(FileNotFoundError):
            found = os.lstat(self.path)
            rights = *ids(self.owner, self.group), self.mode
            return stat.S_ISDIR(found.st_mode) and rights == rights_of(found)
        return False

    def do(self):
        with placed(self.path) as (folder, name):
            with contextlib.suppress(FileExistsError):
                os.mkdir(name, 0o700, dir_fd=folder)
            with files.handle_of(name, files.FOLDER, folder) as handle:
                os.fchown(handle, *ids(self.owner, self.group))
                os.fchmod(handle, self.mode)


def rights_of(status):
    return status.st_uid, status.st_gid, stat.S_IMODE(status.st_mode)


class File(Step):
    """A file of ours in a folder of root's, with its content, owner and mode. `change` is the
    content, or makes it of what was there, which is kept unless `keeps` says otherwise."""

    def __init__(self, path, change, mode=0o644, group="root", owner="root", keeps=True, **more):
        super().__init__(f"write {path}, mode {mode:o}, of {owner} and {group}", **more)
        self.path, self.change, self.mode = path, change, mode
        self.owner, self.group, self.keeps = owner, group, keeps

    def found(self):
        """The content and the status of what is there, or None of both."""
        try:
            with files.opened(self.path) as (file, it):
                return file.read(), it
        except FileNotFoundError:
            return None, None

    def wanted(self, old):
        if isinstance(self.change, str):
            return self.change.encode("utf-8", "surrogateescape")
        # Octets that are no UTF-8, in a comment of a site say, stay as they are.
        text = old.decode("utf-8", "surrogateescape") if old is not None else None
        return self.change(text).encode("utf-8", "surrogateescape")

    def rights(self):
        return *ids(self.owner, self.group), self.mode

    def test(self, path):
        """Failed says why what is at a path may not take the file's place."""

    def look(self):
        old, status = self.found()
        return old is not None and old == self.wanted(old) and self.rights() == rights_of(status)

    def do(self):
        old, _ = self.found()
        self.write(self.wanted(old), old)

    def write(self, new, old):
        """Puts a new file into place. What was there is kept once the new one is whole."""
        rights = self.rights()

        def give(handle):
            os.fchown(handle, *rights[:2])
            os.fchmod(handle, rights[2])

        def ready():
            self.test(self.path + files.NEW)
            if self.keeps and old is not None and old != new:
                keep(folder, name)

        with placed(self.path) as (folder, name), told(Failed, f"cannot write {self.path}: "):
            files.replace_in(folder, name, new, rights=give, before=ready)


def keep(folder, name):
    """Gives a file a second name, which it keeps."""
    new = f"{name}~before-{datetime.datetime.now():%Y%m%d-%H%M%S.%f}"
    os.link(name, new, src_dir_fd=folder, dst_dir_fd=folder, follow_symlinks=False)


def is_fresh(unit, paths):
    """Whether a unit was started or reloaded since files were changed, or there is no file."""
    found = [os.stat(path).st_ctime for it in paths for path in glob.glob(it)]
    return not found or (machine.changed_at(unit) or 0) >= max(found)


class Unit(Step):
    """A unit that runs, also after a boot, and has read its files as they are: once a test of them
    ends well it is restarted. What it was told last counts, a reload, too."""

    name = "unit-down"
    WANTED = {"ActiveState": "active", "UnitFileState": "enabled", "NeedDaemonReload": "no"}
    # A line of the unit's own: systemd's come after the reason.
    OWN = r"^(?!\S+\.\w+: |St\w+(ing|ed) |Failed to start )"

    def __init__(self, unit, paths=(), test=()):
        super().__init__(f"start {unit} with its files as they are, now and at each boot",
                         cure=f"{AGAIN}; why it stopped: journalctl -u {unit} -n 20")
        self.unit, self.paths, self.test = unit, paths, test

    def look(self):
        found = machine.properties(self.unit, *self.WANTED, "LoadState")
        if found.get("LoadState") == "masked":
            raise Failed(f"it is masked: systemctl unmask {self.unit}")
        if found.get("ActiveState") in ("failed", "activating"):
            raise Failed(machine.last_line(machine.journal(self.unit), self.OWN))
        if is_fresh(self.unit, self.paths):
            return found.items() >= self.WANTED.items()
        if self.test:
            # What keeps it from a start with them is said.
            machine.given(self.test, seconds=60)
        return False

    def do(self):
        if self.test:
            machine.given(self.test, seconds=60)
        machine.given(["systemctl", "daemon-reload"])
        if not is_fresh(self.unit, self.paths):
            if self.unit == "radacctd.service":
                machine.refuse_if_away()
            machine.given(["systemctl", "restart", self.unit])
        machine.given(["systemctl", "enable", "--now", self.unit])


def folder_of(name, path):
    """A folder in one of a user's, who makes it."""
    words = machine.as_user(name)
    return Command(f"make {path}, of {name}",
                   lambda: not machine.ran([*words, "test", "-d", path]).returncode,
                   *words, "mkdir", "-m", "700", path)


def users():
    """The users and groups that the package says to systemd. The pages' user reads the balances,
    and nothing else of radacctd's.
    """
    def are_there():
        groups = machine.given(["id", "-Gn", places.USER]).split()
        return {*groups} == {places.USER, places.READERS} and not machine.run(
            "id", places.SERVER_USER)[0]

    return Command(f"make radacctd's users, and let {places.USER} be in no further group",
                   are_there, "sh", "-c", 'systemd-sysusers && usermod -G "$0" "$1"',
                   places.READERS, places.USER)


# After a power cut in the middle of an earlier installation, too. Another run of apt is waited for,
# as that of a machine's first hour. A site's files stay.
INSTALL = """dpkg --force-confold --configure -a
exec apt-get install --yes --no-install-recommends -o DPkg::Lock::Timeout=600 \\
    -o Dpkg::Options::=--force-confold "$@"
"""


def packages(wanted):
    """Debian's packages that are missing."""
    lacking = [it for it in wanted if not is_installed(it)]
    return Command(f"install {' '.join(lacking) or 'nothing'}",
                   lambda: all(map(is_installed, wanted)), "sh", "-c", INSTALL, "sh", *lacking)


def is_installed(name):
    """Whether a package is there, or the one of a version that apt takes for it."""
    said = machine.run("dpkg-query", "-W", "-f", "${db:Status-Status}\n", name, f"{name}-[0-9]*")
    return "installed" in said[1].splitlines()
