"""A Debian machine with its own systemd, in a container, for the tests of unit and package.

`debootstrap` makes its root once, which takes some minutes, and keeps it in /var/tmp (or in the
folder that RADACCTD_ROOTS names); remove that folder to make it anew. It is Debian 12 unless
RADACCTD_SUITE names another release: trixie, say. Each machine is a layer of memory over that root,
so its changes and its book vanish at its end. Its network is its own, with a loopback only. It
needs root, and of Debian's packages systemd-container and debootstrap.
"""

import contextlib
import itertools
import os
import shutil
import subprocess
import sys
import tempfile
import time
import zlib

import command_line

SUITE = os.environ.get("RADACCTD_SUITE", "bookworm")
MIRROR = "http://deb.debian.org/debian"
# With libbpf1 Debian 13's systemd enforces which ports a unit may bind; Debian 12's never does.
PACKAGES = ["systemd", "systemd-sysv", "dbus", "python3", "procps", "sensible-utils", "libbpf1"]
# What a whole site has: FreeRADIUS, nginx, printed vouchers, copies from one machine to another.
SITE = ["curl", "freeradius", "freeradius-rest", "freeradius-utils", "iproute2", "nginx"]
SITE += ["openssh-client", "openssh-server", "qrencode"]
SITE += ["rsync", "sqlite3"]
SITE += ["gunicorn", "libjs-bootstrap5", "python3-bottle", "python3-jinja2", "python3-segno"]
CACHE = os.environ.get("RADACCTD_ROOTS", "/var/tmp/radacctd-interop")
TOOLS = {
    "systemd-nspawn": "systemd-container",
    "debootstrap": "debootstrap",
    "nsenter": "util-linux",
}
# How long a machine may take to start or to stop, in seconds.
PATIENCE = 60
# Machines of one test have different names.
NUMBERS = itertools.count(1)


def run(words, **more):
    """A command of this machine: its status and what it printed."""
    done = subprocess.run(words, capture_output=True, text=True, check=False, **more)
    return done.returncode, done.stdout + done.stderr


def staged(folder, without=()):
    """Makes the package in a folder of this machine: radacctd.deb. `without` names what is removed
    from the tree before.
    """
    if "RADACCTD" not in os.environ:
        command_line.must_be_built()
    root = os.path.dirname(os.path.dirname(os.path.abspath(__file__)))
    with tempfile.TemporaryDirectory() as copy:
        tree = root
        if without:
            tree = shutil.copytree(root, f"{copy}/tree", symlinks=True,
                                   ignore=shutil.ignore_patterns(".git", "target"))
            for name in without:
                shutil.rmtree(f"{tree}/{name}")
        status, text = run([f"{tree}/bin/package", folder])
    if status:
        raise SystemExit(f"bin/package ended with {status}: {text}")
    os.rename(text.split("\n")[0], f"{folder}/radacctd.deb")


def groups(name):
    """The folders of a control group of this name, below this process' own: one in each tree that a
    systemd uses.
    """
    with open("/proc/self/cgroup", encoding="ascii") as file:
        lines = [line.strip().split(":", 2) for line in file]
    here = {tree: place.strip("/") for _, tree, place in lines}
    found = []
    with open("/proc/self/mounts", encoding="utf-8") as file:
        for _, top, kind, options, *_ in map(str.split, file):
            if kind == "cgroup2":
                found.append(os.path.join(top, here[""], name))
            elif kind == "cgroup" and "name=systemd" in options.split(","):
                found.append(os.path.join(top, here["name=systemd"], name))
    return found


def root(more=()):
    """The folder of the root with further packages, which is made if it isn't there."""
    # Another list of packages is another root.
    name = f"{SUITE}-{zlib.crc32(' '.join([*PACKAGES, *more]).encode()):08x}"
    made = os.path.join(CACHE, name)
    if os.path.isdir(made):
        return made
    begin = root() if more else None
    print(f"making a root of Debian in {made}: some minutes, once", flush=True)
    os.makedirs(CACHE, exist_ok=True)
    # In memory, since dpkg syncs each file.
    with tempfile.TemporaryDirectory() as memory:
        subprocess.run(["mount", "-t", "tmpfs", "-o", "size=3g", "tmpfs", memory], check=True)
        try:
            new = os.path.join(memory, SUITE)
            if more:
                subprocess.run(["cp", "-a", begin, new], check=True)
                add(new, more)
            else:
                bootstrap(new)
            for folder in ("var/cache/apt/archives", "var/lib/apt/lists"):
                shutil.rmtree(os.path.join(new, folder), ignore_errors=True)
            part = made + ".part"
            shutil.rmtree(part, ignore_errors=True)
            subprocess.run(["cp", "-a", new, part], check=True)
        finally:
            subprocess.run(["umount", memory], check=True)
    os.rename(part, made)
    return made


def bootstrap(new):
    """Makes a root of the usual packages."""
    include = "--include=" + ",".join(PACKAGES)
    status, text = run(["debootstrap", "--variant=minbase", include, SUITE, new, MIRROR])
    if status:
        sys.exit(f"debootstrap ended with {status}: {text[-500:]}")


def add(new, packages):
    """Installs packages into a root by apt, which knows what debootstrap cannot resolve. Nothing
    that they only recommend comes with them, and no service of theirs is started.
    """
    policy = os.path.join(new, "usr/sbin/policy-rc.d")
    with open(policy, "w", encoding="ascii") as file:
        file.write("#!/bin/sh\nexit 101\n")
    os.chmod(policy, 0o755)
    apt = "apt-get -qq update && apt-get -qq install --yes --no-install-recommends "
    how = {"env": {**os.environ, "DEBIAN_FRONTEND": "noninteractive", "TMPDIR": "/tmp"}}
    subprocess.run(["mount", "-t", "proc", "proc", os.path.join(new, "proc")], check=True)
    try:
        status, text = run(["chroot", new, "sh", "-c", apt + " ".join(packages)], **how)
    finally:
        subprocess.run(["umount", os.path.join(new, "proc")], check=True)
    os.remove(policy)
    if status:
        sys.exit(f"apt-get ended with {status}: {text[-500:]}")


class Machine:
    """The machine, running; it is stopped at the end, whatever happens before. `more` are packages
    that it has besides the usual ones. It has started once its systemd says one of `states`:
    "degraded" is for a machine on which a unit of another package may fail.
    """

    def __init__(self, more=(), states=("running",)):
        self.more, self.states = more, states
        self.groups = []

    def __enter__(self):
        lower = root(self.more)
        self.number = next(NUMBERS)
        self.memory = tempfile.mkdtemp()
        subprocess.run(["mount", "-t", "tmpfs", "-o", "size=2g", "tmpfs", self.memory], check=True)
        up, work, self.root = (os.path.join(self.memory, name) for name in ("up", "work", "root"))
        for folder in (up, work, self.root):
            os.mkdir(folder)
        layers = ["-o", f"lowerdir={lower},upperdir={up},workdir={work}"]
        self.process = None
        try:
            subprocess.run(["mount", "-t", "overlay", "overlay", *layers, self.root], check=True)
            # debootstrap makes none; Debian's installer does.
            self.write("/etc/hosts", "127.0.0.1 localhost\n")
            self.boot()
        except BaseException:
            self.close()
            raise
        return self

    def __exit__(self, *_):
        self.close()

    def boot(self):
        """Starts the machine, and waits until its systemd has started what it starts."""
        name = f"radacctd-{os.getpid()}-{self.number}"
        words = ["systemd-nspawn", "--quiet", "--directory", self.root, "--boot"]
        words += ["--private-network", "--console=pipe", f"--machine={name}"]
        # So that its systemd can restrict ports.
        words += ["--system-call-filter=bpf"]
        if not os.path.isdir("/run/systemd/system"):
            # A machine without systemd has nobody who would keep a list of containers, or give each
            # a control group: in one group their systemds would remove each other's.
            self.groups = groups(name)
            for folder in self.groups:
                os.makedirs(folder, exist_ok=True)
            enter = 'for it in $OWN_GROUPS; do echo $$ > "$it/cgroup.procs"; done; exec "$@"'
            words = ["sh", "-c", enter, "sh", *words, "--register=no", "--keep-unit"]
        env = {**os.environ, "SYSTEMD_NSPAWN_UNIFIED_HIERARCHY": "1"}
        env["OWN_GROUPS"] = " ".join(self.groups)
        console = os.path.join(self.memory, "console")
        with open(console, "wb") as out:
            how = {"stdin": subprocess.DEVNULL, "stdout": out, "stderr": out}
            self.process = subprocess.Popen(words, env=env, **how)
        until = time.monotonic() + PATIENCE
        while time.monotonic() < until and self.process.poll() is None:
            if self.leader() and self.run("systemctl is-system-running")[1].strip() in self.states:
                return
            time.sleep(0.2)
        with open(console, encoding="utf-8", errors="replace") as file:
            raise SystemExit(f"the container did not start: {file.read()[-1000:]}")

    def leader(self):
        """The number of the container's first process, as this machine counts."""
        path = f"/proc/{self.process.pid}/task/{self.process.pid}/children"
        with open(path, encoding="ascii") as file:
            children = file.read().split()
        return int(children[0]) if children else None

    def halt(self):
        if self.process and self.process.poll() is None:
            self.run("systemctl poweroff")
            try:
                self.process.wait(timeout=PATIENCE)
            except subprocess.TimeoutExpired:
                self.process.kill()
                self.process.wait()

    def reboot(self):
        """Stops the machine and starts it again, over what it has written."""
        self.halt()
        self.boot()

    def close(self):
        self.halt()
        for folder in (self.root, self.memory):
            subprocess.run(["umount", folder], check=False, stderr=subprocess.DEVNULL)
        os.rmdir(self.memory)
        for top in self.groups:
            for folder, _, _ in os.walk(top, topdown=False):
                # One that still holds a process stays.
                with contextlib.suppress(OSError):
                    os.rmdir(folder)

    def words(self, command):
        """The command line that runs a shell's command in the machine."""
        # This machine's folder for temporary files is not there.
        words = ["nsenter", "-t", str(self.leader()), "-a", "env", "-u", "TMPDIR"]
        return [*words, "sh", "-c", command]

    def run(self, command, **more):
        """Runs a shell's command in the machine: its status and what it printed."""
        return run(self.words(command), **more)

    def begin(self, command):
        """Starts a shell's command in the machine."""
        how = {"stdout": subprocess.PIPE, "stderr": subprocess.STDOUT, "text": True}
        return subprocess.Popen(self.words(command), **how)

    def must(self, command):
        """Runs a command that is no test, and returns what it printed."""
        status, text = self.run(command)
        if status:
            raise SystemExit(f"`{command}` ended with {status}: {text}")
        return text

    def beside(self, words, **more):
        """Runs a program of this machine in the network of the container."""
        return run(["nsenter", "-t", str(self.leader()), "-n", *words], **more)

    def write(self, path, text, mode=0o644):
        """Writes a file of the machine, by way of a name beside it."""
        here = self.root + path
        os.makedirs(os.path.dirname(here), exist_ok=True)
        with open(here + "~", "w", encoding="utf-8") as file:
            file.write(text)
        os.chmod(here + "~", mode)
        os.rename(here + "~", here)

    def copy(self, folder):
        """Installs the package of a folder of this machine."""
        shutil.copy(f"{folder}/radacctd.deb", f"{self.root}/root/")
        self.must("dpkg -i /root/radacctd.deb")
