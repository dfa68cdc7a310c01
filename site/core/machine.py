"""Programs of the machine, run as root or as another user; units of systemd."""

import contextlib
import os
import re
import signal
import subprocess
import time

from radacctd_site.core import Failed, places

ENVIRONMENT = {"PATH": "/usr/sbin:/usr/bin:/sbin:/bin", "LC_ALL": "C.UTF-8", "LANG": "C.UTF-8",
               "DEBIAN_FRONTEND": "noninteractive"}


@contextlib.contextmanager
def within(seconds):
    """Ends what goes on for longer: a disk or a desk that gives an octet now and then, say."""

    def ended(*_):
        raise Failed(f"it took more than {seconds} seconds")

    before = signal.signal(signal.SIGALRM, ended)
    signal.alarm(seconds)
    try:
        yield
    finally:
        signal.alarm(0)
        signal.signal(signal.SIGALRM, before)


def until(holds, seconds, pause=0.5):
    """Asks until something holds, at most for so many seconds: what was answered last."""
    end = time.monotonic() + seconds
    while not (found := holds()) and time.monotonic() <= end:
        time.sleep(pause)
    return found


def ran(words, seconds=60, text=None):
    """A program that ended: with 127 if it is not there, with 124 if it is slow."""
    how = {"capture_output": True, "text": True, "errors": "replace", "env": ENVIRONMENT,
           "timeout": seconds, "cwd": "/", "input": text or ""}
    try:
        return subprocess.run(words, **how)
    except FileNotFoundError:
        status, why = 127, "is missing"
    except subprocess.TimeoutExpired:
        status, why = 124, f"did not end in {seconds} seconds"
    return subprocess.CompletedProcess(words, status, "", f"{words[0]} {why}")


def run(*words, seconds=60, text=None):
    """The status of a program, and the text that it printed."""
    done = ran(words, seconds, text)
    return done.returncode, done.stdout + done.stderr


def given(words, text=None, seconds=1800):
    """What a program printed, which must end well."""
    done = ran(words, seconds, text)
    if done.returncode:
        said = (done.stderr or done.stdout).strip()[-600:]
        raise Failed(f"{' '.join(words[:4])} ended with {done.returncode}: {said}")
    return done.stdout


def last_line(text, pattern="."):
    """The last line that has a pattern, or else the last one of all."""
    lines = [it.strip() for it in text.splitlines() if it.strip()] or ["it printed nothing"]
    return next((it for it in reversed(lines) if re.search(pattern, it)), lines[-1])


def properties(unit, *names):
    """Properties of a unit."""
    said = given(["systemctl", "show", unit, *(f"-p{it}" for it in names)], seconds=60)
    return dict(line.split("=", 1) for line in said.splitlines() if "=" in line)


def is_active(unit):
    return properties(unit, "ActiveState").get("ActiveState") == "active"


def changed_at(unit):
    """When a unit that runs was started or reloaded last, by the clock as it is now, or None."""
    found = properties(unit, "ActiveState", "StateChangeTimestampMonotonic")
    if found.get("ActiveState") not in ("active", "reloading"):
        return None
    return time.time() - time.monotonic() + int(found["StateChangeTimestampMonotonic"]) / 1e6


def journal(unit):
    """What a unit printed in the last hour; of a storm the last lines."""
    return given(["journalctl", "-u", unit, "--since", "-1h", "-o", "cat", "--no-pager", "-n",
                  "100000"], seconds=60)


def as_user(user):
    """What runs a command as a user, without root's terminal. `ran` gives it no environment of
    root's, and no other open file."""
    return ["setsid", "--wait", "setpriv", "--reuid", user, "--regid", user, "--clear-groups",
            "--no-new-privs", "--"]


def text_of(user, path):
    """The text of a file in a folder of a user's, which that user reads; "" if there is none. No
    link is followed, and a pipe in its place is not waited for."""
    done = ran([*as_user(user), "dd", f"if={path}", "iflag=nonblock,nofollow", "bs=64K",
                "count=1024", "status=none"])
    if done.returncode and "No such file" not in done.stderr:
        raise Failed(f"{path} cannot be read: {last_line(done.stderr)}")
    return done.stdout


def has_open(process, path):
    """Whether a process has the file open that is at a name now."""
    try:
        wanted, folder = os.stat(path), f"/proc/{process}/fd"
        return any(os.path.samestat(os.stat(f"{folder}/{it}"), wanted) for it in os.listdir(folder))
    except FileNotFoundError:
        # One that ended or closed a file meanwhile is looked at again by who asks.
        return False


def is_away(unit="radacctd.service"):
    """Whether the book or the log of a server that runs is not where its name leads: it answers
    nothing, and what was removed ends with it."""
    def is_there():
        found = properties(unit, "ActiveState", "MainPID")
        return found["ActiveState"] not in ("active", "reloading") or all(
            has_open(found["MainPID"], os.path.realpath(places.BOOK) + it) for it in ("", "-wal"))

    # A server that is restarted meanwhile is no book that is away.
    return not until(is_there, 0.6, 0.3)


def refuse_if_away():
    """No server is stopped whose book is not where its name leads: that could lose it."""
    if is_away():
        raise Failed(f"the book of radacctd.service is not at {places.BOOK}: it was moved, removed "
                     "or replaced. Do not stop or restart it, which would lose what was removed: "
                     'GONE.md, "The book is missing"')
