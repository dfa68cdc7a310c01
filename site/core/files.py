"""Files of root's: whole or not at all, on the disk, with no link followed.

Root opens nothing below a folder that another user may write: whoever owns a folder may put a link
in the place of any name in it, at any moment. A user of `users` is one who may own it.
"""

import contextlib
import errno
import fcntl
import os
import pwd
import stat

FOLDER = os.O_RDONLY | os.O_DIRECTORY | os.O_NOFOLLOW | os.O_CLOEXEC
FLAGS = os.O_RDONLY | os.O_NOFOLLOW | os.O_NONBLOCK | os.O_CLOEXEC
LARGEST = 1 << 26
# What follows the name of a file in that of one which is to take its place.
NEW = "~setup-new"


def is_others(status, users=()):
    """Whether a folder is one that others than root, the caller and some users may write."""
    own = {0, os.geteuid(), *(pwd.getpwnam(it).pw_uid for it in users)}
    is_open = status.st_mode & 0o022 and not status.st_mode & stat.S_ISVTX
    return status.st_uid not in own or bool(is_open)


@contextlib.contextmanager
def handle_of(path, flags=FOLDER, folder=None):
    """The handle of a file or a folder, which is open meanwhile."""
    handle = os.open(path, flags | os.O_CLOEXEC, dir_fd=folder)
    try:
        yield handle
    finally:
        os.close(handle)


def sync_folder(path):
    """Lets names that were made or changed in a folder outlive a power cut."""
    with handle_of(path) as handle:
        os.fsync(handle)


def remove(path, folder=None):
    with contextlib.suppress(FileNotFoundError):
        os.remove(path, dir_fd=folder)


def open_lock(path):
    """A file that is there to be locked."""
    return os.open(path, os.O_RDWR | os.O_CREAT | os.O_NOFOLLOW | os.O_CLOEXEC, 0o600)


def is_locked(file):
    """Whether this process has a file locked now. Of two that try one has it, until that ends."""
    try:
        fcntl.flock(file, fcntl.LOCK_EX | fcntl.LOCK_NB)
    except BlockingIOError:
        return False
    return True


def named(why, path):
    """The fault of a path, also if only a name of it was opened."""
    is_link = why.errno in (errno.ELOOP, errno.ENOTDIR)
    reason = "no link on the path is followed" if is_link else why.strerror or str(why)
    return OSError(why.errno, reason, path)


@contextlib.contextmanager
def opened_folder(path, *users):
    """A folder by its path, none of whose names is a link, and none of whose folders others may
    write."""
    handle = os.open("/", FOLDER)
    try:
        for name in filter(None, os.path.abspath(path).split("/")):
            try:
                inner = os.open(name, FOLDER, dir_fd=handle)
            except OSError as why:
                raise named(why, path) from None
            os.close(handle)
            handle = inner
            if is_others(os.fstat(handle), users):
                raise OSError(errno.EPERM, f"others than root may write in its folder {name}", path)
        yield handle
    finally:
        os.close(handle)


@contextlib.contextmanager
def regular(folder, name):
    """A regular file of a folder, and its status: no link, pipe or device is opened."""
    handle = os.open(name, FLAGS, dir_fd=folder)
    with os.fdopen(handle, "rb") as file:
        status = os.fstat(handle)
        if not stat.S_ISREG(status.st_mode):
            raise OSError(errno.EINVAL, "it is no file", name)
        yield file, status


@contextlib.contextmanager
def opened(path, *users):
    """The same by its path."""
    above, name = os.path.split(os.path.abspath(path))
    with opened_folder(above, *users) as folder, contextlib.ExitStack() as stack:
        try:
            found = stack.enter_context(regular(folder, name))
        except OSError as why:
            raise named(why, path) from None
        yield found


@contextlib.contextmanager
def of_user(path, user):
    """A file of a user's, in a folder of that user's. A link, a pipe, another user's file or a
    second name of one is refused."""
    with opened(path, user) as (file, status):
        if status.st_uid != pwd.getpwnam(user).pw_uid or status.st_nlink != 1:
            raise OSError(errno.EPERM, f"it is not a file of {user} alone", path)
        yield file


def give(path, user, group, mode):
    """Gives a user's file its group and mode, by its handle."""
    with of_user(path, user) as file:
        os.fchown(file.fileno(), -1, group)
        os.fchmod(file.fileno(), mode)


def text(path):
    """The text of a file of root's, or "" if there is none. OSError says why it cannot be read."""
    try:
        with opened(path) as (file, _):
            octets = file.read(LARGEST + 1)
    except FileNotFoundError:
        return ""
    if len(octets) > LARGEST:
        # Half of a file would pass for all of it.
        raise OSError(errno.EFBIG, f"it has more than {LARGEST} octets", path)
    return octets.decode("utf-8", "replace")


def linked_text(path):
    """The same of what a link of root's leads to, as a renewed certificate's does."""
    for _ in range(9):
        if not os.path.islink(path):
            return text(path)
        above, name = os.path.split(os.path.abspath(path))
        with opened_folder(above) as folder:
            path = os.path.join(above, os.readlink(name, dir_fd=folder))
    raise OSError(errno.ELOOP, os.strerror(errno.ELOOP), path)


def make(path, octets, mode=0o600, rights=None, folder=None):
    """Makes a file with a content, on the disk, and never over another one. A half one is removed.

    It has a mode before its content; or further rights, which a function gives it. The folder's
    caller syncs it, who may have it open."""
    way = os.O_CREAT | os.O_EXCL | os.O_WRONLY | os.O_NOFOLLOW
    handle = os.open(path, way, 0o600, dir_fd=folder)
    try:
        with os.fdopen(handle, "wb") as file:
            rights(handle) if rights else os.fchmod(handle, mode)
            file.write(octets)
            file.flush()
            os.fsync(file.fileno())
    except OSError:
        remove(path, folder)
        raise


def replace_in(folder, name, octets, mode=0o600, rights=None, before=lambda: None):
    """Puts a file into place in a folder that is open; what was there stays until it is whole. The
    caller syncs the folder."""
    new = name + NEW
    remove(new, folder)
    make(new, octets, mode, rights, folder)
    try:
        before()
        os.rename(new, name, src_dir_fd=folder, dst_dir_fd=folder)
    except BaseException:
        remove(new, folder)
        raise


def replace(path, octets, mode=0o600):
    """The same by its path."""
    above, name = os.path.split(os.path.abspath(path))
    with opened_folder(above) as folder:
        replace_in(folder, name, octets, mode)
        os.fsync(folder)
