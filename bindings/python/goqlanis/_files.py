"""Writes files completely or not at all."""
import contextlib
import errno
import io
import os
import re
import secrets
import stat
from typing import Any, Optional


def write(out: Any, data: bytes, is_text: bool) -> None:
    if not hasattr(out, "write"):
        path = os.fsdecode(out)
        try:
            _write_whole(path, data)
        except OSError as error:
            raise OSError(error.errno, error.strerror, path) from None
    elif not hasattr(out, "encoding"):
        _write_parts(out, data)
    elif is_text:
        out.write(data.decode())
    else:
        raise TypeError("this format is binary, and the file is open for text: open it with 'wb'")


def _write_parts(out: Any, data: bytes) -> None:
    """Writes data to a file whose `write` may take only a part of it and return how much. If it
    returns None, it took all, except that a file without a buffer took nothing."""
    while data:
        count = out.write(data)
        if not isinstance(count, int) and not isinstance(out, io.RawIOBase):
            return
        if not count:
            raise BlockingIOError(errno.EAGAIN, os.strerror(errno.EAGAIN))
        data = data[count:]


def _write_whole(path: str, data: bytes) -> None:
    """Writes a temporary file in the same folder, which nobody else may read, and renames it.
    Links are followed; anything but a regular file, or a file that is already open, is written
    directly.

    Each folder is opened once, and its names are looked up in the open folder: a link that replaces
    the folder in the meantime has no effect.
    """
    for _ in range(40):
        if _OPEN.match(path):
            return _write_straight(path, data)
        above, name = os.path.dirname(path), os.path.basename(path) or "."
        folder = _opened(above)
        try:
            old = _found(folder, name)
            if old is not None and stat.S_ISREG(old.st_mode) and not old.st_mode & 0o222:
                raise PermissionError(errno.EACCES, "it is write-protected: allow writing with "
                                      "chmod u+w, or name another file")
            if old is None or stat.S_ISREG(old.st_mode):
                return _replace(folder, above, name, old, data)
            if not stat.S_ISLNK(old.st_mode):
                return _write_straight(name, data, folder)
            path = os.path.join(above, os.readlink(name, dir_fd=folder))
        finally:
            os.close(folder)
    raise OSError(errno.ELOOP, os.strerror(errno.ELOOP))


# Paths of files that are already open, in this process or another one.
_OPEN = re.compile("/dev/fd/|/proc/[^/]+/(task/[^/]+/)?fd/")


def _opened(folder: str) -> int:
    """Opens a folder, only to look up its names."""
    try:
        return os.open(folder or ".", os.O_PATH | os.O_DIRECTORY)
    except OSError as error:
        why = "there is no folder" if error.errno == errno.ENOENT else f"{error.strerror}:"
        raise OSError(error.errno, f"{why} {os.path.abspath(folder)}") from None


def _found(folder: int, name: str) -> Optional[os.stat_result]:
    """Returns what has this name in a folder, or None. Raises PermissionError if everybody can
    create files there but not remove those of others (sticky), and it belongs neither to this user
    nor to the owner of the folder."""
    try:
        found = os.stat(name, dir_fd=folder, follow_symlinks=False)
    except FileNotFoundError:
        return None
    above = os.fstat(folder)
    if above.st_mode & 0o1002 == 0o1002 and found.st_uid not in (above.st_uid, os.geteuid()):
        raise PermissionError(errno.EACCES, "it belongs to another user, in a folder writable by "
                              "everybody: remove it, or take another name")
    return found


def _replace(folder: int, above: str, name: str, old: Optional[os.stat_result],
             data: bytes) -> None:
    """Writes a new file in a folder, whose path is `above`, and renames it to `name`."""
    beside = f".goqlanis-{secrets.token_hex(8)}"
    try:
        try:
            usual = _usual_rights(folder, beside)
            descriptor = _created(folder, beside, 0o600)
        except OSError as error:
            why = f"{error.strerror} in the folder {os.path.abspath(above)}"
            raise OSError(error.errno, why) from None
        # Between opening and renaming, nothing goes by the name: another file may have it by then.
        with open(descriptor, "wb") as file:
            rights = usual if old is None else _rights_after(descriptor, usual, old)
            file.write(data)
            file.flush()
            os.fchmod(descriptor, rights)
            os.fsync(descriptor)
        os.replace(beside, name, src_dir_fd=folder, dst_dir_fd=folder)
    finally:
        # Whatever ended it, also Ctrl-C at any place; after the renaming nothing has the name.
        with contextlib.suppress(OSError):
            os.unlink(beside, dir_fd=folder)


def _created(folder: int, name: str, mode: int) -> int:
    return os.open(name, os.O_CREAT | os.O_EXCL | os.O_WRONLY, mode, dir_fd=folder)


def _write_straight(place: str, data: bytes, folder: Optional[int] = None) -> None:
    """Writes to something other than a regular file, by its name in a folder, and leaves a regular
    file alone that took its place in the meantime; or, without a folder, appends to a file that is
    already open. The owner's rights of its link say for what it is open."""
    if folder is None and not os.lstat(place).st_mode & stat.S_IWUSR:
        raise PermissionError(errno.EACCES, "it is open for reading only: name the file itself")
    flags = os.O_WRONLY | (os.O_APPEND if folder is None else 0)
    descriptor = os.open(place, flags, dir_fd=folder)
    with open(descriptor, "wb") as file:
        if folder is not None and stat.S_ISREG(os.fstat(descriptor).st_mode):
            raise FileExistsError(errno.EEXIST, os.strerror(errno.EEXIST))
        file.write(data)


def _kept_rights(mode: int) -> int:
    """Returns the permissions of an old file that are kept: those of its owner, and what group and
    others both had, since those of the group may come from an access control list (ACL)."""
    shared = mode & mode >> 3 & 0o7
    return mode & 0o700 | shared << 3 | shared


def _usual_rights(folder: int, name: str) -> int:
    """Returns the permissions that a new file gets in a folder: those of an empty one."""
    descriptor = _created(folder, name, 0o666)
    try:
        return stat.S_IMODE(os.fstat(descriptor).st_mode) & 0o777
    finally:
        os.close(descriptor)
        os.unlink(name, dir_fd=folder)


def _rights_after(descriptor: int, usual: int, old: os.stat_result) -> int:
    """Gives a new file the owner and group of the old one, if that is allowed, and returns its
    permissions. If it replaces another user's file but stays this user's, it gets no more of them
    than any new file, and the owner of the old one must be able to read it."""
    kept = _kept_rights(old.st_mode)
    try:
        os.fchown(descriptor, old.st_uid, old.st_gid)
    except OSError:
        if os.fstat(descriptor).st_uid != old.st_uid:
            kept &= usual
            if not kept & 0o4:
                raise PermissionError(errno.EPERM, "it belongs to another user, who could not read "
                                      "the new one: remove it first") from None
    return kept
