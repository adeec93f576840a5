"""Tests of how goqlanis writes files: with access control lists, and over files and in folders of
other users."""
import os
import re
import shutil
import struct
import subprocess

from room import FILES, empty, held, put, room, run

NOBODY = 65534


def _access_list(entries):
    """Returns an access control list (ACL) as Linux stores it, of kinds, rights and users."""
    rows = [struct.pack("<HHI", kind, rights, user) for kind, rights, user in entries]
    return struct.pack("<I", 2) + b"".join(rows)


# Entries for the owner, another user, the group, the mask, and all others.
FOR_A_USER = _access_list(((1, 6, 0xffffffff), (2, 4, 1001), (4, 0, 0xffffffff),
                           (16, 4, 0xffffffff), (32, 0, 0xffffffff)))


def lines_flush_their_folder_alone(program):
    """A file is flushed to the disk, but of many files only their folder. (Passes if no program can
    be traced.)"""
    def flushes(*words):
        ran = ["strace", "-o", "log", "-e", "trace=fsync,rename", program, *words]
        subprocess.run(ran, cwd=folder, capture_output=True, check=False)
        return re.findall(r"^(fsync|rename)\(", (held(folder, "log") or b"").decode(), re.MULTILINE)
    with room() as folder:
        if not shutil.which("strace") or not flushes("-o", "a.svg", "1"):
            return True
        return (flushes("-o", "a.svg", "1") == ["fsync", "rename"] and
                flushes("--lines", "-o", "{}.svg", "-i", "kept") == ["rename", "rename", "fsync"])


def lists_of_access_give_nobody_more(program):
    """The ACL of a file shows as rights of its group, which had none, and must not become such;
    that of a folder gives the rights of new files, whatever the umask. (Passes if there are no
    ACLs.)"""
    with room() as folder:
        try:
            os.setxattr(f"{folder}/old.svg", "system.posix_acl_access", FOR_A_USER)
        except OSError:
            return True
        was = os.stat(f"{folder}/old.svg").st_mode & 0o777
        ran = [run(program, ["-o", "old.svg", "1"], folder)]
        os.setxattr(folder, "system.posix_acl_default", FOR_A_USER)
        ran.append(run(program, ["-o", "new.svg", "1"], folder, umask=0))
        with open(f"{folder}/other.svg", "wb"):
            found = [os.stat(f"{folder}/{it}.svg").st_mode & 0o777
                     for it in ("old", "new", "other")]
        new = os.getxattr(f"{folder}/new.svg", "system.posix_acl_access")
        return (not any(it.returncode for it in ran) and was == 0o640
                and found == [0o600, 0o640, 0o640] and new == FOR_A_USER)


# The options that run a program as another user than root, if it is root who tests.
AS_NOBODY = {"user": NOBODY, "group": NOBODY, "extra_groups": []} if os.getuid() == 0 else {}


def owners_are_not_shut_out(program):
    """Root keeps the owner and group of a file. Another user, who cannot, replaces it only if its
    owner can still read the new one. (Only root can try it; for others it passes.)"""
    if os.getuid() != 0:
        return True
    with room() as folder:
        path = f"{folder}/old.svg"
        os.chmod(path, 0o600)
        os.chown(path, NOBODY, 1001)
        by_root = run(program, ["-o", "old.svg", "1"], folder)
        found = os.stat(path)
        is_kept = (found.st_uid, found.st_gid, found.st_mode & 0o777) == (NOBODY, 1001, 0o600)
        os.chown(path, 0, 0)
        os.chmod(folder, 0o777)
        was = held(folder, "old.svg")
        refused = run(program, ["-o", "old.svg", "22"], folder, **AS_NOBODY)
        said = (b"goqlanis: cannot write old.svg: it belongs to another user, who could not read "
                b"the new one: remove it first\n")
        is_refused = (refused.returncode, refused.stderr) == (1, said)
        is_left = held(folder, "old.svg") == was and len(os.listdir(folder)) == len(FILES) + 2
        os.chmod(path, 0o664)
        taken = run(program, ["-o", "old.svg", "22"], folder, **AS_NOBODY)
        found = os.stat(path)
        is_taken = (taken.returncode, found.st_uid, found.st_mode & 0o777) == (0, NOBODY, 0o644)
        return by_root.returncode == 0 and is_kept and is_refused and is_left and is_taken


def files_of_others_in_a_folder_for_everybody(program):
    """In a folder such as /tmp, links, pipes and files of another user are rejected; one's own
    links and those of the folder's owner are followed. (Only root can try it; for others it
    passes.)"""
    if os.getuid() != 0:
        return True
    with empty() as folder:
        os.chmod(folder, 0o755)
        os.mkdir(f"{folder}/b")
        answers = []
        for number, (owner, link, mode) in enumerate((
                (1001, NOBODY, 0o1777), (1001, 0, 0o1777), (NOBODY, NOBODY, 0o1777),
                (1001, NOBODY, 0o777), (1001, NOBODY, 0o1775))):
            path = f"{folder}/b/{number}.svg"
            os.symlink(f"{folder}/{number}.svg", path)
            os.lchown(path, link, link)
            os.chown(f"{folder}/b", owner, owner)
            os.chmod(f"{folder}/b", mode)
            ran = run(program, ["-o", f"b/{number}.svg", "1"], folder)
            answers.append((ran.returncode, os.path.exists(f"{folder}/{number}.svg"), ran.stderr))
        os.mkfifo(f"{folder}/b/pipe.svg")
        with open(f"{folder}/b/file.svg", "wb"):
            os.chmod(f"{folder}/b", 0o1777)
        for name in ("pipe", "file"):
            os.chown(f"{folder}/b/{name}.svg", NOBODY, NOBODY)
            ran = run(program, ["-o", f"b/{name}.svg", "1"], folder)
            answers.append((ran.returncode, os.path.getsize(f"{folder}/b/{name}.svg"), ran.stderr))
        said = [b"goqlanis: cannot write b/%s.svg: it belongs to another user, in a folder "
                b"writable by everybody: remove it, or take another name\n" % it
                for it in (b"0", b"pipe", b"file")]
        return answers == [(1, False, said[0]), *[(0, True, b"")] * 4,
                           (1, 0, said[1]), (1, 0, said[2])]


def a_folder_that_takes_no_file_is_named(program):
    """If the folder cannot be written, the message names it, even if the file could be written."""
    with room() as folder:
        os.chmod(f"{folder}/old.svg", 0o666)
        os.chmod(folder, 0o555)
        ran = [run(program, ["-o", it, "1"], folder, **AS_NOBODY)
               for it in ("old.svg", "a.svg", f"{folder}/old.svg")]
        os.chmod(folder, 0o755)
        wanted = [rb"goqlanis: cannot write %s: cannot create a file in %s: [^\n]+\n"
                  % (re.escape(one), re.escape(two)) for one, two in (
                      (b"old.svg", b"./"), (b"a.svg", b"./"),
                      (f"{folder}/old.svg".encode(), f"{folder}/".encode()))]
        is_said = all(re.fullmatch(it, one.stderr) for it, one in zip(wanted, ran))
        return is_said and held(folder, "old.svg") == b"old"


def a_folder_that_cannot_be_read_is_refused(program):
    """A folder that can be written but not read is rejected, since someone could exchange it
    meanwhile and get the files; also at the end of a link, and as the current folder."""
    with room() as folder:
        os.chmod(folder, 0o755)
        os.mkdir(f"{folder}/in")
        put(f"{folder}/in", "old.svg", b"old")
        os.chmod(f"{folder}/in/old.svg", 0o666)
        os.symlink("in/a.svg", f"{folder}/far.svg")
        os.chmod(f"{folder}/in", 0o333)
        ran = [(run(program, words, f"{folder}/{here}", **AS_NOBODY), path, name)
               for here, words, path, name in (
                   ("", ["-o", "in/a.svg", "1"], "in/a.svg", "in/"),
                   ("", ["-o", "in/old.svg", "1"], "in/old.svg", "in/"),
                   ("", ["-o", "far.svg", "1"], "far.svg", "./in/"),
                   ("", ["read", "one.pbm", "-o", "in/a"], "in/a", "in/"),
                   ("", ["--lines", "-i", "kept", "-o", "in/{text}.svg"], "in/one.svg", "in/"),
                   ("in", ["-o", "a.svg", "1"], "a.svg", "./"))]
        os.chmod(f"{folder}/in", 0o755)
        said = [(1, b"", f"goqlanis: cannot write {path}: its folder {name} cannot be read by this "
                         "user: name another one, or allow it with chmod +r\n".encode())
                for _, path, name in ran]
        is_refused = [(it.returncode, it.stdout, it.stderr) for it, _, _ in ran] == said
        is_left = os.listdir(f"{folder}/in") == ["old.svg"] and held(folder, "in/old.svg") == b"old"
        return is_refused and is_left
