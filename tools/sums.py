"""Shared by scripts: the crates, the compiler's command, and what a green gate proved.

A green gate leaves crates/NAME/out/sum: checksums of the sources that it proved, and of the files
that it built next to it. By these a script knows whether a library or program in out/ is that of
the sources as they are, also in a copy of the repository.
"""
import functools
import hashlib
import json
import shutil
import subprocess
import sys
from pathlib import Path

TOP = Path(__file__).resolve().parent.parent
CRATES = TOP / "crates"
GATE = CRATES / "goqlanis" / "out" / "gate"


@functools.cache
def kit():
    """Returns the folder of the kit, which holds the page that `rt doc` names."""
    ran = subprocess.run(["rt", "doc"], capture_output=True, text=True, check=True)
    return Path(ran.stdout.strip()).parent


@functools.cache
def crates():
    """Returns each crate of crates.txt with the crates and kit libraries that it depends on."""
    lines = (TOP / "crates.txt").read_text().splitlines()
    rows = [line.partition("#")[0].partition(":") for line in lines]
    return {head.split()[0]: below.split() for head, _, below in rows if head.split()}


def all_below(name):
    """Returns all crates that a crate depends on, directly or not."""
    near = [each for each in crates()[name] if each in crates()]
    return {it for each in near for it in (each, *all_below(each))}


def words_over(name, command, *more, root="src/lib.rt"):
    """Returns the compiler's command for a crate, with the libraries in out/ of crates below it."""
    libraries, logic = f"{kit()}/rlibs", f"{kit()}/rattle/logic/antt-project.json"
    words = [kit() / "bin" / "rattle", command, "--crate-name", name, root]
    words += ["--extern", f"std={libraries}/std.rlib", "-L", f"dependency={libraries}"]
    for each in crates()[name]:
        folder = f"{CRATES}/{each}/out/rlib" if each in crates() else libraries
        words += ["--extern", f"{each}={folder}/{each}.rlib"]
    for each in sorted(all_below(name)):
        words += ["-L", f"dependency={CRATES}/{each}/out/rlib"]
    words += ["--antt-project", logic, "--logic-built", f"{kit()}/logic_built"]
    return [*words, "--links", f"{name}=", *more]


def sources(name):
    """Returns the checksum of the sources of a crate and of their names."""
    folder, total = CRATES / name, hashlib.sha256()
    paths = [it for part in ("src", "specs", "proofs") for it in (folder / part).rglob("*")]
    for path in sorted(it for it in paths if it.is_file()):
        text = path.read_bytes()
        total.update(f"{path.relative_to(folder)} {len(text)}\n".encode() + text)
    return total.hexdigest()


@functools.cache
def kit_sum():
    """Returns the checksum of what a check reads of the kit: its identity, sizes and times."""
    total = hashlib.sha256((kit() / "KIT-ID").read_bytes())
    folders = [kit() / it for it in ("bin", "toolchain", "logic_built", "rattle/logic")]
    paths = [it for folder in folders for it in folder.rglob("*") if "__pycache__" not in it.parts]
    for path in sorted([*paths, *kit().glob("rlibs/*/format")]):
        if path.is_file():
            found = path.stat()
            total.update(f"{path} {found.st_size} {found.st_mtime_ns}\n".encode())
    return total.hexdigest()


def stamp(name):
    """Returns the checksum of all that a check of a crate reads, libraries below it as built."""
    below = [CRATES / it / f"out/rlib/{it}.rlib/format" for it in sorted(all_below(name))]
    sums = [hashlib.sha256(it.read_bytes()).hexdigest() for it in below if it.exists()]
    read = (kit_sum(), name, crates()[name], sources(name), sums)
    return hashlib.sha256(repr(read).encode()).hexdigest()


def made(name):
    """Returns the checksums of a crate's program and library (its `format` has its files')."""
    files = {"library": f"rlib/{name}.rlib/format", "program": name}
    paths = {kind: CRATES / name / "out" / file for kind, file in files.items()}
    return {kind: hashlib.sha256(path.read_bytes()).hexdigest()
            for kind, path in paths.items() if path.exists()}


def leave(name, proved):
    """Writes the checksum `proved` to out/sum, unless the sources changed since."""
    now = made(name)
    if now and sources(name) == proved:
        (CRATES / name / "out" / "sum").write_text(json.dumps([proved, now]))


def is_left(name, kind):
    """Whether the `library` or `program` in out/ is one that a green gate left of these sources."""
    path = CRATES / name / "out" / "sum"
    proved, then = json.loads(path.read_text()) if path.exists() else ("", {})
    return kind in then and then[kind] == made(name).get(kind) and proved == sources(name)


def are_libraries_left(name):
    """Whether a green gate left all libraries that a crate depends on."""
    return all(is_left(each, "library") for each in all_below(name))


def drop_libraries():
    """Removes all libraries that checks built: at its end `rt ci` would put them in the place of
    its own, although they may be of other sources."""
    for path in CRATES.glob("*/out/rlib"):
        shutil.rmtree(path)


def prove(who):
    """Has `rt ci` prove all crates, and leaves their checksums; exits if it fails."""
    print(f"{who}: no green gate left what these sources make: `rt ci` proves them, in minutes if it",
          "did so before on this machine, otherwise in an hour", file=sys.stderr, flush=True)
    drop_libraries()
    proved = {name: sources(name) for name in crates()}
    if subprocess.run(["rt", "ci"], cwd=TOP, stdout=subprocess.DEVNULL).returncode:
        sys.exit(f"{who}: `rt ci` at the top says what is not proved")
    for each in proved.items():
        leave(*each)


def program(name):
    """Returns the path of the program that a green gate left, or None."""
    path = CRATES / name / "out" / name
    return path if is_left(name, "program") and are_libraries_left(name) else None


def gate():
    return GATE.read_text() if GATE.exists() else ""
