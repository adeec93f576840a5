"""Runs the program goqlanis: reads the cases, makes the files of a room, and starts it there.

A room is a temporary folder with the files that the cases name.
"""
import contextlib
import math
import os
import pty
import re
import shlex
import subprocess
import tempfile
from pathlib import Path
from typing import NamedTuple

import labels
import png  # noqa: F401 (files)

HERE = Path(__file__).resolve().parent
TOP = HERE.parents[1]
# The program that is tried: the gate's, unless GOQLANIS_PROGRAM names another one.
PROGRAM = os.environ.get("GOQLANIS_PROGRAM", f"{TOP}/crates/goqlanis/out/goqlanis")


def rows_of(dump):
    """Returns the rows of modules of a dump in hexadecimal digits."""
    rows = [[int(it) for digit in row for it in f"{int(digit, 16):04b}"] for row in dump.split()]
    return [it[:len(rows)] for it in rows]


def file_of(rows, zone, scale):
    """Returns a binary PBM file of rows of modules, 1 for dark."""
    side = (len(rows) + 2 * zone) * scale
    row = [0] * (len(rows) + 2 * zone)
    wide = [row] * zone + [[0] * zone + it + [0] * zone for it in rows] + [row] * zone
    lines = ["".join(str(module) * scale for module in it).ljust((side + 7) // 8 * 8, "0")
             for it in wide]
    data = b"".join(int(it, 2).to_bytes(len(it) // 8, "big") * scale for it in lines)
    return b"P4\n%d %d\n" % (side, side) + data


def modules_of(file):
    """Returns the rows of a binary PBM file, 1 for dark."""
    _, sides, bits = file.split(b"\n", 2)
    across, down = map(int, sides.split())
    return [row[:across] for row in labels.rows_of(bits, (across + 7) // 8, down)]


def plain(rows):
    """Returns a plain PBM file (P1) of rows of pixels."""
    text = "\n".join("".join(map(str, row)) for row in rows)
    return f"P1\n{len(rows[0])} {len(rows)}\n{text}".encode()


def page(*codes):
    """Returns a page with a line like text, and symbols, with ! a quarter dark, as a PBM file."""
    ink = [[int(4 <= y < 12 and 9 * x * x % 7 < y % 5) for x in range(200)] for y in range(180)]
    for name, left, top, scale in codes:
        rows = SYMBOLS[name.strip("!")]
        for y in range(len(rows) * scale):
            for x in range(len(rows) * scale):
                spoilt = name.endswith("!") and min(x, y) >= len(rows) // 2 * scale
                ink[top + y][left + x] = int(spoilt or rows[y // scale][x // scale])
    return plain(ink)


def slanted(*codes):
    """Returns a plain PBM file of symbols: rows, column and row of the middle, degrees, scale."""
    ink = [[0] * 200 for _ in range(180)]
    for rows, middle, height, degrees, scale in codes:
        turn = math.radians(degrees)
        right, fall = math.cos(turn) / scale, math.sin(turn) / scale
        for y in range(180):
            for x in range(200):
                across, down = x + 0.5 - middle, y + 0.5 - height
                i = math.floor(len(rows) / 2 + right * across + fall * down)
                j = math.floor(len(rows) / 2 + right * down - fall * across)
                if 0 <= min(i, j) and max(i, j) < len(rows):
                    ink[y][x] = int(rows[j][i])
    return plain(ink)


# A logo whose pixels all differ, and some of which are transparent.
COLOURS = [[(60 * x, 90 * y, 255 - 60 * x, 255 - 85 * (x + y) % 256) for x in range(4)]
           for y in range(3)]


def table(name):
    text = re.sub(r"\n  +", " ", (HERE / name).read_text(encoding="utf-8"))
    return [it.split(": ", 1) for it in text.splitlines() if it and it[0] != "#"]


def blocks():
    """Returns the half blocks that other programs print, by name, from evidence/program/blocks."""
    text = (HERE / "blocks").read_text(encoding="utf-8").replace("\\e", "\x1b")
    return {name: shown.encode() for name, shown in
            re.findall(r"(?m)^\$ ([^:\n]*).*\n((?:(?!\$ ).*\n)*)", text)}


# The rows of symbols, by the names that the cases use.
SYMBOLS = {name.replace("^", "\x1d"): rows_of(dump) for name, dump in table("symbols")}
FILES = {**{name: file_of(rows, 0, 1) for name, rows in SYMBOLS.items() if name.endswith(".pbm")},
         **{name: eval(held) for name, held in table("files")}, **blocks()}


class Case(NamedTuple):
    """A command line or script, its standard input (or the command line of it), and the checks."""

    words: str
    is_script: bool
    given: bytes
    looks: list
    piped: str = ""


def cases():
    found = []
    for line in (HERE / "cases").read_text(encoding="utf-8").splitlines():
        mark, rest = line[:1], line[2:] if line[1:2] == " " else line[1:]
        if mark in ("$", "&"):
            found.append(Case(rest, mark == "&", b"", []))
        elif mark == "@":
            found[-1] = found[-1]._replace(piped=rest)
        elif mark == "<":
            found[-1] = found[-1]._replace(given=rest.encode().decode("unicode_escape").encode())
        elif mark and mark != "#":
            found[-1].looks.append((mark, rest))
    return found


def squares():
    """Yields the rows of the symbols of other encoders, with what each holds."""
    folder = TOP / "lab" / "others" / "symbols"
    lines = [it.split() for it in (folder / "squares").read_text().splitlines() if it[:1].isdigit()]
    held_there = (folder / "readings").read_text().splitlines()
    for (side, digits), words in zip(lines, held_there, strict=True):
        bits = [int(it) for digit in digits for it in f"{int(digit, 16):04b}"]
        yield [bits[int(side) * y:int(side) * (y + 1)] for y in range(int(side))], words


def empty(place=None):
    return tempfile.TemporaryDirectory(prefix="program-", dir=place)


def put(folder, name, data):
    Path(folder, name).write_bytes(data)


@contextlib.contextmanager
def room():
    """Makes a temporary folder with the files, a link and a folder in it."""
    with empty() as folder:
        for name, data in FILES.items():
            put(folder, name, data)
        os.chmod(f"{folder}/old.svg", 0o640)
        os.symlink("old.svg", f"{folder}/link.svg")
        os.mkdir(f"{folder}/folder")
        yield folder


def piped(words, given=b"", **more):
    return subprocess.run(words, input=given, capture_output=True, timeout=60, check=False, **more)


def run(program, words, folder, given=b"", **more):
    """Runs the program in a folder, under the name goqlanis, which its messages show."""
    env = {"PATH": "/usr/bin:/bin", "LANG": "C.UTF-8", **more.pop("env", {})}
    return piped(["goqlanis", *words], given, executable=program, cwd=folder, env=env, **more)


def by_shell(program, script, folder, given=b""):
    """Runs a shell script in a folder, with the program as `goqlanis`."""
    with empty() as beside:
        os.symlink(program, f"{beside}/goqlanis")
        env = {"PATH": f"{beside}:/usr/bin:/bin", "LANG": "C.UTF-8"}
        return piped(["sh", "-c", script], given, cwd=folder, env=env)


def written(program, words):
    """Returns what a command line writes to standard output, in a room of its own."""
    with room() as folder:
        return run(program, shlex.split(words), folder).stdout


def square(program, *words, given=b""):
    """Returns the rows of modules that a command line draws."""
    return modules_of(run(program, [*words, *"-f pbm -s 1 -q 0".split()], "/", given).stdout)


def figures(program, given):
    """Returns the symbol of data as a plain PBM file without spaces between its digits."""
    rows = square(program, "-l", "L", "--micro", given=given)
    return f"P1 {len(rows)} {len(rows)}\n{''.join(map(str, sum(rows, [])))}".encode()


def held(folder, name):
    """Returns the bytes of a file, or None if there is none."""
    path = Path(folder, name)
    return path.read_bytes() if path.exists() else None


def in_terminal(program, words, given=b"", **env):
    """Runs the program in a terminal and types `given`; returns what it shows, and its status."""
    shown = bytearray()
    child, terminal = pty.fork()
    if child == 0:
        os.execve(program, [program, *words], {"PATH": "/usr/bin:/bin", **env})
    os.write(terminal, given)
    with contextlib.suppress(OSError):
        while part := os.read(terminal, 65536):
            shown += part
    os.close(terminal)
    return bytes(shown).replace(b"\r\n", b"\n"), os.waitstatus_to_exitcode(os.waitpid(child, 0)[1])
