"""Counts instructions and heap, over what a green gate left in crates/*/out.

A command is a function that takes a count and returns a command line that makes something that many
times. The cost of one is the difference of two runs, so that start-up is not counted.
"""
import functools
import os
import random
import re
import subprocess
import sys
import tempfile
import zlib
from concurrent.futures import ThreadPoolExecutor
from itertools import product
from pathlib import Path

HERE = Path(__file__).resolve().parent
TOP = HERE.parents[1]
sys.dont_write_bytecode = True
sys.path += [str(TOP / it) for it in ("lab/others", "tools")]
import shown  # noqa: E402, F401 (which finds the others)
from room import file_of  # noqa: E402
from sums import CRATES, all_below  # noqa: E402

DIGITS = b"0123456789" * 709
WORDS = b"the quick brown fox jumps over the lazy dog, " * 60
KANJI = b"\x93\xfa\x96\x7b\x8c\xea\x93\x5f\xe4\xaa\x93\xfa\x96\x7b\x8c\xea"
MIXED = b"left at noon: ORDER 7 OF 12, no. 2026112208150042 %s, paid EUR 149.90; " % KANJI * 20
FORMATS = {"half-blocks": 0, "svg": 2, "pic": 3, "pixels": 4, "png": 5, "eps": 6, "pbm": 7,
           "path": 8}
# The data of the symbols that are drawn, at level M, by the number after the name of the format.
SYMBOLS = {"1": WORDS[:14], "10": WORDS[:213], "17": WORDS[:504], "40": WORDS[:2331],
           "100": WORDS[:100]}
CASES = {
    "micro-2-digits": ("symbol", DIGITS[:8], 42, 0),
    "normal-1-digits": ("symbol", DIGITS[:8], 1, 1),
    "bytes-100": ("symbol", WORDS[:100], 0, 1),
    "bytes-1000": ("symbol", WORDS[:1000], 0, 1),
    "bytes-2331": ("symbol", WORDS[:2331], 0, 1),
    "digits-7089": ("symbol", DIGITS[:7089], 0, 0),
    "mixed-1000": ("symbol", MIXED[:1000], 0, 1),
}
# What surrounds the code on pages that are scanned, by column and row of pixels.
PAGES = {"scan-chess": lambda x, y: (x + y) % 2, "scan-wide-chess": lambda x, y: (x // 2 + y) % 2,
         "scan-finders": lambda x, y: max(abs(x % 8 - 3), abs(y % 8 - 3)) in (0, 1, 3)}
# The symbols that are read: a name, the version, and the number of bytes at level M.
READ = {"read-1": ("1", 14), "read-40": ("40", 2331)}


def exit_if_not_there(*paths):
    for path in paths:
        if not path.exists():
            sys.exit(f"bench: there is no {path.relative_to(TOP)}: run `./test`, which makes it")


def command_of(folder, kind, data, *numbers):
    """Returns the command of a call of the C library (lab/bench/calls.c)."""
    program, file = build_calls(folder), folder / f"{zlib.crc32(data):08x}"
    file.write_bytes(data)
    return lambda count: [program, kind, count, file, *numbers]


def case(folder, name, pixels=None):
    """Returns the command of a symbol, or a picture as `png-40` or `png-40-at-3` (pixels)."""
    if name in CASES:
        return command_of(folder, *CASES[name])
    form, symbol, at = re.fullmatch(r"(\D+)-(\d+)(?:-at-(\d+))?", name).groups()
    scale = pixels or at or (1 if form == "half-blocks" else 8)
    return command_of(folder, "picture", SYMBOLS[symbol], 0, 1, FORMATS[form], scale)


def valgrind(tool, words, *flags, given=b"", cwd=None):
    """Runs a command under valgrind; returns the tool's file and messages, or None on failure."""
    with tempfile.NamedTemporaryFile() as out:
        command = ["valgrind", f"--tool={tool}", f"--{tool}-out-file={out.name}", *flags, *words]
        ran = subprocess.run(list(map(str, command)), input=given, capture_output=True, cwd=cwd)
        return None if ran.returncode else (Path(out.name).read_text(), ran.stderr.decode())


def run_instructions(words, **how):
    """Returns the instructions of a whole run, or None if it fails."""
    said = valgrind("callgrind", words, **how)
    return said and int(re.search(r"Collected : (\d+)", said[1])[1])


def instructions(command, **how):
    """Returns the instructions of one thing that a command makes, or None if it fails."""
    with ThreadPoolExecutor() as pool:
        one, three = pool.map(lambda count: run_instructions(command(count), **how), (1, 3))
    return None if one is None or three is None else (three - one) / 2


def snapshots(words):
    """Returns snapshots of a run's heap: the bytes allocated and freed so far, and those held."""
    flags = ["--time-unit=B", "--peak-inaccuracy=0.0", "--max-snapshots=1000"]
    text, _ = valgrind("massif", words, *flags)
    pairs = re.findall(r"time=(\d+)\nmem_heap_B=(\d+)", text)
    return [(int(time), int(held)) for time, held in pairs]


def heap(command):
    """Returns the most heap that making one thing takes, less the most of a run that makes none."""
    none, one = (max(held for _, held in snapshots(command(count))) for count in (0, 1))
    return one - none


def heap_from_then_on(command):
    """Returns the most heap while one thing is made, less what the run holds when that begins."""
    none, one = (snapshots(command(count)) for count in (0, 1))
    same = next(at for at, pair in enumerate(one) if pair not in none)
    return max(held for _, held in one[same:]) - one[same - 1][1]


def greatest_step(folder):
    """Returns the largest ratio of a module's cost to that in the version before, and where."""
    answers = (TOP / "evidence" / "answers").read_text()
    most = re.findall(r"(?m)^most normal (\d+) M: \d+ \d+ (\d+) \d+$", answers)
    each = [instructions(command_of(folder, "symbol", WORDS[:int(count)], version, 1))
            / (4 * int(version) + 17) ** 2 for version, count in most]
    return max((after / before, v) for v, before, after in zip(range(3, 41), each[1:], each[2:]))


@functools.cache
def build_calls(folder):
    exit_if_not_there(*(CRATES / it / "out" / "rlib" for it in all_below("goqlanis_c")))
    subprocess.run([TOP / "bindings" / "c" / "build", "--proved", folder], check=True)
    words = ["gcc", "-std=c11", "-O2", f"-I{folder}", "-o", folder / "calls", HERE / "calls.c"]
    subprocess.run([*words, folder / "libgoqlanis.a"], check=True)
    return folder / "calls"


def library(folder):
    build_calls(folder)
    os.environ["GOQLANIS_LIB"] = str(folder / "libgoqlanis.so.1")
    import goqlanis
    return goqlanis


@functools.cache
def squares(folder):
    """Returns squares to read by name: undamaged, and with the most damage that is corrected."""
    goqlanis = library(folder)
    import looks
    found = {}
    for name, (version, length) in READ.items():
        chance = random.Random(version)
        data = bytes(chance.choice(b"abcdefghijklmnopqrstuvwxyz,;!?") for _ in range(length))
        square = looks.square_of(goqlanis.encode(data, "M", version))
        worst, _ = looks.damaged(square, version, "M", chance)
        for each, modules in ((name, square), (f"{name}-damaged", worst)):
            found[each] = b"".join(b"%d" % it for it in modules)
    return found


def page(folder, name):
    """Returns a PBM file of 480 by 480 pixels: a code, and what surrounds it."""
    code = library(folder).encode(b"beside", "M", 1).matrix
    rows = [[int(PAGES[name](x, y)) for x in range(480)] for y in range(480)]
    for y, x in product(range(116), repeat=2):
        is_code = 16 <= min(x, y) and max(x, y) < 100
        rows[y][x] = int(is_code and code[y // 4 - 4][x // 4 - 4])
    return file_of(rows, 0, 1)


def short(number):
    """Returns a number with three digits, in thousands (k) or millions (M) if it is large."""
    for unit, name in ((1e6, " M"), (1e3, " k")):
        if number >= unit:
            return f"{number / unit:.{max(3 - len(str(int(number / unit))), 0)}f}{name}"
    return f"{number:.{max(3 - len(str(int(number))), 0)}f}" if number < 100 else str(round(number))
