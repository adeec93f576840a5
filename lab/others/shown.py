"""Shared by the scripts that look what others make of symbols: goqlanis, files of modules, and what
zxing and zbar read, by g++ and Debian 12's packages libzxing-dev and zxing-cpp-tools (1.4.0) and
zbar-tools (0.23.92). It finds the modules of evidence/program, evidence/judge and lab/oracle.
"""
import contextlib
import operator
import os
import re
import subprocess
import sys
import tempfile
from pathlib import Path

ROOT = Path(__file__).resolve().parents[2]
sys.path[:0] = [str(ROOT / it) for it in ("evidence/program", "evidence/judge", "lab/oracle",
                                        "bindings/python")]
# The program that `rt ci goqlanis` left in out/, or the one that GOQLANIS names.
PROGRAM = os.path.abspath(os.environ.get("GOQLANIS", ROOT / "crates/goqlanis/out/goqlanis"))


def run(*words, data=None, may_fail=False):
    """Returns the output of a command, as bytes, or nothing if it fails, unless it may."""
    ran = subprocess.run(words, input=data, capture_output=True, check=False)
    return ran.stdout if may_fail or ran.returncode == 0 else b""


def output(*words, data=None):
    """Returns the output of a command that must not fail."""
    return subprocess.run(words, input=data, capture_output=True, check=True).stdout


def drawn(*words):
    return output(PROGRAM, *words)


def pixels(picture, kind):
    """Returns the pixels of a picture as ImageMagick reads them: gray, rgb or rgba."""
    return output("convert", picture, "-depth", "8", f"{kind}:-")


def pgm(rows, zone=4, scale=4):
    """Returns a PGM file of rows of modules in a quiet zone."""
    wide = [[0] * (len(rows[0]) + 2 * zone)] * zone
    rows = [*wide, *([0] * zone + list(row) + [0] * zone for row in rows), *wide]
    lines = (bytes(0 if it else 255 for it in row for _ in range(scale)) for row in rows)
    sides = scale * len(rows[0]), scale * len(rows)
    return b"P5 %d %d 255\n" % sides + b"".join(line * scale for line in lines)


@contextlib.contextmanager
def file_with(data):
    with tempfile.NamedTemporaryFile() as it:
        it.write(data)
        it.flush()
        yield it.name


def build(program, source):
    output("g++", "-std=c++17", "-O2", "-o", program, source, "-lZXing")


def zxing(squares, *words):
    """Returns the lines that zxing.cpp writes for squares, which are rows of modules."""
    given = b"".join(map(pgm, squares))
    with tempfile.TemporaryDirectory() as folder:
        build(f"{folder}/zxing", Path(__file__).with_name("zxing.cpp"))
        return output(f"{folder}/zxing", *words, data=given).decode().splitlines()


def zbar(picture):
    """Returns what zbar reads of a picture (its path, or its bytes), as bytes, or None."""
    if isinstance(picture, bytes):
        with file_with(picture) as path:
            return zbar(path)
    words = ["zbarimg", "-q", "--raw", "--oneshot", "-Sdisable", "-Sqrcode.enable", picture]
    ran = subprocess.run(words, capture_output=True, check=False)
    return ran.stdout.removesuffix(b"\n") if ran.returncode == 0 else None


def by_zxing(path, *words):
    """Returns the texts that ZXingReader prints of a picture."""
    said = run("ZXingReader", *words, path, may_fail=True).decode(errors="replace")
    return re.findall(r'(?m)^Text: +"(.*)"$', said)


def opened(folder, kind, command, many, are_alike=operator.eq):
    """Returns how many drawings of a kind a command shows as the pixels of the PNG file, and how
    many of these zbar reads; the command makes a picture {shown}.png of a {file}."""
    file, wanted, made = folder / f"file.{kind}", folder / "wanted.png", folder / "made.png"
    same = read = 0
    for words in many:
        file.write_bytes(drawn("-f", kind, *words))
        wanted.write_bytes(drawn("-f", "png", *words))
        command_line = [it.format(file=file, shown=made.with_suffix("")) for it in command]
        ran = subprocess.run(command_line, capture_output=True, text=True, check=True)
        said = ran.stderr.replace("warning: ICC support is not available\n", "")
        assert not said, said
        same += are_alike(pixels(made, "rgb"), pixels(wanted, "rgb"))
        read += zbar(made) == words[-1].encode()
    return same, read


def table(head, rows):
    """Returns a Markdown table: of each row its name, how many answers there are, and how many of
    them are true, and the sums of these at its end. An answer has a truth for each program."""
    rows = [(name, len(answers), *map(sum, zip(*answers))) for name, answers in rows]
    rows = [*rows, ("all", *map(sum, [*zip(*rows)][1:]))]
    lines = [f"| {name} | {' | '.join(f'{it:,}' for it in counts)} |" for name, *counts in rows]
    return "\n".join([head, "|" + "---|" * len(rows[0]), *lines, ""])


def store(files):
    """Writes files of texts, or with `check` compares them; returns whether any is another."""
    if sys.argv[-1] != "check":
        for path, text in files.items():
            path.write_text(text, encoding="utf-8")
        return False
    others = [path.name for path, text in files.items() if path.read_text("utf-8") != text]
    print("the same" if not others else f"OTHERS than in {' and '.join(others)}")
    return bool(others)


def keep(found, name="found"):
    """Prints what a function finds and stores it beside the script, or with `check` compares it."""
    if sys.argv[1:] not in ([], ["check"]):
        sys.exit(f"usage: {sys.argv[0]} [check]")
    text = found()
    print(text, end="")
    sys.exit(store({Path(sys.argv[0]).with_name(name): text}))
