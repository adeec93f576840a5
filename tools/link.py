#!/usr/bin/env python3
"""Links the program goqlanis as one static file, which needs no C library where it runs.

    tools/link.py [--proved] [--arm] FILE

It needs gcc, and the libraries that a green gate (`./test`) left, or with --proved those in out/.
--arm links it for 64-bit ARM Linux, with Debian's gcc-aarch64-linux-gnu. It takes two minutes.
"""
import argparse
import subprocess
import sys
import tempfile
from pathlib import Path

sys.dont_write_bytecode = True
sys.path.insert(0, str(Path(__file__).resolve().parents[1]))
from tools.machines import ARM, X86  # noqa: E402
from tools.sums import are_libraries_left  # noqa: E402

NAME = "goqlanis"


def link(machine, made, proved=False):
    """Links the program for a processor as the file `made`."""
    if not machine.has_compiler():
        sys.exit(f"tools/link.py: there is no {machine.gcc}")
    if not proved and not are_libraries_left(NAME):
        sys.exit("tools/link.py: no green gate left the libraries of these sources: run ./test "
                 "first")
    with tempfile.TemporaryDirectory() as name:
        program = Path(name) / f"{NAME}.o"
        if not machine.compile(NAME, "src/main.rt", program):
            sys.exit("tools/link.py: the program did not compile")
        machine.add_host(name, "libc", "os")
        objects = sorted(Path(name).glob("*.o"))
        words = [machine.gcc, "-O2", "-static", "-s", *objects, "-o", made]
        subprocess.run(words, check=True)


def main():
    parser = argparse.ArgumentParser(usage="tools/link.py [--proved] [--arm] FILE")
    parser.add_argument("--proved", action="store_true")
    parser.add_argument("--arm", action="store_const", const=ARM, default=X86, dest="machine")
    parser.add_argument("file", type=Path)
    given = parser.parse_args()
    link(given.machine, given.file, given.proved)


if __name__ == "__main__":
    main()
