#!/usr/bin/env python3
"""Says whether what was found outside the gate was found of the sources as they are.

    tools/asked.py      the last line is 'N passed, M failed'

A file of findings begins with the checksums of what was asked. Nothing in the gate tries the page
and most of the package for JavaScript: if these have changed, they have to be asked again
(lab/web/run). What was asked for ARM is built of sources that the gate tries for x86-64: it only
says how many of them have changed.
"""
import hashlib
import sys
from pathlib import Path

TOP = Path(__file__).resolve().parent.parent
PAGE = ("web/*.*", "web/build", "bindings/js/goqlanis/*.mjs", "bindings/js/goqlanis/*.ts",
        "bindings/js/*.[cmt]*", "bindings/js/build", "bindings/js/over", "bindings/js/test",
        "lab/web/run", "lab/web/cases", "lab/web/*.py", "lab/web/*.js")
ARM = ("crates/*/src", "bindings/c", "bindings/python", "evidence/program", "tools/*.c",
       "lab/arm/run", "lab/arm/*.py", "lab/race")
# Where it is stored what was found, of which sources, and whether these must be as they were.
FINDINGS = (("lab/web/found", PAGE, True), ("lab/arm/found", ARM, False))


def sums(patterns, top=TOP):
    """Returns a line for each file or folder: its checksum and its path."""
    lines = []
    for path in sorted({it for pattern in patterns for it in top.glob(pattern)}):
        total = hashlib.sha256()
        for each in [path] if path.is_file() else sorted(path.rglob("*")):
            if each.is_file() and "__pycache__" not in each.parts:
                total.update(b"" if each == path else f"{each.relative_to(path)}\n".encode())
                total.update(each.read_bytes())
        lines.append(f"{total.hexdigest()[:16]}  {path.relative_to(top)}")
    return lines


def main():
    wrong = 0
    for name, patterns, must_be_same in FINDINGS:
        head, _, found = (TOP / name).read_text(encoding="utf-8").partition("\n\n")
        now = sums(patterns)
        changed = sorted({it.split()[1] for it in {*head.splitlines()} ^ {*now}})
        if changed:
            said = changed[0] if len(changed) == 1 else f"{len(changed)}, such as {changed[0]}"
            print(f"{name} is of older sources: changed of {len(now)} files and folders: {said}")
        if "FAILED" in found:
            print(f"{name} has failures")
        wrong += "FAILED" in found or must_be_same and bool(changed)
    print(f"{len(FINDINGS) - wrong} passed, {wrong} failed")
    return wrong != 0


if __name__ == "__main__":
    sys.exit(main())
