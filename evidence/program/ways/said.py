"""Tests of what goqlanis says about itself: help and colours; of its manual and completions."""
import os
import re
import shlex
import shutil

from manuals import commands, pages
from room import HERE, TOP, by_shell, cases, empty, piped, put, run, written

PAGES = HERE / "pages"


def examples_of_the_help_run(program):
    """A shell runs each example, in a folder with the files that they name."""
    with empty() as folder:
        put(folder, "ticket.txt", b"seat 12\n")
        put(folder, "seats.txt", b"1\n2\n")
        shown = run(program, ["--help"], folder).stdout.decode()
        found = re.findall(r"^  (goqlanis .*)$", shown, re.MULTILINE)
        ran = [by_shell(program, it, folder) for it in found]
        made = {"ticket.png", "seat-000001.svg", "seat-000002.svg", "label.png"}
        is_well = all(it.returncode == 0 and not it.stderr for it in ran)
        return len(ran) == 8 and is_well and made < set(os.listdir(folder))


def _tasks(program):
    return commands(written(program, "--help").decode())


def every_option_has_a_case(program):
    """Each option of each command has a case; one for drawing needs only one without a command."""
    tasks = ["", *_tasks(program)]
    given = {task: set() for task in tasks}
    lines = [it.piped if it.is_script else f"{it.words}\n{it.piped}" for it in cases()]
    for words in map(shlex.split, filter(None, "\n".join(lines).split("\n"))):
        given[words[0] if words[0] in tasks else ""] |= {word.split("=")[0] for word in words}
    drawn = set()
    for task in tasks:
        shown = written(program, f"{task} --help").decode()
        options = re.findall(r"^ +(?:(-\w), )?(--[\w-]+)", shown, re.MULTILINE)
        for option in options:
            yield option[1] in drawn or bool(given[task] & {*option} - {""})
        drawn = drawn or {long for _, long in options}
    yield len(tasks) == 21


def help_has_lines_of_80_characters(program):
    shown = [written(program, f"{it} --help") for it in ("", *_tasks(program))]
    return all(it and max(map(len, it.splitlines())) <= 80 for it in shown)


def _pages(program):
    """Returns all help, the manual page and the completions, by the file that stores them."""
    asked = ["--help", *(f"{it} --help" for it in _tasks(program))]
    shown = {it: written(program, it).decode() for it in asked}
    help = "\n".join(f"$ goqlanis {it}\n{text}" for it, text in shown.items())
    return {name: text.encode() for name, text in {"help": help, **pages(shown.get)}.items()}


def pages_are_those_that_are_stored(program):
    """No change of help, manual and completions goes unnoticed; `--write` stores them anew."""
    others = [name for name, it in _pages(program).items() if (PAGES / name).read_bytes() != it]
    print(*(f"program: it is not so of evidence/program/pages/{it}\n" for it in others), end="")
    return not others


def _store_pages(program):
    for name, text in _pages(program).items():
        put(PAGES, name, text)


def shells_complete(program):
    """bash completes options and values; zsh and fish, if installed, read their completions."""
    asked = """. /dev/stdin; for words in '--lev' '--format p' '-l' '--scale 1' 'wi' 'wifi --s' \
        'read --v' 'read -v' 'bill --currency E' 'epc --le'; do
        COMP_WORDS=(goqlanis $words); COMP_CWORD=$((${#COMP_WORDS[@]} - 1))
        COMPREPLY=(); _goqlanis; echo "${COMPREPLY[@]}"; done"""
    bash = piped(["bash", "-c", asked], _pages(program)["bash"])
    options = b"--ssid --security --symbol-version --scale --size --svg-title --svg-desc --svg-id "
    options += b"--svg-class"
    wanted = [b"--level", b"png pic pbm pgm pdf ppm", b"", b"", b"wifi", options, b"--verbose", b"",
              b"EUR", b""]
    yield not bash.stderr and bash.stdout.split(b"\n")[:-1] == wanted
    yield _are_quoted(program)
    for shell in filter(shutil.which, ("zsh", "fish")):
        yield _reads_completions(program, shell)


def _are_quoted(program):
    """Whether each line with the help of an option closes its quotes in zsh and fish."""
    found = 0
    for shell, ends in (("zsh", "\\;"), ("fish", "")):
        for line in _pages(program)[shell].decode().splitlines():
            if " -d '" in line or line.startswith("      "):
                try:
                    found += len(shlex.split(line.rstrip(f"{ends} "))) > 0
                except ValueError:
                    return False
    return found > 100


def _reads_completions(program, shell):
    """Whether a shell reads its completions, and fish completes with them as bash does."""
    given = _pages(program)[shell]
    read = piped([shell, "-n", "/dev/stdin"], given)
    if shell != "fish" or read.returncode or read.stderr:
        return not read.returncode and not read.stderr
    asked = """source -
        for words in '--lev' 'wi' 'wifi --ss' 'read --v' 'bill --currency E' 'epc --le'
        complete -C "goqlanis $words" | cut -f 1; end"""
    fish = piped([shell, "-c", asked], given)
    return fish.stdout == b"--level\nwifi\n--ssid\n--verbose\nEUR\n" and not fish.stderr


def man_shows_the_manual(program):
    """man shows the manual without a warning. (Passes if man is not installed.)"""
    if not shutil.which("man"):
        return True
    with empty() as folder:
        put(folder, "goqlanis.1", _pages(program)["manual"])
        env = {"PATH": "/usr/bin:/bin", "LC_ALL": "C.UTF-8", "MANWIDTH": "140"}
        ran = piped(["man", "--warnings", "-l", "goqlanis.1"], cwd=folder, env=env)
        shown = " ".join(ran.stdout.decode().split())
        wanted = ("half-blocks, terminal, text, png", 'goqlanis "https://example.org"')
        return (ran.returncode, ran.stderr) == (0, b"") and all(it in shown for it in wanted)


def the_symbol_of_the_gallery(program):
    shown = (TOP / "docs" / "drawing" / "half-blocks.txt").read_bytes()
    return written(program, "01234567") == shown + b"\n"


def python_has_the_same_colours(program):
    """The Python package has the CSS colour names of the program, and each draws its colour."""
    python = (TOP / "bindings/python/goqlanis/colours.txt").read_text(encoding="utf-8")
    rattle = (TOP / "crates/qrcode_sheets/src/colours.rt").read_text(encoding="utf-8")
    named = dict(re.findall(r"\b([a-z]+)=([0-9a-f]{6})\b", python))
    held_there = dict(re.findall(r'\("([a-z]+)", 0x([0-9a-f]{6})\)', rattle))
    drawn = [run(program, ["-f", "eps", "--light", it, "1"], "/").stdout for it in named]
    inks = [b"\n%d 255 div setgray\n" % parts[0] if len(set(parts)) == 1
            else b"\n%d 255 div %d 255 div %d 255 div setrgbcolor\n" % tuple(parts)
            for parts in map(bytes.fromhex, named.values())]
    rows = [ink in eps for ink, eps in zip(inks, drawn)]
    return len(named) == 148 and named == held_there and all(rows)
