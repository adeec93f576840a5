"""Tests of goqlanis in terminals, into pipes and when memory runs out; and of qrencode."""
import os
import re
import resource
import signal
import subprocess
import sys
import tempfile
import unicodedata

from room import (FILES, PROGRAM, TOP, empty, figures, held, in_terminal, piped, put, room, run,
                  written)


def colours_on_a_terminal_alone(program):
    plain = written(program, "01234567")
    ok = in_terminal(program, ["01234567"]) == (written(program, "-f terminal 01234567"), 0)
    without = in_terminal(program, ["01234567"], NO_COLOR="1")
    return ok and without == (plain, 0) and b"\x1b" not in plain


def no_bytes_to_a_terminal(program):
    """No binary format goes to a terminal, unless `--output -` asks for it; texts do."""
    said = (b"goqlanis: this format is not for a terminal: add --output FILE, or --output - to "
            b"write it there anyway\n")
    heads = {"pgm": b"P5\n", "pbm": b"P4\n", "ppm": b"P6\n", "png": b"\x89PNG\r\n",
             "pdf": b"%PDF-1.4\n", "tspl": b"SIZE ", "escpos": b"\x1dv0"}
    for kind, head in heads.items():
        asked, status = in_terminal(program, ["-f", kind, "-o", "-", "1"])
        refused = in_terminal(program, ["-f", kind, "1"])
        yield refused == (said, 1) and not status and asked.startswith(head)
    for kind in ("eps", "pic", "zpl", "xbm"):
        yield in_terminal(program, ["-f", kind, "1"]) == (written(program, f"-f {kind} 1"), 0)
    for words in (["--lines"], ["split", "--count", "2"]):
        asked, status = in_terminal(program, [*words, "-f", "pdf", "-o", "-", "1"])
        refused = in_terminal(program, [*words, "-f", "pdf", "1"])
        yield refused == (said, 1) and not status and asked.endswith(b"%%EOF\n")


def a_terminal_is_asked_for_what_is_wanted(program):
    """Before it waits for input the program says what it needs: text, lines or a picture."""
    for words, what in (([], b"the text"), (["--lines"], b"the lines"), (["read"], b"a picture"),
                        (["several"], b"the text"), (["join", "-"], b"a picture")):
        shown, _ = in_terminal(program, words, given=b"\x04")
        yield b"goqlanis: " + what + b", and Ctrl-D at its end:\n" in shown


def a_closed_pipe_ends_a_run_quietly(program):
    """A closed output ends the run without a message, also with --lines and --help."""
    reader, writer = os.pipe()
    os.close(reader)
    more = {"input": b"1\n2\n3\n", "stdout": writer, "stderr": subprocess.PIPE, "timeout": 60}
    ran = [subprocess.run([program, *it.split()], check=False, **more)
           for it in ("1", "--lines", "--lines -f pdf", "--help")]
    os.close(writer)
    return all((it.returncode, it.stderr) == (1, b"") for it in ran)


PIPES = {"stdin": subprocess.PIPE, "stdout": subprocess.PIPE}


def lines_are_drawn_as_they_come(program):
    with subprocess.Popen([program, "--lines"], **PIPES) as ran:
        wanted = [written(program, it) for it in ("one", "two")]
        drawn = []
        for line, drawing in zip((b"one\n", b"two\r\n"), wanted):
            ran.stdin.write(line)
            ran.stdin.flush()
            drawn.append(ran.stdout.read(len(drawing)))
        ran.stdin.close()
        return drawn == wanted and ran.stdout.read() == b"" and ran.wait(timeout=60) == 0


def pages_are_written_as_their_lines_come(program):
    """A document's first page comes before the second line, and its end after the input."""
    with subprocess.Popen([program, "--lines", "-f", "pdf"], **PIPES) as ran:
        for line in (b"one\n", b"two\n"):
            ran.stdin.write(line)
            ran.stdin.flush()
            drawn = b""
            while not drawn.endswith(b"\nendstream\nendobj\n"):
                drawn += os.read(ran.stdout.fileno(), 65536)
            if b"xref" in drawn:
                return False
        ran.stdin.close()
        return ran.stdout.read().endswith(b"%%EOF\n") and ran.wait(timeout=60) == 0


# The ends of the ranges of Unicode's Default_Ignorable_Code_Point (DerivedCoreProperties) that are
# not format characters: fillers, variation selectors, and unassigned code points.
IGNORED = ("\u034f\u115f\u1160\u17b4\u17b5\u180b\u180f\u2065\u3164\ufe00\ufe0f\uffa0\ufff0\ufff8"
           "\U000e0000\U000e0002\U000e001f\U000e0080\U000e0fff")


def _unseen():
    """Returns all format and control characters and line separators, by Python's tables, except
    newline and tab; and the ignored ones."""
    kinds = ("Cc", "Cf", "Zl", "Zp")
    found = [chr(it) for it in range(sys.maxunicode) if unicodedata.category(chr(it)) in kinds]
    return [it for it in found if it not in "\t\n"] + [*IGNORED]


def strangers_turn_nothing_round_on_a_terminal(program):
    """Characters that hide or move others are escaped on a terminal; pipes and files get them."""
    text = "".join(_unseen()).replace("\0", "")
    with empty() as folder:
        put(folder, "data", text.encode())
        run(program, ["-i", "data", "-o", "a.pbm"], folder)
        run(program, ["read", "a.pbm", "-o", "read"], folder)
        raw = {run(program, [it, "a.pbm"], folder).stdout for it in ("read", "join")}
        raw.add(held(folder, "read"))
        shown = [in_terminal(program, it) for it in (
            ["read", f"{folder}/a.pbm"], ["join", f"{folder}/a.pbm"],
            ["-f", "svg", "--svg-title", "\u202e", "1"])]
    said = run(program, ["-i", "a" + text], "/").stderr.decode()
    is_plain = all(it.isascii() for it in (*(one.decode() for one, _ in shown), said))
    is_shown = all(b"\\u{202e}" in one and status == 0 for one, status in shown)
    return len(text) > 200 and raw == {text.encode()} and is_plain and is_shown


def strangers_send_no_control_characters_to_a_terminal(program):
    """Messages and data that is read are escaped on a terminal; a pipe gets the data as it is."""
    name, shown = b"a\x1b]0;b\x07\xc2\x9bc\nd", rb"a\u{1b}]0;b\u{7}\u{9b}c\nd"
    said = [piped([program, *it]).stderr for it in (
        [b"-i", name], [b"-o", name, b"1"], [b"read", name], [b"--" + name], [b"-l", name, b"1"],
        [b"wifi", b"--ssid", b"a", b"--security", name])]
    if not all(shown in it for it in said[:3]) or re.search(rb"[\x1b\x9b]", b"".join(said)):
        return False
    data = name + b"\t\r\xff\xc3\xa9"
    with empty() as folder:
        put(folder, "data", data)
        drawn = run(program, ["-i", "data", "-f", "pbm", "-o", "a.pbm"], folder)
        raw = run(program, ["read", "a.pbm"], folder).stdout
        seen = [in_terminal(program, [it, f"{folder}/a.pbm"]) for it in ("read", "join")]
        asked = [in_terminal(program, [it, "-o", "-", f"{folder}/a.pbm"])[0]
                 for it in ("read", "join")]
    wanted = shown.replace(rb"\nd", b"\nd") + b"\t" + rb"\r\xff" + b"\xc3\xa9\n"
    is_raw = drawn.returncode == 0 and raw == data and asked == [data] * 2
    return is_raw and seen == [(wanted, 0)] * 2


def _at_most_100_bytes():
    signal.signal(signal.SIGXFSZ, signal.SIG_IGN)
    resource.setrlimit(resource.RLIMIT_FSIZE, (100, 100))


def _qrencode(program, text, **more):
    """Runs the program qrencode, built by the compiler that built `program`."""
    made = f"{TOP}/crates/qrencode/out/qrencode" + program.removeprefix(PROGRAM)
    return subprocess.run(["qrencode", text], executable=made, stderr=subprocess.PIPE, timeout=60,
                          check=False, **more)


def qrencode_draws_the_longest_text(program):
    ran = _qrencode(program, "a" * 2331, stdout=subprocess.PIPE)
    return (ran.returncode, ran.stdout.count(b"\n"), ran.stderr) == (0, 184, b"")


def qrencode_reports_a_refused_write(program):
    """qrencode fails to write to a full device, and into a file of at most 100 bytes."""

    with open("/dev/full", "wb") as full, tempfile.TemporaryFile() as short:
        ran = [_qrencode(program, it, stdout=full) for it in ("1", "7" * 3000)]
        ran.append(_qrencode(program, "1", stdout=short, preexec_fn=_at_most_100_bytes))
        said = {(it.returncode, it.stderr) for it in ran}
        is_said = said == {(1, b"qrencode: cannot write\n")}
        return is_said and os.fstat(short.fileno()).st_size == 100


REFUSED = ("1", "-o old.svg --trim", "-f png --eci 1", "-s 0", "--version", "read --verbose blank.pbm",
           "check --json three.pbm", "check run.pbm", "gs1 --application 37 1")
# Arguments that draw pictures, which are then read while requests for memory fail.
READ = ("-f pbm -s 2 --micro 1", "-f pgm -s 2 --micro 1", "-f png -s 2 --micro 1", "--micro 1")


def _with_a_request_refused(program, library, words, at, given=b"01234567\n"):
    """Runs the program in a room, with request number `at` for memory failing. Returns the status,
    output and files; the messages; and whether a request failed. No block may be leaked."""
    with room() as folder:
        env = {"LD_PRELOAD": library, "REFUSE": str(at)}
        ran = run(program, words, folder, given, env=env)
        counts = re.compile(r"(.*)requests \d+ refused (\d+) left 0\n", re.DOTALL)
        said, refused = counts.fullmatch(ran.stderr.decode()).groups()
        answer = (ran.returncode, ran.stdout, sorted(os.listdir(folder)), held(folder, "old.svg"))
        return answer, said, refused != "0"


def refused_memory_is_reported_in_a_line(program):
    """Each request for memory fails in turn: the run reports it and writes nothing, or succeeds."""
    with room() as folder:
        kept = sorted(os.listdir(folder)), FILES["old.svg"]
        nothing = (1, b"", *kept), (1, b"[\n]\n", *kept)
        library = f"{folder}/refuse.so"
        words = ["cc", "-O2", "-shared", "-fPIC", "-o", library, f"{TOP}/evidence/memory/refuse.c"]
        subprocess.run(words, check=True)
        line = re.compile(r"(goqlanis|error): [^\n]*out of memory\n", re.IGNORECASE)
        runs = [(words.split(), b"01234567\n") for words in REFUSED]
        runs += [(["read"], written(program, words)) for words in READ]
        for words, given in [*runs, (["read"], figures(program, b"1"))]:
            asked, at, is_refused = (program, library, words), 1, True
            silent = nothing[:2 if "--json" in words else 1]
            whole = _with_a_request_refused(*asked, 0, given)[:2]
            while is_refused:
                *answer, is_refused = _with_a_request_refused(*asked, at, given)
                is_reported = answer[0] in silent and line.fullmatch(answer[1])
                yield bool(is_reported) or tuple(answer) == whole
                at += 1
