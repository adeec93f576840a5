"""Shared by scripts that test: counts and prints what passed and what failed."""
import subprocess


def run(*words, **how):
    words = list(map(str, words))
    try:
        return subprocess.run(words, capture_output=True, text=True, errors="replace", **how)
    except FileNotFoundError:
        return subprocess.CompletedProcess(words, 127, "", f"there is no {words[0]}")


class Tally:
    """How many tests passed and failed, and the line of each."""

    def __init__(self):
        self.lines, self.counts = [], [0, 0]

    def note(self, name, holds, said=""):
        """Counts and prints one test; if it failed, also the first and last lines of `said`."""
        self.counts[not holds] += 1
        self.lines.append(f"{'passed' if holds else 'FAILED'}: {name}")
        more = [] if holds else str(said).splitlines()
        more = more if len(more) <= 20 else [*more[:10], "..", *more[-10:]]
        print("\n  ".join([self.lines[-1], *more]), flush=True)

    def note_run(self, name, *words, **how):
        """Counts whether a command succeeds, with the last line that it writes."""
        ran = run(*words, **how)
        last, is_so = "".join(ran.stdout.splitlines()[-1:]), ran.returncode == 0
        self.note(f"{name}: {last}" if last and is_so else name, is_so, ran.stdout + ran.stderr)

    def last_line(self):
        return "{} passed, {} failed".format(*self.counts)
