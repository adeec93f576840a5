"""Counts the processor seconds that the processes below this one spend on each crate."""
import os
import re
import threading
import time

INTERVAL, TICKS = 2, os.sysconf("SC_CLK_TCK")


def processes():
    """Returns each process: parent, start, and the ticks of it and its ended children."""
    found = {}
    for name in filter(str.isdigit, os.listdir("/proc")):
        try:
            with open(f"/proc/{name}/stat", encoding="utf-8", errors="replace") as file:
                words = file.read().rpartition(")")[2].split()
        except OSError:  # It has ended.
            continue
        found[int(name)] = int(words[1]), words[19], sum(map(int, words[11:15]))
    return found


def crate_of(process):
    """Returns the crate that a process was started for, or None."""
    try:
        with open(f"/proc/{process}/cmdline", "rb") as file:
            found = re.search(rb"\0--crate-name\0(\w+)\0", file.read())
    except OSError:
        return None
    return found[1].decode() if found else None


class Watch:
    """Looks at the processes below this one every two seconds, and prints a line each minute, which
    ends in what `said` returns. What a process spends after the last look is not counted."""

    def __init__(self, said):
        self.said, self.began, self.minutes = said, time.monotonic(), 0
        self.ticks, self.crates, self.working = {}, {}, set()
        threading.Thread(target=self.look_on, daemon=True).start()

    def look_on(self):
        while True:
            time.sleep(INTERVAL)
            self.look()
            if time.monotonic() - self.began >= 60 * (self.minutes + 1):
                self.minutes += 1
                now = ", ".join(sorted(self.working)) or "no crate"
                print(f"test: {self.minutes} min; {self.said()}; at work on {now}", flush=True)

    def look(self):
        """Notes the ticks of each process that works on a crate, with those of its children."""
        found, spent, working = processes(), {}, set()
        for process, (_, _, ticks) in found.items():
            top, at = None, process
            while at in found and at != os.getpid():
                key = at, found[at][1]
                if key not in self.crates:
                    self.crates[key] = crate_of(at)
                top, at = (key if self.crates[key] else top), found[at][0]
            if at == os.getpid() and top:
                spent[top] = spent.get(top, 0) + ticks
        for key, ticks in spent.items():
            self.ticks[key] = max(ticks, self.ticks.get(key, 0))
            working.add(self.crates[key])
        self.working = working

    def table(self):
        sums = {}
        for key, ticks in self.ticks.items():
            sums[self.crates[key]] = sums.get(self.crates[key], 0) + ticks
        rows = sorted(sums.items(), key=lambda row: -row[1])
        return "".join(f"{round(ticks / TICKS):6} s  {name}\n" for name, ticks in rows)
