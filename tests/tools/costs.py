#!/usr/bin/env python3
"""What the proof of each crate costs, read from the processes of `rt ci` while it runs.

    tests/tools/costs.py     runs `rt ci` in a copy, and writes tests/budgets

The cost of a check is its processor minutes, with those of its copies, and the maximum memory that it and its copies hold together.
What a machine does in a minute differs, so tests/budgets counts in proofs of otel_ids.
"""
import os
import re
import shutil
import subprocess
import sys
import tempfile
import threading
import time

sys.dont_write_bytecode = True
from built import TOP, crates, lay_copy

# A check of a crate, but none of single functions or of tests.
CHECK, PARTIAL = re.compile(r"^\S*/rattle (?:check|build) --crate-name (\w+) "), re.compile(r" --(?:only|test)\b")
TICKS = os.sysconf("SC_CLK_TCK")
# Seconds from one look at the memory to the next.
MEMORY_EACH = 15
# The crate whose proof is the measure, and the file of the budgets with its head.
MEASURE, BUDGETS = "otel_ids", f"{TOP}/tests/budgets"
HEAD = "# Of each crate what its proof costs from nothing: processor minutes for each one that otel_ids takes, and GB.\n" \
       "# `make budgets` measures them.\n"


def read(path):
    with open(path, "rb") as file:
        return file.read().decode(errors="replace")


class Process:
    """A process: its parent, its processor seconds and those of its children that have ended, and the crate that it checks, if it
    does."""

    def __init__(self, pid):
        stat = read(f"/proc/{pid}/stat").rpartition(")")[2].split()
        self.parent, self.seconds = int(stat[1]), sum(map(int, stat[11:15])) / TICKS
        words = read(f"/proc/{pid}/cmdline").replace("\0", " ")
        crate = CHECK.match(words)
        self.crate = crate[1] if crate and not PARTIAL.search(words) else None


def share(pid):
    """The process's share of the memory, in KiB: what it has in common with its copies is divided among them. It takes a while."""
    try:
        return int(re.search(r"Pss: +(\d+)", read(f"/proc/{pid}/smaps_rollup"))[1])
    except (OSError, TypeError):
        return 0


def processes():
    found = {}
    for pid in filter(str.isdigit, os.listdir("/proc")):
        try:
            found[int(pid)] = Process(pid)
        except (OSError, IndexError):
            # It has ended.
            continue
    return found


class Costs(threading.Thread):
    """Looks each second at the checks that are children of a process."""

    def __init__(self, top):
        super().__init__(daemon=True)
        self.top, self.seconds, self.peak = top, {}, {}

    def run(self):
        while True:
            for second in range(MEMORY_EACH):
                time.sleep(1)
                self.look(not second)

    def look(self, at_memory):
        all_of, seconds, memory = processes(), {}, {}
        for pid, it in all_of.items():
            first, above = pid, it.parent
            while it.crate and above in all_of and all_of[above].crate == it.crate:
                first, above = above, all_of[above].parent
            if it.crate and above == self.top:
                # The seconds of a copy count here until it has ended, and then among those of its parent.
                seconds[it.crate, first] = seconds.get((it.crate, first), 0) + it.seconds
                memory[it.crate] = memory.get(it.crate, 0) + (share(pid) if at_memory else 0)
        for key, it in seconds.items():
            self.seconds[key] = max(self.seconds.get(key, 0), it)
        for crate, it in memory.items():
            self.peak[crate] = max(self.peak.get(crate, 0), it)

    def found(self):
        """The minutes and the GB of each crate."""
        crates = dict.fromkeys(crate for crate, _ in self.seconds)
        return {it: (sum(s for (crate, _), s in self.seconds.items() if crate == it) / 60, self.peak[it] / 1e6) for it in crates}


def budgets():
    """The budget of each crate in tests/budgets: its minutes for each one of the measure, and its GB."""
    with open(BUDGETS, encoding="utf-8") as file:
        lines = [line.split() for line in file if line.strip() and not line.startswith("#")]
    return {crate: (float(times), float(memory)) for crate, times, memory in lines}


def times(found):
    """What these costs are in proofs of the measure, and the GB."""
    measure = found.get(MEASURE, (0, 0))[0]
    return {crate: (minutes / measure, memory) for crate, (minutes, memory) in found.items()} if measure else {}


def above(found):
    """The lines about the crates whose costs are a quarter above their budgets."""
    known = budgets()
    for crate, cost in times(found).items():
        given = known.get(crate, (0, 0))
        if any(it > 1.25 * budget for it, budget in zip(cost, given)):
            yield "{}: its proof costs {:.1f} of {} and {:.1f} GB; its budget is {:.1f} and {:.1f} GB".format(crate, cost[0], MEASURE, cost[1], *given)


def told(found):
    """The line about all of these costs."""
    each = ", ".join(f"{crate} {minutes:.1f} {memory:.1f}" for crate, (minutes, memory) in found.items())
    return f"proofs: {sum(minutes for minutes, _ in found.values()):.0f} processor minutes; by crate, with GB: {each}"


def measured():
    """Runs `rt ci` in a copy, and writes tests/budgets. Returns its status."""
    room = tempfile.mkdtemp(prefix="budgets-")
    try:
        with subprocess.Popen(["rt", "ci"], cwd=lay_copy(room), stdin=subprocess.DEVNULL, stdout=subprocess.DEVNULL) as ran:
            costs = Costs(ran.pid)
            costs.start()
            status = ran.wait()
    finally:
        shutil.rmtree(room, ignore_errors=True)
    found = {} if status else times(costs.found())
    if found:
        with open(BUDGETS, "w", encoding="utf-8") as file:
            file.write(HEAD + "".join(f"{it} {found[it][0]:.1f} {found[it][1]:.1f}\n" for it in crates() if it in found))
    return status


if __name__ == "__main__":
    sys.exit(measured())
