#!/usr/bin/env python3
"""Runs a command of `rt` and prints what it cost: for each crate the processor seconds of its proof, of its tests'
proof and of its wrong bodies.

    tools/gate_cost.py [--log FILE] rt ci [NAME ..]

What the command writes goes to the log, gate.log without another name. The processes below the command are sampled, so
a process counts up to its last sample, a quarter of a second before its end at most. What no crate's check took (the
compilers' and programs' runs, `rt` itself, and what fell between samples) is the last row but one. The status is the
command's.
"""
import os
import resource
import subprocess
import sys
import time
from collections import defaultdict

KINDS = ("proof", "tests", "wrong bodies")
INTERVAL = 0.25
TICKS = os.sysconf("SC_CLK_TCK")


def read(path):
    """The bytes of a file of /proc; nothing where the process has ended."""
    try:
        with open(path, "rb") as file:
            return file.read()
    except OSError:
        return b""


class Process:
    """A process as its line in /proc says: what started it, when, and the ticks of processor time that it took."""

    def __init__(self, pid):
        stat = read("/proc/%s/stat" % pid).rpartition(b")")[2].split()
        self.is_there = len(stat) > 19
        if self.is_there:
            self.parent, self.ticks = stat[1].decode(), int(stat[11]) + int(stat[12])
            # a number is given again, but not with the same start
            self.name = (pid, stat[19])


def processes():
    """All processes by their numbers."""
    found = {it: Process(it) for it in os.listdir("/proc") if it.isdigit()}
    return {pid: it for pid, it in found.items() if it.is_there}


def share_of(pid):
    """The crate and the kind of work of a process that checks a crate."""
    words = read("/proc/%s/cmdline" % pid).decode(errors="replace").split("\0")
    if "--crate-name" not in words[:-1]:
        return None
    crate = words[words.index("--crate-name") + 1]
    if "--test" in words:
        return crate, "tests"
    try:
        folder = os.path.basename(os.readlink("/proc/%s/cwd" % pid))
    except OSError:
        folder = ""
    return crate, "wrong bodies" if folder.startswith("rt-edit") else "proof"


class Costs:
    """What the processes below one took, by what they worked for."""

    def __init__(self, root):
        self.root, self.share, self.ticks = str(root), {}, {}

    def share_in(self, pid, found):
        """What a process works for: itself a check of a crate, or started by one; nothing where it isn't below."""
        process = found.get(pid)
        if process is None or pid == self.root:
            return None
        if process.name not in self.share:
            share = share_of(pid) or self.share_in(process.parent, found)
            if share is None:
                return None
            self.share[process.name] = share
        return self.share[process.name]

    def is_below(self, pid, found):
        """Whether a process was started below the command."""
        while pid in found and pid != self.root:
            pid = found[pid].parent
        return pid == self.root

    def sample(self):
        """Notes what the processes took so far."""
        found = processes()
        for pid, process in found.items():
            known = process.name in self.ticks
            if (known or self.is_below(pid, found)) and self.share_in(pid, found):
                self.ticks[process.name] = process.ticks

    def table(self):
        """The seconds of each crate, by kind."""
        rows = defaultdict(lambda: dict.fromkeys(KINDS, 0.0))
        for name, ticks in self.ticks.items():
            crate, kind = self.share[name]
            rows[crate][kind] += ticks / TICKS
        return rows


def print_table(rows, whole, wall):
    """Prints the crates, the dearest first, and the sums."""
    width = max([len(it) for it in rows] + [len("not a crate's")])
    line = "%-" + str(width) + "s" + " %12s" * 4
    print(line % ("crate", *KINDS, "all"))
    for crate in sorted(rows, key=lambda it: -sum(rows[it].values())):
        costs = rows[crate]
        print(line % (crate, *("%.0f" % costs[it] for it in KINDS), "%.0f" % sum(costs.values())))
    sums = [sum(costs[it] for costs in rows.values()) for it in KINDS]
    print(line % ("not a crate's", "", "", "", "%.0f" % (whole - sum(sums))))
    print(line % ("sum", *("%.0f" % it for it in sums), "%.0f" % whole))
    print("%.0f processor seconds, %.1f processor minutes, in %.1f minutes" % (whole, whole / 60, wall / 60))


def main(words):
    log = "gate.log"
    if words[:1] == ["--log"]:
        log, words = words[1], words[2:]
    if not words:
        sys.exit(__doc__)
    began = time.monotonic()
    with open(log, "wb") as file:
        command = subprocess.Popen(words, stdin=subprocess.DEVNULL, stdout=file, stderr=file)
        costs = Costs(command.pid)
        while command.poll() is None:
            costs.sample()
            time.sleep(INTERVAL)
    used = resource.getrusage(resource.RUSAGE_CHILDREN)
    print_table(costs.table(), used.ru_utime + used.ru_stime, time.monotonic() - began)
    print("status %d; the log is %s" % (command.returncode, log))
    return command.returncode


if __name__ == "__main__":
    sys.exit(main(sys.argv[1:]))
