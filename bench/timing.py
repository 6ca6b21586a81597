"""What the scripts of this folder share: the program that they time, and what its runs answer and take."""

import os
import subprocess
import sys
from pathlib import Path
from typing import NamedTuple

TOP = Path(__file__).resolve().parent.parent


class Run(NamedTuple):
    """What a run wrote, its status, its seconds of processor time, and its greatest resident set in bytes."""

    out: bytes
    status: int
    seconds: float
    memory: int


def program(built="crates/fslpp/out/fslpp"):
    """The program that is timed: the script's first argument, else this one of the repository."""
    return sys.argv[1] if len(sys.argv) > 1 else str(TOP / built)


def refuse(out):
    """Ends the script, since the program didn't answer as it should."""
    sys.exit("bench: the program answered %r" % out[:200])


def run(*words):
    """One run of a program on its words."""
    child = subprocess.Popen([str(word) for word in words], stdout=subprocess.PIPE)
    out = child.stdout.read()
    _, status, usage = os.wait4(child.pid, 0)
    return Run(out, os.waitstatus_to_exitcode(status), usage.ru_utime + usage.ru_stime, usage.ru_maxrss * 1024)


def answers(text):
    """Whether a run wrote this text and ended well."""
    return lambda run: run.out == text and run.status == 0


def best(count, right, *words):
    """The least seconds and memory of so many runs, each of which has to be right."""
    runs = [run(*words) for _ in range(count)]
    for each in runs:
        if not right(each):
            refuse(each.out)
    return runs[0]._replace(seconds=min(each.seconds for each in runs), memory=min(each.memory for each in runs))
