#!/usr/bin/env python3
"""Times the machine on straight programs of 15000, 30000 and 60000 statements.

    bench/run.py [PROGRAM]

PROGRAM is a build of fslpp, the proved one without it. A run judges the program first, so the seconds of `check` are
taken from those of `run`: what is left is one machine move for each statement and the text of the execution. For
each shape and size it prints the moves a second (processor time, the best of 25 runs) and the ratio of the seconds
to the size before.
"""

import tempfile
from pathlib import Path

from timing import best, program, refuse

SIZES = (15_000, 30_000, 60_000)
CELLS = 100


def stores(count):
    """Stores to one cell."""
    return ["let c = alloc na;"] + ["store na(c,7);"] * (count - 1)


def cells(count):
    """Stores to a hundred cells in turn."""
    lines = ["let c%d=alloc na;" % i for i in range(CELLS)]
    return lines + ["store na(c%d,%d);" % (i % CELLS, i % 10) for i in range(count - CELLS)]


def prints(count):
    """Prints of a number."""
    return ["print(7);"] * count


def took(action, path):
    """The best of 25 runs that end well."""
    return best(25, lambda run: run.status == 0, program(), action, path)


def main():
    with tempfile.TemporaryDirectory() as folder:
        path = Path(folder) / "program.fsl"
        for shape in (stores, cells, prints):
            before = None
            for size in SIZES:
                path.write_text("proc main() {\n" + "\n".join(shape(size)) + "\n}\n")
                ran = took("run", path)
                if b"thread 0 proc 0 moves %d args\n" % (size + 1) not in ran.out:
                    refuse(ran.out)
                seconds = ran.seconds - took("check", path).seconds
                ratio = "" if before is None else "  %.2f times the size before" % (seconds / before)
                print("%-6s %5d statements: %.3f s, %.0f moves a second%s" % (shape.__name__, size, seconds, size / seconds, ratio))
                before = seconds


if __name__ == "__main__":
    main()
