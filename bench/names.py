#!/usr/bin/env python3
"""Times `check` on files of 1024, 2048 and 4096 procedures, each on a line.

    bench/names.py [PROGRAM]

PROGRAM is a build of fslpp, the proved one without it. In the first shape a procedure is empty, in the second it calls the
one before it and has some names of its own, so that the largest file has almost 1 MB. For each shape and number it
prints the seconds of processor time of the best of nine runs, less those of an empty `main`, and the ratio to the
number before.
"""

import tempfile
from pathlib import Path

from timing import best, program

COUNTS = (1024, 2048, 4096)


def empty(number):
    return "proc p%d() { }" % number


def full(number):
    names = ["let first_name_%d = %d;" % (i, i) for i in range(6)]
    uses = ["print(first_name_%d + first_name_0);" % i for i in range(2)]
    call = "call p%d();" % max(number - 1, 0)
    return "proc p%d() { %s }" % (number, " ".join(names + uses + [call]))


def is_well_typed(run):
    """Whether no fault of names and types was found."""
    return run.out.startswith((b"accepted", b"failed", b"refused form"))


def seconds(path, text):
    path.write_text(text)
    return best(9, is_well_typed, program(), "check", path).seconds


def main():
    with tempfile.TemporaryDirectory() as folder:
        path = Path(folder) / "program.fsl"
        start = seconds(path, "proc main() { }")
        for shape in (empty, full):
            before = None
            for count in COUNTS:
                lines = [shape(number) for number in range(count - 1)] + ["proc main() { }"]
                text = "\n".join(lines) + "\n"
                took = seconds(path, text) - start
                ratio = "" if before is None else "  %.2f times the number before" % (took / before)
                print("%-6s %5d procedures, %7d bytes: %.4f s%s" % (shape.__name__, count, len(text), took, ratio))
                before = took


if __name__ == "__main__":
    main()
