#!/usr/bin/env python3
"""Times `check` on straight programs of 250 kB, 500 kB and 1 MB.

    bench/check.py [PROGRAM]

PROGRAM is a build of fslpp, the proved one without it. For each shape and size it prints the seconds of processor time of
the best of three runs, the ratio to the size before, and how many bytes of memory the run took for each byte of the
file.
"""

import tempfile
from pathlib import Path

from timing import answers, best, program

SIZES = (250_000, 500_000, 1_000_000)
CELLS = 100


def prints(size):
    """Many prints of a sum."""
    lines = ["proc main() {", "  let x = 41;"]
    line = "  print(x + 1 - 2);"
    lines += [line] * ((size - 30) // (len(line) + 1))
    return "\n".join(lines + ["}"])


def cells(size):
    """Stores to a hundred cells in turn, and assertions on values that were loaded."""
    lines = ["proc main() {"]
    lines += ["  let c%d = alloc na; store na(c%d, %d); let v%d = load na(c%d);" % (i, i, i, i, i) for i in range(CELLS)]
    length = sum(len(line) + 1 for line in lines)
    turn = 0
    while length < size - 80:
        i = turn % CELLS
        line = "  store na(c%d, v%d + 1); assert (v%d == %d);" % (i, i, i, i)
        lines.append(line)
        length += len(line) + 1
        turn += 1
    return "\n".join(lines + ["}"])


def main():
    with tempfile.TemporaryDirectory() as folder:
        path = Path(folder) / "program.fsl"
        for shape in (prints, cells):
            before = None
            for size in SIZES:
                text = shape(size)
                path.write_text(text)
                took = best(3, answers(b"accepted 1\n"), program(), "check", path)
                ratio = "" if before is None else "  %.2f times the size before" % (took.seconds / before)
                print("%-6s %7d bytes: %.3f s, %.0f bytes of memory a byte%s" % (shape.__name__, len(text), took.seconds, took.memory / len(text), ratio))
                before = took.seconds


if __name__ == "__main__":
    main()
