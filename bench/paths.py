#!/usr/bin/env python3
"""Times `check` on a procedure with 2^12, 2^14 and 2^16 paths: so many `if`s in a row, each on a parameter of its own.

    bench/paths.py [PROGRAM [LENGTH ..]]

PROGRAM is a build of fslpp, the proved one without it; each LENGTH is a number of `if`s, 12, 14 and 16 without them. For
each number of paths it prints the seconds of processor time of the best of three runs, less those of an empty `main`,
the microseconds for each path, their ratio to those of the number before, and the greatest memory of a run, with its
growth since the number before.
"""

import sys
import tempfile
from pathlib import Path

from timing import answers, best, program

LENGTHS = (12, 14, 16)


def branching(length):
    """A procedure in which nothing is known of the numbers that decide its branches."""
    names = ["x%d" % i for i in range(length)]
    lines = ["proc choose(%s) {" % ", ".join(names)]
    lines += ["  if (%s > 0) { print(%s); }" % (name, name) for name in names]
    return "\n".join(lines + ["}", "proc main() { }"]) + "\n"


def took(path, text, procedures):
    """The best of three runs, which must accept so many procedures."""
    path.write_text(text)
    return best(3, answers(b"accepted %d\n" % procedures), program(), "check", path)


def main():
    with tempfile.TemporaryDirectory() as folder:
        path = Path(folder) / "program.fsl"
        start = took(path, "proc main() { }\n", 1).seconds
        before = None
        for length in [int(word) for word in sys.argv[2:]] or LENGTHS:
            run = took(path, branching(length), 2)
            seconds = run.seconds - start
            each = seconds / 2**length
            ratio = "" if before is None else "; a path %.2f times, memory %.2f times the number before" % (
                each / before[0],
                run.memory / before[1],
            )
            print("2^%d paths: %.3f s, %.1f microseconds a path, %.1f MB%s" % (length, seconds, each * 1e6, run.memory / 1e6, ratio))
            before = each, run.memory


if __name__ == "__main__":
    main()
