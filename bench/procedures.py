#!/usr/bin/env python3
"""Times `check` on files of 100, 200 and 400 procedures of ten statements, which use all that is covered so far.

    bench/procedures.py [PROGRAM [COUNT ..]]

PROGRAM is a build of fslpp, the proved one without it; each COUNT is a number of procedures. For each number it prints the
seconds of processor time of the best of nine runs, less those of an empty `main`, the ratio to the number before, and
the greatest memory of a run.
"""

import sys
import tempfile
from pathlib import Path

from timing import answers, best, program

COUNTS = (100, 200, 400)
PROCEDURE = """proc work%d(cell, times)
  requires (cell |-> ?before &*& 0 <= times)
  ensures (cell |-> before + times &*& result == times) {
  let start = load na(cell);
  let i = 0;
  while (i != times) inv (cell |-> start + i &*& i <= times) {
    i = i + 1;
    store na(cell, start + i);
  }
  let seen = load na(cell);
  assert (seen == start + times);
  if (i > 0) { print(seen); }
  return i;
}
"""


def took(path, count):
    """The best of nine runs on so many procedures and an empty `main`."""
    path.write_text("".join(PROCEDURE % number for number in range(count)) + "proc main() { }\n")
    return best(9, answers(b"accepted %d\n" % (count + 1)), program(), "check", path)


def main():
    with tempfile.TemporaryDirectory() as folder:
        path = Path(folder) / "program.fsl"
        start = took(path, 0).seconds
        before = None
        for count in [int(word) for word in sys.argv[2:]] or COUNTS:
            run = took(path, count)
            seconds = run.seconds - start
            ratio = "" if before is None else "  %.2f times the number before" % (seconds / before)
            print("%4d procedures: %.3f s, %.1f MB%s" % (count, seconds, run.memory / 1e6, ratio))
            before = seconds


if __name__ == "__main__":
    main()
