#!/usr/bin/env python3
"""Times `check` on procedures with atomic accesses, and with cells in their place.

    bench/accesses.py [PROGRAM]

PROGRAM is a build of fslpp, the proved one without it. Three shapes: so many release stores to one location with two parts
and then as many acquire loads from it; stores and loads on 64 locations in turn; and the same on 64 cells. For each shape and
size it prints the seconds of processor time of the best of three runs, the ratio to the size before, and, for the
locations, the ratio to as many cells.
"""

import tempfile
from pathlib import Path

from timing import answers, best, program

LOCATIONS = 64

# The invariant says which value is there: a second load is then of the value that the first one has taken, and no path branches.
INVARIANT = "inv Seven() of v { v == 7 } { emp }"


def lines_of(head, statements):
    """A program of one procedure."""
    return "\n".join(head + ["proc main() {"] + statements + ["}"])


def one_location(count):
    """Release stores to one location, then acquire loads from it."""
    stores = ["  store rel(l, 7);"] * count
    loads = ["  x = load acq(l);"] * count
    return lines_of([INVARIANT], ["  let l = alloc acq Seven();", "  let x = 0;"] + stores + loads)


def in_turn(head, alloc, store, load, count):
    """Stores and loads on 64 locations or cells in turn."""
    start = ["  let l%d = alloc %s;" % (i, alloc) for i in range(LOCATIONS)] + ["  let x = 0;"]
    turns = ["  %s(l%d, 7);\n  x = %s(l%d);" % (store, i % LOCATIONS, load, i % LOCATIONS) for i in range(count)]
    return lines_of(head, start + turns)


def locations(count):
    return in_turn([INVARIANT], "acq Seven()", "store rel", "load acq", count)


def cells(count):
    return in_turn([], "na", "store na", "load na", count)


def timed(shape, sizes, path):
    """The seconds of each size, printed."""
    took = []
    for count in sizes:
        path.write_text(shape(count))
        run = best(3, answers(b"accepted 1\n"), program(), "check", path)
        ratio = "" if not took else "  %.2f times the size before" % (run.seconds / took[-1])
        print("%-12s %4d: %.3f s, %.1f MB%s" % (shape.__name__, count, run.seconds, run.memory / 1e6, ratio))
        took.append(run.seconds)
    return took


def main():
    with tempfile.TemporaryDirectory() as folder:
        path = Path(folder) / "program.fsl"
        timed(one_location, (50, 100, 200), path)
        on_locations = timed(locations, (100, 200, 400), path)
        on_cells = timed(cells, (100, 200, 400), path)
        ratios = ["%.1f" % (a / b) for a, b in zip(on_locations, on_cells)]
        print("locations against cells: %s times" % ", ".join(ratios))


if __name__ == "__main__":
    main()
