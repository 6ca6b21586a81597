#!/usr/bin/env python3
"""Times units of work on 1, 2 and 4 workers, and what one claim costs.

    bench/workers.py [PROGRAM]

PROGRAM is the built crate bench_workers; without it the one that `rt run` leaves in the crate's folder. It prints
the seconds of 1000 units of real work on 1, 2 and 4 workers, as ratios to one worker and to as many processes
that share nothing and divide the units among them; and the nanoseconds of a claim alone, of the smallest procedure
with its claim, and their ratio. Every figure is the best of five runs, less the best of a run without units.
The ratio to processes tells what sharing costs also on a machine that does other work beside.
"""

import os
import subprocess
import time

import timing

UNITS = 1000
PAIRS = 2000
MANY = 1_000_000
WORKERS = (1, 2, 4)
RUNS = 5


def started(program, work, units, workers):
    return subprocess.Popen([program, str(work), str(units), str(workers)], stdout=subprocess.PIPE)


def run(program, work, units, workers, processes=1):
    """Seconds until all processes have ended, each of which must accept its share of the units."""
    start = time.perf_counter()
    running = [started(program, work, units // processes, workers) for _ in range(processes)]
    outs = [process.communicate()[0] for process in running]
    seconds = time.perf_counter() - start
    want = b"%d units on %d workers: accepted %d\n" % (units // processes, workers, units // processes)
    if any(out != want for out in outs):
        timing.refuse(b"".join(outs))
    return seconds


def best(program, work, units, workers, processes=1):
    start = min(run(program, work, 0, workers, processes) for _ in range(RUNS))
    return min(run(program, work, units, workers, processes) for _ in range(RUNS)) - start


def main():
    program = timing.program("crates/bench_workers/out/bench_workers")
    print("%d processors, %.1f processes at work before" % (os.cpu_count(), os.getloadavg()[0]))
    alone = None
    for workers in WORKERS:
        together = best(program, PAIRS, UNITS, workers)
        apart = best(program, PAIRS, UNITS, 1, workers)
        alone = together if alone is None else alone
        print("%d workers: %.3f s, %.2f times as fast as one, %.2f times as fast as %d processes" % (workers, together, alone / together, apart / together, workers))
    for workers in WORKERS:
        claim = best(program, "claims", MANY, workers) / MANY
        smallest = best(program, 0, MANY, workers) / MANY
        print("%d workers: a claim %.0f ns, the smallest procedure with its claim %.0f ns, %.0f %% of it the claim" % (workers, claim * 1e9, smallest * 1e9, 100 * claim / smallest))


if __name__ == "__main__":
    main()
