#!/usr/bin/env python3
"""Times 65536 messages, each put and read back, over 1, 32 and 1024 locations.

    bench/memory.py [PROGRAM]

PROGRAM is the built crate bench_memory; without it the one that `rt run` leaves in the crate's folder. For each
number of locations it prints the seconds of processor time of the best of three runs, less those of a run without
messages, the ratio to the line before, and the nanoseconds of one put and read for each message that its location
holds on average.
"""

from timing import answers, best, program

MESSAGES = 65536
LOCATIONS = (1, 32, 1024)


def seconds(locations, messages):
    """Seconds of the best of three runs, which must read one source for each message."""
    wanted = b"%d messages at %d locations, %d sources read\n" % (messages, locations, messages)
    return best(3, answers(wanted), program("crates/bench_memory/out/bench_memory"), locations, messages).seconds


def main():
    start = seconds(1, 0)
    before = None
    for locations in LOCATIONS:
        took = seconds(locations, MESSAGES) - start
        average = MESSAGES / locations / 2
        ratio = "" if before is None else "  1/%.1f of the line before" % (before / took)
        print("%4d locations: %.3f s, %.2f ns a message there%s" % (locations, took, took / MESSAGES / average * 1e9, ratio))
        before = took


if __name__ == "__main__":
    main()
