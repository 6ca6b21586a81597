#!/usr/bin/env python3
"""Times facts: 128, 256 and 512 symbols in a chain of difference bounds, added in three orders, and then each
pair of symbols asked.

    bench/facts.py [PROGRAM]

PROGRAM is crates/bench_facts as LLVM builds it, crates/bench_facts/out/bench_facts without it (`rt run` in that
folder builds it). For each order and number of symbols it prints the seconds of processor time that the bounds took,
those that the questions took, each as the best of three runs and by the bound and by the question, and the greatest
memory of a run. Questions are the time of a run with them less that of a run without.
"""

from timing import answers, best, program

SIZES = (128, 256, 512)


def took(symbols, order, what):
    """The best of three runs, which must prove all pairs in order where they are asked."""
    wanted = b"%d\n" % (symbols * (symbols + 1) // 2 if what == "ask" else 0)
    return best(3, answers(wanted), program("crates/bench_facts/out/bench_facts"), symbols, order, what)


def main():
    for order in ("up", "down", "mixed"):
        before = None
        for symbols in SIZES:
            add, both = took(symbols, order, "add"), took(symbols, order, "ask")
            asked = both.seconds - add.seconds
            bound, question = add.seconds / (symbols - 1), asked / symbols**2
            ratio = "" if before is None else "; by the bound %.2f, by the question %.2f times the size before" % (
                bound / before[0],
                question / before[1],
            )
            print(
                "%-5s %3d symbols: bounds %.3f s, questions %.3f s, %.1f MB%s"
                % (order, symbols, add.seconds, asked, add.memory / 1e6, ratio)
            )
            before = bound, question


if __name__ == "__main__":
    main()
