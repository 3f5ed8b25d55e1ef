#!/usr/bin/env python3
"""Prints what a found step costs, beside a plain loop over as many words in the same run.

    bench/found_step.py [--runs N] [--built]

It proves and builds the tests of px_intern (with --built it takes the ones that stand), runs the
one that looks for steps in a bank that is half full, and keeps the best of several runs. A hot
step is one of those that are asked for, in a scattered order.
"""
import argparse
import pathlib
import re
import subprocess
import sys

TEST = "timing::time_of_a_found_step"
LINE = re.compile(r"found_step hot=(\d+) rounds=(\d+) finding_ns=(\d+) reading_ns=(\d+)")


def main():
    crate = pathlib.Path(__file__).resolve().parent.parent / "crates" / "px_intern"
    parser = argparse.ArgumentParser(description=__doc__, formatter_class=argparse.RawDescriptionHelpFormatter)
    parser.add_argument("--runs", type=int, default=7)
    parser.add_argument("--built", action="store_true")
    options = parser.parse_args()
    if not options.built:
        subprocess.run(["rt", "test"], cwd=crate, stdout=subprocess.DEVNULL, stderr=subprocess.DEVNULL)
    program = crate / "out" / "px_intern_tests"
    if not program.exists():
        print("the tests of px_intern are not built: run 'rt test' in %s" % crate)
        return 1
    best = {}
    for _ in range(options.runs):
        ran = subprocess.run([str(program), TEST], stdout=subprocess.PIPE, stderr=subprocess.STDOUT, text=True)
        for hot, rounds, finding, reading in (map(int, found) for found in LINE.findall(ran.stdout)):
            times = (finding / rounds, reading / rounds)
            best[hot] = tuple(map(min, best.get(hot, times), times))
    if not best:
        print("the test printed no times")
        return 1
    for hot, (finding, reading) in sorted(best.items()):
        print("%6d hot steps: %6.2f ns a found step, %6.2f ns a word of a plain loop" % (hot, finding, reading))
    return 0


if __name__ == "__main__":
    sys.exit(main())
