#!/usr/bin/env python3
"""Prints how long px_trial takes for changes and to build a program, to call each function on sets of states, and to filter a document that matches nothing.

    bench/steps.py [--binary FILE] [--runs N] [--filters N ..]

A row for each number of generated filters: the nanoseconds of one add (with a list of the live
filters after each, which takes it), of one snapshot, of one build or of one call (the mean of its
calls; the best of several runs), how many filters, states or members its answer has, and by what
factor the filters, the time and the answer grew since the row before. The last lines say what a
document that no filter matches costs under the most filters beside the fewest: about the same, since
a machine that has taken it once looks up what it remembers.
"""
import argparse
import pathlib
import re
import subprocess
import sys

LINE = re.compile(r"(\w+) (\d+) (\d+) (\d+)")

# the rows of a document that no filter matches
QUIET = ("quiet_by_runner", "quiet_by_machine")


def run(binary, filters):
    """The nanoseconds of a call and the size of its answer, by the name of what is called."""
    done = subprocess.run([binary, "times", str(filters)], stdout=subprocess.PIPE, text=True, check=True)
    return {name: (int(nanos) / int(calls), int(size)) for name, calls, nanos, size in LINE.findall(done.stdout)}


def best_of(runs):
    """The least times of several runs; the answers are the same in each."""
    return {name: (min(timed[name][0] for timed in runs), runs[0][name][1]) for name in runs[0]}


def growth(now, before):
    """By what factor a number grew, where it had a value before."""
    return "%.1f" % (now / before) if before else "-"


def print_rows(name, rows):
    print(name)
    print("  %8s %14s %10s %9s %9s %9s" % ("filters", "ns", "answer", "x filters", "x ns", "x answer"))
    before = (None, None, None)
    for filters, (nanos, size) in rows:
        grown = tuple(growth(*pair) for pair in zip((filters, nanos, size), before))
        print("  %8d %14.0f %10d %9s %9s %9s" % ((filters, nanos, size) + grown))
        before = (filters, nanos, size)


def main():
    here = pathlib.Path(__file__).resolve().parent.parent
    parser = argparse.ArgumentParser(description=__doc__, formatter_class=argparse.RawDescriptionHelpFormatter)
    parser.add_argument("--binary", default=str(here / "crates" / "px_trial" / "out" / "px_trial"))
    parser.add_argument("--runs", type=int, default=3)
    parser.add_argument("--filters", type=int, nargs="+", default=[10, 1_000, 50_000])
    options = parser.parse_args()
    if not pathlib.Path(options.binary).exists():
        print("%s is missing: 'rt ci' makes it" % options.binary)
        return 1
    rows = [(filters, best_of([run(options.binary, filters) for _ in range(options.runs)])) for filters in options.filters]
    for name in rows[0][1]:
        print_rows(name, [(filters, timed[name]) for filters, timed in rows])
    fewest, most = min(rows), max(rows)
    for name in QUIET:
        print("%s: %.2f times the nanoseconds from %d to %d filters" % (name, most[1][name][0] / fewest[1][name][0], fewest[0], most[0]))
    return 0


if __name__ == "__main__":
    sys.exit(main())
