#!/usr/bin/env python3
"""Times 'make' of the built xpush at growing sizes.

    bench/make_throughput.py [--binary FILE] [--runs N]

Each size is a run of its own, and of several runs the best counts. MB/s is of the bytes that are
written. 'make' takes time in proportion to its feed, so MB/s stays about the same from the size
on at which the start of the program no longer counts.
"""
import argparse
import pathlib
import subprocess
import sys
import time

SEED = 7
SIZES = [(500, 1_000), (5_000, 10_000), (12_500, 25_000), (25_000, 50_000), (50_000, 100_000)]


def run(binary, filters, documents):
    """The seconds of a run, and how many bytes it wrote."""
    words = [binary, "make", "--seed", str(SEED), "--filters", str(filters), "--documents", str(documents)]
    start = time.perf_counter()
    done = subprocess.run(words, stdout=subprocess.PIPE, check=True)
    return time.perf_counter() - start, len(done.stdout)


def main():
    here = pathlib.Path(__file__).resolve().parent.parent
    parser = argparse.ArgumentParser(description=__doc__, formatter_class=argparse.RawDescriptionHelpFormatter)
    parser.add_argument("--binary", default=str(here / "crates" / "xpush" / "out" / "xpush"))
    parser.add_argument("--runs", type=int, default=5)
    options = parser.parse_args()
    print("%8s %10s %9s %9s %8s" % ("filters", "documents", "bytes", "seconds", "MB/s"))
    for filters, documents in SIZES:
        best, size = min(run(options.binary, filters, documents) for _ in range(options.runs))
        print("%8d %10d %9d %9.4f %8.1f" % (filters, documents, size, best, size / best / 1e6))
    return 0


if __name__ == "__main__":
    sys.exit(main())
