#!/usr/bin/env python3
"""Compares the two machines with the plain evaluator on generated documents and filters.

    tools/compare_machine.py [--cases N] [--filters N] [--documents N] [--seed N] [--binary FILE]

Each feed has some random filters and then some random documents, of the kinds of compare_xpath.py.
'px_trial compare' computes the ids of each document by the machine that makes steps, by that of
'serial', and by the plain evaluator, one filter at a time. Both machines go over all filters at
once and remember what they found from one document to the next; that of 'serial' may remember so
little here that it forgets all many times in a feed. A case is one document; it fails where a
machine gives other ids than the plain evaluator.

The last line is 'N passed, M failed'.
"""
import argparse
import pathlib
import random
import re
import subprocess
import sys

from compare_xpath import random_element, random_path, to_pyx

COUNTS = re.compile(r"documents=(\d+) ids=(\d+) differences=(\d+) forgotten=(\d+)\n")


def random_filter(rng):
    # an item of a feed is one line
    text = random_path(rng, 2, rng.choice(["/", "//", "//", "//", "//"]))
    return text if "\n" not in text else random_filter(rng)


def random_feed(rng, filters, documents):
    lines = ["+" + random_filter(rng) for _ in range(filters)]
    for _ in range(documents):
        to_pyx(random_element(rng, 4), lines)
    return "\n".join(lines) + "\n"


def compared(binary, feed):
    """The documents, ids, differences and times that all was forgotten of a feed, or None where the comparison was cut short."""
    done = subprocess.run([binary, "compare"], input=feed.encode(), capture_output=True, timeout=600)
    counts = COUNTS.fullmatch(done.stdout.decode(errors="replace"))
    if counts is None or done.returncode not in (0, 1):
        print(done.stderr.decode(errors="replace").strip() or "px_trial ended with status %d" % done.returncode)
        return None
    return [int(count) for count in counts.groups()]


def main():
    here = pathlib.Path(__file__).resolve().parent.parent
    parser = argparse.ArgumentParser(description=__doc__, formatter_class=argparse.RawDescriptionHelpFormatter)
    parser.add_argument("--cases", type=int, default=20000, help="documents in all")
    parser.add_argument("--filters", type=int, nargs="*", default=[1, 3, 10, 100, 1000], help="filters of a feed, in turn")
    parser.add_argument("--documents", type=int, default=1000, help="documents of a feed")
    parser.add_argument("--seed", type=int, default=20030609)
    parser.add_argument("--binary", default=str(here / "crates" / "px_trial" / "out" / "px_trial"))
    options = parser.parse_args()
    if not pathlib.Path(options.binary).exists():
        print("compare_machine: %s is not there; 'rt ci' makes it" % options.binary)
        print("0 passed, 1 failed")
        return 1
    rng, passed, failed, all_ids, all_forgotten, turn = random.Random(options.seed), 0, 0, 0, 0, 0
    while passed + failed < options.cases:
        feed = random_feed(rng, options.filters[turn % len(options.filters)], options.documents)
        turn += 1
        counts = compared(options.binary, feed)
        documents, ids, differences, forgotten = counts or (options.documents, 0, options.documents, 0)
        # documents that were not seen are no success
        wrong = min(differences, documents) + options.documents - documents
        passed += options.documents - wrong
        failed += wrong
        all_ids += ids
        all_forgotten += forgotten
        if wrong:
            name = pathlib.Path("/tmp") / ("compare_machine-%d.feed" % turn)
            name.write_text(feed)
            print("feed %d: %d of %d documents differ; it is kept as %s" % (turn, wrong, options.documents, name))
    print("compare_machine: %d ids in %d feeds; all was forgotten %d times" % (all_ids, turn, all_forgotten))
    print("%d passed, %d failed" % (passed, failed))
    return 1 if failed or not all_ids or not all_forgotten else 0


if __name__ == "__main__":
    sys.exit(main())
