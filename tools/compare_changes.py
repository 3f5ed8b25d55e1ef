#!/usr/bin/env python3
"""Compares `serial` with the plain evaluator over feeds in which filters change between documents.

    tools/compare_changes.py [--feeds N] [--items N] [--filters N] [--documents N] [--seed N] [--binary FILE]

So many random filters and so many random documents are drawn, and `explain`, which asks the plain
evaluator and no machine, says of each filter whether each document matches it. A feed is then made
of these alone: adds, drops, replacements and documents in random order, some feeds behind thousands
of adds, with changes of one id behind one another and with changes that are refused. What stands in
the table of the plain evaluator, and which filters are live, gives each line of the answer. A case is
one line of `serial`; it fails where it is another.

The last line is 'N passed, M failed'.
"""
import argparse
import concurrent.futures
import os
import pathlib
import random
import subprocess
import sys

from compare_machine import random_filter
from compare_xpath import random_element, to_pyx

# what a feed is made of: filters that are added first, and how often an add, a drop, a replacement, a
# change that is refused and a document come behind them
SHAPES = [
    (0, (4, 2, 2, 1, 4)),
    (20, (1, 1, 1, 1, 8)),
    (200, (1, 2, 1, 0, 2)),
    (500, (2, 2, 6, 1, 4)),
    (3000, (1, 1, 1, 0, 6)),
    (3000, (1, 8, 1, 0, 2)),
]


def random_documents(rng, many):
    documents = []
    for _ in range(many):
        lines = []
        to_pyx(random_element(rng, 4), lines)
        documents.append("\n".join(lines) + "\n")
    return documents


def explained(binary, filter_text, document):
    """Whether the plain evaluator finds that the document matches, or None where it says nothing."""
    done = subprocess.run([binary, "explain", filter_text], input=document.encode(), capture_output=True, timeout=60)
    return {b"yes": True, b"no": False}.get(done.stdout.split(b"\n")[0])


def table_of(binary, filters, documents):
    """For each document the numbers of the filters that it matches, by the plain evaluator."""
    pairs = [(filter_text, document) for document in documents for filter_text in filters]
    with concurrent.futures.ThreadPoolExecutor(os.cpu_count()) as pool:
        found = list(pool.map(lambda pair: explained(binary, *pair), pairs))
    if None in found:
        sys.exit("compare_changes: explain has no answer for %r" % (pairs[found.index(None)],))
    rows = [found[at:at + len(filters)] for at in range(0, len(found), len(filters))]
    return [{number for number, holds in enumerate(row) if holds} for row in rows]


class Feed:
    """A feed in the making, and the lines that answer it."""

    def __init__(self, rng, filters, documents, table):
        self.rng, self.filters, self.documents, self.table = rng, filters, documents, table
        self.lines, self.answers, self.live, self.ids, self.version, self.last = [], [], {}, [], 0, None

    def add(self):
        number = self.rng.randrange(len(self.filters))
        self.version += 1
        self.live[self.version] = number
        self.ids.append(self.version)
        self.last = self.version
        self.lines.append("+" + self.filters[number])
        self.answers.append("+%d" % self.version)

    def some_id(self):
        """A live id, often that of the last change."""
        if self.last in self.live and self.rng.random() < 0.3:
            return self.last
        at = self.rng.randrange(len(self.ids))
        while self.ids[at] not in self.live:
            self.ids[at] = self.ids[-1]
            self.ids.pop()
            at = self.rng.randrange(len(self.ids))
        return self.ids[at]

    def drop(self):
        if not self.live:
            return
        self.last = self.some_id()
        del self.live[self.last]
        self.version += 1
        self.lines.append("~%d" % self.last)
        self.answers.append("~%d %d" % (self.last, self.version))

    def replace(self):
        if not self.live:
            return
        self.last = self.some_id()
        self.live[self.last] = self.rng.randrange(len(self.filters))
        self.version += 1
        self.lines.append("^%d %s" % (self.last, self.filters[self.live[self.last]]))
        self.answers.append("^%d %d" % (self.last, self.version))

    def refused(self):
        dead = self.version + 1 if self.last is None or self.last in self.live else self.last
        line, answer = self.rng.choice([
            ("~%d" % dead, "! drop unknown"),
            ("^%d /a" % dead, "! replace unknown"),
            ("+/", "! filter not-a-filter 1"),
        ])
        self.lines.append(line)
        self.answers.append(answer)

    def document(self):
        at = self.rng.randrange(len(self.documents))
        matching = self.table[at]
        ids = sorted(id for id, number in self.live.items() if number in matching)
        self.lines.append(self.documents[at].rstrip("\n"))
        self.answers.append("%d:%s" % (self.version, "".join(" %d" % id for id in ids)))

    def fill(self, first, weights, items):
        for _ in range(first):
            self.add()
        for _ in range(items):
            self.rng.choices([self.add, self.drop, self.replace, self.refused, self.document], weights)[0]()
        self.document()


def compared(binary, feed, name):
    """How many lines of a feed are answered as they have to be, and how many are not."""
    given = "\n".join(feed.lines) + "\n"
    done = subprocess.run([binary, "serial"], input=given.encode(), capture_output=True, timeout=600)
    found = done.stdout.decode(errors="replace").split("\n")[:-1]
    right = sum(1 for line, answer in zip(found, feed.answers) if line == answer)
    status = 1 if any(answer.startswith("! ") for answer in feed.answers) else 0
    wrong = max(len(found), len(feed.answers)) - right + (done.returncode != status)
    if wrong:
        path = pathlib.Path("/tmp") / ("compare_changes-%s.feed" % name)
        path.write_text(given)
        first = next((at for at, pair in enumerate(zip(found, feed.answers)) if pair[0] != pair[1]), len(found))
        print("feed %s: line %d of the answer, and %d in all, differ; status %d; it is kept as %s" % (name, first + 1, wrong, done.returncode, path))
    return right, wrong


def main():
    here = pathlib.Path(__file__).resolve().parent.parent
    parser = argparse.ArgumentParser(description=__doc__, formatter_class=argparse.RawDescriptionHelpFormatter)
    parser.add_argument("--feeds", type=int, default=12)
    parser.add_argument("--items", type=int, default=2000, help="items of a feed, behind the adds that it begins with")
    parser.add_argument("--filters", type=int, default=120, help="filters that are drawn")
    parser.add_argument("--documents", type=int, default=40, help="documents that are drawn")
    parser.add_argument("--seed", type=int, default=20030609)
    parser.add_argument("--binary", default=str(here / "crates" / "xpush" / "out" / "xpush"))
    options = parser.parse_args()
    rng = random.Random(options.seed)
    filters = [random_filter(rng) for _ in range(options.filters)]
    documents = random_documents(rng, options.documents)
    table = table_of(options.binary, filters, documents)
    passed, failed, changes, listed = 0, 0, 0, 0
    for turn in range(options.feeds):
        feed = Feed(rng, filters, documents, table)
        feed.fill(*SHAPES[turn % len(SHAPES)], options.items)
        right, wrong = compared(options.binary, feed, turn + 1)
        passed, failed, changes = passed + right, failed + wrong, changes + feed.version
        listed += sum(answer.count(" ") for answer in feed.answers if ":" in answer)
    print("compare_changes: %d changes and %d ids in %d feeds" % (changes, listed, options.feeds))
    print("%d passed, %d failed" % (passed, failed))
    return 1 if failed or not listed else 0


if __name__ == "__main__":
    sys.exit(main())
