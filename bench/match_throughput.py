#!/usr/bin/env python3
"""Times the built xpush over 64 MB of PYX, beside 'wc -l' and 'xmllint --stream' on the same data.

    bench/match_throughput.py [--binary FILE] [--trial FILE] [--runs N]

Beside a plain filter stands one with ten steps '//', and 'px_trial read', which gives the events of
the same documents and nothing more: the last lines are the rates of these two, and their ratio.

A document may have 16 MB, so the 64 MB are four documents, made here from a fixed pattern and
written as PYX and as XML. Each program reads all four, one after the other; of several runs the
best counts. MB/s is of the bytes that the program reads; the ratios are of the seconds.
"""
import argparse
import pathlib
import shutil
import subprocess
import sys
import tempfile
import time

TEN_STEPS = "//order//item0//a//b//c//d//e//f//g//h"
TEN_TITLE = "xpush match, 10 //"
READ_TITLE = "px_trial read"
DOCUMENTS = 4
MOST = 16_700_000


def write_documents(folder):
    """Four orders of items, as PYX and as XML; the PYX of each has a little under 16 MB."""
    for number in range(DOCUMENTS):
        pyx, xml, size, item = ["(order\nAid %d\n" % number], ["<order id=\"%d\">" % number], 0, 0
        while size < MOST:
            name = "item%d" % (item % 7)
            lines = "(%s\nAsku A-%d\n-Pen number %d\n)%s\n" % (name, item, item, name)
            pyx.append(lines)
            xml.append("<%s sku=\"A-%d\">Pen number %d</%s>\n" % (name, item, item, name))
            size += len(lines)
            item += 1
        (folder / ("%d.pyx" % number)).write_text("".join(pyx) + ")order\n")
        (folder / ("%d.xml" % number)).write_text("".join(xml) + "</order>\n")


def seconds(command, files, by_name):
    start = time.perf_counter()
    for file in files:
        if by_name:
            subprocess.run(command + [str(file)], stdout=subprocess.DEVNULL, stderr=subprocess.DEVNULL)
        else:
            with open(file, "rb") as source:
                subprocess.run(command, stdin=source, stdout=subprocess.DEVNULL)
    return time.perf_counter() - start


def main():
    here = pathlib.Path(__file__).resolve().parent.parent
    parser = argparse.ArgumentParser(description=__doc__, formatter_class=argparse.RawDescriptionHelpFormatter)
    parser.add_argument("--binary", default=str(here / "crates" / "xpush" / "out" / "xpush"))
    parser.add_argument("--trial", default=str(here / "crates" / "px_trial" / "out" / "px_trial"))
    parser.add_argument("--runs", type=int, default=3)
    options = parser.parse_args()
    for binary in (options.binary, options.trial):
        if not pathlib.Path(binary).exists():
            print("%s is missing: 'rt ci' makes it" % binary)
            return 1
    with tempfile.TemporaryDirectory() as name:
        folder = pathlib.Path(name)
        write_documents(folder)
        pyx = [folder / ("%d.pyx" % n) for n in range(DOCUMENTS)]
        xml = [folder / ("%d.xml" % n) for n in range(DOCUMENTS)]
        rows = [
            ("xpush match", [options.binary, "match", "/order[@id<0]"], pyx, False),
            (TEN_TITLE, [options.binary, "match", TEN_STEPS], pyx, False),
            (READ_TITLE, [options.trial, "read"], pyx, False),
            ("wc -l", ["wc", "-l"], pyx, False),
        ]
        if shutil.which("xmllint"):
            rows.append(("xmllint --stream", ["xmllint", "--stream", "--noout", "--huge"], xml, True))
        else:
            print("xmllint is not installed, so it is left out")
        timed = []
        for title, command, files, by_name in rows:
            best = min(seconds(command, files, by_name) for _ in range(options.runs))
            timed.append((title, best, sum(file.stat().st_size for file in files)))
        own = timed[0][1]
        for title, best, size in timed:
            print("%-18s %8.1f MB/s   %6.2f times the seconds of xpush match" % (title, size / best / 1e6, best / own))
        rates = {title: size / best / 1e6 for title, best, size in timed}
        ten, read = rates[TEN_TITLE], rates[READ_TITLE]
        print("ten steps '//' at %.1f MB/s, reading alone at %.1f MB/s: %.2f times the seconds" % (ten, read, read / ten))
    return 0


if __name__ == "__main__":
    sys.exit(main())
