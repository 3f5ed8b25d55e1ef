#!/usr/bin/env python3
"""Runs the proved programs with a refused allocation, one number a run, and looks at what stands behind it.

    tools/try_refused_growths.py [--binary FILE] [--hub FILE] [--only NAME]

The runs are each command on a small input, and words in no form ('usage'). Whichever allocation is
refused, the run has to end with status 5 and a front of what it writes where none is refused, or,
where it can do without the allocation or has made its last before, with all of it and its status.
The last run is a hub once through ('hub', px_hub_trial), which makes a refused call once more and
goes on: it has to say all that it says where nothing is refused, and of the refused call that its
pass stands where it stood, or where the call takes it if that is a refresh.
Each run's numbers end behind twelve whole runs in a row. The allocation is refused by
tools/refuse_growth.c, which needs a C compiler; where there is none, nothing is tried. The last
line is 'N passed, M failed'.
"""
import argparse
import os
import pathlib
import shutil
import subprocess
import sys
import tempfile

TOP = pathlib.Path(__file__).resolve().parent.parent
FEED = b"+/a\n+/a\n(a\n)a\n~1\n(a\n)a\n~1\n"
OUTPUT = b"+1\n+2\n2: 1 2\n~1 3\n3: 2\n! drop unknown\n"
ALERTS = (TOP / "examples/alerts.feed").read_bytes()
MAKE = ["make", "--seed", "1", "--filters=2", "--documents", "2"]
# the first document of the alerts
ORDER = b"".join(ALERTS.splitlines(keepends=True)[3:11])
# for each name the words, the bytes that are read, the status of a whole run, and its text where that is known beforehand
RUNS = {
    "serial": (["serial"], FEED, 1, OUTPUT),
    "alerts": (["serial"], ALERTS, 0, None),
    "match": (["match", "/order[@id>10]/item"], (TOP / "examples/order.pyx").read_bytes(), 0, b"yes\n"),
    "show": (["show", "/a[ (b) and(c or d) ]"], b"", 0, b"/a[b and (c or d)]\n"),
    "explain": (["explain", "/order[@total>1000]"], ORDER, 0, b"yes\ny 1\ny 2\n"),
    "verify": (["verify", "/order[@total>1000]"], b"y 1\ny 2\n=\n" + ORDER, 0, b"yes\n"),
    "make": (MAKE, b"", 0, None),
    "usage": (MAKE + ["--help"], b"", 2, b""),
}
# the program of a hub, which has no words
HUB = "hub"
RUNS[HUB] = ([], b"", 0, (TOP / "crates/px_hub_trial/stdout").read_bytes())
OUT_OF_MEMORY = 5
MOST = 100_000
WHOLE_IN_A_ROW = 12


def run(binary, library, name, number):
    """The bytes that the run wrote, and its status, with this allocation refused."""
    words, fed, _, _ = RUNS[name]
    environment = dict(os.environ, LD_PRELOAD=library, REFUSED_GROWTH=str(number))
    done = subprocess.run([binary] + words, input=fed, capture_output=True, env=environment)
    return done.stdout, done.returncode


def is_made_again(text):
    """Whether each refused call of the hub stands before the same call made again, with its pass where that lets it stand."""
    lines = [line.split() for line in text.decode().splitlines()]
    for refused, again in zip(lines, lines[1:]):
        if refused[0] != "refused":
            continue
        call, stands, after = again[0], int(refused[1]), int(again[1])
        if not {"added": stands < after, "refreshed": stands <= after, "filtered": stands == after}.get(call, False):
            return False
    return True


def without_refused(text):
    """What the hub says beside the calls that were refused memory."""
    return b"".join(line for line in text.splitlines(keepends=True) if not line.startswith(b"refused "))


def tried(binary, library, name):
    """How many runs kept their promise, and how many did not."""
    _, _, ended, known = RUNS[name]
    wanted = run(binary, library, name, -1)
    if wanted[1] != ended or known not in (None, wanted[0]):
        print("%s: status %d behind %r, with nothing refused" % (name, wanted[1], wanted[0]))
        return 0, 1
    passed = failed = in_a_row = 0
    for number in range(1, MOST):
        text, status = run(binary, library, name, number)
        whole = (text, status) == wanted
        said = text
        if name == HUB and is_made_again(text):
            text = without_refused(text)
        kept = (text, status) == wanted or status == OUT_OF_MEMORY and wanted[0].startswith(text)
        if not kept:
            print("%s, allocation %d: status %d behind %r" % (name, number, status, said))
        passed, failed = passed + kept, failed + (not kept)
        in_a_row = in_a_row + 1 if whole else 0
        if in_a_row >= WHOLE_IN_A_ROW:
            break
    print("%s: %d passed, %d failed" % (name, passed, failed))
    return passed, failed


def main():
    parser = argparse.ArgumentParser(description=__doc__, formatter_class=argparse.RawDescriptionHelpFormatter)
    parser.add_argument("--binary", default=str(TOP / "crates/xpush/out/xpush"))
    parser.add_argument("--hub", default=str(TOP / "crates/px_hub_trial/out/px_hub_trial"))
    parser.add_argument("--only", choices=sorted(RUNS))
    options = parser.parse_args()
    compiler = shutil.which("cc") or shutil.which("gcc")
    if compiler is None:
        print("no C compiler: no allocation was refused")
        return 0
    with tempfile.TemporaryDirectory() as folder:
        library = os.path.join(folder, "refuse_growth.so")
        source = str(TOP / "tools/refuse_growth.c")
        subprocess.run([compiler, "-O1", "-shared", "-fPIC", "-o", library, source], check=True)
        binaries = {name: options.hub if name == HUB else options.binary for name in RUNS}
        counts = [tried(binaries[name], library, name) for name in RUNS if options.only in (None, name)]
    passed, failed = sum(count[0] for count in counts), sum(count[1] for count in counts)
    print("%d passed, %d failed" % (passed, failed))
    return 1 if failed or not passed else 0


if __name__ == "__main__":
    sys.exit(main())
