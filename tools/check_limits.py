#!/usr/bin/env python3
"""Runs xpush serial on the longest history that there can be, and compares every line.

    tools/check_limits.py [--binary FILE]

The feed adds a filter and drops it again until 1,048,575 changes are made, and then asks for one
more of each kind. The last line is 'N passed, M failed'.
"""
import argparse
import pathlib
import subprocess
import sys

CHANGES = 1_048_575


def longest_history():
    """The lines of the feed, and those of its answer."""
    feed, answer = [], []
    for version in range(1, CHANGES, 2):
        feed += ["+/a", "~%d" % version]
        answer += ["+%d" % version, "~%d %d" % (version, version + 1)]
    feed += ["+/a", "~%d" % CHANGES, "+/b", "^%d /b" % CHANGES, "(a", ")a"]
    answer += ["+%d" % CHANGES, "! drop no-versions", "! add no-versions", "! replace no-versions"]
    answer += ["%d: %d" % (CHANGES, CHANGES)]
    return feed, answer


def main():
    here = pathlib.Path(__file__).resolve().parent.parent
    parser = argparse.ArgumentParser(description=__doc__, formatter_class=argparse.RawDescriptionHelpFormatter)
    parser.add_argument("--binary", default=str(here / "crates" / "xpush" / "out" / "xpush"))
    binary = parser.parse_args().binary
    feed, answer = longest_history()
    done = subprocess.run([binary, "serial"], input="".join(line + "\n" for line in feed), capture_output=True, text=True)
    same = done.stdout == "".join(line + "\n" for line in answer) and done.returncode == 1
    if not same:
        print("the longest history: status %d, and lines that differ" % done.returncode)
    print("%d passed, %d failed" % (same, not same))
    return 0 if same else 1


if __name__ == "__main__":
    sys.exit(main())
