#!/usr/bin/env python3
"""Checks tools/draw on a program that was worked out by hand, and that the pictures in docs/ are its own.

    tools/check_draw.py [--binary FILE]

A picture is up to date where its dot file is what tools/draw writes now, and its SVG has the names
and texts that 'dot' (graphviz) gives of that. The last line is 'N passed, M failed'.
"""
import argparse
import pathlib
import re
import subprocess
import sys

TOP = pathlib.Path(__file__).resolve().parent.parent
# the program of one filter, as the definitions give it
WORKED = "+//a[b/text()=1 and .//a[@c>2]]\n"
LISTED = """\
state 0: Value(Equal, 1)
state 1: Path(Child, Text, state 0)
state 2: Path(Child, Element b, state 1)
state 3: Value(Greater, 2)
state 4: Path(Child, Attribute c, state 3)
state 5: Path(Below, Element a, state 4)
state 6: And(2, 5)
state 7: Path(Below, Element a, state 6)
step 1 needs: 0
step 2 needs: 1
step 4 needs: 3
step 5 needs: 4
step 7 needs: 2 5
label 3: Element b
label 4: Attribute c
label 5: Element a
filter 1: state 7
"""
# equal states are one, a dropped filter has none, and a replaced one has those of its new text
SHARED = "+/a\n+/b\n+/a\n(r\n)r\n~2\n+//*[@* or not(text()='x')]\n^5 //*[not(@*)]\n"
SHARED_LISTED = """\
state 0: Path(Child, Element a, always)
state 1: Path(Child, AnyAttribute, always)
state 2: Not(1)
state 3: Path(Below, AnyElement, state 2)
step 0 needs: nothing
step 1 needs: nothing
step 3 needs: 1
label 3: Element a
filter 1: state 0
filter 3: state 0
filter 5: state 3
"""
# a picture's name, and the words for tools/draw that give it
PICTURES = {"docs/alerts": ["--version", "3", "examples/alerts.feed"]}


def drawn(binary, words, feed=None):
    done = subprocess.run([str(TOP / "tools" / "draw"), "--binary", binary, *words], input=feed, cwd=TOP, capture_output=True, text=True)
    return done.stdout, done.returncode


def names_of(svg):
    return sorted(re.findall(r"<(?:title|text)[^>]*>([^<]*)<", svg))


def main():
    parser = argparse.ArgumentParser(description=__doc__, formatter_class=argparse.RawDescriptionHelpFormatter)
    parser.add_argument("--binary", default=str(TOP / "crates" / "xpush" / "out" / "xpush"))
    binary = parser.parse_args().binary
    seen = {
        "the program that was worked out": drawn(binary, ["--list"], WORKED) == (LISTED, 0),
        "equal states and changes": drawn(binary, ["--list"], SHARED) == (SHARED_LISTED, 0),
        "an earlier version": drawn(binary, ["--list", "--version", "1"], SHARED)[0].splitlines()[-1] == "filter 1: state 0",
        "too many states": drawn(binary, [], "+" + "/a" * 101 + "\n") == ("", 1),
    }
    for name, words in PICTURES.items():
        dot = (TOP / (name + ".dot")).read_text()
        seen[name + ".dot"] = drawn(binary, words) == (dot, 0)
        made = subprocess.run(["dot", "-Tsvg"], input=dot, capture_output=True, text=True).stdout
        seen[name + ".svg"] = names_of(made) == names_of((TOP / (name + ".svg")).read_text())
    for name, is_right in seen.items():
        if not is_right:
            print("check_draw: %s: not as it has to be" % name)
    print("%d passed, %d failed" % (sum(seen.values()), len(seen) - sum(seen.values())))
    return 0 if all(seen.values()) else 1


if __name__ == "__main__":
    sys.exit(main())
