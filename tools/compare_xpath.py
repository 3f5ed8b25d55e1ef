#!/usr/bin/env python3
"""Compares xpush with libxml2's XPath on generated documents and filters.

    tools/compare_xpath.py [--cases N] [--seed N] [--binary FILE]

Each case is a random document, written as XML for libxml2 (python3-lxml) and as PYX for xpush, and
a random filter of the fragment. The two must agree on whether the filter selects anything. The
cases keep to what both define alike: names without colons, numbers that doubles hold exactly,
and no text that libxml2 takes for a number and XPath 1.0 does not (as '-', or one with an
exponent).

The last line is 'N passed, M failed'. Where lxml is missing, nothing is compared and that is said.
"""
import argparse
import os
import pathlib
import random
import subprocess
import sys
from xml.sax.saxutils import escape, quoteattr

DEBIAN_PYTHON = "/usr/bin/python3"
NAMES = ["a", "b", "c", "and", "or", "not", "text", "div", "x-1", "_", "caf\u00e9"]
ATTRIBUTES = ["id", "x", "and", "or", "y.z"]
TEXTS = ["1", " 2 ", "3.5", "-0", "0", "12", "007", "1.50", ".5", "5.", "-7", "abc", "x y", "+1", "1 2", "--1", ".",
         "it's", 'say "no"', "back\\slash", "\u00e9", "\n", "\t3\n"]
NUMBERS = ["0", "1", "2", "12", "0.5", ".5", "5.", "-7", "- 1", "3.50", "007", "1000000"]
RELATIONS = ["=", "!=", "<", "<=", ">", ">="]


class Words:
    """What the tests and comparisons of a random filter are drawn from; what stands there twice comes twice as often.
    Without numbers nothing is compared with one."""

    def __init__(self, elements, attributes, texts, numbers):
        self.elements, self.attributes, self.texts, self.numbers = elements, attributes, texts, numbers


WORDS = Words(NAMES[:3] * 8 + NAMES + ["*"] * 12, ATTRIBUTES + ["*"], TEXTS + [""], NUMBERS)


class Element:
    def __init__(self, name):
        self.name, self.attributes, self.children = name, [], []


def random_element(rng, depth):
    element = Element(rng.choice(NAMES[:3] if rng.random() < 0.85 else NAMES))
    for name in rng.sample(ATTRIBUTES, rng.choice([0, 0, 1, 1, 2])):
        element.attributes.append((name, rng.choice(TEXTS + [""])))
    for _ in range(rng.choice([0, 1, 1, 2, 3]) if depth > 0 else 0):
        kind = rng.random()
        if kind < 0.6:
            element.children.append(random_element(rng, depth - 1))
        elif kind < 0.93:
            element.children.append(rng.choice(TEXTS))
        else:
            element.children.append(None)  # a processing instruction
    if depth == 0 and rng.random() < 0.7:
        element.children.append(rng.choice(TEXTS))
    return element


def to_xml(element):
    # a line feed or a tab in an attribute is written as a reference, which keeps it
    attributes = "".join(
        " %s=%s" % (name, quoteattr(value, {"\n": "&#10;", "\t": "&#9;"})) for name, value in element.attributes)
    inner = "".join(
        to_xml(child) if isinstance(child, Element) else "<?p?>" if child is None else escape(child)
        for child in element.children)
    return "<%s%s>%s</%s>" % (element.name, attributes, inner, element.name)


def escaped(text):
    return text.replace("\\", "\\\\").replace("\n", "\\n").replace("\t", "\\t")


def to_pyx(element, lines):
    lines.append("(" + element.name)
    lines.extend("A%s %s" % (name, escaped(value)) for name, value in element.attributes)
    for child in element.children:
        if isinstance(child, Element):
            to_pyx(child, lines)
        else:
            lines.append("?p" if child is None else "-" + escaped(child))
    lines.append(")" + element.name)


def literal(rng, words):
    text = rng.choice(words.texts)
    return '"%s"' % text if '"' not in text else "'%s'" % text


def blank(rng):
    return rng.choice(["", "", "", " ", "\n"])


def random_path(rng, depth, first, words=WORDS):
    steps, count = [], rng.choice([1, 1, 2, 2, 3])
    for i in range(count):
        last = i == count - 1
        kind = rng.random()
        if last and kind < 0.2:
            steps.append("@" + rng.choice(words.attributes))
        elif last and kind < 0.35:
            steps.append("text()")
        else:
            test = rng.choice(words.elements)
            predicates = "".join(
                "[" + blank(rng) + random_condition(rng, depth - 1, words) + blank(rng) + "]"
                for _ in range(rng.choice([0, 0, 0, 1, 1, 2]) if depth > 0 else 0))
            steps.append(test + predicates)
    text = steps[0]
    for step in steps[1:]:
        text += rng.choice(["/", "//"]) + step
    return first + text


def random_condition(rng, depth, words=WORDS):
    kind = rng.random()
    if depth > 0 and kind < 0.15:
        return " and ".join(random_condition(rng, depth - 1, words) for _ in range(rng.choice([2, 3])))
    if depth > 0 and kind < 0.3:
        return " or ".join(random_condition(rng, depth - 1, words) for _ in range(rng.choice([2, 3])))
    if depth > 0 and kind < 0.4:
        return "not(" + random_condition(rng, depth - 1, words) + ")"
    if depth > 0 and kind < 0.5:
        return "(" + random_condition(rng, depth - 1, words) + ")"
    path = random_path(rng, depth, rng.choice(["", "", "./", ".//"]), words)
    if rng.random() < 0.4:
        return path
    if rng.random() < 0.4 or not words.numbers:
        return path + blank(rng) + rng.choice(["=", "!="]) + blank(rng) + literal(rng, words)
    return path + blank(rng) + rng.choice(RELATIONS) + blank(rng) + rng.choice(words.numbers)


def xpush_says(binary, filter_text, pyx):
    done = subprocess.run([binary, "match", filter_text], input=pyx, capture_output=True, timeout=60)
    return {b"yes\n": True, b"no\n": False}.get(done.stdout, done.stdout.decode(errors="replace").strip() or "nothing")


def main():
    here = pathlib.Path(__file__).resolve().parent.parent
    parser = argparse.ArgumentParser(description=__doc__, formatter_class=argparse.RawDescriptionHelpFormatter)
    parser.add_argument("--cases", type=int, default=400)
    parser.add_argument("--seed", type=int, default=20030609)
    parser.add_argument("--binary", default=str(here / "crates" / "xpush" / "out" / "xpush"))
    options = parser.parse_args()
    try:
        from lxml import etree
    except ImportError:
        # Debian's package serves Debian's own Python
        if os.path.exists(DEBIAN_PYTHON) and not os.path.samefile(sys.executable, DEBIAN_PYTHON):
            os.execv(DEBIAN_PYTHON, [DEBIAN_PYTHON] + sys.argv)
        print("compare_xpath: python3-lxml is not installed, so nothing is compared")
        return 0
    rng, passed, failed, said_yes = random.Random(options.seed), 0, 0, 0
    for case in range(options.cases):
        element = random_element(rng, 4)
        filter_text = random_path(rng, 2, rng.choice(["/", "//", "//", "//", "//"]))
        lines = []
        to_pyx(element, lines)
        tree = etree.fromstring(to_xml(element).encode()).getroottree()
        wanted = bool(tree.xpath(filter_text))
        found = xpush_says(options.binary, filter_text, ("\n".join(lines) + "\n").encode())
        said_yes += wanted
        if found == wanted and isinstance(found, bool):
            passed += 1
        else:
            failed += 1
            print("case %d: libxml2 says %s, xpush says %s: %s\n%s" % (case, wanted, found, filter_text, to_xml(element)))
    print("compare_xpath: %d of %d filters matched" % (said_yes, options.cases))
    print("%d passed, %d failed" % (passed, failed))
    return 1 if failed else 0


if __name__ == "__main__":
    sys.exit(main())
