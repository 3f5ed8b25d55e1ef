#!/usr/bin/env python3
"""Looks at what the formatter leaves open, so that all crates are written in one dialect.

    tools/style.py [CRATE..]

- No line of src/ is above 100 columns, but for imports, attributes, and lines with a string that
  nothing can break.
- A function that its crate alone can call has a comment with `//`; `///` stands above what is
  public, and above types and constants. Functions of a trait, and of its impls, are public.
- The name of a must-fail edit is of small letters, digits and `_`, and each text that it takes away
  stands once in its file, as the edit before it left the file.

It writes a line FILE:LINE: CAUSE for each place, and 'N passed, M failed' last: files.
"""
import pathlib
import re
import sys

WIDTH = 100
UNBROKEN = re.compile(r'\s*((pub )?use |ghost use |#!?\[)|.*"[^"]{60,}"')
PRIVATE = re.compile(r"(const )?(unsafe )?fn \w")
ROOM = re.compile(r"(pub )?(unsafe )?(trait|impl)\b")


def indent_of(line):
    return len(line) - len(line.lstrip())


def is_of_a_trait(lines, at):
    """Whether the function of this line stands in a trait or in the impl of one."""
    for line in reversed(lines[:at]):
        if line.strip() and indent_of(line) < indent_of(lines[at]) and ROOM.match(line.strip()):
            return " for " in line or "trait " in line
    return False


def faults_of_source(lines):
    for at, line in enumerate(lines):
        if len(line) > WIDTH and not UNBROKEN.match(line):
            yield at, f"{len(line)} columns"
        if PRIVATE.match(line.strip()) and not is_of_a_trait(lines, at):
            above = at - 1
            while above >= 0 and lines[above].lstrip().startswith("#["):
                above -= 1
            if above >= 0 and lines[above].lstrip().startswith("///"):
                yield above, "/// above a function that is not public"


def faults_of_edit(file):
    if not re.fullmatch(r"[a-z0-9_]+\.edit", file.name):
        yield 0, "a name with other letters than a-z, 0-9 and _"
    texts, source, old = {}, None, None
    for at, line in enumerate(file.read_text().splitlines()):
        if line.startswith("file: "):
            source = file.parent.parent / line[6:]
            texts.setdefault(source, source.read_text())
        elif line.startswith("old: "):
            old = line[5:]
            if texts[source].count(old) != 1:
                yield at, f"the text stands {texts[source].count(old)} times in {source.name}"
        elif line.startswith("new:") and old is not None:
            texts[source] = texts[source].replace(old, line[5:], 1)
            old = None


def main():
    top = pathlib.Path(__file__).resolve().parent.parent
    passed = failed = 0
    for crate in sorted(it for it in (top / "crates").iterdir() if not sys.argv[1:] or it.name in sys.argv[1:]):
        looks = [(it, faults_of_source(it.read_text().splitlines())) for it in sorted((crate / "src").rglob("*.rt"))]
        looks += [(it, faults_of_edit(it)) for it in sorted((crate / "must-fail").glob("*.edit"))]
        for file, faults in looks:
            found = list(faults)
            for at, cause in found:
                print(f"{file.relative_to(top)}:{at + 1}: {cause}")
            passed, failed = (passed, failed + 1) if found else (passed + 1, failed)
    print(f"{passed} passed, {failed} failed")
    return 1 if failed else 0


sys.exit(main())
