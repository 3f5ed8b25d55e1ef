#!/usr/bin/env python3
"""Lists lemmas and definitions that nothing names.

    tools/unused_lemmas.py [CRATE..]

A lemma of proofs/ or a definition of specs/ is used where a text of any crate names it outside its
own equations and outside import lines. Worked rows (files ...Rows.antt), answers of goals and
operators are left out: the first are there to be checked, the second are named by the prover.

It writes a line FILE:LINE: NAME for each that nothing names, and 'N passed, M failed' last.
"""
import collections
import pathlib
import re
import sys

HEAD = re.compile(r"(?:(?:abbrev|unfoldable|record|data|inductive|instance) )?(?:pub )?(?:(?:abbrev|unfoldable|record|data) )?([^\s(){}\[\],:]+)(?=[ :])")
WORD = re.compile(r"[^\s(){}\[\],;.:]+")
OF_GOALS = ("Answers.antt", "Invariants.antt", "Proof.antt", "Send.antt", "Sync.antt")


def blocks(text):
    """The pieces of a file that begin at the left margin, each with its line and what is indented behind it."""
    piece, at = [], 1
    for number, line in enumerate(text.splitlines(), 1):
        if line and not line[0].isspace() and line[0] not in ")}]":
            if piece:
                yield at, piece
            piece, at = [], number
        piece.append(line.split("--", 1)[0] if line.lstrip().startswith("--") else line)
    if piece:
        yield at, piece


def head_of(block):
    """The name that a block declares or goes on with, or None for imports and remarks."""
    first = block[0]
    if not first.strip() or re.match(r"(pub )?(use|mod) ", first):
        return None
    found = HEAD.match(first)
    return found[1] if found else None


def is_import(block):
    return re.match(r"(pub )?(use|mod) ", block[0]) is not None


def read(files):
    declared, named = collections.OrderedDict(), collections.defaultdict(set)
    for file in files:
        text = file.read_text()
        if file.suffix == ".rt":
            for word in WORD.findall(text):
                named[word].add((file, None))
            continue
        for at, block in blocks(text):
            if is_import(block):
                continue
            name = head_of(block)
            if name and " : " in block[0] and file.name not in OF_GOALS:
                declared.setdefault((file, name), at)
            for word in WORD.findall("\n".join(block)):
                named[word].add((file, name))
    return declared, named


def main():
    top = pathlib.Path(__file__).resolve().parent.parent
    crates = top / "crates"
    files = [it for part in ("src", "specs", "proofs") for it in sorted(crates.glob(f"*/{part}/**/*")) if it.suffix in (".rt", ".antt")]
    declared, named = read(files)
    asked = [it for it in declared if not sys.argv[1:] or it[0].relative_to(crates).parts[0] in sys.argv[1:]]
    asked = [it for it in asked if not it[0].stem.endswith("Rows") and "◌" not in it[1]]
    unused = [it for it in asked if not named[it[1]] - {it}]
    for file, name in unused:
        print(f"{file.relative_to(top)}:{declared[file, name]}: {name}")
    print(f"{len(asked) - len(unused)} passed, {len(unused)} failed")
    return 1 if unused else 0


if __name__ == "__main__":
    sys.exit(main())
