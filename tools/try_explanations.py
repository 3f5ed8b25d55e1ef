#!/usr/bin/env python3
"""Pipes `explain` into `verify` over generated documents and filters, and changes bytes of the proofs.

    tools/try_explanations.py [--cases N] [--changes N] [--whole N] [--seed N] [--binary FILE]

Each case is a random document and a random filter. `explain` has to write the answer of `match` and
a proof, and `verify` that answer for the proof, with the status of the answer. Then single bytes of
the proof are changed, one a run: --changes of them in each case, and in the shortest --whole proofs
every byte to every other. `verify` then has to refuse the proof, by a line that begins with '! ',
or to write the same answer still. The last line is 'N passed, M failed'.
"""
import argparse
import concurrent.futures
import os
import pathlib
import random
import subprocess
import sys

from compare_xpath import random_element, random_path, to_pyx

ANSWERS = {b"yes\n": 0, b"no\n": 1}
# the bytes that proofs have, to which most changes go
OF_PROOFS = b"yntcrvabop!=0123456789 \n"


def run(binary, command, filter_text, fed):
    done = subprocess.run([binary, command, filter_text], input=fed, capture_output=True, timeout=60)
    return done.stdout, done.returncode


def random_case(rng):
    lines = []
    to_pyx(random_element(rng, 4), lines)
    filter_text = random_path(rng, 2, rng.choice(["/", "//", "//", "//", "//"]))
    return filter_text, ("\n".join(lines) + "\n").encode()


def explained(binary, case):
    """The answer and the proof of a case, and what is wrong with them, if anything."""
    filter_text, document = case
    answer, status = run(binary, "match", filter_text, document)
    text, ended = run(binary, "explain", filter_text, document)
    if answer not in ANSWERS or not text.startswith(answer) or ended != status:
        return answer, b"", "explain writes %r, status %d" % (text, ended)
    proof = text[len(answer):]
    found, ended = run(binary, "verify", filter_text, proof + b"=\n" + document)
    wrong = "" if (found, ended) == (answer, ANSWERS[answer]) else "verify writes %r, status %d" % (found, ended)
    return answer, proof, wrong


def changed(binary, case, answer, proof):
    """What is wrong with what `verify` writes for a changed proof, if anything."""
    filter_text, document = case
    found, ended = run(binary, "verify", filter_text, proof + b"=\n" + document)
    refused = found.startswith(b"! ") and found.endswith(b"\n") and ended == 1
    return "" if refused or (found, ended) == (answer, ANSWERS[answer]) else "verify writes %r, status %d" % (found, ended)


def random_changes(rng, proof, count):
    for _ in range(count if proof else 0):
        at = rng.randrange(len(proof))
        byte = rng.choice(OF_PROOFS) if rng.random() < 0.8 else rng.randrange(256)
        if byte != proof[at]:
            yield proof[:at] + bytes([byte]) + proof[at + 1:]


def all_changes(proof):
    for at in range(len(proof)):
        for byte in range(256):
            if byte != proof[at]:
                yield proof[:at] + bytes([byte]) + proof[at + 1:]


def main():
    here = pathlib.Path(__file__).resolve().parent.parent
    parser = argparse.ArgumentParser(description=__doc__, formatter_class=argparse.RawDescriptionHelpFormatter)
    parser.add_argument("--cases", type=int, default=3000)
    parser.add_argument("--changes", type=int, default=3)
    parser.add_argument("--whole", type=int, default=1)
    parser.add_argument("--seed", type=int, default=19991116)
    parser.add_argument("--binary", default=str(here / "crates" / "xpush" / "out" / "xpush"))
    options = parser.parse_args()
    rng, passed, failed, said_yes = random.Random(options.seed), 0, 0, 0
    cases = [random_case(rng) for _ in range(options.cases)]
    with concurrent.futures.ThreadPoolExecutor(os.cpu_count()) as pool:
        found = list(pool.map(lambda case: explained(options.binary, case), cases))
        changes = [(case, answer, other) for case, (answer, proof, wrong) in zip(cases, found) if not wrong
                   for other in random_changes(rng, proof, options.changes)]
        several = [(len(proof), i) for i, (_, proof, wrong) in enumerate(found) if not wrong and proof.count(b"\n") > 2]
        changes += [(cases[i], found[i][0], other) for _, i in sorted(several)[:options.whole] for other in all_changes(found[i][1])]
        refusals = list(pool.map(lambda change: changed(options.binary, *change), changes))
    for case, proof, wrong in ([(case, proof, wrong) for case, (_, proof, wrong) in zip(cases, found)]
                               + [(case, proof, wrong) for (case, _, proof), wrong in zip(changes, refusals)]):
        if wrong:
            failed += 1
            print("%s: %s\nproof %r\ndocument %r" % (case[0], wrong, proof, case[1]))
        else:
            passed += 1
    said_yes = sum(answer == b"yes\n" for answer, _, _ in found)
    print("try_explanations: %d of %d filters matched, %d proofs were changed" % (said_yes, options.cases, len(changes)))
    print("%d passed, %d failed" % (passed, failed))
    return 1 if failed or not passed else 0


if __name__ == "__main__":
    sys.exit(main())
