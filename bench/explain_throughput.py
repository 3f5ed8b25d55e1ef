#!/usr/bin/env python3
"""Times `explain` and `verify` of the built xpush beside `match` on the same documents.

    bench/explain_throughput.py [--binary FILE] [--runs N]

The documents are orders of items, made here from a fixed pattern, of 4, 8 and 16 MB. Each filter has
a step '//' and two comparisons; it is met by the last item alone, or by none and by one bracket and
step round the comparisons each. `explain` writes the proof, and `verify` checks it. The best of
several runs counts; printed are the seconds of each, and their ratios to those of `match`.
"""
import argparse
import pathlib
import subprocess
import sys
import time

MOST = 16_700_000
FILTERS = {
    "the last item": "//item[@sku='LAST' and count>2]",
    "around it": "/order[.//item[@sku='LAST']/count>2]//item[@sku='LAST' and count>2]",
}


def document(most):
    lines, size, item = ["(order\nAid 7\n"], 0, 0
    while size < most:
        text = "(item\nAsku A-%d\n(count\n-%d\n)count\n(name\n-Pen number %d\n)name\n)item\n" % (item, item % 9, item)
        lines.append(text)
        size += len(text)
        item += 1
    lines.append("(item\nAsku LAST\n(count\n-3\n)count\n)item\n)order\n")
    return "".join(lines).encode()


def timed(runs, binary, command, filter_text, fed):
    best, text = None, b""
    for _ in range(runs):
        start = time.perf_counter()
        text = subprocess.run([binary, command, filter_text], input=fed, capture_output=True).stdout
        spent = time.perf_counter() - start
        best = spent if best is None else min(best, spent)
    return best, text


def main():
    here = pathlib.Path(__file__).resolve().parent.parent
    parser = argparse.ArgumentParser(description=__doc__, formatter_class=argparse.RawDescriptionHelpFormatter)
    parser.add_argument("--binary", default=str(here / "crates" / "xpush" / "out" / "xpush"))
    parser.add_argument("--runs", type=int, default=3)
    options = parser.parse_args()
    if not pathlib.Path(options.binary).exists():
        print("%s is missing: 'rt ci' makes it" % options.binary)
        return 1
    for parts in (4, 2, 1):
        fed = document(MOST // parts - 1000)
        for title, filter_text in FILTERS.items():
            match, answer = timed(options.runs, options.binary, "match", filter_text, fed)
            explain, text = timed(options.runs, options.binary, "explain", filter_text, fed)
            proof = text[len(answer):]
            verify, found = timed(options.runs, options.binary, "verify", filter_text, proof + b"=\n" + fed)
            if answer != b"yes\n" or found != answer or not text.startswith(answer):
                print("%s: match writes %r, explain %r, verify %r" % (title, answer, text[:60], found))
                return 1
            print("%5.1f MB, %-13s: match %.2f s, explain %.2f s (%.1f times), verify %.2f s (%.1f times)"
                  % (len(fed) / 1e6, title, match, explain, explain / match, verify, verify / match))
    return 0


if __name__ == "__main__":
    sys.exit(main())
