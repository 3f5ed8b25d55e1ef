#!/usr/bin/env python3
"""Times xpush serial where filters change between documents, beside the same documents without changes.

    bench/change_throughput.py [--binary FILE] [--beside FILE] [--documents N] [--filters N ..] [--every N] [--seed N] [--runs N] [--instructions]

The filters and the documents are those of 'xpush make'. One feed has them alone; another has, before
every sixteenth document (--every), one drop of a filter that is live and one add of another. Both
rates are those behind the time for the filters alone. What a change costs is given in documents: the
seconds that the changes took more, by their number, as a multiple of the seconds of a document
without changes. The runs of the three feeds take turns, and the best of each counts. --beside names
another xpush, as an older build, of which the rate with changes is given too, if its lines are the
same. Beside other load the ratio of one run may be a third off. --instructions counts instructions by
valgrind in place of seconds: that takes much longer, and gives nearly the same each time.
"""
import argparse
import pathlib
import random
import re
import subprocess
import sys
import tempfile

from serial_throughput import items_of, served


def made(binary, folder, seed, filters, documents):
    """The texts of the filters of a generated feed, and the text of each of its documents."""
    path = folder / "made"
    with open(path, "wb") as sink:
        subprocess.run([binary, "make", "--seed", str(seed), "--filters", str(filters), "--documents", str(documents)], stdout=sink, check=True)
    texts, bodies = [], []
    for kind, item in items_of(path):
        if kind == "+":
            texts.append(item)
        elif kind == "(":
            bodies.append("\n".join(item) + "\n")
    return texts, bodies


def write_feeds(options, folder, filters):
    """Writes the feed of the filters alone, that with the documents, and that with changes too; says how many changes it has."""
    binary, rng = options.binary, random.Random(options.seed)
    texts, bodies = made(binary, folder, options.seed, filters, options.documents)
    more, _ = made(binary, folder, options.seed + 1, min(50_000, options.documents // options.every + 1), 0)
    live, version, changes = list(range(1, filters + 1)), filters, 0
    adds = "".join("+%s\n" % text for text in texts)
    (folder / "alone").write_text(adds)
    (folder / "same").write_text(adds + "".join(bodies))
    with open(folder / "changing", "w") as feed:
        feed.write(adds)
        for number, body in enumerate(bodies):
            if number % options.every == options.every - 1:
                at = rng.randrange(len(live))
                feed.write("~%d\n+%s\n" % (live[at], more[(changes // 2) % len(more)]))
                version += 2
                live[at] = version
                changes += 2
            feed.write(body)
    return changes


def best_times(runs, binary, folder, feeds):
    """The least seconds of each feed, of runs that take turns, and the most memory of any in MiB."""
    seconds, memory = {feed: [] for feed in feeds}, 0.0
    for _ in range(runs):
        for feed in feeds:
            spent, most = served([binary, "serial"], folder / feed, folder / ("answer-" + feed))
            seconds[feed].append(spent)
            memory = max(memory, most)
    return {feed: min(spent) for feed, spent in seconds.items()}, memory


def counted(binary, feed):
    """How many instructions a run over a feed takes."""
    words = ["valgrind", "--tool=cachegrind", "--cache-sim=no", "--cachegrind-out-file=/dev/null", binary, "serial"]
    with open(feed, "rb") as source:
        done = subprocess.run(words, stdin=source, stdout=subprocess.DEVNULL, stderr=subprocess.PIPE, text=True)
    found = re.search(r"I\s+refs:\s+([\d,]+)", done.stderr)
    if found is None:
        sys.exit("valgrind counted nothing:\n" + done.stderr[-600:])
    return int(found.group(1).replace(",", ""))


def counted_row(options, folder, filters, changes):
    alone, same, changing = (counted(options.binary, folder / feed) for feed in ("alone", "same", "changing"))
    print("%6d filters: %5.3f million instructions a document with %d changes, %5.3f without, which is %4.2f of it; a change costs %5.2f documents"
          % (filters, (changing - alone) / options.documents / 1e6, changes, (same - alone) / options.documents / 1e6,
             (same - alone) / (changing - alone), (changing - same) / changes / ((same - alone) / options.documents)))
    return True


def row(options, folder, filters):
    changes = write_feeds(options, folder, filters)
    if options.instructions:
        return counted_row(options, folder, filters, changes)
    times, memory = best_times(options.runs, options.binary, folder, ["alone", "same", "changing"])
    same = max(times["same"] - times["alone"], 1e-9)
    changing = max(times["changing"] - times["alone"], 1e-9)
    rate = options.documents / changing
    print("%6d filters: %10.0f documents/s with %d changes, %10.0f without: %4.2f of it; a change costs %5.2f documents; %6.1f MiB"
          % (filters, rate, changes, options.documents / same, same / changing, (changing - same) / changes / (same / options.documents), memory))
    if options.beside:
        answer = (folder / "answer-changing").read_bytes()
        others, _ = best_times(1, options.beside, folder, ["alone", "changing"])
        other = options.documents / max(others["changing"] - others["alone"], 1e-9)
        is_same = (folder / "answer-changing").read_bytes() == answer
        print("               beside  %10.0f documents/s with changes: xpush is %6.2f times as fast; lines %s"
              % (other, rate / other, "are the same" if is_same else "DIFFER"))
        return is_same
    return True


def main():
    here = pathlib.Path(__file__).resolve().parent.parent
    parser = argparse.ArgumentParser(description=__doc__, formatter_class=argparse.RawDescriptionHelpFormatter)
    parser.add_argument("--binary", default=str(here / "crates" / "xpush" / "out" / "xpush"))
    parser.add_argument("--beside", help="another xpush")
    parser.add_argument("--seed", type=int, default=7)
    parser.add_argument("--documents", type=int, default=20_000)
    parser.add_argument("--filters", type=int, nargs="*", default=[100, 1_000, 10_000, 50_000])
    parser.add_argument("--every", type=int, default=16, help="documents between two changes")
    parser.add_argument("--runs", type=int, default=3)
    parser.add_argument("--instructions", action="store_true", help="count instructions by valgrind, and time nothing")
    options = parser.parse_args()
    all_same = True
    with tempfile.TemporaryDirectory() as name:
        for filters in options.filters:
            all_same = row(options, pathlib.Path(name), filters) and all_same
    return 0 if all_same else 1


if __name__ == "__main__":
    sys.exit(main())
