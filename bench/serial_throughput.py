#!/usr/bin/env python3
"""Times xpush serial on generated feeds, and libxml2 on the same work in the same run.

    bench/serial_throughput.py [--binary FILE] [--beside FILE] [--documents N] [--filters N ..] [--seed N] [--runs N]

Each feed is made by 'xpush make': so many filters, then so many documents, with a drop before every
sixteenth. A row has the documents per second behind the time for the filters alone (a feed of the
same filters without documents), how that changed against the row before, and the most memory.
Where python3-lxml is installed, libxml2 does the same work on the first documents (--libxml2 N of
them): expressions are compiled once, each document is parsed once, a dropped filter is not asked
again, and the ids must be those that xpush wrote. --beside names a program that takes a feed by its
path and writes the lines of 'xpush serial', as another machine or an older build behind a script: it
takes the same feeds, its lines must be the same, and xpush's documents per second are given as a
multiple of its own. A second feed of half the documents shows whether
time is linear in them.
"""
import argparse
import os
import pathlib
import resource
import subprocess
import sys
import tempfile
import time
from xml.sax.saxutils import escape, quoteattr

DEBIAN_PYTHON = "/usr/bin/python3"


def made(binary, folder, seed, filters, documents):
    path = folder / ("%d-%d.feed" % (filters, documents))
    with open(path, "wb") as sink:
        subprocess.run([binary, "make", "--seed", str(seed), "--filters", str(filters), "--documents", str(documents)], stdout=sink, check=True)
    return path


def served(words, feed, answer):
    """The seconds of one run of a program over a feed, and the most memory of it in MiB."""
    with open(feed, "rb") as source, open(answer, "wb") as sink:
        start = time.perf_counter()
        process = subprocess.Popen(words, stdin=source, stdout=sink)
        _, status, usage = os.wait4(process.pid, 0)
        seconds = time.perf_counter() - start
    if os.waitstatus_to_exitcode(status) not in (0, 1):
        sys.exit("%s ended with status %d" % (" ".join(words), os.waitstatus_to_exitcode(status)))
    return seconds, usage.ru_maxrss / 1024


def best_of(runs, words, feed, answer):
    results = [served(words, feed, answer) for _ in range(runs)]
    return min(seconds for seconds, _ in results), max(memory for _, memory in results)


def by_program(program, runs, without, feed, documents, folder):
    """Documents per second of another program, its most memory, and whether its lines are those of xpush."""
    alone, _ = best_of(runs, [program, str(without)], without, folder / "other")
    whole, memory = best_of(runs, [program, str(feed)], feed, folder / "other")
    same = (folder / "other").read_bytes() == (folder / "out").read_bytes()
    return documents / max(whole - alone, 1e-9), memory, same


def to_xml(lines):
    """A document of a generated feed as XML."""
    out, is_open = [], False
    for line in lines:
        kind, rest = line[0], line[1:]
        if kind == "A":
            name, _, value = rest.partition(" ")
            out.append(" %s=%s" % (name, quoteattr(value)))
            continue
        if is_open:
            out.append(">")
            is_open = False
        if kind == "(":
            out.append("<" + rest)
            is_open = True
        elif kind == ")":
            out.append("</%s>" % rest)
        else:
            out.append(escape(rest))
    return "".join(out)


def items_of(feed):
    """The items of a generated feed: ('+', filter), ('~', id) and ('(', lines)."""
    document = []
    with open(feed) as source:
        for line in source:
            line = line.rstrip("\n")
            if line[0] in "+~" and not document:
                yield line[0], line[1:]
                continue
            document.append(line)
            if line == ")r":
                yield "(", document
                document = []


def by_libxml2(feed, answer, most):
    """Documents per second of libxml2 on the first documents, and whether its ids are those of xpush."""
    from lxml import etree

    live, version, spent, done, same = {}, 0, 0.0, 0, True
    with open(answer) as lines:
        for (kind, item), line in zip(items_of(feed), lines):
            if kind == "+":
                version += 1
                live[version] = etree.XPath("boolean(%s)" % item)
                continue
            if kind == "~":
                version += 1
                del live[int(item)]
                continue
            if done == most:
                break
            text = to_xml(item).encode()
            start = time.perf_counter()
            root = etree.fromstring(text)
            tree = root.getroottree()
            ids = [number for number, expression in live.items() if expression(tree)]
            spent += time.perf_counter() - start
            done += 1
            same = same and line.split(":")[1].split() == [str(number) for number in ids]
    return done / spent if spent else 0.0, same


def has_lxml():
    try:
        import lxml.etree  # noqa: F401
    except ImportError:
        if os.path.exists(DEBIAN_PYTHON) and sys.executable != DEBIAN_PYTHON and not os.environ.get("XPUSH_NO_LXML"):
            os.environ["XPUSH_NO_LXML"] = "1"
            os.execv(DEBIAN_PYTHON, [DEBIAN_PYTHON] + sys.argv)
        return False
    return True


def row(options, folder, filters, before):
    binary = options.binary
    serial = [binary, "serial"]
    without = made(binary, folder, options.seed, filters, 0)
    alone, _ = best_of(options.runs, serial, without, folder / "out")
    half, _ = best_of(options.runs, serial, made(binary, folder, options.seed, filters, options.documents // 2), folder / "out")
    feed = made(binary, folder, options.seed, filters, options.documents)
    whole, memory = best_of(options.runs, serial, feed, folder / "out")
    rate = options.documents / max(whole - alone, 1e-9)
    growth = "" if before is None else "  %6.2f times the seconds a document of the row before" % (before / rate)
    linear = (whole - alone) / max(half - alone, 1e-9)
    print("%6d filters: %10.0f documents/s, %7.3f s for the filters, twice the documents take %5.2f times as long, %6.1f MiB%s"
          % (filters, rate, alone, linear, memory, growth))
    all_same = True
    if options.beside:
        other, most, same = by_program(options.beside, options.runs, without, feed, options.documents, folder)
        print("               beside  %10.0f documents/s, %6.1f MiB: xpush is %5.2f times as fast; lines %s"
              % (other, most, rate / other, "are the same" if same else "DIFFER"))
        all_same = all_same and same
    if options.libxml2:
        other, same = by_libxml2(feed, folder / "out", options.libxml2)
        print("               libxml2 %10.1f documents/s: xpush is %8.1f times as fast; ids %s" % (other, rate / other, "are the same" if same else "DIFFER"))
        all_same = all_same and same
    return rate, all_same


def main():
    here = pathlib.Path(__file__).resolve().parent.parent
    parser = argparse.ArgumentParser(description=__doc__, formatter_class=argparse.RawDescriptionHelpFormatter)
    parser.add_argument("--binary", default=str(here / "crates" / "xpush" / "out" / "xpush"))
    parser.add_argument("--beside", help="another program that takes a feed by its path")
    parser.add_argument("--seed", type=int, default=7)
    parser.add_argument("--documents", type=int, default=10_000)
    parser.add_argument("--filters", type=int, nargs="*", default=[10, 100, 1_000, 10_000, 50_000])
    parser.add_argument("--runs", type=int, default=2)
    parser.add_argument("--libxml2", type=int, default=60, help="documents that libxml2 is asked about; 0: none")
    options = parser.parse_args()
    if options.libxml2 and not has_lxml():
        print("python3-lxml is not installed, so libxml2 is left out")
        options.libxml2 = 0
    all_same, before = True, None
    with tempfile.TemporaryDirectory() as name:
        for filters in options.filters:
            before, same = row(options, pathlib.Path(name), filters, before)
            all_same = all_same and same
    print("peak memory of this script: %.0f MiB" % (resource.getrusage(resource.RUSAGE_SELF).ru_maxrss / 1024))
    return 0 if all_same else 1


if __name__ == "__main__":
    sys.exit(main())
