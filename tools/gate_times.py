#!/usr/bin/env python3
"""Runs the gate and tells what it cost, crate by crate.

    tools/gate_times.py [--every SECONDS] [WORD..]

Runs `rt ci WORD..` (`rt ci` with no words; with `--anew` nothing that an earlier run kept is taken)
and looks at its processes while it runs. Then it writes a table, as docs/WORKING.md has it: the
processor seconds of each crate's own proof, of the proof of its tests and of its must-fail edits,
the most memory that one of them took, and below it the longest chain of crates that stand on one
another: no number of processors makes the proofs shorter than that. What was kept costs nothing
and so shows as nothing. It ends with the status of the gate. Linux alone has what it looks at.
"""
import argparse
import collections
import os
import pathlib
import subprocess
import sys
import time

TICKS = os.sysconf("SC_CLK_TCK")
PAGE = os.sysconf("SC_PAGE_SIZE")
KINDS = ("proof", "tests", "edits")


class Process:
    """One run of the prover: which crate it was for, what it did, and what it has cost so far."""

    def __init__(self, crate, kind):
        self.crate, self.kind, self.seconds, self.bytes = crate, kind, 0.0, 0


def words_of(number):
    return pathlib.Path(f"/proc/{number}/cmdline").read_bytes().decode(errors="replace").split("\0")


def fields_of(number):
    """The fields of a process behind its name, which may have any character in it."""
    return pathlib.Path(f"/proc/{number}/stat").read_text().rsplit(")", 1)[1].split()


def kind_of(number, words):
    if "--test" in words:
        return "tests"
    return "edits" if "rt-edit-" in os.readlink(f"/proc/{number}/cwd") else "proof"


def look(known, session):
    """Notes what each process of the prover that the gate started has cost so far."""
    for number in filter(str.isdigit, os.listdir("/proc")):
        try:
            fields = fields_of(number)
            if int(fields[3]) != session:
                continue
            key = (number, fields[19])
            if key not in known:
                words = words_of(number)
                if os.path.basename(words[0]) != "rattle" or "--crate-name" not in words:
                    continue
                known[key] = Process(words[words.index("--crate-name") + 1], kind_of(number, words))
            process = known[key]
            # its own time alone: the processes that it starts are looked at too
            process.seconds = sum(int(it) for it in fields[11:13]) / TICKS
            resident = int(pathlib.Path(f"/proc/{number}/statm").read_text().split()[1]) * PAGE
            process.bytes = max(process.bytes, resident)
        except (OSError, ValueError, IndexError):
            # it has ended meanwhile
            continue


def run_gate(words, every):
    known = {}
    gate = subprocess.Popen(["rt", "ci", *words], start_new_session=True)
    while gate.poll() is None:
        look(known, gate.pid)
        time.sleep(every)
    return gate.returncode, list(known.values())


def crates_of(text):
    """What each crate stands on, from the lines of crates.txt."""
    lines = [line.split("#")[0] for line in text.splitlines()]
    pairs = [line.split(":", 1) for line in lines if ":" in line]
    return {name.split()[0]: below.split() for name, below in pairs}


def longest_chain(crates, seconds):
    """The chain of crates, each standing on the one before it, whose proofs take longest."""
    best = {}

    def chain_to(name):
        if name not in best:
            below = [chain_to(it) for it in crates[name] if it in crates]
            time_below, names = max(below, default=(0.0, []))
            best[name] = (time_below + seconds.get((name, "proof"), 0.0), [*names, name])
        return best[name]

    return max((chain_to(name) for name in crates), default=(0.0, []))


def table(crates, processes, elapsed):
    seconds, most, edits = collections.Counter(), collections.Counter(), collections.Counter()
    for process in processes:
        seconds[process.crate, process.kind] += process.seconds
        most[process.crate] = max(most[process.crate], process.bytes)
        edits[process.crate] += process.kind == "edits"
    yield "| Crate | Proof | Its tests' proof | Its edits | Most memory |"
    yield "|---|---|---|---|---|"
    for name in crates:
        cost = [f"{seconds[name, kind]:.0f} s" for kind in KINDS]
        cost[2] += f" ({edits[name]} checks)"
        yield f"| {name} | {' | '.join(cost)} | {most[name] >> 20} MiB |"
    sums = [sum(seconds[name, kind] for name in crates) for kind in KINDS]
    yield f"| all | {' | '.join('%.0f s' % it for it in sums)} | |"
    yield ""
    time_of_chain, names = longest_chain(crates, seconds)
    yield f"Processor seconds in all: {sum(sums):.0f}. Elapsed: {elapsed:.0f} s."
    yield f"Longest chain, {time_of_chain:.0f} s of proof: {', '.join(names)}."


def main():
    parser = argparse.ArgumentParser(description=__doc__, formatter_class=argparse.RawDescriptionHelpFormatter)
    parser.add_argument("--every", type=float, default=0.5, help="seconds between two looks")
    options, words = parser.parse_known_args()
    os.chdir(pathlib.Path(__file__).resolve().parent.parent)
    crates = crates_of(pathlib.Path("crates.txt").read_text())
    start = time.monotonic()
    status, processes = run_gate(words, options.every)
    print("\n".join(table(crates, processes, time.monotonic() - start)))
    return status


if __name__ == "__main__":
    sys.exit(main())
