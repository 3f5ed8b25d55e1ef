#!/usr/bin/env python3
"""Runs the examples of the README as they are written, and compares what they print.

    tools/check_readme.py

In the README a block of 'console' has lines that begin with '$ ', each a command for the shell at
the top of the repository, and below each the lines that it prints. 'xpush' in a command is the
launcher at the top. The last line is 'N passed, M failed'.
"""
import pathlib
import re
import subprocess
import sys


def examples(text):
    """The commands of all console blocks, each with the text that it is to print."""
    for block in re.findall(r"^```console\n(.*?)^```", text, re.S | re.M):
        command, printed = None, []
        for line in block.splitlines():
            if line.startswith("$ "):
                if command is not None:
                    yield command, printed
                command, printed = line[2:], []
            else:
                printed.append(line)
        if command is not None:
            yield command, printed


def main():
    here = pathlib.Path(__file__).resolve().parent.parent
    passed = failed = 0
    for command, printed in examples((here / "README.md").read_text()):
        done = subprocess.run(["bash", "-c", command], cwd=here, capture_output=True, text=True)
        if done.stdout.splitlines() == printed:
            passed += 1
        else:
            failed += 1
            print("%s\n  prints\n%s\n  and not\n%s" % (command, done.stdout, "\n".join(printed)))
    print("%d passed, %d failed" % (passed, failed))
    return 1 if failed or not passed else 0


if __name__ == "__main__":
    sys.exit(main())
