#!/usr/bin/env python3
"""Installs xpush into a folder that is removed, and tries what was installed.

    tools/check_install.py

The man page is read by man without a warning, and its examples are run as they are written, with the
installed program; it has to name each command, each kind of refusal and each limit, as the README has. The completions are asked what they offer; without zsh only those of bash are, which is said.
'make install' has to leave the built program as it is. The last line is 'N passed, M failed'.
"""
import os
import pathlib
import re
import shutil
import subprocess
import sys
import tempfile

from check_readme import examples

TOP = pathlib.Path(__file__).resolve().parent.parent
PAGE = "docs/xpush.1"
ESCAPES = {r"\(dq": '"', r"\(aq": "'", r"\-": "-", r"\e": "\\"}
# what the README and the man page both have to name: commands, kinds of refusal, limits
NAMED = (
    "serial feed match show explain verify make load too-many not-a-filter too-long too-nested number-long unknown too-large no-versions "
    "not-here not-utf8 line-long too-deep too-many-attributes too-big feed-long truncated").split()
LIMITS = [16_777_216, 1_048_576, 512, 256, 4_096, 64, 18, 500_000, 1_048_575, 1_099_511_627_776, 50_000, 100_000, 2_147_483_647, 4_294_967_295]
# the words that are typed, and what is offered for the last
OFFERED = {
    "xpush ": {"serial", "feed", "match", "show", "explain", "verify", "make", "load"},
    "xpush m": {"match", "make"},
    "xpush make ": {"--seed", "--filters", "--documents"},
    "xpush make --seed 1 --f": {"--filters"},
    "xpush make --seed=1 ": {"--filters", "--documents"},
    "xpush make --seed ": set(),
    "xpush feed --workers 2 ": {"--banks", "--node-bits", "--step-bits"},
    "xpush load --seed=1 --w": {"--workers"},
    "xpush e": {"explain"},
    "xpush match /a ": set(),
}
ASK_BASH = r"""
source "$1"
COMP_LINE=$2 COMP_POINT=${#2}
read -ra COMP_WORDS <<<"$2"
[[ $2 == *" " ]] && COMP_WORDS+=("")
COMP_CWORD=$((${#COMP_WORDS[@]} - 1))
_xpush
printf '%s\n' "${COMPREPLY[@]}"
"""
# zsh completes at a terminal only, so it is given one, and lists what it would offer
ASK_ZSH = r"""
zmodload zsh/zpty
zpty asked zsh -f -i
zpty -w asked "PROMPT=; fpath=(${(q)1} \$fpath); autoload -Uz compinit; compinit -u -d ${(q)3}"
zpty -w asked "zstyle ':completion:*' insert-tab false; list() { compstate[insert]=; compstate[list]=list force; }"
zpty -w asked "offer() { compprefuncs=(); comppostfuncs=(list); _main_complete }; zle -C offer complete-word offer"
zpty -w asked "bindkey '^X' offer; setopt no_beep; LISTMAX=0; stty cols 200; echo ready''now"
zpty -r -m asked line '*readynow*'
zpty -w -n asked "$2"$'\x18'
sleep 1
zpty -w -n asked $'\x15'"echo end''ed"$'\n'
zpty -r -m asked line '*ended*'
print -r -- "$line"
"""


class Counts:
    def __init__(self):
        self.passed = self.failed = 0

    def see(self, is_right, told):
        self.passed, self.failed = self.passed + bool(is_right), self.failed + (not is_right)
        if not is_right:
            print(told)


def page_text(text):
    for escape, letter in ESCAPES.items():
        text = text.replace(escape, letter)
    return re.sub(r"\\f[BIRP]", "", text)


def check_installed(counts, folder):
    program = TOP / "crates/xpush/out/xpush"
    before = program.stat().st_mtime_ns
    done = subprocess.run(["make", "-s", "install", "PREFIX=" + folder], cwd=TOP, capture_output=True, text=True)
    counts.see(done.returncode == 0, "make install: %s" % done.stderr)
    counts.see(program.stat().st_mtime_ns == before, "make install built the program that was there")
    for name in ("bin/xpush", "share/man/man1/xpush.1", "share/bash-completion/completions/xpush", "share/zsh/site-functions/_xpush"):
        counts.see(os.path.exists(os.path.join(folder, name)), "make install left out %s" % name)


def check_page(counts, folder):
    raw = (TOP / PAGE).read_text()
    blocks = "".join("```console\n%s```\n" % block for block in re.findall(r"^\.EX\n(.*?)^\.EE", page_text(raw), re.S | re.M))
    path = os.path.join(folder, "bin") + os.pathsep + os.environ["PATH"]
    count = 0
    for command, printed in examples(blocks):
        count += 1
        done = subprocess.run(["bash", "-c", command], cwd=TOP, capture_output=True, text=True, env=dict(os.environ, PATH=path))
        counts.see(done.stdout.splitlines() == printed, "%s\n  prints\n%s" % (command, done.stdout))
    counts.see(count, "the man page has no example")
    page = {word.strip(".;") for word in re.sub(r'^\.[A-Z]+ ?|[",!|]', " ", page_text(raw), flags=re.M).split()}
    readme = (TOP / "README.md").read_text()
    for one in NAMED:
        counts.see(one in page, "the man page does not name '%s'" % one)
        counts.see(one in readme, "the README does not name '%s'" % one)
    for limit in LIMITS:
        counts.see(str(limit) in page, "the man page does not name the limit %d" % limit)
        counts.see("{:,}".format(limit) in readme, "the README does not name the limit %d" % limit)
    if shutil.which("man") and shutil.which("groff"):
        done = subprocess.run(["man", "--warnings", "-E", "UTF-8", "-l", "-Tutf8", "-Z", PAGE], cwd=TOP, capture_output=True, text=True)
        counts.see(done.returncode == 0 and not done.stderr, "man warns: %s" % done.stderr)
    else:
        print("check_install: without man and groff the man page is not formatted")


def offered_by_bash(typed, folder):
    file = os.path.join(folder, "share/bash-completion/completions/xpush")
    return set(subprocess.run(["bash", "-c", ASK_BASH, "bash", file, typed], capture_output=True, text=True).stdout.split())


def offered_by_zsh(typed, folder):
    places = (os.path.join(folder, "share/zsh/site-functions"), typed, os.path.join(folder, "zcompdump"))
    words = ["zsh", "-f", "-c", ASK_ZSH, "zsh", *places]
    done = subprocess.run(words, capture_output=True, text=True, timeout=60, env=dict(os.environ, TERM="dumb"))
    return set(re.findall(r"^(serial|match|show|explain|verify|make|--[a-z]+)(?==|\s)", done.stdout.replace("\r", ""), re.M))


def check_completions(counts, folder):
    asked = {"bash": offered_by_bash}
    if shutil.which("zsh"):
        asked["zsh"] = offered_by_zsh
    else:
        print("check_install: without zsh its completion is not tried")
    for shell, offered in asked.items():
        for typed, wanted in OFFERED.items():
            found = offered(typed, folder)
            counts.see(found == wanted, "%s at '%s' offers %s" % (shell, typed, sorted(found)))


def main():
    counts = Counts()
    with tempfile.TemporaryDirectory() as folder:
        check_installed(counts, folder)
        check_page(counts, folder)
        check_completions(counts, folder)
    print("%d passed, %d failed" % (counts.passed, counts.failed))
    return 1 if counts.failed else 0


if __name__ == "__main__":
    sys.exit(main())
