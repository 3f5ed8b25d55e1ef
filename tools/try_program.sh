#!/usr/bin/env bash
# Tries the built programs: the examples of the README, the longest history, each allocation of small
# runs refused, proofs that are explained, verified and changed, libxml2's XPath on generated cases,
# and the machine, and `serial` where filters change, beside the plain evaluator.
cd "$(dirname "$0")/.." || exit 1
./xpush show /a >/dev/null || exit 1
tools/check_readme.py && tools/check_limits.py && tools/try_refused_growths.py &&
    tools/try_explanations.py && tools/compare_xpath.py && tools/compare_machine.py &&
    tools/compare_changes.py
