#!/usr/bin/env python3
"""times.py LOG [--quiet]: a gate's log as the table of docs/TIMES.md, on standard output.

`.ci/run` keeps its log in target/gate.log. Each time is a step's, in whole seconds. --quiet says that nothing else ran on the machine.
"""
import re
import sys

STEP = re.compile(r"^gate: (.+) took (\d+) s$", re.MULTILINE)
BEGUN = re.compile(r"^gate: (\d{4}-\d\d-\d\d), (\d+) processors$", re.MULTILINE)
PASSED = re.compile(r"^rt: ok; .*; ((?:every proof|done in this run).*)\n(\d+) passed, 0 failed$", re.MULTILINE)

HEADER = """\
# Times

What each step of the gate takes. `rt ci` proves as many crates and edits side by side as there are processors, and tells no time of one of them. What it proved
once on a machine is kept there for later runs of the same files. Written by `python3 tools/times.py target/gate.log` from the log that `.ci/run` leaves.

Measured {date} on {processors} processors; quiet machine: {quiet}. `rt ci`: {passed} passed; {done}.

| Step of the gate | Seconds |
|---|--:|"""


def main(words):
    logs = [word for word in words if word != "--quiet"]
    if len(logs) != 1:
        sys.exit("usage: times.py LOG [--quiet]")
    with open(logs[0], encoding="utf-8") as log:
        text = log.read()
    begun, passed, steps = BEGUN.search(text), PASSED.search(text), STEP.findall(text)
    if not (begun and passed and steps):
        sys.exit(f"times.py: {logs[0]} is no log of a gate whose rt ci passed")
    quiet = "yes" if "--quiet" in words else "no"
    print(HEADER.format(date=begun[1], processors=begun[2], quiet=quiet, passed=passed[2], done=passed[1]))
    for name, seconds in steps:
        print(f"| {name} | {seconds} |")
    print(f"| **Whole gate** | **{sum(int(seconds) for _, seconds in steps)}** |")


main(sys.argv[1:])
