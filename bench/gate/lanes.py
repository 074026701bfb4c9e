#!/usr/bin/env python3
"""What the proof of each crate, and of its tests, took in a run of the gate, by the clock, longest first.

    bench/gate/lanes.py LOG

LOG has the gate's last lines, which say after how many minutes each was proved. `rt ci` gives a lane that is free to the first in its
order that is ready, and `.ci/run` a lane to each processor; so when each began follows from when the others ended. A wrong body of
must-fail/ is told by no line and is left out, so that what is proved beside it seems longer. The tree is the one that the run proved.
"""
import os
import re
import shutil
import sys

TOP = os.path.dirname(os.path.dirname(os.path.dirname(os.path.abspath(__file__))))
LANES = 4


def ends_in(log):
    """After how many minutes each proof was done, by crate and whether it is that of its tests."""
    found = {}
    with open(log, encoding="utf-8", errors="replace") as file:
        for line in file:
            match = re.match(r"[> ]*([\d.]+) rt: (\w+)(: its tests are)? proved$", line.rstrip())
            if match:
                found[match[2], bool(match[3])] = float(match[1])
    return found


def proofs(crates):
    """What each proof waits for, and its lines, which are what `rt ci` orders by."""
    found = {}
    for crate in crates:
        waits, lines = [(it.name, False) for it in crate.below()], crate.count(rb"\n")
        found[crate.name, False] = waits, lines
        if crate.has_tests():
            found[crate.name, True] = waits, lines
    return found


def begins(found, ends):
    """After how many minutes each proof began."""
    behind = dict.fromkeys(found, 0)
    for key in reversed([*found]):
        waits, lines = found[key]
        behind[key] += lines
        for it in waits:
            behind[it] = max(behind[it], behind[key])
    left = sorted((it for it in found if it in ends), key=lambda it: -behind[it])
    now, given, running, begun = 0.0, set(), set(), {}
    while left or running:
        for key in [it for it in left if all(below in given for below in found[it][0])][: LANES - len(running)]:
            left.remove(key)
            running.add(key)
            begun[key] = now
        if not running:
            sys.exit(f"lanes.py: {' '.join(it[0] for it in left)} wait for what the log doesn't name")
        done = min(running, key=ends.get)
        running.remove(done)
        given.add(done)
        now = max(now, ends[done])
    return begun


def main():
    if len(sys.argv) != 2:
        sys.exit("usage: bench/gate/lanes.py LOG")
    sys.path.insert(0, os.path.dirname(os.path.realpath(shutil.which("rt"))))
    import rtlib

    ends = ends_in(sys.argv[1])
    begun = begins(proofs(rtlib.crates_below(TOP)), ends)
    took = sorted(((ends[it] - begun[it], it) for it in begun), reverse=True)
    of_tests = sum(it for it, (name, tests) in took if tests or name.endswith("_tests"))
    print(f"{sum(it for it, _ in took):.0f} minutes in all lanes, {of_tests:.0f} of them for tests")
    for minutes, (name, tests) in took:
        print(f"{minutes:6.1f}  {name}{', its tests' if tests else ''}")
    return 0


if __name__ == "__main__":
    sys.exit(main())
