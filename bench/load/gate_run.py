#!/usr/bin/env python3
"""What the merge gate itself takes by crate: runs `rt ci` on a clean clone and samples the prover's processes.

    bench/load/gate_run.py [--factor F] [--jobs N] [--log FILE]

Each second the processor time of every process of the prover is added to the crate that it works on: what it works on
in the clone is proof and tests, and what it works on in a copy is a must-fail edit. The times are scaled to a machine
whose `rt selftest` takes 2.0 minutes of processor time: the script runs it first, or takes the factor F. It prints what
`rt ci` printed last, and a table for docs/MEASUREMENTS.md; FILE gets all that it printed. Processes share the cores here, as
they do in the gate, so a crate takes up to a half more than by `bench/load/gate.py`, which measures each alone. Run it on a
machine with nothing else to do.
"""
import argparse
import os
import re
import resource
import subprocess
import sys
import tempfile
import time

from gate import SELFTEST, TOP, crates, edits, lines, minutes, row

TICKS = os.sysconf("SC_CLK_TCK")
CRATE = re.compile(r"--crate-name (\S+)")


def stat_of(number):
    """What the kernel counts of a process, from its state on."""
    with open(f"/proc/{number}/stat", encoding="utf-8") as file:
        return file.read().rsplit(")", 1)[1].split()


def descends(number, root):
    """Whether a process was begun by another, or by one that it began."""
    while int(number) > 1 and int(number) != root:
        number = stat_of(number)[1]
    return int(number) == root


def process(number, root):
    """Of a process of the prover below the one given, the folder that it works in, its crate and its seconds so far."""
    try:
        with open(f"/proc/{number}/cmdline", encoding="utf-8") as file:
            words = file.read().split("\0")
        if not words[0].endswith("rattle") or not descends(number, root):
            return None
        crate = CRATE.search(" ".join(words))
        counts = stat_of(number)
        seconds = (int(counts[11]) + int(counts[12])) / TICKS
        return os.readlink(f"/proc/{number}/cwd"), crate and crate.group(1), seconds
    except (OSError, UnicodeDecodeError):
        return None


def sample(seen, total, top, root):
    """Adds what the prover's processes took since the last time."""
    for number in filter(str.isdigit, os.listdir("/proc")):
        found = process(number, root)
        if not found or not found[1]:
            continue
        folder, crate, seconds = found
        kind = "proof" if folder.startswith(top + os.sep) and "must-fail" not in folder else "edits"
        before = seen.get(number, 0.0)
        # a number that is given again begins anew
        total[crate, kind] = total.get((crate, kind), 0.0) + (seconds - before if seconds >= before else seconds)
        seen[number] = seconds


def processor_seconds():
    """What all commands that were run so far took, with those that they ran."""
    used = resource.getrusage(resource.RUSAGE_CHILDREN)
    return used.ru_utime + used.ru_stime


def gate_run(top, jobs, log):
    """Runs the gate, and answers what it printed last, its seconds by the clock, and the prover's by crate and kind."""
    seen, total, begun = {}, {}, time.monotonic()
    with open(log, "w+", encoding="utf-8") if log else tempfile.TemporaryFile("w+", encoding="utf-8") as printed:
        run = subprocess.Popen(["rt", "ci", *jobs], cwd=top, stdin=subprocess.DEVNULL, stdout=printed, stderr=subprocess.STDOUT)
        while run.poll() is None:
            sample(seen, total, top, run.pid)
            time.sleep(1)
        printed.seek(0)
        last = [line for line in printed if line.strip()][-3:]
    return "".join(last), time.monotonic() - begun, total


def table(factor, total):
    row(["Crate", "src", "specs", "proofs", "Edits in the gate", "Proof and tests", "Edits", "Together"])
    row(["---"] + ["--:"] * 7)
    for crate in crates():
        folder = os.path.join(TOP, "crates", crate)
        counts = [lines(folder, "src", ".rt"), lines(folder, "specs", ".antt"), lines(folder, "proofs", ".antt"), edits(folder)]
        times = [factor * total.get((crate, kind), 0.0) / 60 for kind in ("proof", "edits")]
        row([f"`{crate}`"] + [str(it) for it in counts] + [f"{it:.1f}" for it in times + [sum(times)]])


def main():
    words = argparse.ArgumentParser(description="Samples what the merge gate takes by crate.")
    words.add_argument("--factor", type=float, help="scale by this in place of running rt selftest")
    words.add_argument("--jobs", help="how many jobs rt ci is given")
    words.add_argument("--log", help="a file for what rt ci prints")
    given = words.parse_args()
    factor = given.factor or SELFTEST / minutes(["rt", "selftest"], TOP)
    with tempfile.TemporaryDirectory(prefix="gate-") as room:
        top = os.path.join(os.path.realpath(room), "clone")
        subprocess.run(["git", "clone", "-q", TOP, top], check=True)
        before = processor_seconds()
        last, seconds, total = gate_run(top, ["--jobs", given.jobs] if given.jobs else [], given.log)
        processor = processor_seconds() - before
    print(last)
    print(f"{seconds / 60:.1f} minutes by the clock, {processor / 60:.0f} processor minutes; scaled by {factor:.2f}.\n")
    table(factor, total)
    return 0 if ", 0 failed" in last else 1


if __name__ == "__main__":
    sys.exit(main())
