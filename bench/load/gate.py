#!/usr/bin/env python3
"""What the merge gate costs, crate by crate, in minutes of processor time (user and system).

    bench/load/gate.py [--factor F] [--without-edits] [CRATE ..]

Each crate is proved from nothing, then its tests, as `rt verdict` does it, and then its must-fail edits are tried by
`rt must-fail`, each with one job, on a copy of the repository and over libraries that are built before. With no names,
all crates of crates.txt are measured, lowest first. The times are scaled to a machine whose `rt selftest` takes 2.0
minutes of processor time: the script runs it, or takes the factor F. It prints a table for docs/MEASUREMENTS.md, a row as
soon as it is measured. Other work on the machine disturbs processor time less than it disturbs wall time, but it does
disturb it.
"""
import argparse
import os
import re
import resource
import shutil
import subprocess
import sys
import tempfile

TOP = os.path.dirname(os.path.dirname(os.path.dirname(os.path.abspath(__file__))))

# The minutes of processor time of `rt selftest` on the machine that the table is for.
SELFTEST = 2.0


# What `rt verdict` does in a crate, for that crate alone: it would prove the libraries below again.
PROVE = """
import os, sys
rt, top, folder, what = sys.argv[1:]
sys.path.insert(0, rt)
import rtlib
rtlib.guarded()
os.chdir(folder)
os.makedirs("out", exist_ok=True)
crate = rtlib.Crate(folder, top, {})
jobs = ["--jobs", "1"]
sys.exit(crate.verdict_on_tests(jobs) if what == "tests" else crate.verdict(jobs, as_rlib=not crate.is_program, with_tests=False))
"""


def proving(top, folder, what):
    rt = os.path.dirname(os.path.realpath(shutil.which("rt")))
    return minutes([sys.executable, "-c", PROVE, rt, top, folder, what], folder)


def minutes(words, folder):
    """Runs a command, which must succeed, and answers its processor minutes."""
    before = resource.getrusage(resource.RUSAGE_CHILDREN)
    run = subprocess.run(words, cwd=folder, stdin=subprocess.DEVNULL, stdout=subprocess.PIPE, stderr=subprocess.STDOUT, text=True)
    after = resource.getrusage(resource.RUSAGE_CHILDREN)
    if run.returncode:
        sys.exit(f"{words[0]} {words[-1]} failed in {folder}:\n{run.stdout[-3000:]}")
    return (after.ru_utime + after.ru_stime - before.ru_utime - before.ru_stime) / 60


def crates():
    """The repository's crates with the libraries that each names, lowest first."""
    named = {}
    with open(os.path.join(TOP, "crates.txt"), encoding="utf-8") as file:
        for line in file:
            head, colon, tail = line.partition("#")[0].partition(":")
            if colon:
                named[head.split()[0]] = tail.split()
    order = []

    def add(name):
        if name in named and name not in order:
            for below in named[name]:
                add(below)
            order.append(name)

    for name in sorted(named):
        add(name)
    return order


def lines(folder, part, ending):
    count = 0
    for at, _, files in os.walk(os.path.join(folder, part)):
        for name in files:
            if name.endswith(ending):
                with open(os.path.join(at, name), encoding="utf-8") as file:
                    count += sum(1 for _ in file)
    return count


def has_tests(folder):
    for at, _, files in os.walk(os.path.join(folder, "src")):
        for name in files:
            with open(os.path.join(at, name), encoding="utf-8") as file:
                if re.search(r"^\s*#\[test\]", file.read(), re.MULTILINE):
                    return True
    return False


def edits(folder):
    place = os.path.join(folder, "must-fail")
    return len([name for name in os.listdir(place) if name.endswith(".edit")]) if os.path.isdir(place) else 0


def measured(top, name, with_edits):
    """The processor minutes of a crate's proof, of its tests and of its edits. Its library is built afterwards."""
    folder = os.path.join(top, "crates", name)
    proof = proving(top, folder, "proof")
    tests = proving(top, folder, "tests") if has_tests(folder) else 0.0
    tried = minutes(["rt", "must-fail", name], top) if with_edits and edits(folder) else 0.0
    return proof, tests, tried


def row(cells):
    print("| " + " | ".join(cells) + " |", flush=True)


def main():
    words = argparse.ArgumentParser(description="Measures what the merge gate costs.")
    words.add_argument("crates", nargs="*")
    words.add_argument("--factor", type=float, help="scale by this in place of running rt selftest")
    words.add_argument("--without-edits", action="store_true")
    given = words.parse_args()
    known = crates()
    for name in given.crates:
        if name not in known:
            sys.exit(f"gate.py: crates.txt names no crate {name}")
    wanted = [name for name in known if name in given.crates or not given.crates]
    factor = given.factor or SELFTEST / minutes(["rt", "selftest"], TOP)
    print(f"Scaled by {factor:.2f}.\n")
    row(["Crate", "src", "specs", "proofs", "Edits", "Proof", "Tests", "Edits", "Together"])
    row(["---"] + ["--:"] * 8)
    sums = [0] * 8
    with tempfile.TemporaryDirectory(prefix="gate-") as room:
        top = os.path.join(room, "copy")
        shutil.copytree(TOP, top, ignore=shutil.ignore_patterns(".git", "out"))
        for name in known:
            if name not in wanted and not any(name in needs(it) for it in wanted):
                continue
            if name not in wanted:
                proving(top, os.path.join(top, "crates", name), "proof")
                continue
            folder = os.path.join(TOP, "crates", name)
            counts = [lines(folder, "src", ".rt"), lines(folder, "specs", ".antt"), lines(folder, "proofs", ".antt"), edits(folder)]
            times = [factor * it for it in measured(top, name, not given.without_edits)]
            cells = counts + times + [sum(times)]
            sums = [a + b for a, b in zip(sums, cells)]
            row([f"`{name}`"] + [str(it) for it in cells[:4]] + [f"{it:.1f}" for it in cells[4:]])
    row(["together"] + [str(it) for it in sums[:4]] + [f"{it:.1f}" for it in sums[4:]])


def needs(name):
    """The repository's libraries below a crate."""
    with open(os.path.join(TOP, "crates.txt"), encoding="utf-8") as file:
        for line in file:
            head, colon, tail = line.partition("#")[0].partition(":")
            if colon and head.split()[0] == name:
                below = tail.split()
                return set(below).union(*[needs(it) for it in below]) if below else set()
    return set()


if __name__ == "__main__":
    main()
