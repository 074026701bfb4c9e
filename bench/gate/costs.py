#!/usr/bin/env python3
"""What each function and each file of lemmas takes to be proved, crate by crate, in seconds of processor time.

    bench/gate/costs.py [--tests] [--most N] [--tsv FILE] [CRATE ..]

Each crate is checked from nothing with one job, in a copy of the repository, over the libraries below it as they are built in
out/; one whose libraries aren't built there is told and passed over. With no names, all crates of the program are measured, lowest
first. With --tests a crate's tests are checked in place of the crate. A checked module is kept in a file as soon as it is done: the time from one to the next is what it took, scaled so that all of
them come to the processor time of the check. The modules of one function are added up.

It prints a row a crate: its processor time, and of it what comes before the first function, the functions, the files of lemmas,
what comes behind them, the most memory that the check held; and then the N dearest functions and files of lemmas (100). FILE gets
every one of them. What is measured beside other work is too high: run it on a machine with nothing else to do.
"""
import argparse
import collections
import os
import re
import resource
import shutil
import subprocess
import sys
import tempfile
import time

TOP = os.path.dirname(os.path.dirname(os.path.dirname(os.path.abspath(__file__))))

# Checks the crate of a folder as `rt check` does, over what is built below it, and takes nothing from other clones of the repository.
CHECK = """
import os, sys
rt, top, folder, tests, *flags = sys.argv[1:]
sys.path.insert(0, rt)
import rtlib
guard = rtlib.guarded()
os.chdir(folder)
os.makedirs("out/incremental", exist_ok=True)
crate = rtlib.Crate(folder, top, {})
os.execvp(rtlib.RATTLE, [rtlib.RATTLE, "check", *crate.words(["--jobs", "1"], tests=tests == "tests"), "--incremental", "out/incremental", *flags])
"""

# What the modules of one function are called behind its path.
PARTS = {"Code", "Mir", "Lts", "Tie", "Proof", "Statement", "Met", "Symbol", "Reads", "Key", "Kinds", "Answers", "Invariants", "Goals", "Inside", "Laws"}


def libraries_named():
    """The libraries of this repository that each of its crates names."""
    named = {}
    with open(os.path.join(TOP, "crates.txt"), encoding="utf-8") as file:
        for line in file:
            head, colon, tail = line.partition("#")[0].partition(":")
            if colon:
                named[head.split()[0]] = tail.split()
    return {name: [it for it in words if it in named] for name, words in named.items()}


def below(named, name):
    """The crates that a crate stands on, each after those that it names."""
    order = []

    def add(crate):
        for it in named[crate]:
            if it not in order:
                add(it)
                order.append(it)

    add(name)
    return order


def linked(file, copy):
    """A second name for a file, which nobody writes to; a copy where that can't be had."""
    try:
        os.link(file, copy)
    except OSError:
        shutil.copy2(file, copy)


def copied(room, name, used):
    """A copy of a crate without what is kept of it, and of the libraries below it, and the crate's folder there."""
    shutil.copy2(os.path.join(TOP, "HANDLES"), room)
    with open(os.path.join(TOP, "crates.txt"), encoding="utf-8") as file:
        lines = [line for line in file if line.split(":")[0].split(" ")[0] in [*used, name]]
    with open(os.path.join(room, "crates.txt"), "w", encoding="utf-8") as file:
        file.writelines(lines)
    for crate in [*used, name]:
        ignore = shutil.ignore_patterns("incremental") if crate != name else shutil.ignore_patterns("out")
        copy = linked if crate != name else shutil.copy2
        shutil.copytree(os.path.join(TOP, "crates", crate), os.path.join(room, "crates", crate), ignore=ignore, copy_function=copy)
    return os.path.join(room, "crates", name)


def modules(folder):
    """The modules that a check kept, as they were done: when, and the library and the path of each."""
    found = []
    for place, _, files in os.walk(os.path.join(folder, "out", "incremental")):
        if os.path.basename(place) == "records":
            continue
        for file in files:
            if file.endswith(".oantt"):
                found.append((os.stat(os.path.join(place, file)).st_mtime, file.removesuffix(".oantt")))
    return sorted(found)


def owner(crate, module):
    """Whose a module is: ("function", its path), ("lemmas", the file's path), or ("else", "")."""
    library, _, path = module.partition(".")
    if not path or library not in (f"Rattle-{crate}-proofs", f"Rattle-{crate}-specs"):
        return "else", ""
    words = [re.sub(r"\+[0-9]*$", "", it) if it.startswith("fn") else it for it in path.split(".")]
    if "TheLinks" in words[:-1]:
        return "function", path.split("TheLinks.", 1)[1].removeprefix(f"{crate}-").replace("-", "::")
    kept = list(words)
    while kept and (kept[-1] in PARTS or re.fullmatch(r"(Answers|Invariants|Proof|Lts|Tie)\d+", kept[-1])):
        kept.pop()
    if library.endswith("-proofs") and len(kept) < len(words):
        return "function", "::".join(kept)
    if library.endswith("-proofs") and os.path.isfile(os.path.join(TOP, "crates", crate, "proofs", *words) + ".antt"):
        return "lemmas", "proofs/" + "/".join(words) + ".antt"
    return "else", ""


class Costs:
    """What a check of a crate took, by function and by file of lemmas, in seconds of processor time."""

    def __init__(self, crate, begun, ended, seconds, memory, made):
        self.crate, self.seconds, self.memory = crate, seconds, memory
        scale = seconds / max(ended - begun, 0.001)
        self.each = collections.Counter()
        # A name without the last word that is no function's own is one of its parts: a closure's, a loop's.
        first, last, before = None, begun, begun
        for when, module in made:
            kind, path = owner(crate, module)
            if kind != "else":
                if first is None:
                    first = before
                self.each[kind, path] += (when - before) * scale
                last = when
            before = when
        self.head = ((first or ended) - begun) * scale
        self.tail = (ended - last) * scale

    def of(self, kind):
        return {path: took for (it, path), took in self.each.items() if it == kind}

    def row(self):
        functions, lemmas = self.of("function"), self.of("lemmas")
        return (
            f"| `{self.crate}` | {self.seconds:.0f} | {self.head:.0f} | {sum(functions.values()):.0f} ({len(functions)}) "
            f"| {sum(lemmas.values()):.0f} ({len(lemmas)}) | {self.tail:.0f} | {self.memory:.1f} |"
        )


def measured(crate, used, tests):
    """What a check of a crate, or of its tests, takes; none where it isn't proved."""
    with tempfile.TemporaryDirectory(prefix="costs-", dir=os.environ.get("COSTS_DIR")) as room:
        folder = copied(room, crate, used)
        rt = os.path.dirname(os.path.realpath(shutil.which("rt")))
        before, begun = resource.getrusage(resource.RUSAGE_CHILDREN), time.time()
        log = os.path.join(room, "log")
        with open(log, "w", encoding="utf-8") as file:
            run = subprocess.run(
                [sys.executable, "-c", CHECK, rt, room, folder, "tests" if tests else "", "--stage-times", os.path.join(room, "stages")],
                cwd=folder, stdin=subprocess.DEVNULL, stdout=file, stderr=subprocess.STDOUT,
            )
        ended, after = time.time(), resource.getrusage(resource.RUSAGE_CHILDREN)
        if run.returncode:
            print(f"{crate}: not proved: {open(log, encoding='utf-8').read()[-300:]}", file=sys.stderr)
            return None
        seconds = after.ru_utime + after.ru_stime - before.ru_utime - before.ru_stime
        stages = open(os.path.join(room, "stages"), encoding="utf-8").read()
        peak = re.search(r"^peak (\d+)", stages, re.M)
        return Costs(crate, begun, ended, seconds, int(peak.group(1)) / 1e6 if peak else 0.0, modules(folder))


def main():
    asked = argparse.ArgumentParser(usage="bench/gate/costs.py [--tests] [--most N] [--tsv FILE] [CRATE ..]")
    asked.add_argument("--tests", action="store_true")
    asked.add_argument("--most", type=int, default=100)
    asked.add_argument("--tsv")
    asked.add_argument("crates", nargs="*")
    asked = asked.parse_args()
    named = libraries_named()
    chosen = asked.crates or [*below(named, "xds"), "xds"]
    dearest = []
    print("| Crate | Seconds | before | functions | lemmas | behind | GB |\n|---|---|---|---|---|---|---|", flush=True)
    for crate in chosen:
        used = below(named, crate)
        absent = [it for it in used if not os.path.isdir(os.path.join(TOP, "crates", it, "out", "rlib", f"{it}.rlib"))]
        if absent:
            print(f"{crate}: not built below it: {' '.join(absent)}", file=sys.stderr)
            continue
        costs = measured(crate, used, asked.tests)
        if costs:
            print(costs.row(), flush=True)
            dearest += [(took, f"{crate}::{path}" if kind == "function" else f"crates/{crate}/{path}") for (kind, path), took in costs.each.items()]
    dearest.sort(reverse=True)
    print(f"\n| Dearest of {len(dearest)} | Seconds |\n|---|---|")
    for took, name in dearest[: asked.most]:
        print(f"| `{name}` | {took:.1f} |")
    if asked.tsv:
        with open(asked.tsv, "w", encoding="utf-8") as file:
            file.writelines(f"{took:.2f}\t{name}\n" for took, name in dearest)
    return 0


if __name__ == "__main__":
    sys.exit(main())
