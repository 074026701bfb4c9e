#!/usr/bin/env python3
"""Checks functions of a crate before the crates below it are proved.

    bench/hand/over_sources.py CRATE --only FUNCTION [--allow-holes] ..
    bench/hand/over_sources.py CRATE --start FUNCTION --allow-holes

The words behind the crate are those of `rt check`. A crate below is read from its built library where that is up to date,
and from its sources where it isn't: then its contracts are taken as they stand, and what the functions that are named call
in it is checked too. So a proof can be written, and shown to hold, while what is below it is still being proved; `rt ci`
alone gives a verdict. Name functions: a check of all would be one of all crates that aren't built. What is read and checked
takes one or two minutes where many crates aren't built, and is kept in crates/CRATE/out for the next time.
"""
import importlib.machinery
import importlib.util
import os
import shutil
import subprocess
import sys

TOP = os.path.dirname(os.path.dirname(os.path.dirname(os.path.abspath(__file__))))


def toolchain():
    """The functions of the toolchain's `rt`, which sum up the sources of each crate once."""
    sys.dont_write_bytecode = True
    file = os.path.join(os.path.dirname(os.path.realpath(shutil.which("rt"))), "rtlib.py")
    loader = importlib.machinery.SourceFileLoader("rtlib", file)
    made = importlib.util.module_from_spec(importlib.util.spec_from_loader("rtlib", loader))
    sys.modules["rtlib"] = made
    loader.exec_module(made)
    alone, kept = made.Crate.stamp, {}

    def stamp(self):
        if self.folder not in kept:
            kept[self.folder] = alone(self)
        return kept[self.folder]

    made.Crate.stamp = stamp
    return made


def words(rt, crate):
    """The prover's words for a crate, over what is built below it and over the sources of the rest."""
    below, built, found = crate.below(), set(), []
    for it in below:
        if all(dep in built for dep in it.deps) and it.is_built():
            built.add(it)
    sources = [it.name for it in below if it not in built]
    print("over the sources of " + ", ".join(sources) if sources else "over built libraries alone", flush=True)
    kit = {"core", "std", *(name for it in [crate, *below] for name in it.of_kit)}
    for name in sorted(kit):
        found += ["--extern", f"{name}={rt.KIT}/rlibs/{name}.rlib"]
    for it in below:
        if it in built:
            found += ["--extern", f"{it.name}={it.rlib}", "-L", f"dependency={os.path.dirname(it.rlib)}"]
        else:
            uses = dict.fromkeys(["core", *it.of_kit, *(dep.name for dep in it.deps)])
            found += ["--lib", f"{it.name}:{','.join(uses)}={it.folder}/src/lib.rt"]
    return found


def main(given):
    if len(given) < 2 or not os.path.isdir(os.path.join(TOP, "crates", given[0])):
        sys.exit(__doc__)
    rt = toolchain()
    folder = os.path.join(TOP, "crates", given[0])
    crate = rt.Crate(folder, TOP, {})
    os.makedirs(os.path.join(folder, "out"), exist_ok=True)
    root = "src/main.rt" if crate.is_program else "src/lib.rt"
    command = [os.path.join(rt.KIT, "bin", "rattle"), "check", "--crate-name", crate.name, root, *words(rt, crate)]
    command += ["-L", f"dependency={rt.KIT}/rlibs", "--antt-project", f"{rt.KIT}/rattle/logic/antt-project.json"]
    command += ["--logic-built", f"{rt.KIT}/logic_built", "--links", f"{crate.name}=", "--incremental", "out/over_sources"]
    command += given[1:] if any(word.startswith("--jobs") for word in given) else ["--jobs", "1", *given[1:]]
    return subprocess.run(command, cwd=folder).returncode


if __name__ == "__main__":
    sys.exit(main(sys.argv[1:]))
