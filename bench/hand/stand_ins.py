#!/usr/bin/env python3
"""Builds stand-ins of libraries, over which the crates above are checked without a proof of those below.

    bench/hand/stand_ins.py [--lanes N] [CRATE ..]     builds those of these crates, of all libraries where none is named
    bench/hand/stand_ins.py --clear                    removes all that were built

A stand-in has a crate's types, contracts and definitions, and those lemmas that other crates cite. The body of each function calls a
foreign one that never returns, by its contract; private functions, which nobody calls then, are left out. So a stand-in takes a
third to a half of the time of the crate's proof, and a check over it, `rt check` in the crate above, says of that crate what it would
say over proved libraries. It says nothing of the crates below, nor of a clause of a private function there; `rt ci` alone gives a verdict.

A stand-in lies in crates/CRATE/out/rlib, where `rt` finds it as long as the crate's files stay as they are. No program can be linked
to it. Crates are built lowest first, N at a time (two), that on which most others wait with a job for each processor.
"""
import argparse
import importlib.machinery
import importlib.util
import os
import re
import shutil
import subprocess
import sys
import threading
import time

TOP = os.path.dirname(os.path.dirname(os.path.dirname(os.path.abspath(__file__))))
# What says of a library that it is a stand-in.
MARK = "stand_in"
# The memory that must be free before a crate is begun beside others, in bytes.
FREE = 4_000_000_000

NEVER = """\
unsafe extern "C" {
    safe fn never_returns()
        ensures { ⊥ };
}

pub fn never() -> ! {
    never_returns();
    unreachable!()
}
"""

CLAUSE = re.compile(r"(requires|ensures|ghost|decreases)\b")
FUNCTION = re.compile(r'^( *)((?:pub(?:\([a-z ]+\))? +)?(?:unsafe +)?(?:extern "C" +)?)fn +(\w+)', re.M)
BLOCK = re.compile(r"^( *)(?:unsafe +)?((?:pub(?:\([a-z]+\))? +)?trait\b|impl\b)", re.M)
CYCLE = re.compile(r"^ *#\[cycle\([^\n]*\)\]\n", re.M)
CITED = re.compile(r"Rattle\.(\w+)\.proofs\.([\w.◌≡-]+)")


def toolchain():
    """The functions of the toolchain's `rt`, which sum up the sources of each crate once."""
    sys.dont_write_bytecode = True
    file = os.path.join(os.path.dirname(os.path.realpath(shutil.which("rt"))), "rtlib.py")
    loader = importlib.machinery.SourceFileLoader("rtlib", file)
    made = importlib.util.module_from_spec(importlib.util.spec_from_loader("rtlib", loader))
    sys.modules["rtlib"] = made
    loader.exec_module(made)
    alone, kept = made.Crate.stamp, {}

    def stamp(self):
        if self.folder not in kept:
            kept[self.folder] = alone(self)
        return kept[self.folder]

    made.Crate.stamp = stamp
    return made


def matching(text, at):
    """The brace that closes the one that stands at this place."""
    depth = 0
    while True:
        depth += (text[at] == "{") - (text[at] == "}")
        if depth == 0:
            return at
        at += 1


def body_of(text, at):
    """Where the body begins of the function whose signature goes on here; none for one without a body."""
    depth = 0
    while at < len(text):
        if text.startswith("//", at):
            at = text.index("\n", at)
        elif depth == 0 and CLAUSE.match(text, at) and not (text[at - 1].isalnum() or text[at - 1] == "_"):
            at = matching(text, text.index("{", at))
        elif depth == 0 and text[at] in ";{":
            return None if text[at] == ";" else at
        else:
            depth += (text[at] in "([") - (text[at] in ")]")
        at += 1
    return None


def end_of(text, begin, indent):
    """The brace that ends a body, in the layout of `rt fmt`: on the same line, or the first at the function's indent."""
    line = text[begin : text.index("\n", begin)]
    if line.count("{") == line.count("}"):
        return begin + line.rindex("}")
    return text.index(f"\n{indent}}}", begin) + 1 + len(indent)


def of_traits(text):
    """Where functions of traits and of their implementations begin."""
    found = set()
    for block in BLOCK.finditer(text):
        begin = text.find("{\n", block.end())
        if begin < 0 or block[2] == "impl" and not re.search(r"\sfor\s", text[block.start() : begin]):
            continue
        end = text.find(f"\n{block[1]}}}", begin)
        found.update(it.start() for it in FUNCTION.finditer(text, begin, end if end > 0 else len(text)))
    return found


def with_comments(text, at, least):
    """Where the comments and attributes begin that stand right before this place."""
    while at > least:
        before = text.rfind("\n", 0, at - 1) + 1
        if before < least or not text[before:at].strip().startswith(("#[", "//")):
            break
        at = before
    return at


def stand_in(text):
    """A source file whose functions never return; a drop stays as it is."""
    parts, at, traits = [], 0, of_traits(text)
    for it in FUNCTION.finditer(text):
        begin = body_of(text, it.end()) if it.start() >= at else None
        if begin is None or it[3] == "drop":
            continue
        end = end_of(text, begin, it[1])
        if it[2].startswith("pub") or it.start() in traits:
            parts.append(f"{text[at:begin]}{{\n{it[1]}    crate::stand_in_never::never()\n{it[1]}")
            at = end
        else:
            parts.append(text[at : with_comments(text, it.start(), at)])
            at = end + 1
    return CYCLE.sub("", "".join([*parts, text[at:]]))


def files_of(folder):
    for at, _, files in os.walk(folder):
        yield from (os.path.join(at, it) for it in files)


def read(file):
    with open(file, encoding="utf-8") as it:
        return it.read()


def write(file, text):
    os.makedirs(os.path.dirname(file), exist_ok=True)
    with open(file, "w", encoding="utf-8") as it:
        it.write(text)


def lemmas_cited(crates):
    """The modules of each crate's proofs that other crates cite, or its own code and definitions."""
    cited = {}
    for crate in crates:
        for part in ("src", "specs", "proofs"):
            for file in files_of(f"{crate.folder}/{part}"):
                for name, path in CITED.findall(read(file)):
                    if name != crate.name or part != "proofs":
                        cited.setdefault(name, set()).add(path)
    return cited


def lemma_files(crate, cited):
    """The files of a crate's lemmas that are cited, and those that these cite."""

    def file_of(path):
        parts = path.rstrip(".").split(".")
        tried = ("/".join(parts[:n]) for n in range(len(parts), 0, -1))
        return next((it for it in tried if os.path.isfile(f"{crate.folder}/proofs/{it}.antt")), None)

    left, found = {file_of(it) for it in cited.get(crate.name, ())} - {None}, set()
    while left:
        file = left.pop()
        found.add(file)
        uses = CITED.findall(read(f"{crate.folder}/proofs/{file}.antt"))
        left |= {file_of(path) for name, path in uses if name == crate.name} - {None} - found
    for file in files_of(f"{crate.folder}/proofs"):
        if os.path.basename(os.path.dirname(file)) == "drop":
            found.add(os.path.relpath(file, f"{crate.folder}/proofs")[: -len(".antt")])
    return found


def make(crate, cited):
    """Writes a crate's stand-in. Answers its folder."""
    to = f"{crate.folder}/out/{MARK}"
    shutil.rmtree(to, ignore_errors=True)
    for file in files_of(f"{crate.folder}/src"):
        write(f"{to}/{os.path.relpath(file, crate.folder)}", stand_in(read(file)))
    write(f"{to}/src/lib.rt", read(f"{to}/src/lib.rt") + "\nmod stand_in_never;\n")
    write(f"{to}/src/stand_in_never.rt", NEVER)
    if os.path.isdir(f"{crate.folder}/specs"):
        shutil.copytree(f"{crate.folder}/specs", f"{to}/specs")
    files = lemma_files(crate, cited)
    for file in files:
        write(f"{to}/proofs/{file}.antt", read(f"{crate.folder}/proofs/{file}.antt"))
    root = f"{crate.folder}/proofs/Lib.antt"
    if os.path.isfile(root):
        lines = read(root).splitlines(keepends=True)
        named = lambda line: re.match(r"(?:pub )?mod (\w+)", line)
        kept = [it for it in lines if not named(it) or named(it)[1] in files or os.path.isdir(f"{to}/proofs/{named(it)[1]}")]
        write(f"{to}/proofs/Lib.antt", "".join(kept))
    return to


def build(rt, crate, cited, jobs):
    """Builds a crate's stand-in, and puts it where `rt` finds it. Answers whether it is there."""
    folder = make(crate, cited)
    words = ["--crate-name", crate.name, "src/lib.rt", "-L", f"dependency={rt.KIT}/rlibs"]
    for name in crate.of_kit:
        words += ["--extern", f"{name}={rt.KIT}/rlibs/{name}.rlib"]
    for it in crate.deps:
        words += ["--extern", f"{it.name}={it.rlib}"]
    for it in crate.below():
        words += ["-L", f"dependency={os.path.dirname(it.rlib)}"]
    words += ["--antt-project", f"{rt.KIT}/rattle/logic/antt-project.json", "--logic-built", f"{rt.KIT}/logic_built"]
    words += ["--jobs", str(jobs), "--statements", "-o", f"{crate.name}.rlib"]
    with open(f"{folder}/log", "w", encoding="utf-8") as log:
        status = subprocess.run([rt.RATTLE, "build", *words], cwd=folder, stdin=subprocess.DEVNULL, stdout=log, stderr=subprocess.STDOUT).returncode
    if status:
        return False
    rlib = f"{crate.folder}/out/rlib"
    shutil.rmtree(rlib, ignore_errors=True)
    shutil.copytree(f"{folder}/{crate.name}.rlib", crate.rlib)
    write(f"{rlib}/{MARK}", "")
    write(f"{rlib}/stamp", crate.stamp())
    return True


def free_memory():
    with open("/proc/meminfo", encoding="utf-8") as file:
        return sum(int(line.split()[1]) * 1024 for line in file if line.startswith("MemAvailable:"))


def build_all(rt, crates, names, lanes):
    """Builds the stand-ins of these crates, and answers those that couldn't be built."""
    cited, by_name, long = lemmas_cited(crates), {it.name: it for it in crates}, {}

    def waits(name):
        if name not in long:
            long[name] = 1 + max((waits(it.name) for it in crates if name in [dep.name for dep in it.deps]), default=0)
        return long[name]

    libraries = [it for it in sorted(crates, key=lambda it: len(it.below())) if it.name in names]
    left, running, failed, ended = {it.name for it in libraries}, set(), set(), threading.Condition()

    def run(name, jobs):
        begun, is_built = time.monotonic(), False
        try:
            is_built = build(rt, by_name[name], cited, jobs)
        finally:
            with ended:
                running.discard(name)
                if not is_built:
                    failed.add(name)
                what = "built" if is_built else f"not built, see crates/{name}/out/{MARK}/log"
                print(f"{name}: {what}, {time.monotonic() - begun:.0f} s", flush=True)
                ended.notify()

    with ended:
        while left or running:
            lost = {it for it in left if failed & {dep.name for dep in by_name[it].below()}}
            failed |= lost
            left -= lost
            ready = [it for it in left if not {dep.name for dep in by_name[it].below()} & (left | running)]
            ready.sort(key=lambda it: -waits(it))
            if ready and len(running) < lanes and (not running or free_memory() >= FREE):
                name = ready[0]
                is_longest = all(waits(name) >= waits(it) for it in running)
                left.discard(name)
                running.add(name)
                threading.Thread(target=run, args=(name, len(os.sched_getaffinity(0)) if is_longest else 1)).start()
            elif running:
                ended.wait(5)
    return failed


def clear():
    """Removes all stand-ins."""
    for name in os.listdir(f"{TOP}/crates"):
        out = f"{TOP}/crates/{name}/out"
        if os.path.isfile(f"{out}/rlib/{MARK}"):
            shutil.rmtree(f"{out}/rlib")
        shutil.rmtree(f"{out}/{MARK}", ignore_errors=True)


def main():
    parser = argparse.ArgumentParser(description=__doc__, formatter_class=argparse.RawDescriptionHelpFormatter)
    parser.add_argument("--lanes", type=int, default=2)
    parser.add_argument("--clear", action="store_true")
    parser.add_argument("crates", nargs="*")
    given = parser.parse_args()
    if given.clear:
        return clear()
    rt = toolchain()
    os.chdir(TOP)
    crates = rt.crates_below(TOP)
    libraries = {it.name for it in crates if not it.is_program and not it.name.endswith("_tests")}
    unknown = [it for it in given.crates if it not in libraries]
    if unknown:
        sys.exit(f"no library of crates.txt: {', '.join(unknown)}")
    return 1 if build_all(rt, crates, set(given.crates) or libraries, given.lanes) else 0


if __name__ == "__main__":
    sys.exit(main())
