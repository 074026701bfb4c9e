#!/usr/bin/env python3
"""Whether each file of specs/ begins with a list of the words that it defines, and each type of the program has a name of its own.

    python3 bench/gate/words.py

A file's head is its first lines that are comments. Behind what the file is about, a line of the head that begins with five
spaces names words, with commas between them, and says after two spaces or more what they mean. Prints each word that is
defined and isn't listed, and each that is listed and isn't defined; and each name that two types have, of all crates but those of
tests. The status is 1 where there is one.
"""
import collections
import glob
import os
import re
import sys

TOP = os.path.dirname(os.path.dirname(os.path.dirname(os.path.realpath(__file__))))
# A definition that others may use: a word of the file.
DEFINED = re.compile(
    r"^\s*(?:(?:abbrev|unfoldable|opaque) pub|pub (?:abbrev|unfoldable|opaque|record|data))(?: record| data)? ([^\s(]+)"
)
# The same of a law or a value that stands without such a word.
STATED = re.compile(r"^pub ([^\s(]+) :")
LISTED = re.compile(r"^--     (\S.*)$")
# A type of Rust, a trait among them; what stands further in is of an impl.
TYPE = re.compile(r"^(?:pub(?:\([a-z]+\))? )?(?:struct|enum|trait|type) (\w+)", re.M)
# The type of a session, and what it is in each of the two variants.
SHARED = {"Session"}


def words(path):
    """The words that a file lists, and those that it defines."""
    with open(path, encoding="utf-8") as file:
        lines = file.read().split("\n")
    head = 0
    while head < len(lines) and lines[head].startswith("--"):
        head += 1
    listed = []
    for line in lines[:head]:
        found = LISTED.match(line)
        if found:
            names = re.split(r"\s{2,}", found.group(1))[0]
            listed += [name.strip() for name in names.split(",") if name.strip()]
    defined = []
    for line in lines[head:]:
        found = DEFINED.match(line) or STATED.match(line)
        if found and found.group(1) not in ("mod", "use"):
            defined.append(found.group(1))
    return listed, defined


def types():
    """Where the types of the program are defined, by their names."""
    found = collections.defaultdict(list)
    for path in sorted(glob.glob(f"{TOP}/crates/*/src/**/*.rt", recursive=True)):
        crate = os.path.relpath(path, TOP).split(os.sep)[1]
        if crate == "xds_cases" or crate.endswith("_tests"):
            continue
        with open(path, encoding="utf-8") as file:
            for name in TYPE.findall(file.read()):
                found[name].append(os.path.relpath(path, TOP))
    return found


def main():
    files = wrong = count = 0
    for path in sorted(glob.glob(f"{TOP}/crates/*/specs/*.antt")):
        listed, defined = words(path)
        where = os.path.relpath(path, TOP)
        for word in defined:
            if word not in listed:
                print(f"{where}: {word} isn't listed at its head")
                wrong += 1
        for word in listed:
            if word not in defined:
                print(f"{where}: {word} is listed and isn't defined there")
                wrong += 1
        files += bool(defined)
        count += len(defined)
    print(f"{count} words in {files} files of specs, {wrong} not as they are listed")
    named = types()
    twice = {name: places for name, places in named.items() if len(places) > 1 and name not in SHARED}
    for name, places in sorted(twice.items()):
        print(f"{name} names {len(places)} types: {', '.join(places)}")
    print(f"{len(named)} names of types, {len(twice)} of several")
    return 1 if wrong or twice else 0


if __name__ == "__main__":
    sys.exit(main())
