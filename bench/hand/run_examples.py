#!/usr/bin/env python3
"""Runs the built program over the worked cases of examples/, and compares what only a run shows.

    bench/hand/run_examples.py [PROGRAM]

The folders are cases/ (`xds answer`), play/, trace/ (`xds play --trace`) and check/.

NAME.args has the words, one a line; NAME.stdin is the input. The program must write NAME.stdout to its output, the line
of NAME.stderr first on its error output, or nothing where that is empty, and end with the status in NAME.status. With
no PROGRAM it is crates/xds/out/xds, as `rt run` leaves it. A few runs beside the cases have words that are wrong, or
that ask for help: of these the status counts, and that the text goes to the right output. The last line is
'N as wanted, M not', and the status is 1 where M isn't 0.
"""
import os
import subprocess
import sys

TOP = os.path.dirname(os.path.dirname(os.path.dirname(os.path.abspath(__file__))))
FOLDERS = [os.path.join(TOP, "examples", name) for name in ("cases", "play", "trace", "check")]

# Words, the status, and whether the text goes to the output rather than to the error output.
OTHER_WORDS = [
    ([], 2, False),
    (["play", "extra"], 2, False),
    (["play", "--replica", "1"], 2, False),
    (["play", "--trace", "0"], 2, False),
    (["check", "extra"], 2, False),
    (["answer", "extra"], 2, False),
    (["answer", "--replica", "0"], 2, False),
    (["answer", "--replica", "65536"], 2, False),
    (["answer", "--replica"], 2, False),
    (["answer", "--replica", "1", "extra"], 2, False),
    (["answer", b"\xff"], 2, False),
    (["--help"], 0, True),
    (["answer", "--help"], 0, True),
    (["play", "--help"], 0, True),
    (["check", "--help"], 0, True),
]


def content(case, ending):
    with open(f"{case}.{ending}", "rb") as file:
        return file.read()


def cases():
    """The path of each case, without an ending."""
    for folder in FOLDERS:
        for name in sorted(os.listdir(folder)):
            if name.endswith(".args"):
                yield os.path.join(folder, name[: -len(".args")])


def run(program, words, given):
    ended = subprocess.run([program, *words], input=given, stdout=subprocess.PIPE, stderr=subprocess.PIPE, timeout=60)
    return ended.stdout, ended.stderr, ended.returncode


def differs(program, case):
    """What the run of a case does otherwise than wanted."""
    words = content(case, "args").decode().splitlines()
    output, errors, status = run(program, words, content(case, "stdin"))
    first = errors.split(b"\n")[0]
    wanted = content(case, "stderr").split(b"\n")[0]
    if output != content(case, "stdout"):
        return f"its output is {output[:200]!r}"
    if first != wanted or bool(wanted) != bool(errors):
        return f"its error output is {errors[:200]!r}"
    if status != int(content(case, "status")):
        return f"its status is {status}"
    return None


def differs_aside(program, words, wanted, is_output):
    output, errors, status = run(program, words, b"{}")
    if status != wanted:
        return f"its status is {status}"
    if bool(output) != is_output or bool(errors) == is_output:
        return f"it writes {output[:200]!r} and {errors[:200]!r}"
    return None


def main(words):
    program = os.path.abspath(words[0] if words else os.path.join(TOP, "crates", "xds", "out", "xds"))
    if not os.path.isfile(program):
        sys.exit(f"run_examples.py: there is no program {program}: build it by `rt run` in crates/xds")
    found = [(os.path.basename(case), differs(program, case)) for case in cases()]
    found += [(f"xds {given}", differs_aside(program, given, *rest)) for given, *rest in OTHER_WORDS]
    others = [(name, why) for name, why in found if why]
    for name, why in others:
        print(f"{name}: {why}")
    print(f"{len(found) - len(others)} as wanted, {len(others)} not")
    return 1 if others else 0


if __name__ == "__main__":
    sys.exit(main(sys.argv[1:]))
