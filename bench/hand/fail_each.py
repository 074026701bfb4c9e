#!/usr/bin/env python3
"""Runs the tests of calls without memory once for each of their allocations, and makes that allocation fail.

    bench/hand/fail_each.py [CRATE ..]

CRATE has tests of calls without memory, whose program `rt test` leaves in crates/CRATE/out; with no name it is each of
them. A run is right where the test passes, by itself or after the call that it looks at was refused for memory and all
went on, or where it ends with a refusal of its own for want of memory, outside of what it looks at. Each call has to be
refused at least once. It needs a C compiler, `cc`, as bench/hand/fail_alloc.py does, whose shim it takes. The last line is
'N right, M not', and the status is 1 where M isn't 0.
"""
import os
import subprocess
import sys
import tempfile

from fail_alloc import SHIM

TOP = os.path.dirname(os.path.dirname(os.path.dirname(os.path.abspath(__file__))))
TESTS = {
    "xds_client_tests": [
        "caches::memory::state_of_the_world_without_memory",
        "caches::memory::delta_without_memory",
        "caches::memory::polling_without_memory",
        "caches::memory::changing_what_is_polled_without_memory",
    ],
    "xds_core_tests": ["stream_tests_memory::a_stream_without_memory", "exchanges::memory::rounds_without_memory"],
}
WENT_ON = b"refused, and went on\n"
# The last is what the tests of streams say of their own input, where there was no memory to decode it.
GAVE_UP = [b"error: OutOfMemory", b"error: AllocError", b'error: "no hex digits"']


def kind_of(ended):
    """What a run shows, or none where it is wrong."""
    if ended.returncode == 0 and b"test result: ok" in ended.stdout + ended.stderr:
        return "went on" if WENT_ON in ended.stdout else "passed"
    if ended.returncode > 0 and any(words in ended.stdout + ended.stderr for words in GAVE_UP):
        return "gave up"
    return None


def tried(program, shim, count, test):
    def run(at):
        env = dict(os.environ, LD_PRELOAD=shim, FAIL_AT=str(at))
        if at == 0:
            env["COUNT_TO"] = count
        return subprocess.run([program, test], capture_output=True, env=env, timeout=60)

    if kind_of(run(0)) != "passed":
        sys.exit(f"{test} fails with ample memory")
    with open(count, encoding="utf-8") as file:
        calls = int(file.read())
    kinds = {"passed": 0, "went on": 0, "gave up": 0}
    wrong = []
    for at in range(1, calls + 1):
        ended = run(at)
        kind = kind_of(ended)
        if kind is None:
            wrong.append((at, ended.returncode, ended.stderr[-300:]))
        else:
            kinds[kind] += 1
    print(f"{test}: {calls} allocations: " + ", ".join(f"{kinds[kind]} {kind}" for kind in kinds) + f", {len(wrong)} wrong")
    for row in wrong[:10]:
        print(*row)
    return sum(kinds.values()), len(wrong) + (kinds["went on"] == 0)


def main():
    right, wrong = 0, 0
    with tempfile.TemporaryDirectory(prefix="fail-each-") as folder:
        source, shim, count = (os.path.join(folder, name) for name in ("shim.c", "shim.so", "count"))
        with open(source, "w", encoding="utf-8") as file:
            file.write(SHIM)
        subprocess.run(["cc", "-O1", "-shared", "-fPIC", "-o", shim, source, "-ldl"], check=True)
        for crate in sys.argv[1:] or TESTS:
            program = os.path.join(TOP, "crates", crate, "out", f"{crate}_tests")
            for test in TESTS[crate]:
                these, those = tried(program, shim, count, test)
                right, wrong = right + these, wrong + those
    print(f"{right} right, {wrong} not")
    return 1 if wrong else 0


if __name__ == "__main__":
    sys.exit(main())
