#!/usr/bin/env python3
"""Refuses the allocations of public calls, one after another, and says of each call what it was answered.

    bench/hand/refused.py [--most N] [CRATE ..]
    bench/hand/refused.py --tests [--most N] [CRATE ..]

In the first form it runs the tests that look at calls without memory, once for each allocation of theirs, in which that allocation
fails; N is how many of a test's allocations are tried (all). Printed is a line a call: at how many allocations it was refused. Each
time its answer was 8 and what it left was as promised, as the test says of itself, and then it was made again and all went on. At all
other allocations of the test every answer was the ordinary one, or the test ended with `OutOfMemory` before or behind that call; any
third outcome is printed, and so is a call that was never refused though it takes memory, or was though it takes none.

In the second form it does so with every test that has no threads (those of calls that change nothing among them, as of
readers and writers): each run must pass or end with `OutOfMemory`. Printed are a line a test and, of each crate, the calls
with an allocator that stand in it. Left out are tests that tell of a difference without what was answered.

CRATE is a crate of tests, whose program `rt test` leaves in crates/CRATE/out; with none it is each that is built. It needs a C
compiler, `cc`, for the shim of bench/hand/fail_alloc.py. The last line is 'N right, M not', and the status is 1 where M isn't 0.
"""
import argparse
import os
import re
import subprocess
import sys
import tempfile

from fail_alloc import SHIM
from fail_each import GAVE_UP, TOP

# What a test prints where the call that it looks at was refused and all went on, with the call's word where it looks at several.
WENT_ON = re.compile(rb"refused, and went on(?:: (\w+))?\n")
# Of each test: its calls, by their words.
LOOKED_AT = {
    "xds_message_tests": {
        "framing::memory::feeding_without_memory": {"feed": "Decoder::feed"},
        "framing::memory::framing_without_memory": {"push_frame": "push_frame"},
    },
    "xds_session_tests": {
        "many_writes::each_change_without_memory": {
            "put": "Catalogue::put",
            "delete": "Catalogue::delete",
            "join_write": "Catalogue::join_write",
            "join_all": "Catalogue::join_all",
        },
    },
    "xds_core_tests": {
        "memory::a_batch_without_memory": {"": "Core::step, Merge of writes of four types"},
        "memory::each_event_without_memory": {
            "put": "Core::step, Put",
            "putin": "Core::step, Put for groups",
            "delete": "Core::step, Delete",
            "merge": "Core::step, Merge",
            "snapshot": "Core::step, Snapshot",
            "since": "Core::step, Since",
            "rest": "Core::step, Rest",
            "open": "Core::step, Open",
            "sotw": "Core::step, Request of the state of the world",
            "delta": "Core::step, Request of delta",
            "poll": "Core::step, Poll",
            "owes": None,
            "close": None,
        },
        "rest::memory::a_poll_without_memory": {"": "answer of xds_rest"},
        "stream_tests_memory::a_stream_without_memory": {"": "run_stream"},
        "exchanges::memory::rounds_without_memory": {"": "round"},
        "exchanges::memory::parts_without_memory": {"fill": "Outbox::fill", "next_part": "Outbox::next_part"},
    },
    "xds_client_tests": {
        "caches::memory::connecting_in_state_of_the_world_without_memory": {"": "SotwClient::connect"},
        "caches::memory::changing_in_state_of_the_world_without_memory": {"": "SotwClient::change"},
        "caches::memory::state_of_the_world_without_memory": {"": "SotwClient::receive"},
        "caches::memory::connecting_in_delta_without_memory": {"": "DeltaClient::connect"},
        "caches::memory::changing_in_delta_without_memory": {"": "DeltaClient::change"},
        "caches::memory::delta_without_memory": {"": "DeltaClient::receive"},
        "caches::memory::changing_what_is_polled_without_memory": {"": "RestClient::change"},
        "caches::memory::polling_without_memory": {"": "RestClient::receive"},
    },
    "xds_node_tests": {"memory::a_node_without_memory": {"call": "Node::call", "cut": "Node::cut"}},
    "xds_http_tests": {"memory::a_poll_without_memory": {"": "answer_at of xds_rest"}},
}
# Calls that take no memory as these tests make them: there is room for one entry more in a row of a map.
NONE_TAKEN = {"Core::step, Put for groups", "Core::step, Delete", "Core::step, Open", "Catalogue::delete"}
# Crates whose tests run in threads: one that gives up may leave another waiting. With each the modules of those that don't.
THREADED = {"xds_node_tests": (), "xds_workers_tests": (), "xds_http_tests": (), "xds_server_tests": (), "xds_client_tests": ("caches::",)}
# Tests, and modules, that tell of a difference without what was answered: of programs and traces, whose text is cut short; and of one
# how many names a list has, which a tidying that found no memory leaves longer.
SILENT = ("cases::streams_are_served", "faults::input_is_served_wherever_it_ends", "faults::each_read_may_fail", "faults::each_write_may_fail",
          "framing::counted::one_call_fails_and_is_counted", "framing::counted::calls_after_the_last_fail",
          "delta::a_settled_client_costs_what_changes", "sotw::clusters_are_told",
          "ordered::", "blocks::", "play::", "program::", "trace::", "words::", "verdicts::")
# What an allocation that failed makes of an answer that is compared with another, or of a test.
SHORT = [*GAVE_UP, b"OutOfMemory", b"AllocError", b"AllocFailed", b"out of memory"]
# How tests of some modules say that there was no memory: for what they were to give to a call, or for a reply, in whose place
# `reply_at` sends a 503.
OWN = {("xds_message_tests", "framing"): [b"21 BadScript", b'"a text is none"'], ("xds_http_tests", "memory"): [b"503 and not 200"]}
PATIENCE = 120


class Shim:
    """Runs programs in which an allocation fails."""

    def __init__(self, folder):
        source, self.shim, self.count = (os.path.join(folder, name) for name in ("shim.c", "shim.so", "count"))
        with open(source, "w", encoding="utf-8") as file:
            file.write(SHIM)
        subprocess.run(["cc", "-O1", "-shared", "-fPIC", "-o", self.shim, source, "-ldl"], check=True)

    def run(self, program, test, at):
        """The status and all that is printed; none where it takes too long."""
        env = dict(os.environ, LD_PRELOAD=self.shim, FAIL_AT=str(at))
        if at == 0:
            env["COUNT_TO"] = self.count
        try:
            ended = subprocess.run([program, test], capture_output=True, env=env, timeout=PATIENCE)
        except subprocess.TimeoutExpired:
            return None, b"it took too long"
        return ended.returncode, ended.stdout + ended.stderr

    def allocations(self, program, test):
        """How many there are where all is well."""
        status, text = self.run(program, test, 0)
        if status != 0 or b"test result: ok" not in text or WENT_ON.search(text):
            sys.exit(f"{test} fails with ample memory: {status} {text[-500:]}")
        with open(self.count, encoding="utf-8") as file:
            return int(file.read())


def is_passed(status, text):
    return status == 0 and b"test result: ok" in text


def is_ended(status, text, words):
    """Whether a test ended since there was no memory: by a refusal, or by an assertion that tells of it."""
    return bool(status) and (status > 0 or b"assertion" in text) and any(it in text for it in words)


def looked_at(shim, program, test, calls, words, most):
    """How many runs were right, and how many weren't."""
    count = shim.allocations(program, test)
    refused, passed, ended, wrong = dict.fromkeys(calls, 0), 0, 0, []
    for at in range(1, min(count, most) + 1):
        status, text = shim.run(program, test, at)
        found = WENT_ON.search(text)
        word = (found.group(1) or b"").decode() if found else None
        if is_passed(status, text) and found and calls.get(word):
            refused[word] += 1
        elif is_passed(status, text) and not found:
            passed += 1
        elif is_ended(status, text, words) and not found:
            ended += 1
        else:
            wrong.append((at, status, text[-300:]))
    for word, call in calls.items():
        if call in NONE_TAKEN and not refused[word]:
            print(f"{call}: took no memory here, and was never refused", flush=True)
        elif call:
            print(f"{call}: {refused[word]} allocations refused, each answered 8 with all as promised" if refused[word] else f"{call}: NEVER REFUSED", flush=True)
            wrong += [] if refused[word] else [(call, "never refused")]
        else:
            print(f"{word}: takes no memory, and was never refused", flush=True)
    print(f"    {test}: {count} allocations, {passed} with every answer as ever, {ended} refused outside of the calls, {len(wrong)} otherwise", flush=True)
    for row in wrong[:10]:
        print(*row)
    return sum(refused.values()) + passed + ended, len(wrong)


def words_of(crate, test):
    """What a test prints where there was no memory."""
    return SHORT + OWN.get((crate, test.split("::")[0]), [])


def sources(crate):
    """The files of a crate, from its folder src on."""
    folder = os.path.join(TOP, "crates", crate, "src")
    return sorted(os.path.relpath(os.path.join(at, name), folder) for at, _, names in os.walk(folder) for name in names)


def tests_of(crate):
    """The tests of a crate, by their modules, but for those with threads."""
    for name in sources(crate):
        with open(os.path.join(TOP, "crates", crate, "src", name), encoding="utf-8") as file:
            for test in re.findall(r"#\[test\]\s+fn (\w+)\(", file.read()):
                test = f"{name[: -len('.rt')].replace(os.sep, '::')}::{test}"
                if crate not in THREADED or test.startswith(THREADED[crate]):
                    yield test


def calls_in(crate):
    """The calls of a crate of tests that are given an allocator, but for its own, and those of catalogues, replicas and the like."""
    text = ""
    for name in (crate, "xds_cases"):
        for file in sources(name):
            with open(os.path.join(TOP, "crates", name, "src", file), encoding="utf-8") as it:
                text += re.sub(r"//.*", "", it.read())
    own = set(re.findall(r"fn (\w+)", text))
    found = re.findall(r"([A-Z]\w+(?:::<\w+>)?::\w+)\((?:rt\.)?alloc\b", text) + re.findall(r"(\.\w+)\(\s*(?:rt\.)?alloc\b", text)
    found += [it for it in re.findall(r"(?<![\w:.])([a-z]\w+)\(\s*(?:rt\.)?alloc\b", text) if it not in own]
    found += re.findall(r"(\.(?:put|delete|join_write|join_all|step|feed|next_part|fill))\(", text)
    std = ("Vec::", "String::", "Value::", "Arc::", "ArcStr::", ".to_string", ".replace", "hex::")
    return sorted({re.sub(r"::<\w+>", "", it) for it in found if not it.startswith(std) and (it[0] != "." or f"fn {it[1:]}(" not in text or it in (".take", ".poll", ".put"))})


def every(shim, program, test, words, most):
    count = shim.allocations(program, test)
    step = max(1, count // most)
    passed, ended, wrong = 0, 0, []
    for at in range(1, count + 1, step):
        status, text = shim.run(program, test, at)
        if is_passed(status, text):
            passed += 1
        elif is_ended(status, text, words):
            ended += 1
        else:
            wrong.append((at, status, text[-300:]))
    print(f"{test}: {count} allocations, {passed + ended + len(wrong)} of them refused: {ended} answered 8, {passed} with every answer as ever, {len(wrong)} otherwise", flush=True)
    for row in wrong[:10]:
        print(*row)
    return passed + ended, len(wrong)


def main():
    parser = argparse.ArgumentParser(description=__doc__, formatter_class=argparse.RawDescriptionHelpFormatter)
    parser.add_argument("--tests", action="store_true")
    parser.add_argument("--most", type=int, default=10**9)
    parser.add_argument("crates", nargs="*")
    given = parser.parse_args()
    chosen = given.crates or (sorted(it for it in os.listdir(os.path.join(TOP, "crates")) if it.endswith("_tests") and THREADED.get(it, True)) if given.tests else LOOKED_AT)
    right, wrong = 0, 0
    with tempfile.TemporaryDirectory(prefix="refused-") as folder:
        shim = Shim(folder)
        for crate in chosen:
            program = os.path.join(TOP, "crates", crate, "out", f"{crate}_tests")
            if not os.path.isfile(program):
                print(f"{crate} isn't built: run `rt test` there")
                wrong += bool(given.crates)
                continue
            looked = [(test, looked_at, (calls, words_of(crate, test))) for test, calls in LOOKED_AT.get(crate, {}).items()]
            tests = [(test, every, (words_of(crate, test),)) for test in tests_of(crate) if not test.startswith(SILENT)] if given.tests else looked
            if given.tests:
                print(f"{crate}, with the calls {', '.join(calls_in(crate))}", flush=True)
            for test, look, more in tests:
                these, those = look(shim, program, test, *more, given.most)
                right, wrong = right + these, wrong + those
    print(f"{right} right, {wrong} not")
    return 1 if wrong or not right else 0


if __name__ == "__main__":
    sys.exit(main())
