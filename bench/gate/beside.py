#!/usr/bin/env python3
"""Runs what tries the program itself, some scripts beside others, and prints what each told once it has ended.

    python3 bench/gate/beside.py PROGRAM [--lanes N] [--only WORD,..]

Servers, clients and pauses are what most of their time goes to, so N lanes (three, or one on a machine of fewer than four processors) take
a part of the time that one after another takes. Each script begins its servers at ports of its own. Those of the bridge and of the
fleet follow each other, since both may install packages. With --only it runs those whose command has one of the words. A line for each says
what came of it and in how many seconds; what can't be tried here, as where a package can't be installed, says so. What a script that failed
told last, and each line of its that says what is bad, stands at the end once more, where it is found in a log that is cut. The last line is
'N passed, M failed, K skipped', and the status is 1 where M isn't 0.
"""
import argparse
import concurrent.futures
import os
import subprocess
import sys
import threading
import time

TOP = os.path.dirname(os.path.dirname(os.path.dirname(os.path.abspath(__file__))))
# Where the servers of the first script begin that has no ports of its own, and as many ports apart those of the next. All of them lie
# below those that other scripts have of their own.
FIRST_PORT, PORTS, OWN_PORTS = 12_000, 200, 20_000
# Commands that follow each other in one lane, the longest first. `PROGRAM` stands for the program.
LANES = (
    # README's commands, over a program that is compiled for it.
    ("bench/gate/readme.py",),
    # The bridge's tests; a server that shows each resource to a checker first, which the bridge is; a package with the bridge, its script
    # that starts both, and an image of it; and the tests of several servers over etcd.
    ("bridge/test", "bench/gate/validate.py PROGRAM", "bench/gate/packed.py PROGRAM", "fleet/test"),
    # A server that starts again, over a store and without one; killed at some moments under changes and clients.
    ("bench/gate/restart.py PROGRAM --kills 200 --stops 20",),
    ("bench/gate/serve.py PROGRAM",),
    # What clients are answered that send no more.
    ("bench/gate/halfclosed.py PROGRAM",),
    # Recorded runs, which are checked.
    ("bench/gate/record.py PROGRAM",),
    # Slow peers, and many: the limits of docs/SERVING.md.
    ("bench/gate/limits.py PROGRAM many few crowd late in_use",),
    # What its memory grows by.
    ("bench/gate/memory.py PROGRAM",),
    # What it counts, beside a script's own count; Prometheus' promtool has nothing to say of it.
    ("bench/gate/counts.py PROGRAM",),
    # Its end, its operator's port and its recordings, beside what waits or goes away.
    ("bench/gate/stops.py PROGRAM",),
    # What who operates the server sees, and what its streams are told.
    ("bench/gate/operate.py PROGRAM",),
    # What the command line's words come to, over sockets and files.
    ("bench/gate/commands.py PROGRAM",),
    # What signals do to a server that ./xds or a package's script started.
    ("bench/gate/signals.py PROGRAM",),
    # What a client of an earlier run is told, and what is loaded before anybody is answered.
    ("bench/gate/numbers.py PROGRAM",),
    # Its page in a browser.
    ("bench/gate/page.py PROGRAM",),
    # What replicas hold, as lines, and changes that are tried, or made together.
    ("bench/gate/resources.py PROGRAM",),
    # A folder that resources come from, and references that lead nowhere.
    ("bench/gate/sources.py PROGRAM",),
    # What the commands that ask an operator's port say there, and print.
    ("bench/gate/asking.py PROGRAM",),
    # How long responses are, what is told of it, and puts that are refused for it.
    ("bench/gate/lengths.py PROGRAM",),
    # What it logs, for people and as JSON.
    ("bench/gate/log.py PROGRAM",),
    # Whom its operator's port answers, and who may read its files.
    ("bench/gate/door.py PROGRAM",),
)
assert FIRST_PORT + PORTS * len(LANES) <= OWN_PORTS, "each script has ports of its own"
# The status of some commands where they can't be tried here: there is no curl, no browser, or what they need can't be installed.
SKIPPED, MAY_BE_SKIPPED = 2, ("bench/gate/readme.py", "bridge/test", "fleet/test", "bench/gate/page.py", "bench/gate/packed.py")
# As many of the last lines of a script that failed are told once more.
LAST_LINES = 12
printing = threading.Lock()
failures = []


def run(command, program, port):
    """Runs a command, prints what it told, and says what came of it."""
    words = [program if word == "PROGRAM" else word for word in command.split()]
    if words[0].endswith(".py"):
        words.insert(0, sys.executable)
    begun = time.monotonic()
    env = {**os.environ, "XDS": program, "FIRST_PORT": str(port), "PYTHONUNBUFFERED": "1"}
    ran = subprocess.run(words, cwd=TOP, env=env, stdin=subprocess.DEVNULL, stdout=subprocess.PIPE, stderr=subprocess.STDOUT, errors="replace", check=False)
    is_skipped = ran.returncode == SKIPPED and command.split()[0] in MAY_BE_SKIPPED
    came = "can't be tried here" if is_skipped else f"FAILED with status {ran.returncode}" if ran.returncode else "passed"
    with printing:
        print(f"== {command}\n{ran.stdout.rstrip()}\n{command.split()[0]}: {came}, in {time.monotonic() - begun:.0f} s", flush=True)
        if came.startswith("FAILED"):
            failures.append((command, came, ran.stdout.rstrip().split("\n")))
    return "skipped" if is_skipped else "failed" if ran.returncode else "passed"


def main():
    parser = argparse.ArgumentParser(description=__doc__, formatter_class=argparse.RawDescriptionHelpFormatter)
    parser.add_argument("program")
    parser.add_argument("--lanes", type=int, default=3 if len(os.sched_getaffinity(0)) >= 4 else 1)
    parser.add_argument("--only", default="")
    given = parser.parse_args()
    program = os.path.abspath(given.program)
    wanted = [word for word in given.only.split(",") if word]
    lanes = [[command for command in lane if not wanted or any(word in command for word in wanted)] for lane in LANES]
    with concurrent.futures.ThreadPoolExecutor(given.lanes) as pool:
        ran = [pool.submit(lambda lane=lane, port=FIRST_PORT + PORTS * at: [run(it, program, port) for it in lane]) for at, lane in enumerate(lanes)]
        found = [came for it in ran for came in it.result()]
    for command, came, told in failures:
        at = len(told) - LAST_LINES
        print(f"== {command}: {came}")
        print("\n".join(line for place, line in enumerate(told) if place >= at or line.startswith("BAD ")))
    print(f"{found.count('passed')} passed, {found.count('failed')} failed, {found.count('skipped')} skipped")
    sys.exit(1 if "failed" in found else 0)


if __name__ == "__main__":
    main()
