#!/usr/bin/env python3
"""Times `xds answer` over N stamped writes of B bytes each, and prints its processor time, in all and a write, and its
peak memory.

    python3 bench/load/answer.py [--bytes B | --short] [--peer CMD] PROGRAM [N ..]

PROGRAM is the built program (crates/xds/out/xds after `rt run` in crates/xds); N is 1000, 10000 and 100000 if left out.
B is 1000 and 600 if left out, one after the other, and 350 at least; with --short each cluster has a name and a timeout
alone, in a line of some 230 bytes. Every write is of a name of its own, and the
request asks for all of them, so that everything is read, kept and written. The input is made anew each time and kept in
memory. Peak memory is the kernel's `VmHWM` of the process, so it needs Linux.

With --peer, a second program is run in turns with the first, five times each: CMD is a command line, to whose words `answer` is
added (another build of this program, or any that reads the same lines and prints the same response). Its answer must be the same
bytes. Printed are the medians of both, and the ratios of time and of memory, the first program's to the second's.
"""
import argparse
import json
import resource
import shlex
import statistics
import subprocess
import sys
import threading
import time

URL = "type.googleapis.com/envoy.config.cluster.v3.Cluster"


# The bytes of a write without its padding, its number among the greatest.
BARE = 296


def writes(count, size):
    """The input: `count` writes of about `size` bytes, or of clusters of a name and a timeout where it is 0, and a request for all
    of them."""
    padding = "t" * (size - BARE)
    lines = []
    for number in range(count):
        name = "cluster-%06d" % number
        body = {
            "@type": URL,
            "name": name,
            "connectTimeout": "0.250s",
        }
        if size:
            body["metadata"] = {"filterMetadata": {"owner": {"team": padding, "number": number}}}
        write = {"typeUrl": URL, "name": name, "counter": number + 1, "writer": 1 + number % 2, "body": body}
        lines.append(json.dumps(write, separators=(",", ":")))
    lines.append(json.dumps({"typeUrl": URL}, separators=(",", ":")))
    return ("\n".join(lines) + "\n").encode()


def watch(child, peaks):
    """Keeps the greatest peak memory that the kernel tells of the process, in bytes, until it ends."""
    while child.returncode is None:
        try:
            with open("/proc/%d/status" % child.pid) as status:
                for line in status:
                    if line.startswith("VmHWM:"):
                        peaks.append(int(line.split()[1]) * 1024)
        except (OSError, ValueError):
            return
        time.sleep(0.0005)


def measure(command, data):
    """Seconds of processor time, of user and system, peak memory in bytes and the output of one run, in a process of
    its own. Other work on the machine makes it longer too, but far less than the time by the clock."""
    peaks = []
    before = resource.getrusage(resource.RUSAGE_CHILDREN)
    child = subprocess.Popen([*command, "answer"], stdin=subprocess.PIPE, stdout=subprocess.PIPE)
    watcher = threading.Thread(target=watch, args=(child, peaks))
    watcher.start()
    output, _ = child.communicate(data)
    after = resource.getrusage(resource.RUSAGE_CHILDREN)
    watcher.join()
    if child.returncode != 0:
        sys.exit("the program ended with status %d" % child.returncode)
    seconds = after.ru_utime - before.ru_utime + after.ru_stime - before.ru_stime
    return seconds, max(peaks, default=0), output


def one(program, count, size):
    data = writes(count, size)
    seconds, peak, output = measure([program], data)
    found = len(json.loads(output)["resources"])
    assert found == count, found
    print("%6d writes of %4d bytes, %6.1f MB in, %6.1f MB out: %7.2f s, %5.1f us a write, peak %7.1f MB (%.1f times the input)"
          % (count, size, len(data) / 1e6, len(output) / 1e6, seconds, seconds / count * 1e6, peak / 1e6, peak / len(data)))


def both(program, peer, count, size):
    """Runs the two in turns, and prints the middle of each and their ratios."""
    data, runs = writes(count, size), {"first": [], "second": []}
    for _ in range(5):
        for name, command in (("first", [program]), ("second", peer)):
            runs[name].append(measure(command, data))
    if len({output for told in runs.values() for _, _, output in told}) != 1:
        sys.exit("the two programs answer otherwise")
    (time_1, peak_1), (time_2, peak_2) = ([statistics.median(it[part] for it in told) for part in (0, 1)] for told in runs.values())
    print("%6d writes of %4d bytes, %6.1f MB in: %5.2f s and %7.1f MB, beside %5.2f s and %7.1f MB: %.2f times the time, %.2f times the memory; %.1f times the input"
          % (count, size, len(data) / 1e6, time_1, peak_1 / 1e6, time_2, peak_2 / 1e6, time_1 / time_2, peak_1 / peak_2, peak_1 / len(data)))


def main():
    words = argparse.ArgumentParser(description=__doc__, formatter_class=argparse.RawDescriptionHelpFormatter)
    sizes = words.add_mutually_exclusive_group()
    sizes.add_argument("--bytes", type=int)
    sizes.add_argument("--short", action="store_const", const=0, dest="bytes")
    words.add_argument("--peer", type=shlex.split)
    words.add_argument("program")
    words.add_argument("counts", metavar="N", type=int, nargs="*")
    given = words.parse_args()
    if given.bytes and given.bytes < 350:
        words.error("a write has at least 350 bytes")
    for size in [1000, 600] if given.bytes is None else [given.bytes]:
        for count in given.counts or [1000, 10000, 100000]:
            if given.peer:
                both(given.program, given.peer, count, size)
            else:
                one(given.program, count, size)


main()
