#!/usr/bin/env python3
"""What a store takes: `xds serve --store FILE`, each number beside the same without one, in one run.

    python3 bench/load/store.py PROGRAM [--rounds 3] [--puts 20000] [--streams 1000] [--only ROWS,..] [--folder DIR]

The two run in turns, each time a server of its own with one replica, and what is printed is the median of the rounds, and the ratio of
the second to the first. Stores are made in a folder of DIR (/tmp), which is to lie on a disk, and not in memory. The rows:

    input       changes a second: so many puts (--puts) of 600 bytes under 1,000 names, by the input, until all were made, and, with a
                store, committed: the server takes another by POST /changes then, and answers it
    bulk        the same by POST /changes, 1,000 lines a body
    single      the same by POST /changes, one line a body over one connection, a fifth of a hundredth as many; with a store each is a
                commit of its own
    streams     a put until 1,000 streams (--streams) of 100 clusters have it, by bench/load/fanout.py: the last client, and processor time
    start       seconds from the start until /ready, with 10,000 and 100,000 stored writes of 600 bytes; without a store the lines of
                the same puts are loaded (--load)
    memory      VmRSS of these once they are ready, and VmHWM
    size        bytes of the store's files after 200,000 puts of 100 names of 600 bytes, while it runs and once it was stopped; beside
                them that of a store after one put of each, and 100 times 600 bytes

A row that misses what it is to reach (the column `due`) is marked, and the status is 1 then; other work on the machine disturbs it.
"""
import argparse
import http.client
import os
import re
import shlex
import statistics
import subprocess
import sys
import tempfile
import time

sys.path.insert(0, os.path.abspath(f"{__file__}/../../gate"))
import fanout
from restart_server import PATIENCE, Ports, Server, body_of, parts, writes_of

PAD = 600
# The longest that a row is waited for, in seconds.
LONG = 900


def words():
    parser = argparse.ArgumentParser(description=__doc__, formatter_class=argparse.RawDescriptionHelpFormatter)
    parser.add_argument("program")
    parser.add_argument("--rounds", type=int, default=3)
    parser.add_argument("--puts", type=int, default=20000)
    parser.add_argument("--streams", type=int, default=1000)
    parser.add_argument("--sizes", default="10000,100000", help="stored writes at a start (%(default)s)")
    parser.add_argument("--only", default="input,bulk,single,streams,start,size")
    parser.add_argument("--folder", default="/tmp")
    return parser.parse_args()


def cluster(name, x):
    """The text of a cluster of 600 bytes."""
    bare = len(body_of("cluster", name, x=x, pad=""))
    return body_of("cluster", name, x=x, pad="p" * (PAD - bare))


def lines(count, names, first=0):
    return [f"put 1 {cluster(f'c{it % names}', first + it)}\n" for it in range(count)]


class Table:
    def __init__(self):
        self.missed = 0
        print(f"{'':52}{'without':>12}{'with':>12}{'ratio':>8}  due", flush=True)

    def row(self, what, without, with_it, due=None, is_least=False, absolute=None):
        """A row of medians. It is due that the ratio is at most, or at least, so much; or that the number with a store is at most."""
        one, other = (statistics.median(it) if it else None for it in (without, with_it))
        ratio = other / one if one and other is not None else None
        is_missed = ratio is not None and due is not None and (ratio < due if is_least else ratio > due)
        is_missed = is_missed or absolute is not None and other is not None and other > absolute
        self.missed += is_missed
        said = f"{'at least' if is_least else 'at most'} {due}" if due is not None else f"at most {absolute}" if absolute is not None else ""
        shown = [f"{it:12,.0f}" if it is not None and it >= 1000 else f"{it:12.3f}" if it is not None else f"{'':12}" for it in (one, other)]
        print(f"{what:52}{shown[0]}{shown[1]}{f'{ratio:8.2f}' if ratio is not None else '':8}  {said}{' MISSED' if is_missed else ''}", flush=True)


class Made:
    """A server with a store or without one, that is ready."""

    def __init__(self, program, folder, has_store, *more):
        self.file = os.path.join(folder, f"store{time.monotonic_ns()}.db")
        self.server = Server(program, Ports(1), *(["--store", self.file] if has_store else []), *more)
        self.server.ready(LONG)

    def post(self, text):
        """All lines of an answer, each of which must be a stamp."""
        status, answer = self.server.ask("/changes", text, LONG)
        found = re.findall(r"^line \d+: \d+-\d+$", answer, re.M)
        if status != 200 or len(found) != text.count("\n"):
            raise SystemExit(f"changes are answered {status}: {answer[:300]}")

    def memory(self, word):
        with open(f"/proc/{self.server.run.pid}/status", encoding="ascii") as file:
            return int(re.search(rf"^{word}:\s+(\d+)", file.read(), re.M).group(1)) * 1024 / 1e6

    def processor(self):
        return time.clock_gettime((~self.server.run.pid << 3) | 2)

    def close(self):
        """Stops it, and answers the bytes that its store takes then."""
        self.server.stop(LONG)
        return self.bytes()

    def bytes(self):
        return sum(os.path.getsize(it) for it in parts(self.file))

    def drop(self):
        for it in parts(self.file):
            os.remove(it)


def both(program, folder, rounds, measure):
    """What is measured of servers without and with a store, in turns."""
    found = ([], [])
    for _ in range(rounds):
        for has_store in (False, True):
            it = Made(program, folder, has_store)
            found[has_store].append(measure(it))
            it.close()
            it.drop()
    return found


def pairs(found):
    """Of measured pairs, the first ones and the second ones."""
    return [tuple([it[at] for it in side] for side in found) for at in range(len(found[0][0]))]


def by_input(it, count):
    text = "".join(lines(count, 1000))
    begun, before = time.monotonic(), it.processor()
    it.server.feed(text)
    # The input is read to its end only once all lines before were handed over.
    while sum_of(it.server.get("/metrics"), "xds_changes_total") < count:
        time.sleep(0.002)
    it.post("".join(lines(1, 1)))
    return count / (time.monotonic() - begun), (it.processor() - before) * 1e6 / count


def sum_of(text, name):
    return sum(int(it) for it in re.findall(rf"^{name}\{{.*\}} (\d+)$", text, re.M))


def by_bulk(it, count):
    made = lines(count, 1000)
    bodies = ["".join(made[at : at + 1000]) for at in range(0, count, 1000)]
    begun, before = time.monotonic(), it.processor()
    for body in bodies:
        it.post(body)
    return count / (time.monotonic() - begun), (it.processor() - before) * 1e6 / count


def by_single(it, count):
    link = http.client.HTTPConnection("127.0.0.1", it.server.ports.admin(), timeout=PATIENCE)
    made, took = lines(count, 1000), []
    for line in made:
        begun = time.monotonic()
        link.request("POST", "/changes", line)
        link.getresponse().read()
        took.append(time.monotonic() - begun)
    link.close()
    return count / sum(took), 1000 * statistics.median(took), 1000 * sorted(took)[len(took) * 99 // 100]


def changes(given, folder, table, only):
    if "input" in only:
        rate, work = pairs(both(given.program, folder, given.rounds, lambda it: by_input(it, given.puts)))
        table.row("input: changes a second", *rate, due=0.8, is_least=True)
        table.row("input: processor time a change, us", *work)
    if "bulk" in only:
        rate, work = pairs(both(given.program, folder, given.rounds, lambda it: by_bulk(it, given.puts)))
        table.row("POST /changes, 1,000 lines a body: a second", *rate, due=0.8, is_least=True)
        table.row("POST /changes, 1,000 lines: processor time, us", *work)
    if "single" in only:
        rate, middle, slow = pairs(both(given.program, folder, given.rounds, lambda it: by_single(it, max(100, given.puts // 40))))
        table.row("POST /changes, one line a body: a second", *rate)
        table.row("POST /changes, one line: the middle one, ms", *middle)
        table.row("POST /changes, one line: of a hundred the slowest, ms", *slow)


def streams(given, folder, table):
    fanout.raise_descriptors()
    asked = argparse.Namespace(bytes=PAD, readers=max(1, len(os.sched_getaffinity(0)) // 2), puts=20, seconds=20)
    found = ([], [])
    for turn in range(given.rounds):
        for has_store in (False, True):
            file = os.path.join(folder, f"fanout{turn}.db")
            start = f'exec {shlex.quote(given.program)} "$@"' + (f" --store {shlex.quote(file)}" if has_store else "")
            found[has_store].append(fanout.Round(["sh", "-c", start, "sh"], fanout.Case(given.streams, 100, "delta"), asked).found)
    names = [row for row, _ in fanout.ROWS]
    for what, row, due in (("the first client has it, ms", "a put: first client, ms", None), ("the last client has it, ms", "  last client, ms", 1.1), ("processor time, ms", "  processor time, ms", None)):
        at = names.index(row, names.index("a put: first client, ms"))
        table.row(f"a put to {given.streams:,} streams: {what}", *([it[at] * 1000 for it in side] for side in found), due=due)


def start(given, folder, table):
    for count, most in zip(map(int, given.sizes.split(",")), (2, 15)):
        file, made = os.path.join(folder, f"start{count}.db"), os.path.join(folder, f"lines{count}")
        with open(made, "w", encoding="utf-8") as it:
            it.writelines(lines(count, count))
        with_it = Made(given.program, folder, True)
        with open(made, encoding="utf-8") as it:
            text = it.readlines()
        for at in range(0, count, 1000):
            with_it.post("".join(text[at : at + 1000]))
        with_it.close()
        for part in parts(with_it.file):
            os.rename(part, file + part[len(with_it.file) :])
        found = ([], [])
        for _ in range(given.rounds):
            for has_store, more in ((False, ["--load", made]), (True, ["--store", file])):
                server = Server(given.program, Ports(1), *more)
                took = server.ready(LONG)
                it = with_it
                it.server = server
                found[has_store].append((took, it.memory("VmRSS"), it.memory("VmHWM")))
                server.stop()
        took, held, most_held = pairs(found)
        table.row(f"{count:,} writes: until ready, s (without: --load)", *took, absolute=most)
        table.row(f"{count:,} writes: memory once ready, MB", *held)
        table.row(f"{count:,} writes: the most memory, MB", *most_held)
        table.row(f"{count:,} writes: the store's size, MB", [], [sum(os.path.getsize(it) for it in parts(file)) / 1e6])
        begun = time.monotonic()
        stored = writes_of(given.program, file)
        table.row(f"{count:,} writes: `xds writes`, read by this script, s", [], [time.monotonic() - begun])
        if isinstance(stored, str) or len(stored) != count:
            raise SystemExit(f"the store holds {stored if isinstance(stored, str) else len(stored)}")


def size(given, folder, table):
    few = Made(given.program, folder, True)
    few.post("".join(lines(100, 100)))
    least = few.close()
    few.drop()
    it, most = Made(given.program, folder, True), 0
    count = 10 * given.puts
    for at in range(0, count, 1000):
        it.post("".join(lines(1000, 100, at)))
        most = max(most, it.bytes())
    running, held = it.bytes(), it.memory("VmRSS")
    stopped = it.close()
    print(f"     100 names of {PAD} bytes: one put each takes {least:,} bytes; {count:,} puts {running:,} while it runs (at most {most:,}), {stopped:,} once stopped")
    table.row("200,000 puts of 100 names: bytes once stopped", [least], [stopped], due=3)
    table.row("200,000 puts of 100 names: the most while it runs", [least], [most])
    table.row("200,000 puts of 100 names: memory, MB", [], [held])
    it.drop()


def main():
    given = words()
    given.program = os.path.abspath(given.program)
    if not os.path.isfile(given.program):
        sys.exit(2)
    only, table = given.only.split(","), Table()
    with tempfile.TemporaryDirectory(prefix="xds-store-", dir=given.folder) as folder:
        changes(given, folder, table, only)
        if "streams" in only:
            streams(given, folder, table)
        if "start" in only:
            start(given, folder, table)
        if "size" in only:
            size(given, folder, table)
    disk = subprocess.run(["df", "--output=fstype", given.folder], capture_output=True, text=True, check=False).stdout.split()[-1:]
    print(f"medians of {given.rounds} rounds; {os.cpu_count()} processors, load {os.getloadavg()[0]:.1f}; stores on {''.join(disk)}")
    sys.exit(1 if table.missed else 0)


if __name__ == "__main__":
    main()
