#!/usr/bin/env python3
"""What clients see of a server that starts again, over the program itself.

    python3 bench/gate/restart.py PROGRAM [--seed S] [--kills N] [--stops N] [--lines N] [--only CASE,..]

Starts servers of the program, with and without a store, stops them, kills them (SIGKILL), and starts them again. Tried are replica
numbers of several runs; a file that is loaded before anybody is answered; stores that are refused; what is answered and stored; a disk
that is full; clean stops (8, or N); and kills at random moments (40, or N), by a seed (0, or S), under changes and clients that stay.
Prints a line for each, and the status is 1 where one isn't as it is to be. A kill leaves what the system has of the files: that a
machine which loses its power leaves what was committed isn't tried here.
"""
import argparse
import collections
import http.client
import json
import os
import random
import re
import shutil
import signal
import socket
import subprocess
import sys
import tempfile
import threading
import time

import restart_holds
import restart_stores
from restart_clients import Delta, Known, Rest, Sotw
from restart_server import PATHS, PATIENCE, Copy, NotReady, Ports, Server, Write, body_of, ended, polled, put, stamp_of, writes_of
from telling import end, tell



# ---- replica numbers


class Probe(Delta):
    """A delta client by hand, with what it holds of an earlier run."""

    def __init__(self, ports, kind, held, place=1):
        super().__init__(Known(), ports, kind, None, "", 0)
        self.link = socket.create_connection(("127.0.0.1", ports.stream(place)), timeout=PATIENCE)
        self.send(self.link, 3, {"node": {"id": "probe"}, "resourceNamesSubscribe": ["*"], "initialResourceVersions": held})

    def next(self):
        response = self.take(self.link)
        self.send(self.link, 3, {"responseNonce": response["nonce"]})
        return {it["name"]: (it["version"], it["resource"].get("x")) for it in response.get("resources", [])}


def two_runs(program, first, second):
    """What a client of the first run that put `a` is told by the second, which put another: by a stream, and by a poll."""
    ports = Ports(1)
    server = Server(program, ports, *first)
    server.ready()
    version = server.post("/changes", put("cluster", "a", x=1)).strip().rpartition(" ")[2]
    info = polled(ports, "cluster")[1]
    server.stop()
    server = Server(program, ports, *second)
    server.ready()
    server.post("/changes", put("cluster", "a", x=2))
    status, _, told = polled(ports, "cluster", info)
    probe = Probe(ports, "cluster", {"a": version})
    server.post("/changes", put("cluster", "b", x=3))
    streamed = {}
    while "b" not in streamed:
        streamed.update(probe.next())
    errors = server.errors()
    server.stop()
    return streamed.get("a", (None, None))[1], (status, told.get("a")), errors


AGAIN = "numbers begin at 1 again: a client of an earlier run may keep what is no longer so; --store or --first-number keeps runs apart\n"


def numbers(program):
    streamed, answered, errors = two_runs(program, (), ())
    tell("without numbers of its own a run says what that means for clients of an earlier one", AGAIN in errors, errors)
    tell("and such a client keeps what is no longer so, as documented", streamed is None and answered[0] == 304, (streamed, answered))
    streamed, answered, errors = two_runs(program, ("--first-number", 1), ("--first-number", 2))
    tell("with the next number a client with versions of an earlier run is told the new body", streamed == 2, streamed)
    tell("and so is a poll with such a version", answered == (200, 2), answered)
    tell("and the start says nothing of numbers that begin again", AGAIN not in errors, errors)
    ports = Ports(2)
    server = Server(program, ports, "--first-number", 7, "--log")
    server.ready()
    lines = [f"replica {k} (number {k + 6}): streams on 127.0.0.1:{ports.stream(k)}, REST on 127.0.0.1:{ports.rest(k)}\n" for k in (1, 2)]
    tell("the lines at the start show places, numbers and ports", all(it in server.errors() for it in lines), server.errors())
    logged = [f"replica {k} (number {k + 6}) listens: streams on 127.0.0.1:{ports.stream(k)}" for k in (1, 2)]
    tell("and so does the log", all(it in server.errors() for it in logged), server.errors())
    shown = [(it["replica"], it["number"]) for it in server.status()["replicas"]]
    tell("and so does /status", shown == [(1, 7), (2, 8)], shown)
    answer = server.post("/changes", put("route", "a", 1, x=1) + put("route", "b", 2, x=1) + put("route", "c", 7, x=1))
    tell("changes go by places, and stamps by numbers", re.fullmatch(r"line 1: \d+-7\nline 2: \d+-8\nline 3: 21 BadScript: no such replica\n", answer), answer)
    server.stop()
    for words in (("--first-number", 0), ("--first-number", 65536), ("--first-number", 65535), ("--first-number", "a")):
        run = ended(program, "serve", *ports.words(), *words)
        tell(f"{' '.join(map(str, words))} of two replicas is wrong words", run.returncode == 2 and "--first-number" in run.stderr, (run.returncode, run.stderr))
    ports = Ports(1)
    server = Server(program, ports, "--first-number", 65535)
    server.ready()
    answer = server.post("/changes", put("route", "a", x=1))
    tell("the greatest number is taken", answer == "line 1: 1-65535\n", answer)
    server.stop()


# ---- a file that is loaded


class Early(threading.Thread):
    """A client that connects from before the ports are bound, and keeps the first that it is told."""

    def __init__(self, ports, kind, variant, names, place):
        super().__init__(daemon=True)
        self.client = variant(Known(), ports, kind, names, "", 0)
        self.ports, self.kind, self.names, self.place, self.first = ports, kind, names, place, None
        self.start()

    def run(self):
        until = time.monotonic() + 2 * PATIENCE
        while time.monotonic() < until and self.first is None:
            try:
                with socket.create_connection(("127.0.0.1", self.client.port_of(self.place)), timeout=PATIENCE) as link:
                    self.first = self.told(link)
            except (OSError, EOFError, http.client.HTTPException):
                time.sleep(0.001)

    def told(self, link):
        if isinstance(self.client, Rest):
            asks = http.client.HTTPConnection("127.0.0.1", 0)
            asks.sock = link
            asks.request("POST", PATHS[self.kind], json.dumps({"resourceNames": self.names or []}))
            reply = asks.getresponse()
            text = reply.read()
            if reply.status == 503:
                time.sleep(0.3)
                return None
            return self.client.name_of, reply.status, json.loads(text) if reply.status == 200 else {}
        if isinstance(self.client, Delta):
            self.client.send(link, 3, {"node": {"id": "early"}, "resourceNamesSubscribe": self.names or ["*"]})
        else:
            self.client.send(link, 1, {"node": {"id": "early"}, "resourceNames": self.names or []})
        return None, 200, self.client.take(link)

    def names_told(self):
        if self.first is None:
            return None
        return len(self.first[2].get("resources", []))


# How many of each ten lines are of a type.
SHARES = {"cluster": 4, "listener": 3, "route": 3}


def early(ports, kinds):
    """Early clients of each of these, at both places, of each variant."""
    return [Early(ports, kind, variant, names, place) for place in (1, 2) for variant in (Delta, Sotw, Rest) for kind, names in kinds]


def early_clients(program, counts, words, what):
    """That each of 18 early clients is told all, and nothing before that."""
    ports = Ports(2)
    routes = [f"r{it}" for it in range(counts["route"])]
    clients = early(ports, [("cluster", None), ("listener", None), ("route", routes)])
    time.sleep(0.05)
    server = Server(program, ports, *words)
    took = server.ready()
    for it in clients:
        it.join(PATIENCE)
    found = {(it.client.who, it.place): it.names_told() for it in clients if it.names_told() != counts[it.kind]}
    tell(f"{what}: none of {len(clients)} early clients is told a part", not found, found)
    answer = server.post("/changes", put("cluster", "c0", 2, x=2))
    server.stop()
    return took, answer


def lines_of(counts):
    kinds = {"cluster": "c", "listener": "l", "route": "r"}
    return "".join(put(kind, f"{kinds[kind]}{it}", 1 + it % 2, x=1) for kind, count in counts.items() for it in range(count))


def loads(program, folder, count):
    file, counts = os.path.join(folder, "lines"), {kind: share * count // 10 for kind, share in SHARES.items()}
    with open(file, "w", encoding="utf-8") as it:
        it.write("# all of it\n\n" + lines_of(counts))
    took, answer = early_clients(program, counts, ["--first-number", 5, "--load", file], f"a file of {count:,} lines")
    tell(f"what is put then comes after all of the file ({took:.1f} s)", answer == f"line 1: {counts['cluster'] + 1}-6\n", answer)
    ports = Ports(2)
    # (what a line is, and what is told)
    wrong = [
        ("put 1 {}", "line 3: 21 BadScript"),
        ("delete 1 route none", "line 3: 9 NotFound"),
        (put("cluster", "a", 3).strip(), "line 3: 21 BadScript"),
        ("view 1 cluster", "line 3: 21 BadScript"),
        ("putin 1  " + body_of("cluster", "a"), "line 3: 21 BadScript"),
    ]
    for line, told in wrong:
        with open(file, "w", encoding="utf-8") as it:
            it.write(put("cluster", "a") + "# more\n" + line + "\n" + put("cluster", "b"))
        refused(program, ports, ["--load", file], f"{file}: {told}", f"a file with the line {line[:20]!r}")
    refused(program, ports, ["--load", f"{file}.none"], f"{file}.none: 19 Device: no such file", "a file that isn't there")
    refused(program, ports, ["--load", folder], f"{folder}: 19 Device", "a folder in place of a file")
    forbidden(program, ports, file)
    with open(file, "w", encoding="utf-8") as it:
        it.write(put("cluster", "a") + "delete 2 cluster a\n" + put("cluster", "b", 2)[:-1])
    server = Server(program, ports, "--load", file, "--first-number", 3)
    server.ready()
    found = polled(ports, "cluster", place=2)
    tell("a file with a deletion, and without a last line feed, is loaded", found[2] == {"b": None}, found)
    server.stop()


def forbidden(program, ports, file):
    """A file that who runs the server may not read. Of root there is no such file, so it is run as another user."""
    with tempfile.TemporaryDirectory(prefix="xds-forbidden-") as folder:
        copied = os.path.join(folder, "xds")
        shutil.copy(program, copied)
        os.chmod(copied, 0o755)
        os.chmod(folder, 0o755)
        file = shutil.copy(file, folder)
        os.chmod(file, 0 if os.getuid() else 0o600)
        refused(copied, ports, ["--load", file], f"{file}: 19 Device: not allowed", "a file that it may not read", prepare=None if os.getuid() else as_nobody)


def as_nobody():
    os.setgroups([])
    os.setgid(65534)
    os.setuid(65534)


def refused(program, ports, words, wanted, what, prepare=None):
    """That a server of these words ends with status 1, tells this and nothing else, and served nothing before."""
    run = subprocess.Popen([program, "serve", *ports.words(), *map(str, words)], stdin=subprocess.DEVNULL, stderr=subprocess.PIPE, text=True, preexec_fn=prepare)
    served, until = False, time.monotonic() + PATIENCE
    while run.poll() is None and time.monotonic() < until:
        for port in (ports.stream(1), ports.rest(1), ports.admin()):
            try:
                socket.create_connection(("127.0.0.1", port), timeout=1).close()
                served = run.poll() is None
            except OSError:
                pass
        time.sleep(0.001)
    run.kill()
    errors = run.stderr.read()
    run.stderr.close()
    is_told = errors.startswith(wanted) and errors.count("\n") == 1 if isinstance(wanted, str) else wanted.fullmatch(errors)
    tell(f"{what} is refused: {errors.strip()[-60:]}", run.wait() == 1 and is_told and not served, (run.returncode, errors, "it served" if served else ""))
    return errors


# ---- lives of a server: kills and stops


PLAN = [
    # the variant, the type, names or all, and the cluster of the node
    (Delta, "cluster", None, ""),
    (Delta, "cluster", None, "g1"),
    (Delta, "route", [f"n{it}" for it in range(6)], ""),
    (Delta, "endpoint", [f"n{it}" for it in range(4)], "g2"),
    (Delta, "listener", None, ""),
    (Sotw, "cluster", None, ""),
    (Sotw, "cluster", None, "g2"),
    (Sotw, "listener", None, "g1"),
    (Sotw, "route", [f"n{it}" for it in range(6)], ""),
    (Rest, "cluster", None, ""),
    (Rest, "listener", None, "g2"),
    (Rest, "secret", [f"n{it}" for it in range(4)], ""),
]
KINDS = ["cluster", "cluster", "cluster", "listener", "route", "endpoint", "secret"]
NAMES = {"cluster": 8, "listener": 5, "route": 6, "endpoint": 4, "secret": 4}
# Clusters and listeners that never change, so that a part of them is seen.
ANCHORS = 60


# rule: stored
class Writer(threading.Thread):
    """Makes changes, until its server doesn't answer: by bodies of one to eight lines, or by the input, which isn't answered."""

    def __init__(self, life, server, seed, by_input):
        super().__init__(daemon=True)
        self.known, self.server, self.numbers = life.known, server, life.numbers
        self.pick, self.by_input, self.is_over, self.made = random.Random(seed), by_input, False, 0
        self.start()

    def line(self):
        """A change, and its line."""
        pick = self.pick
        kind = pick.choice(KINDS)
        name, replica, word = f"n{pick.randrange(NAMES[kind])}", pick.randint(1, self.server.ports.replicas), pick.random()
        if word < 0.2:
            return (kind, name, None, (), replica), f"delete {replica} {kind} {name}\n"
        groups = tuple(sorted(pick.sample(["g1", "g2", "g3"], pick.randint(1, 2)))) if word < 0.35 else ()
        fields = {"x": self.known.next(), "pad": "p" * pick.choice([0, 10, 400, 3000])}
        return (kind, name, body_of(kind, name, **fields), groups, replica), put(kind, name, replica, groups, **fields)

    def run(self):
        while not self.is_over:
            made = [self.line() for _ in range(self.pick.choice([1, 1, 1, 2, 8]))]
            with self.known.lock:
                for (kind, name, body, groups, _), _ in made:
                    self.known.sends(kind, name, body, groups)
            text = "".join(line for _, line in made)
            try:
                if self.by_input:
                    self.server.feed(text)
                    time.sleep(self.pick.uniform(0, 0.01))
                else:
                    self.answered(made, *self.server.ask("/changes", text))
            except (OSError, ValueError, http.client.HTTPException):
                return
            self.made += len(made)

    def answered(self, made, status, answer):
        lines = answer.splitlines()
        # A line that doesn't end with a stamp is refused, or its replica didn't answer in time.
        refused = sum(not re.fullmatch(r"line \d+: \d+-\d+", it) for it in lines)
        wanted = 200 if not refused else 422 if refused == len(lines) else 207
        with self.known.lock:
            if status != wanted or len(lines) != len(made):
                self.known.fault(f"{len(made)} changes are answered {status}: {answer!r}")
            for number, ((kind, name, body, groups, replica), _) in enumerate(made[: len(lines)]):
                found = re.fullmatch(rf"line {number + 1}: (\d+)-(\d+)", lines[number])
                if not found and body is None and lines[number] == f"line {number + 1}: 9 NotFound":
                    continue
                if lines[number] == f"line {number + 1}: 19 Device":
                    # Its replica didn't answer within a second, on a machine that is busy: it may still be made.
                    self.known.late_count += 1
                    continue
                if not found or int(found[2]) != self.numbers[replica]:
                    self.known.fault(f"{'a deletion' if body is None else 'a put'} of {kind} {name} at replica {replica} of {self.numbers} is answered {lines[number]!r}")
                    continue
                self.known.in_time += 1
                self.known.answers(kind, name, Write((int(found[1]), int(found[2])), body, groups))


# rule: stored
class Life:
    """A store, the server over it, which is started again and again at the same ports, and clients that stay."""

    def __init__(self, program, folder, pick, plan=PLAN):
        self.program, self.file, self.pick = program, os.path.join(folder, "mesh.db"), pick
        self.ports, self.known, self.server, self.numbers = Ports(2), Known(), None, {}
        self.next, self.start_time = 1, 0.3
        self.clients = [variant(self.known, self.ports, kind, names, cluster, pick.random()) for variant, kind, names, cluster in plan]
        self.counts = collections.Counter()

    def begin(self):
        """A store with all that never changes."""
        self.known.begin({})
        server = self.start(is_first=True)
        made = [(kind, f"anchor{it}", body_of(kind, f"anchor{it}", x=self.known.next(), pad="a" * 300)) for kind in ("cluster", "listener") for it in range(ANCHORS)]
        made += [("listener", "gone", body_of("listener", "gone"))]
        for kind, name, body in made:
            self.known.sends(kind, name, body, ())
        until = time.monotonic() + PATIENCE
        while made and time.monotonic() < until:
            answer = server.post("/changes", "".join(f"put {1 + at % 2} {body}\n" for at, (_, _, body) in enumerate(made)))
            late = []
            for change, line in zip(made, answer.splitlines()):
                found = re.fullmatch(r"line \d+: (\d+-\d+)", line)
                if found:
                    self.known.answers(change[0], change[1], Write(stamp_of(found[1]), change[2], ()))
                else:
                    late.append(change)
            made = late
        if made:
            self.known.fault(f"the first changes aren't answered: {answer[-200:]!r}")
        self.stopped(server)
        for client in self.clients:
            client.start()

    def start(self, is_first=False):
        words = ["--store", self.file, "--keep-going"]
        server = Server(self.program, self.ports, *words)
        if is_first:
            server.ready()
            self.said(server)
        return server

    def said(self, server):
        """The numbers of a server that is ready: as its lines say them, and as /status does."""
        self.numbers = server.numbers()
        shown = {it["replica"]: it["number"] for it in server.status()["replicas"]}
        with self.known.lock:
            if shown != self.numbers or set(shown) != {1, 2}:
                self.known.fault(f"/status shows the numbers {shown}, and the lines at the start {self.numbers}")

    def settled(self, stored, patience=PATIENCE):
        """Waits until each client shows what is stored."""
        until = time.monotonic() + patience
        waiting = list(self.clients)
        while waiting and time.monotonic() < until:
            waiting = [it for it in waiting if not it.shows_all(stored)]
            time.sleep(0.004)
        for it in waiting:
            self.known.fault(f"{it.who} is stale: it shows {it.shows()!r}, and is to show {it.wanted(stored)!r}"[:1500])
        return not waiting

    def writers(self, server):
        return [Writer(self, server, self.pick.random(), by_input) for by_input in (False, False, True)]

    def is_left(self, server, writers):
        """Waits until nobody has anything of a server that has ended."""
        for number in server.numbers().values():
            self.known.has_number(number, self.known.run)
        for it in writers:
            it.is_over = True
            it.join(PATIENCE)
            self.counts["changes"] += it.made
        turns = {it: it.turns for it in self.clients if it.is_alive()}
        until = time.monotonic() + PATIENCE
        while any(it.turns <= turn for it, turn in turns.items()) and time.monotonic() < until:
            time.sleep(0.002)

    def after(self, server, writers=(), is_clean=False):
        """Looks at the store of a server that has ended, and begins the next run."""
        self.is_left(server, writers)
        copy = Copy(self.file)
        try:
            self.looked_at(copy, server, is_clean)
        finally:
            copy.drop()

    def looked_at(self, copy, server, is_clean):
        checked = copy.checked()
        if checked != "ok":
            self.known.fault(f"sqlite3 says of the store: {checked[:300]}")
        by_sqlite, following = copy.writes(), copy.next_number()
        stored = writes_of(self.program, self.file)
        if isinstance(stored, str):
            self.known.fault(f"xds writes: {stored}")
            stored = by_sqlite
        if stored != by_sqlite:
            self.known.fault(f"xds writes and sqlite3 read the store differently: {[(stored.get(it), by_sqlite.get(it)) for it in {*stored, *by_sqlite} if stored.get(it) != by_sqlite.get(it)][:3]}")
        said = server.numbers().values()
        if any(not self.next <= it < following for it in said):
            self.known.fault(f"the replicas have the numbers {[*said]}, and the store's next ones were {self.next} and are {following}")
        self.next = following
        self.known.ends(stored, is_clean)
        self.known.begin(stored)

    def stopped(self, server, writers=()):
        status, took = server.stop()
        if status != 0 or took > PATIENCE:
            self.known.fault(f"a stop ended with {status} after {took:.1f} s: {server.errors()[-300:]}")
        self.after(server, writers, is_clean=True)

    # One run that is killed: while it starts, while it serves, or while it stops.
    def killed(self):
        moment = self.pick.random()
        server = self.start()
        writers = []
        try:
            if moment < 0.25:
                time.sleep(self.pick.uniform(0, 1.3 * self.start_time))
                self.counts["at the start"] += 1
            else:
                self.start_time = 0.8 * self.start_time + 0.2 * server.ready()
                self.said(server)
                if self.settled(self.known.stored):
                    self.counts["settled"] += 1
                writers = self.writers(server)
                time.sleep(self.pick.uniform(0, 0.4))
                self.counts["at a stop" if moment > 0.9 else "under changes"] += 1
                if moment > 0.9:
                    threading.Thread(target=self.ask_stop, args=(server,), daemon=True).start()
                    time.sleep(self.pick.uniform(0, 0.06))
        except NotReady as fault:
            self.known.fault(f"it doesn't start again: {fault}")
        server.kill()
        self.after(server, writers)

    def ask_stop(self, server):
        try:
            server.post("/stop")
        except (OSError, http.client.HTTPException):
            pass

    # One run that is stopped under changes.
    def stops(self):
        server = self.start()
        try:
            server.ready()
            self.said(server)
            self.settled(self.known.stored)
        except NotReady as fault:
            self.known.fault(f"it doesn't start again: {fault}")
        writers = self.writers(server)
        time.sleep(self.pick.uniform(0, 0.6))
        self.stopped(server, writers)

    def over(self):
        for it in self.clients:
            it.is_over = True


def lived(life, what, kills, one):
    begun = time.monotonic()
    life.begin()
    for _ in range(kills):
        one()
        if len(life.known.faults) >= 8:
            break
    # The last run of all is left to come to rest.
    server = life.start(is_first=True)
    life.settled(life.known.stored)
    life.stopped(server)
    life.over()
    told = sum(it.told for it in life.clients)
    counts = ", ".join(f"{count} {word}" for word, count in sorted(life.counts.items()))
    print(f"     {what}: {kills} in {time.monotonic() - begun:.0f} s ({counts}; {len(life.known.answered)} names answered, {told} responses, {len(life.known.bodies)} versions, {len(life.known.numbers)} numbers seen)")
    by_kind = {
        "no client is stale once it came back": "is stale",
        "none is told a part of the world, or what isn't so": "is told",
        "no change that was answered is gone or comes back": "the store holds",
        "no version stands for two bodies": "stands for",
        "no replica number comes twice": "number",
        "sqlite3 and `xds writes` find the store whole": "sqlite3",
    }
    left = list(life.known.faults)
    for line, word in by_kind.items():
        mine = [it for it in left if word in it]
        left = [it for it in left if it not in mine]
        tell(f"{what}: {line}", not mine, mine[:3])
    tell(f"{what}: all else is as it is to be", not left, left[:4])
    tell(f"{what}: {life.known.in_time} changes are answered, {life.known.late_count} aren't in time", life.known.in_time > 2 * life.known.late_count)


CASES = ("numbers", "loads", "holds", "writes", "stores", "disk", "calls", "stops", "kills")


def main():
    parser = argparse.ArgumentParser(description=__doc__, formatter_class=argparse.RawDescriptionHelpFormatter)
    parser.add_argument("program")
    parser.add_argument("--seed", type=int, default=0)
    parser.add_argument("--kills", type=int, default=40)
    parser.add_argument("--stops", type=int, default=8)
    parser.add_argument("--lines", type=int, default=10000, help="of a file that is loaded")
    parser.add_argument("--ports", type=int, default=24000, help="the least port that a server may have")
    parser.add_argument("--only", default=",".join(CASES))
    given = parser.parse_args()
    if not os.path.isfile(given.program):
        sys.exit(2)
    Ports.least = given.ports
    signal.signal(signal.SIGTERM, lambda number, _: sys.exit(128 + number))
    program, pick = os.path.abspath(given.program), random.Random(given.seed)
    only, begun = given.only.split(","), time.monotonic()
    with tempfile.TemporaryDirectory(prefix="xds-restart-") as folder:
        for case in only:
            place = os.path.join(folder, case)
            os.mkdir(place)
            if case == "numbers":
                numbers(program)
            elif case == "loads":
                loads(program, place, given.lines)
            elif case == "holds":
                restart_holds.holds(program, tell, early, lines_of)
            elif case == "writes":
                restart_holds.given(program, place, tell)
            elif case == "stores":
                restart_stores.stores(program, place, tell, refused)
            elif case == "disk":
                restart_stores.full_disk(program, place, tell, refused)
            elif case == "calls":
                restart_stores.failing_calls(program, place, tell)
                restart_stores.gone(program, place, tell)
            elif case == "stops":
                life = Life(program, place, pick)
                lived(life, "clean stops", given.stops, life.stops)
            else:
                life = Life(program, place, pick)
                lived(life, "kills", given.kills, life.killed)
    end(f"all is as it is to be, in {time.monotonic() - begun:.0f} s")


if __name__ == "__main__":
    main()
