"""Cases of bench/gate/restart.py: what is answered and stored, stores that are refused, and a disk that is full."""
import json
import os
import re
import resource
import shutil
import socket
import sqlite3
import subprocess
import time

from restart_clients import Delta, Known
from restart_server import (
    PATIENCE,
    TYPES,
    Copy,
    NotReady,
    Ports,
    Server,
    Write,
    body_of,
    compact,
    ended,
    ignoring_size,
    kept,
    parts,
    polled,
    put,
    stamp_of,
    version_of,
    writes_of,
)

PAD = "p" * 600


# ---- what is answered and stored


FIRST = [
    # the type, the name, the groups, and the replica
    ("cluster", "a", (), 1),
    ("cluster", "b", ("g1", "g2"), 2),
    ("endpoint", "a", (), 1),
    ("listener", "\u00e9\"'", (), 2),
    ("route", "a", ("edge",), 1),
    ("secret", "a", (), 2),
]


# rule: stored
def answers(program, folder, tell):
    file, ports = os.path.join(folder, "mesh.db"), Ports(2)
    server = Server(program, ports, "--store", file)
    server.ready()
    tell("the first run of a store has the numbers 1 and 2", list(server.numbers().values()) == [1, 2], server.errors())
    made = "".join(put(kind, name, replica, groups, x=1) for kind, name, groups, replica in FIRST)
    answer = server.post("/changes", made + "delete 1 endpoint a\ndelete 1 route none\nput 1 {}\n" + put("cluster", "c", 7))
    lines = answer.splitlines()
    stamps = [re.fullmatch(rf"line {at + 1}: (\d+)-{replica}", line) for at, (line, (*_, replica)) in enumerate(zip(lines, FIRST))]
    wanted = [r"line 7: \d+-1", "line 8: 9 NotFound", "line 9: 21 BadScript: 4 BadResource", "line 10: 21 BadScript: no such replica"]
    is_good = all(stamps) and len(lines) == 10 and all(re.fullmatch(it, line) for it, line in zip(wanted, lines[6:]))
    tell("changes are answered by their stamps with a store as without one", is_good, answer)
    if not is_good:
        server.stop()
        return None
    due = {(kind, name): Write(stamp_of(line.partition(": ")[2]), body_of(kind, name, x=1), groups) for line, (kind, name, groups, _) in zip(lines, FIRST)}
    due["endpoint", "a"] = Write(stamp_of(lines[6].partition(": ")[2]), None, ())
    for _ in range(3):
        server.kill() if _ == 1 else server.stop()
        found = writes_of(program, file)
        tell(f"`xds writes` shows what was answered, {('after a stop', 'after a kill', 'after two more runs')[_]}", found == due, (found, due))
        tell("and sqlite3 reads the same", rows_of(file)[:2] == ("ok", due), rows_of(file))
        server = Server(program, ports, "--store", file)
        server.ready()
        tell(f"and the next run has the numbers {2 * _ + 3} and {2 * _ + 4}", list(server.numbers().values()) == [2 * _ + 3, 2 * _ + 4], server.errors())
    found = {kind: [(it["name"], it["version"], it["resource"]["x"]) for it in first_of(ports, kind)["resources"]] for kind in ("cluster", "listener")}
    shown = {kind: [(name, version_of(due[kind, name].stamp), 1) for name in names] for kind, names in (("cluster", ["a"]), ("listener", [FIRST[3][1]]))}
    tell("clients are told it by the stamps that it had", found == shown, (found, shown))
    answer = server.post("/changes", put("cluster", "a", 2, x=2))
    tell("and the next change comes after those of all runs", re.fullmatch(r"line 1: (\d+)-8\n", answer) and stamp_of(answer.split()[2]) > due["cluster", "a"].stamp, answer)
    server.stop()
    answered(program, file, tell)
    return file


def rows_of(file):
    copy = Copy(file)
    try:
        return copy.checked(), copy.writes(), copy.next_number()
    finally:
        copy.drop()


def first_of(ports, kind, cluster="g3"):
    """The first response of a fresh delta client of all of a type."""
    client = Delta(Known(), ports, kind, None, cluster, 0)
    with socket.create_connection(("127.0.0.1", ports.stream(1)), timeout=PATIENCE) as link:
        client.send(link, 3, {"node": client.node(), "resourceNamesSubscribe": ["*"]})
        return client.take(link)


def answered(program, file, tell):
    """A request that is answered from a store, by `xds writes` and `xds answer`."""
    before = rows_of(file)
    run = ended(program, "writes", "--store", file)
    tell("`xds writes` leaves what the store holds", run.returncode == 0 and rows_of(file) == before, (run.stderr, rows_of(file), before))
    asked = compact({"typeUrl": TYPES["cluster"][0], "resourceNames": ["a", "b"]})
    found = ended(program, "answer", text=run.stdout + asked + "\n")
    told = [(it["name"], it["x"]) for it in json.loads(found.stdout or "{}").get("resources", [])]
    tell("`xds answer` reads the lines of `xds writes`", found.returncode == 0 and told == [("a", 2), ("b", 1)], (found.stdout, found.stderr))




# ---- stores that are refused


def is_refused(program, ports, file, sentence, what, tell, refused, words=(), is_store=False):
    """That a server over a file is refused by a sentence that begins with its name, and that the file is left as it is: byte for byte, or,
    where it is a store that was read, with what it holds."""
    looked = rows_of if is_store else kept
    before, beside = looked(file), parts(file)
    refused(program, ports, ["--store", file, *words], re.compile(rf"{re.escape(file)}: [^\n]*({sentence})[^\n]*\n"), what)
    after = looked(file)
    tell(f"{what} is left as it is", after == before and parts(file) == beside, (beside, parts(file)))


def made(program, folder, name, count=40):
    """A store with so many writes that was stopped, and its ports."""
    file, ports = os.path.join(folder, name), Ports(2)
    server = Server(program, ports, "--store", file)
    server.ready()
    server.post("/changes", "".join(put("cluster", f"c{it}", 1 + it % 2, x=it, pad=PAD) for it in range(count)))
    server.stop()
    return file, ports


def wrong_stores(program, folder, tell, refused):
    good, ports = made(program, folder, "good.db")
    file = os.path.join(folder, "wrong.db")

    def case(what, sentence, words=()):
        is_refused(program, ports, file, sentence, what, tell, refused, words)
        if os.path.isfile(file):
            found = writes_of(program, file)
            tell(f"{what} is refused by `xds writes`, too", isinstance(found, str) and found.startswith(f"status 1: {file}: "), found)
        for path in parts(file):
            os.remove(path)

    for what, text in (("a text file", "put 1 {}\n"), ("a longer text file", put("cluster", "a", pad=PAD) * 40), ("a file of one byte", "S")):
        with open(file, "w", encoding="utf-8") as it:
            it.write(text)
        case(what, "no store")
    with sqlite3.connect(file) as link:
        link.execute("CREATE TABLE songs (title TEXT, seconds INTEGER)")
        link.execute("INSERT INTO songs VALUES ('a', 180)")
    link.close()
    case("a database of something else", "no store")
    with sqlite3.connect(file) as link:
        link.execute("CREATE TABLE writes (title TEXT, seconds INTEGER)")
    link.close()
    case("a database of another table `writes`", "no store|later format")
    shutil.copy(good, file)
    with sqlite3.connect(file) as link:
        link.execute("ALTER TABLE writes ADD COLUMN more TEXT")
    link.close()
    case("a store of a later format", "later format")
    shutil.copy(good, file)
    with sqlite3.connect(file) as link:
        link.execute("UPDATE writes SET body = '{}' WHERE name = 'c7'")
    link.close()
    case("a store with a row that is no write", "damaged")
    shutil.copy(good, file)
    os.truncate(file, os.path.getsize(file) // 2)
    case("a store of which a half is gone", "damaged|no store")
    killed = os.path.join(folder, "killed.db")
    server = Server(program, ports, "--store", killed)
    server.ready()
    server.post("/changes", put("cluster", "a", x=1))
    server.kill()
    shutil.copy(f"{killed}-wal", f"{file}-wal")
    case("a log without its file", "gone or empty")
    os.mkdir(file)
    refused(program, ports, ["--store", file], re.compile(rf"{re.escape(file)}: [^\n]+\n"), "a folder in place of a store")
    os.rmdir(file)
    nowhere = os.path.join(folder, "none", "mesh.db")
    refused(program, ports, ["--store", nowhere], re.compile(rf"{re.escape(nowhere)}: [^\n]+\n"), "a store in a folder that isn't there")
    damaged(program, good, file, ports, tell)
    in_use(program, good, tell, refused)
    taken(program, folder, tell, refused)
    empty(program, file, ports, tell)


def damaged(program, good, file, ports, tell):
    """A store with a page of noise, each page in turn: it is refused, and left as it is; or the page is one that nobody reads."""
    with open(good, "rb") as it:
        data = it.read()
    whole = writes_of(program, good)
    wrong, refusals = [], 0
    for page in range(len(data) // 4096):
        with open(file, "wb") as it:
            it.write(data[: 4096 * page + 8] + b"\xa5" * 24 + data[4096 * page + 32 :])
        before = kept(file)
        server = Server(program, ports, "--store", file)
        try:
            server.ready()
            server.stop()
            if writes_of(program, file) != whole:
                wrong.append((page, "it is served"))
        except NotReady:
            refusals += 1
            if server.run.returncode != 1 or not re.fullmatch(rf"{re.escape(file)}: [^\n]*(damaged|no store)[^\n]*\n", server.errors()):
                wrong.append((page, server.run.returncode, server.errors()))
            if kept(file) != before:
                wrong.append((page, "it isn't left as it was"))
            server.kill()
        for path in parts(file):
            os.remove(path)
    tell(f"of a store of {len(data) // 4096} pages, each damaged in turn, {refusals} are refused and left as they are", refusals > 5 and not wrong, wrong[:4])


def in_use(program, good, tell, refused):
    ports, others = Ports(2), None
    server = Server(program, ports, "--store", good)
    server.ready()
    others = Ports(2)
    before = os.path.getsize(good)
    errors = refused(program, others, ["--store", good], re.compile(rf"{re.escape(good)}: [^\n]*in use[^\n]*\n"), "a store that another server has")
    answer = server.post("/changes", put("cluster", "more", x=1))
    tell("and the other server goes on", re.fullmatch(r"line 1: \d+-\d+\n", answer) and os.path.getsize(good) >= before, (answer, errors))
    found = writes_of(program, good)
    tell("`xds writes` of a store that is in use says so, or what it holds", "in use" in found if isinstance(found, str) else ("cluster", "more") in found, found)
    answer = server.post("/changes", put("cluster", "more", x=2))
    tell("and the server goes on after that", re.fullmatch(r"line 1: \d+-\d+\n", answer), answer)
    server.stop()
    found = writes_of(program, good)
    tell("and its store holds what it answered", isinstance(found, dict) and found["cluster", "more"].body == body_of("cluster", "more", x=2), found if isinstance(found, str) else "")


def taken(program, folder, tell, refused):
    """Numbers that are said beside a store, and the last ones."""
    file, ports = made(program, folder, "numbers.db", 3)
    is_refused(program, ports, file, "number", "a first number that a run of the store had", tell, refused, ["--first-number", 2], is_store=True)
    server = Server(program, ports, "--store", file, "--first-number", 100)
    server.ready()
    tell("a greater first number is taken", list(server.numbers().values()) == [100, 101], server.errors())
    server.kill()
    is_refused(program, ports, file, "number", "a first number below those of the last run", tell, refused, ["--first-number", 50], is_store=True)
    server = Server(program, ports, "--store", file, "--first-number", 65532)
    server.ready()
    server.stop()
    server = Server(program, ports, "--store", file)
    server.ready()
    tell("the last numbers are taken", list(server.numbers().values()) == [65534, 65535], server.errors())
    server.stop()
    is_refused(program, ports, file, "numbers", "a store whose numbers are used up", tell, refused, is_store=True)
    found = writes_of(program, file)
    tell("and `xds writes` shows what it holds", isinstance(found, dict) and len(found) == 3, found)


def empty(program, file, ports, tell):
    with open(file, "w", encoding="utf-8"):
        pass
    server = Server(program, ports, "--store", file)
    server.ready()
    answer = server.post("/changes", put("route", "a"))
    server.stop()
    found = writes_of(program, file)
    tell("an empty file becomes a store", answer == "line 1: 1-1\n" and isinstance(found, dict) and len(found) == 1, (answer, found))


def stores(program, folder, tell, refused):
    answers(program, folder, tell)
    wrong_stores(program, folder, tell, refused)


# ---- a disk that is full


class Small:
    """A file that may not grow beyond a size, by the limit of the process."""

    name = "a file that may not grow"

    def __init__(self, folder):
        self.file, self.pid = os.path.join(folder, "small.db"), None

    def fill(self, server):
        resource.prlimit(server.run.pid, resource.RLIMIT_FSIZE, (4096, resource.RLIM_INFINITY))

    def free(self, server):
        resource.prlimit(server.run.pid, resource.RLIMIT_FSIZE, (resource.RLIM_INFINITY, resource.RLIM_INFINITY))

    def close(self):
        pass


class Mounted:
    """A small disk in memory, which is mounted, and filled up by another file."""

    name = "a disk that is full"

    def __init__(self, folder):
        self.folder = os.path.join(folder, "mounted")
        os.mkdir(self.folder)
        run = subprocess.run(["mount", "-t", "tmpfs", "-o", "size=4m", "tmpfs", self.folder], capture_output=True, check=False)
        if run.returncode:
            raise OSError("no disk can be mounted")
        self.file, self.filler = os.path.join(self.folder, "small.db"), os.path.join(self.folder, "filler")

    def fill(self, _server):
        with open(self.filler, "wb", buffering=0) as it:
            try:
                while True:
                    it.write(bytes(4096))
            except OSError:
                pass

    def free(self, _server):
        os.remove(self.filler)

    def close(self):
        subprocess.run(["umount", "-l", self.folder], check=False)


# rule: stored
def full_disk(program, folder, tell, refused):
    for kind in (Small, Mounted):
        place = os.path.join(folder, kind.__name__)
        os.mkdir(place)
        try:
            disk = kind(place)
        except OSError as fault:
            print(f"     {kind.name}: {fault}")
            continue
        try:
            filled(program, disk, tell, ends_by="stop")
            filled(program, disk, tell, ends_by="kill")
            stopped_full(program, disk, tell)
        finally:
            disk.close()
    small_at_start(program, folder, tell)


STAMP = r"line \d+: (\d+-\d+)(, not stored)?"


def changed(server, count, x):
    """The answers to puts, one after another: of each the stamp, and whether it is stored."""
    found = []
    for it in range(count):
        answer = server.post("/changes", put("cluster", f"c{it}", 1 + it % 2, x=x, pad=PAD))
        line = re.fullmatch(STAMP + "\n", answer)
        found.append((line[1], not line[2]) if line else (answer, None))
    return found


def filled(program, disk, tell, ends_by):
    """A server whose disk is full for a while."""
    what, ports = f"{disk.name}, with a {ends_by}", Ports(2)
    server = Server(program, ports, "--store", disk.file, "--log", prepare=ignoring_size)
    server.ready()
    before = changed(server, 30, 1)
    tell(f"{what}: all is stored before", all(it[1] for it in before), before[:3])
    disk.fill(server)
    during = changed(server, 80, 2)
    states = [it[1] for it in during]
    tell(f"{what}: changes are made and answered, and those that aren't stored say so", None not in states and not any(states[-20:]), during[-3:])
    found = polled(ports, "cluster", place=2)
    tell(f"{what}: the server goes on serving what it was told", found[0] == 200 and sum(x == 2 for x in found[2].values()) == 80, found[:2])
    shown = server.get("/status")
    tell(f"{what}: /status tells it", '"stor' in shown.lower() and server.run.poll() is None, shown[:300])
    tell(f"{what}: the error output tells it", re.search(r"^.*\bstore\b", server.errors(), re.M), server.errors()[-300:])
    numbers = [it for it in server.get("/metrics").splitlines() if it.startswith("xds_store_")]
    tell(f"{what}: and so do numbers", "xds_store_failing 1" in numbers, numbers)
    if ends_by == "kill":
        server.kill()
        disk.free(server) if isinstance(disk, Mounted) else None
        found = writes_of(program, disk.file)
        stored = [(f"c{at}", it[0]) for at, it in [*enumerate(before), *enumerate(during)] if it[1]]
        gone = [it for it in stored if isinstance(found, str) or ("cluster", it[0]) not in found or found["cluster", it[0]].stamp < stamp_of(it[1])]
        tell(f"{what}: nothing that was answered as stored is gone", not gone, (gone[:3], found if isinstance(found, str) else len(found)))
        return
    disk.free(server)
    again, until = [], time.monotonic() + PATIENCE
    while time.monotonic() < until and not (again and again[-1][1]):
        again += changed(server, 1, 3)
        time.sleep(0.2)
    tell(f"{what}: once there is room again, it stores again", bool(again and again[-1][1]), (again[-2:], server.errors()[-300:]))
    shown = {name: x for name, x in polled(ports, "cluster")[2].items()}
    status, took = server.stop()
    found = writes_of(program, disk.file)
    held = {name: json.loads(it.body)["x"] for (kind, name), it in found.items() if kind == "cluster" and it.body} if isinstance(found, dict) else found
    tell(f"{what}: after the stop the store holds all", status == 0 and held == shown, (status, took, held if isinstance(held, str) else difference(held, shown)))


def difference(held, shown):
    return [(name, held.get(name), shown.get(name)) for name in sorted({*held, *shown}) if held.get(name) != shown.get(name)][:5]


def stopped_full(program, disk, tell):
    """A server that is stopped while its disk is full ends in time, and leaves a store that opens."""
    ports = Ports(2)
    server = Server(program, ports, "--store", disk.file, prepare=ignoring_size)
    server.ready()
    disk.fill(server)
    during = changed(server, 60, 4)
    status, took = server.stop()
    disk.free(server) if isinstance(disk, Mounted) else None
    tell(f"{disk.name}: a stop ends all the same ({took:.1f} s, status {status})", status is not None and took < PATIENCE and None not in [it[1] for it in during], (status, took))
    copy = Copy(disk.file)
    tell(f"{disk.name}: and sqlite3 finds the store whole", copy.checked() == "ok", copy.checked())
    copy.drop()
    server = Server(program, ports, "--store", disk.file)
    try:
        server.ready()
        found = polled(ports, "cluster")
        tell(f"{disk.name}: and it opens again", found[0] == 200 and len(found[2]) >= 30, found[:2])
        server.stop()
    except NotReady as fault:
        tell(f"{disk.name}: and it opens again", False, str(fault))
        server.kill()


def small_at_start(program, folder, tell):
    """Each size of file that a start may run out of: it is refused by a sentence, or serves; and the store is whole behind it."""
    good, ports = made(program, folder, "start.db", 30)
    file = os.path.join(folder, "limited.db")
    whole, wrong, ends = writes_of(program, good), [], {"refused": 0, "served": 0}
    for is_new in (True, False):
        for size in range(0, 45_000, 5000):
            for path in parts(file):
                os.remove(path)
            if not is_new:
                shutil.copy(good, file)
            limit = lambda size=size: (ignoring_size(), resource.setrlimit(resource.RLIMIT_FSIZE, (size, resource.RLIM_INFINITY)))
            server = Server(program, ports, "--store", file, prepare=limit)
            try:
                server.ready()
                ends["served"] += 1
                server.kill()
            except NotReady:
                ends["refused"] += 1
                if server.run.returncode != 1 or not re.fullmatch(rf"{re.escape(file)}: [^\n]+\n", server.errors()):
                    wrong.append((is_new, size, server.run.returncode, server.errors()))
                server.kill()
            server = Server(program, ports, "--store", file)
            try:
                server.ready()
                server.stop()
                found = writes_of(program, file)
                if found != ({} if is_new else whole):
                    wrong.append((is_new, size, "it holds", found if isinstance(found, str) else len(found)))
            except NotReady as fault:
                wrong.append((is_new, size, "it doesn't open again", str(fault)))
                server.kill()
    tell(f"starts whose file may not grow: {ends['refused']} are refused by a sentence, {ends['served']} serve, and each store is whole then", ends["refused"] > 0 and not wrong, wrong[:4])


# ---- each call of the disk fails in turn


CALLS = "pread64,pwrite64,ftruncate,fdatasync,fsync"


class Failing:
    """A server of which one call over the files of its store fails, the one of this number in each of its threads, by strace."""

    def __init__(self, program, ports, file, number, folder):
        self.shown = os.path.join(folder, "calls")
        script = os.path.join(folder, "failing")
        with open(script, "w", encoding="utf-8") as it:
            it.write(f'#!/bin/sh\nexec strace -D -f -qq -o {self.shown} -P {file} -P {file}-wal -e trace={CALLS} -e inject={CALLS}:error=EIO:when={number} {program} "$@"\n')
        os.chmod(script, 0o700)
        self.server = Server(script, ports, "--store", file)

    def failed(self):
        """Which calls failed. What strace saw is whole once it has ended, a moment after the server."""
        until = time.monotonic() + PATIENCE
        while subprocess.run(["pgrep", "-f", f"strace .*{self.shown} "], capture_output=True, check=False).returncode == 0 and time.monotonic() < until:
            time.sleep(0.01)
        with open(self.shown, encoding="utf-8", errors="replace") as it:
            return re.findall(r"(\w+)\(.*\(INJECTED\)", it.read())


def can_trace(folder):
    try:
        run = subprocess.run(["strace", "-D", "-f", "-qq", "-o", "/dev/null", "-P", folder, "-e", "inject=fsync:error=EIO", "true"], capture_output=True, check=False)
        return run.returncode == 0 and not run.stderr
    except OSError:
        return False


def one_fails(program, ports, file, number, folder, count):
    """What is wrong where the call of this number fails; and which calls did, and how the start ended."""
    failing = Failing(program, ports, file, number, folder)
    server, answered, wrong = failing.server, {}, []
    try:
        server.ready()
        end = "served"
        for turn in range(40):
            answer = server.post("/changes", put("cluster", f"c{turn % count}", 1, x=1000 + turn))
            line = re.fullmatch(STAMP + "\n", answer)
            if not line:
                wrong.append(f"a change is answered {answer!r}")
                break
            if not line[2]:
                answered["cluster", f"c{turn % count}"] = stamp_of(line[1])
            if turn >= 12 and not line[2]:
                break
            time.sleep(0.1 if line[2] else 0)
        else:
            wrong.append(f"it stores nothing any more: {server.errors()[-300:]}")
        if server.run.poll() is not None:
            wrong.append(f"it ended: {server.run.returncode}, {server.errors()[-300:]}")
    except NotReady:
        end = "refused"
        if server.run.returncode != 1 or not re.fullmatch(rf"{re.escape(file)}: [^\n]+\n", server.errors()):
            wrong.append(f"it ended with {server.run.returncode}: {server.errors()}")
    server.kill()
    return wrong, failing.failed(), end, answered


def put_back(folder, file, before):
    """Puts the files of a store back as they were."""
    for path in parts(file):
        os.remove(path)
    for name, data in before.items():
        with open(os.path.join(folder, name), "wb") as it:
            it.write(data)


# rule: stored
def failing_calls(program, folder, tell):
    if not can_trace(folder):
        print("     calls that fail: there is no strace here that makes them")
        return
    file, ports, count = os.path.join(folder, "calls.db"), Ports(1), 12
    server = Server(program, ports, "--store", file)
    server.ready()
    server.post("/changes", "".join(put("cluster", f"c{it}", x=it, pad=PAD) for it in range(count)))
    server.kill()
    found, ends, calls = [], {"served": 0, "refused": 0}, {}
    # Over a store that was killed, of which a start reads the log; then over one that was stopped, of which a start reads little, so
    # that calls of commits fail, too.
    for is_stopped in (False, True):
        if is_stopped:
            server = Server(program, ports, "--store", file)
            server.ready()
            server.stop()
        least, before = {key: it.stamp for key, it in writes_of(program, file).items()}, kept(file)
        for number in range(1, 400):
            put_back(folder, file, before)
            wrong, failed, end, answered = one_fails(program, ports, file, number, folder, count)
            if not failed:
                break
            ends[end] += 1
            for it in failed:
                calls[it] = calls.get(it, 0) + 1
            stored = writes_of(program, file)
            if isinstance(stored, str) or any(key not in stored or stored[key].stamp < max(stamp, answered.get(key, (0, 0))) for key, stamp in least.items()):
                wrong.append(f"the store holds {stored if isinstance(stored, str) else 'less than was answered'}")
            found += [(is_stopped, number, failed, end, it) for it in wrong]
        put_back(folder, file, before)
    shown = ", ".join(f"{count} times {it}" for it, count in sorted(calls.items()))
    tell(f"each call of the disk fails in turn ({shown}): {ends['refused']} starts are refused by a sentence, {ends['served']} serve, and no answered change is gone", ends["served"] > 0 and not found, found[:6])


def gone(program, folder, tell):
    """A disk that fails and then lacks the store, as one that is unmounted: no other store takes its place in silence."""
    if not can_trace(folder):
        return
    file, ports, room = os.path.join(folder, "gone.db"), Ports(1), os.path.join(folder, "away")
    server = Server(program, ports, "--store", file, "--first-number", 40)
    server.ready()
    server.post("/changes", "".join(put("cluster", f"a{it}") for it in range(5)))
    flushes = "fdatasync,fsync"
    fault = subprocess.Popen(["strace", "-f", "-qq", "-o", "/dev/null", "-p", str(server.run.pid), "-e", f"trace={flushes}", "-e", f"inject={flushes}:error=EIO"])
    time.sleep(1)
    answer = server.post("/changes", put("cluster", "b"))
    tell("a change that the disk refuses is answered so", re.fullmatch(r"line 1: \d+-40, not stored\n", answer), answer)
    os.mkdir(room)
    for path in parts(file):
        shutil.move(path, room)
    fault.terminate()
    fault.wait()
    answers, until = [], time.monotonic() + 15
    while time.monotonic() < until and not (answers and answers[-1][1]):
        answers += changed(server, 1, 9)
        time.sleep(0.5)
    server.kill()
    is_whole = not any(it[1] for it in answers)
    if not is_whole and os.path.exists(file):
        _, held, following = rows_of(file)
        is_whole = all(("cluster", f"a{it}") in held for it in range(5)) and following > 40
    tell("where the store isn't there any more, nothing is answered as stored in another that lacks its writes and its numbers", is_whole, answers[-1:])
