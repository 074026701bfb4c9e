"""A server that bench/gate/restart.py and bench/load/store.py start, stop and kill, again and again at the same ports; and what a store's file
holds, by the program and by Debian's sqlite3."""
import atexit
import collections
import glob
import http.client
import json
import os
import re
import shutil
import signal
import sqlite3
import subprocess
import tempfile
import threading
import time
import sys

sys.path.insert(0, os.path.abspath(f"{__file__}/../../oracle"))
from play import TYPES
from telling import free_ports

# The longest that anything is waited for, in seconds: XDS_PATIENCE, or 60.
PATIENCE = int(os.environ.get("XDS_PATIENCE", "60"))
WORDS = {url: word for word, (url, *_) in TYPES.items()}
PATHS = {word: f"/v3/discovery:{word}s" for word in TYPES}
REPLICA = re.compile(r"^replica (\d+)(?: \(number (\d+)\))?: streams on .*\n", re.M)

# A stamped write: a pair of numbers, and the body's text, or none of a deletion.
Write = collections.namedtuple("Write", "stamp body groups")


def compact(value):
    return json.dumps(value, sort_keys=True, separators=(",", ":"), ensure_ascii=False)


def body_of(kind, name, **fields):
    """The compact text of a resource."""
    url, field, _, _ = TYPES[kind]
    return compact({"@type": url, field: name, **fields})


def put(kind, name, replica=1, groups=(), **fields):
    return (f"putin {replica} {','.join(groups)} " if groups else f"put {replica} ") + body_of(kind, name, **fields) + "\n"


def stamp_of(version):
    counter, _, writer = version.partition("-")
    return int(counter), int(writer)


def version_of(stamp):
    return "%d-%d" % stamp


class Ports:
    least = 24000

    def __init__(self, replicas):
        self.replicas, self.first = replicas, free_ports(2 * replicas + 1, Ports.least, 25)

    def stream(self, place):
        return self.first + place - 1

    def rest(self, place):
        return self.first + self.replicas + place - 1

    def admin(self):
        return self.first + 2 * self.replicas

    def words(self):
        return ["--replicas", str(self.replicas), "--port", str(self.stream(1)), "--rest-port", str(self.rest(1)), "--admin-port", str(self.admin())]


class NotReady(Exception):
    pass


RUNNING = set()


@atexit.register
def none_is_left():
    for run in RUNNING:
        run.kill()


class Server:
    """A server that runs. Its error output is collected as it comes."""

    def __init__(self, program, ports, *words, prepare=None):
        self.ports, self.text, self.begun = ports, b"", time.monotonic()
        pipe = subprocess.PIPE
        words = [program, "serve", *ports.words(), *map(str, words)]
        self.run = subprocess.Popen(words, stdin=pipe, stdout=subprocess.DEVNULL, stderr=pipe, preexec_fn=prepare, restore_signals=prepare is None, start_new_session=True)
        RUNNING.add(self.run)
        self.reader = threading.Thread(target=self.read, daemon=True)
        self.reader.start()

    def read(self):
        while piece := os.read(self.run.stderr.fileno(), 1 << 16):
            self.text += piece

    def errors(self):
        return self.text.decode(errors="replace")

    def ask(self, path, text=None, patience=PATIENCE):
        """The status and the body of a reply at the operator's port."""
        link = http.client.HTTPConnection("127.0.0.1", self.ports.admin(), timeout=patience)
        try:
            link.request("GET" if text is None else "POST", path, None if text is None else text.encode())
            reply = link.getresponse()
            return reply.status, reply.read().decode()
        finally:
            link.close()

    def get(self, path):
        return self.ask(path)[1]

    def post(self, path, text=""):
        return self.ask(path, text)[1]

    def feed(self, text):
        self.run.stdin.write(text.encode())
        self.run.stdin.flush()

    def ready(self, patience=PATIENCE):
        """Waits until it says that it is ready. Answers the seconds since it was started."""
        until = time.monotonic() + patience
        while time.monotonic() < until:
            if self.run.poll() is not None:
                self.reader.join()
                raise NotReady(f"it ended with status {self.run.returncode}: {self.errors()}")
            try:
                if self.ask("/ready", patience=5)[0] == 200:
                    took = time.monotonic() - self.begun
                    self.has_said(until)
                    return took
            except (OSError, http.client.HTTPException):
                pass
            time.sleep(0.005)
        raise NotReady(f"it wasn't ready after {patience} s: {self.errors()}")

    def has_said(self, until):
        """Waits until the lines of all its replicas have been read."""
        while len(self.numbers()) < self.ports.replicas and time.monotonic() < until:
            time.sleep(0.001)

    def numbers(self):
        """The numbers of its replicas, by place, as its first lines say them: all, or what came of them."""
        return {int(place): int(number or place) for place, number in REPLICA.findall(self.errors())}

    def status(self):
        return json.loads(self.get("/status"))

    def closed(self):
        for file in (self.run.stdin, self.run.stderr):
            try:
                file.close()
            except OSError:
                pass

    def kill(self):
        self.run.kill()
        self.run.wait()
        RUNNING.discard(self.run)
        self.reader.join()
        self.closed()

    def stop(self, patience=PATIENCE):
        """Stops it. Answers its status, and how many seconds that took; no status where it had to be killed."""
        begun = time.monotonic()
        try:
            self.post("/stop")
            status = self.run.wait(timeout=patience)
        except (OSError, http.client.HTTPException, subprocess.TimeoutExpired):
            status = self.run.poll()
        took = time.monotonic() - begun
        self.kill()
        return status, took


def ended(program, *words, seconds=PATIENCE, text="", **more):
    """A run of the program that ends by itself."""
    return subprocess.run([program, *map(str, words)], input=text, capture_output=True, text=True, timeout=seconds, check=False, **more)


def polled(ports, kind, version="", place=1, names=()):
    """The status of a poll, its version, and each name with what was put."""
    link = http.client.HTTPConnection("127.0.0.1", ports.rest(place), timeout=PATIENCE)
    link.request("POST", PATHS[kind], json.dumps({"versionInfo": version, "resourceNames": list(names)}))
    reply = link.getresponse()
    text = reply.read()
    link.close()
    if reply.status != 200:
        return reply.status, "", {}
    told = json.loads(text)
    return 200, told["versionInfo"], {it[TYPES[kind][1]]: it.get("x") for it in told.get("resources", [])}


def parts(file):
    """The files of a store: the one of its name, and what lies beside it."""
    return sorted(it for it in glob.glob(glob.escape(file) + "*"))


def kept(file):
    """All bytes of a store's files, by name."""
    found = {}
    for path in parts(file):
        if os.path.isfile(path):
            with open(path, "rb") as it:
                found[os.path.basename(path)] = it.read()
    return found


def writes_of(program, file):
    """The writes of a store, by `xds writes`, by type and name; or why there are none, as a text."""
    run = ended(program, "writes", "--store", file)
    if run.returncode:
        return f"status {run.returncode}: {run.stderr}"
    found, order = {}, []
    for line in run.stdout.splitlines():
        it = json.loads(line)
        kind = WORDS[it["typeUrl"]]
        body = None if it.get("body") is None else compact(it["body"])
        found[kind, it["name"]] = Write((it["counter"], it["writer"]), body, tuple(it.get("groups") or ()))
        order.append((list(TYPES).index(kind), it["name"].encode()))
    return found if order == sorted(set(order)) else "the lines aren't in order, or a name comes twice"


class Copy:
    """A copy of a store's files, in which sqlite3 may do what it likes."""

    def __init__(self, file):
        self.folder = tempfile.mkdtemp(prefix="xds-copy-")
        for path in parts(file):
            if os.path.isfile(path):
                shutil.copy(path, self.folder)
        self.file = os.path.join(self.folder, os.path.basename(file))

    def checked(self):
        """What sqlite3 says of it."""
        run = subprocess.run(["sqlite3", self.file, "PRAGMA integrity_check"], capture_output=True, text=True, timeout=PATIENCE, check=False)
        return (run.stdout + run.stderr).strip()

    def rows(self, words):
        link = sqlite3.connect(self.file)
        try:
            return link.execute(words).fetchall()
        finally:
            link.close()

    def writes(self):
        found = {}
        for kind, name, counter, writer, body, groups in self.rows("SELECT type, name, counter, writer, body, groups FROM writes"):
            found[kind, name] = Write((counter, writer), body, tuple(json.loads(groups)))
        return found

    def next_number(self):
        rows = self.rows("SELECT next_number FROM replica_numbers")
        return rows[0][0] if rows else 1

    def drop(self):
        shutil.rmtree(self.folder, ignore_errors=True)


def ignoring_size():
    """In a process that is to be refused a larger file, and not to be killed by it."""
    signal.signal(signal.SIGXFSZ, signal.SIG_IGN)
