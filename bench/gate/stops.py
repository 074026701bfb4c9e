#!/usr/bin/env python3
"""A server whose end, operator's port and recorded traces are tried beside what waits or goes away, over the program itself.

    python3 bench/gate/stops.py crates/xds/out/xds

Starts servers of the program, each on ports of its own, and tries: a stop beside an input without end, and beside an error output that
nobody reads; an operator's port beside a replica that waits for such an output, and beside a long list of changes; recordings whose
folder goes away, moves or takes no more. Each case is bounded in time. Prints a line for each, and the status is 1 where one isn't as it
is to be, and 2 where it can't be tried, since the program isn't there.
"""
import json
import os
import re
import resource
import shutil
import signal
import socket
import subprocess
import sys
import tempfile
import threading
import time
import urllib.error
import urllib.request

from telling import end, free_ports, tell

PROGRAM = sys.argv[1] if len(sys.argv) > 1 else "crates/xds/out/xds"
URL = "type.googleapis.com/envoy.config.route.v3.RouteConfiguration"

# As many seconds as a stop may take: three for what was begun, and some for a machine that is busy.
STOPS = 12

# As many seconds as an answer of the operator's port may take: one, and some for a machine that is busy.
ANSWERS = 5


def small_files():
    """Before the program begins: no file of it has more than 200,000 bytes, and a write beyond fails."""
    signal.signal(signal.SIGXFSZ, signal.SIG_IGN)
    resource.setrlimit(resource.RLIMIT_FSIZE, (200_000, 200_000))


class Server:
    """A server, the operator's port behind those of streams and REST. What it tells is read where `reads` says so."""

    def __init__(self, *words, replicas=1, reads=True, before=None):
        self.port = free_ports(2 * replicas + 1, 20000, 20)
        self.admin_port = self.port + 2 * replicas
        ports = ("--port", str(self.port), "--rest-port", str(self.port + replicas), "--admin-port", str(self.admin_port))
        line = [PROGRAM, "serve", "--replicas", str(replicas), *ports, *words]
        self.run = subprocess.Popen(line, stdin=subprocess.PIPE, stdout=subprocess.PIPE, stderr=subprocess.PIPE, preexec_fn=before)
        self.told = b""
        self.reader = threading.Thread(target=self.read, daemon=True)
        if reads:
            self.reader.start()
        comes(lambda: self.ask("/ready")[0] == 200)

    def read(self):
        while True:
            piece = os.read(self.run.stderr.fileno(), 65536)
            if not piece:
                return
            self.told += piece

    def feed(self, line):
        """Writes a line on the input again and again, in a thread, for as long as the server takes it."""

        def on():
            try:
                while True:
                    self.run.stdin.write(line * 1000)
            except (OSError, ValueError):
                pass

        threading.Thread(target=on, daemon=True).start()

    def ask(self, path, data=None, seconds=30):
        """What the operator's port answers: its status and its text, after how many seconds; a status of 0 where it doesn't."""
        begun = time.time()
        try:
            with urllib.request.urlopen(f"http://127.0.0.1:{self.admin_port}{path}", data=data, timeout=seconds) as reply:
                return reply.status, reply.read().decode(), time.time() - begun
        except urllib.error.HTTPError as error:
            return error.code, error.read().decode(), time.time() - begun
        except OSError:
            return 0, "", time.time() - begun

    def memory(self):
        """How many bytes it has at work."""
        with open(f"/proc/{self.run.pid}/statm", encoding="ascii") as it:
            return int(it.read().split()[1]) * 4096

    def ended(self, seconds=STOPS):
        """Its status, once it has ended within so many seconds; none where it goes on, and then it is killed."""
        try:
            status = self.run.wait(timeout=seconds)
        except subprocess.TimeoutExpired:
            status = None
            self.run.kill()
            self.run.wait()
        if self.reader.is_alive():
            self.reader.join(timeout=5)
        return status

    def stops(self):
        """Whether a stop is answered in time, and the status that it ends with."""
        status, text, took = self.ask("/stop", b"", ANSWERS)
        return (status, text) == (200, "stopping\n") and took < ANSWERS, self.ended()

    def kill(self):
        self.run.kill()
        self.run.wait()


def comes(holds, seconds=20):
    """Whether something comes to hold within so many seconds."""
    until = time.time() + seconds
    while not holds():
        if time.time() > until:
            return False
        time.sleep(0.02)
    return True


def stream(server):
    """A stream that asks for a route, and ends."""
    text = json.dumps({"node": {"id": "n" * 200, "cluster": "c" * 200}, "typeUrl": URL, "resourceNames": ["a"]}).encode()
    with socket.create_connection(("127.0.0.1", server.port), timeout=20) as it:
        it.sendall((len(text) + 1).to_bytes(4, "big") + b"\x01" + text)
        it.shutdown(socket.SHUT_WR)
        while it.recv(4096):
            pass


def put(name, **fields):
    return f"put 1 {json.dumps({'@type': URL, 'name': name, **fields})}\n".encode()


def stopped_and_watched(server):
    """Whether a stop is answered, the status that it ends with, and by how many bytes its memory grew meanwhile."""
    before = most = server.memory()
    answered, until = server.ask("/stop", b"", ANSWERS)[0] == 200, time.time() + STOPS
    while server.run.poll() is None and time.time() < until:
        try:
            most = max(most, server.memory())
        except (OSError, IndexError):
            break
        time.sleep(0.05)
    return answered, server.ended(max(0.1, until - time.time())), most - before


def input_without_end():
    server = Server("--keep-going")
    server.feed(b"y\n")
    comes(lambda: len(server.told) > 200_000)
    answered, status, grew = stopped_and_watched(server)
    tell("it stops beside an input without end", answered and status == 0, (answered, status))
    tell("its memory stays", grew < 4_000_000, grew)
    last = server.told.decode().splitlines()[-1:]
    tell("what it no longer tells is counted", bool(last) and re.fullmatch(r"\d+ lines are left out", last[0]) is not None, last)


def nobody_reads():
    server = Server("--keep-going", reads=False)
    server.feed(b"y\n")
    time.sleep(2)
    before = server.memory()
    time.sleep(2)
    tell("an input that waits to be told takes no memory", server.memory() - before < 4_000_000, (before, server.memory()))
    answered, status, grew = stopped_and_watched(server)
    tell("it stops where refused lines of its input aren't read", answered and status == 0, (answered, status))
    tell("its memory stays where they aren't read", grew < 4_000_000, grew)
    server = Server("--log", reads=False)
    for _ in range(900):
        stream(server)
    answered, status = server.stops()
    tell("it stops where its log isn't read", answered and status == 0, (answered, status))
    server = Server("--log", reads=False)
    for _ in range(400):
        stream(server)
    try:
        server.run.stdin.write(b"put 1 {}\n")
        server.run.stdin.close()
    except OSError:
        pass
    status = server.ended()
    tell("it ends by a bad line where its log isn't read", status == 1, status)


def log_up_to_the_end():
    """What is told before a stop is told whole, where it is read."""
    server = Server("--log")
    for _ in range(50):
        stream(server)
    comes(lambda: json.loads(server.ask("/status")[1])["replicas"][0]["streams"] == [])
    answered, status = server.stops()
    text = server.told.decode()
    tell("all that came before a stop is told", answered and status == 0 and text.count(": ended\n") == 50 and "left out" not in text, text[-300:])


def held_replica():
    """A replica whose thread waits for who reads the error output."""
    server = Server("--keep-going", "--log", reads=False)
    server.feed(b"delete 1 route none\n")
    # The pipe, the notes and the channel are full once nothing more is refused.
    counted = lambda: re.search(r'^xds_changes_refused_total\{replica="1"\} (\d+)$', server.ask("/metrics", seconds=ANSWERS)[1], re.M)
    seen, until = -1, time.time() + 15
    while time.time() < until:
        found = counted()
        if not found or int(found[1]) == seen:
            break
        seen = int(found[1])
        time.sleep(0.5)
    for path, wanted in (("/healthz", 200), ("/ready", 503), ("/metrics", 200), ("/status", 200)):
        status, text, took = server.ask(path, seconds=ANSWERS)
        tell(f"{path} is answered beside a replica that waits", status == wanted and took < ANSWERS, (status, text[:80], took))
    status, text, took = server.ask("/changes", put("a") + b"view\n" + put("b"), 2 * ANSWERS)
    wanted = "line 1: 19 Device\nline 2: 21 BadScript: unknown command\nline 3: 19 Device\n"
    tell("a change that isn't made in time is told as such", (status, text) == (422, wanted) and took < 2 * ANSWERS, (status, text, took))
    for _ in range(20):
        server.ask("/ready", seconds=ANSWERS)
    server.reader.start()
    tell("it is ready once it is read", comes(lambda: server.ask("/ready", seconds=ANSWERS)[0] == 200), server.ask("/ready", seconds=ANSWERS))
    server.kill()
    server = Server("--keep-going", "--log", reads=False)
    server.feed(b"delete 1 route none\n")
    time.sleep(3)
    ready = threading.Thread(target=server.ask, args=("/ready",), daemon=True)
    ready.start()
    time.sleep(0.2)
    answered, status = server.stops()
    tell("it stops beside a replica that waits", answered and status == 0, (answered, status))


def many_changes():
    """Lists of changes that take some seconds."""
    server = Server()
    status, text, alone = server.ask("/changes", b"delete 1 route none\n" * 2_000, 120)
    lines = text.splitlines()
    good = status == 422 and len(lines) == 2_000 and lines[0] == "line 1: 9 NotFound" and lines[-1] == "line 2000: 9 NotFound"
    tell("each line of a list of changes is answered", good, (status, len(lines), lines[:1], lines[-1:]))
    # Three lists of 200,000 take 300 times as long; who waited for all of them would wait for much more than a sixth of that.
    most = min(max(ANSWERS, alone * 300 / 6), 30)
    body = b"delete 1 route none\n" * 200_000
    posts = [threading.Thread(target=server.ask, args=("/changes", body, 60), daemon=True) for _ in range(3)]
    begun = time.time()
    for post in posts:
        post.start()
    time.sleep(0.1)
    slowest, asked = 0.0, 0
    while any(post.is_alive() for post in posts) and (time.time() < begun + 4 or asked < 3 and time.time() < begun + 90):
        status, _, took = server.ask("/healthz", seconds=60)
        slowest, asked = max(slowest, took if status == 200 else 99), asked + 1
        time.sleep(0.01)
    tell("it holds up nobody", slowest < most and asked > 1, (slowest, asked, alone))
    if not any(post.is_alive() for post in posts):
        threading.Thread(target=server.ask, args=("/changes", body, 60), daemon=True).start()
        time.sleep(0.3)
    answered, status = server.stops()
    tell("it stops beside a list of changes", answered and status == 0, (answered, status))


def number(text, name, labels):
    found = re.search(rf"^{name}\{{{re.escape(labels)}\}} (\d+)$", text, re.M)
    return int(found[1]) if found else None


def shown(server, replica=1):
    """What is shown of a replica's recording: the number, and the field of /status."""
    status, text, _ = server.ask("/metrics", seconds=ANSWERS)
    ended = number(text, "xds_recordings_ended_total", f'replica="{replica}"') if status == 200 else None
    status, text, _ = server.ask("/status", seconds=ANSWERS)
    return ended, json.loads(text)["replicas"][replica - 1].get("recording") if status == 200 else None


def judged(path):
    with open(path, "rb") as it:
        run = subprocess.run([PROGRAM, "check"], stdin=it, capture_output=True, text=True, timeout=60, check=False)
    return run.stdout + run.stderr


def recordings():
    folder = tempfile.mkdtemp()
    at = os.path.join(folder, "run")
    os.mkdir(at)
    server = Server("--record", at, replicas=2)
    server.ask("/changes", put("a"))
    tell("a recording that goes on is shown", shown(server) == (0, "goes on"), shown(server))
    os.remove(os.path.join(at, "replica-1.trace"))
    gone = comes(lambda: shown(server) == (1, "19 Device"), 10)
    tell("a recording whose file is gone is shown", gone, shown(server))
    line = b"recording of replica 1 ended: 19 Device\n"
    tell("and told once", comes(lambda: server.told.count(line) == 1, 5), server.told)
    tell("that of another replica goes on", shown(server, 2) == (0, "goes on"), shown(server, 2))
    moved = os.path.join(folder, "moved")
    os.rename(at, moved)
    server.ask("/changes", put("b"))
    time.sleep(2.5)
    tell("a recording whose folder moved goes on", shown(server, 2) == (0, "goes on"), shown(server, 2))
    _, status = server.stops()
    found = judged(os.path.join(moved, "replica-2.trace"))
    tell("and is whole at the end", status == 0 and found == "ok\n" and server.told.count(line) == 1, (status, found, server.told))
    os.mkdir(at)
    server = Server("--record", at)
    server.ask("/changes", put("a"))
    shutil.rmtree(at)
    _, status = server.stops()
    tell("a folder that went just before a stop is told", status == 0 and server.told.endswith(line), server.told)
    os.mkdir(at)
    server = Server("--record", at, before=small_files)
    for place in range(6):
        server.ask("/changes", put(f"big{place}", x="0" * 900_000))
    full = comes(lambda: shown(server) == (1, "19 Device"), 10)
    tell("a recording that finds no room is shown", full, shown(server))
    _, status = server.stops()
    tell("and told once, and the server ends well", status == 0 and server.told.count(line) == 1, (status, server.told))
    shutil.rmtree(folder)


def unread_recording():
    folder = tempfile.mkdtemp()
    server = Server("--log", "--record", folder, reads=False)
    for _ in range(400):
        stream(server)
    answered, status = server.stops()
    found = judged(os.path.join(folder, "replica-1.trace"))
    tell("a trace is whole though the log isn't read", answered and status == 0 and found == "ok\n", (answered, status, found))
    shutil.rmtree(folder)


def main():
    if not os.path.isfile(PROGRAM):
        sys.exit(2)
    cases = (input_without_end, nobody_reads, log_up_to_the_end, held_replica, many_changes, recordings, unread_recording)
    for case in cases:
        if sys.argv[2:] and case.__name__ not in sys.argv[2:]:
            continue
        case()
    end()


if __name__ == "__main__":
    main()
