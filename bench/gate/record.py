#!/usr/bin/env python3
"""Records a run of `xds serve`, and has `xds check` judge what was recorded.

    python3 bench/gate/record.py [--streams N] [--puts M] [--whole] [--seed S] [--keep DIR] PROGRAM [CASE ..]

PROGRAM is the built program, as crates/xds/out/xds. Two replicas serve N streams (40) of both variants, by turns, which accept
responses and now and then reject one, ask for more names, and end and come anew; meanwhile M changes (300) are put, for either
replica, some of them deletions. --whole is the run of 1,000 streams and 10,000 puts. Then the server is stopped, and

    each trace is checked `ok`, and has a line for each change that its replica was given;
    so is that of a run whose journals are cut again and again, beside an operator who looks at it (segments);
    copies that are spoilt are told: some as no trace, some by the rule that is broken;
    a server that is killed, and one that may write no more, leave files that are told as no trace;
    the latter goes on serving, and tells it;
    folders that aren't there, and files that are, are told at the start.

Prints how long the run took, the bytes of each trace, the most memory that the server had, and how long a check takes. With CASEs
(whole, segments, killed, full, refused) it tries these alone.
Status 1 where something isn't as it is to be.
"""
import argparse
import json
import os
import random
import re
import resource
import selectors
import shutil
import signal
import socket
import subprocess
import sys
import tempfile
import time
import urllib.error
import urllib.request

from telling import end, free_ports, tell

TYPES = {"cluster": "cluster.v3.Cluster", "route": "route.v3.RouteConfiguration"}
URLS = {word: f"type.googleapis.com/envoy.config.{rest}" for word, rest in TYPES.items()}
NAMES = [f"n{number}" for number in range(30)]
QUIET = 1.5
PATIENCE = 3600
NONCE = re.compile(rb'"nonce":"(\d+)"')
KIND = re.compile(rb'"typeUrl":"([^"]*)"[^"]*(?:"versionInfo":"[^"]*")?\}$')


def change(pick, number):
    """A line of the input."""
    replica, word, name = pick.choice((1, 2)), pick.choice(list(URLS)), pick.choice(NAMES)
    if pick.random() < 0.05:
        return f"delete {replica} {word} {name}\n"
    body = {"@type": URLS[word], "altStatName": f"change {number} " + "x" * pick.randrange(60), "name": name}
    if pick.random() < 0.03:
        body["reject"] = True
    return f"put {replica} {json.dumps(body)}\n"


class Server:
    """A server of two replicas. Its operator's port is the fifth."""

    def __init__(self, program, folder, *words, prepare=None):
        self.port = free_ports(5, 22000)
        ports = ("--port", str(self.port), "--rest-port", str(self.port + 2), "--admin-port", str(self.port + 4))
        line = [program, "serve", "--keep-going", "--record", folder, *ports, *words]
        pipe = subprocess.PIPE
        self.errors = tempfile.TemporaryFile()
        self.run = subprocess.Popen(line, stdin=pipe, stdout=subprocess.DEVNULL, stderr=self.errors, preexec_fn=prepare, restore_signals=False)
        for _ in range(600):
            try:
                if self.ask("/ready") == "ready\n":
                    return
            except OSError:
                pass
            if self.run.poll() is not None:
                break
            time.sleep(0.05)
        sys.exit(f"the server isn't ready: {self.told()!r}")

    def ask(self, path, data=None):
        with urllib.request.urlopen(f"http://127.0.0.1:{self.port + 4}{path}", data=data, timeout=60) as reply:
            return reply.read().decode()

    def look(self, path):
        """What is answered once a replica's thread that is busy answers in time."""
        for _ in range(60):
            try:
                return self.ask(path)
            except urllib.error.HTTPError as error:
                if error.code != 503:
                    raise
            time.sleep(0.2)
        return self.ask(path)

    def told(self):
        self.errors.seek(0)
        return self.errors.read().decode(errors="replace")

    def memory(self):
        """The most that it had, in MB."""
        with open(f"/proc/{self.run.pid}/status", encoding="ascii") as file:
            return int(re.search(r"^VmHWM:\s+(\d+)", file.read(), re.M)[1]) * 1024 / 1e6

    def stop(self):
        """Its status, and how many seconds it took to end."""
        begun = time.time()
        self.ask("/stop", b"")
        self.run.stdin.close()
        return self.run.wait(timeout=120), time.time() - begun


class Client:
    """A stream. It answers each response, and asks for other names now and then."""

    def __init__(self, pick, number, port, watch):
        self.pick, self.delta = pick, number % 2 == 0
        self.socket = socket.create_connection(("127.0.0.1", port + number // 2 % 2), timeout=60)
        self.watch, self.got, self.out = watch, bytearray(), bytearray()
        self.names = {word: ["*"] if pick.random() < 0.2 and word == "cluster" else pick.sample(NAMES, 6) for word in URLS}
        for word in URLS:
            node = {"node": {"id": f"client {number}"}} if word == "cluster" else {}
            names = {"resourceNamesSubscribe" if self.delta else "resourceNames": self.names[word]}
            self.send({"typeUrl": URLS[word], **node, **names})
        self.socket.setblocking(False)
        watch.register(self.socket, selectors.EVENT_READ | selectors.EVENT_WRITE, self)

    def send(self, message):
        text = json.dumps(message).encode()
        self.out += (len(text) + 1).to_bytes(4, "big") + bytes([3 if self.delta else 1]) + text

    def turn(self, events):
        if events & selectors.EVENT_READ:
            piece = self.socket.recv(1 << 18)
            if not piece:
                raise ConnectionError("a stream was ended")
            self.got += piece
            self.take()
        if self.out:
            try:
                del self.out[: self.socket.send(self.out)]
            except BlockingIOError:
                pass
        wanted = selectors.EVENT_READ | (selectors.EVENT_WRITE if self.out else 0)
        self.watch.modify(self.socket, wanted, self)

    def take(self):
        while len(self.got) >= 5:
            end = 4 + int.from_bytes(self.got[:4], "big")
            if len(self.got) < end:
                return
            text = bytes(self.got[5:end])
            del self.got[:end]
            self.answer(text)

    def answer(self, text):
        nonce = NONCE.search(text)[1].decode()
        word = next(word for word in URLS if text.rfind(URLS[word].encode()) == text.rfind(b"type.googleapis.com", text.rfind(b'"typeUrl":"')))
        said = {"typeUrl": URLS[word], "responseNonce": nonce}
        if not self.delta:
            said["resourceNames"] = self.names[word]
        if b'"reject":true' in text:
            said["errorDetail"] = {"code": 13, "message": "no"}
        elif self.names[word] != ["*"] and self.pick.random() < 0.02:
            name = self.pick.choice(NAMES)
            if name not in self.names[word]:
                self.names[word] = self.names[word] + [name]
                said["resourceNamesSubscribe" if self.delta else "resourceNames"] = [name] if self.delta else self.names[word]
        self.send(said)

    def end(self):
        self.watch.unregister(self.socket)
        self.socket.close()


def drive(server, pick, streams, puts):
    """Opens the streams, writes the changes, and answers until all is quiet."""
    watch = selectors.DefaultSelector()
    clients = [Client(pick, number, server.port, watch) for number in range(streams)]
    lines = b"".join(change(pick, number).encode() for number in range(puts))
    pipe = server.run.stdin.fileno()
    os.set_blocking(pipe, False)
    watch.register(pipe, selectors.EVENT_WRITE, None)
    at, last, begun, opened = 0, time.time(), time.time(), streams
    while time.time() - last < QUIET:
        if time.time() - begun > PATIENCE:
            sys.exit("it takes too long")
        for key, events in watch.select(timeout=0.2):
            if key.data is None:
                try:
                    # In pieces, so that clients come to see states between.
                    at += os.write(pipe, lines[at : at + 2048])
                except BlockingIOError:
                    pass
                last = time.time()
                if at >= len(lines):
                    watch.unregister(pipe)
            else:
                before = len(key.data.out)
                key.data.turn(events)
                if events & selectors.EVENT_READ or before:
                    last = time.time()
        if at // 8192 > opened - streams:
            place = pick.randrange(streams)
            clients[place].end()
            clients[place] = Client(pick, opened, server.port, watch)
            opened += 1
    return clients


def checked(program, path):
    """What `xds check` says of a file: its output, its error output, and its seconds."""
    begun = time.time()
    with open(path, "rb") as file:
        ran = subprocess.run([program, "check"], stdin=file, capture_output=True, check=False)
    return ran.stdout.decode().strip(), ran.stderr.decode().strip(), time.time() - begun


def is_no_trace(said):
    return said[0] == "" and re.fullmatch(r"line \d+: 22 BadTrace", said[1].partition("\n")[0])


def place_of(pick, lines, fits):
    """The place of a line that fits, somewhere in the trace."""
    places = [at for at, line in enumerate(lines) if fits(line)]
    return pick.choice(places)


def spoilt(pick, lines):
    """Spoilt copies: of each what was done, the lines, and whether it is no trace (or breaks a rule)."""
    stream = rb"(?:request|response) (\d+) "
    at = place_of(pick, lines, lambda it: it.startswith(b"response") and re.search(rb"change \d", it))
    number = re.match(stream, lines[at])[1]
    yield "a response that stands twice", lines[: at + 1] + [lines[at]] + lines[at + 1 :], False
    yield "a response without a nonce", lines[:at] + [NONCE.sub(b'"nonce":""', lines[at])] + lines[at + 1 :], False
    yield "a response with another body", lines[:at] + [re.sub(rb"change \d", b"chance 9", lines[at])] + lines[at + 1 :], False
    yield "a response of the other kind", lines[:at] + [re.sub(rb"^(response \d+ )(\d)", lambda it: it[1] + (b"4" if it[2] == b"2" else b"2"), lines[at])] + lines[at + 1 :], True
    opens = next(it for it, line in enumerate(lines) if line == b"open " + number)
    yield "a stream that isn't opened", lines[:opens] + lines[opens + 1 :], True
    yield "a gap with the opening of a stream in it", lines[: max(opens - 3, 0)] + lines[opens + 1 :], True
    yield "a line that is cut", lines[:-1] + [lines[-1][: len(lines[-1]) // 2]], True
    yield "a line that is no JSON", lines[:at] + [lines[at][:-1]] + lines[at + 1 :], True
    yield "the first byte", [b"?" + lines[0][1:]] + lines[1:], True
    later = [it for it, line in enumerate(lines) if line.startswith(b"response " + number + b" ")]
    write = place_of(pick, lines[: later[-1]], lambda it: it.startswith(b"write "))
    yield "a write in the midst of a word", lines[:write] + [lines[write].replace(b'"counter":', b'"count":')] + lines[write + 1 :], True


def answers(lines):
    """The place of a request that answers a response, before the next response of its type on its stream."""
    for at, line in enumerate(lines):
        found = re.match(rb'response (\d+) ', line)
        if not found:
            continue
        kind = line[line.rfind(b'"typeUrl":"') :].split(b'"')[3]
        asked = None
        for later in range(at + 1, len(lines)):
            if lines[later].startswith(b"request " + found[1] + b" ") and kind in lines[later]:
                asked = later if asked is None else -1
            if lines[later].startswith(b"response " + found[1] + b" ") and kind in lines[later]:
                if asked is not None and asked > 0:
                    return asked
                break
    return None


def look_at(program, folder, pick, puts):
    for replica in (1, 2):
        path = f"{folder}/replica-{replica}.trace"
        said = checked(program, path)
        size = os.path.getsize(path)
        tell(f"the trace of replica {replica} is ok ({size} bytes, {said[2]:.1f} s)", said[:2] == ("ok", ""), said)
        with open(path, "rb") as file:
            lines = file.read().split(b"\n")
        tell("it ends with its last line", lines.pop() == b"")
        words = [line.split(b" ", 1)[0] for line in lines]
        told = {word: words.count(word.encode()) for word in ("write", "open", "request", "response", "close")}
        tell(f"its lines: {told}", all(told.values()) and told["write"] >= puts * 0.4, told)
        copies = list(spoilt(pick, lines))
        asked = answers(lines)
        if asked is not None:
            copies.append(("an answer that is left out", lines[:asked] + lines[asked + 1 :], False))
        for what, copy, is_bad in copies:
            with open(f"{folder}/copy", "wb") as file:
                file.write(b"\n".join(copy) + (b"" if what == "a line that is cut" else b"\n"))
            said = checked(program, f"{folder}/copy")
            right = is_no_trace(said) if is_bad else re.fullmatch(r"broken \d+ P[1-8]", said[0])
            tell(f"told: {what}: {said[0] or said[1]}", right, said)


def whole_run(program, folder, pick, given):
    server = Server(program, folder)
    begun = time.time()
    clients = drive(server, pick, given.streams, given.puts)
    took, memory = time.time() - begun - QUIET, server.memory()
    status, seconds = server.stop()
    told = server.told()
    tell(f"the server ends with status 0, in {seconds:.1f} s", status == 0 and seconds < 10, (status, told))
    tell("nothing is told of its recording", "recording" not in told, told)
    print(f"     {given.streams} streams, {given.puts} puts: {took:.1f} s, most memory {memory:.0f} MB")
    for client in clients:
        client.end()
    look_at(program, folder, pick, given.puts)


# rule: cuts
def segments(program, folder, pick):
    """Puts of 30 kB, of which a journal of 4 MiB has 140; a stream that is told of some; and an operator who looks at all of it."""
    server = Server(program, folder)
    link = socket.create_connection(("127.0.0.1", server.port), timeout=60)
    file = link.makefile("rwb")
    send = lambda message: (file.write((len(message) + 1).to_bytes(4, "big") + b"\x03" + message), file.flush())
    send(json.dumps({"typeUrl": URLS["route"], "resourceNamesSubscribe": ["n0"]}).encode())
    for turn in range(4):
        lines = [{"@type": URLS["route"], "altStatName": f"{turn} {at} " + "x" * 30_000, "name": f"n{at}"} for at in range(40)]
        answer = server.ask("/changes", "".join(f"put 1 {json.dumps(it)}\n" for it in lines).encode())
        tell(f"40 puts of 30 kB are made ({turn})", answer.count("-1\n") == 40, answer[:200])
        # Up to the last put of the name: a stream is told no more often than it answers.
        while True:
            text = file.read(int.from_bytes(file.read(4), "big"))[1:]
            send(json.dumps({"typeUrl": URLS["route"], "responseNonce": NONCE.search(text)[1].decode()}).encode())
            if f'"{turn} 0 '.encode() in text:
                break
        for path in ("/metrics", "/status", "/ready"):
            server.look(path)
    until, cuts, changes = time.time() + 60, [0, 0], []
    while time.time() < until and (min(cuts) < 1 or changes != [160, 160]):
        text = server.ask("/metrics")
        of = lambda name: [int(it) for it in re.findall(rf"^xds_{name}\{{replica=\"[12]\"(?:,type=\"route\")?\}} (\d+)$", text, re.M)]
        cuts, changes = of("cuts_total"), of("changes_total")
        time.sleep(0.1)
    tell("each journal is cut, and each put comes to both replicas", min(cuts) >= 1 and changes == [160, 160], (cuts, changes))
    link.close()
    status, _ = server.stop()
    tell("the server ends with status 0", status == 0, status)
    tell("nothing is told of its recording", "recording" not in server.told(), server.told())
    for replica in (1, 2):
        path = f"{folder}/replica-{replica}.trace"
        said = checked(program, path)
        tell(f"the trace of replica {replica}, of several segments, is ok", said[:2] == ("ok", ""), said)
        with open(path, "rb") as trace:
            lines = trace.read().split(b"\n")
        # What replica 2 was told it tells replica 1 in turn, so that a write may have a line more than once.
        count = len({line for line in lines if line.startswith(b"write ")})
        tell(f"each put is a line of its trace ({replica})", count == 160, count)
    count = sum(line.startswith(b"response ") for line in lines)
    tell("no response is a line of the trace of another replica", count == 0, count)


def killed(program, folder, pick):
    server = Server(program, folder)
    drive(server, pick, 4, 30)
    server.run.send_signal(signal.SIGKILL)
    server.run.wait()
    for replica in (1, 2):
        said = checked(program, f"{folder}/replica-{replica}.trace")
        tell("of a server that is killed there is no trace", is_no_trace(said), said)


def full(program, folder, pick):
    """A server none of whose files may have more than so many bytes."""

    def limit():
        resource.setrlimit(resource.RLIMIT_FSIZE, (20_000, 20_000))
        signal.signal(signal.SIGXFSZ, signal.SIG_IGN)

    server = Server(program, folder, prepare=limit)
    drive(server, pick, 10, 300)
    answer = server.ask("/changes", change(random.Random(3), 1).encode())
    tell("a server that may write no more goes on", answer.startswith("line 1: "), answer)
    status, seconds = server.stop()
    told = server.told()
    tell("it ends with status 0", status == 0 and seconds < 10, status)
    for replica in (1, 2):
        line = f"recording of replica {replica} ended: 19 Device\n"
        tell("it tells that a recording ended, once", told.count(line) == 1, told)
        said = checked(program, f"{folder}/replica-{replica}.trace")
        tell("what was recorded is told as no trace", is_no_trace(said), said)


def refused(program, folder):
    os.mkdir(f"{folder}/is_there")
    open(f"{folder}/is_there/replica-2.trace", "wb").close()
    cases = {
        "none": "none/replica-1.trace: 19 Device: no such folder\n",
        "copy": "copy/replica-1.trace: 19 Device: no such folder\n",
        "is_there": "is_there/replica-2.trace: 19 Device: it is there already\n",
    }
    open(f"{folder}/copy", "wb").close()
    port = free_ports(4, 22000)
    for name, wanted in cases.items():
        words = [program, "serve", "--port", str(port), "--rest-port", str(port + 2), "--record", f"{folder}/{name}"]
        ran = subprocess.run(words, stdin=subprocess.DEVNULL, capture_output=True, text=True, timeout=60, check=False)
        found = (ran.returncode, ran.stdout, ran.stderr)
        tell(f"told at the start: {wanted.strip()}", found == (1, "", f"{folder}/{wanted}"), found)
    tell("no file is left behind", os.listdir(f"{folder}/is_there") == ["replica-2.trace"], os.listdir(f"{folder}/is_there"))


def main():
    words = argparse.ArgumentParser(description="Records a run of xds serve, and checks it.")
    words.add_argument("--streams", type=int, default=40)
    words.add_argument("--puts", type=int, default=300)
    words.add_argument("--whole", action="store_true", help="1,000 streams and 10,000 puts")
    words.add_argument("--seed", type=int, default=1)
    words.add_argument("--keep", help="a folder that isn't there, in which the files are left")
    words.add_argument("program")
    words.add_argument("cases", nargs="*", metavar="CASE")
    given = words.parse_args()
    if given.whole:
        given.streams, given.puts = 1000, 10_000
    soft, hard = resource.getrlimit(resource.RLIMIT_NOFILE)
    resource.setrlimit(resource.RLIMIT_NOFILE, (hard, hard))
    program = os.path.abspath(given.program)
    folder = given.keep or tempfile.mkdtemp(prefix="recorded-")
    pick = random.Random(given.seed)
    cases = {
        "whole": lambda at: whole_run(program, at, pick, given),
        "segments": lambda at: segments(program, at, pick),
        "killed": lambda at: killed(program, at, pick),
        "full": lambda at: full(program, at, pick),
        "refused": lambda at: refused(program, at),
    }
    if set(given.cases) - set(cases):
        sys.exit(f"the cases are {' '.join(cases)}")
    try:
        for name in given.cases or cases:
            os.makedirs(f"{folder}/{name}")
            cases[name](f"{folder}/{name}")
    finally:
        if not given.keep:
            shutil.rmtree(folder)
    end()


main()
