#!/usr/bin/env python3
"""Measures how a put fans out to many streams, by `xds serve` and by a plain Rust server (bench/load/plain), side by side.

    python3 bench/load/fanout.py [--streams N,N..] [--clusters N,N..] [--variant sotw|delta] [--rounds N] PROGRAM
    python3 bench/load/fanout.py --names N [--of N] [--streams N,N..] [--variant sotw|delta] [--rounds N] PROGRAM
    python3 bench/load/fanout.py --check PROGRAM

PROGRAM is the built program, as crates/xds/out/xds. The plain server proves nothing and is meant to be quick; this
script has cargo build it, from Debian's packages (`cargo`, `librust-serde-json-dev`). For each case the two run in
turns, each time a server of its own with one replica, and what is printed is the median of the rounds. In a round
the clusters are put, the streams are opened and ask for all of them, and accept every response; then clusters of
those are put again.

With --names each stream names so many endpoints of those that there are (--of), at random and in each run the same,
so that a put concerns few streams: about ten of 1,000 that name 100 of 10,000 each. These alone are to be told of it,
in state of the world, too, since of endpoints a response has what the client lacks. The rows are:

    all settled first       from the first connection until the last stream has all it asks for, and processor time
    first put               of the one put that comes after: until the first and the last client that it concerns has
                            it, and processor time
    a put                   the same of the middle one of the puts that follow (--puts), one after another, each once
                            all is quiet; its processor time is the mean, and so is that for a stream it concerns
    switches                voluntary context switches of the server's threads for a put, the mean; without --names
                            for a put and stream
    streams it concerns     with --names, of the puts: the mean
    puts at once            20 puts by one write: until the last client has the last that concerns it, and responses
                            for a stream that they concern
    memory                  settled: once all streams are settled (VmRSS); peak: at most until the end (VmHWM)
    threads                 of the server, once all streams are settled
    readers                 the clients' processor time for one of the puts, and its share of what they could have

Processor time is the server's alone, of all its threads: by the clock of its process, or where there is none by
/proc/PID/stat. It is taken once the server is quiet, so that it has the work for the acceptances, too.

Reading isn't what is measured, for these reasons. When a response came is told by the kernel, which stamps the bytes
as they reach the client's socket (SO_TIMESTAMPNS), and not by when this script came to read them. The clients are
processes of their own (--readers), each with one epoll and no threads, and of a lower priority than the server
(nice 5). Of a long response they read the head, the resource that was put and the end, and have the kernel drop the
rest uncopied (MSG_TRUNC). A response is answered only once it was read, which is behind its time. The row `readers`
says what is left: where they are busy for most of a put, the last client may be late by them, and most where a long
response waits for room; processor time, switches and memory are the server's alone.

A case takes about three minutes at most (--minutes). No more puts one after another begin once they took 20 seconds
(--seconds), where there were three, nor once the case took its time. No further round begins where it wouldn't end in
time by what the longest before took, and how many there were is told. A case that takes twice its time is given up, as
one that can't be run here. What all streams together would be sent to settle, or by a put in state of the world, is
bounded, too (--gigabytes).

Where connections come faster than a server accepts them, and its queue of them is full, the kernel has them ask again
after a second. That is part of `all settled first`. How often it was so on this machine, meanwhile, is told.

A stream takes a descriptor of the server and one of its reader. This script raises their number for itself, the
readers and the servers, as far as it may; 10,000 streams take as many ports of 127.0.0.1, too.

A client looks at each response: a delta must be, byte by byte, what was put since the last, and one of more than
200,000 bytes as long as that; a state of the world must be as long as all clusters are and have the puts in their
places, or, where short, be the same bytes. Of named endpoints a response must be those that the client names and that
were put since, in the same way, and a client that names none of those must have none. With --check nothing is timed:
both servers answer random stories of puts, deletions, requests, refusals and new streams, with the star and with names,
each byte compared with the reading of the protocol in bench/oracle/play.py, and PROGRAM's own client is shown the same
by both.

Status 1 where a client saw what it shouldn't, as an old version or a put that doesn't concern it, or where one that is
to be told isn't; 2 where a case that was asked for can't be run here, as with too few descriptors, or where there is no
cargo; cases that are left out for their size are told."""
import argparse
import glob
import math
import multiprocessing
import multiprocessing.connection
import os
import re
import resource
import select
import shutil
import signal
import socket
import statistics
import struct
import subprocess
import sys
import time
from typing import NamedTuple

import fanout_check
from fanout_server import PATIENCE, NoServer, NotHere, Server, Wrong, framed
from fanout_story import Named, Story

TOP = os.path.dirname(os.path.dirname(os.path.dirname(os.path.abspath(__file__))))
PLAIN = f"{TOP}/bench/load/plain"
VARIANTS = ("delta", "sotw")
BURST = 20
# Descriptors that are needed beside those of the streams.
BESIDE = 100
# How long a server may do nothing while a response is waited for, in seconds.
STILL = 30
# A response up to this length is read whole; of a longer one, so much at its begin and its end.
WHOLE, HEAD, TAIL = 200_000, 4096, 160
# Linux's SO_TIMESTAMPNS, for which Python has no name.
TIMESTAMPS = 35
NONCE = re.compile(rb'\{"nonce":"(\d+)"')
VERSION = re.compile(rb'"(?:systemVersionInfo":"1\.(\d+)","typeUrl":"[^"]*"|versionInfo":"1\.(\d+)(?:\.named)?")\}$')


# ---- clients


SINK = memoryview(bytearray(1 << 24))


class Client:
    """A stream that accepts whatever it is sent, and looks at it. It is told what to look for by its reader."""

    def __init__(self, reader, port, number):
        self.reader, self.number, self.version, self.responses = reader, number, 0, 0
        self.asked = reader.story.asked(number)
        self.socket = socket.create_connection(("127.0.0.1", port), PATIENCE)
        self.socket.setsockopt(socket.IPPROTO_TCP, socket.TCP_NODELAY, 1)
        self.socket.setsockopt(socket.SOL_SOCKET, TIMESTAMPS, 1)
        # It waits to write and not to read.
        self.socket.settimeout(None)
        self.begin()
        names = "resourceNamesSubscribe" if reader.is_delta else "resourceNames"
        self.ask(b'{"%s":%s,"typeUrl":"%s"}' % (names.encode(), self.asked, reader.story.url.encode()))

    def ask(self, text):
        self.socket.sendall(framed(3 if self.reader.is_delta else 1, text))

    def begin(self):
        """The next response: what is kept of it, in which parts it is read, how far it is, and how long."""
        self.kept, self.parts, self.at, self.length = b"", [(HEAD, True)], 0, None

    def take(self):
        """Reads what is there."""
        while True:
            edge, is_kept = self.parts[-1]
            try:
                if is_kept:
                    data, told, _, _ = self.socket.recvmsg(edge - self.at, 64, socket.MSG_DONTWAIT)
                    count = len(data)
                    self.kept += data
                else:
                    flags = socket.MSG_TRUNC | socket.MSG_DONTWAIT
                    count, told, _, _ = self.socket.recvmsg_into([SINK[: edge - self.at]], 64, flags)
            except BlockingIOError:
                return
            if not count:
                raise Wrong("a stream was closed")
            self.at += count
            if self.length is None and self.at >= 64:
                self.plan()
            if self.at == self.length:
                self.whole(told)
                return
            while self.parts[-1][0] <= self.at:
                self.parts.pop()

    def plan(self):
        """Which parts of the response are read, once its begin is there: ends and whether they are kept, last first."""
        self.length = int.from_bytes(self.kept[:4], "big") + 4
        found = NONCE.match(self.kept[5:64])
        if not found:
            raise Wrong(f"no response: {self.kept[:64]}")
        self.nonce, self.head = found.group(1), 5 + found.end()
        self.is_whole = self.length <= WHOLE
        if self.is_whole:
            self.parts = [(self.length, True)]
            return
        story, (cluster, count) = self.reader.story, self.reader.looked_at
        ends = [(self.length, True), (self.length - TAIL, False)]
        if not self.reader.is_delta and story.is_whole:
            # The bodies that are looked at, where they aren't within the begin or the end.
            first = self.head + story.place(cluster)
            ends += [(first + count * (story.length + 1) - 1, True), (first, False)]
            self.slice = min(first, self.at)
        self.parts = ends

    def whole(self, told):
        """Looks at a response that is there, and accepts it."""
        reader, story = self.reader, self.reader.story
        found = VERSION.search(self.kept[-TAIL:])
        version = int(found.group(1) or found.group(2)) if found else 0
        if version <= self.version or version > story.version():
            raise Wrong(f"version {version} after {self.version}, of {story.version()}: {self.kept[-TAIL:]}")
        if not self.is_whole and not reader.is_delta and story.is_whole:
            is_right = self.length == self.head + story.whole_length(version) and self.has_puts(version)
        else:
            wanted = story.response(reader.is_delta, self.number, self.version, version)
            if wanted is None:
                raise Wrong(f"a stream that names none of what changed was told: {self.kept[:300]}")
            is_right = self.kept[self.head :] == wanted if self.is_whole else self.length == self.head + len(wanted)
        if not is_right:
            seen = f"{self.kept[:300]} .. {self.kept[-TAIL:]}"
            raise Wrong(f"of version {version}, where the client had {self.version}, came {self.length} bytes: {seen}")
        self.accept(version)
        self.responses += 1
        # The kernel stamps nothing for a moment after it was first asked to.
        when = struct.unpack("qq", told[0][2]) if told else divmod(time.time_ns(), 1_000_000_000)
        reader.saw(self, version, when[0] * 1_000_000_000 + when[1])
        self.version = version
        self.begin()

    def has_puts(self, version):
        """Whether the clusters that are looked at are as they were put last."""
        story, (cluster, count) = self.reader.story, self.reader.looked_at
        latest = story.latest(self.reader.since, version)
        for one in range(cluster, cluster + count):
            # What is kept before them is all until there, or the begin.
            begin = self.slice + (one - cluster) * (story.length + 1)
            if one in latest and self.kept[begin : begin + story.length] != story.body(one, latest[one]):
                return False
        return True

    def accept(self, version):
        story = self.reader.story
        if self.reader.is_delta:
            said = b'{"responseNonce":"%s","typeUrl":"%s"}' % (self.nonce, story.url.encode())
        else:
            said = b'{"resourceNames":%s,"responseNonce":"%s","typeUrl":"%s","versionInfo":"1.%d%s"}'
            said %= (self.asked, self.nonce, story.url.encode(), version, story.mark)
        self.ask(said)


class Reader:
    """A process with some of the clients."""

    def __init__(self, pipe, story, variant):
        self.pipe, self.story, self.is_delta = pipe, story, variant == "delta"
        self.clients, self.poll, self.numbers = {}, select.epoll(), range(0)
        self.due, self.looked_at, self.since = {}, (0, 1), 0
        self.left, self.first, self.last, self.responses = 0, 0, 0, 0

    def want(self, since, looked_at, changes):
        """From now on, it is told once all clients have the changes after one that concern them, and more of them."""
        self.since = since
        for resource in changes:
            self.story.put(resource)
        self.due, self.looked_at = self.story.due(self.numbers, since, self.story.version()), looked_at
        self.left, self.first, self.last = len(self.due), 0, 0
        self.responses = sum(it.responses for it in self.clients.values())
        self.begun = time.process_time()
        self.pipe.send(("ready",))
        self.tell_seen()

    def saw(self, client, version, when):
        """A client was told of a version, and has the one before."""
        if client.version < self.due.get(client.number, 0) <= version:
            self.first = min(self.first or when, when)
            self.last = max(self.last, when)
            self.left -= 1
            self.tell_seen()

    def tell_seen(self):
        if not self.left:
            responses = sum(it.responses for it in self.clients.values()) - self.responses
            self.pipe.send(("seen", self.first, self.last, responses, time.process_time() - self.begun))

    def open(self, port, numbers):
        self.numbers = numbers
        self.want(0, (self.story.count - 1, 1), [])
        for number in numbers:
            client = Client(self, port, number)
            self.clients[client.socket.fileno()] = client
            self.poll.register(client.socket, select.EPOLLIN)
            self.step(0)

    def end(self):
        """Takes what came that nobody waits for, so that it is looked at."""
        while self.step(0):
            pass
        self.pipe.send(("ended",))

    def step(self, seconds):
        """Does what there is to do. Answers whether there was something."""
        events = self.poll.poll(seconds)
        for number, _ in events:
            if number == self.pipe.fileno():
                word, *values = self.pipe.recv()
                getattr(self, word)(*values)
            else:
                self.clients[number].take()
        return bool(events)

    def run(self):
        try:
            self.poll.register(self.pipe.fileno(), select.EPOLLIN)
            while True:
                self.step(-1)
        except EOFError:
            pass
        except Exception as fault:  # pylint: disable=broad-except
            self.pipe.send(("wrong", isinstance(fault, Wrong), f"{type(fault).__name__}: {fault}"))


def read_for(pipe, others, story, variant):
    signal.signal(signal.SIGINT, signal.SIG_IGN)
    signal.signal(signal.SIGTERM, signal.SIG_DFL)
    os.nice(5)
    for it in others:
        it.close()
    Reader(pipe, story, variant).run()


class Readers:
    """All clients of a case, in processes of their own."""

    def __init__(self, count, streams, story, variant, gives_up):
        self.gives_up = gives_up
        self.shares = [range(streams * it // count, streams * (it + 1) // count) for it in range(count)]
        self.pipes, self.runs = [], []
        context = multiprocessing.get_context("fork")
        for _ in range(count):
            ours, theirs = context.Pipe()
            run = context.Process(target=read_for, args=(theirs, [*self.pipes, ours], story, variant), daemon=True)
            run.start()
            theirs.close()
            self.pipes.append(ours)
            self.runs.append(run)

    def tell(self, *words):
        for pipe in self.pipes:
            pipe.send(words)

    def heard(self, word, server):
        """What each tells by this word."""
        told, since, spent = {}, time.monotonic(), server.processor()
        ends = since + PATIENCE
        while len(told) < len(self.pipes):
            came = multiprocessing.connection.wait([it for it in self.pipes if it not in told], 0.2)
            for pipe in came:
                said = pipe.recv()
                if said[0] == "wrong":
                    raise (Wrong if said[1] else RuntimeError)(said[2])
                if said[0] != word:
                    raise RuntimeError(f"{said[0]} where {word} was to come")
                told[pipe] = said[1:]
            if not came:
                server.look()
                now, processor = time.monotonic(), server.processor()
                # What takes less than a hundredth of a processor answers nobody.
                if processor - spent > (now - since) / 100:
                    since, spent = now, processor
                if now > self.gives_up:
                    raise NotHere("it takes more than twice its time (--minutes)")
                if now > ends or now - since > STILL:
                    idle = f"; the server does nothing for {STILL} s" if now <= ends else ""
                    raise Wrong(f"a client that is to be told isn't{idle}")
        return [told[it] for it in self.pipes]

    def close(self):
        for pipe, run in zip(self.pipes, self.runs):
            run.kill()
            run.join()
            pipe.close()


# ---- a round


# What a round finds, in this order, and by what it is multiplied.
ROWS = [
    ("all settled first, ms", 1000),
    ("  processor time, ms", 1000),
    ("first put: first client, ms", 1000),
    ("  last client, ms", 1000),
    ("  processor time, ms", 1000),
    ("a put: first client, ms", 1000),
    ("  last client, ms", 1000),
    ("  processor time, ms", 1000),
    ("  processor time a stream, us", 1e6),
    ("  switches a stream", 1),
    (f"{BURST} puts at once: last client, ms", 1000),
    ("  responses a stream", 1),
    ("  processor time, ms", 1000),
    ("memory: settled, MB", 1),
    ("  peak, MB", 1),
    ("threads", 1),
    ("readers: processor time a put, ms", 1000),
    ("  busy, percent of the time to the last", 100),
]
# The same where streams name endpoints.
AT = ROWS.index(("  switches a stream", 1))
NAMED_ROWS = [*ROWS[:AT], ("  switches", 1), ("  streams it concerns", 1), *ROWS[AT + 1 :]]


class Case(NamedTuple):
    """So many streams of a variant that ask for all of so many clusters, or name so many endpoints of those each."""

    streams: int
    count: int
    variant: str
    names: int = 0

    def label(self):
        what = f"{self.names} of {self.count} endpoints each" if self.names else f"{self.count} clusters"
        return f"{self.variant}, {self.streams} streams, {what}"

    def rows(self):
        return NAMED_ROWS if self.names else ROWS

    def story(self, size):
        return Named(self.count, size, self.streams, self.names) if self.names else Story(self.count, size)

    def settles(self, size):
        """The bytes of resources that all streams are sent to settle."""
        return self.streams * (self.names or self.count) * size


class Round:
    def __init__(self, program, case, given, ends=math.inf, gives_up=math.inf):
        self.case, self.given, self.ends, self.found = case, given, ends, []
        self.story = case.story(given.bytes)
        count = min(given.readers, case.streams)
        self.readers, self.server = Readers(count, case.streams, self.story, case.variant, gives_up), None
        try:
            self.server = Server(program)
            self.measure()
        finally:
            self.readers.close()
            if self.server:
                self.server.stop()

    def spent(self, what):
        """What an act answers, with the server's processor time until it is quiet again."""
        before = self.server.processor()
        told = what()
        self.server.quiet()
        return (*told, self.server.processor() - before)

    def open(self):
        begin = time.time_ns()
        for pipe, share in zip(self.readers.pipes, self.readers.shares):
            pipe.send(("open", self.server.port, share))
        self.readers.heard("ready", self.server)
        return self.seen(begin)

    def seen(self, begin):
        """The seconds until the first and the last client, the responses, and the readers' processor time."""
        seen = [it for it in self.readers.heard("seen", self.server) if it[0]]
        firsts, lasts, responses, processor = zip(*seen)
        return (min(firsts) - begin) / 1e9, (max(lasts) - begin) / 1e9, sum(responses), sum(processor)

    def put(self, resources):
        """Puts resources at once. Answers as `seen`, and how many streams it concerns."""
        story, since = self.story, self.story.version()
        for it in resources:
            story.put(it)
        concerned = len(story.due(range(self.case.streams), since, story.version()))
        low = min(resources)
        self.readers.tell("want", since, (low, max(resources) + 1 - low), list(resources))
        self.readers.heard("ready", self.server)
        lines = story.lines(range(since + 1, story.version() + 1))
        begin = time.time_ns()
        self.server.write(lines)
        return (*self.seen(begin), concerned)

    def has_time(self, made, ends):
        """Whether one more put is to be made behind so many, which have until then."""
        now = time.monotonic()
        return made < self.given.puts and now < self.ends and (made < 3 or now < ends)

    def measure(self):
        story, server, given = self.story, self.server, self.given
        server.write(story.lines(range(1, story.version() + 1)))
        server.has_all(story)
        server.quiet()
        _, last, _, _, processor = self.spent(self.open)
        self.found += [last, processor]
        # What a server lets go of within a second isn't held once it is settled.
        time.sleep(1.5)
        settled, threads = server.memory("VmRSS"), server.threads()
        puts = story.putable
        middle = len(puts) // 2
        first, last, _, _, _, processor = self.spent(lambda: self.put([puts[middle]]))
        self.found += [first, last, processor]
        told, switches, ends = [], server.switches(), time.monotonic() + given.seconds
        while not told or self.has_time(len(told), ends):
            told.append(self.spent(lambda: self.put([puts[(middle + 7 * len(told)) % len(puts)]])))
        switches = (server.switches() - switches) / len(told)
        firsts, lasts, _, reading, concerned, processor = zip(*told)
        processor, concerned = statistics.mean(processor), statistics.mean(concerned)
        self.found += [statistics.median(firsts), statistics.median(lasts), processor, processor / concerned]
        self.found += [switches, concerned] if self.case.names else [switches / concerned]
        burst = min(BURST, len(puts))
        at = min(middle, len(puts) - burst)
        _, last, responses, _, concerned, processor = self.spent(lambda: self.put(puts[at : at + burst]))
        self.found += [last, responses / concerned, processor]
        # The kernel counts memory by processors, and sums up late.
        self.found += [settled, max(settled, server.memory("VmHWM"), server.memory("VmRSS")), threads]
        busy = statistics.mean(reading) / (statistics.mean(lasts) * len(self.readers.pipes))
        self.found += [statistics.mean(reading), busy]
        self.readers.tell("end")
        self.readers.heard("ended", server)


# ---- cases


def lacking(streams):
    """Why so many streams can't be had here, or nothing."""
    descriptors = resource.getrlimit(resource.RLIMIT_NOFILE)[0]
    if descriptors != resource.RLIM_INFINITY and streams + BESIDE > descriptors:
        return f"it takes {streams + BESIDE} descriptors a process, and {descriptors} are allowed (ulimit -n)"
    ports = limit_of_ports()
    if streams + BESIDE > ports:
        return f"it takes {streams} ports, and {ports} are allowed (net.ipv4.ip_local_port_range)"
    return None


def limit_of_ports():
    try:
        with open("/proc/sys/net/ipv4/ip_local_port_range", encoding="ascii") as file:
            low, high = map(int, file.read().split())
        return high - low + 1
    except (OSError, ValueError):
        return 28_000


def overflows():
    """How often a connection found the queue of a listener full, on this machine since it started."""
    try:
        with open("/proc/net/netstat", encoding="ascii") as file:
            lines = [it.split() for it in file]
        named = {names[0]: dict(zip(names, values)) for names, values in zip(lines[::2], lines[1::2])}
        return int(named["TcpExt:"]["ListenOverflows"])
    except (OSError, ValueError, KeyError, IndexError):
        return 0


def raise_descriptors():
    """As far as it may, for this script and what it starts."""
    _, hard = resource.getrlimit(resource.RLIMIT_NOFILE)
    if hard == resource.RLIM_INFINITY:
        hard = 1 << 20
    for most in (max(hard, 1 << 16), hard):
        try:
            resource.setrlimit(resource.RLIMIT_NOFILE, (most, most))
            return
        except (OSError, ValueError):
            pass


def plain_server(given):
    """The plain server, built where its sources are newer."""
    if given.plain:
        return given.plain
    cargo = shutil.which("cargo")
    if not cargo:
        raise NotHere("there is no `cargo` to build the plain server: install Debian's cargo, librust-serde-json-dev")
    words = [cargo, "build", "--release", "--offline", "--quiet"]
    if glob.glob(f"{given.crates}/serde_json-*"):
        words += ["--config", 'source.crates-io.replace-with="debian"']
        words += ["--config", f'source.debian.directory="{given.crates}"']
    ran = subprocess.run(words, cwd=PLAIN, stdin=subprocess.DEVNULL, capture_output=True, text=True, check=False)
    if ran.returncode:
        raise NotHere(f"cargo doesn't build the plain server; its crates are in librust-serde-json-dev:\n{ran.stderr}")
    return f"{PLAIN}/target/release/plain"


def told(value):
    return f"{value:.0f}" if value >= 1000 else f"{value:.1f}" if value >= 10 else f"{value:.2f}"


def show(case, found, rounds):
    print(f"\n{case.label()}: medians of {rounds} rounds" if rounds > 1 else f"\n{case.label()}: one round")
    print(f"  {'':40}" + "".join(f"{name:>12}" for name in found) + (f"{'xds/plain':>12}" if len(found) > 1 else ""))
    for number, (row, scale) in enumerate(case.rows()):
        values = [statistics.median(it[number] for it in runs) for runs in found.values()]
        line = f"  {row:40}" + "".join(f"{told(it * scale):>12}" for it in values)
        if len(values) > 1:
            line += f"{values[0] / values[1]:12.2f}" if values[1] else f"{'':>12}"
        print(line, flush=True)


def measured(programs, case, given):
    """Measures a case, with the programs in turns. Answers whether it could be run."""
    why, written = lacking(case.streams), case.settles(given.bytes)
    if not why and written > given.gigabytes * 1e9:
        print(f"\n{case.label()}: left out, to settle it writes {written / 1e9:.0f} GB (--gigabytes)", flush=True)
        return True
    found, rounds, longest, begun = {name: [] for name in programs}, 0, 0, time.monotonic()
    ends, gives_up, before = begun + 60 * given.minutes, begun + 120 * given.minutes, overflows()
    try:
        if why:
            raise NotHere(why)
        while rounds < given.rounds and (not rounds or time.monotonic() + longest < ends):
            begun = time.monotonic()
            for name, program in programs.items():
                found[name].append(Round(program, case, given, ends, gives_up).found)
            rounds, longest = rounds + 1, max(longest, time.monotonic() - begun)
    except NoServer:
        raise
    except NotHere as fault:
        print(f"\n{case.label()}: can't be run here: {fault}", flush=True)
        return False
    show(case, found, rounds)
    if times := overflows() - before:
        print(f"  on this machine a queue of new connections was full {times} times; they asked again after a second")
    return True


def numbers(text):
    made = [int(it) for it in text.split(",")]
    if not all(0 < it < 100_000 for it in made):
        raise ValueError
    return made


def words():
    parser = argparse.ArgumentParser(description=__doc__, formatter_class=argparse.RawDescriptionHelpFormatter)
    half = max(1, len(os.sched_getaffinity(0)) // 2)
    parser.add_argument("program", metavar="PROGRAM")
    add = parser.add_argument
    add("--streams", type=numbers, metavar="N,N..", help="how many streams (1,100,1000, and 10000 where there is room)")
    add("--clusters", type=numbers, metavar="N,N..", help="how many (100,1000,10000)")
    add("--names", type=int, metavar="N", help="each stream names so many endpoints, in place of all clusters")
    add("--of", type=int, metavar="N", help="of so many endpoints (10000)")
    add("--variant", choices=VARIANTS, help="one of the variants alone")
    add("--rounds", type=int, default=3, help="how often each server runs, for the median (3)")
    add("--minutes", type=float, default=3, help="about how long a case takes at most (3)")
    add("--only", choices=("xds", "plain"), help="one of the servers alone")
    add("--bytes", type=int, default=600, help="how long a cluster, or an endpoint, is (600)")
    add("--puts", type=int, default=20, help="how many puts one after another (20)")
    add("--seconds", type=float, default=20, help="after these no more of them begin, where there were three (20)")
    add("--readers", type=int, default=half, help="processes of clients (as many as half the processors)")
    add("--gigabytes", type=float, default=8, help="the most that all streams may be sent to settle (8)")
    add("--plain", metavar="FILE", help="a plain server that is built already")
    add("--crates", default="/usr/share/cargo/registry", help="where Debian's crates are (%(default)s)")
    add("--check", action="store_true", help="compare what both answer, and time nothing")
    add("--seed", type=int, default=0, help="the first seed of --check (0)")
    add("--seeds", type=int, default=5, help="how many stories of each form --check plays at each (5)")
    given = parser.parse_args()
    if given.names is None and given.of is not None:
        parser.error("--of goes with --names")
    if given.names is not None:
        given.of = given.of or 10000
        if given.clusters or not 0 < given.names <= given.of < 100_000:
            parser.error("--names goes without --clusters, and names at most as many as --of")
    return given


def main():
    given = words()
    raise_descriptors()
    signal.signal(signal.SIGTERM, lambda number, _: sys.exit(128 + number))
    try:
        programs = {"xds": [given.program]} if given.only != "plain" else {}
        if given.only != "xds":
            programs["plain"] = [plain_server(given)]
        if given.check:
            return fanout_check.run(programs, given)
        what = "an endpoint" if given.names else "a cluster"
        print(f"{given.bytes} bytes {what}, {given.readers} processes of clients", flush=True)
        all_ran = True
        for variant in [given.variant] if given.variant else VARIANTS:
            for streams in given.streams or [1, 100, 1000, 10000]:
                for count in [given.of] if given.names else given.clusters or [100, 1000, 10000]:
                    ran = measured(programs, Case(streams, count, variant, given.names or 0), given)
                    all_ran = all_ran and (ran or not given.streams)
        return 0 if all_ran else 2
    except Wrong as fault:
        print(f"wrong: {fault}", file=sys.stderr)
        return 1
    except NotHere as fault:
        print(fault, file=sys.stderr)
        return 2
    except KeyboardInterrupt:
        return 130


if __name__ == "__main__":
    sys.exit(main())
