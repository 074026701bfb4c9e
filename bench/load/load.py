#!/usr/bin/env python3
"""Load on `xds serve`: many streams of both variants, all settled, and what a put costs until every one of them has it.

    python3 bench/load/load.py [--streams N] [--clusters N] [--bytes N] [--puts N] [--silent N] [--events N] [--rounds N] [--rest N] PROGRAM

The program serves one replica that holds the clusters (1,000 of 600 bytes). N streams (1,000) ask for all of them, the even
ones in the incremental variant, the odd ones state of the world, and accept every response. Printed are: streams opened and
settled a second; what an acceptance by one more stream costs beside ten of them and beside all; the time from a put until the
last incremental stream has it, and until every stream has it; the same for a row of puts (200), one after another; processor
time, memory and threads of the server; then the same puts beside streams that ask and never read (100); polls over HTTP a
second at 16 connections that are kept open, whole and unchanged; and what the server's memory was, at least and at most, during so
many more puts (100,000) that ten streams take, during as many again, and so on (4 rounds). This script runs on the same machine and
takes a core of its own.
"""
import argparse
import os
import re
import selectors
import socket
import subprocess
import sys
import time

sys.path.insert(0, os.path.abspath(f"{__file__}/../../oracle"))
from posts import Link, free_ports

URL = "type.googleapis.com/envoy.config.cluster.v3.Cluster"
NONCE = re.compile(rb'\{"nonce":"(\d+)"')
SOTW_END = re.compile(rb'"versionInfo":"1\.(\d+)"\}$')
DELTA_END = re.compile(rb'"systemVersionInfo":"1\.(\d+)","typeUrl":"[^"]*"\}$')
# The longest that anything is waited for.
PATIENCE = 900


def framed(kind, text):
    return (len(text) + 1).to_bytes(4, "big") + bytes([kind]) + text


class Stream:
    """A stream that accepts whatever it is sent."""

    def __init__(self, port, is_delta):
        self.socket = socket.create_connection(("127.0.0.1", port), PATIENCE)
        self.socket.setsockopt(socket.IPPROTO_TCP, socket.TCP_NODELAY, 1)
        self.is_delta, self.pieces, self.held, self.due = is_delta, [], 0, None
        self.version, self.responses = 0, 0
        names = "resourceNamesSubscribe" if is_delta else "resourceNames"
        self.socket.sendall(framed(3 if is_delta else 1, ('{"%s":["*"],"typeUrl":"%s"}' % (names, URL)).encode()))

    def take(self):
        """Reads what is there, and accepts each whole response."""
        piece = self.socket.recv(1 << 20)
        if not piece:
            raise ConnectionError("a stream was closed")
        self.pieces.append(piece)
        self.held += len(piece)
        while self.held >= 4 and self.held >= self.length() + 4:
            data = b"".join(self.pieces)
            length, self.due = self.length(), None
            self.answer(data[5 : 4 + length])
            self.pieces, self.held = [data[4 + length :]], self.held - 4 - length

    def length(self):
        if self.due is None:
            self.pieces = [b"".join(self.pieces)]
            self.due = int.from_bytes(self.pieces[0][:4], "big")
        return self.due

    def answer(self, text):
        nonce = NONCE.match(text).group(1).decode()
        tail = text[-200:]
        self.version = int((DELTA_END if self.is_delta else SOTW_END).search(tail).group(1))
        self.responses += 1
        if self.is_delta:
            said = '{"responseNonce":"%s","typeUrl":"%s"}' % (nonce, URL)
        else:
            said = '{"resourceNames":["*"],"responseNonce":"%s","typeUrl":"%s","versionInfo":"1.%d"}' % (nonce, URL, self.version)
        self.socket.sendall(framed(3 if self.is_delta else 1, said.encode()))


class Alone:
    """A stream that asks for one cluster after another: each time it accepts what it got and asks for the next, in one request."""

    def __init__(self, port):
        self.socket = socket.create_connection(("127.0.0.1", port), PATIENCE)
        self.socket.setsockopt(socket.IPPROTO_TCP, socket.TCP_NODELAY, 1)
        self.accepts = ""

    def read(self, count):
        data = b""
        while len(data) < count:
            piece = self.socket.recv(count - len(data))
            if not piece:
                raise ConnectionError("a stream was closed")
            data += piece
        return data

    def ask(self, name):
        """The seconds from the request to the response."""
        begin = time.perf_counter()
        said = '{"resourceNamesSubscribe":["%s"],%s"typeUrl":"%s"}' % (name, self.accepts, URL)
        self.socket.sendall(framed(3, said.encode()))
        text = self.read(int.from_bytes(self.read(4), "big"))
        self.accepts = '"responseNonce":"%s",' % NONCE.match(text[1:]).group(1).decode()
        return time.perf_counter() - begin


class Server:
    def __init__(self, program):
        self.port, self.rest_port = free_ports()
        words = [program, "serve", "--replicas", "1", "--port", str(self.port), "--rest-port", str(self.rest_port)]
        self.run = subprocess.Popen(words, stdin=subprocess.PIPE, stderr=subprocess.DEVNULL)
        self.changes = 0
        Link(self.port).open()

    def put(self, name, size, mark):
        body = '{"@type":"%s","connectTimeout":"%ds","name":"%s","x":"' % (URL, mark, name)
        self.run.stdin.write(f'put 1 {body}{"y" * max(0, size - len(body) - 2)}"}}\n'.encode())
        self.changes += 1

    def flush(self):
        self.run.stdin.flush()

    def status(self, word):
        with open(f"/proc/{self.run.pid}/status", encoding="ascii") as file:
            return int(re.search(rf"^{word}:\s+(\d+)", file.read(), re.M).group(1))

    def processor(self):
        with open(f"/proc/{self.run.pid}/stat", encoding="ascii") as file:
            fields = file.read().rpartition(")")[2].split()
        return (int(fields[11]) + int(fields[12])) / os.sysconf("SC_CLK_TCK")

    def told(self):
        return f"{self.status('VmRSS') / 1024:.0f} MB (at most {self.status('VmHWM') / 1024:.0f}), {self.status('Threads')} threads, {self.processor():.1f} s of processor time"


def wait(chosen, done):
    """Lets streams take what comes until that is so, and gives the seconds that it took."""
    begin = time.perf_counter()
    while not done():
        if time.perf_counter() - begin > PATIENCE:
            sys.exit("what was waited for didn't come")
        for key, _ in chosen.select(1):
            key.data.take()
    return time.perf_counter() - begin



class Waiting:
    """Whether all of some streams have a version, looked at in time proportional to those that lack it."""

    def __init__(self, streams, version):
        self.left, self.version = list(streams), version

    def __call__(self):
        while self.left and self.left[-1].version >= self.version:
            self.left.pop()
        return not self.left


def accepted(server, clusters, beside, count=1000):
    """What an acceptance costs, with all other streams settled."""
    alone, spent = Alone(server.port), server.processor()
    times = sorted(alone.ask(f"c{number % clusters}") for number in range(count))
    spent = (server.processor() - spent) / count
    alone.socket.close()
    print(f"an acceptance with the next request and its response, beside {beside} settled streams: {times[count // 2] * 1e6:.0f} us (middle of {count}), {spent * 1e6:.0f} us of processor time", flush=True)


def opened(server, count, clusters):
    chosen, streams = selectors.DefaultSelector(), []
    begin = time.perf_counter()
    for number in range(count):
        if number == 10:
            wait(chosen, Waiting(streams, server.changes))
            before = time.perf_counter()
            accepted(server, clusters, number)
            begin += time.perf_counter() - before
        stream = Stream(server.port, number % 2 == 0)
        chosen.register(stream.socket, selectors.EVENT_READ, stream)
        streams.append(stream)
        for key, _ in chosen.select(0):
            key.data.take()
    wait(chosen, Waiting(streams, server.changes))
    spent = time.perf_counter() - begin
    print(f"{count} streams opened and settled in {spent:.1f} s, {count / spent:.0f} a second: {server.told()}", flush=True)
    return chosen, streams


def one_put(server, chosen, streams, size):
    delta = [it for it in streams if it.is_delta]
    begin = time.perf_counter()
    server.put("c0", size, server.changes)
    server.flush()
    wait(chosen, Waiting(delta, server.changes))
    first = time.perf_counter() - begin
    wait(chosen, Waiting(streams, server.changes))
    return first, time.perf_counter() - begin


def puts(server, chosen, streams, count, size, beside):
    took = [one_put(server, chosen, streams, size) for _ in range(5)]
    took.sort()
    print(f"one put{beside}: the last incremental stream has it after {took[2][0] * 1000:.0f} ms, the last of all after {took[2][1] * 1000:.0f} ms (middle of five)", flush=True)
    spent, before, begin = server.processor(), sum(it.responses for it in streams), time.perf_counter()
    for number in range(count):
        server.put(f"c{number % 50}", size, server.changes)
        server.flush()
    wait(chosen, Waiting(streams, server.changes))
    took = time.perf_counter() - begin
    responses = sum(it.responses for it in streams) - before
    print(f"{count} puts{beside}: every stream has the last after {took:.1f} s, by {responses} responses, {server.processor() - spent:.1f} s of processor time: {server.told()}", flush=True)


def polls(server, seconds=4):
    import rest

    for version in ("", f"1.{server.changes}"):
        command = [sys.executable, rest.__file__, "--addr", f"127.0.0.1:{server.rest_port}", "--seconds", str(seconds), "--version", version]
        print(subprocess.run(command, capture_output=True, text=True).stdout.strip().replace("\n", "; "), flush=True)


def settled_events(server, chosen, streams, count, size, number):
    """So many puts of one cluster, each taken by the incremental streams. The memory is looked at every thousand puts: it rises as the
    journal fills, and falls as it is cut."""
    done, held, begin = 0, [], time.perf_counter()
    responses = sum(it.responses for it in streams)
    while done < count:
        for _ in range(100):
            server.put("c1", size, server.changes)
        server.flush()
        done += 100
        wait(chosen, Waiting(streams, server.changes - 200))
        if done % 1000 == 0:
            held.append(server.status("VmRSS") / 1024)
    wait(chosen, Waiting(streams, server.changes))
    responses = sum(it.responses for it in streams) - responses
    held.sort()
    print(
        f"{count} more puts, {responses} responses, in {time.perf_counter() - begin:.0f} s (round {number}): the server held {held[0]:.0f} to {held[-1]:.0f} MB, {held[len(held) // 2]:.0f} at the middle; now {server.told()}",
        flush=True,
    )


def main():
    parser = argparse.ArgumentParser(description=__doc__, formatter_class=argparse.RawDescriptionHelpFormatter)
    for word, default in (("streams", 1000), ("clusters", 1000), ("bytes", 600), ("puts", 200), ("silent", 100), ("events", 100000), ("rounds", 4), ("rest", 1)):
        parser.add_argument(f"--{word}", type=int, default=default)
    parser.add_argument("program")
    given = parser.parse_args()
    server = Server(given.program)
    try:
        for number in range(given.clusters):
            server.put(f"c{number}", given.bytes, 0)
        server.flush()
        print(f"{given.clusters} clusters of {given.bytes} bytes: {server.told()}", flush=True)
        chosen, streams = opened(server, given.streams, given.clusters)
        accepted(server, given.clusters, given.streams)
        puts(server, chosen, streams, given.puts, given.bytes, "")
        silent = [Stream(server.port, False) for _ in range(given.silent)]
        if silent:
            puts(server, chosen, streams, given.puts, given.bytes, f" beside {given.silent} streams that never read")
        if given.rest:
            polls(server)
        for stream in streams[20:]:
            chosen.unregister(stream.socket)
            stream.socket.close()
        for number in range(given.rounds if given.events else 0):
            settled_events(server, chosen, streams[:20:2], given.events, given.bytes, number + 1)
    finally:
        server.run.kill()


if __name__ == "__main__":
    main()
