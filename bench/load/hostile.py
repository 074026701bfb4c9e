#!/usr/bin/env python3
"""How much hostile clients slow others down.

    python3 bench/load/hostile.py [--rounds N] [--puts N] [--streams N] [--crowd N] PROGRAM

The program serves one replica of 200 clusters of 600 bytes. Friendly clients are N streams (10) of both variants, which accept every
response, and one that polls over HTTP. Measured is how long a put takes until the last stream has it (100 puts), and how long a poll
takes (200): first alone, then beside hostile clients of each kind, then beside all of them, then alone again. Hostile are, N of each
kind (100):

    garbage      connections that send 4 KiB of chance, twenty each second, half of them over HTTP
    half frames  streams that begin a frame and go no further
    silent       connections to streams that say nothing
    half heads   HTTP connections that begin a head; ten times as many as the others, more than the server has places
    no readers   streams that ask for everything and never read, beside puts that each of them is owed

Prints the medians in milliseconds, each as a ratio to that of alone, medians of N rounds (3), each with a server of its own. Status 1
where a ratio of medians is over 2.
"""
import argparse
import json
import os
import random
import resource
import selectors
import socket
import statistics
import subprocess
import sys
import threading
import time

sys.path.insert(0, os.path.abspath(f"{__file__}/../../oracle"))
from load import URL, Stream, framed
from posts import free_ports

PATH = "/v3/discovery:clusters"
CLUSTERS, BYTES = 200, 600
KINDS = ("garbage", "half frames", "silent", "half heads", "no readers")
BODY = b'{"resource_names":["c1"]}'


def post():
    return b"POST %s HTTP/1.1\r\nhost: a\r\ncontent-length: %d\r\n\r\n%s" % (PATH.encode(), len(BODY), BODY)


class Server:
    def __init__(self, program):
        self.port, self.rest_port = free_ports()
        words = [program, "serve", "--replicas", "1", "--port", str(self.port), "--rest-port", str(self.rest_port)]
        self.run = subprocess.Popen(words, stdin=subprocess.PIPE, stderr=subprocess.DEVNULL)
        self.puts = 0
        for number in range(CLUSTERS):
            self.put(number)

    def put(self, number):
        body = {"@type": URL, "name": f"c{number}", "x": f"{self.puts} ".ljust(BYTES, "y")}
        self.run.stdin.write(f"put 1 {json.dumps(body)}\n".encode())
        self.run.stdin.flush()
        self.puts += 1

    def end(self):
        self.run.kill()
        self.run.wait()


def connected(port):
    for _ in range(200):
        try:
            return socket.create_connection(("127.0.0.1", port), 20)
        except OSError:
            time.sleep(0.05)
    sys.exit("the server isn't reached")


class Friends:
    """Streams that take what they are sent, and a connection that polls."""

    def __init__(self, server, count):
        self.server = server
        connected(server.port).close()
        self.watch = selectors.DefaultSelector()
        self.streams = [Stream(server.port, number % 2 == 0) for number in range(count)]
        for stream in self.streams:
            self.watch.register(stream.socket, selectors.EVENT_READ, stream)
        self.poller = connected(server.rest_port)
        self.poller.setsockopt(socket.IPPROTO_TCP, socket.TCP_NODELAY, 1)
        self.settle()

    def settle(self):
        """Until each stream has the last put."""
        until = time.time() + 60
        while any(stream.version < self.server.puts for stream in self.streams):
            if time.time() > until:
                sys.exit("a friendly stream isn't served")
            for key, _ in self.watch.select(timeout=1):
                key.data.take()

    def put(self):
        begun = time.perf_counter()
        self.server.put(self.server.puts % CLUSTERS)
        self.settle()
        return time.perf_counter() - begun

    def poll(self):
        begun = time.perf_counter()
        self.poller.sendall(post())
        got = b""
        while b"\r\n\r\n" not in got:
            got += self.poller.recv(1 << 16)
        head, _, body = got.partition(b"\r\n\r\n")
        length = next(int(line.split(b":")[1]) for line in head.lower().split(b"\r\n") if line.startswith(b"content-length"))
        while len(body) < length:
            body += self.poller.recv(1 << 16)
        if not head.startswith(b"HTTP/1.1 200"):
            sys.exit(f"a poll is answered {head!r}")
        return time.perf_counter() - begun

    def measured(self, puts):
        # The first ones are not counted: what came before may still be under way.
        for _ in range(5):
            self.put()
        told = [self.put() for _ in range(puts)]
        polled = [self.poll() for _ in range(2 * puts)]
        return 1000 * statistics.median(told), 1000 * statistics.median(polled)


class Hostile:
    """Hostile clients of one kind, until they are ended."""

    def __init__(self, server, kind, crowd):
        self.server, self.sockets, self.goes_on = server, [], True
        self.worker = None
        if kind == "garbage":
            self.worker = threading.Thread(target=self.throw, daemon=True)
            self.worker.start()
            return
        for _ in range(crowd * (10 if kind == "half heads" else 1)):
            it = connected(server.rest_port if kind == "half heads" else server.port)
            if kind == "half frames":
                it.sendall(framed(1, b"{}")[:3])
            elif kind == "half heads":
                it.sendall(b"POST /v3/disc")
            elif kind == "no readers":
                it.setsockopt(socket.SOL_SOCKET, socket.SO_RCVBUF, 4096)
                it.sendall(framed(1, ('{"typeUrl":"%s"}' % URL).encode()))
            self.sockets.append(it)

    def throw(self):
        pick = random.Random(1)
        for number in range(100_000):
            if not self.goes_on:
                return
            try:
                with socket.create_connection(("127.0.0.1", self.server.rest_port if number % 2 else self.server.port), 5) as it:
                    it.sendall(pick.randbytes(4096))
            except OSError:
                pass
            time.sleep(0.05)

    def end(self):
        self.goes_on = False
        for it in self.sockets:
            it.close()
        if self.worker:
            self.worker.join()


def round_of(given):
    server = Server(given.program)
    try:
        friends = Friends(server, given.streams)
        found = {"alone": friends.measured(given.puts)}
        for name in (*KINDS, "all of them"):
            hostile = [Hostile(server, kind, given.crowd) for kind in KINDS if name in (kind, "all of them")]
            time.sleep(1)
            found[name] = friends.measured(given.puts)
            for it in hostile:
                it.end()
            time.sleep(1)
        found["alone again"] = friends.measured(given.puts)
        return found
    finally:
        server.end()


def main():
    words = argparse.ArgumentParser(description="How much hostile clients slow others down.")
    words.add_argument("--rounds", type=int, default=3)
    words.add_argument("--puts", type=int, default=100)
    words.add_argument("--streams", type=int, default=10)
    words.add_argument("--crowd", type=int, default=100)
    words.add_argument("program")
    given = words.parse_args()
    given.program = os.path.abspath(given.program)
    _, hard = resource.getrlimit(resource.RLIMIT_NOFILE)
    resource.setrlimit(resource.RLIMIT_NOFILE, (hard, hard))
    rounds = [round_of(given) for _ in range(given.rounds)]
    worst = 0
    print(f"{'beside':<14}{'a put, ms':>10}{'ratio':>8}{'a poll, ms':>12}{'ratio':>8}")
    for name in rounds[0]:
        puts, polls = (statistics.median(it[name][at] for it in rounds) for at in (0, 1))
        slower = [statistics.median(it[name][at] / it["alone"][at] for it in rounds) for at in (0, 1)]
        print(f"{name:<14}{puts:>10.2f}{slower[0]:>8.2f}{polls:>12.3f}{slower[1]:>8.2f}")
        worst = max(worst, *slower)
    sys.exit(1 if worst > 2 else 0)


if __name__ == "__main__":
    main()
