#!/usr/bin/env python3
"""Slow peers of `xds serve`, and many: what the limits of docs/SERVING.md come to, over sockets.

    python3 bench/gate/limits.py PROGRAM [slow | many | few | crowd | late | in_use ..]

The program serves one replica. Over HTTP a head, a body and a connection are begun and left, more connections are opened than may be
(many), and a reply isn't read; over streams a frame is begun and left, and responses aren't read. Meanwhile a poll and a stream are
answered each half second, and it is told how long the slowest took (slow). Then a server with few descriptors is given more
connections than it has descriptors for (few). To a server of one cluster 5,000 clients connect at once, and each must be told it
(crowd). At a server of one cluster bodies are begun and left, at the port of polls and at an
operator's (late), and connections are in use beside more than there may be (in_use). Without such a word it tries all, takes some 80
seconds, and prints a line a limit. The status is 1 where one isn't as the document says.
"""
import json
import resource
import selectors
import socket
import subprocess
import sys
import threading
import time
import os

sys.path[:0] = [os.path.abspath(f"{__file__}/../../{folder}") for folder in ("load", "oracle")]
from load import URL, Alone, framed
from telling import free_ports

PATH = "/v3/discovery:clusters"
LIMIT = 30
MOST = 1024
CLUSTERS, BYTES = 1000, 6000


def post(body, length=None):
    return b"POST %s HTTP/1.1\r\nhost: a\r\ncontent-length: %d\r\n\r\n%s" % (PATH.encode(), len(body) if length is None else length, body)


class Server:
    def __init__(self, program, descriptors=None, clusters=CLUSTERS):
        self.last = b'"name":"c%d"' % (clusters - 1)
        self.port = free_ports(3, int(os.environ.get("FIRST_PORT", "26000")))
        self.rest_port, self.admin_port = self.port + 1, self.port + 2
        ports = ("--port", self.port, "--rest-port", self.rest_port, "--admin-port", self.admin_port)
        words = [program, "serve", "--replicas", "1", *map(str, ports)]
        bound = (lambda: resource.setrlimit(resource.RLIMIT_NOFILE, (descriptors, descriptors))) if descriptors else None
        self.run = subprocess.Popen(words, stdin=subprocess.PIPE, stderr=subprocess.DEVNULL, preexec_fn=bound)
        body = {"@type": URL, "x": "y" * BYTES}
        for number in range(clusters):
            self.run.stdin.write(f'put 1 {json.dumps({**body, "name": f"c{number}"})}\n'.encode())
        self.run.stdin.flush()
        while not self.answers(self.last):
            time.sleep(0.05)

    def link(self, port=None):
        made = socket.create_connection(("127.0.0.1", port or self.rest_port), 60)
        made.setsockopt(socket.IPPROTO_TCP, socket.TCP_NODELAY, 1)
        return made

    def answers(self, part):
        """Whether a poll of the last cluster is answered with this."""
        try:
            with self.link() as link:
                link.sendall(post(b'{"resourceNames":[%s]}' % self.last.partition(b":")[2]))
                return part in link.recv(1 << 20)
        except ConnectionError:
            return False


def ended(link):
    """What comes until the other side closes, and after how many seconds it does."""
    begin, found = time.monotonic(), b""
    try:
        while piece := link.recv(1 << 16):
            found += piece
    except OSError:
        pass
    return found, time.monotonic() - begin


class Ended(threading.Thread):
    def __init__(self, link, sent):
        super().__init__()
        link.sendall(sent)
        self.link = link
        self.start()

    def run(self):
        self.found, self.seconds = ended(self.link)


def told(what, good, more):
    print(f"{what}: {more}{'' if good else ' -- NOT AS IT SHOULD BE'}", flush=True)
    return good


def in_time(ending):
    return LIMIT - 1 <= ending.seconds <= LIMIT + 5


def slow(server):
    half_head = Ended(server.link(), b"POST %s HTTP/1.1\r\nhost: a\r\nconte" % PATH.encode())
    half_body = Ended(server.link(), post(b"{", 2))
    idle = Ended(server.link(), b"")
    kept = Ended(server.link(), post(b'{"resourceNames":["c0"]}'))
    unread = [server.link() for _ in range(20)]
    for link in unread:
        link.sendall(post(b"{}"))
    silent = [server.link(server.port) for _ in range(20)]
    for number, link in enumerate(silent):
        link.sendall(framed(1, b'{"typeUrl":"%s"}' % URL.encode())[: None if number < 10 else 20])
    alone, slowest, turns = Alone(server.port), 0, 0
    while any(it.is_alive() for it in (half_head, half_body, idle, kept)):
        begin = time.monotonic()
        good = server.answers(server.last)
        alone.ask("c%d" % (turns % CLUSTERS))
        slowest, turns = max(slowest, time.monotonic() - begin), turns + 1
        if not good or turns > 10 * LIMIT:
            break
        time.sleep(0.5)
    begin = time.monotonic()
    silent[0].settimeout(5)
    first = silent[0].recv(5)
    yield told("half a head", in_time(half_head) and not half_head.found, f"closed after {half_head.seconds:.1f} s, with {half_head.found[:20]}")
    yield told("half a body", in_time(half_body) and half_body.found.startswith(b"HTTP/1.1 408"), f"{half_body.found[:12]} after {half_body.seconds:.1f} s")
    yield told("a connection on which nothing comes", in_time(idle) and not idle.found, f"closed after {idle.seconds:.1f} s")
    yield told("a connection that is kept behind a reply", in_time(kept) and kept.found.startswith(b"HTTP/1.1 200"), f"closed after {kept.seconds:.1f} s")
    yield told("a poll and a request on a stream, beside 20 replies and 10 responses that aren't read and 10 halves of frames", good and slowest < 5, f"{turns} times, the slowest after {slowest * 1000:.0f} ms")
    yield told("a stream that didn't read", len(first) == 5 and first[4] == 2, f"still gets its response, after {time.monotonic() - begin:.1f} s")
    for link in [*unread, *silent, alone.socket]:
        link.close()


def many(server):
    links, closed = [], 0
    time.sleep(1)
    for _ in range(MOST + 20):
        links.append(server.link())
    # The oldest give way.
    ended(links[19])
    for link in links:
        link.settimeout(0.001)
        try:
            closed += link.recv(1) == b""
        except ConnectionError:
            closed += 1
        except TimeoutError:
            pass
    for link in links:
        link.close()
    time.sleep(1)
    good = server.answers(b'"name"')
    yield told(f"{MOST + 20} connections", closed == 20 and good, f"{closed} were closed at once; then a poll is {'answered' if good else 'refused'}")


def late(server):
    half_poll = Ended(server.link(), post(b"{", 2))
    half_changes = Ended(server.link(server.admin_port), b"POST /changes HTTP/1.1\r\nhost: localhost\r\ncontent-length: 2\r\n\r\n#")
    for what, half in (("a poll", half_poll), ("changes", half_changes)):
        half.join()
        yield told(f"half a body of {what}", in_time(half) and half.found.startswith(b"HTTP/1.1 408"), f"{half.found[:12]} after {half.seconds:.1f} s")


def in_use(server):
    for port, asked, wanted in ((server.rest_port, post(b'{"resourceNames":["c0"]}'), b"HTTP/1.1 200"), (server.admin_port, b"GET /healthz HTTP/1.1\r\nhost: localhost\r\n\r\n", b"HTTP/1.1 200")):
        used, begun = server.link(port), server.link(port)
        used.sendall(asked)
        first = used.recv(1 << 16)
        # Its head has come, and the last byte of its body not.
        begun.sendall(asked[:-1] if asked.startswith(b"POST") else b"POST /changes HTTP/1.1\r\nhost: localhost\r\ncontent-length: 1\r\n\r\n")
        time.sleep(0.5)
        links = [server.link(port) for _ in range(MOST + 20)]
        # Of all of them 22 are too many. Those that gave way are the first of these, also where the two gave way before.
        ended(links[19])
        found = []
        for link, more in ((used, asked), (begun, asked[-1:] if asked.startswith(b"POST") else b"#")):
            try:
                link.sendall(more)
                found.append(link.recv(1 << 16).startswith(wanted))
            except ConnectionError:
                found.append(False)
        for link in (used, begun, *links):
            link.close()
        time.sleep(1)
        which = "polls" if port == server.rest_port else "an operator"
        yield told(f"a connection in use, at the port of {which}, beside {MOST + 20} that say nothing", first.startswith(wanted) and found[0], f"is {'still' if found[0] else 'no longer'} answered")
        yield told(f"a connection over which half a request came, at the port of {which}", found[1], f"is {'still' if found[1] else 'no longer'} answered")


def few(program):
    server = Server(program, descriptors=64)
    links = [server.link(port) for _ in range(100) for port in (server.port, server.rest_port)]
    time.sleep(1)
    alive = server.run.poll() is None
    for link in links:
        link.close()
    time.sleep(1)
    good = server.answers(b'"name"')
    alone = Alone(server.port)
    stream = alone.ask("c0") < 1
    server.run.kill()
    yield told("200 connections at a server with 64 descriptors", alive and good and stream, f"it goes on, and once they are closed a poll is {'answered' if good else 'refused'} and a stream, too")


def threads(server):
    with open(f"/proc/{server.run.pid}/status", encoding="utf-8") as file:
        return next(int(line.split()[1]) for line in file if line.startswith("Threads:"))


def crowd(program):
    """5,000 clients at once. How many, where fewer descriptors may be had, is told."""
    most = resource.getrlimit(resource.RLIMIT_NOFILE)[1]
    number = 5000 if most == resource.RLIM_INFINITY else min(5000, most - 200)
    resource.setrlimit(resource.RLIMIT_NOFILE, (number + 200, most))
    server = Server(program, descriptors=number + 200, clusters=1)
    begin, before, waits = time.monotonic(), threads(server), selectors.DefaultSelector()
    asks = framed(1, ('{"typeUrl":"%s"}' % URL).encode())
    for _ in range(number):
        link = socket.socket()
        link.setblocking(False)
        link.connect_ex(("127.0.0.1", server.port))
        waits.register(link, selectors.EVENT_WRITE, b"")
    answered = 0
    while answered < number and time.monotonic() < begin + 60:
        for key, events in waits.select(1):
            if events & selectors.EVENT_WRITE:
                if key.fileobj.getsockopt(socket.SOL_SOCKET, socket.SO_ERROR):
                    waits.unregister(key.fileobj)
                    continue
                key.fileobj.send(asks)
                waits.modify(key.fileobj, selectors.EVENT_READ, b"")
                continue
            try:
                piece = key.fileobj.recv(1 << 16)
            except ConnectionError:
                piece = b""
            held = key.data + piece
            is_told = len(held) > 4 and len(held) >= 4 + int.from_bytes(held[:4], "big")
            answered += is_told
            if is_told or not piece:
                waits.unregister(key.fileobj)
            else:
                waits.modify(key.fileobj, selectors.EVENT_READ, held)
    seconds, after = time.monotonic() - begin, threads(server)
    server.run.kill()
    yield told(f"{number} clients that connect at once", answered == number and after == before, f"{answered} are told what they ask for, the last after {seconds:.1f} s, by {after} threads")


def main(words):
    # Of each case what is told, and how many clusters its server has.
    cases = {"slow": (slow, CLUSTERS), "many": (many, CLUSTERS), "late": (late, 1), "in_use": (in_use, 1)}
    alone = {"few": few, "crowd": crowd}
    if not words or set(words[1:]) - {*cases, *alone}:
        sys.exit(__doc__)
    asked, good = words[1:] or [*cases, *alone], []
    for name, (case, clusters) in cases.items():
        if name in asked:
            server = Server(words[0], clusters=clusters)
            try:
                good += case(server)
            finally:
                server.run.kill()
    for name, case in alone.items():
        if name in asked:
            good += case(words[0])
    return 0 if all(good) else 1


if __name__ == "__main__":
    sys.exit(main(sys.argv[1:]))
