#!/usr/bin/env python3
"""Whether a server goes on where it finds no memory: one allocation of a run fails, another in each run.

    python3 bench/hand/starved.py [--most N] [--seed N] PROGRAM

Each run starts `xds serve --keep-going` with one replica and five clusters. Once it answers, a client of the state of the world and an
incremental one ask for all, a cluster is put, both accept what they are told, and one ends. In each run one of the allocations
between the first answer and the end of that fails: N of them (200), at random by the seed. What may come of it: a stream ends, a
change is refused and told, or nothing is seen. Then clients that come anew must be answered with all that is held within five
seconds, and a put must reach them: so no worker has ended, and no lock is kept. PROGRAM is one that allocates by the C library, as the
proved one does. It needs `cc`. Printed is what came how often; the status is 1 where a server didn't go on.
"""
import argparse
import collections
import json
import os
import random
import socket
import subprocess
import sys
import tempfile
import time

sys.path[:0] = [os.path.abspath(f"{__file__}/../{folder}") for folder in (".", "../gate", "../oracle", "../load")]
from fail_alloc import SHIM
from load import URL, framed
from telling import free_ports

CLUSTERS = 5
SOON = 5


def put(number, text):
    return f'put 1 {json.dumps({"@type": URL, "name": f"c{number}", "x": text})}\n'.encode()


class Client:
    """A client of all clusters, which accepts what it is told."""

    def __init__(self, port, is_delta):
        self.is_delta, self.held = is_delta, b""
        self.link = socket.create_connection(("127.0.0.1", port), SOON)
        self.link.settimeout(SOON)
        self.link.sendall(framed(3 if is_delta else 1, ('{"typeUrl":"%s"}' % URL).encode()))

    def frame(self):
        while len(self.held) < 4 or len(self.held) < 4 + int.from_bytes(self.held[:4], "big"):
            piece = self.link.recv(1 << 16)
            if not piece:
                raise ConnectionError
            self.held += piece
        end = 4 + int.from_bytes(self.held[:4], "big")
        frame, self.held = self.held[5:end], self.held[end:]
        return frame

    def told(self, *parts):
        """Waits until it is told these, and accepts each response."""
        lacks = {it.encode() for it in parts}
        while lacks:
            frame = self.frame()
            lacks = {it for it in lacks if it not in frame}
            nonce = json.loads(frame)["nonce"]
            self.link.sendall(framed(3 if self.is_delta else 1, ('{"responseNonce":"%s","typeUrl":"%s"}' % (nonce, URL)).encode()))


class Run:
    """A server in which the allocation of this number fails."""

    def __init__(self, program, shim, at, count=None):
        self.port = free_ports(3, int(os.environ.get("FIRST_PORT", "31000")))
        env = dict(os.environ, LD_PRELOAD=shim, FAIL_AT=str(at), **({"COUNT_TO": count} if count else {}))
        words = [program, "serve", "--replicas", "1", "--port", str(self.port), "--rest-port", str(self.port + 1), "--admin-port", str(self.port + 2), "--keep-going", "--workers", "2"]
        self.log = tempfile.TemporaryFile()
        self.server = subprocess.Popen(words, stdin=subprocess.PIPE, stdout=subprocess.DEVNULL, stderr=self.log, env=env)

    def tell(self, lines):
        self.server.stdin.write(lines)
        self.server.stdin.flush()

    def begin(self):
        self.tell(b"".join(put(number, "first") for number in range(CLUSTERS)))
        deadline = time.monotonic() + 20
        while True:
            try:
                client = Client(self.port, False)
                client.told('"c4"')
                return
            except (OSError, ConnectionError):
                if time.monotonic() > deadline or self.server.poll() is not None:
                    raise

    def play(self):
        """What is tried. Answers what came of it."""
        found = "all was told"
        try:
            clients = [Client(self.port, is_delta) for is_delta in (False, True)]
            for client in clients:
                client.told('"c4"')
            self.tell(put(0, "second"))
            for client in clients:
                client.told('"second"')
            clients[0].link.close()
        except socket.timeout:
            found = "something was not told"
        except (OSError, ConnectionError):
            found = "a stream ended"
        return found

    def goes_on(self):
        """What clients that come anew miss, if they do. One of them may be whom the allocation fails, and no second one."""
        missed = []
        for at, is_delta in enumerate((False, True, False, True)):
            if self.server.poll() is not None:
                return f"the server ended with status {self.server.returncode}"
            try:
                self.tell(put(1, f"third{at}"))
                Client(self.port, is_delta).told(f'"third{at}"', '"c4"')
            except (OSError, ConnectionError) as error:
                missed.append(f"new client {at} isn't answered: {error!r}")
        return "; ".join(missed) if len(missed) > 1 else None

    def end(self):
        """Its status once it is told to stop; none where it doesn't."""
        try:
            with socket.create_connection(("127.0.0.1", self.port + 2), SOON) as link:
                link.settimeout(SOON)
                link.sendall(b"POST /stop HTTP/1.1\r\nhost: localhost\r\ncontent-length: 0\r\n\r\n")
                link.recv(1 << 10)
        except OSError:
            pass
        try:
            self.server.wait(20)
        except subprocess.TimeoutExpired:
            self.server.kill()
            self.server.wait()
            return None
        return self.server.returncode


def counted(program, shim, room, plays):
    count = os.path.join(room, "count")
    run = Run(program, shim, 0, count)
    run.begin()
    if plays:
        run.play()
    run.end()
    with open(count, encoding="utf-8") as file:
        return int(file.read())


def main():
    parser = argparse.ArgumentParser(usage="bench/hand/starved.py [--most N] [--seed N] PROGRAM")
    parser.add_argument("--most", type=int, default=200)
    parser.add_argument("--seed", type=int, default=1)
    parser.add_argument("program")
    given = parser.parse_args()
    came, wrong = collections.Counter(), []
    with tempfile.TemporaryDirectory() as room:
        source, shim = os.path.join(room, "shim.c"), os.path.join(room, "shim.so")
        with open(source, "w", encoding="utf-8") as file:
            file.write(SHIM)
        subprocess.run(["cc", "-O1", "-shared", "-fPIC", "-o", shim, source, "-ldl"], check=True)
        first, last = counted(given.program, shim, room, False), counted(given.program, shim, room, True)
        chosen = random.Random(given.seed)
        for _ in range(given.most):
            at = chosen.randint(first, last)
            run = Run(given.program, shim, at)
            try:
                run.begin()
                what = run.play()
                fault = run.goes_on()
            except (OSError, ConnectionError) as error:
                what, fault = "nothing was answered", f"it didn't begin: {error!r}"
            status = run.end()
            run.log.seek(0)
            said = run.log.read().decode(errors="replace")
            if what == "something was not told" and "OutOfMemory" not in said:
                what += f" by the failure of allocation {at}: {said.splitlines()[3:]}"
            came[what + (", and a refusal was told" if "OutOfMemory" in said else "")] += 1
            if fault or status not in (0, 1):
                wrong.append((at, what, fault, status, said[-200:]))
    print(f"{last} allocations, {first} of them before the first answer; tried {given.most}, of these {len(wrong)} after which the server didn't go on")
    for what, count in came.most_common():
        print(f"{count:5}  {what}")
    for row in wrong[:20]:
        print("BAD", *row)
    return 1 if wrong else 0


if __name__ == "__main__":
    sys.exit(main())
