#!/usr/bin/env python3
"""Looks at what a server's memory grows by, where its clients are few and what it holds stays small.

    python3 bench/gate/memory.py PROGRAM

PROGRAM is the built program, as crates/xds/out/xds. Each case starts a server of one replica that holds five large clusters, and
has a bound in MB for what its memory (VmRSS) grows by:

    puts        one client in the state of the world, which wants all clusters and accepts each response, beside 1,500 puts of one
                small cluster: what is recorded of a response shares the stored texts, and holds no text of its own
    clusters    200 clients that want all clusters, each of a cluster text of its own, come, take a response and go: what clients
                of a cluster share is kept for at most 16 of them

The program that isn't proved (./xds --unproved) checks each access to memory, and holds back what was let go; it is told to hold back
1 MB. Prints a line for each; the status is 1 where a bound is passed, and 2 where the program isn't there."""
import json
import os
import socket
import sys

sys.path.insert(0, os.path.abspath(f"{__file__}/../../load"))
from fanout_server import PATIENCE, URL, NoServer, Server, Wrong, framed

BODY = 160_000
PUTS, CLIENTS = 1_500, 200
# In MB. Without its reason each case grows by ten times its bound or more.
BOUNDS = {"puts": 40, "clusters": 45}


def put(name, filler):
    body = {"@type": URL, "name": name, "filler": filler}
    return f"put 1 {json.dumps(body, separators=(',', ':'))}\n".encode()


class Client:
    """A client in the state of the world that wants all clusters."""

    def __init__(self, port, cluster):
        self.stream = socket.create_connection(("127.0.0.1", port), PATIENCE)
        self.file = self.stream.makefile("rb")
        self.ask({"node": {"id": "memory", "cluster": cluster}, "typeUrl": URL})

    def ask(self, message):
        self.stream.sendall(framed(1, json.dumps(message).encode()))

    def take(self):
        """Takes a response and accepts it. Answers it."""
        length = int.from_bytes(self.file.read(4), "big")
        response = json.loads(self.file.read(length)[1:])
        self.ask({"typeUrl": URL, "responseNonce": response["nonce"], "versionInfo": response["versionInfo"]})
        return response

    def close(self):
        self.file.close()
        self.stream.close()


def filled(program):
    """A server with five large clusters, and a client that has them all."""
    server = Server([program])
    for number in range(5):
        server.write(put(f"large-{number}", "x" * BODY))
    client = Client(server.port, "first")
    while len(client.take().get("resources", [])) < 5:
        pass
    server.quiet()
    return server, client


def puts(program):
    """What memory grows by while one small cluster is put over and over."""
    server, client = filled(program)
    before = server.memory("VmRSS")
    for number in range(PUTS):
        server.write(put("small", str(number)))
        found = {}
        while found.get("small") != str(number):
            found = {it["name"]: it["filler"] for it in client.take()["resources"]}
    server.quiet()
    grown = server.memory("VmRSS") - before
    client.close()
    server.stop()
    return grown


def clusters(program):
    """What memory grows by while clients of many clusters come and go."""
    server, client = filled(program)
    before = server.memory("VmRSS")
    for number in range(CLIENTS):
        other = Client(server.port, f"cluster-{number}")
        if len(other.take()["resources"]) != 5:
            raise Wrong("a client that wants all clusters wasn't told them all")
        other.close()
    server.quiet()
    grown = server.memory("VmRSS") - before
    client.close()
    server.stop()
    return grown


def main():
    if len(sys.argv) != 2:
        sys.exit(__doc__)
    os.environ["ASAN_OPTIONS"] = "quarantine_size_mb=1:thread_local_quarantine_size_kb=64"
    worst = 0
    for name, case in (("puts", puts), ("clusters", clusters)):
        try:
            grown = case(sys.argv[1])
        except NoServer as fault:
            print(fault)
            return 2
        is_good = grown <= BOUNDS[name]
        print(f"{'good' if is_good else 'BAD '} {name}: grew by {grown:.0f} MB, at most {BOUNDS[name]} are allowed", flush=True)
        worst = worst if is_good else 1
    return worst


if __name__ == "__main__":
    sys.exit(main())
