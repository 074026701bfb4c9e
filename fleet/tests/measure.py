"""Measures the fleet over a real etcd of three members on this machine, with three servers of two replicas each.

    fleet/bench [latency] [rate] [start]

    latency   how long after a change was sent to one server a client at each of the other two has it: 1,000 changes, one at a time
    rate      how many changes a second come from one server to the two others, of 10,000 that are sent at once; and what etcd's own
              `etcdctl check perf` says of this etcd, where it is there
    start     how long a server takes to be ready where 10,000 writes stand in etcd
"""
import json
import os
import shutil
import socket
import subprocess
import sys
import tempfile
import threading
import time

from parts import Etcd, Server, put, wait_until

COUNT = int(os.environ.get("FLEET_CHANGES", "1000"))
MANY = int(os.environ.get("FLEET_WRITES", "10000"))
CLUSTER = "type.googleapis.com/envoy.config.cluster.v3.Cluster"


class Watcher(threading.Thread):
    """An incremental client of all clusters, which notes when it is told each body."""

    def __init__(self, port):
        super().__init__(daemon=True)
        self.link = socket.create_connection(("127.0.0.1", port), 30)
        self.link.settimeout(None)
        self.at, self.came = {}, threading.Condition()
        self.send({"node": {"id": "w"}, "typeUrl": CLUSTER, "resourceNamesSubscribe": ["*"]})
        self.start()

    def send(self, message):
        text = json.dumps(message).encode()
        self.link.sendall((len(text) + 1).to_bytes(4, "big") + b"\x03" + text)

    def run(self):
        file = self.link.makefile("rb")
        while head := file.read(5):
            response = json.loads(file.read(int.from_bytes(head[:4], "big") - 1))
            now = time.monotonic()
            with self.came:
                for it in response.get("resources", []):
                    self.at[it["resource"].get("x")] = now
                self.came.notify_all()
            self.send({"typeUrl": CLUSTER, "responseNonce": response["nonce"]})

    def wait(self, x):
        with self.came:
            assert self.came.wait_for(lambda: x in self.at, 60), x
            return self.at[x]


def part(of, portion):
    return sorted(of)[min(len(of) - 1, int(len(of) * portion))]


def latency(servers):
    watchers = [Watcher(it.stream + 1) for it in servers[1:]]
    times = []
    for x in range(1, COUNT + 1):
        begun = time.monotonic()
        servers[0].change([put("cluster", f"c{x % 100}", 1, x=x, pad="p" * 500)])
        times += [it.wait(x) - begun for it in watchers]
    print(f"latency: {COUNT} changes, median {1000 * part(times, 0.5):.1f} ms, 99th {1000 * part(times, 0.99):.1f} ms, most {1000 * max(times):.1f} ms", flush=True)


def rate(servers, etcd):
    lines = [put("cluster", f"m{it}", 1, x=it, pad="p" * 500) for it in range(MANY)]
    begun = time.monotonic()
    for at in range(0, MANY, 2000):
        servers[0].change(lines[at:at + 2000])
    made = time.monotonic() - begun
    wait_until(lambda: all(len(it.writes(2)) >= MANY for it in servers), 300, "all writes everywhere")
    took = time.monotonic() - begun
    print(f"rate: {MANY} changes of 600 bytes made in {made:.2f} s, at all servers after {took:.2f} s: {MANY / took:.0f} a second, "
          f"{servers[0].number('fleet_put_transactions_total')} transactions", flush=True)
    if shutil.which("etcdctl"):
        words = ["etcdctl", "--endpoints", ",".join(f"127.0.0.1:{it}" for it in etcd.clients), "check", "perf", "--load", "s"]
        ran = subprocess.run(words, env={**os.environ, "ETCDCTL_API": "3"}, stdout=subprocess.PIPE, stderr=subprocess.STDOUT, text=True, timeout=200, check=False)
        print("etcdctl check perf --load s: " + "; ".join(it.strip() for it in ran.stdout.splitlines() if it.startswith(("PASS", "FAIL"))), flush=True)


def started(servers):
    servers[2].end()
    begun = time.monotonic()
    servers[2].start()
    servers[2].fleet.wait_for("ready:", 300)
    took = time.monotonic() - begun
    print(f"start: ready after {took:.2f} s, with {len(servers[2].writes(1))} writes", flush=True)


def main(words):
    wanted = words or ["latency", "rate", "start"]
    folder = tempfile.mkdtemp(prefix="fleet-")
    etcd, servers = Etcd(), []
    try:
        servers += [Server(etcd, f"{folder}/server-{at}") for at in range(3)]
        for it in servers:
            it.wait_ready()
        if "latency" in wanted:
            latency(servers)
        if "rate" in wanted or "start" in wanted:
            rate(servers, etcd)
        if "start" in wanted:
            started(servers)
    finally:
        for it in servers:
            it.kill()
        etcd.end()
        shutil.rmtree(folder, ignore_errors=True)
    return 0


if __name__ == "__main__":
    sys.exit(main(sys.argv[1:]))
