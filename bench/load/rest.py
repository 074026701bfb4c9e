#!/usr/bin/env python3
"""How many polls over HTTP a server answers a second, over connections that are kept open.

    bench/load/rest.py [--addr 127.0.0.1:18100] [--connections 16] [--seconds 5] [--version V] [--name NAME] [--path PATH]
    bench/load/rest.py --start PROGRAM [--clusters 1000] [--bytes 600] [--connections 16] [--seconds 5]
    bench/load/rest.py --start PROGRAM --plain [--rounds 3] [..]

Each connection sends a poll, reads its reply whole, and sends the next. Printed are the polls that were answered, by status, how
many that is a second, the size of a reply, and how long the middle one and the slowest of a hundred took. In the first form the
server runs already, as by `xds serve`. In the second it is started here (`PROGRAM serve --replicas 1`, at ports that are free),
clusters of so many bytes are put, and five polls are measured: for all of them, for a hundred, for ten, for one, and with the version
that stands, which is answered 304; then how much memory the server holds. It is stopped at the end.

With --plain a plain Rust server (`bench/load/plain_rest`, hyper on one thread, which proves nothing) is measured beside it in turns, so
many rounds; cargo builds it from Debian's packages (`cargo`, `librust-hyper-dev`, `librust-tokio-dev`, `librust-serde-json-dev`). Both
must show the same resources. Printed are the medians of polls a second and of each server's processor time a poll, of all its
threads, and the ratios of the first to the second.

Exit status 1 where a connection is closed or refused, and 2 where the plain server can't be built here.
"""
import argparse
import collections
import glob
import json
import os
import selectors
import shutil
import socket
import statistics
import subprocess
import sys
import time

PLAIN = os.path.join(os.path.dirname(os.path.abspath(__file__)), "plain_rest")


def words():
    parser = argparse.ArgumentParser(description=__doc__, formatter_class=argparse.RawDescriptionHelpFormatter)
    parser.add_argument("--addr", default="127.0.0.1:18100")
    parser.add_argument("--connections", type=int, default=16)
    parser.add_argument("--seconds", type=float, default=5)
    parser.add_argument("--version", default="")
    parser.add_argument("--name", default="")
    parser.add_argument("--path", default="/v3/discovery:clusters")
    parser.add_argument("--start", metavar="PROGRAM")
    parser.add_argument("--clusters", type=int, default=1000)
    parser.add_argument("--bytes", type=int, default=600)
    parser.add_argument("--plain", action="store_true")
    parser.add_argument("--rounds", type=int, default=3)
    parser.add_argument("--crates", default="/usr/share/cargo/registry", help="where Debian's crates are (%(default)s)")
    return parser.parse_args()


def request(addr, path, names=(), version=""):
    """The bytes of one poll, for names or for all of a type."""
    asked = ({"resourceNames": list(names)} if names else {}) | ({"versionInfo": version} if version else {})
    body = json.dumps(asked).encode()
    head = f"POST {path} HTTP/1.1\r\nhost: {addr}\r\ncontent-type: application/json\r\ncontent-length: {len(body)}\r\n\r\n"
    return head.encode() + body


class Connection:
    """A connection that polls. A reply is taken in pieces; its length is read once, from its head."""

    def __init__(self, server, sent):
        self.socket = socket.create_connection(server)
        self.socket.setsockopt(socket.IPPROTO_TCP, socket.TCP_NODELAY, 1)
        self.sent = sent
        self.ask()

    def ask(self):
        self.got, self.ends = bytearray(), None
        self.since = time.perf_counter()
        self.socket.sendall(self.sent)

    def take(self):
        """The status of the reply, once all of it is there."""
        piece = self.socket.recv(1 << 18)
        if not piece:
            raise ConnectionError("a connection was closed")
        self.got += piece
        if self.ends is None:
            head = self.got.find(b"\r\n\r\n")
            if head < 0:
                return None
            fields = dict(line.lower().split(b": ", 1) for line in bytes(self.got[:head]).split(b"\r\n")[1:])
            self.ends = head + 4 + int(fields.get(b"content-length", 0))
        return int(self.got[9:12]) if len(self.got) >= self.ends else None


def poll_once(server, sent):
    """The status and the body of one poll."""
    connection = Connection(server, sent)
    status = None
    while status is None:
        status = connection.take()
    connection.socket.close()
    return status, bytes(connection.got).partition(b"\r\n\r\n")[2]


def measure(server, sent, connections, seconds):
    """Polls for so many seconds, prints what came of it, and answers how many polls that is a second."""
    chosen, size = selectors.DefaultSelector(), 0
    for _ in range(connections):
        connection = Connection(server, sent)
        chosen.register(connection.socket, selectors.EVENT_READ, connection)
    statuses, took = collections.Counter(), []
    begin = time.perf_counter()
    while time.perf_counter() - begin < seconds:
        for key, _ in chosen.select(1):
            status = key.data.take()
            if status is not None:
                took.append(time.perf_counter() - key.data.since)
                statuses[status] += 1
                size = len(key.data.got)
                key.data.ask()
    spent = time.perf_counter() - begin
    for key in list(chosen.get_map().values()):
        key.data.socket.close()
    if not took:
        sys.exit("no poll was answered")
    took.sort()
    print(" ".join(f"{status}: {count}" for status, count in sorted(statuses.items())))
    print(f"{len(took) / spent:.0f} polls a second over {connections} connections, a reply of {size} bytes")
    print(f"middle {took[len(took) // 2] * 1000:.2f} ms, slowest of a hundred {took[len(took) * 99 // 100] * 1000:.2f} ms")
    return len(took) / spent


def free_port():
    with socket.create_server(("127.0.0.1", 0)) as unused:
        return unused.getsockname()[1]


def cluster(number, size):
    """A cluster of so many bytes as JSON, or as few as its name and type take."""
    made = {"@type": "type.googleapis.com/envoy.config.cluster.v3.Cluster", "name": f"cluster-{number}", "altStatName": ""}
    made["altStatName"] = "x" * max(size - len(json.dumps(made, separators=(",", ":"))), 0)
    return json.dumps(made, separators=(",", ":"))


def put_all(server, given, port, sent):
    """Puts the clusters, and waits until a poll has all of them. Its version and its resources."""
    for number in range(given.clusters):
        server.stdin.write(f"put 1 {cluster(number, given.bytes)}\n".encode())
    server.stdin.flush()
    address, ends = ("127.0.0.1", port), time.monotonic() + 120
    while time.monotonic() < ends and server.poll() is None:
        try:
            status, body = poll_once(address, sent)
            reply = json.loads(body) if status == 200 else {}
            if len(reply.get("resources", [])) == given.clusters:
                return reply["versionInfo"], reply["resources"]
        except ConnectionRefusedError:
            pass
        time.sleep(0.2)
    sys.exit("the clusters were not there within two minutes")


def plain_server(given):
    """The plain server, built where its sources are newer."""
    cargo = shutil.which("cargo")
    if not cargo:
        print("there is no `cargo` to build the plain server", file=sys.stderr)
        sys.exit(2)
    build = [cargo, "build", "--release", "--offline", "--quiet"]
    if glob.glob(f"{given.crates}/hyper-*"):
        build += ["--config", 'source.crates-io.replace-with="debian"']
        build += ["--config", f'source.debian.directory="{given.crates}"']
    if subprocess.run(build, cwd=PLAIN, stdin=subprocess.DEVNULL, check=False).returncode:
        print("cargo doesn't build the plain server; its crates are Debian's packages", file=sys.stderr)
        sys.exit(2)
    return os.path.join(PLAIN, "target", "release", "plain_rest")


def held(pid):
    """How much memory a process holds, and at most held, in MB."""
    lines = dict(line.split(":", 1) for line in open(f"/proc/{pid}/status"))
    return tuple(int(lines[word].split()[0]) / 1000 for word in ("VmRSS", "VmHWM"))


def processor(pid):
    """The processor time of a process so far, of all its threads, in seconds."""
    with open(f"/proc/{pid}/stat", encoding="utf-8") as file:
        counts = file.read().rsplit(")", 1)[1].split()
    return (int(counts[11]) + int(counts[12])) / os.sysconf("SC_CLK_TCK")


class Started:
    """A server that is started here, with the clusters put, and the polls that it is asked."""

    def __init__(self, program, given):
        self.port = free_port()
        command = [program, "serve", "--replicas", "1", "--port", str(free_port()), "--rest-port", str(self.port)]
        self.process = subprocess.Popen(command, stdin=subprocess.PIPE, stdout=subprocess.DEVNULL)
        addr = f"127.0.0.1:{self.port}"
        version, self.resources = put_all(self.process, given, self.port, request(addr, given.path))
        names = [f"cluster-{number}" for number in range(100)]
        self.polls = {
            "all clusters": request(addr, given.path),
            "a hundred clusters": request(addr, given.path, names),
            "ten clusters": request(addr, given.path, names[:10]),
            "one cluster": request(addr, given.path, names[:1]),
            "nothing new": request(addr, given.path, version=version),
        }

    def measure(self, poll, given):
        """How many polls a second are answered, and the server's processor time a poll, in microseconds."""
        before, begin = processor(self.process.pid), time.monotonic()
        rate = measure(("127.0.0.1", self.port), self.polls[poll], given.connections, given.seconds)
        polls = rate * (time.monotonic() - begin)
        spent = (processor(self.process.pid) - before) / polls * 1e6
        print(f"{spent:.1f} us of the server's processor time a poll")
        return rate, spent

    def stop(self):
        self.process.terminate()
        self.process.wait()


def of_started(given):
    """Measures the polls of a server that is started here, beside those of the plain one where that is asked for."""
    programs = [given.start] + ([plain_server(given)] if given.plain else [])
    servers = []
    try:
        servers += [Started(program, given) for program in programs]
        if any(server.resources != servers[0].resources for server in servers):
            sys.exit("the servers show different resources")
        for poll in servers[0].polls:
            rates = [[] for _ in servers]
            for _ in range(given.rounds if given.plain else 1):
                for server, program, rate in zip(servers, programs, rates):
                    print(f"{poll}, {os.path.basename(program)}:")
                    rate.append(server.measure(poll, given))
            if given.plain:
                (ours, ours_spent), (plain, plain_spent) = ([statistics.median(it) for it in zip(*rate)] for rate in rates)
                print(f"** {poll}: {ours:.0f} and {plain:.0f} polls a second, ratio {ours / plain:.2f};"
                      f" {ours_spent:.1f} and {plain_spent:.1f} us of processor time a poll, ratio {ours_spent / plain_spent:.2f}", flush=True)
        for server, program in zip(servers, programs):
            print(f"memory of {os.path.basename(program)}: %.1f MB, at most %.1f MB" % held(server.process.pid))
    finally:
        for server in servers:
            server.stop()


def main():
    given = words()
    if given.start:
        return of_started(given)
    host, _, port = given.addr.rpartition(":")
    measure((host, int(port)), request(given.addr, given.path, [given.name] if given.name else [], given.version), given.connections, given.seconds)


if __name__ == "__main__":
    try:
        main()
    except OSError as fault:
        sys.exit(str(fault))
