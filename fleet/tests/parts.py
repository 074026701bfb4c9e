"""What the tests of the fleet stand on: etcd of three members, links to it that can be cut, servers with a fleet beside each, and
what their replicas hold."""
import base64
import http.client
import json
import os
import re
import shutil
import signal
import socket
import subprocess
import sys
import tempfile
import threading
import time

HERE = os.path.dirname(os.path.realpath(__file__))
TOP = os.path.dirname(os.path.dirname(HERE))
FLEET = os.path.join(TOP, "fleet", "out", "fleet")
XDS = os.environ.get("XDS") or os.path.join(TOP, "xds")
sys.path.insert(0, os.path.join(TOP, "bench", "gate"))

import restart_clients  # noqa: E402
from restart_server import WORDS, Write, compact, put  # noqa: E402

# (so that what was started is ended, too, where the tests are told to end)
signal.signal(signal.SIGTERM, lambda *_: sys.exit(143))

# How long a step of a test may take, in seconds.
PATIENCE = int(os.environ.get("XDS_PATIENCE", "60"))


def free_ports(count):
    """Ports that are free: all are held until all are found."""
    held = [socket.socket() for _ in range(count)]
    try:
        for it in held:
            it.bind(("127.0.0.1", 0))
        return [it.getsockname()[1] for it in held]
    finally:
        for it in held:
            it.close()


def rows_of_ports(*counts):
    """Of each count so many ports in a row that are free, found at random below those that the system gives to clients."""
    rows, taken = [], set()
    for count in counts:
        for _ in range(500):
            first = 20000 + int.from_bytes(os.urandom(2), "big") % 12000
            row = range(first, first + count)
            if taken & set(row):
                continue
            try:
                for port in row:
                    with socket.socket() as it:
                        it.setsockopt(socket.SOL_SOCKET, socket.SO_REUSEADDR, 1)
                        it.bind(("127.0.0.1", port))
            except OSError:
                continue
            rows.append(first)
            taken |= set(row)
            break
        else:
            raise OSError("no free ports")
    return rows


def wait_until(holds, seconds=PATIENCE, what="it"):
    end = time.monotonic() + seconds
    while not holds():
        if time.monotonic() > end:
            what = what() if callable(what) else what
            raise AssertionError(f"{what} didn't come about in {seconds} seconds")
        time.sleep(0.05)


def asked(port, method, path, body=None, patience=PATIENCE):
    """The status, the head and the body of an answer over HTTP."""
    link = http.client.HTTPConnection("127.0.0.1", port, timeout=patience)
    try:
        link.request(method, path, body)
        answer = link.getresponse()
        return answer.status, answer.headers, answer.read().decode()
    finally:
        link.close()


class Process:
    """A process whose error output is kept by lines. It is ended by its id."""

    def __init__(self, words, **more):
        self.process = subprocess.Popen(words, stdin=subprocess.PIPE, stdout=subprocess.DEVNULL, stderr=subprocess.PIPE, text=True, **more)
        self.lines = []
        self.reader = threading.Thread(target=self._read, daemon=True)
        self.reader.start()

    def _read(self):
        for line in self.process.stderr:
            self.lines.append(line.rstrip("\n"))

    def told(self, part):
        return [it for it in list(self.lines) if part in it]

    def wait_for(self, part, seconds=PATIENCE):
        def holds():
            if self.process.poll() is not None and not self.told(part):
                raise AssertionError(f"ended with {self.process.returncode}: {self.lines[-20:]}")
            return self.told(part)

        wait_until(holds, seconds, lambda: f"a line with {part!r} behind {self.lines[-8:]}")
        return self.told(part)[0]

    def end(self, how=signal.SIGKILL):
        if self.process.poll() is None:
            self.process.send_signal(how)
        return self.close()

    def close(self):
        """Waits for its end, and answers its status."""
        status = self.process.wait(PATIENCE)
        # (what it started may hold its error output still)
        self.reader.join(1)
        self.process.stdin.close()
        if not self.reader.is_alive():
            self.process.stderr.close()
        return status


class Etcd:
    """Three members of etcd on loopback."""

    def __init__(self):
        self.folder = tempfile.mkdtemp(prefix="fleet-etcd-")
        ports = free_ports(6)
        self.clients, self.peers = ports[:3], ports[3:]
        self.members = [None] * 3
        for at in range(3):
            self.start(at)
        self.wait_up()

    def start(self, at):
        peers = ",".join(f"m{i}=http://127.0.0.1:{port}" for i, port in enumerate(self.peers))
        client, peer = f"http://127.0.0.1:{self.clients[at]}", f"http://127.0.0.1:{self.peers[at]}"
        words = ["etcd", "--name", f"m{at}", "--data-dir", f"{self.folder}/m{at}", "--listen-client-urls", client,
                 "--advertise-client-urls", client, "--listen-peer-urls", peer, "--initial-advertise-peer-urls", peer,
                 "--initial-cluster", peers, "--initial-cluster-token", "fleet-test", "--initial-cluster-state", "new",
                 "--heartbeat-interval", "100", "--election-timeout", "1500", "--logger", "zap", "--log-level", "error"]
        # (some of Debian's machines aren't x86-64)
        self.members[at] = Process(words, env={**os.environ, "ETCD_UNSUPPORTED_ARCH": os.uname().machine.replace("aarch64", "arm64")})

    def ask(self, at, path, patience=5, **message):
        status, _, text = asked(self.clients[at], "POST", path, json.dumps(message), patience)
        if status != 200:
            raise OSError(text)
        return json.loads(text)

    def is_up(self, members=(0, 1, 2)):
        try:
            for at in members:
                self.ask(at, "/v3/kv/range", 2, key=coded("/up"))
            return True
        except (OSError, ValueError, http.client.HTTPException):
            return False

    def wait_up(self):
        wait_until(self.is_up, what="etcd")

    def signal(self, at, how):
        self.members[at].process.send_signal(how)

    def kill(self, at):
        self.members[at].end()

    def revision(self, at=0):
        return int(self.ask(at, "/v3/kv/range", key=coded("/up"))["header"]["revision"])

    def compact(self, at=0):
        """Has etcd forget all that changed up to now."""
        self.ask(at, "/v3/kv/compaction", revision=str(self.revision(at)), physical=True)

    def standing(self, prefix="/xds/", at=0):
        """Each key below a prefix with its value."""
        end = prefix[:-1] + chr(ord(prefix[-1]) + 1)
        found = self.ask(at, "/v3/kv/range", 30, key=coded(prefix), range_end=coded(end)).get("kvs", [])
        return {base64.b64decode(it["key"]).decode(): base64.b64decode(it.get("value", "")).decode() for it in found}

    def put(self, key, value):
        self.ask(0, "/v3/kv/put", key=coded(key), value=coded(value))

    def end(self):
        for it in self.members:
            if it.process.poll() is None:
                it.process.send_signal(signal.SIGCONT)
                it.end()
        shutil.rmtree(self.folder, ignore_errors=True)


def coded(text):
    return base64.b64encode(text.encode()).decode()


class Link:
    """A way to a port that can be cut, and mended."""

    def __init__(self, port):
        self.to, self.is_cut, self.held, self.lock = port, False, set(), threading.Lock()
        self.listener = socket.create_server(("127.0.0.1", 0))
        self.port = self.listener.getsockname()[1]
        threading.Thread(target=self._accept, daemon=True).start()

    def _accept(self):
        while True:
            try:
                here, _ = self.listener.accept()
            except OSError:
                return
            try:
                if self.is_cut:
                    raise OSError
                there = socket.create_connection(("127.0.0.1", self.to), 5)
                there.settimeout(None)
            except OSError:
                here.close()
                continue
            with self.lock:
                self.held |= {here, there}
            for source, sink in ((here, there), (there, here)):
                source.setsockopt(socket.IPPROTO_TCP, socket.TCP_NODELAY, 1)
                threading.Thread(target=self._carry, args=(source, sink), daemon=True).start()

    def _carry(self, source, sink):
        try:
            while piece := source.recv(1 << 16):
                sink.sendall(piece)
        except OSError:
            pass
        for it in (source, sink):
            try:
                it.shutdown(socket.SHUT_RDWR)
            except OSError:
                pass
        with self.lock:
            self.held -= {source}
        source.close()

    def cut(self):
        self.is_cut = True
        with self.lock:
            for it in self.held:
                try:
                    it.shutdown(socket.SHUT_RDWR)
                except OSError:
                    pass

    def mend(self):
        self.is_cut = False

    def end(self):
        self.cut()
        self.listener.close()


class Server:
    """A server with a fleet beside it. When it is started again it has the same ports, and new numbers."""

    def __init__(self, etcd, folder, replicas=2, words=()):
        self.links = [Link(port) for port in etcd.clients]
        self.replicas, self.folder, self.words, self.runs = replicas, folder, words, 0
        self.stream, self.rest, self.admin, self.listen = rows_of_ports(replicas, replicas, 1, 1)
        self.start()

    def start(self):
        self.runs += 1
        record = f"{self.folder}/run-{self.runs}"
        os.makedirs(record)
        ends = ",".join(f"127.0.0.1:{it.port}" for it in self.links)
        words = [FLEET, "--endpoints", ends, "--program", XDS, "--replicas", str(self.replicas), "--port", str(self.stream), "--rest-port",
                 str(self.rest), "--admin-port", str(self.admin), "--listen", f"127.0.0.1:{self.listen}", *self.words, "--", "--record", record]
        self.fleet = Process(words)

    def wait_ready(self):
        # (the first run of ./xds may prove and build)
        self.fleet.wait_for("ready:", 7200 if XDS == os.path.join(TOP, "xds") else PATIENCE)
        self.first, self.pid = map(int, re.search(r"the numbers (\d+) to .* process id (\d+)", self.fleet.wait_for("process id")).groups())

    def change(self, lines, port=None):
        """Has changes made, at the server's own port or at the fleet's, and answers the line that each is answered."""
        status, _, text = asked(port or self.admin, "POST", "/changes", "".join(lines))
        assert status in (200, 207, 422, 507), (status, text)
        return text.splitlines()

    def writes(self, place=1):
        """What a replica holds, by type and name."""
        status, _, text = asked(self.admin, "GET", f"/writes?replica={place}")
        assert status == 200, status
        return writes_in(text.splitlines())

    def number(self, name, labels=""):
        _, _, text = asked(self.listen, "GET", "/metrics")
        return sum(int(it.rsplit(" ", 1)[1]) for it in text.splitlines() if it.startswith(name) and labels in it)

    def kill_server(self):
        """Kills the server, by its id. Its fleet ends with it."""
        os.kill(self.pid, signal.SIGKILL)
        assert self.fleet.close() == 1, self.fleet.lines[-5:]
        assert self.fleet.told("the server has ended"), self.fleet.lines[-5:]

    def end(self):
        if self.fleet.process.poll() is None:
            assert self.fleet.end(signal.SIGTERM) == 0, self.fleet.lines[-5:]

    def kill(self):
        """Ends what still runs of it."""
        if self.fleet.process.poll() is None:
            self.fleet.end()
            for line in self.fleet.told("process id"):
                try:
                    os.kill(int(line.rsplit(" ", 1)[1]), signal.SIGKILL)
                except ProcessLookupError:
                    pass
        for it in self.links:
            it.end()

    def traces(self):
        """Each trace that was recorded, and whether it is whole."""
        for run in range(1, self.runs + 1):
            for place in range(1, self.replicas + 1):
                yield f"{self.folder}/run-{run}/replica-{place}.trace"


def writes_in(lines):
    found = {}
    for line in lines:
        it = json.loads(line)
        body = compact(it["body"]) if it.get("body") is not None else None
        found[WORDS[it["typeUrl"]], it["name"]] = Write((it["counter"], it["writer"]), body, tuple(it.get("groups", ())))
    return found


def checked(path):
    """What `xds check` says of a trace: `ok`, also where it has no lines, which it tells beside that, or all that it tells. Of one that broke
    off, as of a server that was killed, what stands there is checked."""
    with open(path, "rb") as file:
        text = file.read()
    if text.startswith(b"?"):
        text = text[:text.rindex(b"\n") + 1] if b"\n" in text else b""
        text = {b"pen": b"o", b"rit": b"w", b"equ": b"r"}.get(text[1:4], b"") + text[1:] if text else b""
    ran = subprocess.run([XDS, "check"], input=text, capture_output=True, timeout=3 * PATIENCE, check=False)
    said = ran.stdout.decode().strip()
    return said if said == "ok" else f"{said}\n{ran.stderr.decode()}".strip()


class Places:
    """The ports of all replicas of all servers, one after another, as clients know them."""

    def __init__(self, servers):
        self.at = [(it.stream + i, it.rest + i) for it in servers for i in range(it.replicas)]
        self.replicas = len(self.at)

    def stream(self, place):
        return self.at[place - 1][0]

    def rest(self, place):
        return self.at[place - 1][1]


def moving(kind):
    """Clients of a kind whose connections can be shut, by which they move to another replica, mostly of another server."""

    class Moving(kind):
        link = None

        def stay(self, link, run):
            self.link = link
            super().stay(link, run)

        def move(self):
            try:
                self.link.shutdown(socket.SHUT_RDWR)
            except (AttributeError, OSError):
                pass

    Moving.__name__ = kind.__name__
    return Moving


class OfNames(restart_clients.Sotw):
    """One of the state of the world that drops what a response leaves out also where it asks by names, of a type of which a response has
    all."""

    def taken(self, response):
        super().taken(response)
        if self.names is not None and not self.keeps():
            told = {self.name_of(it) for it in response.get("resources", [])}
            self.held = {name: body for name, body in self.held.items() if name in told}


Delta, Sotw, Rest = (moving(it) for it in (restart_clients.Delta, OfNames, restart_clients.Rest))
Known = restart_clients.Known
__all__ = ["Delta", "Etcd", "Known", "Link", "PATIENCE", "Places", "Process", "Rest", "Server", "Sotw", "XDS", "FLEET", "asked", "checked", "coded",
           "compact", "put", "wait_until", "writes_in"]
