#!/usr/bin/env python3
"""What who operates a server sees of it, over the program itself.

    python3 bench/gate/operate.py crates/xds/out/xds

Starts servers of the program, each on ports of its own, and tries: refused lines of the input and of POST /changes, the log, the
numbers and the streams that are shown, the limits of streams, a stop beside a client that reads nothing in the midst of a frame,
what replicas tell each other, addresses, and words that are wrong. Prints a line for each, and the status is 1 where one isn't as it
is to be, and 2 where it can't be tried, since the program isn't there.
"""
import atexit
import http.server
import json
import os
import re
import socket
import subprocess
import sys
import threading
import time
import urllib.error
import urllib.request

from telling import end, free_ports, tell

PROGRAM = sys.argv[1] if len(sys.argv) > 1 else "crates/xds/out/xds"
URL = "type.googleapis.com/envoy.config.route.v3.RouteConfiguration"


class Server:
    """A server of one replica, or of more; behind the ports of streams and of REST comes the operator's."""

    def __init__(self, *words, text="", replicas=1, open_input=False, prepare=None):
        self.port = free_ports(2 * replicas + 1, int(os.environ.get("FIRST_PORT", "21000")))
        self.rest_port, self.admin_port = self.port + replicas, self.port + 2 * replicas
        ports = ("--port", str(self.port), "--rest-port", str(self.rest_port), "--admin-port", str(self.admin_port))
        line = [PROGRAM, "serve", "--replicas", str(replicas), *ports, *words]
        pipe = subprocess.PIPE
        self.run = subprocess.Popen(line, stdin=pipe, stdout=pipe, stderr=pipe, text=True, preexec_fn=prepare)
        atexit.register(self.run.kill)
        self.run.stdin.write(text)
        self.run.stdin.flush()
        if not open_input:
            self.run.stdin.close()
        for _ in range(1_200):
            try:
                if self.get("/ready") == "ready\n":
                    return
            except OSError:
                pass
            time.sleep(0.05)
        sys.exit("the server isn't ready")

    def ask(self, path, data=None):
        url = f"http://127.0.0.1:{self.admin_port}{path}"
        with urllib.request.urlopen(url, data=data, timeout=20) as reply:
            return reply.read().decode()

    def get(self, path):
        return self.ask(path)

    def post(self, path, text=""):
        return self.answer(path, text.encode())[1]

    def answer(self, path, data=None, **headers):
        """The status and the body of what is answered, whatever the status is."""
        request = urllib.request.Request(f"http://127.0.0.1:{self.admin_port}{path}", data=data, headers=headers)
        try:
            with urllib.request.urlopen(request, timeout=120) as reply:
                return reply.status, reply.read().decode()
        except urllib.error.HTTPError as error:
            return error.code, error.read().decode()

    def stop(self):
        """How it ended: its status, its error output, and how many seconds that took."""
        begun = time.time()
        self.post("/stop")
        status = self.run.wait(timeout=30)
        return status, self.run.stderr.read(), time.time() - begun


def put(name, replica=1, **fields):
    return f"put {replica} " + json.dumps({"@type": URL, "name": name, **fields}) + "\n"


def ran(*words):
    return subprocess.run([PROGRAM, *map(str, words)], capture_output=True, text=True, timeout=60, check=False)


class Stream:
    def __init__(self, port):
        self.socket = socket.create_connection(("127.0.0.1", port), timeout=20)

    def send(self, message, kind=1):
        text = json.dumps(message).encode()
        self.socket.sendall((len(text) + 1).to_bytes(4, "big") + bytes([kind]) + text)

    def exactly(self, count):
        got = b""
        while len(got) < count:
            piece = self.socket.recv(count - len(got))
            if not piece:
                return None
            got += piece
        return got

    def take(self):
        head = self.exactly(5)
        return head and json.loads(self.exactly(int.from_bytes(head[:4], "big") - 1))


def comes(holds):
    """Whether something comes to hold within twenty seconds."""
    until = time.time() + 20
    while not holds():
        if time.time() > until:
            return False
        time.sleep(0.02)
    return True


def number(text, name, labels):
    found = re.search(rf"^{name}\{{{re.escape(labels)}\}} (\d[\d.e-]*)$", text, re.M)
    return None if not found else int(found[1]) if found[1].isdigit() else float(found[1])


def lines_and_changes():
    server = Server("--keep-going", "--log", text="view 1 route\ndelete 1 route none\n" + put("a"))
    answer = server.post("/changes", put("b") + "put 1 {}\ndelete 1 route none\nput 7 {}\n# none\n")
    wanted = r"line 1: \d+-1\nline 2: 21 BadScript: 4 BadResource\nline 3: 9 NotFound\nline 4: 21 BadScript: 4 BadResource\n"
    tell("changes are answered line by line", re.fullmatch(wanted, answer), answer)
    stream = Stream(server.port)
    stream.send({"node": {"id": "n\n1", "cluster": "edge"}, "typeUrl": URL, "resourceNames": ["a", "b", "c"]})
    first = stream.take()
    stream.send({"typeUrl": URL, "resourceNames": ["a", "b", "c"], "responseNonce": first["nonce"], "versionInfo": first["versionInfo"]})
    server.post("/changes", put("c"))
    second = stream.take()
    rejects = {"typeUrl": URL, "resourceNames": ["a", "b", "c"], "responseNonce": second["nonce"], "errorDetail": {"message": 'no "c"'}}
    stream.send(rejects)
    seen = lambda: json.loads(server.get("/status"))["replicas"][0]["streams"][0]
    comes(lambda: seen()["types"][0]["rejection"])
    found = seen()
    shown = found["types"][0]
    tell("a stream is shown", found["node"] == "n?1" and found["cluster"] == "edge" and found["variant"] == "sotw", found)
    tell(
        "what it was told is shown",
        shown["names"] == 3 and shown["accepted"] == first["versionInfo"] and shown["sent"] == second["versionInfo"] and shown["rejection"] == "no ?c?",
        shown,
    )
    text = server.get("/metrics")
    each = 'replica="1",type="route"'
    counted = [number(text, f"xds_{it}", each) for it in ("resources", "responses_total", "acks_total", "nacks_total")]
    tell("numbers are shown", counted == [3, 2, 1, 1] and number(text, "xds_changes_refused_total", 'replica="1"') == 2, text)
    stream.socket.close()
    streams = lambda: json.loads(server.get("/status"))["replicas"][0]["streams"]
    tell("a stream that ended is shown no longer", comes(lambda: streams() == []), streams())
    code, errors, _ = server.stop()
    wanted = ("line 1: 21 BadScript: unknown command\n", "line 2: 9 NotFound\n", 'first request, node "n?1"', 'is rejected: "no ?c?"', "ended\n")
    tell("lines and events are told", code == 0 and all(it in errors for it in wanted), errors)


def stop_in_a_frame():
    server = Server()
    for at in range(24):
        server.post("/changes", put(f"big{at}", x="0" * 1_000_000))
    stream = Stream(server.port)
    stream.socket.setsockopt(socket.SOL_SOCKET, socket.SO_RCVBUF, 4096)
    stream.send({"typeUrl": URL, "resourceNames": [f"big{at}" for at in range(12)]})
    comes(lambda: number(server.get("/metrics"), "xds_responses_total", 'replica="1",type="route"') == 1)
    time.sleep(0.5)
    code, _, seconds = server.stop()
    tell("it stops beside a client that reads nothing", code == 0 and seconds < 10, (code, seconds))
    server = Server(text=put("a"))
    stream = Stream(server.port)
    stream.send({"typeUrl": URL, "resourceNames": ["a"]})
    whole = stream.take()
    code, _, seconds = server.stop()
    tell("it stops at once where no frame is under way", whole and code == 0 and seconds < 2.5, (code, seconds))


def limits():
    server = Server("--max-streams", "1", "--idle-seconds", "1")
    first = Stream(server.port)
    first.send({"typeUrl": URL, "resourceNames": ["a"]})
    comes(lambda: number(server.get("/metrics"), "xds_streams", 'replica="1",variant="sotw"') == 1)
    second = Stream(server.port)
    tell("a stream past the most is closed", second.socket.recv(1) == b"")
    turned = number(server.get("/metrics"), "xds_streams_turned_away_total", 'replica="1"')
    tell("and counted", turned == 1, turned)
    first.socket.close()
    # Until its place is free, the next is closed at once.
    until, took = time.time() + 20, 0
    while took < 0.5 and time.time() < until:
        idle = Stream(server.port)
        begun = time.time()
        try:
            idle.socket.sendall(b"\x00\x00\x00")
            ended = idle.socket.recv(1)
        except ConnectionError:
            ended = b""
        took = time.time() - begun
    tell("a stream without a first frame is ended", ended == b"" and 0.5 < took < 10, took)
    server.stop()


def refused():
    server = Server()
    for path, data, wanted in (("/x", None, 404), ("/stop", None, 405), ("/metrics", b"", 405)):
        try:
            server.ask(path, data)
            found = 200
        except urllib.error.HTTPError as error:
            found = error.code
        tell(f"{path} is {wanted}", found == wanted, found)
    run = subprocess.run([PROGRAM, "serve", "--port", str(server.port), "--rest-port", "9"], capture_output=True, text=True, check=False)
    tell("a port in use is told", run.returncode == 1 and run.stderr == f"127.0.0.1:{server.port}: 19 Device: in use\n", run.stderr)
    words = ["client", "--addr", f"127.0.0.1:{server.port + 1}", "--variant", "sotw", "--type", "route", "--responses", "1", "a"]
    run = subprocess.run([PROGRAM, *words], capture_output=True, text=True, check=False)
    tell("a client at a port of REST is told so", run.returncode == 1 and "HTTP is spoken there" in run.stderr, run.stderr)
    words[2:3] = [f"127.0.0.1:{server.port}", "--seconds", "1"]
    run = subprocess.run([PROGRAM, *words], capture_output=True, text=True, check=False)
    tell("a client gives up", run.returncode == 1 and run.stderr == "19 Device: gave up after 1 s\n", run.stderr)
    run = subprocess.run([PROGRAM, "poll", "--addr", "localhost:1", "--type", "route"], capture_output=True, text=True, check=False)
    tell("a wrong address is named", run.returncode == 2 and "--addr:" in run.stderr and "127.0.0.1" in run.stderr, run.stderr)
    run = subprocess.run([PROGRAM, "--version"], capture_output=True, text=True, check=False)
    tell("the version is told", run.returncode == 0 and run.stdout.startswith("xds "), run.stdout)
    server.stop()


def replicas():
    """What is put at each of two replicas is seen at the other, with the replica that wrote it."""
    server = Server(replicas=2, text=put("a", 2) + put("nobody", 9) + "delete 1 route none\n" + put("b", 1))
    # Either may have heard of the other's put before its own, so counters are 1 or 2.
    wrote = {"a": "2", "b": "1"}
    for place in range(2):
        stream = Stream(server.port + place)
        stream.send({"typeUrl": URL, "resourceNamesSubscribe": ["a", "b", "nobody"]}, kind=3)
        found, until = {}, time.time() + 20
        while found != wrote and time.time() < until:
            response = stream.take()
            found.update({it["name"]: it["version"].partition("-")[2] for it in response.get("resources", [])})
            stream.send({"typeUrl": URL, "responseNonce": response["nonce"]}, kind=3)
        tell(f"replica {place + 1} has what was put at both, and nothing else", found == wrote, found)
        stream.socket.close()
    server.stop()


def counted_streams():
    """A stream that ended counts once, however it ended."""
    server = Server("--streams", "3")
    for at in range(3):
        if server.run.poll() is not None:
            break
        stream = Stream(server.port)
        stream.send({"typeUrl": URL, "resourceNames": ["a"]}) if at else stream.socket.sendall(b"\0\0\0\x01\x09")
        stream.socket.shutdown(socket.SHUT_WR)
        while stream.socket.recv(4096):
            pass
        if at < 2:
            time.sleep(0.3)
            tell(f"after {at + 1} of 3 streams the server goes on", server.run.poll() is None)
    tell("after the third it ends", server.run.wait(timeout=20) == 0)


REFUSED = '{"code":7,"name":"BadMessage"}'


class Answers(http.server.BaseHTTPRequestHandler):
    """Another server: a poll of secrets is refused, with a body."""

    def do_POST(self):
        self.rfile.read(int(self.headers["content-length"]))
        is_refused = self.path.endswith("secrets")
        text = (REFUSED if is_refused else "{}").encode()
        self.send_response(400 if is_refused else 200)
        self.send_header("content-length", str(len(text)))
        self.end_headers()
        self.wfile.write(text)

    def log_message(self, *_):
        pass


def addresses():
    server = Server(text=put("a") + put("b"))
    for port in (server.port, server.rest_port, server.admin_port):
        try:
            socket.create_connection(("127.0.0.2", port), 5).close()
            found = "connected"
        except ConnectionRefusedError:
            found = "refused"
        tell("another address of this machine is not served", found == "refused", found)
    run = ran("client", "--addr", f"127.0.0.1:{server.port}", "--variant", "delta", "--type", "route", "--responses", 2, "--cluster", "edge", "--seconds", 20, "a", "later")
    # The second response comes once what it waits for is put.
    tell("a client that is told once waits for more", run.returncode == 1 and run.stdout.startswith("taken 1\n1-1 "), run)
    client = subprocess.Popen(
        [PROGRAM, "client", "--addr", f"127.0.0.1:{server.port}", "--variant", "delta", "--type", "route", "--responses", "2", "--cluster", "edge", "a", "later"],
        stdout=subprocess.PIPE,
        text=True,
    )
    first = client.stdout.readline()
    server.post("/changes", 'putin 1 edge {"@type":"%s","name":"later"}\n' % URL)
    rest = client.communicate(timeout=60)[0]
    tell("a client of a cluster takes two responses", first == "taken 1\n" and "taken 2\n" in rest and '"name":"later"' in rest and client.returncode == 0, first + rest)
    with socket.create_connection(("127.0.0.1", server.rest_port), 20) as it:
        it.sendall(b"POST /nothing HTTP/1.1\r\nhost: a\r\ncontent-encoding: gzip\r\ncontent-length: 0\r\nconnection: close\r\n\r\n")
        head = it.recv(4096)
    tell("a path that isn't there is 404 before a coding is 501", head.startswith(b"HTTP/1.1 404 "), head)
    other = http.server.HTTPServer(("127.0.0.2", 0), Answers)
    threading.Thread(target=other.serve_forever, daemon=True).start()
    run = ran("poll", "--addr", f"127.0.0.2:{other.server_port}", "--type", "route", "a")
    tell("a poll of another address goes there", run.returncode == 0 and run.stdout == "200\n{}\n", run)
    run = ran("poll", "--addr", f"127.0.0.2:{other.server_port}", "--type", "secret", "a")
    tell("a poll that is refused is shown with its body", run.returncode == 0 and run.stdout == f"400\n{REFUSED}\n", run)
    other.shutdown()
    server.stop()


def main():
    if not os.path.isfile(PROGRAM):
        sys.exit(2)
    lines_and_changes()
    replicas()
    counted_streams()
    addresses()
    stop_in_a_frame()
    limits()
    refused()
    end()


if __name__ == "__main__":
    main()
