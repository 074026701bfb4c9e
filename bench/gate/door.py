#!/usr/bin/env python3
"""Whom an operator's port answers, and who may read what the server writes, over the program.

    python3 bench/gate/door.py crates/xds/out/xds

Asks the port as a page of a browser would, under other hosts and from other origins, with a token and without, and looks at the modes of
traces and of a store. Prints a line for each, and the status is 1 where one isn't as it is to be, and 2 where it can't be tried, since the
program isn't there.
"""
import os
import socket
import stat
import subprocess
import sys
import tempfile

import operate
from operate import Server, put
from telling import end, tell

GETS = ("/", "/healthz", "/ready", "/metrics", "/status", "/status.txt", "/resources", "/writes")
POSTS = ("/ready", "/changes", "/writes", "/stop")
REQUESTS = [*(("GET", path) for path in GETS), *(("POST", path) for path in POSTS)]


def head_of(server, head):
    """The head of what is answered to a request with this head."""
    with socket.create_connection(("127.0.0.1", server.admin_port), 20) as it:
        it.sendall(head.replace("\n", "\r\n").encode() + b"\r\n")
        return it.makefile("rb").read().partition(b"\r\n\r\n")[0].decode()


def raw(server, head):
    """The status of what is answered to a request with this head."""
    line = head_of(server, head).split()
    return int(line[1]) if line else None


def hosts():
    server = Server()
    port = server.admin_port
    for host in ("127.0.0.1", f"127.0.0.1:{port}", "localhost", f"localhost:{port}", "[::1]", f"[::1]:{port}"):
        found = raw(server, f"GET /healthz HTTP/1.1\nhost: {host}\nconnection: close\n")
        tell(f"the host {host.replace(str(port), 'PORT')} is answered", found == 200, found)
    others = ("evil.example", f"evil.example:{port}", "127.0.0.1.evil.example", "localhost.evil.example", "127.0.0.2", "evil.example:127.0.0.1", "localhost:1:1", "x:localhost")
    for host in others:
        for method, path in REQUESTS:
            found = raw(server, f"{method} {path} HTTP/1.1\nhost: {host}\ncontent-length: 0\nconnection: close\n")
            if found != 403:
                tell(f"{method} {path} for {host} is refused", found in (400, 403), found)
                break
        else:
            tell(f"the host {host.replace(str(port), 'PORT')} is refused", True)
    for origin in ("http://evil.example", f"http://127.0.0.1:{port}", "null", ""):
        found = raw(server, f"POST /stop HTTP/1.1\nhost: 127.0.0.1\norigin: {origin}\ncontent-length: 0\nconnection: close\n")
        tell(f"a request from the origin {origin.replace(str(port), 'PORT')!r} is refused", found == 403, found)
    found = raw(server, "GET /healthz HTTP/1.1\nhost: localhost\nhost: evil.example\nconnection: close\n")
    tell("two hosts are refused", found in (400, 403), found)
    tell("the server goes on", server.run.poll() is None and server.get("/healthz") == "ok\n")
    server.stop()


class Told(Server):
    """A server whose port asks for a token."""

    token = "s3cret token"

    def ask(self, path, data=None):
        status, text = self.answer(path, data, authorization=f"Bearer {self.token}")
        if status != 200:
            raise OSError(f"{status}")
        return text

    def post(self, path, text=""):
        return self.ask(path, text.encode())


def tokens(folder):
    file = os.path.join(folder, "token")
    with open(file, "w", encoding="utf-8") as it:
        it.write(f"{Told.token}\nnot this\n")
    server = Told("--admin-token", file, text=put("a"))
    for method, path in REQUESTS:
        data = b"" if method == "POST" else None
        for headers in ({}, {"authorization": "Bearer "}, {"authorization": "Bearer s3cret"}, {"authorization": f"Basic {Told.token}"}, {"authorization": f"Bearer {Told.token} "[:-2]}):
            found = server.answer(path, data, **headers)[0]
            tell(f"{method} {path} with {headers or 'nothing'} is 401", found == 401, found)
    found = head_of(server, "GET /metrics HTTP/1.1\nhost: localhost\nconnection: close\n")
    tell("a 401 names its scheme", "www-authenticate: bearer" in found.lower(), found)
    found = server.answer("/metrics", authorization=f"Bearer {Told.token}")
    tell("with the token it is answered", found[0] == 200 and "xds_resources" in found[1], found)
    found = server.answer("/changes", put("b").encode(), authorization=f"Bearer {Told.token}")
    tell("and changes are made", found[0] == 200, found)
    tell("who says the token stops it", server.stop()[0] == 0)
    for name, text, wanted in (("none", None, ": 19 Device: no such file\n"), ("empty", "", ": its first line is to be a token\n"), ("blank", " \nx\n", ": its first line is to be a token\n"), ("long", "x" * 5_000 + "\n", ": its first line is to be a token\n")):
        file = os.path.join(folder, name)
        if text is not None:
            with open(file, "w", encoding="utf-8") as it:
                it.write(text)
        ports = ("--port", str(server.port), "--rest-port", str(server.rest_port), "--replicas", "1", "--admin-port", str(server.admin_port))
        run = subprocess.run([operate.PROGRAM, "serve", *ports, "--admin-token", file], stdin=subprocess.DEVNULL, capture_output=True, text=True, timeout=60, check=False)
        tell(f"a file of a token that is {name} is told", (run.returncode, run.stderr) == (1, file + wanted), run)


def modes(folder):
    store, traces = os.path.join(folder, "it.db"), os.path.join(folder, "traces")
    os.mkdir(traces)
    before = os.umask(0)
    server = Server("--store", store, "--record", traces, text=put("a"), replicas=2)
    server.post("/changes", put("b"))
    for file in (store, store + "-wal", *(os.path.join(traces, f"replica-{at}.trace") for at in (1, 2))):
        mode = stat.S_IMODE(os.stat(file).st_mode) if os.path.exists(file) else None
        tell(f"nobody else may read {os.path.basename(file)}", mode == 0o600, mode and oct(mode))
    server.stop()
    os.umask(before)
    os.chmod(store, 0o640)
    server = Server("--store", store)
    server.post("/changes", put("c"))
    mode = stat.S_IMODE(os.stat(store).st_mode)
    tell("a store that is there keeps its mode", mode == 0o640, oct(mode))
    server.stop()


def main():
    if not os.path.isfile(operate.PROGRAM):
        sys.exit(2)
    hosts()
    with tempfile.TemporaryDirectory() as folder:
        tokens(folder)
    with tempfile.TemporaryDirectory() as folder:
        modes(folder)
    end()


if __name__ == "__main__":
    main()
