#!/usr/bin/env python3
"""What a signal does to a server that was started by ./xds, or by the script of a package.

    python3 bench/gate/signals.py PROGRAM

PROGRAM is the built program, as crates/xds/out/xds. Each start is tried with SIGTERM, SIGINT and SIGHUP: the server ends with status
0, its recording is whole, and a client is told all that was begun. A second signal kills a server that waits, and the first one kills
one whose operator's port doesn't answer. Without an operator's port a signal ends the server at once. Prints a line for each; the
status is 1 where one isn't as it is to be, and 2 where the program isn't there."""
import importlib.machinery
import importlib.util
import os
import shutil
import signal
import socket
import subprocess
import sys
import tempfile
import time
import urllib.request

from telling import end, free_ports, tell

TOP = os.path.dirname(os.path.dirname(os.path.dirname(os.path.abspath(__file__))))
LINE = b'put 1 {"@type":"type.googleapis.com/envoy.config.cluster.v3.Cluster","name":"a"}\n'
NAMES = {signal.SIGTERM: "SIGTERM", signal.SIGINT: "SIGINT", signal.SIGHUP: "SIGHUP"}


def script():
    """The functions of ./xds."""
    sys.dont_write_bytecode = True
    loader = importlib.machinery.SourceFileLoader("xds_script", f"{TOP}/xds")
    made = importlib.util.module_from_spec(importlib.util.spec_from_loader("xds_script", loader))
    loader.exec_module(made)
    return made


def package(folder, program):
    """The script of a package in a folder, which starts the program; its loader is a stand-in that starts what it is given."""
    words = {"LOADER": "loader", "PROGRAM": "program", "NAME": "PROVED", "SECONDS": "5"}
    text = script().LAUNCHER
    for word, found in words.items():
        text = text.replace(word, found)
    for name, content in (("xds", text), ("lib64/loader", '#!/bin/sh\nshift 4\nexec "$@"\n')):
        os.makedirs(os.path.dirname(f"{folder}/{name}"), exist_ok=True)
        with open(f"{folder}/{name}", "w", encoding="utf-8") as file:
            file.write(content)
        os.chmod(f"{folder}/{name}", 0o755)
    os.makedirs(f"{folder}/bin")
    os.symlink(os.path.abspath(program), f"{folder}/bin/program")
    return [f"{folder}/xds"]


class Server:
    """A server that was started by some words, in a session of its own."""

    def __init__(self, start, folder=None, with_port=True, is_held=False, token=None):
        self.said = {"authorization": f"Bearer {open(token, encoding='utf-8').readline().strip()}"} if token else {}
        self.port = free_ports(5, 23000, 50)
        self.admin = self.port + 4
        words = ["serve", "--replicas", "1", "--port", str(self.port), "--rest-port", str(self.port + 2)]
        words += ["--admin-port", str(self.admin)] if with_port else []
        words += ["--record", folder] if folder else []
        words += ["--keep-going", "--log"] if is_held else []
        words += ["--admin-token", token] if token else []
        self.run = subprocess.Popen([*start, *words], stdin=subprocess.PIPE, stdout=subprocess.DEVNULL, stderr=subprocess.PIPE, start_new_session=True)
        try:
            self.run.stdin.write(LINE)
            self.run.stdin.flush()
        except OSError:
            pass
        self.is_up = self.comes_up(with_port)

    def comes_up(self, with_port):
        until = time.time() + 60
        while time.time() < until and self.run.poll() is None:
            try:
                if with_port:
                    asked = urllib.request.Request(f"http://127.0.0.1:{self.admin}/metrics", headers=self.said)
                    with urllib.request.urlopen(asked, timeout=10) as reply:
                        if b'xds_resources{replica="1",type="cluster"} 1' in reply.read():
                            return True
                else:
                    socket.create_connection(("127.0.0.1", self.port), timeout=10).close()
                    return True
            except OSError:
                pass
            time.sleep(0.05)
        return False

    def server_process(self):
        """The number of the server's own process."""
        for name in os.listdir("/proc"):
            try:
                with open(f"/proc/{name}/stat", encoding="utf-8") as file:
                    parent = int(file.read().rpartition(")")[2].split()[1])
                if parent == self.run.pid:
                    return int(name)
            except (OSError, ValueError, IndexError):
                pass
        return self.run.pid

    def ends(self, seconds=30):
        try:
            return self.run.wait(timeout=seconds)
        except subprocess.TimeoutExpired:
            os.killpg(self.run.pid, signal.SIGKILL)
            return "it goes on"


def stopped_by(name, start, program, number, to_group):
    """A signal, to the process that was started or to its whole group, as a terminal sends it."""
    with tempfile.TemporaryDirectory() as folder:
        server = Server(start, folder)
        (os.killpg if to_group else os.kill)(server.run.pid, number)
        status = server.ends()
        with open(f"{folder}/replica-1.trace", "rb") as trace:
            judged = subprocess.run([program, "check"], stdin=trace, capture_output=True, text=True, timeout=60, check=False).stdout
        whom = "the group" if to_group else "it"
        tell(f"{name}: {NAMES[number]} to {whom} stops a server, whose recording is whole", server.is_up and (status, judged) == (0, "ok\n"), (server.is_up, status, judged))


def killed(name, start):
    """A server whose operator's port says nothing, since it is held; and one that a second signal finds."""
    server = Server(start)
    held = server.server_process()
    os.kill(held, signal.SIGSTOP)
    os.kill(server.run.pid, signal.SIGTERM)
    status = server.ends(20)
    tell(f"{name}: a server whose port doesn't answer is killed", status in (137, -9), status)
    server = Server(start)
    held = server.server_process()
    os.kill(held, signal.SIGSTOP)
    os.kill(server.run.pid, signal.SIGTERM)
    time.sleep(0.3)
    begun = time.time()
    os.kill(server.run.pid, signal.SIGTERM)
    status, took = server.ends(20), time.time() - begun
    tell(f"{name}: a second signal kills it", status in (137, -9), (status, took))


def with_token(name, start):
    """A server whose port asks for a token is stopped by it."""
    with tempfile.TemporaryDirectory() as folder:
        file = f"{folder}/a token"
        with open(file, "w", encoding="utf-8") as it:
            it.write("it's $a \\ \"token\"\n")
        server = Server(start, token=file)
        os.kill(server.run.pid, signal.SIGTERM)
        status = server.ends()
        tell(f"{name}: a server that asks for a token is stopped", server.is_up and status == 0, (server.is_up, status))


def unported(name, start):
    """Without an operator's port a signal ends the server as it ends any program."""
    server = Server(start, with_port=False)
    os.kill(server.run.pid, signal.SIGTERM)
    status = server.ends(10)
    tell(f"{name}: without an operator's port a signal ends it at once", server.is_up and status in (-15, 143), status)


def main():
    if len(sys.argv) != 2:
        sys.exit(__doc__)
    program = os.path.abspath(sys.argv[1])
    if not os.path.isfile(program):
        sys.exit(2)
    code = "import sys, importlib.machinery as m, importlib.util as u; sys.dont_write_bytecode = True; l = m.SourceFileLoader('x', sys.argv[1]); it = u.module_from_spec(u.spec_from_loader('x', l)); l.exec_module(it); sys.exit(it.run(sys.argv[2], sys.argv[3:]))"
    starts = {"./xds": [sys.executable, "-c", code, f"{TOP}/xds", program]}
    with tempfile.TemporaryDirectory() as folder:
        if shutil.which("curl"):
            starts["a package"] = package(folder, program)
        for name, start in starts.items():
            for number in NAMES:
                stopped_by(name, start, program, number, False)
            stopped_by(name, start, program, signal.SIGINT, True)
            killed(name, start)
            unported(name, start)
            with_token(name, start)
    end()


if __name__ == "__main__":
    main()
