"""A server that bench/load/fanout.py starts, be it `xds serve` or the plain one, and what is known of its process."""
import json
import os
import re
import socket
import subprocess
import time
import sys

sys.path.insert(0, os.path.abspath(f"{__file__}/../../oracle"))
from posts import free_ports

URL = "type.googleapis.com/envoy.config.cluster.v3.Cluster"
# The longest that anything is waited for, in seconds, and the memory in bytes that must stay free.
PATIENCE = 900
FREE = 700_000_000


class Wrong(Exception):
    """A client saw what it shouldn't."""


class NotHere(Exception):
    """A case can't be run on this machine."""


class NoServer(NotHere):
    """Nor can any other."""


def framed(kind, text):
    return (len(text) + 1).to_bytes(4, "big") + bytes([kind]) + text


class Server:
    def __init__(self, program):
        # Another process may take a port that is free, before the server does.
        for _ in range(3):
            said = self.start(program)
            if "streams on" in said:
                return
            self.stop()
        raise NoServer(f"{program[0]} doesn't serve: {said or 'it says nothing'}")

    def start(self, program):
        """Starts it. Answers its first line."""
        self.port, rest_port = free_ports()
        words = [*program, "serve", "--replicas", "1", "--port", str(self.port), "--rest-port", str(rest_port)]
        pipe = subprocess.PIPE
        try:
            self.run = subprocess.Popen(words, stdin=pipe, stdout=subprocess.DEVNULL, stderr=pipe)
        except OSError as fault:
            raise NoServer(f"{program[0]} can't be started: {fault.strerror}") from None
        self.pid = self.run.pid
        return self.run.stderr.readline().decode(errors="replace").strip()

    def write(self, lines):
        self.run.stdin.write(lines)
        self.run.stdin.flush()

    def look(self):
        """Sees to it that the server runs, and that the machine has memory."""
        if self.run.poll() is not None:
            raise Wrong(f"the server ended by itself, with status {self.run.returncode}")
        with open("/proc/meminfo", encoding="ascii") as file:
            free = int(re.search(r"^MemAvailable:\s+(\d+)", file.read(), re.M).group(1)) * 1024
        if free < FREE:
            raise NotHere("this machine has too little memory for it")

    def memory(self, word):
        """In MB."""
        with open(f"/proc/{self.pid}/status", encoding="ascii") as file:
            return int(re.search(rf"^{word}:\s+(\d+)", file.read(), re.M).group(1)) * 1024 / 1e6

    def processor(self):
        """Seconds of processor time, of all its threads."""
        try:
            return time.clock_gettime((~self.pid << 3) | 2)
        except OSError:
            with open(f"/proc/{self.pid}/stat", encoding="ascii") as file:
                fields = file.read().rpartition(")")[2].split()
            return (int(fields[11]) + int(fields[12])) / os.sysconf("SC_CLK_TCK")

    def tasks(self, name):
        for number in os.listdir(f"/proc/{self.pid}/task"):
            try:
                with open(f"/proc/{self.pid}/task/{number}/{name}", encoding="ascii", errors="replace") as file:
                    yield file.read()
            except OSError:
                pass

    def switches(self):
        """Voluntary context switches, of all its threads."""
        found = re.compile(r"^voluntary_ctxt_switches:\s+(\d+)", re.M)
        return sum(int(found.search(it).group(1)) for it in self.tasks("status"))

    def threads(self):
        return len(list(self.tasks("stat")))

    def quiet(self):
        """Waits until no thread of it wants a processor."""
        ends, still, before = time.monotonic() + PATIENCE, 0, self.processor()
        while time.monotonic() < ends:
            time.sleep(0.004)
            now = self.processor()
            still = still + 1 if now - before < 50e-6 else 0
            before = now
            if still >= 5 and not any(it.rpartition(")")[2].split()[0] in "RD" for it in self.tasks("stat")):
                return
        raise Wrong(f"the server wasn't quiet after {PATIENCE} s")

    def has_all(self, story):
        """Waits until the last of the resources is there."""
        with socket.create_connection(("127.0.0.1", self.port), PATIENCE) as stream:
            file, names = stream.makefile("rb"), [story.name(story.count - 1)]
            message = {"resourceNamesSubscribe": names, "typeUrl": story.url}
            while True:
                stream.sendall(framed(3, json.dumps(message).encode()))
                response = json.loads(file.read(int.from_bytes(file.read(4), "big"))[1:])
                if response.get("resources"):
                    return
                message = {"responseNonce": response["nonce"], "typeUrl": story.url}

    def stop(self):
        self.run.kill()
        self.run.wait()
        self.run.stdin.close()
        self.run.stderr.close()
