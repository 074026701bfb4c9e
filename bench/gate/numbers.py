#!/usr/bin/env python3
"""Looks at what a client of an earlier run is told, and at what is loaded before anybody is answered, over the program itself.

    python3 bench/gate/numbers.py crates/xds/out/xds

Serves a cluster, stops, and serves another body of it, with new numbers and without: a client that holds the first version is told the
new body where the numbers are new, by a stream and by a poll. Loads a file of changes: the first poll that is answered has all of them;
a bad line, a missing file and numbers beyond 65,535 end the start, and are told. Prints a line for each; the status is 1 where one isn't
as it is to be, and 2 where the program isn't there."""
import json
import os
import socket
import subprocess
import sys
import tempfile
import time
import urllib.error
import urllib.request

from telling import end, free_ports, tell

URL = "type.googleapis.com/envoy.config.cluster.v3.Cluster"
PATIENCE = 60


def put(name, x, replica=1):
    return f"put {replica} " + json.dumps({"@type": URL, "name": name, "x": x}, separators=(",", ":")) + "\n"


class Server:
    """A server of one replica, or of two, and what it says at the start."""

    def __init__(self, *words, text="", replicas=1):
        self.port = free_ports(2 * replicas, int(os.environ.get("FIRST_PORT", "25000")))
        self.rest_port = self.port + replicas
        ports = ("--port", str(self.port), "--rest-port", str(self.rest_port), "--replicas", str(replicas))
        self.run = subprocess.Popen([sys.argv[1], "serve", *ports, *words], stdin=subprocess.PIPE, stdout=subprocess.DEVNULL,
                                    stderr=subprocess.PIPE, text=True)
        self.said = [self.run.stderr.readline() for _ in range(replicas)]
        self.run.stdin.write(text)
        self.run.stdin.flush()

    def poll(self, version="", replica=1):
        """The status and the body of a poll of all clusters at the replica of this place."""
        asked = json.dumps({"versionInfo": version}).encode()
        try:
            with urllib.request.urlopen(f"http://127.0.0.1:{self.rest_port + replica - 1}/v3/discovery:clusters", asked, PATIENCE) as reply:
                return reply.status, json.loads(reply.read())
        except urllib.error.HTTPError as error:
            return error.code, None

    def holds(self, name):
        """Waits until a cluster is there. Answers a poll's body that has it."""
        ends = time.monotonic() + PATIENCE
        while time.monotonic() < ends:
            body = self.poll()[1]
            if any(it["name"] == name for it in body.get("resources", [])):
                return body
            time.sleep(0.05)
        return {"resources": [], "versionInfo": ""}

    def ask(self, versions, seconds):
        """What an incremental client that holds these versions is told first, or nothing within so many seconds."""
        text = json.dumps({"resourceNamesSubscribe": ["*"], "initialResourceVersions": versions, "typeUrl": URL}).encode()
        with socket.create_connection(("127.0.0.1", self.port), PATIENCE) as stream:
            stream.sendall((len(text) + 1).to_bytes(4, "big") + b"\x03" + text)
            stream.settimeout(seconds)
            file = stream.makefile("rb")
            try:
                return json.loads(file.read(int.from_bytes(file.read(4), "big"))[1:])
            except TimeoutError:
                return None

    def stop(self):
        self.run.kill()
        self.run.wait()
        self.run.stdin.close()
        self.run.stderr.close()


def ended(*words):
    """The status and what is told by a server that doesn't begin."""
    run = subprocess.run([sys.argv[1], "serve", *words], stdin=subprocess.DEVNULL, capture_output=True, text=True, timeout=PATIENCE, check=False)
    return run.returncode, run.stderr


# rule: new-numbers
def numbers():
    for first, is_told in (((), False), (("--first-number", "7"), True)):
        server = Server(text=put("a", 1))
        before = server.holds("a")["versionInfo"]
        server.stop()
        server = Server(*first, text=put("a", 2))
        server.holds("a")
        status, body = server.poll(before)
        response = server.ask({"a": "1-1"}, PATIENCE if is_told else 3)
        named = "with new numbers" if is_told else "with the same numbers"
        tell(f"{named} a poll of the earlier version is {'answered' if is_told else '304'}", (status == 200) == is_told, (status, body))
        tell(f"{named} a client of the earlier version is {'told' if is_told else 'not told'}", (response is not None) == is_told, response)
        if is_told:
            tell("the version has the new number", response["resources"][0]["version"] == "1-7", response)
            tell("and the start tells it", "replica 1 (number 7): " in server.said[0], server.said)
        server.stop()


# rule: loaded-first
def loads(folder):
    file = f"{folder}/changes"
    with open(file, "w", encoding="utf-8") as it:
        it.write("".join(put(f"n{at}", at, 1 + at % 2) for at in range(300)) + "delete 2 cluster n0\n" + put("n1", "last", 1))
    for asked in (1, 2):
        server = Server("--load", file, "--first-number", "5", replicas=2)
        found = server.poll(replica=asked)[1]["resources"]
        tell(f"the first poll at replica {asked} has all that was loaded", len(found) == 299, len(found))
        tell("and of each name what came last", [it["x"] for it in found if it["name"] == "n1"] == ["last"], found[:2])
        server.stop()
    server = Server("--load", file, "--first-number", "5", text=put("one", 1) + put("two", 2, 2), replicas=2)
    server.holds("one")
    server.holds("two")
    versions = {it["name"]: it["version"].rpartition("-")[2] for it in server.ask({}, PATIENCE)["resources"]}
    found = [versions[name] for name in ("n2", "n3", "one", "two")]
    tell("what was loaded and what is put have the number of their replica", found == ["5", "6", "5", "6"], found)
    server.stop()
    with open(file, "a", encoding="utf-8") as it:
        it.write("delete 1 cluster n0\n")
    told = ended("--load", file)
    tell("a line that is refused ends the start", told == (1, f"{file}: line 303: 9 NotFound\n"), told)
    told = ended("--load", f"{folder}/nothing")
    tell("so does a file that isn't there", told == (1, f"{folder}/nothing: 19 Device: no such file\n"), told)
    told = ended("--first-number", "65535")
    tell("numbers beyond 65,535 are wrong words", told[0] == 2 and "--first-number" in told[1], told)


def main():
    if len(sys.argv) != 2:
        sys.exit(__doc__)
    if not os.path.exists(sys.argv[1]):
        sys.exit(2)
    numbers()
    with tempfile.TemporaryDirectory() as folder:
        loads(folder)
    end()


if __name__ == "__main__":
    main()
