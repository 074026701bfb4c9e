#!/usr/bin/env python3
"""What a server does that shows each resource to a checker before it takes it (`serve --validate`), over the program.

    python3 bench/gate/validate.py crates/xds/out/xds

A small checker of this script's says of each resource what its `says` member wants: that it is good, what is wrong of it, or nothing that a
checker says; and it may be away, or silent. Where the bridge is built (bridge/out/bridge) it is tried with its own checks, too. Looked at
are the input, with --keep-going and without; a file that is loaded; POST /changes in all its ways; deletions, of which nothing is asked;
--pass-unvalidated; what is told and counted; and that the port answers others meanwhile. Prints a line for each, and the status is 1 where
one isn't as it is to be, and 2 where it can't be tried, since the program isn't there.
"""
import http.server
import json
import os
import re
import subprocess
import sys
import tempfile
import threading
import time

import operate
from operate import Server, comes, number
from resources import URLS, put, putin
from telling import end, free_ports, tell

TOP = os.path.dirname(os.path.dirname(os.path.dirname(os.path.abspath(__file__))))
BRIDGE = os.path.join(TOP, "bridge", "out", "bridge")
WRONG = {"resource": "b", "field": "healthChecks[0].noSuch", "cause": "unknown field"}
WRONG_TEXT = 'resource "b", field "healthChecks[0].noSuch": unknown field'


class Checker:
    """A checker that says of a resource what its member `says` wants. It keeps the names that it was asked of."""

    def __init__(self, port=0):
        self.asked, self.open = [], threading.Event()
        self.open.set()
        outer = self

        class Handler(http.server.BaseHTTPRequestHandler):
            def do_POST(self):
                text = self.rfile.read(int(self.headers["content-length"]))
                resource = json.loads(text)
                outer.asked.append(resource.get("name"))
                outer.open.wait(60)
                says = resource.get("says", "good")
                if says == "good":
                    self.answer(200, {"resource": resource.get("name")})
                elif says == "bad":
                    self.answer(422, WRONG)
                elif says == "bare":
                    self.answer(422, {})
                elif says == "lines":
                    self.answer(422, {"resource": "b\nline 1: 1-1", "cause": "\x1b[31m"})
                elif says == "unclear":
                    self.answer(422, ["no"])
                elif says == "text":
                    self.answer(422, {"resource": 1})
                elif says == "late":
                    time.sleep(5)
                elif says == "half":
                    self.wfile.write(b"HTTP/1.0 200 OK\r\ncontent-length: 100\r\n\r\n{")
                elif says == "nothing":
                    pass
                else:
                    self.answer(says, {})

            def answer(self, status, value):
                text = json.dumps(value).encode()
                self.send_response(status)
                self.send_header("Content-Length", str(len(text)))
                self.end_headers()
                self.wfile.write(text)

            def log_message(self, *_):
                pass

        class Quiet(http.server.ThreadingHTTPServer):
            daemon_threads = True

            def handle_error(self, *_):
                pass

        self.server = Quiet(("127.0.0.1", port), Handler)
        self.port = self.server.server_address[1]
        self.thread = threading.Thread(target=self.server.serve_forever, daemon=True)
        self.thread.start()

    def close(self):
        self.server.shutdown()
        self.server.server_close()


def validated(port, *words, **more):
    return Server("--validate", f"127.0.0.1:{port}", *words, **more)


def good(name, **fields):
    return put("cluster", name, **fields)


def bad(name, says="bad"):
    return put("cluster", name, says=says)


def held(server):
    return sorted(json.loads(line[line.index("{") :])["name"] for line in server.get("/resources").splitlines())


def changes():
    checker = Checker()
    server = validated(checker.port)
    body = good("a") + bad("b") + "delete 1 cluster a\n" + "put 1 {}\n" + putin("cluster", "c", "g1")
    status, text = server.answer("/changes", body.encode())
    wanted = f"line 1: 1-1\nline 2: 4 BadResource: {WRONG_TEXT}\nline 3: 2-1\nline 4: 21 BadScript: 4 BadResource\nline 5: 3-1\n"
    tell("POST /changes refuses what the checker refuses, line by line", (status, text) == (207, wanted), (status, text))
    tell("and asks of no deletion, and of no line that is none", checker.asked == ["a", "b", "c"], checker.asked)
    tell("what is refused isn't held", held(server) == ["c"], held(server))
    found = server.answer("/changes", bad("b").encode())
    tell("all refused is 422", found == (422, f"line 1: 4 BadResource: {WRONG_TEXT}\n"), found)
    found = server.answer("/changes", bad("b", "bare").encode())
    tell("a checker may leave out what is wrong", found == (422, 'line 1: 4 BadResource: resource "": \n'), found)
    found = server.answer("/changes", bad("b", "lines").encode())
    tell("and writes no line of its own", found == (422, 'line 1: 4 BadResource: resource "b?line 1: 1-1": ?[31m\n'), found)
    found = server.answer("/changes?dry-run", (good("d") + bad("b") + "delete 1 cluster d\n").encode())
    wanted = f"line 1: would be made\nline 2: 4 BadResource: {WRONG_TEXT}\nline 3: would be made\n"
    tell("?dry-run asks, too", found == (207, wanted), found)
    found = server.answer("/changes?all-or-nothing", (good("d") + bad("b") + good("e")).encode())
    wanted = f"line 1: not made\nline 2: 4 BadResource: {WRONG_TEXT}\nline 3: not made\n"
    tell("?all-or-nothing makes none where the checker refuses one", found == (422, wanted) and held(server) == ["c"], found)
    found = server.answer("/changes?all-or-nothing", (good("d") + good("e")).encode())
    tell("and all where it takes all", found[0] == 200 and held(server) == ["c", "d", "e"], found)
    for says, why in ((500, "it answers 500"), (404, "it answers 404"), ("unclear", "it answers 422, and not what is wrong"), ("text", "it answers 422, and not what is wrong"), ("half", "its answer breaks off, or is none"), ("nothing", "its answer breaks off, or is none"), ("late", "no answer in time")):
        time.sleep(1.1)
        found = server.answer("/changes", bad("b", says).encode())
        tell(f"a checker that says {says} is away", found == (422, f"line 1: 19 Device: the checker is away: {why}\n"), found)
    time.sleep(1.1)
    found = server.answer("/changes", good("f").encode())
    tell("it is asked again after a second", found[0] == 200, found)
    numbers = server.get("/metrics")
    counts = [number(numbers, "xds_checks_total", f'verdict="{it}"') for it in ("good", "bad", "away")]
    tell("what it said is counted", counts == [8, 6, 7], counts)
    page = server.get("/")
    tell("the page shows what was refused", "4 BadResource" in page)
    status, errors, _ = server.stop()
    tell("that it is away is told once each time, and that it is back", len(re.findall("is away: ", errors)) == 1 and len(re.findall("is back", errors)) == 1, errors)
    checker.close()


def others_meanwhile():
    checker = Checker()
    server = validated(checker.port)
    checker.open.clear()
    found = []
    asking = threading.Thread(target=lambda: found.append(server.answer("/changes", "".join(map(good, "abcdef")).encode())))
    begun = time.monotonic()
    asking.start()
    comes(lambda: checker.asked)
    server.get("/status")
    tell("others are answered while the checker is waited for", time.monotonic() - begun < 1.5, time.monotonic() - begun)
    asking.join()
    wanted = "".join(f"line {it}: 19 Device: the checker is away: no answer in time\n" for it in range(1, 7))
    took = time.monotonic() - begun
    tell("who asks is answered within some seconds, for all lines", found == [(422, wanted)] and took < 5, (found, took))
    checker.open.set()
    server.stop()
    checker.close()


def inputs():
    checker = Checker()
    lines = good("a") + bad("b") + "delete 1 cluster a\n" + good("c")
    server = validated(checker.port, "--keep-going", text=lines)
    comes(lambda: held(server) == ["c"])
    tell("with --keep-going the input goes on behind a refused line", held(server) == ["c"], held(server))
    _, errors, _ = server.stop()
    tell("which is told with the resource and the field", f"line 2: 4 BadResource: {WRONG_TEXT}\n" in errors and errors.count("line 2: ") == 1, errors)
    ran = started(checker.port, lines)
    tell("without it the line ends the server", ran.returncode == 1 and ran.stderr.endswith("line 2: 4 BadResource\n") and f"line 2: 4 BadResource: {WRONG_TEXT}\n" in ran.stderr, ran)
    ran = started(checker.port, bad("b", 500))
    tell("and so does a checker that is away", ran.returncode == 1 and "line 1: 19 Device: the checker is away: it answers 500\n" in ran.stderr, ran)
    checker.close()


def started(port, text, *words):
    """A server that ends by itself."""
    first = free_ports(2, int(os.environ.get("FIRST_PORT", "21000")))
    line = [operate.PROGRAM, "serve", "--replicas", "1", "--port", str(first), "--rest-port", str(first + 1), "--validate", f"127.0.0.1:{port}", *words]
    return subprocess.run(line, input=text, capture_output=True, text=True, timeout=60, check=False)


def loads():
    checker = Checker()
    with tempfile.TemporaryDirectory() as folder:
        file = os.path.join(folder, "lines")

        def load(text, *words):
            with open(file, "w", encoding="utf-8") as it:
                it.write(text)
            return started(checker.port, "", "--load", file, *words)

        ran = load(good("a") + bad("b") + bad("c"))
        tell("--load serves nothing where the checker refuses a line", (ran.returncode, ran.stderr) == (1, f"{file}: line 2: 4 BadResource: {WRONG_TEXT}\n"), ran)
        store = os.path.join(folder, "store.db")
        ran = load(good("a") + bad("b"), "--store", store)
        shown = subprocess.run([operate.PROGRAM, "writes", "--store", store], capture_output=True, text=True, timeout=60, check=False)
        tell("and stores nothing of it", ran.returncode == 1 and shown.stdout == "", (ran, shown))
        ran = load(good("a") + "put 1 {}\n" + bad("b"))
        tell("a line that is no change is told before one behind it that is refused", ran.stderr == f"{file}: line 2: 21 BadScript\n", ran)
        ran = load(bad("a", 503))
        tell("--load doesn't go on where the checker is away", (ran.returncode, ran.stderr) == (1, f"{file}: line 1: 19 Device: the checker is away: it answers 503\n"), ran)
        time.sleep(1.1)
        checker.asked.clear()
        with open(file, "w", encoding="utf-8") as it:
            it.write(good("a") + good("b") + "delete 1 cluster a\n")
        server = validated(checker.port, "--load", file)
        tell("--load of what it takes is served", held(server) == ["b"] and checker.asked == ["a", "b"], (held(server), checker.asked))
        server.stop()
    checker.close()


def passes():
    port = free_ports(1, int(os.environ.get("FIRST_PORT", "21000")) + 150)
    server = validated(port, "--pass-unvalidated", "--keep-going", text=good("a") + good("b"))
    comes(lambda: held(server) == ["a", "b"])
    tell("with --pass-unvalidated resources are taken where the checker is away", held(server) == ["a", "b"], held(server))
    found = server.answer("/changes", good("c").encode())
    tell("by the port, too", found[0] == 200, found)
    checker = Checker(port)
    time.sleep(1.1)
    found = server.answer("/changes", (good("d") + bad("b")).encode())
    tell("once it is there it is asked again", found == (207, f"line 1: 4-1\nline 2: 4 BadResource: {WRONG_TEXT}\n"), found)
    checker.close()
    time.sleep(0.1)
    found = server.answer("/changes", (good("e") + good("f")).encode())
    tell("and passed over once it is gone", found[0] == 200, found)
    numbers = server.get("/metrics")
    counts = [number(numbers, "xds_checks_total", f'verdict="{it}"') for it in ("good", "bad", "away")]
    tell("those that it didn't see are counted", counts == [1, 1, 5], counts)
    _, errors, _ = server.stop()
    told = [line for line in errors.splitlines() if line.startswith("the checker")]
    gone, back = f"the checker at 127.0.0.1:{port} is away: nobody answers there; resources are taken unchecked", f"the checker at 127.0.0.1:{port} is back"
    tell("each time it goes is told once", told == [gone, back, gone], told)
    with tempfile.TemporaryDirectory() as folder:
        file = os.path.join(folder, "lines")
        with open(file, "w", encoding="utf-8") as it:
            it.write(good("a"))
        server = validated(port, "--pass-unvalidated", "--load", file)
        tell("--load passes, too", held(server) == ["a"], held(server))
        _, errors, _ = server.stop()
        tell("and tells it", gone in errors.splitlines(), errors)


def bridge():
    if not os.path.isfile(BRIDGE):
        print("the bridge isn't built: bridge/build")
        return
    listen, checks = free_ports(2, int(os.environ.get("FIRST_PORT", "21000")) + 120), None
    checks = listen + 1
    running = subprocess.Popen([BRIDGE, "--listen", f"127.0.0.1:{listen}", "--server", "127.0.0.1:9", "--check", f"127.0.0.1:{checks}"], stderr=subprocess.DEVNULL)
    server = validated(checks)
    odd = put("cluster", "b", healthChecks=[{"noSuch": 1}])

    def answers():
        time.sleep(0.3)
        return server.answer("/changes", good("a", connectTimeout="0.5s").encode())[0] == 200

    tell("the bridge takes a cluster", comes(answers))
    status, text = server.answer("/changes", odd.encode())
    wanted = 'line 1: 4 BadResource: resource "b", field "healthChecks[0].noSuch": unknown field ?noSuch?\n'
    tell("and refuses a field that it doesn't know, by its name", (status, text) == (422, wanted), (status, text))
    tell("which isn't held", held(server) == ["a"], held(server))
    running.terminate()
    running.wait(20)
    server.stop()


def main():
    if not os.path.isfile(operate.PROGRAM):
        print(f"there is no {operate.PROGRAM}")
        sys.exit(2)
    changes()
    others_meanwhile()
    inputs()
    loads()
    passes()
    bridge()
    end()


if __name__ == "__main__":
    main()
