#!/usr/bin/env python3
"""What a server that logs tells, as lines for people and as JSON, over the program.

    python3 bench/gate/log.py crates/xds/out/xds

Has something of each kind happen to a server with --log, and to one with --log-json: streams, a first request, a rejection, a type that
isn't known, changes by the input and by the port, a connection too many, a stream that says nothing, and the stop. Prints a line for each,
and the status is 1 where one isn't as it is to be, and 2 where it can't be tried, since the program isn't there.
"""
import datetime
import json
import os
import re
import sys
import time

import operate
from operate import Server, Stream, comes, number, put
from telling import end, tell

URL = operate.URL
HOSTILE = '{"forged":1}\n[INFO ] forged "x" \\ \x7f'
CLEAN = '{?forged?:1}?[INFO ] forged ?x? ? ?'


def happens(*words):
    """The lines that a server with these words tells of what happens to it."""
    server = Server("--keep-going", "--max-streams", "2", "--idle-seconds", "1", *words, text=put("a"))
    server.post("/changes", put("b"))
    stream = Stream(server.port)
    stream.send({"node": {"id": HOSTILE, "cluster": "edge"}, "typeUrl": URL, "resourceNames": ["a", "b"]})
    response = stream.take()
    stream.send({"typeUrl": URL, "resourceNames": ["a", "b"], "responseNonce": response["nonce"], "errorDetail": {"message": HOSTILE}})
    stream.send({"typeUrl": "type.googleapis.com/envoy.config.rout.v3.RouteConfiguration" + HOSTILE})
    comes(lambda: number(server.get("/metrics"), "xds_nacks_total", 'replica="1",type="route"') == 1)
    idle = Stream(server.port)
    comes(lambda: '"stream":2' in server.get("/status"))
    Stream(server.port).socket.recv(1)
    idle.socket.recv(1)
    stream.socket.close()
    comes(lambda: '"streams":[]' in server.get("/status"))
    code, errors, _ = server.stop()
    tell("it ends well", code == 0, code)
    return server, errors.splitlines()


def is_now(text):
    found = datetime.datetime.strptime(text, "%Y-%m-%dT%H:%M:%S.%fZ").replace(tzinfo=datetime.timezone.utc)
    return abs(found.timestamp() - time.time()) < 300


def people():
    server, lines = happens("--log")
    time_of = r"(20\d\d-\d\d-\d\dT\d\d:\d\d:\d\d\.\d{3}Z) "
    clean = re.escape(CLEAN)
    for what, wanted in (
        ("where it listens", rf"\[INFO \] replica 1 listens: streams on 127\.0\.0\.1:{server.port}, REST on 127\.0\.0\.1:{server.rest_port}"),
        ("a stream", r"\[INFO \] replica 1, stream 1: connected from 127\.0\.0\.1:\d+"),
        ("its first request", rf'\[INFO \] replica 1, stream 1: first request, node "{clean}", cluster "edge", sotw, "{re.escape(URL)}"'),
        ("a rejection", rf'\[WARN \] replica 1, stream 1: response "1" of "{re.escape(URL)}" is rejected: "{clean}"'),
        ("a type that isn't known", rf'\[WARN \] replica 1, stream 1: asks for a type that isn\'t known: "type\.googleapis\.com/envoy\.config\.rout\.v3\.RouteConfiguration{clean}"'),
        ("a change by the input", r"\[INFO \] replica 1: a change by the input is 1-1"),
        ("a change by the port", r"\[INFO \] replica 1: a change by the port is 2-1"),
        ("a connection too many", r"\[WARN \] replica 1: a connection is closed, there are as many streams as there may be"),
        ("a stream that says nothing", r"\[WARN \] replica 1, stream 2: no first frame within 1 s"),
        ("that it ended", r"\[WARN \] replica 1, stream 2: ended by 19 Device"),
        ("the end of a stream", r"\[INFO \] replica 1, stream 1: ended"),
        ("the stop", r"\[INFO \] stopping"),
    ):
        found = [it for line in lines if (it := re.fullmatch(time_of + wanted, line))]
        tell(f"{what} is told once, with its time", len(found) == 1 and is_now(found[0][1]), lines)
    times = [line.split(" ")[0] for line in lines if line.startswith("20")]
    tell("every event has a time, and nothing else is told", len(times) == 13 and len(lines) == 16, lines)


def machines():
    server, lines = happens("--log-json")
    found = []
    for line in lines:
        if line.startswith("{"):
            found.append(json.loads(line))
    place = {"replica": 1, "stream": 1}
    wanted = (
        {"level": "INFO", "event": "listening", "replica": 1, "number": 1, "port": server.port, "rest_port": server.rest_port},
        {"level": "INFO", "event": "connected", **place},
        {"level": "INFO", "event": "first request", **place, "node": CLEAN, "cluster": "edge", "variant": "sotw", "type": URL},
        {"level": "WARN", "event": "rejected", **place, "type": URL, "nonce": "1", "reason": CLEAN},
        {"level": "WARN", "event": "unknown type", **place, "type": "type.googleapis.com/envoy.config.rout.v3.RouteConfiguration" + CLEAN},
        {"level": "INFO", "event": "changed", "replica": 1, "by": "input", "version": "1-1"},
        {"level": "INFO", "event": "changed", "replica": 1, "by": "port", "version": "2-1"},
        {"level": "WARN", "event": "turned away", "replica": 1},
        {"level": "WARN", "event": "idle", "replica": 1, "stream": 2, "seconds": 1},
        {"level": "WARN", "event": "ended", "replica": 1, "stream": 2, "reason": "19 Device"},
        {"level": "INFO", "event": "ended", **place},
        {"level": "INFO", "event": "stopping"},
    )
    for it in wanted:
        like = [one for one in found if {name: one.get(name) for name in it} == it and set(one) <= {*it, "time", "peer"} and is_now(one["time"])]
        tell(f"{it['event']} is told once, as JSON", len(like) == 1, found)
    # The second stream connected, too.
    tell("nothing else is", len(found) == len(wanted) + 1, found)


def main():
    if not os.path.isfile(operate.PROGRAM):
        sys.exit(2)
    people()
    machines()
    end()


if __name__ == "__main__":
    main()
