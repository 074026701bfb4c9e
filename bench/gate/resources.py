#!/usr/bin/env python3
"""What replicas hold, as lines, and changes that are looked at alone or made together, at an operator's port of the program.

    python3 bench/gate/resources.py crates/xds/out/xds

Saves what a server holds, compares it with what was put, and feeds it to another server; asks for one replica, type and name; and makes
changes whose lines are good and bad, one by one, together, and not at all. Prints a line for each, and the status is 1 where one isn't as
it is to be, and 2 where it can't be tried, since the program isn't there.
"""
import json
import os
import re
import sys
import threading
import time
import urllib.parse

import operate
from operate import Server, Stream, comes
from telling import end, tell

URLS = {
    "cluster": "type.googleapis.com/envoy.config.cluster.v3.Cluster",
    "endpoint": "type.googleapis.com/envoy.config.endpoint.v3.ClusterLoadAssignment",
    "listener": "type.googleapis.com/envoy.config.listener.v3.Listener",
    "route": "type.googleapis.com/envoy.config.route.v3.RouteConfiguration",
    "secret": "type.googleapis.com/envoy.extensions.transport_sockets.tls.v3.Secret",
}


def body(kind, name, **fields):
    named = "clusterName" if kind == "endpoint" else "name"
    return json.dumps({"@type": URLS[kind], named: name, **fields}, ensure_ascii=False)


def put(kind, name, replica=1, **fields):
    return f"put {replica} {body(kind, name, **fields)}\n"


def putin(kind, name, groups, replica=1):
    return f"putin {replica} {groups} {body(kind, name)}\n"


def parts(text):
    """The lines as what they say: the replica, the groups and the resource."""
    found = set()
    for line in text.splitlines():
        word, replica, rest = line.split(" ", 2)
        groups, rest = rest.split(" ", 1) if word == "putin" else ("", rest)
        found.add((int(replica), groups, json.dumps(json.loads(rest), sort_keys=True)))
    return found


def held():
    odd = 'a b&c=d?#%/"\\é'
    lines = [put(kind, name) for kind in URLS for name in ("one", odd)] + [putin("cluster", "grouped", "g1,g2"), put("route", "deep", x={"y": [1, "two", None, True]})]
    server = Server(text="".join(lines), replicas=2)
    comes(lambda: len(server.get("/resources").splitlines()) == 2 * len(lines))
    text = server.get("/resources")
    wanted = parts("".join(lines))
    wanted |= {(2, groups, it) for _, groups, it in wanted}
    tell("what both replicas hold is listed", parts(text) == wanted, (len(parts(text)), len(wanted)))
    one = server.get("/resources?replica=2")
    tell("and what one of them does", parts(one) == {it for it in wanted if it[0] == 2}, one)
    some = server.get("/resources?replica=1&type=cluster")
    tell("of a type", parts(some) == {it for it in wanted if it[0] == 1 and URLS["cluster"] in it[2]}, some)
    exact = server.get(f"/resources?replica=1&type=endpoint&name={urllib.parse.quote_plus(odd)}")
    tell("and one of a name", parts(exact) == parts(put("endpoint", odd)), exact)
    for path, wanted_code in (("?name=none", 404), ("?type=nothing", 400), ("?replica=0", 400), ("?replica=x", 400), ("?tpye=cluster", 400), ("?dry-run", 400), ("?replica=3", 404)):
        found = server.answer("/resources" + path)
        tell(f"/resources{path} is {wanted_code}", found[0] == wanted_code and found[1], found)
    server.post("/changes", "delete 1 route deep\n")
    tell("what is deleted is listed no longer", server.answer("/resources?replica=1&name=deep")[0] == 404)
    saved = server.get("/resources?replica=1")
    other = Server(text=saved)
    comes(lambda: len(other.get("/resources").splitlines()) == len(saved.splitlines()))
    tell("another server that is fed it holds the same", other.get("/resources") == saved, other.get("/resources"))
    other.stop()
    server.stop()


def statuses():
    server = Server()
    good, bad, gone = put("route", "a"), "put 1 {}\n", "delete 1 route none\n"
    for text, code, wanted in (
        (good, 200, r"line 1: \d+-1\n"),
        (good + bad, 207, r"line 1: \d+-1\nline 2: 21 BadScript: 4 BadResource\n"),
        (bad + gone, 422, r"line 1: 21 BadScript: 4 BadResource\nline 2: 9 NotFound\n"),
        (gone, 422, r"line 1: 9 NotFound\n"),
        ("", 200, "no changes\n"),
        ("# nothing\n\n", 200, "no changes\n"),
        (good.replace("\n", "\r\n") + "# a remark\r\n\r\n" + good.replace("\n", "\r\n"), 200, r"line 1: \d+-1\nline 4: \d+-1\n"),
    ):
        found = server.answer("/changes", text.encode())
        tell(f"changes {text[:30]!r}.. are answered {code}", found[0] == code and re.fullmatch(wanted, found[1]), found)
    before = server.get("/resources"), server.get("/metrics").count("\n")
    text = put("route", "b") + "delete 1 route b\n" + "delete 1 route b\n" + bad + put("route", "c", 7)
    found = server.answer("/changes?dry-run", text.encode())
    wanted = "line 1: would be made\nline 2: would be made\nline 3: 9 NotFound\nline 4: 21 BadScript: 4 BadResource\nline 5: 21 BadScript: no such replica\n"
    tell("a dry run says what would become of each line", found == (207, wanted), found)
    tell("and changes nothing", server.get("/resources") == before[0])
    found = server.answer("/changes?dry-run", b"delete 1 route a\n")
    tell("a dry run of what can be made is 200", found == (200, "line 1: would be made\n"), found)
    for refused, why in ((gone, "9 NotFound"), (bad, "21 BadScript: 4 BadResource")):
        text = put("route", "d") + refused + "delete 1 route a\n"
        found = server.answer("/changes?all-or-nothing", text.encode())
        wanted = f"line 1: not made\nline 2: {why}\nline 3: not made\n"
        tell("where one is refused none is made", found == (422, wanted), found)
        tell("and nothing changes", server.get("/resources") == before[0])
    found = server.answer("/changes?all-or-nothing", (put("route", "d") + put("route", "e", 2)).encode())
    tell("changes of one replica that is there alone are made together", found[0] in (400, 422), found)
    whole(server)
    held = server.get("/resources")
    for word in ("all", "replica=1"):
        found = server.answer(f"/changes?{word}", put("route", "f").encode())
        tell(f"the word {word} is refused of changes", found[0] == 400 and server.get("/resources") == held, found)
    server.stop()


def whole(server):
    """Changes that are made together are told a stream in one response."""
    stream = Stream(server.port)
    names = [f"w{at}" for at in range(500)]
    stream.send({"typeUrl": URLS["route"], "resourceNames": names})
    comes(lambda: '"names":500' in server.get("/status"))
    found = server.answer("/changes?all-or-nothing", "".join(put("route", name) for name in names).encode())
    tell("500 changes are made together", found[0] == 200 and len(found[1].splitlines()) == 500, found[1][:200])
    response = stream.take()
    tell("and told in one response", len(response["resources"]) == 500, len(response["resources"]))
    stream.socket.close()


def busy():
    """Beside a long body of changes other requests are answered, each within five seconds on a machine that does much else."""
    server = Server()
    text = "".join(put("route", f"r{at}", x="0" * 100) for at in range(1_000)).encode()
    for path in ("/changes?dry-run", "/changes?all-or-nothing"):
        done = []
        thread = threading.Thread(target=lambda: done.append(server.answer(path, text)))
        thread.start()
        longest = 0
        while thread.is_alive():
            begun = time.time()
            server.get("/healthz")
            longest = max(longest, time.time() - begun)
        thread.join()
        tell(f"beside a long body of {path} requests are answered in time", longest < 5 and done[0][0] == 200, (longest, done and done[0][0]))
    server.stop()


def main():
    if not os.path.isfile(operate.PROGRAM):
        sys.exit(2)
    held()
    statuses()
    busy()
    end()


if __name__ == "__main__":
    main()
