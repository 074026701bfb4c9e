#!/usr/bin/env python3
"""How long the whole response of a type is, over the program itself: what is told of it, and puts that are refused for it.

    python3 bench/gate/lengths.py crates/xds/out/xds [CASE ..]

Puts 20 clusters of 0.9 MB. Looks at the number of bytes at /metrics and in /status beside what a client of `*` gets, at the warnings of
the log, of /status and of the page, and at what becomes of a client once the response is too long; then at a server that refuses puts by
which it would be: of the input, of an operator's port, of changes that are made together or looked at alone, of a file that is loaded, of
a folder. Prints a line for each, and the status is 1 where one isn't as it is to be, and 2 where the program isn't there.
"""
import json
import os
import re
import shutil
import subprocess
import sys
import tempfile
import time

import operate
from operate import Server, Stream, number
from sources import Told, URLS, body, folder, wait, write
from telling import end, free_ports, tell

URL, LIMIT, HALF, SIZE = URLS["cluster"], 16_777_215, 8_388_608, 900_000
REFUSES = "--refuse-beyond-frame"
HERE = tempfile.mkdtemp()


def cluster(name, size=SIZE, letter="y"):
    """A put of a cluster whose body has so many bytes."""
    body = json.dumps({"@type": URL, "name": name, "x": ""}, separators=(",", ":"))
    return f"put 1 {body[:-2]}{letter * (size - len(body))}\"}}\n"


def bytes_at(server, kind="cluster"):
    return number(server.get("/metrics"), "xds_response_bytes", f'replica="1",type="{kind}"')


def shown(server, kind="cluster"):
    """What /status shows of a type's response."""
    for one in json.loads(server.get("/status"))["replicas"][0]["responses"] or []:
        if one["type"] == kind:
            return one
    return None


def answered(server):
    """How many bytes the text has that a new client of `*` is told first, and the resources in it; none where it is told none."""
    stream = Stream(server.port)
    try:
        stream.send({"node": {"id": "n"}, "typeUrl": URL})
        head = stream.exactly(5)
        if not head:
            return None
        length = int.from_bytes(head[:4], "big") - 1
        return length, json.loads(stream.exactly(length)).get("resources", [])
    except ConnectionError:
        return None
    finally:
        stream.socket.close()


def whole(server):
    """How many bytes that text has, and of how many resources it is."""
    found = answered(server)
    return found and (found[0], len(found[1]))


def has(server, name):
    """Whether a resource is told."""
    return any(resource["name"] == name for resource in answered(server)[1])


def long_events(told):
    return [json.loads(line) for line in told.lines if '"long response"' in line]


def warnings():
    server = Server("--log-json", "--keep-going")
    told = Told(server)
    tell("the number of bytes of an empty response is told", bytes_at(server) == whole(server)[0], (bytes_at(server), whole(server)))
    for index in range(9):
        change(server, cluster(f"c{index}"))
    found = whole(server)
    tell("the number of bytes is that of what a client of * gets", found == (bytes_at(server), 9), (found, bytes_at(server)))
    here = shown(server)
    tell("which /status shows, too, with the limit", here == {"type": "cluster", "bytes": found[0], "limit": LIMIT}, here)
    time.sleep(3)
    tell("nothing is told below the half of the limit", found[0] < HALF and not long_events(told), (found, long_events(told)))
    change(server, cluster("c9"))
    tell("a change that takes a type across the half is told", wait(lambda: long_events(told)), told.lines[-3:])
    event = (long_events(told) or [{}])[0]
    wanted = {"level": "WARN", "event": "long response", "replica": 1, "type": "cluster", "bytes": bytes_at(server), "limit": LIMIT}
    tell("with its replica, its type, its bytes and the limit", {key: event.get(key) for key in wanted} == wanted, event)
    tell("/status warns of it", shown(server).get("warning") == "over half of what a frame may have", shown(server))
    tell("and so does the page", "<b>cluster</b>: the whole response has" in server.get("/"), server.get("/")[-600:])
    change(server, cluster("c10") + cluster("c11"))
    time.sleep(4)
    tell("the next put isn't told once more", len(long_events(told)) == 1, long_events(told))
    change(server, "".join(f"delete 1 cluster c{index}\n" for index in range(6)))
    tell("a type that is below again has no warning", "warning" not in shown(server), shown(server))
    time.sleep(14)
    for index in range(6):
        change(server, cluster(f"c{index}"))
    tell("the next crossing is told", wait(lambda: len(long_events(told)) == 2), long_events(told))
    for index in range(12, 20):
        change(server, cluster(f"c{index}"))
    tell("a response that is too long has its number", bytes_at(server) > LIMIT, bytes_at(server))
    tell("/status says that it isn't told", "16 FrameTooLong" in shown(server).get("warning", ""), shown(server))
    tell("and a client of * is told nothing", whole(server) is None, whole(server))
    server.stop()


def change(server, text):
    """The status and the answer of changes, which are said again where the replica's thread doesn't answer in time."""
    for _ in range(20):
        status, answer = server.answer("/changes", text.encode())
        if "19 Device" not in answer:
            break
        time.sleep(1)
    return status, answer


def refused_text(count):
    return rf"line {count}: 16 FrameTooLong: the whole response of cluster would have (\d+) bytes, and a frame has {LIMIT} at most"


def refusals():
    server = Server(REFUSES, "--keep-going", "--log", open_input=True)
    told = Told(server)
    for index in range(18):
        change(server, cluster(f"c{index}"))
    tell("18 clusters of 0.9 MB are put", whole(server) == (bytes_at(server), 18), (whole(server), bytes_at(server)))
    stream = Stream(server.port)
    stream.send({"node": {"id": "n"}, "typeUrl": URL})
    first = stream.take()
    status, answer = change(server, cluster("c18"))
    found = re.fullmatch(refused_text(1) + "\n", answer)
    tell("the 19th is refused with its type, its bytes and the limit", status == 422 and found, (status, answer))
    tell("before anything is made", whole(server) == (bytes_at(server), 18), whole(server))
    spare = SIZE - (int(found[1]) - LIMIT) if found else SIZE
    status, answer = change(server, cluster("c18", spare + 1))
    tell("one byte too many is refused", status == 422 and f"have {LIMIT + 1} bytes" in answer, (status, answer))
    status, answer = change(server, cluster("c18", spare))
    tell("and the longest response is made", status == 200 and bytes_at(server) <= LIMIT, (status, answer, bytes_at(server)))
    stream.send({"typeUrl": URL, "responseNonce": first["nonce"], "versionInfo": first["versionInfo"]})
    second = stream.take()
    tell("which a client of * gets that is there", second and len(second["resources"]) == 19, second and len(second["resources"]))
    tell("a body that is replaced doesn't count", change(server, cluster("c3", SIZE, "z"))[0] == 200)
    tell("a longer one in its place is refused", change(server, cluster("c3", SIZE + 1))[0] == 422)
    tell("a smaller one isn't", change(server, cluster("c3", SIZE - 100))[0] == 200)
    tell("a resource of another type isn't, either", change(server, "put 1 " + json.dumps(body("listener", "l")) + "\n")[0] == 200)
    server.run.stdin.write("# one\n" + cluster("c19"))
    server.run.stdin.flush()
    tell("a line of the input is refused with its number", wait(lambda: any(re.fullmatch(refused_text(2), line) for line in told.lines)), told.lines[-2:])
    together(server)
    merged(server)
    server.stop()


def together(server):
    """Changes that are made together, or looked at alone: there is room for some 100 bytes."""
    status, answer = server.answer("/changes?all-or-nothing", (cluster("d1", 70) + cluster("d2", 5000)).encode())
    want = "line 1: not made\n" + refused_text(2) + "\n"
    tell("of changes that are made together none is made", status == 422 and re.fullmatch(want, answer), (status, answer))
    status, answer = server.answer("/changes?dry-run", ("delete 1 cluster c18\n" + cluster("d2", 400_000) + cluster("d3", 400_000)).encode())
    want = "line 1: would be made\nline 2: would be made\n" + refused_text(3) + "\n"
    tell("changes that are looked at count over those before them", re.fullmatch(want, answer), (status, answer))
    status, answer = server.answer("/changes?all-or-nothing", ("delete 1 cluster c18\n" + cluster("d2", 5000)).encode())
    tell("and what makes room for others is made with them", status == 200, (status, answer))
    lines = cluster("e1", 600_000) + "delete 1 cluster c17\n"
    status, answer = server.answer("/changes?dry-run", lines.encode())
    tell("what is deleted behind it makes no room for a put that is made alone", re.match(refused_text(1), answer), (status, answer))
    status, answer = server.answer("/changes?all-or-nothing", lines.encode())
    tell("and does where they are made together", status == 200, (status, answer))


def merged(server):
    """Writes of other replicas."""
    before = bytes_at(server)
    for index in range(2):
        text = cluster(f"m{index}").partition(" 1 ")[2]
        line = json.dumps({"typeUrl": URL, "name": f"m{index}", "counter": 7, "writer": 900, "body": json.loads(text)})
        status, answer = server.answer("/writes?replica=1", (line + "\n").encode())
        tell("writes of another replica are never refused", status == 200 and "grew 1" in answer, (status, answer))
    tell("by which the response may be too long", bytes_at(server) > max(before, LIMIT), (before, bytes_at(server)))
    tell("then a smaller body is put all the same", change(server, cluster("m0", 1000))[0] == 200)


def starts():
    path = os.path.join(HERE, "changes")
    with open(path, "w", encoding="utf-8") as file:
        file.writelines(cluster(f"c{index}") for index in range(20))
    port = free_ports(2, int(os.environ.get("FIRST_PORT", "21000")))
    words = [operate.PROGRAM, "serve", "--replicas", "1", "--port", str(port), "--rest-port", str(port + 1), "--load", path, REFUSES]
    run = subprocess.run(words, capture_output=True, text=True, timeout=120, stdin=subprocess.DEVNULL, check=False)
    want = rf"{re.escape(path)}: 16 FrameTooLong: the whole response of cluster would have \d+ bytes, and a frame has {LIMIT} at most\n"
    tell("a file by which a response is too long isn't loaded", run.returncode == 1 and re.search(want, run.stderr), (run.returncode, run.stderr))
    place = folder("long")
    for index in range(18):
        write(place, f"c{index}.json", json.loads(cluster(f"c{index}").partition(" 1 ")[2]))
    server = Server("--from", place, REFUSES)
    told = Told(server)
    tell("a folder's resources are held", whole(server) == (bytes_at(server), 18), whole(server))
    write(place, "more.json", json.loads(cluster("more").partition(" 1 ")[2]))
    told_so = lambda: any("16 FrameTooLong: the whole response of cluster" in line and "what was held is kept" in line for line in told.lines)
    tell("a folder's change that makes it too long is told", wait(told_so, 120), told.lines)
    tell("and isn't made", whole(server) == (bytes_at(server), 18), whole(server))
    os.unlink(os.path.join(place, "c0.json"))
    tell("until there is room", wait(lambda: has(server, "more"), 120), told.lines)
    server.stop()


if __name__ == "__main__":
    if not os.path.exists(operate.PROGRAM):
        sys.exit(2)
    try:
        for part in (warnings, refusals, starts):
            if part.__name__ in sys.argv[2:] or not sys.argv[2:]:
                part()
    finally:
        shutil.rmtree(HERE, ignore_errors=True)
    end()
