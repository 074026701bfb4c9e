#!/usr/bin/env python3
"""What a server does for streams and for who operates it, over the program itself, case by case.

    python3 bench/gate/serve.py PROGRAM [CASE ..]

Each case starts servers of its own, and counts by itself what comes of them: whole stamps of changes, every number of `/metrics`,
streams in `/status`, frames that are under way at a stop, lines of the log that are left out, places of `--max-streams`, and what
1,500 streams are told. Without a CASE it tries all, in about a minute. Prints a line for each thing that is looked at, and the
status is 1 where one isn't as it is to be, and 2 where it can't be tried, since the program isn't there.
"""
import fcntl
import json
import os
import re
import resource
import selectors
import shutil
import socket
import subprocess
import sys
import tempfile
import threading
import time
import urllib.error

import operate
from operate import Server, Stream, comes, number
from telling import end, tell

TYPES = {
    "cluster": ("type.googleapis.com/envoy.config.cluster.v3.Cluster", "name"),
    "endpoint": ("type.googleapis.com/envoy.config.endpoint.v3.ClusterLoadAssignment", "clusterName"),
    "listener": ("type.googleapis.com/envoy.config.listener.v3.Listener", "name"),
    "route": ("type.googleapis.com/envoy.config.route.v3.RouteConfiguration", "name"),
    "secret": ("type.googleapis.com/envoy.extensions.transport_sockets.tls.v3.Secret", "name"),
}
ROUTE = TYPES["route"][0]
BIG = 1_000_000


def put(name, replica=1, kind="route", **fields):
    url, field = TYPES[kind]
    return f"put {replica} " + json.dumps({"@type": url, field: name, **fields}) + "\n"


def counted(server, name, **labels):
    """A number of /metrics, of the first replica where none is named."""
    labels = {"replica": 1, **labels}
    return number(server.get("/metrics"), f"xds_{name}", ",".join(f'{key}="{value}"' for key, value in labels.items()))


def shown(server, replica=1):
    """The streams that /status shows of a replica."""
    return json.loads(server.get("/status"))["replicas"][replica - 1]["streams"]


def is_closed(stream):
    """Whether the other end closes a stream before it sends anything more."""
    try:
        return stream.exactly(1) is None
    except TimeoutError:
        return False
    except ConnectionError:
        return True


def accepts(stream, response, names, **more):
    stream.send({"typeUrl": response["typeUrl"], "resourceNames": names, "responseNonce": response["nonce"], **more})


def stamps():
    """Each change is made once, at its own replica, and is answered by its stamp."""
    server = Server(replicas=2)
    answer = server.post("/changes", put("a") + put("b") + "delete 1 route none\n" + put("c"))
    wanted = "line 1: 1-1\nline 2: 2-1\nline 3: 9 NotFound\nline 4: 3-1\n"
    tell("each change has the next stamp of its replica", answer == wanted, answer)
    all_of = lambda count: lambda: [counted(server, "changes_total", replica=it, type="route") for it in (1, 2)] == [count, count]
    tell("each is made once, and comes to the other replica once", comes(all_of(3)), server.get("/metrics"))
    answer = server.post("/changes", put("d", 2))
    tell("a change for replica 2 is made there", answer == "line 1: 4-2\n", answer)
    tell("and comes to replica 1 once", comes(all_of(4)), server.get("/metrics"))
    answer = server.post("/changes", "delete 1 route d\n" + 'putin 1 edge {"@type":"%s","name":"d"}\n' % ROUTE)
    tell("a deletion and a put for a group have stamps", answer == "line 1: 5-1\nline 2: 6-1\n", answer)
    tell("and are made once", comes(lambda: counted(server, "changes_total", type="route") == 6), server.get("/metrics"))
    refused = [counted(server, "changes_refused_total", replica=it) for it in (1, 2)]
    tell("a refused change counts at its replica", refused == [1, 0], refused)
    server.stop()


def behind_refused():
    """Changes that stand behind refused ones are made."""
    text = "".join(f"delete 1 route none\n{put(f'r{at}')}delete 1 route none\ndelete 1 route none\n{put(f's{at}')}" for at in range(100))
    server = Server("--keep-going", text=text)
    drained = threading.Thread(target=server.run.stderr.read, daemon=True)
    drained.start()
    comes(lambda: counted(server, "resources", type="route") == 200)
    found = [counted(server, "resources", type="route"), counted(server, "changes_total", type="route"), counted(server, "changes_refused_total")]
    tell("each change behind a refused one is made, once", found == [200, 200, 300], found)
    server.run.kill()
    server.run.wait()


def held_types(server):
    """Puts and deletions of each type, each so often as it is alone: what is held is what was written."""
    held = {}
    for at, kind in enumerate(TYPES):
        puts, gone = 7 + 2 * at, 1 + at
        lines = "".join(put(f"n{it}", kind=kind) for it in range(puts)) + "".join(f"delete 1 {kind} n{it}\n" for it in range(gone))
        server.post("/changes", lines)
        held[kind] = [puts + gone, puts - gone, gone]
    found = {kind: [counted(server, it, type=kind) for it in ("changes_total", "resources", "tombstones")] for kind in TYPES}
    tell("changes, resources and tombstones of each type are counted", found == held, (found, held))


def judged(server, kind):
    """Responses of a type, and how many were accepted and rejected."""
    return [counted(server, it, type=kind) for it in ("responses_total", "acks_total", "nacks_total")]


def judged_types(server):
    """A stream of all types, on which each type has its own number of responses, accepted and rejected."""
    stream, wanted = Stream(server.port), {}
    for at, kind in enumerate(TYPES):
        # Of the last two types the last response isn't answered.
        count = wanted[kind] = [0, 0, 0]
        for turn in range(7 + at // 3):
            server.post("/changes", put("x", kind=kind, x=str(turn)))
            if not turn:
                stream.send({"typeUrl": TYPES[kind][0], "resourceNames": ["x"]})
            response = stream.take()
            count[0] += 1
            # Before it is answered it is counted, so that each answer finds what it answers.
            comes(lambda: judged(server, kind) == count)
            if turn <= at:
                count[1] += 1
                # Said twice it counts once.
                for _ in range(2):
                    accepts(stream, response, ["x"], versionInfo=response["versionInfo"])
            elif turn < 7:
                count[2] += 1
                accepts(stream, response, ["x"], errorDetail={"message": "no"})
            comes(lambda: judged(server, kind) == count)
    found = {kind: judged(server, kind) for kind in TYPES}
    tell("responses of each type, accepted and rejected, are counted", found == wanted, (found, wanted))
    stream.socket.close()


def records(server):
    """What a stream and changes leave in the journal."""
    ends = lambda: comes(lambda: server.get("/status.txt") == "no stream is open\n")
    ends()
    look = lambda: counted(server, "records_total")
    first, second = look(), look()
    server.post("/changes", "".join(put(f"n{it}") for it in range(5)) + "delete 1 route none\n")
    third = look()
    tell("each change leaves a record, refused or not", third - second == 6 + (second - first), (first, second, third))
    stream = Stream(server.port)
    stream.send({"typeUrl": ROUTE, "resourceNames": ["n1"]})
    accepts(stream, stream.take(), ["n1"])
    looks = []
    comes(lambda: looks.append(1) or shown(server)[0]["types"][0]["accepted"] != "")
    stream.socket.close()
    ends()
    time.sleep(0.2)
    fourth, fifth = look(), look()
    # Its opening, request, response, acceptance, the look whether more is due at its end, its close, and that its writer learns of that; and
    # a look at what is held for each status that was asked for.
    tell("a stream leaves a record for each event", fourth - third == 7 + len(looks) + (fifth - fourth), (third, fourth, fifth, len(looks)))


def polls(server):
    """Polls over HTTP, each with its status."""
    path = "/v3/discovery:clusters"
    version = json.loads(posted(server.rest_port, path, b"{}")[1])["versionInfo"]
    asked = [b"{}"] * 3 + [b'{"resourceNames":["n8"]}'] * 2 + [b"no"] * 4 + [b'{"versionInfo":"%s"}' % version.encode()] * 7
    found = [posted(server.rest_port, path, it)[0] for it in asked]
    tell("polls have these statuses", found == [200] * 5 + [400] * 4 + [304] * 7, found)
    found = [counted(server, "rest_replies_total", status=it) for it in ("200", "304", "400", "503", "other")]
    tell("replies to polls are counted by their statuses", found == [6, 7, 4, 0, 0], found)


def posted(port, path, body):
    """The status and the body of a reply, over a connection of its own."""
    with socket.create_connection(("127.0.0.1", port), 20) as link:
        link.sendall(b"POST %s HTTP/1.1\r\nhost: a\r\nconnection: close\r\ncontent-length: %d\r\n\r\n%s" % (path.encode(), len(body), body))
        got = b""
        while piece := link.recv(1 << 20):
            got += piece
    head, _, rest = got.partition(b"\r\n\r\n")
    return int(head[9:12]), rest


def lag(server):
    """How long after the last change the last response was polled."""
    server.post("/changes", put("late"))
    begun = time.time()
    time.sleep(0.7)
    asked = time.time()
    stream = Stream(server.port)
    stream.send({"typeUrl": ROUTE, "resourceNames": ["late"]})
    stream.take()
    took = time.time() - begun
    found = counted(server, "put_to_last_response_seconds")
    tell("the time from a change to the last response is shown", 0.65 <= found <= took + 0.1, (found, took, asked - begun))
    stream.socket.close()


def numbers():
    """Every number of /metrics against the script's own count."""
    server = Server()
    held_types(server)
    judged_types(server)
    records(server)
    polls(server)
    lag(server)
    server.stop()


# rule: marks, rule: cuts
def cuts_and_parts():
    """Cuts of a journal that weighs too much, and parts that replicas tell each other."""
    server = Server()
    for at in range(10):
        server.post("/changes", put(f"big{at}", x="0" * BIG))
    found = [counted(server, it) for it in ("cuts_total", "cuts_failed_total")]
    tell("a journal is cut once it has 4 MiB: twice for 10 MB", found == [2, 0], found)
    server.stop()
    server = Server(replicas=2)
    each = lambda name: [counted(server, name, replica=it) for it in (1, 2)]
    for at in range(7):
        server.post("/changes", put(f"a{at}"))
        comes(lambda: counted(server, "resources", replica=2, type="route") == at + 1)
    tell("parts that were told and merged are counted", each("exchange_parts_total")[1] == 7, each("exchange_parts_total"))
    tell("and none is lost", each("exchange_lost_total") == [0, 0], each("exchange_lost_total"))
    tell("no journal is cut", each("cuts_total") == [0, 0], each("cuts_total"))
    server.stop()


def ended_streams():
    """Streams that ended are shown no longer, however they ended; those that are open stay."""
    server = Server(text=put("a"))
    kept = Stream(server.port)
    kept.send({"typeUrl": ROUTE, "resourceNames": ["a"]})
    kept.take()
    delta = Stream(server.port)
    delta.send({"typeUrl": ROUTE, "resourceNamesSubscribe": ["a"]}, kind=3)
    delta.take()
    closed, wrong, silent = (Stream(server.port) for _ in range(3))
    closed.send({"typeUrl": ROUTE, "resourceNames": ["a"]})
    closed.take()
    count = lambda: [counted(server, "streams", variant=it) for it in ("sotw", "delta", "none")]
    peers = lambda: {it["peer"] for it in shown(server)}
    of = lambda *streams: {"127.0.0.1:%d" % it.socket.getsockname()[1] for it in streams}
    tell("open streams are counted by their variants", comes(lambda: count() == [2, 1, 2]), count())
    every = of(kept, delta, closed, wrong, silent)
    tell("and each is shown once", peers() == every and len(shown(server)) == 5, shown(server))
    every -= of(closed)
    closed.socket.close()
    tell("a stream that its client closed is shown no longer", comes(lambda: peers() == every), (peers(), every))
    every -= of(wrong)
    wrong.socket.sendall(b"\0\0\0\x01\x09")
    tell("a stream that broke the protocol is closed", is_closed(wrong))
    tell("and shown no longer", comes(lambda: peers() == every), (peers(), every))
    tell("nor counted", count() == [1, 1, 1], count())
    for it in (delta, silent, kept):
        it.socket.close()
    tell("in the end there is none", comes(lambda: shown(server) == []), shown(server))
    tell("and none is counted", count() == [0, 0, 0], count())
    server.stop()


def addresses():
    """A stream has the address that a line PROXY says before its frames; what the line says besides changes nothing."""
    server = Server(text=put("a"))
    own = lambda stream: "127.0.0.1:%d" % stream.socket.getsockname()[1]
    line4, line6 = b"PROXY TCP4 10.1.2.3 127.0.0.1 40112 18200\r\n", b"PROXY TCP6 2001:db8::1 :: 7 0\r\n"
    cases = (
        ("a line", (line4,), "10.1.2.3:40112"), ("a line of IPv6", (line6,), "[2001:db8::1]:7"), ("a line in parts", (line4[:3], line4[3:20], line4[20:]), "10.1.2.3:40112"),
        ("no line", (), None), ("a line of no address", (b"PROXY UNKNOWN\r\n",), None), ("a line with another text", (b'PROXY TCP4 <b> 127.0.0.1 1 2\r\n',), None),
    )
    for what, parts, wanted in cases:
        stream = Stream(server.port)
        for part in parts:
            stream.socket.sendall(part)
            time.sleep(0.1 if len(parts) > 1 else 0)
        stream.send({"typeUrl": ROUTE, "resourceNames": ["a"]})
        response = stream.take()
        found = [it["peer"] for it in shown(server)]
        tell(f"a stream that begins with {what} is answered", response and response["nonce"] == "1", response)
        tell(f"and with {what} it has the address of its client", found == [wanted or own(stream)], found)
        stream.socket.close()
        comes(lambda: shown(server) == [])
    for what, text in (("has no end", b"PROXY TCP4 " + b"1" * 120), ("is cut off", b"PROXY TCP4 10.")):
        stream = Stream(server.port)
        stream.socket.sendall(text)
        tell(f"a stream whose line {what} is closed", is_closed(stream))
    server.stop()


def taken_place(server):
    """Whether a stream is served within ten seconds, where the one before has ended."""
    until = time.time() + 10
    while time.time() < until:
        stream = Stream(server.port)
        try:
            stream.send({"typeUrl": ROUTE, "resourceNames": ["a"]})
            if stream.take():
                return stream
        except ConnectionError:
            pass
        time.sleep(0.02)
    return None


def places():
    """The place of a stream is free again once it ended, however it ended."""
    server = Server("--max-streams", "1", "--log", text=put("a") + "".join(put(f"big{at}", x="0" * BIG) for at in range(17)))
    drained = threading.Thread(target=server.run.stderr.read, daemon=True)
    drained.start()
    stream = Stream(server.port)
    stream.socket.sendall(b"\0\0\0\x01\x09")
    tell("a stream that broke the protocol is closed", is_closed(stream))
    stream = taken_place(server)
    tell("its place is free again", stream)
    # Its writer fails, since the response is longer than a frame may be.
    comes(lambda: counted(server, "resources", type="route") == 18)
    stream and stream.send({"typeUrl": ROUTE, "resourceNames": [f"big{at}" for at in range(17)], "responseNonce": "1"})
    tell("a stream whose response is longer than a frame is closed", stream and is_closed(stream))
    stream = taken_place(server)
    tell("its place is free again, too", stream)
    stream and stream.socket.close()
    server.stop()


NOBODY = 64_999


def as_nobody():
    os.setgroups([])
    os.setgid(NOBODY)
    os.setuid(NOBODY)


def may_have(server, threads):
    """From here on the user whom the server runs as may have so many threads."""
    child = os.fork()
    if not child:
        try:
            as_nobody()
            most = resource.prlimit(server.run.pid, resource.RLIMIT_NPROC)[1]
            resource.prlimit(server.run.pid, resource.RLIMIT_NPROC, (min(threads, most), most))
            os._exit(0)
        finally:
            os._exit(1)
    if os.waitpid(child, 0)[1]:
        raise OSError("the server's limit of threads can't be set")


def no_threads():
    """Streams take no thread: they are served where no thread more may start."""
    if os.getuid():
        # Threads are counted by user, and only who may do all can be another.
        print("     not tried, since the program can't run as another user")
        return
    with tempfile.TemporaryDirectory() as folder:
        os.chmod(folder, 0o755)
        shutil.copy(operate.PROGRAM, f"{folder}/xds")
        os.chmod(f"{folder}/xds", 0o755)
        kept, operate.PROGRAM = operate.PROGRAM, f"{folder}/xds"
        try:
            few_threads(Server("--max-streams", "3", text=put("a"), prepare=as_nobody))
        finally:
            operate.PROGRAM = kept


def few_threads(server):
    comes(lambda: counted(server, "resources", type="route") == 1)
    threads = lambda: int(re.search(r"Threads:\s+(\d+)", open(f"/proc/{server.run.pid}/status", encoding="ascii").read())[1])
    # All threads that it has are started in its first moments.
    first, since = 0, time.time()
    while time.time() < since + 1:
        if threads() != first:
            first, since = threads(), time.time()
        time.sleep(0.02)
    may_have(server, first)
    streams = [taken_place(server) for _ in range(3)]
    tell("streams are served where no thread more may start", all(streams), streams)
    tell("and none was started", threads() == first, (threads(), first))
    tell("a stream more is closed", is_closed(Stream(server.port)))
    for it in streams:
        it and it.socket.close()
    server.stop()


def slowly(stream, begin, seconds, found):
    """Reads what comes once something has begun, in so many seconds, to the end."""
    begin.wait()
    until, got = time.time() + seconds, bytearray()
    stream.socket.settimeout(15)
    try:
        while piece := stream.socket.recv(1 << 19):
            got += piece
            if len(got) < 11 << 20:
                time.sleep(max(0, min(0.1, until - time.time())))
    except (ConnectionError, TimeoutError):
        pass
    found.append(bytes(got))


def frames_in(got):
    """How many whole frames there are, and how many bytes behind them."""
    at, count = 0, 0
    while len(got) - at >= 4 and len(got) - at - 4 >= int.from_bytes(got[at : at + 4], "big"):
        at, count = at + 4 + int.from_bytes(got[at : at + 4], "big"), count + 1
    return count, len(got) - at


def slow_readers():
    """Frames that are under way at a stop are written whole, and none is begun after it."""
    server = Server()
    for kind in ("route", "endpoint"):
        for at in range(12):
            server.post("/changes", put(f"big{at}", kind=kind, x="0" * BIG))
    names = [f"big{at}" for at in range(12)]
    begin, readers = threading.Event(), []
    for seconds in (0.4, 0.9, 1.6):
        stream, found = Stream(server.port), []
        stream.socket.setsockopt(socket.SOL_SOCKET, socket.SO_RCVBUF, 65536)
        for kind in ("route", "endpoint"):
            stream.send({"typeUrl": TYPES[kind][0], "resourceNames": names})
        reader = threading.Thread(target=slowly, args=(stream, begin, seconds, found))
        reader.start()
        readers.append((reader, seconds, found))
    under_way = lambda: sum(counted(server, "responses_total", type=it) for it in ("route", "endpoint")) == 3
    tell("three frames of 12 MB are under way", comes(under_way), server.get("/metrics"))
    time.sleep(0.3)
    # One that waits, and is told nothing more.
    idle = Stream(server.port)
    idle.send({"typeUrl": ROUTE, "resourceNames": ["later"]})
    server.post("/stop")
    begin.set()
    begun = time.time()
    status = server.run.wait(timeout=30)
    took = time.time() - begun
    for reader, seconds, found in readers:
        reader.join()
        whole, rest = frames_in(found[0])
        tell(f"a client that takes {seconds} s for a frame gets it whole across a stop, and no other", (whole, rest) == (1, 0), (whole, rest, took))
    tell("then the server ends", status == 0 and took < 10, (status, took))


class Lines(threading.Thread):
    """Reads an error output line by line, once it is told to."""

    def __init__(self, pipe):
        super().__init__(daemon=True)
        self.pipe, self.lines = pipe, []

    def run(self):
        for line in self.pipe:
            self.lines.append(line)
            if len(self.lines) > 20_000:
                return

    def left_out(self):
        return [int(it.split()[0]) for it in self.lines if it.endswith(" lines are left out\n")]


def left_out():
    """Of the log, lines that find no room are counted once, and later ones are told."""
    server = Server("--log")
    fcntl.fcntl(server.run.stderr.fileno(), fcntl.F_SETPIPE_SZ, 4096)
    for at in range(1_200):
        Stream(server.port).socket.close()
    tell("streams end beside a log that nobody reads", comes(lambda: shown(server) == [] and counted(server, "streams", variant="none") == 0))
    time.sleep(0.3)
    log = Lines(server.run.stderr)
    log.start()
    # Of each stream there are two lines; four tell what is served where, and by which numbers.
    total = lambda: len(log.lines) - len(log.left_out()) + sum(log.left_out())
    came = comes(lambda: total() >= 2_404)
    time.sleep(0.3)
    tell("lines that are told and those that are left out are all", came and total() == 2_404 and log.left_out(), (total(), log.left_out(), log.lines[:5]))
    before = len(log.left_out())
    for at in range(5):
        Stream(server.port).socket.close()
    comes(lambda: total() >= 2_414)
    time.sleep(0.2)
    tell("then each line is told", total() == 2_414 and len(log.left_out()) == before, (total(), log.left_out()))
    status, _, _ = server.stop()
    tell("a server with a log ends well", status == 0, status)


def blocked(replica):
    """What /ready says where a replica takes no changes, since nobody reads what it tells."""
    server = Server("--keep-going", replicas=2, open_input=True)
    fcntl.fcntl(server.run.stderr.fileno(), fcntl.F_SETPIPE_SZ, 4096)
    server.run.stdin.write(f"delete {replica} route none\n" * 1_500)
    server.run.stdin.flush()
    # Until it is held up it answers.
    said = lambda: asked_ready(server)
    held = comes(lambda: said() != "ready\n")
    found = [said() for _ in range(2)]
    tell(f"a server whose replica {replica} takes no changes isn't ready", held and "ready\n" not in found, found)
    server.run.kill()
    server.run.wait()


def asked_ready(server):
    try:
        return operate.urllib.request.urlopen(f"http://127.0.0.1:{server.admin_port}/ready", timeout=3).read().decode()
    except urllib.error.HTTPError as error:
        return str(error.code)
    except OSError:
        return "no answer"


def ready():
    blocked(1)
    blocked(2)


class Many:
    """Many streams of one name, which accept what they are told."""

    def __init__(self, port):
        self.port, self.watch, self.open = port, selectors.DefaultSelector(), {}

    def add(self, count):
        text = json.dumps({"typeUrl": ROUTE, "resourceNamesSubscribe": ["a"]}).encode()
        for _ in range(count):
            link = socket.create_connection(("127.0.0.1", self.port), timeout=20)
            link.sendall((len(text) + 1).to_bytes(4, "big") + b"\x03" + text)
            self.open[link] = [bytearray(), ""]
            self.watch.register(link, selectors.EVENT_READ)

    def remove(self, which):
        for link in [it for at, it in enumerate(self.open) if which(at)]:
            self.watch.unregister(link)
            link.close()
            del self.open[link]

    def take(self, link):
        got = self.open[link][0]
        piece = link.recv(1 << 16)
        if not piece:
            raise ConnectionError("a stream was ended")
        got += piece
        while len(got) >= 4 and len(got) >= 4 + int.from_bytes(got[:4], "big"):
            end = 4 + int.from_bytes(got[:4], "big")
            response = json.loads(got[5:end])
            del got[:end]
            text = json.dumps({"typeUrl": ROUTE, "responseNonce": response["nonce"]}).encode()
            link.sendall((len(text) + 1).to_bytes(4, "big") + b"\x03" + text)
            if response.get("resources"):
                self.open[link][1] = response["resources"][0]["resource"]["x"]

    def lacking(self, body, seconds=120):
        """How many haven't the body within some seconds, or once nothing came for twenty."""
        until, last = time.time() + seconds, time.time()
        while time.time() < until and any(it[1] != body for it in self.open.values()):
            ready = self.watch.select(timeout=0.2)
            for key, _ in ready:
                self.take(key.fileobj)
            last = time.time() if ready else last
            if time.time() - last > 20:
                break
        return sum(it[1] != body for it in self.open.values())


# rule: wake-ups
def many_streams():
    """Each of 1,500 streams is told of each change, again and again: after holds, after some ended, and after some came."""
    server = Server(text=put("a", x="0"), open_input=True)
    many = Many(server.port)
    many.add(1_500)
    tell("each of 1,500 streams gets its first response", many.lacking("0") == 0, many.lacking("0", 0))
    steps = [
        ("a put", lambda: None, lambda n: put("a", x=n)),
        ("another put", lambda: None, lambda n: put("a", x=n)),
        ("puts that come together", lambda: None, lambda n: "".join(put(f"o{at}") for at in range(3)) + put("a", x=n)),
        ("a put, once each third has ended", lambda: many.remove(lambda at: at % 3 == 0), lambda n: put("a", x=n)),
        ("a put, once as many have come", lambda: many.add(500), lambda n: put("a", x=n)),
        ("a put, once the first 700 have ended", lambda: many.remove(lambda at: at < 700), lambda n: put("a", x=n)),
    ]
    for at, (what, before, lines) in enumerate(steps):
        before()
        many.lacking(str(at))
        # Until each accepted what it was told, and its writer waits.
        comes(lambda: counted(server, "acks_total", type="route") == counted(server, "responses_total", type="route"))
        time.sleep(0.3)
        # Lines that come together are changes at once.
        server.run.stdin.write(lines(str(at + 1)))
        server.run.stdin.flush()
        lacking = many.lacking(str(at + 1))
        tell(f"{what}: each of {len(many.open)} streams is told", lacking == 0, lacking)
        if lacking:
            break
    many.remove(lambda at: True)
    tell("they end", comes(lambda: shown(server) == []), len(shown(server)))
    server.stop()


def bodies():
    """A body of changes has at most 4 MiB."""
    server = Server()
    line, most = "#" + "x" * 98 + "\n", 4_194_304
    text = (line * (most // len(line) + 1))[:most]
    answer = server.answer("/changes", (text[: most - 1] + "\n").encode())
    tell("a body of 4 MiB is taken", answer == (200, "no changes\n"), answer)
    try:
        found = server.answer("/changes", (text + "\n").encode())[0]
    except ConnectionError:
        found = "closed"
    tell("one of a byte more is 413", found == 413, found)
    server.stop()


def gives_up():
    """A client whose server reads nothing gives up in time, though it has much to write."""
    with socket.socket() as deaf:
        deaf.setsockopt(socket.SOL_SOCKET, socket.SO_RCVBUF, 4096)
        # The other end's buffer grows with the longest segment that is taken, so that it doesn't hold all of it.
        deaf.setsockopt(socket.IPPROTO_TCP, socket.TCP_MAXSEG, 536)
        deaf.bind(("127.0.0.1", 0))
        deaf.listen(1)
        names = [f"{at}" + "n" * 100_000 for at in range(4)]
        words = ["client", "--addr", f"127.0.0.1:{deaf.getsockname()[1]}", "--variant", "sotw", "--type", "route", "--responses", "1", "--seconds", "1"]
        run = subprocess.Popen([operate.PROGRAM, *words, *names], stdout=subprocess.PIPE, stderr=subprocess.PIPE, text=True)
        begun = time.time()
        try:
            run.wait(timeout=20)
        except subprocess.TimeoutExpired:
            pass
        took, status = time.time() - begun, run.poll()
        run.kill()
        told = run.communicate()[1]
    tell("a client that can't write gives up in time", status == 1 and told == "19 Device: gave up after 1 s\n", (status, took, told))


CASES = (stamps, behind_refused, numbers, cuts_and_parts, ended_streams, addresses, places, no_threads, slow_readers, left_out, ready, many_streams, bodies, gives_up)


def tried(case):
    """Runs a case. What stops it counts against it, and the next is tried."""
    try:
        case()
    except Exception as error:
        tell(f"{case.__name__} comes to its end", False, error)


def main():
    if not os.path.isfile(operate.PROGRAM):
        sys.exit(2)
    soft, hard = resource.getrlimit(resource.RLIMIT_NOFILE)
    resource.setrlimit(resource.RLIMIT_NOFILE, (hard, hard))
    asked = sys.argv[2:]
    wrong = set(asked) - {it.__name__ for it in CASES}
    if wrong:
        sys.exit(f"there is no case {' '.join(sorted(wrong))}: there are {' '.join(it.__name__ for it in CASES)}")
    for case in CASES:
        if not asked or case.__name__ in asked:
            tried(case)
    end()


if __name__ == "__main__":
    main()
