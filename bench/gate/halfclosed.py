#!/usr/bin/env python3
"""What a client is answered that sends no more, over the program itself, case by case.

    python3 bench/gate/halfclosed.py PROGRAM [CASE ..]

Each case starts a server of its own. Its clients close their sending side right behind what they ask, and read what comes to the end:
each gets all that it is due then, whole frames in the order of their nonces, and then the end. Tried are both variants, all types at
once, one place for streams, a frame that is refused, clients that are due nothing, responses of 12 MB, changes meanwhile, clients that
never read, a stop, and a recorded run. Without a CASE it tries all, in about a minute. Prints a line for each thing that is looked at,
and the status is 1 where one isn't as it is to be, and 2 where it can't be tried, since the program isn't there.
"""
import json
import os
import shutil
import socket
import subprocess
import sys
import tempfile
import threading
import time

import operate
from operate import Server, Stream, comes
from serve import BIG, ROUTE, TYPES, counted, frames_in, put, tried
from telling import end, tell

TRIES = 200
# As many seconds as the end of a stream may take where nothing is left to be written, on a machine that is busy.
SOON = 4
# As many seconds as a client has to take what it is due, and as many more on a machine that is busy.
PARTING, BUSY = 10, 5
KINDS = {"sotw": 1, "delta": 3}
NAMES = {"sotw": "resourceNames", "delta": "resourceNamesSubscribe"}


def asks(variant, kind="route", names=("a",)):
    """A request for names of a type, as a frame."""
    text = json.dumps({"typeUrl": TYPES[kind][0], NAMES[variant]: list(names)}).encode()
    return (len(text) + 1).to_bytes(4, "big") + bytes([KINDS[variant]]) + text


def rest_of(stream, seconds=30):
    """What comes on a stream to its end, and after how many seconds it ends; less where the connection breaks off or goes on."""
    begun, got = time.time(), bytearray()
    stream.socket.settimeout(seconds)
    try:
        while piece := stream.socket.recv(1 << 20):
            got += piece
    except OSError as error:
        return bytes(got), repr(error)
    return bytes(got), time.time() - begun


def asked(server, *frames):
    """What a client gets that sends these at once, and then no more."""
    stream = Stream(server.port)
    try:
        stream.socket.sendall(b"".join(frames))
        stream.socket.shutdown(socket.SHUT_WR)
    except OSError as error:
        return b"", repr(error)
    got, took = rest_of(stream)
    stream.socket.close()
    return got, took


def messages(got):
    """The messages of whole frames, and how many bytes stand behind them."""
    count, behind = frames_in(got)
    at, found = 0, []
    for _ in range(count):
        length = int.from_bytes(got[at : at + 4], "big")
        found.append(json.loads(got[at + 5 : at + 4 + length]))
        at += 4 + length
    return found, behind


def is_whole(got, count=1):
    """Whether these are so many whole frames, in the order of their nonces, and nothing else."""
    found, behind = messages(got)
    return behind == 0 and [it["nonce"] for it in found] == [str(at + 1) for at in range(count)]


def lost(server, variant, tries=TRIES):
    """Of so many clients that ask and send no more, those that weren't answered whole, or were told no end."""
    found = [asked(server, asks(variant)) for _ in range(tries)]
    return [(len(got), took) for got, took in found if not is_whole(got) or not isinstance(took, float)]


def answered():
    """Whoever asks and sends no more is answered, in both variants."""
    server = Server(text=put("a"))
    for variant in KINDS:
        missing = lost(server, variant)
        tell(f"each of {TRIES} requests is answered behind which its client sends no more ({variant})", not missing, (len(missing), missing[:3]))
    server.stop()


def all_types():
    """What is due of all types is told, in the order of the nonces."""
    server = Server(text="".join(put("a", kind=kind) for kind in TYPES))
    for variant in KINDS:
        frames = [asks(variant, kind) for kind in TYPES]
        found = [asked(server, *frames) for _ in range(TRIES // 4)]
        wrong = [(len(got), took) for got, took in found if not is_whole(got, 5) or {it["typeUrl"] for it in messages(got)[0]} != {url for url, _ in TYPES.values()}]
        tell(f"five types that are asked for at once are all told ({variant})", not wrong, (len(wrong), wrong[:3]))
    server.stop()


def one_place():
    """A stream has left its place once its client sees the end."""
    server = Server("--max-streams", "1", text=put("a"))
    for variant in KINDS:
        missing = lost(server, variant)
        tell(f"so is each with one place for streams, one right behind another ({variant})", not missing, (len(missing), missing[:3]))
    turned = counted(server, "streams_turned_away_total")
    tell("and none is turned away", turned == 0, turned)
    server.stop()


def refused():
    """What stands before a frame that is refused is answered, and so is what stands before a part of a frame."""
    server = Server(text=put("a"))
    for what, last in (("a frame of no kind", b"\0\0\0\x01\x09"), ("no JSON", b"\0\0\0\x03\x01{{"), ("a part of a frame", b"\0\0\0\x09\x01{")):
        found = [asked(server, asks("sotw"), last) for _ in range(TRIES // 4)]
        missing = [(len(got), took) for got, took in found if not is_whole(got)]
        tell(f"what is asked before {what} is answered", not missing, (len(missing), missing[:3]))
    server.stop()


def due_nothing():
    """A client that is due nothing sees the end at once."""
    server = Server(text=put("a"))
    for variant in KINDS:
        for what, names in (("asks for nothing that is there", ["none"]), ("asks for nothing", None)):
            got, took = asked(server, *([asks(variant, names=names)] if names else []))
            empty = variant == "sotw" or not names
            good = (got == b"" or not empty) and isinstance(took, float) and took < SOON
            tell(f"a client that {what} sees the end at once ({variant})", good, (got, took))
        for what in ("accepted", "rejected", "left"):
            stream = Stream(server.port)
            stream.socket.sendall(asks(variant))
            response = stream.take()
            answer = {"typeUrl": ROUTE, "responseNonce": response["nonce"], "resourceNames": ["a"]}
            answer |= {"errorDetail": {"message": "no"}} if what == "rejected" else {"versionInfo": response.get("versionInfo", "")}
            if variant == "delta":
                answer = {key: it for key, it in answer.items() if key not in ("resourceNames", "versionInfo")}
            if what != "left":
                stream.send(answer, KINDS[variant])
            stream.socket.shutdown(socket.SHUT_WR)
            got, took = rest_of(stream)
            tell(f"so does one whose response is {what} ({variant})", got == b"" and isinstance(took, float) and took < SOON, (got, took))
    tell("and none of them is shown any more", comes(lambda: counted(server, "streams", variant="sotw") == 0), server.get("/metrics"))
    server.stop()


def large(server):
    """Puts twelve routes of a megabyte, and answers their names."""
    for at in range(12):
        server.post("/changes", put(f"big{at}", x="0" * BIG))
    return [f"big{at}" for at in range(12)]


def slow():
    """A response of 12 MB is told whole to whoever takes some seconds for it, whether it was begun before the end or not."""
    server = Server()
    names = large(server)
    for variant in KINDS:
        for what in ("isn't begun", "is under way"):
            stream = Stream(server.port)
            stream.socket.setsockopt(socket.SOL_SOCKET, socket.SO_RCVBUF, 65536)
            told = counted(server, "responses_total", type="route")
            stream.socket.sendall(asks(variant, names=names))
            if what == "is under way":
                comes(lambda: counted(server, "responses_total", type="route") > told)
                time.sleep(0.2)
            stream.socket.shutdown(socket.SHUT_WR)
            time.sleep(3)
            got, took = rest_of(stream)
            tell(f"a response of 12 MB that {what} comes whole ({variant})", is_whole(got) and len(got) > 12 * BIG, (len(got), took))
    server.stop()


def changing():
    """A stream ends soon, also where changes go on."""
    server = Server(text=put("a"))
    goes_on = threading.Event()

    def change():
        at = 0
        while not goes_on.is_set():
            at += 1
            server.post("/changes", "".join(put("a", x=f"{at} {it}") for it in range(20)))

    writer = threading.Thread(target=change)
    writer.start()
    for variant in KINDS:
        found = [asked(server, asks(variant)) for _ in range(TRIES // 4)]
        wrong = [(len(got), took) for got, took in found if not is_whole(got) or not isinstance(took, float) or took > SOON]
        tell(f"a client is answered once, and sees the end soon, where changes go on ({variant})", not wrong, (len(wrong), wrong[:3]))
    goes_on.set()
    writer.join()
    server.stop()


def threads(server):
    """How many threads a server has."""
    return len(os.listdir(f"/proc/{server.run.pid}/task"))


def never_reads():
    """The stream of a client that never reads ends after some seconds, and takes no thread."""
    server = Server("--log")
    told = []
    reader = threading.Thread(target=lambda: told.extend(server.run.stderr), daemon=True)
    reader.start()
    names = large(server)
    before, streams, begun = threads(server), [], time.time()
    for what in ("isn't begun", "is under way") * 2:
        stream = Stream(server.port)
        stream.socket.setsockopt(socket.SOL_SOCKET, socket.SO_RCVBUF, 65536)
        count = counted(server, "responses_total", type="route")
        stream.socket.sendall(asks("sotw", names=names))
        if what == "is under way":
            comes(lambda: counted(server, "responses_total", type="route") > count)
            time.sleep(0.2)
        stream.socket.shutdown(socket.SHUT_WR)
        streams.append(stream)
    last = time.time()
    time.sleep(max(0, PARTING - 2 - (last - begun)))
    open_streams = lambda: counted(server, "streams", variant="sotw")
    tell("a client that doesn't read has some seconds", open_streams() == len(streams), open_streams())
    comes(lambda: open_streams() == 0)
    took = time.time() - last
    tell("then its stream has ended", open_streams() == 0 and PARTING - 1 < took < PARTING + BUSY, (open_streams(), took))
    tell("and no thread was started for it", threads(server) == before, (threads(server), before))
    ended = lambda: sum("ended by 19 Device" in it for it in told)
    tell("and that its client didn't take it is told", comes(lambda: ended() == len(streams)), told[-8:])
    for stream in streams:
        got, _ = rest_of(stream)
        whole, _ = frames_in(got)
        if whole:
            tell("what such a client would have taken isn't whole", False, len(got))
    status = server.stop()[0]
    tell("the server goes on, and stops", status == 0, status)


def stopped():
    """A stop in the middle: each client has whole frames or none, and the server ends."""
    for variant in KINDS:
        server = Server(text="".join(put(f"r{at}", x="0" * 10_000) for at in range(40)))
        names, found, begin = [f"r{at}" for at in range(40)], [], threading.Event()

        def tries():
            begin.wait()
            for _ in range(100):
                try:
                    found.append(asked(server, asks(variant, names=names)))
                except OSError:
                    return

        clients = [threading.Thread(target=tries) for _ in range(8)]
        for it in clients:
            it.start()
        begin.set()
        comes(lambda: len(found) > 20)
        status, _, took = server.stop()
        for it in clients:
            it.join()
        tell(f"a server stops in time while clients send no more ({variant})", status == 0 and took < 8, (status, took))
        cut = [len(got) for got, _ in found if messages(got)[1] or len(messages(got)[0]) > 1]
        tell(f"and none of these has a part of a frame ({variant})", not cut, (len(cut), len(found)))


def recorded():
    """A recorded run of such clients is judged to be well."""
    room = tempfile.mkdtemp()
    server = Server("--record", room, text="".join(put("a", kind=kind) for kind in TYPES))
    for at in range(40):
        for variant in KINDS:
            asked(server, *[asks(variant, kind) for kind in list(TYPES)[at % 5 :]])
        server.post("/changes", put("a", kind=list(TYPES)[at % 5], x=str(at)))
    server.stop()
    with open(f"{room}/replica-1.trace", "rb") as trace:
        text = trace.read()
        trace.seek(0)
        judged = subprocess.run([operate.PROGRAM, "check"], stdin=trace, capture_output=True, text=True, timeout=60, check=False)
    tell("a recorded run of such clients is well", judged.stdout == "ok\n", (judged.stdout, judged.stderr))
    asked_for = 2 * sum(5 - at % 5 for at in range(40))
    tell("and has each of their responses", text.count(b"\nresponse ") == asked_for, (text.count(b"\nresponse "), asked_for))
    shutil.rmtree(room)


CASES = (answered, all_types, one_place, refused, due_nothing, slow, changing, never_reads, stopped, recorded)


def main():
    wanted = sys.argv[2:]
    if not os.access(operate.PROGRAM, os.X_OK):
        print(f"bench/gate/halfclosed.py: there is no program {operate.PROGRAM}")
        sys.exit(2)
    for case in CASES:
        if not wanted or case.__name__ in wanted:
            tried(case)
    end()


if __name__ == "__main__":
    main()
