#!/usr/bin/env python3
"""Feeds the program good inputs that were spoiled (bench/oracle/spoil.py), and random ones, and compares each answer with a reading in Python.

    python3 bench/oracle/fuzz.py DOOR [--proved | --built FILE] [--keep FILE] [--at-once N] [FIRST LAST]
    python3 bench/oracle/fuzz.py DOOR --program PROGRAM [FIRST LAST]
    python3 bench/oracle/fuzz.py posts PROGRAM [FIRST LAST]
    python3 bench/oracle/fuzz.py sockets PROGRAM [FIRST LAST]

DOOR is one of

    streams   the bytes of a stream, to `run_stream`, in pieces of any sizes; the reading is that of bench/oracle/streams.py
    scripts   scripts, to `xds play`; that of bench/oracle/play.py
    traces    traces of such scripts' replicas, to `xds check`; that of bench/oracle/trace.py
    batches   batches, to `Batch::read`, and into a new replica; a reading of docs/FORMATS.md here
    answers   stamped writes and a request, to `xds answer`; a reading here
    posts     polls over HTTP, over a socket to `xds serve`: status and body; that of bench/oracle/posts.py
    sockets   the bytes of streams, over a socket each to `xds serve`, frame by frame; that of bench/oracle/streams.py

Each seed from FIRST (0) up to LAST (10000) makes one input. But for posts and sockets they all go through one process, whose program is made by
bench/oracle/doors.py: by `rt try`, or with --proved proved and built, or FILE that --keep FILE left of a run before, N inputs (10,000) a
process. With --program the built `xds` is started once for each input of scripts, traces and answers. An input counts as wrong
where the answer isn't that of the reading, and a run where the program ends before all are answered, or takes too long. What
differs is printed with its seed, and the status is then 1.
"""
import argparse
import errno
import json
import os
import random
import socket
import subprocess
import sys
import time

import compare
import play
import posts
import streams
import trace
from doors import Doors
from play import NotJson, TYPES, compact, read_json
from spoil import noise, some, spoiled, spoiled_gently, spoiled_json, spoiled_lines
from streams import Refused

# The longest that one input may take where each has a process of its own, in seconds.
PATIENCE = 60


def kind_of(pick):
    """Whether an input is good, spoiled, or made of nothing."""
    return pick.choices(["good", "spoiled", "noise"], [10, 78, 12])[0]


# ---- streams


def some_frame(pick, kind, served):
    """A frame of a request, most of them spoiled in a way that leaves the frame whole."""
    text = streams.some_request(pick, kind, served)
    if pick.random() < 0.35:
        text = some(pick, text, [spoiled_gently, spoiled_gently, spoiled_gently, spoiled_json, spoiled])
    if pick.random() < 0.02:
        text = noise(pick)
    return streams.framed(kind if pick.random() < 0.97 else pick.randrange(256), text)


def stream_input(pick):
    kind, served, frames = pick.choice([1, 3]), streams.Served(), []
    if kind_of(pick) == "noise":
        return streams.some_fault(pick) + noise(pick) if pick.random() < 0.5 else noise(pick)
    for _ in range(pick.randrange(1, 8)):
        frames.append(some_frame(pick, kind, served))
        if served.read(frames[-1]) and pick.random() < 0.9:
            break
    if pick.random() < 0.1:
        at = pick.randrange(len(frames))
        frames[at:at] = [frames[at]] * pick.choice([1, 2, 20])
    data = b"".join(frames)
    if pick.random() < 0.25:
        data = some(pick, data, [spoiled, spoiled, with_length])
    return data


def with_length(pick, data):
    """Another length in place of the first one."""
    length = pick.choice([0, 1, 2, 255, 256, len(data), len(data) - 5, len(data) - 3, 16777215, 16777216, 16777217, 2**31, 2**32 - 1])
    return max(length, 0).to_bytes(4, "big") + data[4:]


def stream_case(pick):
    data = stream_input(pick)
    return ",".join(map(str, streams.some_sizes(pick))), data


def stream_wanted(_, data):
    served = streams.Served()
    number = served.read(data)
    return number, served.written, b""


# ---- scripts


def script_case(pick):
    kind = kind_of(pick)
    data = noise(pick) if kind == "noise" else play.some_script(pick)
    return "0", some(pick, data, [spoiled_lines, spoiled_lines, spoiled_gently, spoiled_gently, spoiled_gently, spoiled_json, spoiled]) if kind == "spoiled" else data


def script_wanted(_, data):
    return play.played(data)


# ---- traces


def trace_case(pick, good):
    kind = kind_of(pick)
    if kind == "noise":
        return "-", noise(pick)
    return "-", some(pick, good, [edited, edited, edited, spoiled_gently, spoiled_gently, spoiled_lines, spoiled_json, spoiled]) if kind == "spoiled" else good


def edited(pick, data):
    lines = data.split(b"\n")[:-1]
    try:
        found = trace.edited(pick, lines) if lines else None
    except (ValueError, RecursionError):
        # (it was spoiled so that it can't be edited any more)
        return data
    return b"".join(line + b"\n" for line in found) if found else data


def trace_wanted(_, data):
    output, errors, status = trace.told(data)
    return status, output, errors


# ---- writes


def good_writes(pick, most):
    return [compare.some_write(pick)[1] for _ in range(pick.randrange(most))]


def object_text(write):
    """A write as it is written."""
    made = {"body": write.body and json.loads(write.body), "counter": write.rank[0], "groups": [group.decode() for group in write.groups]}
    made |= {"name": write.name, "typeUrl": TYPES[write.kind][0], "writer": write.rank[1]}
    return {key: held for key, held in made.items() if held not in (None, [])}


def written(writes):
    """The text of a batch: its writes type by type."""
    listed = [object_text(write) for kind in TYPES for write in writes if write.kind == kind]
    return compact({"writes": listed} if listed else {}).encode()


# rule: greatest-write
def held_of(writes):
    """The greatest write of each name, by type and then by name."""
    best = {}
    for write in writes:
        key = (list(TYPES).index(write.kind), write.name.encode())
        if key not in best or write.rank > best[key].rank:
            best[key] = write
    return [best[key] for key in sorted(best)]


def batch_of(data):
    try:
        value = read_json(data)
    except NotJson:
        raise Refused(1) from None
    try:
        trace.need(isinstance(value, dict))
        listed = value.get("writes")
        trace.need(listed is None or isinstance(listed, list))
        return [trace.Write(item) for item in listed or []]
    except trace.Bad:
        raise Refused(7) from None


def batch_wanted(_, data):
    try:
        writes = batch_of(data)
    except Refused as refusal:
        return refusal.args[0], b"", b""
    return 0, written(writes), written(held_of(writes))


def batch_case(pick):
    kind = kind_of(pick)
    if kind == "noise":
        return "-", noise(pick)
    data = compare.spelled(pick, {"writes": [json.loads(compare.spelled(pick, it)) for it in good_writes(pick, 8)]}).encode()
    return "-", some(pick, data, [spoiled_gently, spoiled_gently, spoiled_gently, spoiled_json, spoiled]) if kind == "spoiled" else data


def answer_case(pick):
    kind, replica = kind_of(pick), pick.choice([1, 7, 65535])
    if kind == "noise":
        return str(replica), noise(pick)
    lines = [compare.spelled(pick, it) for it in good_writes(pick, 10)] + [compare.spelled(pick, compare.some_request(pick)[0])]
    data = "\n".join(lines).encode() + pick.choice([b"", b"\n"])
    ways = [spoiled_gently, spoiled_gently, spoiled_gently, spoiled_gently, spoiled_json, spoiled_lines, spoiled]
    return str(replica), some(pick, data, ways) if kind == "spoiled" else data


def answer_wanted(replica, data):
    lines = (data[:-1] if data.endswith(b"\n") else data).split(b"\n")
    held = {word: play.Catalogue() for word in TYPES}
    for number, line in enumerate(lines, 1):
        try:
            if number == len(lines):
                return 0, asked(int(replica), held, line), b""
            join(held, line)
        except Refused as refusal:
            told = {1: "1 NotJson", 7: "7 BadMessage"}[refusal.args[0]]
            return 1, b"", b"line %d: %s\n" % (number, told.encode())


def join(held, line):
    try:
        write = trace.Write(read_json(line))
    except NotJson:
        raise Refused(1) from None
    except trace.Bad:
        raise Refused(7) from None
    counter, writer, _, _, groups = write.rank
    held[write.kind].join(write.name, (counter, writer, write.body and write.body.decode(), groups))


def asked(replica, held, line):
    """What a fresh stream's first poll gives."""
    url, request = streams.request_of(1, line)
    if not url:
        raise Refused(7)
    word = next((word for word, row in TYPES.items() if row[0] == url), None)
    if word is None:
        return b""
    return play.first_answer(replica, held[word], word, request["names"], request["cluster"])


# ---- streams over sockets


def read_exactly(link, count):
    found = b""
    while len(found) < count:
        piece = link.recv(min(1 << 16, count - len(found)))
        if not piece:
            break
        found += piece
    return found


def connected(pick, port):
    """A connection from one of many addresses of this machine, so that their ports are enough."""
    link = socket.socket()
    link.settimeout(PATIENCE)
    link.setsockopt(socket.IPPROTO_TCP, socket.TCP_NODELAY, 1)
    link.bind((f"127.0.{pick.randrange(1, 255)}.{pick.randrange(1, 255)}", 0))
    link.connect(("127.0.0.1", port))
    return link


def cut_in_two(pick, link, data):
    at = pick.randrange(len(data) + 1) if pick.random() < 0.2 else len(data)
    link.sendall(data[:at])
    link.sendall(data[at:])


def served_over_socket(pick, link, data):
    """What the server wrote and what it should have: it is waited for the responses to each frame before the next is sent."""
    served, given = streams.Served(), b""
    while data:
        try:
            behind = served.frame(data)
        except Refused:
            break
        cut_in_two(pick, link, data[: len(data) - len(behind)])
        given += read_exactly(link, len(served.written) - len(given))
        if given != served.written:
            return given, served.written
        data = behind
    try:
        # (the end of the input, or what is refused: the server closes the stream, and writes nothing more)
        cut_in_two(pick, link, data)
        link.shutdown(socket.SHUT_WR)
        given += read_exactly(link, 1 << 30)
    except OSError as fault:
        # (what it refuses it need not have read)
        if fault.errno not in (errno.ECONNRESET, errno.EPIPE, errno.ENOTCONN):
            raise
    return given, served.written


def over_sockets(words):
    program, seeds = words[0], range(*map(int, words[1:3])) if len(words) == 3 else range(10000)
    port, rest_port = posts.free_ports()
    server = subprocess.Popen([program, "serve", "--replicas", "1", "--port", str(port), "--rest-port", str(rest_port)], stdin=subprocess.PIPE, stderr=subprocess.DEVNULL)
    begin, wrong, answered = time.monotonic(), 0, 0
    try:
        server.stdin.write("".join(posts.lines()).encode())
        server.stdin.flush()
        posts.filled(posts.Link(rest_port), streams.Served().replica)
        for seed in seeds:
            pick = random.Random(seed)
            data = stream_input(pick)
            try:
                with connected(pick, port) as link:
                    given, due = served_over_socket(pick, link, data)
            except OSError as fault:
                given, due = repr(fault), None
            answered += bool(due)
            if given != due:
                wrong += 1
                print(f"seed {seed}: {brief(data)}", f"wanted {due}", f"given {given}", sep="\n", flush=True)
            if server.poll() is not None:
                print("the server has ended")
                return 1
        with open(f"/proc/{server.pid}/status", encoding="ascii") as file:
            held = [line.split()[1] for line in file if line.startswith(("VmRSS", "Threads"))]
    finally:
        server.kill()
    print(f"sockets: {len(seeds)} inputs in {time.monotonic() - begin:.0f} s, {answered} of them answered with a response; {wrong} differ; at the end the server holds {held[0]} kB and {held[1]} threads")
    return 1 if wrong or not seeds else 0


# ---- runs

# Of each door: its name in bench/oracle/doors.py, how a case of it is made, and what it must be answered.
DOORS = {
    "streams": ("stream", stream_case, stream_wanted),
    "scripts": ("play", script_case, script_wanted),
    "traces": ("check", trace_case, trace_wanted),
    "batches": ("batch", batch_case, batch_wanted),
    "answers": ("answer", answer_case, answer_wanted),
}
# Of each command, its words before that of the case.
COMMANDS = {"play": ["play"], "check": ["check"], "answer": ["answer", "--replica"]}


class Program:
    """The built program, started once for each case."""

    def __init__(self, program):
        self.program = os.path.abspath(program)

    def answers(self, door, cases):
        found = []
        for word, data in cases:
            words = [*COMMANDS[door], *([word] if door == "answer" else ["--trace", word] if door == "play" and word != "0" else [])]
            try:
                ended = subprocess.run([self.program, *words], input=data, capture_output=True, timeout=PATIENCE)
            except subprocess.TimeoutExpired:
                return found, b"it took too long"
            found.append((ended.returncode, ended.stdout, ended.stderr))
        return found, b""


def good_traces(doors, seeds):
    """A trace of a replica of a random script for each seed."""
    cases = []
    for seed in seeds:
        pick = random.Random(-1 - seed)
        cases.append((str(pick.choice([1, 1, 2, 3, 65535])), play.some_script(pick)))
    found, errors = doors.answers("play", cases)
    if len(found) != len(cases):
        sys.exit(f"{len(found)} traces of {len(cases)} scripts\n{errors.decode(errors='replace')}")
    return [output for _, output, _ in found]


def brief(data):
    return data if len(data) < 6000 else data[:3000] + b" .. %d bytes .. " % (len(data) - 6000) + data[-3000:]


def run_some(doors, door, seeds, counts):
    """How many of these seeds differ."""
    name, make, wanted = DOORS[door]
    goods = good_traces(doors, seeds) if door == "traces" else None
    cases = [make(random.Random(seed), *([goods[at]] if goods else [])) for at, seed in enumerate(seeds)]
    found, errors = doors.answers(name, cases)
    wrong = 0
    for seed, (word, data), given in zip(seeds, cases, found):
        due = wanted(word, data)
        key = due[1].split()[-1].decode() if door == "traces" and due[1] else str(due[0])
        counts[key] = counts.get(key, 0) + 1
        if given != due:
            wrong += 1
            print(f"seed {seed}: {word} {brief(data)}", f"wanted {due}", f"given {given}", sep="\n", flush=True)
    if len(found) < len(cases):
        wrong += 1
        word, data = cases[len(found)]
        print(f"seed {seeds[len(found)]}: {word} {brief(data)}", "the program ended at it:", errors.decode(errors="replace"), sep="\n", flush=True)
    return wrong


def main():
    parser = argparse.ArgumentParser(description=__doc__, formatter_class=argparse.RawDescriptionHelpFormatter)
    parser.add_argument("door", choices=[*DOORS, "posts", "sockets"])
    parser.add_argument("--proved", action="store_true")
    parser.add_argument("--built")
    parser.add_argument("--keep")
    parser.add_argument("--program")
    parser.add_argument("--at-once", type=int, default=10000)
    parser.add_argument("rest", nargs="*")
    given = parser.parse_intermixed_args()
    if given.door == "posts":
        return posts.main(given.rest, spoils=True)
    if given.door == "sockets":
        return over_sockets(given.rest)
    first, last = map(int, given.rest) if len(given.rest) == 2 else (0, 10000)
    begin = time.monotonic()
    doors = Program(given.program) if given.program else Doors(streams.writes(), given.proved, given.built and os.path.abspath(given.built))
    if given.keep:
        doors.keep(given.keep)
    wrong, counts = 0, {}
    for start in range(first, last, given.at_once):
        wrong += run_some(doors, given.door, range(start, min(last, start + given.at_once)), counts)
    told = ", ".join(f"{counts[key]} times {key}" for key in sorted(counts))
    print(f"{given.door}: {sum(counts.values())} inputs in {time.monotonic() - begin:.0f} s; answers: {told}; {wrong} differ")
    return 1 if wrong or not counts else 0


if __name__ == "__main__":
    sys.exit(main())
