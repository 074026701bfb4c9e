#!/usr/bin/env python3
"""Compares what `xds client` makes of a server that sends it anything with a reading of docs/PROTOCOL.md in Python, over a socket.

    python3 bench/oracle/clients.py PROGRAM [FIRST LAST]

Each seed from FIRST (0) up to LAST (10000) makes the words of a client and the bytes that a server sends it: good responses, most of
them spoiled (bench/oracle/spoil.py), in frames that may be broken, too. The client is started, connects to this script, and is sent them.
What it writes to the server, its output, its error output and its status must be those of the reading. What differs is printed, with
its seed, and the status is then 1.
"""
import errno
import json
import random
import re
import socket
import subprocess
import sys
import tempfile
import time

from play import TYPES, NotJson, compact, depth, is_complete, is_whole, read_json, some_body
from spoil import noise, some, spoiled, spoiled_gently, spoiled_json
from streams import Refused, field, framed, some_sizes, texts

NAMES = ["a", "b", "\u00e9", "B", "*"]
REFUSALS = {1: "NotJson", 2: "TooDeep", 3: "NotWhole", 4: "BadResource", 5: "BadName", 6: "TooLong", 7: "BadMessage", 13: "WrongVariant", 15: "EmptyFrame", 16: "FrameTooLong",
            17: "UnknownKind", 18: "Truncated", 19: "Device"}
PATIENCE = 20


# ---- reading


def by_bytes(names):
    return sorted(names, key=str.encode)


def objects(value, name):
    held = field(value, name, [], list)
    if not all(isinstance(item, dict) for item in held):
        raise Refused(7)
    return held


def resource_fault(value, kind):
    """The number of the first refusal of a value as a resource of a type, or none."""
    url, name, other, _ = TYPES[kind]
    if not is_whole(value):
        return 3
    if len(compact(value).encode()) > 1048576:
        return 6
    if depth(value) > 100:
        return 2
    held = value[name] if name in value else value.get(other)
    if value.get("@type") != url or not (held is None or isinstance(held, str)):
        return 4
    return None if held and len(held.encode()) <= 1024 and held != "*" else 5


class Client:
    def __init__(self, is_delta, kind, names, cluster):
        self.is_delta, self.kind, self.cluster = is_delta, kind, cluster
        self.names, self.held, self.accepted = by_bytes(set(names)), {}, ""

    def first(self):
        node = {"cluster": self.cluster, "id": "xds"} if self.cluster else {"id": "xds"}
        return self.framed({"node": node, "resourceNamesSubscribe" if self.is_delta else "resourceNames": self.names})

    def framed(self, message):
        message = {key: held for key, held in {**message, "typeUrl": TYPES[self.kind][0]}.items() if held}
        return framed(3 if self.is_delta else 1, compact(message).encode())

    def wants(self, name):
        return is_complete(self.kind) and "*" in self.names or name in self.names

    # rule: accept-reject
    def answer(self, frame_kind, text):
        """What is printed of a response, and the request that answers it."""
        if frame_kind != (4 if self.is_delta else 2):
            raise Refused(13)
        try:
            value = read_json(text)
        except NotJson:
            raise Refused(1) from None
        if not isinstance(value, dict):
            raise Refused(7)
        version = field(value, "systemVersionInfo" if self.is_delta else "versionInfo", "", str)
        nonce, url = field(value, "nonce", "", str), field(value, "typeUrl", "", str)
        told, removed = objects(value, "resources"), texts(value, "removedResources") if self.is_delta else []
        stated = [self.told_in(item) for item in told]
        if url != TYPES[self.kind][0]:
            raise Refused(7)
        fault = self.fault(stated, removed)
        if not fault:
            self.take(stated, removed)
            self.accepted = version
        lines = "%s %s\n" % ("refused" if fault else "taken", nonce)
        for name in by_bytes(self.held):
            lines += (self.held[name][0] + " " if self.is_delta else "") + self.held[name][1] + "\n"
        answer = {"responseNonce": nonce}
        if fault:
            answer["errorDetail"] = {"code": 3, "message": fault}
        if not self.is_delta:
            answer |= {"resourceNames": self.names, "versionInfo": self.accepted}
        return lines.encode(), self.framed(answer)

    def told_in(self, item):
        """What a resource of a response says: the name of the message, the version, and the resource."""
        if not self.is_delta:
            return None, "", item
        name, version = field(item, "name", "", str), field(item, "version", "", str)
        resource = item.get("resource")
        if not isinstance(resource, dict):
            raise Refused(7)
        return name, version, resource

    def name_of(self, resource):
        _, name, other, _ = TYPES[self.kind]
        return resource[name] if name in resource else resource.get(other)

    # rule: whole-or-nothing
    def fault(self, stated, removed):
        seen = set(removed)
        for told, _, resource in stated:
            number = resource_fault(resource, self.kind)
            if number:
                return "%d %s" % (number, REFUSALS[number])
            name = self.name_of(resource)
            if self.is_delta and told != name:
                return "name: " + name
            if name in seen:
                return "doubled: " + name
            if resource.get("reject") is True:
                return "test: " + name
            seen.add(name)
        return None

    # rule: whole-response, rule: whole-or-nothing
    def take(self, stated, removed):
        shown = {self.name_of(resource): (version, compact(resource)) for _, version, resource in stated}
        shown = {name: held for name, held in shown.items() if self.wants(name)}
        if not self.is_delta and is_complete(self.kind):
            self.held = shown
        else:
            self.held.update(shown)
            for name in removed:
                self.held.pop(name, None)


def wanted(client, responses, data):
    """What the client writes, its output, its error output and its status; and of each response, where it ends in the bytes that the
    client is sent, and how much the client has written once it has answered it."""
    sent, output, size = client.first(), b"", len(data)
    steps = [(0, len(sent))]
    try:
        for _ in range(responses):
            length = int.from_bytes(data[:4], "big")
            if len(data) >= 4 and not 1 <= length <= 16777216:
                raise Refused(16 if length else 15)
            if len(data) > 4 and not 1 <= data[4] <= 5:
                raise Refused(17)
            if len(data) < 4 or len(data) < 4 + length:
                raise Refused(18)
            lines, frame = client.answer(data[4], data[5 : 4 + length])
            sent, output, data = sent + frame, output + lines, data[4 + length :]
            steps.append((size - len(data), len(sent)))
    except Refused as refusal:
        number = refusal.args[0]
        return (sent, output, b"%d %s\n" % (number, REFUSALS[number].encode()), 1), steps
    return (sent, output, b"", 0), steps


# ---- random servers


def some_response(pick, is_delta, kind, turn):
    names = [pick.choice(NAMES[:4]) for _ in range(pick.randrange(4))]
    if pick.random() < 0.8:
        names = list(dict.fromkeys(names))
    bodies = [json.loads(some_body(pick, kind, name)) for name in names]
    message = {"nonce": str(turn + 1), "typeUrl": TYPES[kind][0] if pick.random() < 0.97 else TYPES[pick.choice(list(TYPES))][0]}
    if is_delta:
        message["resources"] = [{"name": name, "version": "%d-1" % pick.randrange(1, 9), "resource": body} for name, body in zip(names, bodies)]
        message["removedResources"] = [pick.choice(NAMES[:4]) for _ in range(pick.randrange(3))] if pick.random() < 0.4 else []
        message["systemVersionInfo"] = "1.%d" % turn
    else:
        message["resources"] = bodies
        message["versionInfo"] = "1.%d" % turn
    items = list(message.items())
    pick.shuffle(items)
    return json.dumps(dict(items), ensure_ascii=pick.random() < 0.5, separators=pick.choice([(",", ":"), (", ", ": ")])).encode()


def some_bytes(pick, is_delta, kind, responses):
    if pick.random() < 0.05:
        return noise(pick)
    data = b""
    for turn in range(responses + pick.choice([0, 0, 0, 1]) - pick.choice([0, 0, 0, 0, 1])):
        text = some_response(pick, is_delta, kind, turn)
        if pick.random() < 0.5:
            text = some(pick, text, [spoiled_gently, spoiled_gently, spoiled_gently, spoiled_json, spoiled])
        data += framed((4 if is_delta else 2) if pick.random() < 0.98 else pick.randrange(256), text)
    return some(pick, data, [spoiled]) if pick.random() < 0.1 else data


def one(program, listener, pick):
    is_delta, kind, responses = pick.random() < 0.5, pick.choice(["cluster", "cluster", *TYPES]), pick.randrange(1, 4)
    names, cluster = [pick.choice(NAMES) for _ in range(pick.randrange(1, 4))], pick.choice(["", "", "g1", "\u00e9"])
    data = some_bytes(pick, is_delta, kind, responses)
    words = [program, "client", "--addr", "127.0.0.1:%d" % listener.getsockname()[1], "--variant", "delta" if is_delta else "sotw", "--type", kind, "--responses", str(responses)]
    words += ["--cluster", cluster] * bool(cluster) + names
    due, steps = wanted(Client(is_delta, kind, names, cluster), responses, data)
    # (into files, since nobody reads them before the end)
    with tempfile.TemporaryFile() as output, tempfile.TemporaryFile() as errors:
        run = subprocess.Popen(words, stdin=subprocess.DEVNULL, stdout=output, stderr=errors)
        try:
            link, _ = listener.accept()
            sent = served(pick, link, data, steps)
            run.wait(timeout=PATIENCE)
        except (OSError, subprocess.TimeoutExpired) as fault:
            run.kill()
            run.wait()
            sent = repr(fault)
        output.seek(0)
        errors.seek(0)
        return words, data, (sent, output.read(), errors.read(), run.returncode), due


def served(pick, link, data, steps):
    """Sends the bytes, a response once the one before it is answered, and gives what comes until the client closes."""
    found, begin = b"", 0
    with link:
        link.settimeout(PATIENCE)
        for end, count in steps:
            in_pieces(pick, link, data[begin:end])
            begin = end
            while len(found) < count:
                piece = link.recv(1 << 16)
                if not piece:
                    return found
                found += piece
        try:
            in_pieces(pick, link, data[begin:])
            link.shutdown(socket.SHUT_WR)
            while piece := link.recv(1 << 16):
                found += piece
        except OSError as fault:
            # (the client has ended, and need not have read all)
            if fault.errno not in (errno.ECONNRESET, errno.EPIPE, errno.ENOTCONN):
                raise
    return found


def in_pieces(pick, link, data):
    sizes, turn = some_sizes(pick), 0
    while data:
        size = max(sizes[turn % len(sizes)], len(data) // 20)
        link.sendall(data[:size])
        data, turn = data[size:], turn + 1


def main(words):
    if len(words) not in (1, 3):
        sys.exit(__doc__)
    seeds = range(*map(int, words[1:])) if len(words) == 3 else range(10000)
    begin, wrong, statuses = time.monotonic(), 0, {}
    with socket.create_server(("127.0.0.1", 0)) as listener:
        listener.settimeout(PATIENCE)
        for seed in seeds:
            said, data, given, due = one(words[0], listener, random.Random(seed))
            kind = due[2].decode().split()[-1] if due[2] else "refused" if re.search(rb"^refused ", due[1], re.M) else "taken"
            statuses[kind] = statuses.get(kind, 0) + 1
            if given != due:
                wrong += 1
                print(f"seed {seed}: {said} {data[:5000]}", f"wanted {str(due)[:5000]}", f"given {str(given)[:5000]}", sep="\n", flush=True)
    told = ", ".join(f"{statuses[kind]} times {kind}" for kind in sorted(statuses))
    print(f"clients: {len(seeds)} inputs in {time.monotonic() - begin:.0f} s; ends: {told}; {wrong} differ")
    return 1 if wrong or not seeds else 0


if __name__ == "__main__":
    sys.exit(main(sys.argv[1:]))
