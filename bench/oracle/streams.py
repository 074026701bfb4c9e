#!/usr/bin/env python3
"""Compares `run_stream` with a reading of docs/PROTOCOL.md and docs/FORMATS.md in Python, over random inputs in random pieces.

    python3 bench/oracle/streams.py [--proved] [FIRST LAST]

Each seed from FIRST (0) up to LAST (10000) makes the bytes of a stream, many of them broken somewhere, and the sizes of the
pieces in which they come. What differs in the answer or in a byte that is written is shown with its seed, and the status is
then 1. The program is made in a copy of this repository, over the libraries that are built in out/, and run by `rt try`; with
--proved it is proved, and built.
"""
import argparse
import json
import random
import re
import sys

from doors import Doors
from play import TYPES, NotJson, Replica, compact, read_json

# What the replica holds, each write behind the groups that it is for: a put, or the deletion of a cluster.
WRITES = [
    ("cluster", "a", "g1", '{"@type":"URL","name":"a","x":1}'),
    ("cluster", "b", "", '{"@type":"URL","name":"b"}'),
    ("cluster", "gone", "", '{"@type":"URL","name":"gone"}'),
    ("cluster", "gone", "", None),
    ("cluster", "\u00e9", "g1,g2", '{"@type":"URL","name":"\u00e9"}'),
    ("cluster", "b", "", '{"@type":"URL","name":"b","x":"y z"}'),
    ("endpoint", "a", "", '{"@type":"URL","clusterName":"a"}'),
    ("listener", "a", "g2", '{"@type":"URL","name":"a"}'),
    ("route", "a", "g1", '{"@type":"URL","name":"a"}'),
    ("route", "b", "", '{"@type":"URL","name":"b"}'),
    ("secret", "b", "", '{"@type":"URL","name":"b"}'),
]
NAMES = ["a", "b", "gone", "\u00e9", "missing", "*"]


# ---- reading


class Refused(Exception):
    """A refusal, by its number."""


def object_of(text):
    try:
        value = read_json(text)
    except NotJson:
        raise Refused(1) from None
    if not isinstance(value, dict):
        raise Refused(7)
    return value


def field(value, name, default, kind):
    """A field by either spelling; none and `null` read as the default."""
    other = re.sub("[A-Z]", lambda found: "_" + found.group().lower(), name)
    held = value[name] if name in value else value.get(other)
    if held is None:
        return default
    if not isinstance(held, kind):
        raise Refused(7)
    return held


def texts(value, name):
    held = field(value, name, [], list)
    if not all(isinstance(text, str) for text in held):
        raise Refused(7)
    return held


def look_at_code(error):
    code = error.get("code")
    if isinstance(code, str) and re.fullmatch("-?[0-9]+", code, re.A):
        code = int(re.sub("^(-?)0*(?=[0-9])", r"\1", code)[:20])
    if code is not None and (isinstance(code, bool) or not isinstance(code, int) or not -(2**31) <= code < 2**31):
        raise Refused(7)


def request_of(kind, text):
    """What a frame asks: its type URL, and the request as the replica of bench/oracle/play.py takes it."""
    if kind not in (1, 3):
        raise Refused(13)
    value = object_of(text)
    node = field(value, "node", {}, dict)
    field(node, "id", "", str)
    error = field(value, "errorDetail", None, dict)
    if error is not None:
        look_at_code(error)
        field(error, "message", "", str)
    request = {"nonce": field(value, "responseNonce", "", str), "error": error is not None, "cluster": field(node, "cluster", "", str)}
    if kind == 1:
        field(value, "versionInfo", "", str)
        request["names"] = texts(value, "resourceNames")
    else:
        request["subscribe"], request["unsubscribe"] = texts(value, "resourceNamesSubscribe"), texts(value, "resourceNamesUnsubscribe")
        request["versions"] = field(value, "initialResourceVersions", {}, dict)
        if not all(isinstance(version, str) for version in request["versions"].values()):
            raise Refused(7)
    return field(value, "typeUrl", "", str), request


def framed(kind, text):
    return (len(text) + 1).to_bytes(4, "big") + bytes([kind]) + text


class Served:
    """A stream at a replica of its own, and what was written."""

    def __init__(self):
        self.replica = Replica(1)
        for kind, name, groups, body in WRITES:
            self.replica.catalogues[kind].stamp(name, 1, body and body.replace("URL", TYPES[kind][0]), sorted(group.encode() for group in groups.split(",") if group))
        self.frame_kind = None
        self.written = b""

    # rule: first-variant
    def ask(self, frame_kind, text):
        url, request = request_of(frame_kind, text)
        if self.frame_kind not in (None, frame_kind):
            raise Refused(13)
        if not url:
            raise Refused(7)
        if self.frame_kind is None:
            self.frame_kind = frame_kind
            self.replica.open(frame_kind == 3)
            for session in self.replica.streams[0][1].values():
                session.cluster = request["cluster"]
            self.replica.streams[0][2] = True
        for kind, (known, _, _, _) in TYPES.items():
            if known == url:
                self.replica.request(0, {**request, "kind": kind})
        while response := self.replica.poll(0, TYPES):
            self.written += framed(frame_kind + 1, self.message(response).encode())

    def message(self, response):
        kind = response["kind"]
        session = self.replica.streams[0][1][kind]
        version = "1.%d" % self.replica.catalogues[kind].changes
        made = {"nonce": response["nonce"], "typeUrl": TYPES[kind][0]}
        resources = [(name, at, json.loads(body)) for name, at, body in response["resources"]]
        if session.is_delta:
            made["systemVersionInfo"] = version
            made["removedResources"] = response["removed"]
            made["resources"] = [{"name": name, "resource": body, "version": at} for name, at, body in resources]
        else:
            made["versionInfo"] = version + (".named" if not session.star else "@" + session.cluster if session.cluster else "")
            made["resources"] = [body for _, _, body in resources]
        return compact({key: held for key, held in made.items() if held})

    def read(self, data):
        """The number of the answer to an input, 0 where it ends well."""
        try:
            while data:
                data = self.frame(data)
        except Refused as refusal:
            return refusal.args[0]
        return 0

    # rule: whole-frames
    def frame(self, data):
        """Answers the first frame, and gives what is behind it."""
        if len(data) < 4:
            raise Refused(18)
        length = int.from_bytes(data[:4], "big")
        if length == 0 or length > 16777216:
            raise Refused(16 if length else 15)
        if len(data) > 4 and not 1 <= data[4] <= 5:
            raise Refused(17)
        if len(data) < 4 + length:
            raise Refused(18)
        self.ask(data[4], data[5 : 4 + length])
        return data[4 + length :]


# ---- random inputs


def some_names(pick):
    return [pick.choice(NAMES) for _ in range(pick.randrange(4))]


def some_request(pick, frame_kind, served):
    """A request; most of them answer the last response of their type."""
    kind = pick.choice(["cluster", "cluster", "cluster", "endpoint", "listener", "route", "secret"])
    message = {pick.choice(["typeUrl", "type_url"]): TYPES[kind][0] if pick.random() < 0.95 else "type.googleapis.com/other"}
    last = served.replica.streams[0][1][kind].last_nonce if served.replica.streams else ""
    nonce = last if pick.random() < 0.8 else pick.choice(["", "1", "2", "9"])
    if nonce or pick.random() < 0.5:
        message[pick.choice(["responseNonce", "response_nonce"])] = nonce
    if pick.random() < 0.2:
        message["errorDetail"] = pick.choice([{}, None, {"code": 3, "message": "test: a"}, {"code": "-7"}])
    if pick.random() < 0.4:
        message["node"] = pick.choice([{}, None, {"id": "n"}, {"id": "n", "cluster": "g1", "x": 1.5}, {"cluster": "g2"}])
    if frame_kind == 1:
        message[pick.choice(["resourceNames", "resource_names"])] = some_names(pick)
        if pick.random() < 0.3:
            message["versionInfo"] = pick.choice(["", "1.6", None])
    else:
        message[pick.choice(["resourceNamesSubscribe", "resource_names_subscribe"])] = some_names(pick)
        message["resourceNamesUnsubscribe"] = some_names(pick) if pick.random() < 0.5 else None
        if pick.random() < 0.3:
            message["initialResourceVersions"] = {pick.choice(NAMES[:5]): pick.choice(["1-1", "6-1", "5-1", "x"]) for _ in range(pick.randrange(3))}
    items = list(message.items())
    pick.shuffle(items)
    return json.dumps(dict(items), ensure_ascii=pick.random() < 0.5, separators=pick.choice([(",", ":"), (", ", ": ")])).encode()


TEXTS = [b"", b"nul", b"\xff", b"[]", b"7", b'{"typeUrl":1}', b'{"typeUrl":""}', b"{}", b'{"typeUrl":"x","resourceNames":["a",null]}', b'{"a":NaN}',
         b'{"typeUrl":"x","errorDetail":{"code":2147483648}}', b'{"typeUrl":"x","errorDetail":{"code":"1e2"}}', b'{"typeUrl":"x","node":[]}', b"[" * 128 + b"]" * 128,
         b'{"typeUrl":"x","a":' + b"[" * 126 + b"]" * 126 + b"}", b'{"typeUrl":"x","a":' + b"[" * 127 + b"]" * 127 + b"}", b'{"typeUrl":"x","typeUrl":"y","type_url":1}',
         b'{"typeUrl":"x","initialResourceVersions":{"a":1}}', b'{"typeUrl":"x","node":{"cluster":1}}']


def some_fault(pick):
    """Bytes that most streams end with."""
    return pick.choice(
        [
            bytes(4),
            b"\x01\x00\x00\x01",
            b"\x01\x00\x00\x00\x01{",
            b"\x00\x00\x00\x02" + bytes([pick.choice([0, 6, 9, 255])]) + b"{}",
            framed(pick.choice([2, 4, 5]), b"{}"),
            framed(pick.choice([1, 3]), pick.choice(TEXTS)),
            framed(pick.choice([1, 3]), pick.choice(TEXTS)),
            framed(pick.choice([1, 3]), b'{"typeUrl":"%s"}' % TYPES["cluster"][0].encode()),
            bytes(pick.randrange(256) for _ in range(pick.randrange(1, 12))),
        ]
    )


def some_input(pick):
    served, data, frame_kind = Served(), b"", pick.choice([1, 3])
    for _ in range(pick.randrange(9)):
        frame = framed(frame_kind, some_request(pick, frame_kind, served))
        data += frame
        if served.read(frame):
            break
    if pick.random() < 0.4:
        data += some_fault(pick)
    if pick.random() < 0.2:
        data += framed(frame_kind, some_request(pick, frame_kind, served))
    if pick.random() < 0.2:
        data = data[: pick.randrange(len(data) + 1)]
    if data and pick.random() < 0.05:
        at = pick.randrange(len(data))
        data = data[:at] + bytes([pick.randrange(256)]) + data[at + 1 :]
    return data


def some_sizes(pick):
    return [pick.choice([1, 2, 3, 5, 4096, 10000, pick.randrange(1, 300)]) for _ in range(pick.randrange(1, 6))]


def writes():
    lines = [("- " + name) if body is None else groups + " " + body.replace("URL", TYPES[kind][0]) for kind, name, groups, body in WRITES]
    return "\n".join(lines)


def main():
    parser = argparse.ArgumentParser(description=__doc__, formatter_class=argparse.RawDescriptionHelpFormatter)
    parser.add_argument("--proved", action="store_true")
    parser.add_argument("seeds", nargs="*", type=int)
    given = parser.parse_args()
    first, last = given.seeds if len(given.seeds) == 2 else (0, 10000)
    cases = []
    for seed in range(first, last):
        pick = random.Random(seed)
        cases.append((seed, some_input(pick), some_sizes(pick)))
    printed, errors = Doors(writes(), given.proved).answers("stream", [(",".join(map(str, sizes)), data) for _, data, sizes in cases])
    if len(printed) != len(cases):
        sys.exit(f"{len(printed)} answers to {len(cases)} inputs\n{errors.decode()}")
    wrong, numbers, responses = 0, {}, 0
    for (seed, data, sizes), answer in zip(cases, printed):
        served = Served()
        number = served.read(data)
        numbers[number] = numbers.get(number, 0) + 1
        responses += bool(served.written)
        if answer != (number, served.written, b""):
            wrong += 1
            print(f"seed {seed}: {data} in pieces of {sizes}", f"wanted {number} {served.written}", f"given {answer}", sep="\n")
    told = ", ".join("%d times %d" % (numbers[number], number) for number in sorted(numbers))
    print(f"{len(cases)} inputs, {responses} of them answered with a response; answers: {told}; {wrong} differ")
    sys.exit(1 if wrong or not cases else 0)


if __name__ == "__main__":
    main()
