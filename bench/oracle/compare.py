#!/usr/bin/env python3
"""Compares `xds answer` with a reading of the rules in Python, over random inputs.

    python3 bench/oracle/compare.py PROGRAM [FIRST LAST]

Each seed from FIRST (0) up to LAST (2000) makes an input of stamped writes, some of them bad, and a request. What
differs is printed, with its seed, and the status is then 1.
"""
import json
import random
import subprocess
import sys

from play import PREFIX, TYPES, Catalogue, compact, first_answer, groups_of

NAMES = ["a", "b", "c", "\u00e9", "a b", "B", "zz", "0"]
CLUSTERS = ["g1", "g2", "\u00e9", ""]


def some_value(pick, depth=0):
    kind = pick.randrange(8 if depth < 3 else 5)
    if kind == 0:
        return pick.choice([None, True, False])
    if kind == 1:
        return pick.choice([0, -1, 7, 2**63 - 1, -(2**63), 2**64 - 1, pick.randrange(1000)])
    if kind == 2:
        return pick.choice(["", "a", "\u00e9", "\u0001", '"q\\', "\U0001f600", "/", "\n\t"])
    if kind in (3, 4):
        return "x%d" % pick.randrange(5)
    if kind == 5:
        return [some_value(pick, depth + 1) for _ in range(pick.randrange(3))]
    return {pick.choice(["a", "b", "Z", "\u00e9", "z_1", ""]): some_value(pick, depth + 1) for _ in range(pick.randrange(3))}


def some_write(pick):
    """The word of a type, a write of it, and whether the write is good."""
    word = pick.choice(["cluster", "cluster", "endpoint", "listener", "route", "secret"])
    url, field, other, _ = TYPES[word]
    name = pick.choice(NAMES)
    write = {"typeUrl": url, "name": name, "counter": pick.randrange(1, 6), "writer": pick.choice([1, 2, 3, 65535])}
    good = True
    if pick.random() < 0.8:
        body = {pick.choice(["x", "y", "Z", "\u00e9"]): some_value(pick) for _ in range(pick.randrange(3))}
        body["@type"] = url
        body[pick.choice([field, other])] = name
        write["body"] = body
        fault = pick.random()
        if fault < 0.01:
            body["f"], good = 1.5, False
        elif fault < 0.02:
            body["@type"], good = PREFIX + "config.x", False
        elif fault < 0.03:
            write["name"], good = "other", False
    elif pick.random() < 0.3:
        write["body"] = None
    if pick.random() < 0.5:
        write["groups"] = some_groups(pick)
        groups = groups_of([] if write["groups"] is None else write["groups"])
        good = good and groups is not None and (write.get("body") is not None or not groups)
    fault = pick.random()
    for key, value in [("counter", 0), ("writer", 65536), ("name", "*"), ("typeUrl", PREFIX + "q"), ("counter", "1")]:
        fault -= 0.01
        if fault < 0:
            write[key] = value
            return word, write, False
    if fault < 0.05:
        write["extra"] = [1.5, {"a": None}]
    return word, write, good


def some_groups(pick):
    """Groups as a write lists them, now and then no list of groups."""
    if pick.random() < 0.03:
        return pick.choice(["g1", {}, ["g1", 1], [""], ["g1", None], ["x" * 1025], ["g%d" % at for at in range(65)]])
    if pick.random() < 0.05:
        return pick.choice([None, ["x" * 1024], ["g%d" % (at % 64) for at in range(200)]])
    return [pick.choice(["g1", "g2", "\u00e9", "g10", "z"]) for _ in range(pick.randrange(4))]


def some_request(pick):
    """The request, and the word of its type, or none outside the table, or an empty text where it names no type."""
    request = {}
    word = pick.choice(list(TYPES))
    kind = pick.random()
    if kind < 0.9:
        request[pick.choice(["typeUrl", "type_url"])] = TYPES[word][0]
    elif kind < 0.95:
        request["typeUrl"], word = PREFIX + "unknown", None
    else:
        word = ""
    if pick.random() < 0.7:
        names = [pick.choice(NAMES + ["*", "missing"]) for _ in range(pick.randrange(4))]
        request[pick.choice(["resourceNames", "resource_names"])] = names
    if pick.random() < 0.6:
        request["node"] = {"id": "n", "x": 1.25}
        if pick.random() < 0.8:
            request["node"]["cluster"] = pick.choice(CLUSTERS)
    return request, word


def spelled(pick, value):
    items = list(value.items())
    pick.shuffle(items)
    return json.dumps(dict(items), ensure_ascii=pick.random() < 0.5, separators=pick.choice([(",", ":"), (", ", ": ")]))


def one(program, seed):
    pick = random.Random(seed)
    replica = pick.choice([1, 7, 65535])
    held = {word: Catalogue() for word in TYPES}
    lines, fault = [], None
    for number in range(1, pick.randrange(1, 15)):
        if pick.random() < 0.01:
            lines.append(pick.choice(["", "{", "nope", '{"a":1,}']))
            fault = fault or (number, "1 NotJson")
            continue
        word, write, good = some_write(pick)
        lines.append(spelled(pick, write))
        if not good:
            fault = fault or (number, "7 BadMessage")
            continue
        body = write.get("body")
        text = None if body is None else compact(body)
        held[word].join(write["name"], (write["counter"], write["writer"], text, groups_of(write.get("groups") or [])))
    request, word = some_request(pick)
    lines.append(spelled(pick, request))
    if word == "":
        fault = fault or (len(lines), "7 BadMessage")
    text = "\n".join(lines) + pick.choice(["", "\n"])
    if fault:
        wanted = (1, b"", b"line %d: %s\n" % (fault[0], fault[1].encode()))
    elif word is None:
        wanted = (0, b"", b"")
    else:
        names = request.get("resourceNames", request.get("resource_names", []))
        cluster = request.get("node", {}).get("cluster", "")
        wanted = (0, first_answer(replica, held[word], word, names, cluster), b"")
    run = subprocess.run([program, "answer", "--replica", str(replica)], input=text.encode(), capture_output=True)
    given = (run.returncode, run.stdout, run.stderr)
    if given != wanted:
        print("seed", seed, text, "wanted", wanted, "given", given, sep="\n")
    return given == wanted, bool(wanted[1])


def main():
    if len(sys.argv) not in (2, 4):
        sys.exit(__doc__)
    first, last = (int(word) for word in sys.argv[2:]) if len(sys.argv) == 4 else (0, 2000)
    results = [one(sys.argv[1], seed) for seed in range(first, last)]
    wrong = sum(not same for same, _ in results)
    print("%d inputs, %d of them answered with a response; %d differ" % (len(results), sum(some for _, some in results), wrong))
    sys.exit(1 if wrong or not results else 0)


if __name__ == "__main__":
    main()
