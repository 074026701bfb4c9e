#!/usr/bin/env python3
"""Compares `xds check` with a reading of the rules of traces in Python, over traces of random scripts and edits of them.

    python3 bench/oracle/trace.py PROGRAM [FIRST LAST]
    python3 bench/oracle/trace.py PROGRAM --time [LINES]

Each seed from FIRST (0) up to LAST (1000) makes a script, as bench/oracle/play.py does; `xds play --trace` makes of it the trace of
each replica, which must be found to be well. Then ten edits of these traces are made, of whole lines, of words and of what
the messages say, and the program's verdict on each must be that of this reading. What differs is printed, with its seed, and
the status is then 1. With `-` in place of PROGRAM, a trace is read from the standard input, and its verdict is printed.

With --time, the program checks a trace of so many lines (100,000), whose resources have 600 bytes. Beside it, it reads a trace
of as many requests of a type that is no type, each of which holds one line's JSON in a field that it doesn't know: so the same
JSON is read, and nothing else is done. It also tells the time up to a bad last line, before which all lines are read and none is
judged, and that of traces of half as many and of so many lines in which clusters come and go, so that few live of all that ever
stood. The status is 1 where the first takes more than twice as long as the JSON alone, or where twice the lines take more than
three times as long.
"""
import json
import random
import re
import subprocess
import sys
import time

from play import TYPES, NotJson, compact, depth, groups_of, is_whole, read_json, some_script

URLS = {row[0]: word for word, row in TYPES.items()}
LARGEST = 9223372036854775807


class Bad(Exception):
    """What is read says nothing."""


def value_of(text):
    """The JSON value of some bytes."""
    try:
        return read_json(text)
    except NotJson:
        raise Bad from None


def need(condition):
    if not condition:
        raise Bad


def member(value, *names):
    """The member of an object under the first of these names that it has, or none."""
    need(isinstance(value, dict))
    return next((value[name] for name in names if name in value), None)


def text_in(value, *names):
    found = member(value, *names)
    need(found is None or isinstance(found, str))
    return found or ""


def texts_in(value, *names):
    found = member(value, *names)
    need(found is None or isinstance(found, list) and all(isinstance(item, str) for item in found))
    return found or []


def objects_in(value, *names):
    found = member(value, *names)
    need(found is None or isinstance(found, list) and all(isinstance(item, dict) for item in found))
    return found or []


def resource_of(value, url):
    """The name and the body of a JSON value that is a resource of this type."""
    need(isinstance(value, dict) and is_whole(value) and depth(value) <= 100 and value.get("@type") == url)
    body = compact(value).encode()
    need(len(body) <= 1048576)
    row = TYPES[URLS[url]]
    name = next((value[field] for field in row[1:3] if field in value), None)
    name = "" if name is None else name
    need(isinstance(name, str) and 1 <= len(name.encode()) <= 1024 and name != "*")
    return name, body


class Write:
    """A stamped write: the type, the name, and what orders the writes of a name."""

    def __init__(self, value):
        need(isinstance(value, dict))
        url, name, counter, writer = (value.get(key) for key in ("typeUrl", "name", "counter", "writer"))
        need(isinstance(url, str) and url in URLS and isinstance(name, str))
        need(1 <= len(name.encode()) <= 1024 and name != "*")
        need(type(counter) is int and 1 <= counter <= LARGEST and type(writer) is int and 1 <= writer <= 65535)
        body, groups = value.get("body"), value.get("groups")
        self.groups = groups_of([] if groups is None else groups)
        need(self.groups is not None and not (body is None and self.groups))
        self.body = None
        if body is not None:
            told, self.body = resource_of(body, url)
            need(told == name)
        self.kind, self.name, self.version = URLS[url], name, "%d-%d" % (counter, writer)
        self.rank = (counter, writer, self.body is not None, self.body or b"", self.groups)


def error_in(value):
    error = member(value, "errorDetail", "error_detail")
    if error is None:
        return False
    code = member(error, "code")
    text_in(error, "message")
    if isinstance(code, str):
        need(re.fullmatch("-?[0-9]+", code, re.A))
        code = int(re.sub("^(-?)0*(?=[0-9])", r"\1", code)[:20])
    need(code is None or type(code) is int and -(1 << 31) <= code < 1 << 31)
    return True


# rule: groups
def cluster_in(value):
    node = member(value, "node")
    if node is None:
        return ""
    text_in(node, "id")
    return text_in(node, "cluster")


class Request:
    def __init__(self, kind, value):
        need(isinstance(value, dict))
        self.url = text_in(value, "typeUrl", "type_url")
        self.nonce = text_in(value, "responseNonce", "response_nonce")
        self.cluster, self.has_error = cluster_in(value), error_in(value)
        self.subscribe = self.unsubscribe = ()
        self.names, self.initial = [], {}
        if kind == 1:
            text_in(value, "versionInfo", "version_info")
            self.names = texts_in(value, "resourceNames", "resource_names")
        else:
            self.subscribe = texts_in(value, "resourceNamesSubscribe", "resource_names_subscribe")
            self.unsubscribe = texts_in(value, "resourceNamesUnsubscribe", "resource_names_unsubscribe")
            initial = member(value, "initialResourceVersions", "initial_resource_versions")
            need(initial is None or isinstance(initial, dict) and all(isinstance(it, str) for it in initial.values()))
            self.initial = initial or {}


class Response:
    def __init__(self, kind, value):
        need(isinstance(value, dict))
        self.url, self.nonce = text_in(value, "typeUrl", "type_url"), text_in(value, "nonce")
        need(self.url in URLS)
        self.removed, told = [], objects_in(value, "resources")
        if kind == 2:
            text_in(value, "versionInfo", "version_info")
            self.resources = [(*resource_of(item, self.url), None, None) for item in told]
        else:
            text_in(value, "systemVersionInfo", "system_version_info")
            self.removed = texts_in(value, "removedResources", "removed_resources")
            self.resources = []
            for item in told:
                name, version = text_in(item, "name"), text_in(item, "version")
                self.resources.append((*resource_of(member(item, "resource"), self.url), name, version))


def stream_of(word):
    need(re.fullmatch(rb"[1-9][0-9]{0,18}", word) and int(word) <= LARGEST)
    return int(word)


def line_of(line):
    """A line as its word and what it says."""
    word, _, rest = line.partition(b" ")
    if word == b"write":
        return "write", Write(value_of(rest))
    if word in (b"open", b"close"):
        return word.decode(), stream_of(rest)
    stream, space, rest = rest.partition(b" ")
    need(space)
    if word == b"idle":
        need(rest.decode("ascii", "replace") in TYPES)
        return "idle", stream_of(stream), rest.decode()
    kind, space, rest = rest.partition(b" ")
    need(space and (word, kind) in {(b"request", b"1"), (b"request", b"3"), (b"response", b"2"), (b"response", b"4")})
    message = Request if word == b"request" else Response
    return word.decode(), stream_of(stream), int(kind), message(int(kind), value_of(rest))


def read(trace):
    """The lines of a trace, or the number of the first bad one."""
    lines = trace.split(b"\n")
    last = lines.pop()
    found, streams, variants = [], {}, {}
    for number, line in enumerate(lines, 1):
        try:
            said = line_of(line)
            if said[0] == "open":
                need(said[1] not in streams)
                streams[said[1]] = True
            elif said[0] != "write":
                need(streams.get(said[1]))
            if said[0] == "close":
                streams[said[1]] = False
            if said[0] in ("request", "response"):
                is_delta = said[2] >= 3
                need(variants.setdefault(said[1], is_delta) == is_delta)
        except Bad:
            return None, number
        found.append(said)
    return (None, len(lines) + 1) if last else (found, None)


class Talk:
    """What the lines so far say of one type on one stream."""

    def __init__(self, kind, is_delta):
        self.complete, self.is_delta = TYPES[kind][3], is_delta
        self.taken, self.sent, self.pending = [], [], set()

    # rule: listed-names, rule: delta-names
    def explicit(self):
        """The names that the taken requests want by their names, and whether they want all."""
        if not self.taken:
            return set(), False
        names, star = set(), False
        if self.is_delta:
            for request in self.taken:
                names = (names | set(request.unsubscribe)) - set(request.unsubscribe) | set(request.subscribe)
            mentioned = any("*" in [*it.subscribe, *it.unsubscribe] for it in self.taken)
            star = "*" in names or not mentioned and not self.taken[0].subscribe
        else:
            named = any(it.names for it in self.taken)
            names = set(self.taken[-1].names)
            star = "*" in names or not named
        return (names - {"*"}, star) if self.complete else (names, False)

    # rule: star-covers, rule: groups, rule: covered-only
    def covers(self, name, write, cluster):
        names, star = self.explicit()
        return name in names or star and (not write.groups or cluster.encode() in write.groups)

    # rule: one-unanswered
    def open(self):
        return [it for it in self.sent if it["state"] == "open"]

    # rule: stale-nonce
    def is_ignored(self, request):
        return bool(self.taken) and request.nonce != "" and not self.open() and not (self.sent and self.sent[-1]["nonce"] == request.nonce)

    # rule: accept-reject, rule: awaited-names
    def take(self, request):
        if self.is_ignored(request):
            return
        is_first = not self.taken
        if not is_first:
            for response in self.open():
                if response["nonce"] == request.nonce:
                    response["state"] = "refused" if request.has_error else "accepted"
        before, _ = self.explicit()
        self.taken.append(request)
        if self.is_delta:
            subscribed = set(request.subscribe) - ({"*"} if self.complete else set())
            self.pending -= set(request.unsubscribe) - set(request.subscribe)
            self.pending |= subscribed - (set(request.initial) if is_first else set())
        else:
            listed = set(request.names) - ({"*"} if self.complete else set())
            self.pending = self.pending & listed | listed - before

    # rule: refused-offer
    def refused_offer(self):
        for response in reversed(self.sent):
            if response["state"] == "accepted":
                return None
            if response["state"] == "refused":
                return response["offer"]
        return None


# rule: greatest-write, rule: tombstones, rule: awaited-names, rule: whole-response
# rule: covered-only, rule: no-live-removal, rule: best-writes, rule: one-unanswered
# rule: refused-offer, rule: new-nonce
def verdict(lines):
    """The first line at which a rule is broken, with the least such rule, or none."""
    best = {word: {} for word in TYPES}
    talks, clusters, used = {}, {}, {}

    def live(kind, name):
        write = best[kind].get(name)
        return write if write and write.body is not None else None

    for number, (word, *said) in enumerate(lines, 1):
        if word == "write":
            write = said[0]
            held = best[write.kind].get(write.name)
            if held is None or write.rank > held.rank:
                best[write.kind][write.name] = write
        elif word == "request":
            stream, number_of_kind, request = said
            clusters.setdefault(stream, request.cluster)
            if request.url in URLS:
                kind = URLS[request.url]
                talks.setdefault((stream, kind), Talk(kind, number_of_kind == 3)).take(request)
        elif word == "response":
            stream, number_of_kind, response = said
            kind = URLS[response.url]
            talk = talks.setdefault((stream, kind), Talk(kind, number_of_kind == 4))
            cluster = clusters.get(stream, "")
            names = [name for name, *_ in response.resources]
            offer = {(name, best[kind][name].version if name in best[kind] else None) for name in names}
            offer |= {(name, "removed", True) for name in response.removed}
            if response.nonce == "" or response.nonce in used.setdefault(stream, set()):
                return number, 1
            for name, body, told, version in response.resources:
                write = live(kind, name)
                if not write or write.body != body or talk.is_delta and (told != name or version != write.version):
                    return number, 2
            if not all(talk.covers(name, best[kind][name], cluster) for name in names):
                return number, 3
            wanted = {name for name in best[kind] if live(kind, name) and talk.covers(name, best[kind][name], cluster)}
            if not talk.is_delta and talk.complete and not wanted <= set(names):
                return number, 4
            if wanted & set(response.removed):
                return number, 5
            if talk.open():
                return number, 6
            if talk.refused_offer() == offer:
                return number, 7
            used[stream].add(response.nonce)
            talk.sent.append({"nonce": response.nonce, "offer": offer, "state": "open"})
            talk.pending -= {*names, *response.removed}
        elif word == "idle":
            stream, kind = said
            talk = talks.get((stream, kind))
            if talk and any(talk.is_delta or live(kind, name) for name in talk.pending):
                return number, 8
    return None


def told(trace):
    """What `xds check` says of a trace: its output, the error line and the status."""
    lines, bad = read(trace)
    if bad:
        return b"", b"line %d: 22 BadTrace\n" % bad, 1
    broken = verdict(lines)
    return (b"broken %d P%d\n" % broken, b"", 1) if broken else (b"ok\n", b"", 0)


def edited(pick, lines):
    """The lines with a change of one: gone, doubled, moved, or with other words."""
    lines = list(lines)
    at = pick.randrange(len(lines))
    way = pick.randrange(9)
    if way == 0:
        del lines[at]
    elif way == 1:
        lines.insert(pick.randrange(len(lines) + 1), lines[at])
    elif way == 2:
        lines.insert(pick.randrange(len(lines)), lines.pop(at))
    elif way == 3:
        streams = [it.split(b" ")[1] for it in lines if it.startswith(b"open ")] or [b"1"]
        lines.insert(at + 1, b"idle %s %s" % (pick.choice(streams), pick.choice(list(TYPES)).encode()))
    elif way == 4:
        lines[at] = lines[at].replace(b'"responseNonce":', b'"errorDetail":{},"responseNonce":', 1)
    elif way == 5:
        lines[at] = re.sub(rb'"(a|b|c|d)"', lambda it: b'"%s"' % pick.choice([b"a", b"b", b"c", b"*"]), lines[at], count=1)
    elif way == 6:
        lines[at] = re.sub(rb"[1-9]", lambda it: b"%d" % pick.randrange(1, 4), lines[at], count=pick.randrange(1, 4))
    elif way == 7:
        numbers = [it for it in range(len(lines)) if lines[it].startswith(b"response ")]
        if numbers:
            at = pick.choice(numbers)
            head, _, text = lines[at].partition(b"{")
            try:
                message = json.loads((b"{" + text).decode("utf-8", "replace"))
            except ValueError:
                # (an edit before this one spoiled the line)
                return None
            if not isinstance(message, dict):
                return None
            key = pick.choice([it for it in ("resources", "removedResources") if it in message] or ["nonce"])
            if not isinstance(message.get(key), (list, str)):
                return None
            message[key] = message[key][1:]
            lines[at] = head + compact(message).encode()
    else:
        cut = pick.randrange(len(lines[at]) + 1)
        lines[at] = lines[at][:cut] + pick.choice([b"", b" ", b"\xff", b"}", b"0", b"x"]) + lines[at][cut + pick.randrange(2) :]
    return lines


def agrees(program, seed, trace):
    run = subprocess.run([program, "check"], input=trace, capture_output=True)
    given, wanted = (run.stdout, run.stderr, run.returncode), told(trace)
    if given != wanted:
        print("seed", seed, trace.decode("utf-8", "backslashreplace"), "wanted", wanted, "given", given, sep="\n")
    return given == wanted, wanted


def one(program, seed):
    """Whether all verdicts of a seed agree, and the verdicts."""
    pick = random.Random(seed)
    script = some_script(pick)
    well, verdicts = True, []
    for replica in (1, 2, 3):
        run = subprocess.run([program, "play", "--trace", str(replica)], input=script, capture_output=True)
        if run.returncode or not run.stdout:
            continue
        same, wanted = agrees(program, seed, run.stdout)
        if wanted[0] != b"ok\n":
            print("seed", seed, "the trace of a replica is not well:", wanted, run.stdout.decode(), sep="\n")
        well = well and same and wanted[0] == b"ok\n"
        lines = run.stdout.split(b"\n")[:-1]
        for _ in range(10):
            changed = lines
            for _ in range(pick.choice([1, 1, 1, 2, 3])):
                changed = edited(pick, changed) or lines
            same, wanted = agrees(program, seed, b"".join(line + b"\n" for line in changed))
            well, verdicts = well and same, [*verdicts, wanted[0].split()[-1] if wanted[0] else b"bad"]
    return well, verdicts


def padded(url, field, name):
    """A resource whose body has 600 bytes."""
    resource = {"@type": url, field: name, "x": ""}
    return {**resource, "x": "x" * (600 - len(compact(resource)))}


def long_trace(count):
    """A trace of so many lines that breaks no rule: on a delta stream and on one of the state of the world, a write, the response
    that tells it, and the answer, over and over."""
    urls = {word: url for url, word in URLS.items()}
    clusters, endpoints = urls["cluster"], urls["endpoint"]
    field = TYPES["endpoint"][1]
    lines = ["open 1", "open 2", "request 1 3 " + compact({"resourceNamesSubscribe": ["*"], "typeUrl": clusters})]
    lines.append("request 2 1 " + compact({"resourceNames": ["e0"], "typeUrl": endpoints}))
    for turn in range(count):
        nonce, name = str(turn + 1), "c%d" % turn
        resource = padded(clusters, "name", name)
        lines.append("write " + compact({"body": resource, "counter": turn + 1, "name": name, "typeUrl": clusters, "writer": 1}))
        stated = [{"name": name, "resource": resource, "version": "%d-1" % (turn + 1)}]
        lines.append("response 1 4 " + compact({"nonce": nonce, "resources": stated, "typeUrl": clusters}))
        lines.append("request 1 3 " + compact({"responseNonce": nonce, "typeUrl": clusters}))
        name = "e%d" % turn
        resource = padded(endpoints, field, name)
        lines.append("write " + compact({"body": resource, "counter": turn + 1, "name": name, "typeUrl": endpoints, "writer": 1}))
        lines.append("response 2 2 " + compact({"nonce": nonce, "resources": [resource], "typeUrl": endpoints}))
        lines.append("request 2 1 " + compact({"resourceNames": ["e%d" % (turn + 1)], "responseNonce": nonce, "typeUrl": endpoints}))
        lines.append("idle 2 endpoint")
        if len(lines) >= count:
            return lines[:count]
    return lines


def passing_trace(count):
    """One of clusters that come and go: a stream of the state of the world is told each, and that it is gone, so that one lives at
    most, whatever stood before."""
    clusters = {word: url for url, word in URLS.items()}["cluster"]
    lines = ["open 1", "request 1 1 " + compact({"resourceNames": ["*"], "typeUrl": clusters})]
    counter = 0
    while len(lines) < count:
        name = "c%d" % counter
        resource = {"@type": clusters, "name": name}
        for body in ({"body": resource}, {}):
            counter += 1
            lines.append("write " + compact({**body, "counter": counter, "name": name, "typeUrl": clusters, "writer": 1}))
            stated = {"resources": [resource]} if body else {}
            lines.append("response 1 2 " + compact({"nonce": str(counter), **stated, "typeUrl": clusters}))
            lines.append("request 1 1 " + compact({"resourceNames": ["*"], "responseNonce": str(counter), "typeUrl": clusters}))
    return lines[:count]


def unread(lines):
    """As many requests of a type that is no type, each with one line's JSON."""
    told = [line.split("{", 1) for line in lines]
    return ["open 1", *('request 1 1 {"typeUrl":"x","y":%s}' % ("{" + it[1] if len(it) > 1 else "{}") for it in told[1:])]


def seconds(program, lines, wanted):
    """The least time that three checks of a trace take."""
    trace, times = "".join(line + "\n" for line in lines).encode(), []
    for _ in range(3):
        start = time.perf_counter()
        run = subprocess.run([program, "check"], input=trace, capture_output=True)
        times.append(time.perf_counter() - start)
        if run.stdout + run.stderr != wanted:
            sys.exit(f"the program says {run.stdout + run.stderr} in place of {wanted}")
    return min(times)


def timed(program, count):
    lines = long_trace(count)
    checked = seconds(program, lines, b"ok\n")
    alone = seconds(program, unread(lines), b"ok\n")
    read_all = seconds(program, [*lines, "x"], b"line %d: 22 BadTrace\n" % (count + 1))
    size = sum(len(line) + 1 for line in lines)
    print(f"{count} lines, {size / 1e6:.1f} MB: checked in {checked:.2f} s; their JSON read in {alone:.2f} s, {checked / alone:.2f} times less")
    print(f"read up to a bad last line in {read_all:.2f} s")
    half, whole = (seconds(program, passing_trace(it), b"ok\n") for it in (count // 2, count))
    print(f"clusters that come and go: {count // 2} lines in {half:.2f} s, {count} in {whole:.2f} s")
    return checked <= 2 * alone and whole <= 3 * half


def main():
    if sys.argv[1] == "-":
        output, errors, status = told(sys.stdin.buffer.read())
        sys.stdout.buffer.write(output)
        sys.stderr.buffer.write(errors)
        sys.exit(status)
    if sys.argv[2:3] == ["--time"]:
        sys.exit(0 if timed(sys.argv[1], int((sys.argv[3:4] or [100000])[0])) else 1)
    first, last = map(int, sys.argv[2:4] or (0, 1000))
    wrong, counts = 0, {}
    for seed in range(first, last):
        well, verdicts = one(sys.argv[1], seed)
        wrong += not well
        for it in verdicts:
            counts[it] = counts.get(it, 0) + 1
    print(f"{last - first} seeds, {wrong} differ; verdicts:", ", ".join(f"{it.decode()} {counts[it]}" for it in sorted(counts)))
    sys.exit(1 if wrong else 0)


if __name__ == "__main__":
    main()
