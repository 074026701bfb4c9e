"""Clients that stay: they connect, ask, answer, and come back by themselves wherever they lose their server, with what they hold; and
what all of them together know, by which each response is judged."""
import http.client
import json
import random
import socket
import threading
import time
import os
import sys

sys.path.insert(0, os.path.abspath(f"{__file__}/../../oracle"))
from play import TYPES
from restart_server import PATHS, Write, compact, stamp_of, version_of

URLS = {kind: url for kind, (url, *_) in TYPES.items()}


class Known:
    """What is known of a store over all its runs: what it held when the present run began, which changes were sent in this run, which
    were answered, and what every version stands for. Whoever reads or changes it holds its lock."""

    def __init__(self):
        self.lock = threading.RLock()
        self.run, self.faults, self.count = 0, [], 0
        # How many changes were answered in time, and how many weren't.
        self.in_time, self.late_count = 0, 0
        self.stored, self.sent, self.answered = {}, {}, {}
        self.bodies, self.contents, self.seen, self.numbers = {}, {}, {}, {}

    def fault(self, text):
        if len(self.faults) < 50:
            self.faults.append(f"run {self.run}: {text}")

    def begin(self, stored):
        """A run begins, over a store that holds these writes."""
        with self.lock:
            self.run += 1
            self.stored, self.sent, self.seen = stored, {}, {}
            for (kind, name), write in stored.items():
                self.version(kind, name, write.stamp, write.body)

    def next(self):
        with self.lock:
            self.count += 1
            return self.count

    def sends(self, kind, name, body, groups):
        self.sent.setdefault((kind, name), []).append(Write(None, body, tuple(sorted(groups))))

    def version(self, kind, name, stamp, body):
        """That a stamp of a name stands for a body, in whatever run."""
        if self.bodies.setdefault((kind, name, stamp), body) != body:
            self.fault(f"{version_of(stamp)} of {kind} {name} stands for {self.bodies[kind, name, stamp]!r} and {body!r}")
        self.seen[kind, name] = max(self.seen.get((kind, name), (0, 0)), stamp)

    def answers(self, kind, name, write):
        self.version(kind, name, write.stamp, write.body)
        former = self.answered.get((kind, name))
        if former is None or former.stamp < write.stamp:
            self.answered[kind, name] = write

    def content(self, key, told):
        """That a version of all of a type stands for what was told with it, in whatever run."""
        if self.contents.setdefault(key, told) != told:
            self.fault(f"version {key} stands for two contents: {difference(self.contents[key], told)}")

    def told(self, who, kind, name, body):
        """That a client of the present run is told a body: it was stored, or was sent in this run."""
        former = self.stored.get((kind, name))
        if former is not None and former.body == body or any(it.body == body for it in self.sent.get((kind, name), ())):
            return
        self.fault(f"{who} is told {body!r}, and the store held {former!r}")

    def lacks(self, client, name):
        """That a client of the present run is told that there is no such name: that was so, or a change of this run made it so."""
        former = self.stored.get((client.kind, name))
        if former is None or not client.sees(name, former):
            return
        if all(client.sees(name, it) for it in self.sent.get((client.kind, name), ())):
            self.fault(f"{client.who} is told a part of the world: without {name}, of which the store holds {former!r}")

    def whole(self, client, told):
        """That what a client is told is all that it is to see."""
        for kind, name in self.stored:
            if kind == client.kind and name not in told:
                self.lacks(client, name)

    def ends(self, stored, is_clean):
        """That nothing which was answered is gone once a run ended, that nothing of before is, and of a run that was stopped nothing
        that anybody saw."""
        with self.lock:
            least = {key: write.stamp for key, write in self.stored.items()}
            for key, write in self.answered.items():
                least[key] = max(least.get(key, (0, 0)), write.stamp)
            for key, stamp in self.seen.items() if is_clean else ():
                least[key] = max(least.get(key, (0, 0)), stamp)
            for key, stamp in least.items():
                if key not in stored or stored[key].stamp < stamp:
                    self.fault(f"{key} had the write {version_of(stamp)}, and the store holds {stored.get(key)!r}")
            for (kind, name), write in stored.items():
                known = [self.stored.get((kind, name)), *self.sent.get((kind, name), ())]
                if not any(it and (it.body, it.groups) == (write.body, write.groups) for it in known):
                    self.fault(f"the store holds {kind} {name} as nobody put it: {write!r}")
                self.version(kind, name, write.stamp, write.body)

    def has_number(self, number, run):
        if self.numbers.setdefault(number, run) != run:
            self.fault(f"replica number {number} comes twice: in run {self.numbers[number]}, too")


def difference(one, other):
    return sorted(set(one) ^ set(other))[:4]


class Client(threading.Thread):
    """A client of a type: of all of it, or of some names. It moves between replicas as it comes back."""

    def __init__(self, known, ports, kind, names, cluster, seed):
        super().__init__(daemon=True)
        self.known, self.ports, self.kind, self.names, self.cluster = known, ports, kind, names, cluster
        self.pick, self.held, self.version, self.run_of, self.is_over, self.told, self.turns = random.Random(seed), {}, "", 0, False, 0, 0
        self.who = f"{type(self).__name__} of {kind}{'' if names is None else ' by name'}{cluster and ' in ' + cluster}"

    def port_of(self, place):
        return self.ports.stream(place)

    def node(self):
        return {"id": self.who, **({"cluster": self.cluster} if self.cluster else {})}

    def run(self):
        while not self.is_over:
            self.turns += 1
            run = self.known.run
            try:
                link = socket.create_connection(("127.0.0.1", self.port_of(self.pick.randint(1, self.ports.replicas))), timeout=5)
            except OSError:
                time.sleep(0.005)
                continue
            with link:
                link.setsockopt(socket.SOL_SOCKET, socket.SO_RCVBUF, 1 << 20)
                # (a server of the next run isn't begun before the number of runs rises)
                if run == self.known.run:
                    try:
                        self.stay(link, run)
                    except (OSError, EOFError, http.client.HTTPException):
                        pass
            self.run_of = -run

    def shows(self):
        """Each name that it shows, with its body; or nothing where it hasn't been connected in this run."""
        with self.known.lock:
            return dict(self.held) if self.run_of == self.known.run else None

    def sees(self, name, write):
        """Whether it is to see a write of its type."""
        if self.names is not None:
            return name in self.names and write.body is not None
        return write.body is not None and (not write.groups or self.cluster in write.groups)

    def wanted(self, stored):
        """What it is to show of these writes."""
        return {name: it.body for (kind, name), it in stored.items() if kind == self.kind and self.sees(name, it)}

    def shows_all(self, stored):
        """Whether it shows what it is to. Of types that aren't complete the state of the world has no word to remove."""
        shown, wanted = self.shows(), self.wanted(stored)
        if shown is None:
            return False
        if self.keeps():
            shown = {name: body for name, body in shown.items() if name in wanted}
        return shown == wanted

    def keeps(self):
        return False

    def name_of(self, resource):
        return resource.get(TYPES[self.kind][1])


class Stream(Client):
    def send(self, link, kind, message):
        text = json.dumps({"typeUrl": URLS[self.kind], **message}).encode()
        link.sendall((len(text) + 1).to_bytes(4, "big") + bytes([kind]) + text)

    def take(self, link):
        head = self.exactly(link, 5)
        return json.loads(self.exactly(link, int.from_bytes(head[:4], "big") - 1))

    def exactly(self, link, count):
        got = bytearray()
        while len(got) < count:
            try:
                piece = link.recv(min(count - len(got), 1 << 20))
            except TimeoutError:
                if self.is_over:
                    raise
                continue
            if not piece:
                raise EOFError
            got += piece
        return bytes(got)


class Delta(Stream):
    """One that comes back with the versions that it holds."""

    def __init__(self, *words):
        super().__init__(*words)
        self.versions = {}

    def stay(self, link, run):
        names = ["*"] if self.names is None else sorted(self.names)
        self.send(link, 3, {"node": self.node(), "resourceNamesSubscribe": names, "initialResourceVersions": dict(self.versions)})
        self.run_of = run
        while True:
            response = self.take(link)
            with self.known.lock:
                self.taken(response)
            self.send(link, 3, {"responseNonce": response["nonce"]})

    def taken(self, response):
        for item in response.get("resources", []):
            name, body = item["name"], compact(item["resource"])
            self.known.version(self.kind, name, stamp_of(item["version"]), body)
            self.known.told(self.who, self.kind, name, body)
            self.held[name], self.versions[name] = body, item["version"]
        for name in response.get("removedResources", []):
            self.known.lacks(self, name)
            self.held.pop(name, None)
            self.versions.pop(name, None)
        self.told += 1


class Sotw(Stream):
    """One of the state of the world, that comes back with its version."""

    def stay(self, link, run):
        names = {} if self.names is None else {"resourceNames": sorted(self.names)}
        asks = {"node": self.node(), **names, **({"versionInfo": self.version} if self.version else {})}
        self.send(link, 1, asks)
        self.run_of = run
        while True:
            response = self.take(link)
            with self.known.lock:
                self.taken(response)
            self.send(link, 1, {**names, "versionInfo": self.version, "responseNonce": response["nonce"]})

    def taken(self, response):
        told = {self.name_of(it): compact(it) for it in response.get("resources", [])}
        for name, body in told.items():
            self.known.told(self.who, self.kind, name, body)
        self.version = response["versionInfo"]
        if self.names is None:
            self.known.whole(self, told)
            self.known.content((self.kind, self.version), tuple(sorted(told.values())))
            self.held = told
        else:
            self.held.update(told)
        self.told += 1

    def keeps(self):
        return not TYPES[self.kind][3]


class Rest(Client):
    """One that polls, each time with the version of its last reply."""

    def port_of(self, place):
        return self.ports.rest(place)

    def stay(self, link, run):
        asks = http.client.HTTPConnection("127.0.0.1", 0, timeout=10)
        asks.sock = link
        while not self.is_over:
            message = {"node": self.node(), "versionInfo": self.version, "resourceNames": sorted(self.names or ())}
            asks.request("POST", PATHS[self.kind], json.dumps(message))
            reply = asks.getresponse()
            text = reply.read()
            if reply.status not in (200, 304):
                raise EOFError
            with self.known.lock:
                if reply.status == 200:
                    self.taken(json.loads(text))
                elif self.names is None:
                    self.known.content((self.kind, self.version), tuple(sorted(self.held.values())))
                self.run_of = run
            time.sleep(0.03)

    def taken(self, response):
        told = {self.name_of(it): compact(it) for it in response.get("resources", [])}
        for name, body in told.items():
            self.known.told(self.who, self.kind, name, body)
        self.version = response["versionInfo"]
        self.known.whole(self, told)
        if self.names is None:
            self.known.content((self.kind, self.version), tuple(sorted(told.values())))
        self.held = told
        self.told += 1
