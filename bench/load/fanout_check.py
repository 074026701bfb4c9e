"""What bench/load/fanout.py --check does: both servers do the same work, as far as the plain one does it.

A story of random puts, deletions, requests, refusals and new streams, of both variants, is played at a server, and
each response must be, byte by byte, that of the reading of the protocol in bench/oracle/play.py. There are stories of
two forms: four streams ask for the star or a few names of all types, or twelve name up to twenty of forty endpoints
each, and now and then clusters, so that most changes concern some of them alone. So that it is known which response comes when, each event is waited for: a put or a deletion is
followed by a put of the secret `probe`, which one more stream is told of, and a request that is owed nothing by one
for that secret."""
import json
import random
import socket
import subprocess
import os
import sys
from typing import NamedTuple

sys.path.insert(0, os.path.abspath(f"{__file__}/../../oracle"))
from fanout_server import NotHere, Server, Wrong, framed
from play import TYPES, Replica, compact, is_complete

NAMES = ["a", "b", "c", "d e", "\u00e9"]
SECRET = TYPES["secret"][0]
# How long a response is waited for, in seconds, and how long it is looked whether one comes that shouldn't.
PATIENCE, SILENCE = 60, 0.2
# How many events a story has.
EVENTS = 500


class Form(NamedTuple):
    """What a story has: the streams at a time, the types that are changed and asked for, names, and how many a list has."""

    streams: int
    changed: list
    asked: list
    names: list
    lists: list


FORMS = [
    Form(4, list(TYPES)[:4], ["cluster", *list(TYPES)[:4]], NAMES, [0, 0, 1, 1, 2]),
    Form(12, ["endpoint"] * 4 + ["cluster"], ["endpoint"] * 4 + ["cluster"], [f"e{it}" for it in range(40)], [0, 1, 5, 10, 20]),
]


class Stream:
    """A stream at the server, and what the reading has of it."""

    def __init__(self, port, replica, is_delta):
        self.socket = socket.create_connection(("127.0.0.1", port), PATIENCE)
        # What is sent before it was answered isn't held back.
        self.socket.setsockopt(socket.IPPROTO_TCP, socket.TCP_NODELAY, 1)
        self.replica, self.is_delta = replica, is_delta
        self.number, self.last = replica.open(is_delta), {}

    def ask(self, kind, names, nonce="", error=False, others=(), versions=None):
        """Sends a request, and takes it in the reading."""
        message = {"typeUrl": TYPES[kind][0], "responseNonce": nonce}
        request = {"kind": kind, "nonce": nonce, "error": error, "cluster": ""}
        if self.is_delta:
            message |= {"resourceNamesSubscribe": names, "resourceNamesUnsubscribe": list(others)}
            message |= {"initialResourceVersions": versions} if versions else {}
            request |= {"subscribe": names, "unsubscribe": list(others), "versions": versions or {}}
        else:
            message["resource_names"] = names
            request["names"] = names
        if error:
            message["errorDetail"] = {"code": 3, "message": "test"}
        self.replica.request(self.number, request)
        self.socket.sendall(framed(3 if self.is_delta else 1, json.dumps(message).encode()))

    def wanted(self):
        """What the reading has to send."""
        while response := self.replica.poll(self.number, TYPES):
            kind = response["kind"]
            self.last[kind] = response["nonce"]
            session, changes = self.replica.streams[self.number][1][kind], self.replica.catalogues[kind].changes
            made = {"nonce": response["nonce"], "typeUrl": TYPES[kind][0]}
            stated = [(name, at, json.loads(body)) for name, at, body in response["resources"]]
            if self.is_delta:
                made |= {"systemVersionInfo": f"1.{changes}", "removedResources": response["removed"]}
                made["resources"] = [{"name": name, "resource": body, "version": at} for name, at, body in stated]
            else:
                made["versionInfo"] = f"1.{changes}" + ("" if session.star else ".named")
                made["resources"] = [body for _, _, body in stated]
            yield framed(4 if self.is_delta else 2, compact({key: it for key, it in made.items() if it}).encode())

    def read(self, count):
        data = b""
        while len(data) < count:
            try:
                piece = self.socket.recv(count - len(data))
            except TimeoutError:
                piece = b""
            if not piece:
                raise Wrong(f"a stream was closed or fell silent, after {data}")
            data += piece
        return data

    def compare(self):
        """Takes what is to come. Answers whether something was."""
        has_come = False
        for wanted in self.wanted():
            head = self.read(4)
            given = head + self.read(int.from_bytes(head, "big"))
            if given != wanted:
                raise Wrong(f"wanted {wanted}\n given {given}")
            has_come = True
        return has_come

    def settle(self):
        """Has the server take all requests until here."""
        nonce = self.last.get("secret", "")
        if not self.is_delta:
            self.ask("secret", [], nonce)
        self.ask("secret", ["probe"], nonce)
        if not self.compare():
            raise Wrong("the reading has nothing to say of the secret")

    def is_silent(self):
        self.socket.settimeout(SILENCE)
        try:
            return not self.socket.recv(1)
        except TimeoutError:
            return True


class Play:
    def __init__(self, server, seed, form):
        self.server, self.replica, self.pick, self.form = server, Replica(1), random.Random(seed), form
        self.marks = 0
        self.probe = self.opened(True)
        self.probe.ask("secret", ["probe"])
        self.probe.compare()
        self.probe.ask("secret", [], self.probe.last["secret"])
        self.streams = [self.opened(number % 2 == 0) for number in range(form.streams)]
        self.change([])

    def opened(self, is_delta):
        return Stream(self.server.port, self.replica, is_delta)

    def change(self, lines):
        """Applies lines, and sees what is told of them."""
        self.marks += 1
        lines = [*lines, self.put("secret", "probe")]
        self.server.write("".join(f"{it}\n" for it in lines).encode())
        self.probe.compare()
        self.probe.ask("secret", [], self.probe.last["secret"])
        for stream in self.streams:
            stream.compare()

    def put(self, kind, name):
        url, field, other, _ = TYPES[kind]
        body = {"x": self.marks, "@type": url, self.pick.choice([field, other]): name}
        self.replica.catalogues[kind].stamp(name, 1, compact(body))
        return "put 1 " + json.dumps(body, ensure_ascii=self.pick.random() < 0.5)

    def delete(self, kind, name):
        if self.replica.catalogues[kind].live(name):
            self.replica.catalogues[kind].stamp(name, 1, None)
        return f"delete 1 {kind} {name}"

    def some_change(self):
        kind, name = self.pick.choice(self.form.changed), self.pick.choice(self.form.names)
        # A line can't delete a name with a space in it.
        is_put = self.pick.random() < 0.65 or " " in name
        self.change([self.put(kind, name) if is_put else self.delete(kind, name)])

    def some_request(self):
        pick, form = self.pick, self.form
        stream, kind = pick.choice(self.streams), pick.choice(form.asked)
        session = self.replica.streams[stream.number][1][kind]
        names = pick.sample([*form.names, "*"], pick.choice(form.lists))
        others = pick.sample([*form.names, "*"], pick.choice([0, 0, 1, 2])) if stream.is_delta else ()
        if session.asked and pick.random() < 0.6:
            # It only answers.
            names, others = ([], ()) if stream.is_delta else (sorted(session.names) + ["*"] * session.star, ())
        # Without a nonce the names change while a response is under way.
        nonce = stream.last.get(kind, "") if pick.random() < 0.7 else pick.choice(["", "", "", "1", "99"])
        versions = None
        if stream.is_delta and not session.asked and pick.random() < 0.5:
            live = self.replica.catalogues[kind].live
            versions = {name: pick.choice([(live(name) or ["9-1"])[0], "1-1", "x"]) for name in pick.sample(form.names, 2)}
        stream.ask(kind, names, nonce, pick.random() < 0.25, others, versions)
        if not stream.compare():
            stream.settle()

    def some_end(self):
        at = self.pick.randrange(len(self.streams))
        if not self.streams[at].is_silent():
            raise Wrong("a response came that is none")
        self.streams[at].socket.close()
        self.streams[at] = self.opened(self.pick.random() < 0.5)

    def play(self, events):
        for _ in range(events):
            self.pick.choice([self.some_change] * 8 + [self.some_request] * 16 + [self.some_end])()
        for stream in [*self.streams, self.probe]:
            if not stream.is_silent():
                raise Wrong("a response came that is none")
            stream.socket.close()


def shown(client, port, variant, kind, names):
    """What the client of a program prints of a stream."""
    words = ["client", "--addr", f"127.0.0.1:{port}", "--variant", variant, "--type", kind, "--responses", "1", *names]
    ran = subprocess.run([client, *words], stdin=subprocess.DEVNULL, capture_output=True, timeout=PATIENCE, check=False)
    return ran.returncode, ran.stdout


def by_client(server, client):
    """What the program's own client is shown of all types, in both variants."""
    for kind, (url, field, _, _) in TYPES.items():
        for name in NAMES[:3]:
            server.write(f'put 1 {{"@type":"{url}","{field}":"{name}","reject":{str(name == "b").lower()}}}\n'.encode())
        server.write(f"delete 1 {kind} c\ndelete 1 {kind} missing\n".encode())
    server.write(f'put 1 {{"@type":"{SECRET}","name":"probe"}}\n'.encode())
    with socket.create_connection(("127.0.0.1", server.port), PATIENCE) as stream:
        stream.sendall(framed(3, json.dumps({"resourceNamesSubscribe": ["probe"], "typeUrl": SECRET}).encode()))
        stream.recv(1)
    return [
        shown(client, server.port, variant, kind, names)
        for variant in ("sotw", "delta")
        for kind in TYPES
        for names in (["a"], ["b", "a"], *([["*"]] if is_complete(kind) else []))
    ]


def run(programs, given):
    """Plays stories at each server, and answers the status."""
    said = {}
    for name, program in programs.items():
        for form in FORMS:
            for seed in range(given.seed, given.seed + given.seeds):
                server = Server(program)
                try:
                    Play(server, seed, form).play(EVENTS)
                except Wrong as fault:
                    raise Wrong(f"{name}, {form.streams} streams, seed {seed}: {fault}") from None
                finally:
                    server.stop()
            what = f"{given.seeds} stories of {form.streams} streams and {EVENTS} events"
            print(f"{name}: {what}, each response as it is to be", flush=True)
        server = Server(program)
        try:
            said[name] = by_client(server, given.program)
        finally:
            server.stop()
        if not any(b"taken" in it for _, it in said[name]) or not any(b"refused" in it for _, it in said[name]):
            raise NotHere(f"{given.program} has no client that can be asked: {said[name][0]}")
    if len({tuple(it) for it in said.values()}) != 1:
        raise Wrong(f"the client is shown otherwise:\n{said}")
    count = len(next(iter(said.values())))
    print(f"{count} runs of the client of {given.program}: the same is shown by {' and '.join(said)}")
    return 0
