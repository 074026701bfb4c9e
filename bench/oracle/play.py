#!/usr/bin/env python3
"""Compares `xds play` with a reading of docs/PROTOCOL.md in Python, over random scripts.

    python3 bench/oracle/play.py PROGRAM [FIRST LAST]

Each seed from FIRST (0) up to LAST (10000) makes a script of replicas, clients and what happens to them, now and then with a
line that says nothing. What differs is printed, with its seed, and the status is then 1. With `-` in place of PROGRAM, the
script of the standard input is read, and what it must print is printed.
"""
import json
import math
import random
import re
import subprocess
import sys

PREFIX = "type.googleapis.com/envoy."
# the URL, the name field and its other spelling, and whether a response lists everything
TYPES = {
    "cluster": (PREFIX + "config.cluster.v3.Cluster", "name", "name", True),
    "endpoint": (PREFIX + "config.endpoint.v3.ClusterLoadAssignment", "clusterName", "cluster_name", False),
    "listener": (PREFIX + "config.listener.v3.Listener", "name", "name", True),
    "route": (PREFIX + "config.route.v3.RouteConfiguration", "name", "name", False),
    "secret": (PREFIX + "extensions.transport_sockets.tls.v3.Secret", "name", "name", False),
}
UNSURE = object()


# rule: groups
def groups_of(texts):
    """The groups that a list of texts is, in ascending order, or none where it is no such list."""
    if not isinstance(texts, list) or not all(isinstance(text, str) and 1 <= len(text.encode()) <= 1024 for text in texts):
        return None
    groups = sorted({text.encode() for text in texts})
    return groups if len(groups) <= 64 else None


# rule: star-covers, rule: groups
def is_open_to(groups, cluster):
    """Whether the star of a client of this cluster covers a write of these groups."""
    return not groups or cluster.encode() in groups


def is_complete(kind):
    return TYPES[kind][3]


def in_order(value):
    """The value with the keys of its objects in ascending byte order."""
    if isinstance(value, dict):
        return {key: in_order(value[key]) for key in sorted(value, key=str.encode)}
    if isinstance(value, list):
        return [in_order(item) for item in value]
    return value


def compact(value):
    return json.dumps(in_order(value), separators=(",", ":"), ensure_ascii=False)


def by_bytes(names):
    return sorted(names, key=str.encode)


class BadScript(Exception):
    pass


# ---- JSON


class NotJson(ValueError):
    pass


class Float(float):
    """A number that isn't whole, or is spelled as none."""


LARGEST_DEPTH = 127
STRING = re.compile(r'"(?:[^"\\]|\\.)*"', re.S)


def float_of(text):
    value = Float(text)
    if math.isinf(value):
        raise NotJson
    return value


def number_of(text):
    value = int(text) if len(text) < 25 else None
    return float_of(text) if value is None or text == "-0" or not -(2**63) <= value < 2**64 else value


def no_constant(text):
    raise NotJson


def nests_to(text):
    """How deep a JSON text nests."""
    depth = most = 0
    for mark in re.findall(r"[\[\]{}]", STRING.sub("", text)):
        depth += 1 if mark in "[{" else -1
        most = max(most, depth)
    return most


def has_lone_surrogate(text):
    """Whether a string of a JSON text has half of a pair that stands for a letter."""
    return "\\u" in text and any(0xD800 <= ord(letter) < 0xE000 for found in STRING.findall(text) for letter in json.loads(found))


def read_json(data):
    """The value of a JSON text in bytes: a number that is no 64-bit integer is a `Float`, of a doubled key the last counts."""
    try:
        text = data.decode()
        value = json.loads(text, parse_int=number_of, parse_float=float_of, parse_constant=no_constant)
    except (ValueError, RecursionError):
        raise NotJson from None
    if nests_to(text) > LARGEST_DEPTH or has_lone_surrogate(text):
        raise NotJson
    return value


# ---- a replica


class Catalogue:
    def __init__(self):
        self.entries = {}
        self.changes = 0

    # rule: greatest-write
    def join(self, name, write):
        """A write is its counter, its writer, its body or none for a deletion, and its groups."""
        old = self.entries.get(name)
        if old is None or rank(write) > rank(old):
            self.entries[name] = write
            self.changes += 1

    # rule: tombstones
    def stamp(self, name, writer, body, groups=()):
        counter = max((write[0] for write in self.entries.values()), default=0) + 1
        self.join(name, (counter, writer, body, list(groups)))

    # rule: tombstones
    def live(self, name):
        write = self.entries.get(name)
        return None if write is None or write[2] is None else ("%d-%d" % write[:2], write[2], write[3])

    # rule: star-covers, rule: covered-only
    def present(self, name, star, names, cluster):
        """The version, the body and the groups of what is live under a name, if an interest of this star and these names covers it."""
        live = self.live(name)
        return live if live and (name in names or star and is_open_to(live[2], cluster)) else None

    def covered(self, star, names, cluster):
        """The version and the body of what is live and covered, by name, in ascending order of names."""
        found = ((name, self.present(name, star, names, cluster)) for name in by_bytes(self.entries))
        return {name: it[:2] for name, it in found if it}


def star_of(kind, names):
    """Whether a list of names asks for everything."""
    return is_complete(kind) and (not names or "*" in names)


def version_of(replica, catalogue, star, cluster):
    """The version of a response that lists what is held."""
    return "%d.%d" % (replica, catalogue.changes) + (".named" if not star else "@" + cluster if cluster else "")


# rule: listed-names
def first_answer(replica, catalogue, kind, names, cluster):
    """What a fresh stream's first poll gives, as a line; nothing where it gives none."""
    star = star_of(kind, names)
    shown = [json.loads(body) for _, body in catalogue.covered(star, set(names), cluster).values()]
    if not is_complete(kind) and not shown:
        return b""
    response = {"nonce": "1", "typeUrl": TYPES[kind][0], "versionInfo": version_of(replica, catalogue, star, cluster)}
    return compact({**response, "resources": shown} if shown else response).encode() + b"\n"


# rule: greatest-write, rule: tombstones
def rank(write):
    counter, writer, body, groups = write
    return counter, writer, body is not None, b"" if body is None else body.encode(), groups


class Session:
    """What a replica knows of one type on one stream."""

    def __init__(self, kind, is_delta):
        self.kind, self.is_delta = kind, is_delta
        self.asked = False
        self.named = False
        self.star, self.names = False, set()
        # the cluster of the first request of the stream
        self.cluster = ""
        self.believed = {}
        self.last_nonce = ""
        # the response that is unanswered: its nonce, its offer, and what was touched since; all of it where that is `True`
        self.unanswered = None
        self.touched = set()
        self.refused = None
        self.was_accepted = False

    def reaches(self, name):
        return self.star or name in self.names

    def present(self, catalogue, name):
        return catalogue.present(name, self.star, self.names, self.cluster)

    # rule: listed-names, rule: delta-names
    def new_interest(self, first, request):
        """The star, the names, what was touched, and what was mentioned."""
        complete = is_complete(self.kind)
        if self.is_delta:
            subscribe, unsubscribe = set(request["subscribe"]), set(request["unsubscribe"])
            star, names = self.star, set(self.names)
            if first and not subscribe:
                return complete and "*" not in unsubscribe, set(), set(), set()
            mentioned = subscribe | unsubscribe
            if complete and "*" in mentioned:
                star = "*" in subscribe
            names = (names - unsubscribe) | subscribe
            all_names = complete and "*" in mentioned
            if complete:
                names.discard("*")
                mentioned.discard("*")
            return star, names, True if all_names else mentioned, mentioned
        listed = set(request["names"])
        self.named = self.named or bool(listed)
        if not self.named:
            return complete, set(), True if self.star != complete else set(self.names), set()
        star = complete and "*" in listed
        names = listed - {"*"} if complete else listed
        return star, names, True if star != self.star else names ^ self.names, names

    # rule: stale-nonce
    def take(self, request):
        if not self.asked:
            self.asked = True
            self.star, self.names, _, _ = self.new_interest(True, request)
            self.believed = {name: UNSURE for name in self.names}
            self.believed.update(request.get("versions", {}))
            return
        nonce = request["nonce"]
        if self.unanswered is not None and nonce == self.unanswered[0]:
            self.settle(request["error"])
        elif self.unanswered is None and nonce not in ("", self.last_nonce):
            return
        self.star, self.names, touched, mentioned = self.new_interest(False, request)
        candidates = set(self.believed) | mentioned if touched is True else touched
        for name in candidates:
            had = self.believed.pop(name, None) is not None
            if self.reaches(name) and (had or name in mentioned):
                self.believed[name] = UNSURE
        if self.unanswered is not None:
            self.touched = True if touched is True or self.touched is True else self.touched | touched

    def was_touched(self, name):
        return self.touched is True or name in self.touched

    # rule: accept-reject, rule: refused-offer
    def settle(self, error):
        offer = self.unanswered[1]
        self.unanswered = None
        if error:
            self.refused = offer
            return
        if not self.is_delta and is_complete(self.kind):
            self.believed = {name: old for name, old in self.believed.items() if name in offer or self.was_touched(name)}
        for name, version in offer.items():
            if self.was_touched(name):
                self.believed[name] = UNSURE
            elif version is None:
                self.believed.pop(name, None)
            else:
                self.believed[name] = version
        self.was_accepted = True
        self.refused = None

    # rule: owed
    def owed(self, catalogue):
        """Of each name that is owed, its version, or none where it is gone."""
        found = {}
        for name in set(catalogue.entries) | set(self.believed):
            live = self.present(catalogue, name)
            believed = self.believed.get(name)
            if live is None:
                if believed is not None:
                    found[name] = None
            elif believed is not live[0] and believed != live[0]:
                found[name] = live[0]
        return found

    # rule: owed
    def is_due(self, catalogue):
        owed = self.owed(catalogue)
        if self.is_delta:
            return bool(owed)
        if is_complete(self.kind):
            return bool(owed) or not self.was_accepted
        return any(version is not None for version in owed.values())

    # rule: owed
    def owes(self, catalogue):
        return self.asked and (self.is_due(catalogue) or self.unanswered is not None)

    # rule: whole-response
    def offer(self, catalogue):
        owed = self.owed(catalogue)
        if self.is_delta:
            return owed
        if is_complete(self.kind):
            return {name: self.present(catalogue, name)[0] for name in catalogue.entries if self.present(catalogue, name)}
        return {name: version for name, version in owed.items() if version is not None}

    # rule: best-writes, rule: one-unanswered, rule: refused-offer
    def poll(self, catalogue, nonce):
        if not self.asked or self.unanswered is not None or not self.is_due(catalogue):
            return None
        offer = self.offer(catalogue)
        if offer == self.refused:
            return None
        self.unanswered, self.touched, self.last_nonce = (nonce, offer), set(), nonce
        stated = [(name, *catalogue.live(name)[:2]) for name in by_bytes(offer) if offer[name] is not None]
        removed = [name for name in by_bytes(offer) if offer[name] is None]
        return {"kind": self.kind, "nonce": nonce, "resources": stated, "removed": removed}


class Replica:
    def __init__(self, number):
        self.number = number
        self.catalogues = {kind: Catalogue() for kind in TYPES}
        self.streams = []

    def open(self, is_delta):
        """A stream is the count of its responses, its sessions, and whether it has taken a request."""
        self.streams.append([0, {kind: Session(kind, is_delta) for kind in TYPES}, False])
        return len(self.streams) - 1

    # rule: groups
    def request(self, stream, request):
        _, sessions, has_begun = self.streams[stream]
        if not has_begun:
            self.streams[stream][2] = True
            for session in sessions.values():
                session.cluster = request.get("cluster", "")
        sessions[request["kind"]].take(request)

    # rule: nonce-numbers, rule: type-order
    def poll(self, stream, kinds):
        for kind in kinds:
            count, sessions, _ = self.streams[stream]
            response = sessions[kind].poll(self.catalogues[kind], str(count + 1))
            if response:
                self.streams[stream][0] += 1
                return response
        return None

    def owes(self, stream, kind):
        return self.streams[stream][1][kind].owes(self.catalogues[kind])

    # rule: not-modified
    def rest(self, kind, names, version, cluster):
        """What a poll without a stream is told: the version and what is to be seen, or none where nothing changed."""
        catalogue = self.catalogues[kind]
        star = star_of(kind, names)
        present = version_of(self.number, catalogue, star, cluster)
        if star and version == present:
            return None
        return present, catalogue.covered(star, set(names), cluster)


# ---- a client


def is_refused(body):
    """Whether the clients of scripts refuse a body."""
    return json.loads(body).get("reject") is True


class Client:
    def __init__(self, variant, cluster):
        self.is_delta, self.is_rest = variant == "delta", variant == "rest"
        self.cluster = cluster
        # of a client of REST: the version of the answer that it took last
        self.kept = dict.fromkeys(TYPES, "")
        self.wanted = {kind: set() for kind in TYPES}
        self.cache = {kind: {} for kind in TYPES}
        self.nonce = dict.fromkeys(TYPES, "")
        self.asked = dict.fromkeys(TYPES, False)
        self.link = None
        # whether a request on the stream has said who the client is
        self.greeted = False

    def wants(self, kind, name):
        texts = self.wanted[kind]
        return is_complete(kind) and "*" in texts or name in texts

    def request(self, kind, nonce, error=False, subscribe=(), unsubscribe=()):
        request = {"kind": kind, "nonce": nonce, "error": error}
        if not self.greeted:
            self.greeted, request["cluster"] = True, self.cluster
        if self.is_delta:
            return {**request, "subscribe": list(subscribe), "unsubscribe": list(unsubscribe)}
        return {**request, "names": list(self.wanted[kind])}

    def connect(self, replica):
        """The replica, the stream's number there, and what is under way up and down."""
        self.link = [replica, replica.open(self.is_delta), [], []]
        self.greeted = False
        for kind in TYPES:
            self.nonce[kind], self.asked[kind] = "", bool(self.wanted[kind])
            if self.asked[kind]:
                request = self.request(kind, "", subscribe=self.wanted[kind])
                if self.is_delta:
                    request["versions"] = {name: version for name, (version, _) in self.cache[kind].items()}
                self.link[2].append(request)

    # rule: delta-names
    def change(self, kind, wish):
        if self.is_delta != (wish[0] == "change"):
            return
        if self.is_delta:
            self.wanted[kind] = (self.wanted[kind] - set(wish[2])) | set(wish[1])
        else:
            self.wanted[kind] = set(wish[1])
        self.cache[kind] = {name: held for name, held in self.cache[kind].items() if self.wants(kind, name)}
        self.kept[kind] = ""
        if self.link and (self.asked[kind] or self.wanted[kind]):
            self.asked[kind] = True
            request = self.request(kind, "", subscribe=wish[1], unsubscribe=wish[2]) if self.is_delta else self.request(kind, self.nonce[kind])
            self.link[2].append(request)

    # rule: whole-response, rule: whole-or-nothing
    def receive(self, response):
        kind, nonce = response["kind"], response["nonce"]
        self.nonce[kind] = nonce
        if any(is_refused(body) for _, _, body in response["resources"]):
            return self.request(kind, nonce, error=True)
        stated = {name: (version, body) for name, version, body in response["resources"] if self.wants(kind, name)}
        if not self.is_delta and is_complete(kind):
            self.cache[kind] = stated
        else:
            self.cache[kind].update(stated)
            for name in response["removed"]:
                self.cache[kind].pop(name, None)
        return self.request(kind, nonce)

    # rule: whole-or-nothing
    def poll(self, replica, kind, is_lost):
        """A poll without a stream."""
        if not self.wanted[kind]:
            return
        told = replica.rest(kind, self.wanted[kind], self.kept[kind], self.cluster)
        if is_lost or told is None or any(is_refused(body) for _, body in told[1].values()):
            return
        self.kept[kind], shown = told
        if is_complete(kind):
            self.cache[kind] = shown
        else:
            self.cache[kind].update(shown)


# ---- scripts


def number(word, most):
    if not re.fullmatch("[1-9][0-9]{0,9}", word, re.A) or int(word) > most:
        raise BadScript
    return int(word)


def replica_number(word):
    return number(word, 65535)


def whole_number(word):
    return number(word, 2**32 - 1)


def type_word(word):
    if word not in TYPES:
        raise BadScript
    return word


def name_word(word):
    if not word:
        raise BadScript
    return word


def kind_word(word):
    if word not in ("sotw", "delta", "rest"):
        raise BadScript
    return word


def groups_word(word):
    groups = groups_of(word.split(","))
    if groups is None:
        raise BadScript
    return groups


def depth(value):
    if isinstance(value, dict):
        value = list(value.values())
    elif not isinstance(value, list):
        return 0
    return 1 + max(map(depth, value), default=0)


def is_whole(value):
    if isinstance(value, float):
        return False
    if isinstance(value, dict):
        value = list(value.values())
    return all(map(is_whole, value)) if isinstance(value, list) else True


def resource(text):
    """The type, the name and the body of the resource that a text is."""
    try:
        value = read_json(text.encode())
    except NotJson:
        raise BadScript from None
    if len(text.encode()) > 1048576 or not is_whole(value) or depth(value) > 100 or not isinstance(value, dict):
        raise BadScript
    for kind, (url, field, other, _) in TYPES.items():
        if value.get("@type") == url:
            name = value[field] if field in value else value.get(other)
            if isinstance(name, str) and 1 <= len(name.encode()) <= 1024 and name != "*":
                return kind, name, compact(value)
    raise BadScript


READERS = {
    "replica": [replica_number],
    "delete": [replica_number, type_word, name_word],
    "snapshot": [replica_number],
    "merge": [replica_number, whole_number],
    "connect": [whole_number, replica_number],
    "up": [whole_number],
    "down": [whole_number],
    "lose": [whole_number],
    "settle": [whole_number, type_word],
    "view": [whole_number, type_word],
    "content": [replica_number, type_word],
    "rest": [whole_number, replica_number, type_word],
    "restlost": [whole_number, replica_number, type_word],
}


def command(line):
    verb, *words = line.split(" ")
    if verb == "put":
        if len(words) < 2:
            raise BadScript
        return verb, replica_number(words[0]), *resource(" ".join(words[1:]))
    if verb == "putin":
        if len(words) < 3:
            raise BadScript
        return verb, replica_number(words[0]), groups_word(words[1]), *resource(" ".join(words[2:]))
    if verb == "client":
        if len(words) not in (2, 3):
            raise BadScript
        return verb, whole_number(words[0]), kind_word(words[1]), name_word(words[2]) if len(words) == 3 else ""
    if verb == "poll":
        if len(words) not in (1, 2):
            raise BadScript
        return verb, whole_number(words[0]), type_word(words[1]) if len(words) == 2 else None
    if verb in ("names", "change"):
        if len(words) < 2:
            raise BadScript
        client, kind, rest = whole_number(words[0]), type_word(words[1]), words[2:]
        if verb == "names":
            return verb, client, kind, (verb, [name_word(word) for word in rest], [])
        if not rest or any(word[:1] not in ("+", "-") for word in rest):
            raise BadScript
        names = [(word[0], name_word(word[1:])) for word in rest]
        return verb, client, kind, (verb, [name for mark, name in names if mark == "+"], [name for mark, name in names if mark == "-"])
    readers = READERS.get(verb)
    if readers is None or len(readers) != len(words):
        raise BadScript
    return verb, *(read(word) for read, word in zip(readers, words))


def commands(script):
    """The commands of a script, or the number of its first bad line."""
    lines = (script[:-1] if script.endswith(b"\n") else script).split(b"\n")
    found = []
    for at, line in enumerate(lines, 1):
        try:
            if line and not line.startswith(b"#"):
                found.append(command(line.decode()))
        except (BadScript, UnicodeDecodeError):
            return at
    return found


class World:
    def __init__(self):
        self.replicas, self.clients, self.pool = {}, {}, []
        self.printed = []

    def run(self, verb, *words):
        getattr(self, verb)(*words)

    def replica(self, replica):
        self.replicas.setdefault(replica, Replica(replica))

    def client(self, client, variant, cluster):
        self.clients.setdefault(client, Client(variant, cluster))

    def put(self, replica, kind, name, body):
        self.putin(replica, [], kind, name, body)

    def putin(self, replica, groups, kind, name, body):
        if replica in self.replicas:
            self.replicas[replica].catalogues[kind].stamp(name, replica, body, groups)

    def delete(self, replica, kind, name):
        if replica in self.replicas and self.replicas[replica].catalogues[kind].live(name):
            self.replicas[replica].catalogues[kind].stamp(name, replica, None)

    def snapshot(self, replica):
        if replica in self.replicas:
            self.pool.append({kind: dict(held.entries) for kind, held in self.replicas[replica].catalogues.items()})

    def merge(self, replica, batch):
        if replica in self.replicas and batch <= len(self.pool):
            for kind, entries in self.pool[batch - 1].items():
                for name, write in entries.items():
                    self.replicas[replica].catalogues[kind].join(name, write)

    def connect(self, client, replica):
        if client in self.clients and not self.clients[client].is_rest and not self.clients[client].link and replica in self.replicas:
            self.clients[client].connect(self.replicas[replica])

    def rest(self, client, replica, kind, is_lost=False):
        if client in self.clients and self.clients[client].is_rest and replica in self.replicas:
            self.clients[client].poll(self.replicas[replica], kind, is_lost)

    def restlost(self, client, replica, kind):
        self.rest(client, replica, kind, is_lost=True)

    def names(self, client, kind, wish):
        if client in self.clients:
            self.clients[client].change(kind, wish)

    change = names

    def link(self, client):
        return self.clients[client].link if client in self.clients else None

    def up(self, client):
        link = self.link(client)
        if link and link[2]:
            link[0].request(link[1], link[2].pop(0))

    def down(self, client):
        link = self.link(client)
        if link and link[3]:
            link[2].append(self.clients[client].receive(link[3].pop(0)))

    def poll(self, client, kind):
        link = self.link(client)
        response = link and link[0].poll(link[1], [kind] if kind else TYPES)
        if response:
            link[3].append(response)
        return bool(response)

    def lose(self, client):
        if client in self.clients:
            self.clients[client].link = None

    def is_settled(self, client, kind):
        link = self.link(client)
        return not any(message["kind"] == kind for message in link[2] + link[3]) and not link[0].owes(link[1], kind)

    def settle(self, client, kind):
        link = self.link(client)
        while link and not self.is_settled(client, kind):
            if link[2]:
                self.up(client)
            elif any(response["kind"] == kind for response in link[3]):
                self.down(client)
            elif not self.poll(client, kind):
                return

    def view(self, client, kind):
        if client not in self.clients:
            self.printed.append("none")
            return
        held = self.clients[client].cache[kind]
        state = "rest" if self.clients[client].is_rest else "down" if not self.link(client) else "settled" if self.is_settled(client, kind) else "open"
        self.printed.append("view %d %s %s %d" % (client, kind, state, len(held)))
        for name in by_bytes(held):
            self.printed.append(" ".join(held[name]) if self.clients[client].is_delta else held[name][1])

    def content(self, replica, kind):
        if replica not in self.replicas:
            self.printed.append("none")
            return
        catalogue = self.replicas[replica].catalogues[kind]
        live = [catalogue.live(name) for name in by_bytes(catalogue.entries) if catalogue.live(name)]
        self.printed.append("content %d %s %d" % (replica, kind, len(live)))
        self.printed += [" ".join(entry[:2]) for entry in live]


def played(script):
    """The status, the output and the error output."""
    found = commands(script)
    if isinstance(found, int):
        return 1, b"", b"line %d: 21 BadScript\n" % found
    world = World()
    for words in found:
        world.run(*words)
    return 0, "".join(line + "\n" for line in world.printed).encode(), b""


# ---- random scripts

NAMES = ["a", "b", "\u00e9", "B"]
GROUPS = ["g1", "g2", "\u00e9"]
BAD_LINES = [" ", "up", "up 0", "up 01", "replica 65536", "client 1 grpc", "names 1 cluster ", "change 1 cluster", "change 1 cluster a",
             "change 1 cluster +", "put 1 {}", "client 1 sotw ", "client 1 sotw g1 g2", "putin 1 g1", "putin 1 g1, {}", "poll 1 x", "view 1", "Replica 1", "up +1", "merge 1  1", "lose 4294967296", "\u00e9"]


def some_body(pick, kind, name):
    url, field, other, _ = TYPES[kind]
    body = {"@type": url, pick.choice([field, other]): name}
    if pick.random() < 0.7:
        body["x"] = pick.choice([1, 2, "y z", [1, {"b": None, "a": True}]])
    if pick.random() < 0.12:
        body["reject"] = True
    elif pick.random() < 0.05:
        body["reject"] = pick.choice([False, "true", 1])
    items = list(body.items())
    pick.shuffle(items)
    return json.dumps(dict(items), ensure_ascii=pick.random() < 0.5, separators=pick.choice([(",", ":"), (", ", ": ")]))


def some_put(pick, replica, kind):
    body = some_body(pick, kind, pick.choice(NAMES))
    if pick.random() < 0.5:
        return "put %d %s" % (replica, body)
    if pick.random() < 0.01:
        groups = ["g%d" % at for at in range(pick.choice([64, 65]))] * 2
    else:
        groups = [pick.choice(GROUPS) for _ in range(pick.randrange(1, 4))]
    return "putin %d %s %s" % (replica, ",".join(groups), body)


def some_wish(pick, client, kind, is_delta):
    names = NAMES + ["*", "*", "*", "missing"]
    if is_delta == (pick.random() < 0.97):
        words = [pick.choice("++-") + pick.choice(names) for _ in range(pick.randrange(1, 4))]
        return " ".join(["change", str(client), kind, *words])
    return " ".join(["names", str(client), kind, *(pick.choice(names) for _ in range(pick.randrange(4)))])


def some_line(pick, replicas, clients, kinds):
    replica = pick.choice(replicas) if pick.random() < 0.98 else 9
    client, variant = pick.choice(clients) if pick.random() < 0.98 else (9, "delta")
    kind = pick.choice(kinds)
    if pick.random() < (0.6 if variant == "rest" else 0.02):
        return "%s %d %d %s" % (pick.choice(["rest", "rest", "rest", "restlost"]), client, replica, kind)
    verb = pick.choices(
        ["put", "delete", "snapshot", "merge", "connect", "wish", "up", "poll", "down", "lose", "settle", "view", "content"],
        [14, 5, 3, 5, 12, 8, 18, 16, 16, 2, 6, 7, 2],
    )[0]
    if verb == "put":
        return some_put(pick, replica, kind)
    if verb == "delete":
        return "delete %d %s %s" % (replica, kind, pick.choice(NAMES))
    if verb == "snapshot":
        return "snapshot %d" % replica
    if verb == "merge":
        return "merge %d %d" % (replica, pick.randrange(1, 6))
    if verb == "connect":
        return "connect %d %d" % (client, replica)
    if verb == "wish":
        return some_wish(pick, client, kind, variant == "delta")
    if verb == "poll":
        return "poll %d" % client if pick.random() < 0.5 else "poll %d %s" % (client, kind)
    if verb in ("settle", "view"):
        return "%s %d %s" % (verb, client, kind)
    if verb == "content":
        return "content %d %s" % (replica, kind)
    return "%s %d" % (verb, client)


def some_script(pick):
    replicas = pick.sample([1, 2, 3, 65535], pick.randrange(1, 4))
    clients = [(client, pick.choice(["sotw", "sotw", "delta", "delta", "rest"])) for client in pick.sample([1, 2, 3, 4294967295], pick.randrange(1, 4))]
    kinds = list(TYPES) if pick.random() < 0.3 else pick.sample(list(TYPES), pick.choice([1, 1, 2]))
    lines = ["replica %d" % replica for replica in replicas]
    lines += ["client %d %s%s" % (client, variant, pick.choice(["", " g1", " g2", " \u00e9"])) for client, variant in clients]
    lines += [some_wish(pick, client, kind, variant == "delta") for client, variant in clients for kind in kinds if pick.random() < 0.7]
    lines += [some_put(pick, pick.choice(replicas), pick.choice(kinds)) for _ in range(pick.randrange(8))]
    lines += ["connect %d %d" % (client, pick.choice(replicas)) for client, _ in clients if pick.random() < 0.85]
    lines += [some_line(pick, replicas, clients, kinds) for _ in range(pick.randrange(5, 90))]
    lines += ["%s %d %s" % (verb, client, kind) for client, _ in clients for kind in kinds for verb in ("view", "settle", "view")]
    lines += ["content %d %s" % (replica, kind) for replica in replicas for kind in kinds]
    for _ in range(pick.randrange(3)):
        lines.insert(pick.randrange(len(lines) + 1), pick.choice(["", "# a comment", "#"]))
    if pick.random() < 0.03:
        lines.insert(pick.randrange(len(lines) + 1), pick.choice(BAD_LINES))
    script = "\n".join(lines).encode()
    if pick.random() < 0.01:
        script = script.replace(b"a", b"\xff", 1)
    if pick.random() < 0.1:
        script = script.replace(b"# a comment", b"# \xff", 1)
    return script + pick.choice([b"", b"\n"])


def one(program, seed):
    script = some_script(random.Random(seed))
    wanted = played(script)
    run = subprocess.run([program, "play"], input=script, capture_output=True)
    given = (run.returncode, run.stdout, run.stderr)
    if given != wanted:
        print("seed %d" % seed, script.decode(errors="replace"), "wanted", wanted, "given", given, sep="\n")
    return given == wanted, wanted[1].count(b" settled ")


def main():
    if sys.argv[1:] == ["-"]:
        status, output, errors = played(sys.stdin.buffer.read())
        sys.stdout.buffer.write(output)
        sys.stderr.buffer.write(errors)
        sys.exit(status)
    if len(sys.argv) not in (2, 4):
        sys.exit(__doc__)
    first, last = (int(word) for word in sys.argv[2:]) if len(sys.argv) == 4 else (0, 10000)
    results = [one(sys.argv[1], seed) for seed in range(first, last)]
    wrong = sum(not same for same, _ in results)
    print("%d scripts, in which %d views are settled; %d differ" % (len(results), sum(settled for _, settled in results), wrong))
    sys.exit(1 if wrong or not results else 0)


if __name__ == "__main__":
    main()
