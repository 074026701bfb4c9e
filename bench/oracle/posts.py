#!/usr/bin/env python3
"""Compares what `xds serve` answers to polls over HTTP with a reading of docs/PROTOCOL.md in Python, over a socket.

    python3 bench/oracle/posts.py PROGRAM [FIRST LAST]
    python3 bench/oracle/fuzz.py posts PROGRAM [FIRST LAST]

The program serves one replica, at ports that are free. Each seed from FIRST (0) up to LAST (10000) makes one request: its
method, its path and its body, many of them wrong somewhere; in the second form most bodies are spoiled by bench/oracle/spoil.py. It
is sent over a connection that is kept open, a body now and then in chunks. Status and body of the reply must be those of the
reading. One request in fifty has a head of the table below, of which the status is known. One in fifty is no HTTP any more:
a byte of it is another, or it breaks off, or it is spoiled otherwise; of such a one it counts that the server closes the
connection once the client has ended its side, that what it says until then begins as a reply, and that it goes on. What
differs is printed, with its seed, and the status is then 1.
"""
import errno
import json
import random
import re
import socket
import subprocess
import sys
import time

from play import TYPES, compact
from spoil import noise, some, spoiled, spoiled_gently, spoiled_json
from streams import WRITES, Refused, Served, object_of, request_of, some_names

PATHS = {word: "/v3/discovery:" + end for word, end in zip(TYPES, ("clusters", "endpoints", "listeners", "routes", "secrets"))}
MOST = 4_194_304
# How often a connection that is refused is tried again, while the server starts.
TRIES = 200


# ---- reading


def poll_of(body, word):
    """The names, the version and the cluster of a poll's body, read as the request of a frame."""
    value = object_of(body)
    url, request = request_of(1, body)
    if url not in ("", TYPES[word][0]):
        raise Refused(7)
    held = value["versionInfo"] if "versionInfo" in value else value.get("version_info")
    return request["names"], held or "", request["cluster"]


# rule: listed-names, rule: not-modified
def answer(replica, word, names, version, cluster):
    """The status and the body of the reply to a poll."""
    told = replica.rest(word, names, version, cluster)
    if told is None:
        return 304, b""
    present, shown = told
    made = {"typeUrl": TYPES[word][0], "versionInfo": present}
    if shown:
        made["resources"] = [json.loads(body) for _, body in shown.values()]
    return 200, compact(made).encode()


def wanted(replica, method, path, body):
    words = {at: word for word, at in PATHS.items()}
    word = words.get(path.partition("?")[0])
    if word is None:
        return 404, b""
    if method != "POST":
        return 405, b""
    if len(body) > MOST:
        return 413, b""
    try:
        names, version, cluster = poll_of(body, word)
    except Refused as refusal:
        number = refusal.args[0]
        return 400, b'{"code":%d,"name":"%s"}' % (number, {1: b"NotJson", 7: b"BadMessage"}[number])
    return answer(replica, word, names, version, cluster)


# ---- random requests

TEXTS = [b"", b"nul", b"\xff", b"[]", b"7", b'{"typeUrl":1}', b'{"typeUrl":"x"}', b"{}", b'{"resourceNames":["a",null]}', b'{"a":NaN}', b'{"a":1.5}',
         b'{"errorDetail":{"code":2147483648}}', b'{"errorDetail":{"code":"-7"}}', b'{"node":[]}', b"[" * 128 + b"]" * 128, b" {} ", b'{"versionInfo":7}',
         b'{"a":' + b"[" * 126 + b"]" * 126 + b"}", b'{"a":' + b"[" * 127 + b"]" * 127 + b"}", b'{"node":{"cluster":1}}', b'{"version_info":null}']


def some_body(pick, replica, word):
    if pick.random() < 0.15:
        return pick.choice(TEXTS)
    message = {}
    if pick.random() < 0.6:
        of = word if pick.random() < 0.9 else pick.choice(list(TYPES))
        message[pick.choice(["typeUrl", "type_url"])] = TYPES[of][0]
    if pick.random() < 0.6:
        message[pick.choice(["resourceNames", "resource_names"])] = some_names(pick)
    if pick.random() < 0.7:
        count = replica.catalogues[word].changes
        end = pick.choice(["", "", "@g1", "@g2", ".named"])
        message[pick.choice(["versionInfo", "version_info"])] = "1.%d%s" % (pick.choice([count, count, 1]), end)
    if pick.random() < 0.5:
        message["node"] = pick.choice([{}, None, {"id": "n"}, {"id": "n", "cluster": "g1", "x": 1.5}, {"cluster": "g2"}, {"cluster": ""}])
    if pick.random() < 0.1:
        message["responseNonce"] = pick.choice(["", "1", None])
    items = list(message.items())
    pick.shuffle(items)
    text = json.dumps(dict(items), ensure_ascii=pick.random() < 0.5, separators=pick.choice([(",", ":"), (", ", ": ")])).encode()
    if pick.random() < 0.05:
        at = pick.randrange(len(text))
        text = text[:at] + bytes([pick.randrange(256)]) + text[at + 1 :]
    return text


def some_request(pick, replica):
    word = pick.choice(["cluster", "cluster", *TYPES])
    path = PATHS[word]
    if pick.random() < 0.05:
        path = pick.choice(["/", "/v3/discovery", "/v3/discovery:scoped", path + "/", path + "x", "/v2" + path[3:], path.upper()])
    if pick.random() < 0.1:
        path += pick.choice(["?", "?x=1", "?x=/v3/discovery:routes"])
    method = "POST" if pick.random() < 0.93 else pick.choice(["GET", "PUT", "DELETE", "OPTIONS"])
    return method, path, some_body(pick, replica, word)


def spoiled_request(pick, replica):
    """A request whose body is spoiled, and now and then its path."""
    method, path, body = some_request(pick, replica)
    if pick.random() < 0.7:
        body = some(pick, body, [spoiled_gently, spoiled_gently, spoiled_gently, spoiled_json, spoiled])
    elif pick.random() < 0.4:
        body = noise(pick)
    if pick.random() < 0.05:
        at = pick.randrange(len(path) + 1)
        path = path[:at] + pick.choice(["%3A", "%00", "..", "/", "//", ":", "x", "~", "&", ";", "=", "'", "y" * 5000]) + path[at:]
        path = path if path.startswith("/") else "/" + path
    if pick.random() < 0.03:
        method = pick.choice(["post", "Post", "POSTS", "POS", "PATCH", "BREW", "TRACE", "P" * 500])
    return method, path, body


# Heads with what stands at four places of them, and the status that they are answered with: 0 where the connection is closed with
# no reply, and none where the reply is that of a request with another head.
HEADS = [
    ("{} HTTP/1.0", "", None),
    ("{} HTTP/2.0", "", 400),
    ("{} HTTP/1.2", "", 400),
    ("{} http/1.1", "", 400),
    ("{}", "", 400),
    ("{}#x HTTP/1.1", "", None),
    ("\r\n\r\n{} HTTP/1.1", "", None),
    ("{}\0 HTTP/1.1", "", 400),
    (" {} HTTP/1.1", "", 400),
    ("({} HTTP/1.1", "", 400),
    ("{}?%s HTTP/1.1" % ("y" * 60000), "", None),
    ("{}?%s HTTP/1.1" % ("y" * 66000), "", 414),
    ("{} HTTP/1.1", "host: a\r\n", 400),
    ("{} HTTP/1.1", "content-length: LENGTH\r\n", None),
    ("{} HTTP/1.1", "content-length: 7777\r\n", 400),
    ("{} HTTP/1.1", "content-length: -1\r\n", 400),
    ("{} HTTP/1.1", "content-length: +LENGTH\r\n", 400),
    ("{} HTTP/1.1", "content-length: 0x1\r\n", 400),
    ("{} HTTP/1.1", "content-length: 18446744073709551616\r\n", 400),
    ("{} HTTP/1.1", "content-length: \r\n", 400),
    ("{} HTTP/1.1", "content-length: 1, 1\r\n", 400),
    ("{} HTTP/1.1", "transfer-encoding: gzip\r\n", 400),
    ("{} HTTP/1.1", "transfer-encoding: chunked\r\n", 400),
    ("{} HTTP/1.1", "x: a\r\n b\r\n", 400),
    ("{} HTTP/1.1", "x : a\r\n", 400),
    ("{} HTTP/1.1", "x\0: a\r\n", 400),
    ("{} HTTP/1.1", "x: a\0b\r\n", 400),
    ("{} HTTP/1.1", ": a\r\n", 400),
    ("{} HTTP/1.1", "x\r\n", 400),
    ("{} HTTP/1.1", "\xff: a\r\n", 400),
    ("{} HTTP/1.1", "x: \xff\r\n", None),
    ("{} HTTP/1.1", "x: %s\r\n" % ("y" * 60000), None),
    ("{} HTTP/1.1", "x: %s\r\n" % ("y" * 70000), 431),
    ("{} HTTP/1.1", "".join("x%d: y\r\n" % at for at in range(90)), None),
    ("{} HTTP/1.1", "".join("x%d: y\r\n" % at for at in range(110)), 431),
    ("{} HTTP/1.1", "connection: upgrade\r\nupgrade: h2c\r\n", None),
    ("{} HTTP/1.1", "connection: close\r\n", None),
]
# Bodies in chunks that are none, or are spelled otherwise than usual, each with whether it says `{}`.
CHUNKS = [(b"2;a=b\r\n{}\r\n0\r\n\r\n", True), (b"02\r\n{}\r\n0\r\nx: y\r\n\r\n", True), (b"1\r\n{\r\n1\r\n}\r\n0\r\n\r\n", True), (b"2\r\n{}\r\n000\r\n\r\n", True),
          (b"x\r\n{}\r\n0\r\n\r\n", False), (b"fffffffffffffffff\r\n{}\r\n0\r\n\r\n", False), (b"2\r\n{}xx0\r\n\r\n", False), (b"-2\r\n{}\r\n0\r\n\r\n", False), (b"\r\n\r\n", False)]
# What the server may say of bytes that are no request.
STATUSES = {200, 304, 400, 404, 405, 408, 413, 414, 431, 501}


def headed(pick, path, body):
    """A request with a head of the table, or a body of chunks that are none, and the status that it gets, if that isn't of the body."""
    post = f"POST {path}"
    if pick.random() < 0.2:
        chunks, is_whole = pick.choice(CHUNKS)
        return f"{post} HTTP/1.1\r\nhost: a\r\ntransfer-encoding: chunked\r\n\r\n".encode() + chunks, None if is_whole else 0, b"{}"
    line, fields, status = pick.choice(HEADS)
    head = line.replace("{}", post) + f"\r\nhost: 127.0.0.1\r\ncontent-length: LENGTH\r\n{fields}\r\n"
    return head.replace("LENGTH", str(len(body))).encode("latin-1") + body, status, body


def chunked(pick, body):
    cut, made = 0, b""
    while cut < len(body):
        size = pick.randrange(1, 200)
        piece = body[cut : cut + size]
        made += b"%x\r\n%s\r\n" % (len(piece), piece)
        cut += size
    return made + b"0\r\n\r\n"


def sent(pick, method, path, body):
    head = f"{method} {path} HTTP/1.1\r\nhost: 127.0.0.1\r\n".encode()
    if pick.random() < 0.2:
        return head + b"transfer-encoding: chunked\r\n\r\n" + chunked(pick, body)
    return head + b"content-length: %d\r\n\r\n" % len(body) + body


# ---- over a socket


class Link:
    """A connection that is kept open, and made anew where it was closed."""

    def __init__(self, port):
        self.port, self.socket, self.rest = port, None, b""

    def open(self):
        self.rest = b""
        for _ in range(TRIES):
            try:
                self.socket = socket.create_connection(("127.0.0.1", self.port), 20)
                self.socket.setsockopt(socket.IPPROTO_TCP, socket.TCP_NODELAY, 1)
                return
            except ConnectionRefusedError:
                time.sleep(0.05)
        sys.exit("the server doesn't take connections")

    def close(self):
        if self.socket:
            self.socket.close()
        self.socket = None

    def ask(self, data):
        """The status and the body of the reply. A server may have closed a connection behind a reply that came before a whole body."""
        if self.socket:
            try:
                return self.ask_here(data)
            except ConnectionError:
                self.close()
        self.open()
        return self.ask_here(data)

    def ask_here(self, data):
        self.socket.sendall(data)
        head = self.until(b"\r\n\r\n")
        fields = dict(line.lower().split(b": ", 1) for line in head.split(b"\r\n")[1:] if line)
        status, count = int(head[9:12]), int(fields.get(b"content-length", 0))
        while len(self.rest) < count:
            self.more()
        body, self.rest = self.rest[:count], self.rest[count:]
        if fields.get(b"connection") == b"close":
            self.close()
        return status, body

    def until(self, mark):
        while mark not in self.rest:
            self.more()
        found, _, self.rest = self.rest.partition(mark)
        return found

    def more(self):
        piece = self.socket.recv(1 << 16)
        if not piece:
            raise ConnectionError("closed")
        self.rest += piece

    def alone(self, data):
        """All that comes for some bytes over a connection of their own, until the server closes it; it is told that no more come."""
        self.close()
        self.open()
        found = b""
        try:
            self.socket.sendall(data)
            self.socket.shutdown(socket.SHUT_WR)
            while piece := self.socket.recv(1 << 16):
                found += piece
        except ConnectionError:
            pass
        except OSError as fault:
            if fault.errno != errno.ENOTCONN:
                raise
        self.close()
        return found


def free_ports():
    made = [socket.socket() for _ in range(2)]
    for it in made:
        it.bind(("127.0.0.1", 0))
    ports = [it.getsockname()[1] for it in made]
    for it in made:
        it.close()
    return ports


def lines():
    for word, name, groups, body in WRITES:
        if body is None:
            yield f"delete 1 {word} {name}\n"
        else:
            verb = f"putin 1 {groups}" if groups else "put 1"
            yield f"{verb} {body.replace('URL', TYPES[word][0])}\n"


def filled(link, replica):
    """Waits until the server has taken all lines of its input."""
    for _ in range(TRIES):
        if all(link.ask(sent(random.Random(0), "POST", PATHS[word], b"{}")) == wanted(replica, "POST", PATHS[word], b"{}") for word in TYPES):
            return
        time.sleep(0.05)
    sys.exit("the server doesn't hold what it was given")


def main(words, spoils=False):
    if len(words) not in (1, 3):
        sys.exit(__doc__)
    first, last = (int(word) for word in words[1:]) if len(words) == 3 else (0, 10000)
    port, rest_port = free_ports()
    command = [words[0], "serve", "--replicas", "1", "--port", str(port), "--rest-port", str(rest_port)]
    server = subprocess.Popen(command, stdin=subprocess.PIPE, stderr=subprocess.DEVNULL)
    try:
        server.stdin.write("".join(lines()).encode())
        server.stdin.flush()
        return compare(server, Link(rest_port), Served().replica, range(first, last), spoils)
    finally:
        server.kill()


def one(link, replica, pick, spoils):
    """A request, what it is answered and what it should be."""
    method, path, body = spoiled_request(pick, replica) if spoils else some_request(pick, replica)
    chance = pick.random()
    if chance < 0.02:
        data = sent(pick, method, path, body)
        at = pick.randrange(len(data))
        data = some(pick, data, [spoiled]) if spoils else data[:at] + (bytes([pick.randrange(256)]) + data[at + 1 :] if pick.random() < 0.5 else b"")
        found = link.alone(data)
        said = re.match(rb"HTTP/1\.[01] ([0-9]{3}) ", found)
        return data, bool(found and (not said or int(said.group(1)) not in STATUSES)) and found, False
    if chance < 0.04:
        word = pick.choice(list(TYPES))
        data, status, body = headed(pick, PATHS[word], body)
        found = link.alone(data) if status == 0 else link.ask(data)
        link.close()
        if status is None:
            return data, found, wanted(replica, "POST", PATHS[word], body)
        return data, found, (status, b"") if status else b""
    return (method, path, body), link.ask(sent(pick, method, path, body)), wanted(replica, method, path, body)


def compare(server, link, replica, seeds, spoils):
    filled(link, replica)
    begin, wrong, statuses = time.monotonic(), 0, {}
    for seed in seeds:
        try:
            asked, given, due = one(link, replica, random.Random(seed), spoils)
        except (OSError, ValueError) as fault:
            link.close()
            asked, given, due = None, repr(fault), None
        kind = due[0] if due else "no HTTP"
        statuses[kind] = statuses.get(kind, 0) + 1
        if given != due:
            wrong += 1
            print(f"seed {seed}: {str(asked)[:6000]}", f"wanted {due}", f"given {given}", sep="\n", flush=True)
    for size, status in ((MOST, 400), (MOST + 1, 413)):
        given = link.ask(sent(random.Random(2), "POST", PATHS["cluster"], b" " * size))
        wrong += given[0] != status
    if server.poll() is not None:
        wrong += 1
        print("the server has ended")
    told = ", ".join(f"{statuses[status]} times {status}" for status in sorted(statuses, key=str))
    print(f"posts: {sum(statuses.values())} inputs in {time.monotonic() - begin:.0f} s; answers: {told}; {wrong} differ")
    return 1 if wrong or not statuses else 0


if __name__ == "__main__":
    sys.exit(main(sys.argv[1:]))
