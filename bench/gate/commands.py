#!/usr/bin/env python3
"""What each command tells of its words and its input, and what servers, clients and polls tell each other, over the program itself.

    python3 bench/gate/commands.py PROGRAM [CASE ..]

Each case runs the program over an input, or servers, clients and polls of it on ports of its own, and compares the status, the output, the
error output and what comes over sockets with what is to come, byte by byte where that is known. `~` stands for a line feed there, and CDS,
EDS, LDS, RDS and SDS for the URLs of the types. Each wait has a limit. Without a CASE it tries all, in less than a minute. Prints a line for
each thing that is looked at, and the status is 1 where one isn't as it is to be, and 2 where it can't be tried, since the program isn't
there.
"""
import atexit
import os
import pty
import re
import socket
import struct
import subprocess
import sys
import tempfile
import threading
import time
import tty

import operate
from serve import TYPES
from telling import end, free_ports, tell

# As many seconds as anything is waited for, and as a run of the program may take.
LIMIT, LONGEST = 100, 300
URLS = {f"{word[0].upper()}DS": url for word, (url, _) in TYPES.items()}
# The longest line of the input, in bytes.
MAX_LINE = 8_388_608
AGAIN = "numbers begin at 1 again: a client of an earlier run may keep what is no longer so; --store or --first-number keeps runs apart~"
HALF_A_FRAME = b"\x00\x00\x00\x44\x01"
PUTS_Q = 'put 1 {"@type":"RDS","name":"q"}~'
PUTS_A = 'put 1 {"@type":"CDS","name":"a"}~'
ASKS_FOR_Q = '{"resourceNames":["q"],"typeUrl":"RDS"}'
ASKS_FOR_R = '{"resourceNames":["r"],"typeUrl":"RDS"}'
ASKS_FOR_CLUSTERS = '{"typeUrl":"CDS"}'
Q = '{"@type":"RDS","name":"q"}'
R_ALONE = '"resources":[{"@type":"RDS","name":"r"}]'


def written(text):
    """A text, with what its words and marks stand for."""
    for word, url in URLS.items():
        text = text.replace(word, url)
    return text.replace("~", "\n")


class Run:
    """A run of the program, which is given an input. It is killed once it takes too long, and has no status then. With `terminal` its error
    output is a terminal; with `drips` its input comes byte by byte; and `given` is an input in place of a text."""

    def __init__(self, line, text="", terminal=False, drips=False, given=subprocess.PIPE):
        self.status, self.output, self.errors = None, b"", b""
        pipe = subprocess.PIPE
        shown, errors = pty.openpty() if terminal else (None, pipe)
        if terminal:
            # So that a terminal shows each byte as it is written.
            tty.setraw(errors)
        self.run = subprocess.Popen([operate.PROGRAM, *line.split()], stdin=given, stdout=pipe, stderr=errors)
        atexit.register(self.run.kill)
        self.threads = [threading.Thread(target=self.follow, args=(text.encode(), drips), daemon=True)]
        if terminal:
            os.close(errors)
            self.threads.append(threading.Thread(target=self.look_at, args=(shown,), daemon=True))
        for it in self.threads:
            it.start()

    def follow(self, text, drips):
        if drips:
            text = self.drip(text)
        try:
            output, errors = self.run.communicate(text, LONGEST)
            self.status = self.run.returncode
        except subprocess.TimeoutExpired:
            self.run.kill()
            output, errors = self.run.communicate()
        self.output, self.errors = output, self.errors if errors is None else errors

    def drip(self, text):
        try:
            for at in range(len(text)):
                self.run.stdin.write(text[at : at + 1])
                self.run.stdin.flush()
                time.sleep(0.001)
        except OSError:
            pass

    def look_at(self, shown):
        try:
            while piece := os.read(shown, 65536):
                self.errors += piece
        except OSError:
            # The other end is closed.
            pass
        os.close(shown)

    def came(self):
        """Its status, its output and its error output, once it has ended."""
        for it in self.threads:
            it.join(LONGEST + 10)
        return self.status, *(it.decode(errors="surrogateescape") for it in (self.output, self.errors))


class Served(Run):
    """A server, on ports of its own: those of streams, of REST, and the one that an operator's port may have."""

    def __init__(self, words="", text="", replicas=1, **more):
        self.replicas, self.port = replicas, free_ports(2 * replicas + 1, 27000, 50)
        self.rest_port, self.admin_port = self.port + replicas, self.port + 2 * replicas
        ports = f"--replicas {replicas} --port {self.port} --rest-port {self.rest_port}"
        super().__init__(f"serve {ports} {words.replace('ADMIN', str(self.admin_port))}", written(text), **more)

    def serves(self):
        """What it tells first: what is served where."""
        places = range(self.replicas)
        return "".join(f"replica {it + 1}: streams on 127.0.0.1:{self.port + it}, REST on 127.0.0.1:{self.rest_port + it}~" for it in places)

    def ends(self, what, status=0, told=""):
        """That it comes to this status, and tells this behind what is served where."""
        tells(what, self.came(), status, "", self.serves() + told)


class Link(operate.Stream):
    """A connection to a port of this machine, tried again while nobody is there."""

    def __init__(self, port):
        until = time.time() + LIMIT
        while True:
            try:
                super().__init__(port)
                break
            except ConnectionRefusedError:
                if time.time() > until:
                    raise
                time.sleep(0.01)
        self.socket.settimeout(LIMIT)

    def __enter__(self):
        return self

    def __exit__(self, *_):
        self.socket.close()

    def ask(self, text):
        """Writes a request of the state of the world."""
        text = written(text).encode()
        self.socket.sendall((len(text) + 1).to_bytes(4, "big") + b"\x01" + text)

    def response(self):
        """The text of the next response; none where the server ended the stream."""
        head = self.exactly(5)
        if head is None:
            return None
        if head[4] != 2:
            raise ValueError(f"a frame of the kind {head[4]}")
        return self.exactly(int.from_bytes(head[:4], "big") - 1).decode()

    def answered(self, text):
        self.ask(text)
        return self.response()

    def to_the_end(self, sent):
        """All that comes for these bytes until the server closes the connection, or until that takes too long."""
        self.socket.sendall(sent)
        got = b""
        try:
            while piece := self.socket.recv(1 << 16):
                got += piece
        except TimeoutError:
            pass
        return got.decode(errors="surrogateescape")


def tells(what, found, status, output="", errors=""):
    """That a run came to this status, this output and this error output."""
    tell(what, found == (status, written(output), written(errors)), found)


def holds(what, text, *parts):
    """That a text has each of these parts."""
    lacking = [it for it in map(written, parts) if it not in (text or "")]
    tell(what, not lacking, (text, lacking))


def answered(port, request):
    """What a client at this port is told first for a request."""
    with Link(port) as link:
        return link.answered(request)


def once_served(line):
    """What a run comes to, tried again while nobody serves."""
    until = time.time() + LIMIT
    while True:
        found = Run(line).came()
        if found != (1, "", "19 Device\n") or time.time() > until:
            return found
        time.sleep(0.05)


def once_told(line, part):
    """The same, tried again until this part is told, and in the end whatever it tells."""
    until = time.time() + LIMIT
    while True:
        found = once_served(line)
        if part in found[1] or time.time() > until:
            return found


def page(port, path):
    """What a get of this path is answered, with its head."""
    with Link(port) as link:
        return link.to_the_end(f"GET {path} HTTP/1.1\r\nhost: localhost\r\nconnection: close\r\n\r\n".encode())


def posted(port, path, body=""):
    """What a post to this path is answered, with its head."""
    body = written(body).encode()
    head = f"POST {path} HTTP/1.1\r\nhost: localhost\r\nconnection: close\r\ncontent-length: {len(body)}\r\n\r\n"
    with Link(port) as link:
        return link.to_the_end(head.encode() + body)


def what_needs_no_network_is_done():
    for line, text, *wanted in (
        ("answer", "{}~", 1, "", 'line 1: 7 BadMessage~line 1: there is no "typeUrl": the type of the resources that are asked for~'),
        ("answer", '{"typeUrl":"CDSr"}~', 0, "", '~typeUrl "CDSr" is none that is known; did you mean "CDS"?~'),
        ("play", "content 1 route~", 0, "none~"),
        ("play --trace 1", "replica 1~", 0),
        ("check", "open 1~", 0, "ok~"),
        ("play", "replicas 1~", 1, "", 'line 1: 21 BadScript~line 1: "replicas" is no command of a script~'),
        ("check", "open 1~open 1~", 1, "", "line 2: 22 BadTrace~line 2: stream 1 was opened before~"),
        ("check", "", 0, "ok~", "~the trace has no lines~"),
        ("check", "open 1~close", 1, "", "line 2: 22 BadTrace~the trace ends within line 2; --so-far judges the lines before it~"),
        ("check --so-far", "open 1~close", 0, "ok~", "judged 1 lines; line 2 isn't whole~"),
        ("check --so-far", "open 1~close 2~", 0, "ok~", "judged 1 lines; line 2 isn't whole~"),
        ("check --so-far", "open 1~close 2~close 1~", 1, "", "line 2: 22 BadTrace~line 2: stream 2 isn't open~"),
    ):
        tells(f"{line} of {text.count('~')} lines is done", Run(line, written(text)).came(), *wanted)


def words_are_looked_at_first():
    status, output, errors = Run("client --help").came()
    tell("help is shown", status == 0 and output and not errors, (status, output, errors))
    for what, line, text in (("17 replicas", "serve --replicas 17", "replica 1\n"), ("a poll without an address", "poll --type cluster", "")):
        status, output, errors = Run(line, text).came()
        tell(f"{what}: these words are wrong", status == 2 and errors and not output, (status, output, errors))


def nobody_is_asked():
    addr = f"127.0.0.1:{free_ports(1, 27000, 50)}"
    tells("a poll of nobody is refused", Run(f"poll --addr {addr} --type cluster").came(), 1, "", "19 Device~")
    line = f"client --addr {addr} --variant sotw --type cluster --responses 1 *"
    tells("a client of nobody is refused", Run(line).came(), 1, "", "19 Device~")


def a_client_hears_of_what_the_other_replica_took():
    server = Served("--streams 2", PUTS_Q, replicas=2)
    client = f"client --addr 127.0.0.1:{server.port + 1} --variant %s --type route --responses 1 q"
    tells("a client hears of what the other replica took", once_served(client % "sotw"), 0, f"taken 1~{Q}~")
    tells("so does an incremental client, with its version", once_served(client % "delta"), 0, f"taken 1~1-1 {Q}~")
    server.ends("the server ends with both streams", told=AGAIN)


def a_half_frame_holds_up_no_client():
    server = Served("--streams 2")
    with Link(server.port) as held:
        held.socket.sendall(b"\x00\x00\x00\x40\x01")
        line = f"client --addr 127.0.0.1:{server.port} --variant sotw --type cluster --responses 1 *"
        tells("half a frame holds up no client", once_served(line), 0, "taken 1~")
    server.ends("a server ends with half a frame and a client", told=AGAIN)


def a_half_frame_holds_up_no_stream():
    server = Served("--first-number 1 --streams 2")
    with Link(server.port) as held:
        held.socket.sendall(HALF_A_FRAME)
        found = answered(server.port, ASKS_FOR_CLUSTERS)
    tell("half a frame holds up no stream", found == written('{"nonce":"1","typeUrl":"CDS","versionInfo":"1.0"}'), found)
    server.ends("a server ends with half a frame and a stream")


def a_server_is_polled():
    server = Served("--streams 1", PUTS_A)
    line = f"poll --addr 127.0.0.1:{server.rest_port} --type cluster"
    wanted = '200~{"resources":[{"@type":"CDS","name":"a"}],"typeUrl":"CDS","versionInfo":"1.1.named"}~'
    tells("a poll is answered", once_told(f"{line} a", '"1.1.named"'), 0, wanted)
    tells("a poll that has the version is 304", once_served(f"{line} --version 1.1"), 0, "304~")
    Link(server.port).socket.close()
    server.ends("a server that is polled ends with its stream", told=AGAIN)


def peer(what, line, last, *wanted):
    """What a run tells of a peer that says no more than this and ends."""
    with socket.create_server(("127.0.0.1", 0)) as listener:
        listener.settimeout(LIMIT)
        run = Run(line.replace("ADDR", f"127.0.0.1:{listener.getsockname()[1]}"))
        link, _ = listener.accept()
        with link:
            link.settimeout(LIMIT)
            link.sendall(last)
            link.shutdown(socket.SHUT_WR)
            while link.recv(4096):
                pass
        tells(what, run.came(), *wanted)


CLIENT = "client --addr ADDR --variant sotw --type cluster --responses 1"


def a_peer_that_ends_is_told():
    peer("a peer of a client that ends is told", f"{CLIENT} *", b"", 1, "", "18 Truncated~")
    peer("a peer of a poll that ends is told", "poll --addr ADDR --type cluster", b"", 1, "", "19 Device~")


def a_peer_that_counts_too_much_speaks_http_where_it_says_so():
    told = "16 FrameTooLong: HTTP is spoken there; --addr of a client is a port of streams~"
    peer("a peer that speaks HTTP is told as such", f"{CLIENT} *", b"HTTP/1.1 400 Bad Request\r\n\r\n", 1, "", told)
    peer("a peer that counts as much and doesn't isn't", f"{CLIENT} *", b"HTTQ/1.1 400 Bad Request\r\n\r\n", 1, "", "16 FrameTooLong~")
    delta = f"{CLIENT} *".replace("sotw", "delta")
    peer("nor is one that says so behind a frame", delta, b"\x00\x00\x00\x02\x09{}HTTP/1.1", 1, "", "17 UnknownKind~")


def a_client_at_a_port_of_rest_is_told_so():
    server = Served("--streams 1")
    line = f"client --addr 127.0.0.1:{server.rest_port} --variant sotw --type cluster --responses 1 *"
    told = "16 FrameTooLong: HTTP is spoken there; --addr of a client is a port of streams~"
    tells("a client at a port of REST is told so", once_served(line), 1, "", told)
    Link(server.port).socket.close()
    server.ends("the server behind it ends with its stream", told=AGAIN)


def silent(what, line):
    """That a run gives up whose peer takes its connection and says nothing."""
    with socket.create_server(("127.0.0.1", 0)) as listener:
        listener.settimeout(LIMIT)
        run = Run(line.replace("ADDR", f"127.0.0.1:{listener.getsockname()[1]}"))
        link, _ = listener.accept()
        with link:
            found = run.came()
    tells(what, found, 1, "", "19 Device: gave up after 1 s~")


def who_waits_no_longer_says_so():
    silent("a client whose peer is silent gives up", f"{CLIENT} --seconds 1 *")
    silent("a poll whose peer is silent gives up", "poll --addr ADDR --type cluster --seconds 1")


def who_is_answered_in_time_does_not_give_up():
    server = Served("--streams 2", PUTS_A)
    Link(server.port).socket.close()
    found = once_told(f"poll --addr 127.0.0.1:{server.rest_port} --type cluster --seconds 60 a", '"1.1.named"')
    wanted = '200~{"resources":[{"@type":"CDS","name":"a"}],"typeUrl":"CDS","versionInfo":"1.1.named"}~'
    tells("a poll that is answered in time doesn't give up", found, 0, wanted)
    line = f"client --addr 127.0.0.1:{server.port} --variant sotw --type cluster --responses 1 --seconds 60 *"
    tells("nor does a client", once_served(line), 0, 'taken 1~{"@type":"CDS","name":"a"}~')
    server.ends("a server whose clients had time ends with them", told=AGAIN)


CHANGES = '''# a comment~put 1 {"@type":"RDS","name":"r"}~delete 1 cluster none~put 2 {"@type":"RDS","name":"s"}~delete 2 route s~\
put 3 {"@type":"RDS","name":"r"}~view 1 route'''
CHANGED = r"""\r\n\r\nline 2: 1-1
line 3: 9 NotFound
line 4: \d+-2
line 5: \d+-2
line 6: 21 BadScript: no such replica
line 7: 21 BadScript: unknown command
$"""
ASKS_AS_C = '{"node":{"cluster":"g","id":"c"},"resourceNames":["r"],"typeUrl":"RDS"}'
ACCEPTS = '{"resourceNames":["r","t"],"responseNonce":"1","versionInfo":"1.1.named","typeUrl":"RDS"}'
REJECTS = '{"resourceNames":["r","t"],"responseNonce":"2","errorDetail":{"message":"no"},"typeUrl":"RDS"}'
SHOWN = (
    "content-type: application/json",
    '{"replicas":[{"replica":1,"number":1,"responses":[{"type":"cluster","bytes":97,"limit":16777215},',
    '{"type":"secret","bytes":114,"limit":16777215}],"streams":[{"stream":1,"peer":"127.0.0.1:',
    '"node":"c","cluster":"g","variant":"sotw","since":"20',
    '"types":[{"type":"route","names":2,',
    '"rejection":"no","rejected":"2","state":"REJECTED","since":"20',
    'Z"}]}]},{"replica":2,"number":2,"responses":[{"type":"cluster","bytes":97,',
    '"limit":16777215}],"streams":[]}]}',
)
COUNTED = (
    "# TYPE xds_resources gauge~",
    'xds_changes_refused_total{replica="1"} 1~',
    'xds_resources{replica="1",type="route"} 2~',
    'xds_streams{replica="1",variant="sotw"} 1~',
    'xds_streams{replica="2",variant="sotw"} 0~',
    'xds_acks_total{replica="1",type="route"} 1~',
    'xds_nacks_total{replica="1",type="route"} 1~',
    'xds_put_to_last_response_seconds{replica="1"} ',
    'xds_put_to_accept_seconds_count{replica="1"} 0~',
    'xds_streams_opened_total{replica="1"} 1~',
    'xds_rest_replies_total{replica="1",status="200"} 0~',
)


def once_shown(port, path, parts):
    """A page, once it has each of these parts, and in the end whatever it has."""
    until = time.time() + LIMIT
    while True:
        text = page(port, path)
        if all(written(it) in text for it in parts) or time.time() > until:
            return text
        time.sleep(0.05)


def a_server_is_operated():
    server = Served("--first-number 1 --admin-port ADMIN", replicas=2)
    port = server.admin_port
    holds("it says that it is well", page(port, "/healthz"), "HTTP/1.1 200 ", "\r\n\r\nok~")
    holds("and ready", page(port, "/ready"), "HTTP/1.1 200 ", "\r\n\r\nready~")
    answer = posted(port, "/changes", CHANGES)
    tell("changes are answered line by line", re.search(CHANGED, answer), answer)
    with Link(server.port) as link:
        first = link.answered(ASKS_AS_C)
        link.ask(ACCEPTS)
        posted(port, "/changes", 'put 1 {"@type":"RDS","name":"t"}~')
        second = link.response()
        tell("a client is told of each change", first and second, (first, second))
        link.ask(REJECTS)
        holds("what it accepts and rejects is shown", once_shown(port, "/status", SHOWN), *SHOWN)
        holds("and counted", once_shown(port, "/metrics", COUNTED), *COUNTED)
        posted(port, "/stop")
    server.ends("a server that is operated ends well", told=f"an operator's port on 127.0.0.1:{port}~")


def a_server_stops_beside_silent_clients():
    server = Served("--first-number 1 --admin-port ADMIN")
    with Link(server.port), Link(server.port) as half:
        half.socket.sendall(HALF_A_FRAME)
        holds("a stop is answered beside silent clients", posted(server.admin_port, "/stop"), "HTTP/1.1 200 ", "stopping~")
        server.ends("a server stops beside silent clients", told=f"an operator's port on 127.0.0.1:{server.admin_port}~")


WRITE_Z = '{"body":{"@type":"RDS","name":"z"},"counter":9,"groups":["g"],"name":"z","typeUrl":"RDS","writer":77}~'
DELETION_Y = '{"counter":4,"name":"y","typeUrl":"CDS","writer":78}~'
GREATER_Z = '{"counter":11,"name":"z","typeUrl":"RDS","writer":77}~'


class Waiter(threading.Thread):
    """Waits at an operator's port until a replica's writes change, for at most a minute."""

    def __init__(self, port):
        super().__init__(daemon=True)
        self.port, self.text, self.begun, self.took = port, "", time.time(), LIMIT
        self.start()

    def run(self):
        self.text = page(self.port, "/writes?since=0.0.0.0.0&wait=60")
        self.took = time.time() - self.begun


def writes_are_shared_at_an_operators_port():
    server = Served("--first-number 1 --admin-port ADMIN", replicas=2)
    port = server.admin_port
    holds("where there are no writes, none is listed", page(port, "/writes"), "xds-marks: 0.0.0.0.0\r\n", "content-length: 0\r\n")
    waiter = Waiter(port)
    time.sleep(1)
    answer = posted(port, "/writes?replica=2", WRITE_Z + DELETION_Y)
    holds("writes are merged at a replica", answer, "HTTP/1.1 200 ", "\r\n\r\ngrew 2~")
    holds("which holds them from then on", page(port, "/writes?replica=2"), f"\r\n\r\n{DELETION_Y}{WRITE_Z}")
    waiter.join(LIMIT)
    holds("a wait lasts until writes come to the other replica", waiter.text, 'writer":7')
    tell("a wait that they end is over long before its time", waiter.took < 45, waiter.took)
    holds("a wait behind them ends at once", page(port, "/writes?since=0.0.0.0.0&wait=60"), 'writer":7')
    for path in ("/writes?replica=2", "/writes?replica=2&since=0.0.0.0.0&wait=60"):
        answer = page(port, path)
        holds(f"all writes are listed: {path}", answer, "xds-marks: 1.0.0.1.0\r\n", f"\r\n\r\n{DELETION_Y}{WRITE_Z}")
    holds("what changed since is listed", page(port, "/writes?replica=2&since=1.0.0.0.0"), f"\r\n\r\n{WRITE_Z}")
    holds("writes that are there change nothing", posted(port, "/writes?replica=2", WRITE_Z + DELETION_Y), "\r\n\r\ngrew 0~")
    answer = posted(port, "/writes?replica=2", GREATER_Z + '{"counter":1}~')
    holds("a line that is no write is told", answer, "HTTP/1.1 400 ", "\r\n\r\nline 2: 7 BadMessage~")
    holds("and nothing is merged then", page(port, "/writes?replica=2"), "xds-marks: 1.0.0.1.0\r\n")
    holds("a replica that isn't there has no writes", page(port, "/writes?replica=3"), "HTTP/1.1 404 ")
    holds("nor are any merged at one", posted(port, "/writes?replica=3", WRITE_Z), "HTTP/1.1 404 ")
    holds("a replica that is no number is refused", posted(port, "/writes?replica=x"), "HTTP/1.1 400 ")
    posted(port, "/stop")
    server.ends("a server whose writes are shared ends well", told=f"an operator's port on 127.0.0.1:{port}~")


def ports_in_use_are_told():
    for what, replicas, taken, text in (("streams", 2, 1, ""), ("REST", 1, 2, "put~")):
        first = free_ports(4, 27000, 50)
        with socket.create_server(("127.0.0.1", first + taken)):
            line = f"serve --replicas {replicas} --port {first} --rest-port {first + 2} --first-number 1"
            told = f"127.0.0.1:{first + taken}: 19 Device: in use~"
            tells(f"a port of {what} that is in use is told", Run(line, written(text)).came(), 1, "", told)


def it_ends_after_as_many_streams_as_are_asked_for():
    server = Served("--first-number 1 --streams 3")
    with Link(server.port):
        for _ in range(3):
            Link(server.port).socket.close()
        server.ends("a server ends after as many streams as are asked for, beside one that is open")


def lines_that_end_a_server():
    lines = '# a comment~~put 1 {"@type":"CDS","name":"a"}~put 9 {"@type":"CDS","name":"a"}~delete 1 cluster none~view 1 cluster~put~'
    for what, text, told in (
        ("that is no change", lines, "line 6: 21 BadScript~"),
        ("with a put of no resource", "put 1 {}", "line 1: 21 BadScript~"),
        ("with a put in a bad group", '~putin 1 a, {"@type":"CDS","name":"a"}~', "line 2: 21 BadScript~"),
    ):
        Served("--first-number 1", text).ends(f"a line {what} ends a server", 1, told)
    Served("", "# none~replica 1~").ends("a line that no server takes ends it", 1, f"{AGAIN}line 2: 21 BadScript~")
    lines = '# a comment~~put 1 {"@type":"CDS","name":"a"}~settle 1 cluster'
    server = Served("--first-number 1", lines, drips=True)
    server.ends("lines that come byte by byte are counted", 1, "line 4: 21 BadScript~")


def an_input_that_fails_ends_a_server():
    with socket.create_server(("127.0.0.1", 0)) as listener:
        sends = socket.create_connection(listener.getsockname(), LIMIT)
        given, _ = listener.accept()
    with given, sends:
        server = Served("--first-number 1", given=given)
        sends.sendall(b"put")
        Link(server.port).socket.close()
        time.sleep(0.5)
        # Its end is a reset, by which the next read fails.
        sends.setsockopt(socket.SOL_SOCKET, socket.SO_LINGER, struct.pack("ii", 1, 0))
        sends.close()
        server.ends("an input that fails in the midst of a line ends a server", 1, "19 Device~")


def long_lines():
    server = Served("--first-number 1", "#" * (MAX_LINE + 1))
    server.ends("a line that is too long ends a server", 1, "line 1: 6 TooLong~")
    server = Served("--first-number 1", "#" * MAX_LINE + "~put~")
    server.ends("a line as long as a line may be is taken", 1, "line 2: 21 BadScript~")


OTHER_VARIANT = '''line 4: 22 BadTrace~line 4: "resources" has one that isn't an object with a "resource" of its "typeUrl"~'''

WRONG_LINES = '''# a comment~view 1 cluster~put x {}~put 1 {}~put 1 nojson~put 1~delete 1 clusters a~delete 1 cluster a b~\
put 9 {"@type":"RDS","name":"r"}~~put 1 {"@type":"RDS","name":"r"}~'''
WRONG_LINES_TOLD = """line 2: 21 BadScript: unknown command
line 3: 21 BadScript: no number of a replica
line 4: 21 BadScript: 4 BadResource
line 5: 21 BadScript: 1 NotJson
line 6: 21 BadScript: wrong words
line 7: 21 BadScript: unknown type
line 8: 21 BadScript: wrong words
line 9: 21 BadScript: no such replica
"""
REFUSED_CHANGE = 'delete 1 route r~put 1 {"@type":"RDS","name":"r"}~'


def hears_of_r(what, server):
    """That a client of a server is told of the route `r` alone."""
    holds(what, answered(server.port, ASKS_FOR_R), R_ALONE)


def refused_lines_are_told():
    server = Served("--first-number 1 --keep-going --streams 1", WRONG_LINES)
    hears_of_r("a line behind wrong ones is made", server)
    server.ends("each of the wrong lines is told", told=WRONG_LINES_TOLD)
    server = Served("--first-number 1 --keep-going --streams 1", REFUSED_CHANGE)
    hears_of_r("a line behind a refused change is made", server)
    server.ends("a change that is refused is told of a server that keeps going", told="line 1: 9 NotFound~")
    server = Served("--first-number 1 --streams 1", REFUSED_CHANGE, terminal=True)
    hears_of_r("so it is by a server at a terminal", server)
    server.ends("a change that is refused is told at a terminal", told="line 1: 9 NotFound~")
    server = Served("--first-number 1", "put 1~", terminal=True)
    server.ends("a wrong line ends a server at a terminal", 1, "line 1: 21 BadScript~")


def is_kept(link):
    """Whether the server keeps a connection for a fifth of a second."""
    link.socket.settimeout(0.2)
    try:
        return link.socket.recv(1) != b""
    except TimeoutError:
        return True
    except ConnectionError:
        return False
    finally:
        link.socket.settimeout(LIMIT)


def once_there_is_a_place(port):
    """What a stream is told of clusters, once one is kept; none where that takes too long."""
    until = time.time() + LIMIT
    while time.time() < until:
        with Link(port) as link:
            if is_kept(link):
                return link.answered(ASKS_FOR_CLUSTERS)
    return None


def a_connection_past_the_most_is_closed():
    server = Served("--first-number 1 --streams 2 --max-streams 1")
    with Link(server.port) as first:
        found = first.answered(ASKS_FOR_CLUSTERS)
        tell("a stream is answered where there may be one", found, found)
        with Link(server.port) as second:
            found = second.response()
            tell("a connection past the most is closed", found is None, found)
    found = once_there_is_a_place(server.port)
    tell("a stream is answered once the first has left", found, found)
    server.ends("a server with a most ends with both streams")


def a_stream_without_a_first_frame_is_ended():
    server = Served("--first-number 1 --streams 3 --idle-seconds 2")
    with Link(server.port) as asks:
        first = asks.answered(ASKS_FOR_CLUSTERS)
        with Link(server.port) as idle, Link(server.port) as silent_one:
            idle.socket.sendall(HALF_A_FRAME)
            found = [idle.response(), silent_one.response()]
        tell("a stream with half a first frame, and one with nothing, are ended", found == [None, None], found)
        found = asks.answered('{"typeUrl":"LDS"}')
        tell("one with a whole frame goes on", first and found, (first, found))
    server.ends("a server ends with its idle streams")


def threads_of(server):
    """How many threads it has, once none more has started for a while."""
    last, since = 0, time.time()
    until = since + LIMIT
    while time.time() < min(since + 1, until):
        count = len(os.listdir(f"/proc/{server.run.pid}/task"))
        if count != last:
            last, since = count, time.time()
        time.sleep(0.02)
    return last


def workers_are_as_many_as_are_asked_for():
    counts = {}
    for workers in (1, 4):
        server = Served(f"--first-number 1 --streams 41 --workers {workers}", replicas=2)
        with Link(server.port) as first:
            found = first.answered(ASKS_FOR_CLUSTERS)
            before = threads_of(server)
            links = [Link(server.port) for _ in range(40)]
            all_found = [it.answered(ASKS_FOR_CLUSTERS) for it in links]
            counts[workers] = before, threads_of(server)
            for it in links:
                it.socket.close()
        tell(f"streams are answered by {workers} workers", found and all(all_found), (found, all_found))
        server.ends(f"a server of {workers} workers ends with its streams")
    tell("40 streams more take no thread more", all(before == after for before, after in counts.values()), counts)
    tell("each replica has as many workers as are asked for", counts[4][0] - counts[1][0] == 2 * 3, counts)


REJECTS_ALL = '{"errorDetail":{"code":3,"message":"no \\"way\\"\\nat all"},"responseNonce":"1","typeUrl":"CDS"}'


def what_happens_on_a_stream_is_told():
    server = Served("--first-number 1 --log --streams 1", "delete 1 route r~")
    with Link(server.port) as link:
        first = link.answered('{"node":{"cluster":"g","id":"c"},"typeUrl":"CDS"}')
        link.ask(REJECTS_ALL)
        link.socket.sendall(b"\x00\x00\x00\x01\x09")
        last = link.response()
    tell("a stream with a frame of no kind is ended", first and last is None, (first, last))
    status, output, errors = server.came()
    served = f"streams on 127.0.0.1:{server.port}, REST on 127.0.0.1:{server.rest_port}~"
    holds(
        "what happens on a stream is told",
        errors,
        f"replica 1: {served}",
        f"[INFO ] replica 1 listens: {served}",
        "line 1: 9 NotFound~",
        "[INFO ] replica 1, stream 1: connected from 127.0.0.1:",
        '[INFO ] replica 1, stream 1: first request, node "c", cluster "g", sotw, "CDS"~',
        '[WARN ] replica 1, stream 1: response "1" of "CDS" is rejected: "no ?way??at all"~',
        "[WARN ] replica 1, stream 1: ended by 17 UnknownKind~",
    )
    tell("a server that logs ends with its stream", (status, output) == (0, ""), (status, output))
    server = Served("--first-number 1 --log --streams 1")
    Link(server.port).socket.close()
    status, _, errors = server.came()
    holds("a stream that its client ends is told", errors, "[INFO ] replica 1, stream 1: ended~")
    tell("a server that logs it ends, too", status == 0, status)


# rule: cuts
def a_recorded_run_is_checked():
    with tempfile.TemporaryDirectory(prefix="xds-recording-") as folder:
        server = Served(f"--first-number 1 --streams 1 --record {folder}", 'put 1 {"@type":"RDS","name":"p"}~')
        found = answered(server.port, '{"resourceNames":["p"],"typeUrl":"RDS"}')
        holds("a client of a server that records is answered", found, '"name":"p"')
        server.ends("a server that records ends with its stream")
        with open(f"{folder}/replica-1.trace", encoding="utf-8") as file:
            trace = file.read()
    for what, word, by, *wanted in (
        ("is ok", "", "", 0, "ok~"),
        ("without a nonce breaks a rule", '"nonce":"1"', '"nonce":""', 1, "broken 4 P1~"),
        ("with a response of another variant is none", "response 1 2", "response 1 4", 1, "", OTHER_VARIANT),
    ):
        tells(f"a recorded trace {what}", Run("check", trace.replace(word, by) if word else trace).came(), *wanted)


def files_that_cannot_be_made_are_told():
    with tempfile.TemporaryDirectory(prefix="xds-recording-") as folder:
        open(f"{folder}/replica-2.trace", "wb").close()
        # Twice, so that the first leaves no file behind.
        for what, where, why in (
            ("a file that is there is told", f"{folder}/replica-2.trace", "it is there already"),
            ("a file that is there is told again", f"{folder}/replica-2.trace", "it is there already"),
            ("a folder that isn't there is told", f"{folder}/none/replica-1.trace", "no such folder"),
        ):
            server = Served(f"--first-number 1 --record {os.path.dirname(where)}", "put~", replicas=2)
            tells(what, server.came(), 1, "", f"{where}: 19 Device: {why}~")
        found = os.listdir(folder)
        tell("no file is left behind", found == ["replica-2.trace"], found)


def pictures_are_written():
    with tempfile.TemporaryDirectory(prefix="xds-pictures-") as folder:
        new, old = f"{folder}/new.svg", f"{folder}/old.svg"
        with open(old, "w", encoding="utf-8") as file:
            file.write("x" * 100_000)
        for what, line, text, status, output in (
            ("a trace is drawn", f"check --picture {new}", "open 1~close 1~", 0, "ok~"),
            ("a broken trace is drawn over an older file", f"check --picture {old}", "open 1~idle 1 cluster~", 0, "ok~"),
            ("a script is drawn", f"play --picture {new}", "content 1 route~", 0, "none~"),
        ):
            tells(what, Run(line, written(text)).came(), status, output)
            with open(old if "old" in line else new, encoding="utf-8") as file:
                image = file.read()
            tell(f"{what} as an image", image.startswith("<svg ") and image.rstrip().endswith("</svg>"), image[-200:])
        mode = os.stat(new).st_mode & 0o777
        tell("a new picture is for who runs the program alone", mode == 0o600, oct(mode))
        lost = f"{folder}/none/a.svg"
        found = Run(f"check --picture {lost}", written("open 1~")).came()
        tells("a picture that can't be written is told behind the verdict", found, 1, "ok~", f"{lost}: 19 Device: no such file~")
        found = Run(f"check --picture {new}", written("opened 1~")).came()
        tell("of no trace no picture is drawn", found[0] == 1 and not found[1], found)


def what_is_put_at_one_replica_reaches_a_client_at_another():
    server = Served("--first-number 1 --streams 1", PUTS_Q, replicas=2)
    holds("what is put at one replica reaches a stream at another", answered(server.port + 1, ASKS_FOR_Q), Q)
    server.ends("both replicas end with the stream")


def what_is_deleted_is_gone_and_a_group_keeps_its_own():
    # The last line has no end. Whoever was told of it asks behind all of them.
    lines = f'{PUTS_Q}delete 1 route q~putin 1 g {{"@type":"CDS","name":"s"}}~put 1 {{"@type":"RDS","name":"r"}}'
    server = Served("--first-number 1 --streams 4", lines)
    hears_of_r("the last line is made, without its end", server)
    holds("what is deleted is gone", answered(server.port, '{"resourceNames":["q","r"],"typeUrl":"RDS"}'), R_ALONE)
    found = answered(server.port, ASKS_FOR_CLUSTERS)
    tell("who isn't of a group isn't told of what is for it", found and "resources" not in found, found)
    found = answered(server.port, '{"node":{"cluster":"g","id":"c"},"typeUrl":"CDS"}')
    holds("who is of it is", found, '"resources":[{"@type":"CDS","name":"s"}]')
    server.ends("a server ends with its four streams")


def a_poll_of_one_replica_is_answered_what_another_was_told():
    server = Served("--first-number 1 --streams 1", PUTS_Q, replicas=2)
    # Once a stream was told of the route, it has come to replica 2.
    with Link(server.port + 1) as held:
        held.answered(ASKS_FOR_Q)
        post = '{"resourceNames":["q"]}'
        head = f"POST /v3/discovery:routes HTTP/1.1\r\nhost: h\r\nconnection: close\r\ncontent-length: {len(post)}\r\n\r\n{post}"
        with Link(server.rest_port + 1) as link:
            holds("a poll of one replica is answered what another was told", link.to_the_end(head.encode()), "HTTP/1.1 200 ", Q)
    server.ends("a server of both ends with the stream")


CASES = (
    what_needs_no_network_is_done,
    words_are_looked_at_first,
    nobody_is_asked,
    a_client_hears_of_what_the_other_replica_took,
    a_half_frame_holds_up_no_client,
    a_half_frame_holds_up_no_stream,
    a_server_is_polled,
    a_peer_that_ends_is_told,
    a_peer_that_counts_too_much_speaks_http_where_it_says_so,
    a_client_at_a_port_of_rest_is_told_so,
    who_waits_no_longer_says_so,
    who_is_answered_in_time_does_not_give_up,
    a_server_is_operated,
    a_server_stops_beside_silent_clients,
    writes_are_shared_at_an_operators_port,
    ports_in_use_are_told,
    it_ends_after_as_many_streams_as_are_asked_for,
    lines_that_end_a_server,
    an_input_that_fails_ends_a_server,
    long_lines,
    refused_lines_are_told,
    a_connection_past_the_most_is_closed,
    a_stream_without_a_first_frame_is_ended,
    workers_are_as_many_as_are_asked_for,
    what_happens_on_a_stream_is_told,
    a_recorded_run_is_checked,
    pictures_are_written,
    files_that_cannot_be_made_are_told,
    what_is_put_at_one_replica_reaches_a_client_at_another,
    what_is_deleted_is_gone_and_a_group_keeps_its_own,
    a_poll_of_one_replica_is_answered_what_another_was_told,
)


def tried(case):
    """Runs a case. What stops it counts against it, and the next is tried."""
    try:
        case()
    except Exception as error:
        tell(f"{case.__name__} comes to its end", False, error)


def main():
    if not os.path.isfile(operate.PROGRAM):
        sys.exit(2)
    asked = sys.argv[2:]
    wrong = set(asked) - {it.__name__ for it in CASES}
    if wrong:
        sys.exit(f"there is no case {' '.join(sorted(wrong))}: there are {' '.join(it.__name__ for it in CASES)}")
    for case in CASES:
        if not asked or case.__name__ in asked:
            tried(case)
    end()


if __name__ == "__main__":
    main()
