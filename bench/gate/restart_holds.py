"""Servers that answer nobody until they are told to, and servers that begin with the writes of another store. Used by restart.py."""
import json
import os
import re
import socket
import time

from restart_clients import Delta, Known
from restart_server import PATIENCE, Ports, Server, compact, ended, polled, put, stamp_of, writes_of

# As many lines as stand before the line `ready`, and as many bytes as are written at once.
LINES = 400
PIECE = 777


def fed(server, text):
    """Feeds the input in pieces that end in the middle of lines."""
    data = text.encode()
    for at in range(0, len(data), PIECE):
        server.run.stdin.write(data[at : at + PIECE])
        server.run.stdin.flush()


def silent(client, ports, place, seconds):
    """Whether a stream is told nothing for a while; and its socket."""
    link = socket.create_connection(("127.0.0.1", ports.stream(place)), timeout=PATIENCE)
    client.send(link, 3, {"node": {"id": "waits"}, "resourceNamesSubscribe": ["*"]})
    link.settimeout(seconds)
    try:
        return link.recv(1), link
    except TimeoutError:
        link.settimeout(PATIENCE)
        return None, link


# rule: loaded-first
def held(program, tell, early, lines_of, by_port):
    """Nobody is answered before it is said, and then each is told all that was put, at each replica."""
    counts = {"cluster": LINES // 2, "listener": LINES // 4, "route": LINES // 4}
    routes = [f"r{it}" for it in range(counts["route"])]
    ports, what = Ports(2), "by POST /ready" if by_port else "by a line"
    server = Server(program, ports, "--hold", "--first-number", 7, "--keep-going", "--idle-seconds", 1)
    until = time.monotonic() + PATIENCE
    while time.monotonic() < until and not is_bound(ports):
        time.sleep(0.01)
    clients = early(ports, [("cluster", None), ("listener", None), ("route", routes)])
    fed(server, lines_of(counts))
    found, link = silent(Delta(Known(), ports, "cluster", None, "", 0), ports, 2, 1.6)
    tell(f"held, {what}: a stream is told nothing, beyond the seconds of idle streams, too", found is None, found)
    statuses = [server.ask("/healthz")[0], server.ask("/ready")[0], polled(ports, "cluster")[0], polled(ports, "route", place=2)[0]]
    tell(f"held, {what}: it runs, isn't ready, and polls have 503", statuses == [200, 503, 503, 503], statuses)
    told = [it for it in clients if it.first is not None]
    tell(f"held, {what}: nobody was told anything", not told, len(told))
    if by_port:
        status, answer = server.ask("/ready", "")
        until = time.monotonic() + PATIENCE
        while status == 503 and time.monotonic() < until:
            status, answer = server.ask("/ready")
        tell("POST /ready is answered once clients are, or GET /ready is", (status, answer) == (200, "ready\n"), (status, answer))
    else:
        for piece in ("rea", "dy", "\n" + put("cluster", "last", x=3)):
            fed(server, piece)
            time.sleep(0.1)
        server.ready()
    for it in clients:
        it.join(PATIENCE)
    # A put behind the line `ready` may be there already.
    wrong = {}
    for it in clients:
        most = counts[it.kind] + (it.kind == "cluster" and not by_port)
        if it.names_told() is None or not counts[it.kind] <= it.names_told() <= most:
            wrong[it.client.who, it.place] = it.names_told()
    if by_port:
        # What the input still says when it is asked for comes later.
        wrong = {who: told for who, told in wrong.items() if told is None}
    tell(f"held, {what}: then each of {len(clients)} clients is told all", not wrong, wrong)
    response = Delta(Known(), ports, "cluster", None, "", 0).take(link)
    tell(f"held, {what}: and so is the stream that waited", len(response.get("resources", [])) > 0, response)
    link.close()
    server.stop()


def is_bound(ports):
    try:
        for port in (ports.stream(1), ports.stream(2), ports.rest(1), ports.rest(2), ports.admin()):
            socket.create_connection(("127.0.0.1", port), timeout=1).close()
        return True
    except OSError:
        return False


def lines_ready(program, tell):
    """Which lines are the line `ready`."""
    a, b = put("cluster", "a", x=1), put("cluster", "b", x=2)
    # (words, the input, what is told, the status; whether it is ready then, where it goes on)
    cases = [
        (["--hold"], "ready", "", None),
        (["--hold"], a + "ready\n" + b, "", None),
        (["--hold"], a + "ready\nready\n", "line 3: 21 BadScript\n", 1),
        (["--hold"], a + "ready \n", "line 2: 21 BadScript\n", 1),
        (["--hold"], "readyx\n", "line 1: 21 BadScript\n", 1),
        (["--hold"], a + "\nrea\n", "line 3: 21 BadScript\n", 1),
        (["--hold"], a + "read", "line 2: 21 BadScript\n", 1),
        (["--hold"], "\n\nready\nwrong\n", "line 4: 21 BadScript\n", 1),
        ([], a + "ready\n", "line 2: 21 BadScript\n", 1),
    ]
    for words, text, told, status in cases:
        ports = Ports(1)
        server = Server(program, ports, "--first-number", 3, *words)
        fed(server, text)
        server.run.stdin.close()
        if status is None:
            took = server.ready()
            found = polled(ports, "cluster")
            wanted = {name: x for name, x in (("a", 1), ("b", 2)) if f'"{name}"' in text}
            until = time.monotonic() + PATIENCE
            while found[2] != wanted and time.monotonic() < until:
                found = polled(ports, "cluster")
            tell(f"the input {text[-20:]!r} lets clients be answered ({took:.1f} s)", found[0] == 200 and found[2] == wanted, found)
            server.stop()
            continue
        ended_by = server.run.wait(PATIENCE)
        server.reader.join()
        errors = server.errors()
        tell(f"the input {text[-20:]!r} {' '.join(words)} ends by {told.strip()}", ended_by == status and errors.endswith(told), (ended_by, errors))
        server.kill()


def stopped(program, tell):
    """A server that is stopped before it answered anybody."""
    ports = Ports(2)
    server = Server(program, ports, "--hold", "--first-number", 3)
    until = time.monotonic() + PATIENCE
    while time.monotonic() < until and not is_bound(ports):
        time.sleep(0.01)
    fed(server, put("cluster", "a", x=1))
    found, link = silent(Delta(Known(), ports, "cluster", None, "", 0), ports, 1, 0.3)
    status, took = server.stop()
    try:
        rest = link.recv(1)
    except OSError:
        rest = b""
    link.close()
    tell("a server that is held can be stopped, and its streams end untold", found is None and status == 0 and rest == b"" and took < PATIENCE, (found, status, took, rest))


def holds(program, tell, early, lines_of):
    for by_port in (False, True):
        held(program, tell, early, lines_of, by_port)
    lines_ready(program, tell)
    stopped(program, tell)


# ---- the writes of another store


def told_of(program, words, wanted, what, tell):
    """That a server of these words ends with status 1 and tells this."""
    run = ended(program, "serve", *Ports(2).words(), *map(str, words))
    tell(f"{what} is refused", run.returncode == 1 and re.fullmatch(wanted, run.stderr) is not None, (run.returncode, run.stderr))


# rule: new-numbers
def given(program, folder, tell):
    old, new, file = (os.path.join(folder, it) for it in ("old.db", "new.db", "writes"))
    ports = Ports(2)
    server = Server(program, ports, "--store", old, "--first-number", 40)
    server.ready()
    made = put("cluster", "a", x=1) + put("cluster", "b", 2, ("g1", "g2"), x=2) + put("route", "r", 2, x=3) + "delete 2 route r\n" + put("secret", "s", x=4)
    answer = server.post("/changes", made)
    tell("a store is filled", answer.count("-4") == 5 and "not" not in answer, answer)
    server.stop()
    before = writes_of(program, old)
    lines = ended(program, "writes", "--store", old).stdout
    with open(file, "w", encoding="utf-8") as it:
        it.write(lines)
    # A new store: it has all of it, by the stamps that they had, and numbers above them.
    server = Server(program, ports, "--store", new, "--writes", file)
    server.ready()
    tell("a new store's replicas have numbers above those of the writes", list(server.numbers().values()) == [42, 43], server.errors())
    found = polled(ports, "cluster", place=2)
    tell("its clients are told what was written", found[2] == {"a": 1}, found)
    server.stop()
    tell("the new store has the writes of the old one, by their stamps", writes_of(program, new) == before, (writes_of(program, new), before))
    # Once more, with a change between: nothing that is greater goes.
    server = Server(program, ports, "--store", new)
    server.ready()
    answer = server.post("/changes", put("cluster", "a", 2, x=9))
    stamp = stamp_of(answer.split()[2])
    tell("a change after them is greater", stamp > before["cluster", "a"].stamp and stamp[1] == 45, answer)
    server.stop()
    server = Server(program, ports, "--store", new, "--writes", file)
    server.ready()
    found = polled(ports, "cluster")
    tell("an older write of the file doesn't come back", found[2] == {"a": 9} and list(server.numbers().values()) == [46, 47], (found, server.errors()))
    server.stop()
    # Without a store.
    server = Server(program, ports, "--writes", file)
    server.ready()
    errors = server.errors()
    tell("without a store the numbers are the next ones, which is told", list(server.numbers().values()) == [42, 43] and "numbers begin at 42 again" in errors, errors)
    server.stop()
    server = Server(program, ports, "--writes", file, "--first-number", 50)
    server.ready()
    tell("a first number above them is taken", list(server.numbers().values()) == [50, 51] and "again" not in server.errors(), server.errors())
    answer = server.post("/changes", put("cluster", "a", x=7) + "delete 1 route r\n")
    tell("deletions are there, too", re.fullmatch(r"line 1: \d+-50\nline 2: 9 NotFound\n", answer) is not None, answer)
    server.stop()
    told_of(program, ["--writes", file, "--first-number", 41], re.escape(file) + r": its writes have the numbers of these replicas[^\n]*\n", "a first number that a replica of the writes had", tell)
    told_of(program, ["--writes", file, "--first-number", 1, "--store", os.path.join(folder, "none.db")], re.escape(file) + r": its writes have the numbers[^\n]*\n", "a first number below those of the writes, with a store,", tell)
    wrong_files(program, folder, lines, tell)


def wrong_files(program, folder, lines, tell):
    file = os.path.join(folder, "wrong")
    first = lines.splitlines(keepends=True)[0]
    last = json.loads(first)
    last["writer"] = 65535
    # (what stands in the file, what is told)
    cases = [
        (first + "{}\n", r"line 2: \d+ BadMessage"),
        (first + "\n", r"line 2: \d+ NotJson"),
        ("put 1 {}\n", r"line 1: \d+ NotJson"),
        (first + first[:-20] + "\n", r"line 2: \d+ NotJson"),
        (compact(last) + "\n", "its writes have the numbers of these replicas[^\n]*"),
    ]
    for text, told in cases:
        with open(file, "w", encoding="utf-8") as it:
            it.write(text)
        told_of(program, ["--writes", file], re.escape(file) + ": " + told + "\n", f"a file that ends with {text[-24:]!r}", tell)
    told_of(program, ["--writes", file + ".none"], re.escape(file) + r"\.none: 19 Device: no such file\n", "a file of writes that isn't there", tell)
    told_of(program, ["--writes", folder], re.escape(folder) + r": 19 Device[^\n]*\n", "a folder in place of writes", tell)
    for text, wanted in (("", {}), (first.rstrip("\n"), None)):
        with open(file, "w", encoding="utf-8") as it:
            it.write(text)
        ports = Ports(1)
        server = Server(program, ports, "--writes", file, "--first-number", 99)
        server.ready()
        found = polled(ports, "cluster")
        tell(f"a file of {'no' if not text else 'one'} write, without a last line feed, is taken", found[0] == 200 and (found[2] == wanted or text), found)
        server.stop()
