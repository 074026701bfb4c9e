#!/usr/bin/env python3
"""What a server counts and shows, beside what this script counts itself, over the program.

    python3 bench/gate/counts.py crates/xds/out/xds [ANSWERS]

Starts servers of the program and compares every number of /metrics with its own count: under a load of answers from several streams
at once (50,000, or as many as are said), after requests that were refused or are out of date, after polls over HTTP that are more
than a journal holds, and at a server of which each number is known. Reads /status as JSON where the cluster texts of clients are
hostile. Where Prometheus' promtool is there (Debian's `prometheus`), its `check metrics` has nothing to say. Prints a line for each, and the status is 1 where one isn't as it is to be, and 2 where it can't be tried, since the program
isn't there.
"""
import json
import os
import re
import shutil
import socket
import subprocess
import sys
import threading
import time

import operate
from operate import Server, Stream, comes
from telling import end, tell

KINDS = {
    "cluster": "type.googleapis.com/envoy.config.cluster.v3.Cluster",
    "endpoint": "type.googleapis.com/envoy.config.endpoint.v3.ClusterLoadAssignment",
    "listener": "type.googleapis.com/envoy.config.listener.v3.Listener",
    "route": "type.googleapis.com/envoy.config.route.v3.RouteConfiguration",
    "secret": "type.googleapis.com/envoy.extensions.transport_sockets.tls.v3.Secret",
}
STREAMS = 20
ANSWERS = (int(sys.argv[2]) if len(sys.argv) > 2 else 50_000) // STREAMS
NAMES = [f"n{at}" for at in range(8)]
POLLS, LONG_POLLS = 300, 200


def put(kind, name):
    field = "clusterName" if kind == "endpoint" else "name"
    return f'put 1 {json.dumps({"@type": KINDS[kind], field: name})}\n'


def numbers(server):
    """All numbers of /metrics, by their names with labels."""
    text = server.get("/metrics")
    found = {line.rpartition(" ")[0]: line.rpartition(" ")[2] for line in text.splitlines() if not line.startswith("#")}
    return {name: float(value) if "." in value or "e" in value else int(value) for name, value in found.items()}


def linted(server):
    """What Prometheus' own checker says of the numbers; nothing, where it isn't there."""
    if not shutil.which("promtool"):
        return ""
    run = subprocess.run(["promtool", "check", "metrics"], input=server.get("/metrics"), capture_output=True, text=True, check=False)
    return run.stdout + run.stderr + ("" if run.returncode == 0 else f"status {run.returncode}")


def of_type(name, kind):
    return f'xds_{name}{{replica="1",type="{kind}"}}'


def of_replica(name):
    return f'xds_{name}{{replica="1"}}'


def waits(found, name="count"):
    return found[f'xds_put_to_accept_seconds_{name}{{replica="1"}}']


def streams_of(server):
    return json.loads(server.get("/status"))["replicas"][0]["streams"]


class Client(Stream):
    """A client of one type that answers each response and asks for another name, so that its answer brings the next response."""

    def __init__(self, port, kind, is_delta, names=NAMES):
        super().__init__(port)
        self.kind, self.is_delta, self.names = kind, is_delta, list(names)
        self.acks = self.nacks = self.taken = 0
        self.ask({})

    def ask(self, message):
        before, self.names = self.names[:1], self.names[1:] + self.names[:1]
        if self.is_delta:
            message.update(resourceNamesSubscribe=self.names[:1], resourceNamesUnsubscribe=before)
        else:
            message.update(resourceNames=self.names[:1])
        self.send({"typeUrl": KINDS[self.kind], **message}, 3 if self.is_delta else 1)
        self.last = self.take()
        self.taken += 1

    def answer(self, rejects):
        message = {"responseNonce": self.last["nonce"]}
        if rejects:
            message["errorDetail"] = {"message": "no"}
            self.nacks += 1
        else:
            self.acks += 1
        self.ask(message)


def under_load():
    """Every answer brings a response at once, so that a stream's writer polls while the answer before is being noted."""
    kinds = ("cluster", "route")
    server = Server(text="".join(put(kind, name) for kind in kinds for name in NAMES))
    clients = [Client(server.port, kinds[at % 2], at // 2 % 2 == 1) for at in range(STREAMS)]

    def run(client):
        for at in range(ANSWERS):
            client.answer(rejects=at % 3 == 0)

    threads = [threading.Thread(target=run, args=(client,)) for client in clients]
    for thread in threads:
        thread.start()
    for thread in threads:
        thread.join()
    found = numbers(server)
    for name, of in (("responses_total", "taken"), ("acks_total", "acks"), ("nacks_total", "nacks")):
        for kind in kinds:
            own = sum(getattr(client, of) for client in clients if client.kind == kind)
            counted = found[of_type(name, kind)]
            tell(f"{own} under load are xds_{name} of {kind}", counted == own, counted)
    tell("where nothing was put meanwhile, nothing waited for a put", waits(found) == 0, waits(found))
    server.stop()


def put_to_accept():
    """Each response that tells a put first counts once it is accepted, and how long that took is in the least bucket that has it."""
    server = Server(text=put("route", "old"))
    clients = [Client(server.port, "route", at % 2 == 1, ["a", "old"]) for at in range(4)]
    names = {"typeUrl": KINDS["route"]}
    for client in clients:
        client.send({**names, "responseNonce": client.last["nonce"], **({"resourceNamesSubscribe": ["a"]} if client.is_delta else {"resourceNames": ["a"]})}, 3 if client.is_delta else 1)
    # An incremental client is told that the name isn't there.
    for client in clients[1::2]:
        gone = client.take()
        client.send({**names, "responseNonce": gone["nonce"]}, 3)
    # All have accepted what was there before they asked, and wait for a put.
    comes(lambda: numbers(server)[of_type("acks_total", "route")] == 6)
    tell("what was put before a stream asked isn't waited for", waits(numbers(server)) == 0)
    server.post("/changes", put("route", "a"))
    taken = [client.take() for client in clients]
    for client, response, rejects in zip(clients, taken, (False, False, True, True)):
        if client is clients[1]:
            time.sleep(2.5)
        answer = {**names, "responseNonce": response["nonce"], **({} if client.is_delta else {"resourceNames": ["a"]})}
        client.send({**answer, **({"errorDetail": {"message": "no"}} if rejects else {})}, 3 if client.is_delta else 1)
    comes(lambda: (found := numbers(server))[of_type("nacks_total", "route")] == 2 and found[of_type("acks_total", "route")] == 8)
    found = numbers(server)
    tell("two of four streams accepted a put, and two rejected it", waits(found) == 2, waits(found))
    buckets = {name.partition('le="')[2][:-2]: count for name, count in found.items() if name.startswith("xds_put_to_accept_seconds_bucket")}
    tell("how long it took is counted in the buckets that have it", (buckets["2"], buckets["60"], buckets["+Inf"]) == (1, 2, 2), buckets)
    tell("and added up", 2.5 < waits(found, "sum") < 60, waits(found, "sum"))
    server.post("/changes", put("route", "other"))
    clients[0].send({**names, "resourceNames": ["a", "old"], "responseNonce": taken[0]["nonce"]})
    more = clients[0].take()
    clients[0].send({**names, "resourceNames": ["a", "old"], "responseNonce": more["nonce"]})
    comes(lambda: numbers(server)[of_type("acks_total", "route")] == 9)
    tell("a response to a request tells no put first", waits(numbers(server)) == 2, waits(numbers(server)))
    for client in clients:
        client.socket.close()
    puts_under_load(server)
    server.stop()


def puts_under_load(server):
    """Puts beside streams that answer at once: as many responses count as were told a put first, whatever comes between."""
    server.post("/changes", put("route", "hot"))
    clients = [Client(server.port, "route", True, ["none", "hot"]) for _ in range(4)]
    for client in clients:
        client.send({"typeUrl": KINDS["route"], "responseNonce": client.last["nonce"]}, 3)
    comes(lambda: numbers(server)[of_type("acks_total", "route")] == 13)
    before = waits(numbers(server))
    own = []

    def run(client):
        count = 0
        # The last put has a body of its own.
        while "last" not in json.dumps(client.last):
            client.last = client.take()
            client.send({"typeUrl": KINDS["route"], "responseNonce": client.last["nonce"]}, 3)
            count += 1
        own.append(count)

    threads = [threading.Thread(target=run, args=(client,)) for client in clients]
    for thread in threads:
        thread.start()
    for at in range(300):
        server.post("/changes", put("route", "hot"))
    server.post("/changes", f'put 1 {json.dumps({"@type": KINDS["route"], "name": "hot", "last": True})}\n')
    for thread in threads:
        thread.join()
    comes(lambda: waits(numbers(server)) - before == sum(own))
    counted = waits(numbers(server)) - before
    tell(f"{sum(own)} responses under load told a put first and were accepted", counted == sum(own), counted)


# rule: stale-nonce, rule: first-variant
def without_effect():
    """What is refused answers nothing, and what is out of date neither answers nor asks."""
    server = Server("--log", text=put("route", "n1") + put("route", "n2"))
    names = ["n2", "n1"]
    for rejects in (False, True):
        client = Client(server.port, "route", False, names)
        message = {"typeUrl": KINDS["route"], "responseNonce": client.last["nonce"]}
        client.send({**message, **({"errorDetail": {"message": "no"}} if rejects else {})}, 3)
        tell("a request of the other variant ends its stream", client.take() is None)
    comes(lambda: streams_of(server) == [])
    found = numbers(server)
    counted = [found[of_type(f"{name}_total", "route")] for name in ("responses", "acks", "nacks")]
    tell("a request that is refused is no answer", counted == [2, 0, 0], counted)
    client = Client(server.port, "route", False, names)
    client.answer(rejects=False)
    client.send({"typeUrl": KINDS["route"], "resourceNames": ["n2"], "responseNonce": client.last["nonce"]})
    late = {"typeUrl": KINDS["route"], "resourceNames": ["n1", "n2", "n3"], "responseNonce": "1", "errorDetail": {"message": "late"}}
    client.send(late)
    client.send(late)
    client.send({"typeUrl": KINDS["cluster"], "resourceNames": ["none"]})
    comes(lambda: len(streams_of(server)[0]["types"]) == 2)
    shown = {it["type"]: it for it in streams_of(server)[0]["types"]}["route"]
    tell("a request that is out of date leaves what is shown", (shown["names"], shown["rejection"]) == (1, ""), shown)
    found = numbers(server)
    counted = [found[of_type(f"{name}_total", "route")] for name in ("responses", "acks", "nacks")]
    tell("a request that is out of date is no answer", counted == [4, 2, 0], counted)
    client.send({"typeUrl": KINDS["route"], "resourceNames": ["n2"], "responseNonce": client.last["nonce"]})
    client.send({"typeUrl": KINDS["secret"], "resourceNames": ["none"]})
    comes(lambda: len(streams_of(server)[0]["types"]) == 3)
    counted = numbers(server)[of_type("acks_total", "route")]
    tell("an answer that is given again counts once", counted == 2, counted)
    # Behind the stop of a stream's reader all its lines are told.
    client.socket.close()
    comes(lambda: streams_of(server) == [])
    _, errors, _ = server.stop()
    tell("what is refused or out of date is not told as a rejection", "is rejected" not in errors, errors)


def polls():
    """Polls over HTTP leave records, as long as they ask the replica; a journal that they fill is cut."""
    server = Server(text=put("route", "n1"))
    before = numbers(server)
    with socket.create_connection(("127.0.0.1", server.rest_port), 60) as it:
        file = it.makefile("rb")
        given = {}

        def post(path, body, count):
            text = f"POST {path} HTTP/1.1\r\nhost: a\r\ncontent-length: {len(body)}\r\n\r\n{body}".encode()
            while count:
                at_once = min(count, 20)
                it.sendall(text * at_once)
                count -= at_once
                for _ in range(at_once):
                    status, length = int(file.readline().split()[1]), 0
                    for line in iter(file.readline, b"\r\n"):
                        if line.lower().startswith(b"content-length:"):
                            length = int(line.split(b":")[1])
                    file.read(length)
                    given[status] = given.get(status, 0) + 1

        post("/v3/discovery:routes", "{}", POLLS)
        post("/v3/discovery:routes", json.dumps({"resourceNames": [f"n{at}" for at in range(2_000)]}), LONG_POLLS)
        post("/v3/discovery:clusters", "{}", 3)
        post("/v3/discovery:routes", "{", 5)
        post("/v3/discovery:routes", '{"versionInfo":"1.1","resourceNames":[]}', 7)
        post("/v3/discovery:nothing", "{}", 2)
    found = numbers(server)
    asked = sum(count for status, count in given.items() if status in (200, 304))
    left = found[of_replica("records_total")] - before[of_replica("records_total")]
    # Each look at /metrics is a record of its own, and one lies between.
    tell(f"{asked} polls over HTTP leave a record each", left == asked + 1, left)
    for status in ("200", "304", "400", "503"):
        counted = found[f'xds_rest_replies_total{{replica="1",status="{status}"}}']
        tell(f"replies of {status} are counted", counted == given.get(int(status), 0), (counted, given))
    cuts = found[of_replica("cuts_total")]
    tell("the journal was cut", cuts >= 1, cuts)
    server.stop()


def hostile():
    """No cluster text of a client writes into what is shown, whatever it is, and none makes it long."""
    server = Server(text=put("cluster", "n1"))
    texts = ('x","rejection":"forged', 'a"b', "a\\", 'a\\"b', "a\nb\x01\x7f\x85c", "é€😀", "x" * 1_000_000, "\\" * 100_000, "")
    for text in texts:
        client = Stream(server.port)
        client.send({"node": {"id": text, "cluster": text}, "typeUrl": KINDS["cluster"]})
        response = client.take()
        client.send({"typeUrl": KINDS["cluster"], "responseNonce": response["nonce"], "versionInfo": response["versionInfo"]})
        page = ""

        def is_answered():
            nonlocal page
            page = server.get("/status")
            return response["versionInfo"][:1] in page.partition('"accepted":"')[2][:1]

        comes(is_answered)
        shown = re.sub('[\x00-\x1f"\\\\\x7f-\x9f]', "?", text)
        version = re.sub('[\x00-\x1f"\\\\\x7f-\x9f]', "?", response["versionInfo"])[:256]
        wanted = [shown[:256], shown[:256], version, version, ""]
        try:
            stream = json.loads(page)["replicas"][0]["streams"][0]
            kind = stream["types"][0]
            found = [stream["node"], stream["cluster"], kind["sent"], kind["accepted"], kind["rejection"]]
        except ValueError as error:
            found = [str(error)]
        name = repr(text if len(text) < 40 else text[:8] + "..")
        tell(f"a client of the cluster {name} is shown", found == wanted, [it[:300] for it in found])
        tell("and the page is short", len(page) < 8_000, len(page))
        client.socket.close()
        comes(lambda: '"streams":[]' in server.get("/status"))
    server.stop()


def response_bytes(server, kind, changes):
    """How many bytes a stream's first response for `*` has, of what is listed of a type."""
    bodies = [line[line.index("{"):] for line in server.get(f"/resources?type={kind}").splitlines()]
    resources = f'"resources":[{",".join(bodies)}],' if bodies else ""
    return len(f'{{"nonce":"1",{resources}"typeUrl":"{KINDS[kind]}","versionInfo":"1.{changes}"}}'.encode())


def every_number():
    """All numbers of a server to which nothing happened but what is known."""
    server = Server("--keep-going", "--max-streams", "3", text="")
    made = {"cluster": 1, "endpoint": 2, "listener": 3, "route": 4, "secret": 5}
    for kind, count in made.items():
        for at in range(count):
            server.post("/changes", put(kind, f"n{at}"))
        server.post("/changes", put(kind, "n0"))
    for kind in ("listener", "route", "secret"):
        server.post("/changes", f"delete 1 {kind} n0\n")
    for _ in range(4):
        server.post("/changes", "delete 1 route none\n")
    before = numbers(server)
    clients = [Client(server.port, "route", False, ["n1", "n2", "n3"]), Client(server.port, "endpoint", True, ["n0", "n1"]), Stream(server.port)]
    for at in range(5):
        clients[0].answer(rejects=at < 2)
        clients[1].answer(rejects=at < 4)
    looks = []
    comes(lambda: looks.append(1) or len(streams_of(server)) == 3)
    for _ in range(6):
        turned = Stream(server.port)
        tell("a stream past the most is closed", turned.socket.recv(1) == b"")
    found = numbers(server)
    wanted = {}
    for kind, count in made.items():
        lost = kind in ("listener", "route", "secret")
        wanted[of_type("changes_total", kind)] = count + 1 + lost
        wanted[of_type("resources", kind)] = count - lost
        wanted[of_type("tombstones", kind)] = int(lost)
        wanted[of_type("response_bytes", kind)] = response_bytes(server, kind, count + 1 + lost)
        for name in ("responses_total", "acks_total", "nacks_total"):
            wanted[of_type(name, kind)] = 0
    for client in clients[:2]:
        for name, count in (("responses", client.taken), ("acks", client.acks), ("nacks", client.nacks)):
            wanted[of_type(f"{name}_total", client.kind)] = count
    for variant in ("sotw", "delta", "none"):
        wanted[f'xds_streams{{replica="1",variant="{variant}"}}'] = 1
    tell("Prometheus' checker has nothing to say", linted(server) == "", linted(server))
    for name, count in (("streams_opened", 3), ("streams_turned_away", 6), ("cuts", 0), ("cuts_failed", 0), ("exchange_parts", 0), ("exchange_lost", 0), ("changes_refused", 4), ("recordings_ended", 0)):
        wanted[of_replica(f"{name}_total")] = count
    for status in ("200", "304", "400", "503", "other"):
        wanted[f'xds_rest_replies_total{{replica="1",status="{status}"}}'] = 0
    wanted[of_replica("recording")] = 0
    wanted['xds_build_info{version="0.1.0"}'] = 1
    process = {name: found.pop(name) for name in list(found) if name.startswith("process_")}
    with open(f"/proc/{server.run.pid}/stat", encoding="utf-8") as file:
        took = sum(map(int, file.read().rsplit(")", 1)[1].split()[11:13])) / os.sysconf("SC_CLK_TCK")
    tell("what the process takes is told", abs(process["process_start_time_seconds"] - time.time()) < 600 and process["process_resident_memory_bytes"] > 1_000_000
         and process["process_virtual_memory_bytes"] > process["process_resident_memory_bytes"] and process["process_threads"] > 5
         and took - 1 < process["process_cpu_seconds_total"] <= took, (process, took))
    for name in list(found):
        if name.startswith("xds_put_to_accept_seconds"):
            tell(f"{name} is 0", found.pop(name) == 0)
    # Three streams were opened, each request and each poll left a record, and so did each look at the streams and the one at these numbers.
    lag, records = of_replica("put_to_last_response_seconds"), of_replica("records_total")
    taken = sum(client.taken for client in clients[:2])
    least = before[records] + 3 + 2 * taken + len(looks) + 1
    tell("the time from a put to the last poll is told", found.pop(lag, 0) > 0)
    counted = found.pop(records)
    # A writer may look once more than it finds something.
    tell("records are counted", least <= counted <= least + taken, (least, counted))
    for name in sorted(wanted.keys() | found.keys()):
        tell(f"{name} is {wanted.get(name)}", found.get(name) == wanted.get(name), found.get(name))
    server.stop()


def main():
    if not os.path.isfile(operate.PROGRAM):
        sys.exit(2)
    hostile()
    without_effect()
    every_number()
    polls()
    put_to_accept()
    under_load()
    end()


if __name__ == "__main__":
    main()
