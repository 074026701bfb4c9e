#!/usr/bin/env python3
"""A server whose resources are those of a folder, and references that lead nowhere, over the program itself.

    python3 bench/gate/sources.py crates/xds/out/xds [CASE ..]

Starts servers over folders: changes, adds and removes files, spoils one and mends it, says a resource twice, starts over a store, and
over what isn't there; and looks at what is told of references that lead nowhere, by a server and by the answer to a dry run. Prints a
line for each, and the status is 1 where one isn't as it is to be, and 2 where it can't be tried, since the program isn't there.
"""
import json
import os
import shutil
import subprocess
import sys
import tempfile
import threading
import time

import operate
from operate import Server
from telling import end, free_ports, tell

TOP = os.path.dirname(os.path.dirname(os.path.dirname(os.path.abspath(__file__))))
URLS = {
    "cluster": "type.googleapis.com/envoy.config.cluster.v3.Cluster",
    "endpoint": "type.googleapis.com/envoy.config.endpoint.v3.ClusterLoadAssignment",
    "listener": "type.googleapis.com/envoy.config.listener.v3.Listener",
    "route": "type.googleapis.com/envoy.config.route.v3.RouteConfiguration",
}
HERE = tempfile.mkdtemp()


def body(kind, name, **fields):
    named = "cluster_name" if kind == "endpoint" else "name"
    return {"@type": URLS[kind], named: name, **fields}


def write(folder, name, *items, text=None):
    """A file of a folder, which comes to its name whole."""
    hidden = os.path.join(folder, "." + name)
    with open(hidden, "w", encoding="utf-8") as file:
        if text is not None:
            file.write(text)
        elif name.endswith(".jsonl"):
            file.write("".join(json.dumps(it) + "\n" for it in items))
        else:
            json.dump(items[0] if len(items) == 1 else list(items), file, indent=2)
    os.rename(hidden, os.path.join(folder, name))


def folder(word):
    path = os.path.join(HERE, word)
    os.mkdir(path)
    return path


class Told:
    """What a server tells on its error output, line by line."""

    def __init__(self, server):
        self.lines = []
        threading.Thread(target=self.read, args=(server.run.stderr,), daemon=True).start()

    def read(self, output):
        for line in output:
            self.lines.append(line.rstrip("\n"))

    def count(self, text):
        return sum(text in line for line in self.lines)


def wait(test, seconds=15):
    for _ in range(int(seconds * 20)):
        if test():
            return True
        time.sleep(0.05)
    return test()


def listed(server, replica=1):
    """The lines of what a replica holds, once its thread answers in time."""
    for _ in range(100):
        status, text = server.answer(f"/resources?replica={replica}")
        if status == 200:
            return text.splitlines()
        time.sleep(0.1)
    return []


def names(server, replica=1):
    """What a replica holds: the type and the name of each resource, with the rest of its body."""
    found = {}
    for line in listed(server, replica):
        value = json.loads(line[line.index("{"):])
        kind = next(kind for kind, url in URLS.items() if url == value["@type"])
        name = value.pop("cluster_name", None) or value.pop("name")
        found[kind, name] = {key: it for key, it in value.items() if key != "@type"}
    return found


def changes():
    path = folder("mesh")
    write(path, "a.json", {"version_info": "x", "resources": [body("cluster", "one", type="EDS"), body("endpoint", "one")]})
    write(path, "b.jsonl", body("route", "web"), body("route", "api"))
    write(path, "c.json", body("listener", "front"))
    write(path, ".hidden.json", text="{")
    write(path, "notes.txt", text="no resource")
    server = Server("--from", path, replicas=2)
    told = Told(server)
    start = {("cluster", "one"), ("endpoint", "one"), ("route", "web"), ("route", "api"), ("listener", "front")}
    tell("the resources of a folder are held from the start, of one object, of a list of `resources` and of lines", set(names(server)) == start, names(server))
    tell("at each replica", set(names(server, 2)) == start, names(server, 2))
    before = server.get("/writes?replica=1")
    write(path, "c.json", body("listener", "front", stat_prefix="x"))
    tell("a file that changes changes its resource", wait(lambda: names(server).get(("listener", "front")) == {"stat_prefix": "x"}), names(server))
    tell("which another replica learns", wait(lambda: names(server, 2).get(("listener", "front")) == {"stat_prefix": "x"}), names(server, 2))
    same = [line for line in server.get("/writes?replica=1").splitlines() if "Listener" not in line and line.startswith("{")]
    tell("and nothing else is written", same == [line for line in before.splitlines() if "Listener" not in line and line.startswith("{")], same)
    write(path, "d.json", body("cluster", "two"), body("cluster", "three"))
    tell("a file that comes adds its resources", wait(lambda: {("cluster", "two"), ("cluster", "three")} <= set(names(server))), names(server))
    os.unlink(os.path.join(path, "b.jsonl"))
    tell("a file that goes takes its resources away", wait(lambda: not {("route", "web"), ("route", "api")} & set(names(server))), names(server))
    server.post("/changes", "put 1 " + json.dumps(body("cluster", "by-port")) + "\nput 2 " + json.dumps(body("cluster", "by-two")) + "\n")
    wait(lambda: ("cluster", "by-two") in names(server))
    write(path, "d.json", body("cluster", "two"))
    wait(lambda: ("cluster", "three") not in names(server))
    found = set(names(server))
    tell("what came from elsewhere is kept", {("cluster", "by-port"), ("cluster", "by-two")} <= found and ("cluster", "three") not in found, found)
    server.post("/changes", "putin 1 eu " + json.dumps(body("cluster", "two")) + "\ndelete 1 listener front\n")
    write(path, "e.json", body("cluster", "four"))
    wait(lambda: ("cluster", "four") in names(server))
    lines = listed(server)
    tell("what somebody else wrote of the folder's names is put back with its next change", ("listener", "front") in names(server) and not any(it.startswith("putin") for it in lines), lines)
    bad(server, told, path)
    server.stop()


def bad(server, told, path):
    """A file that is bad, in some ways, and is mended."""
    held = names(server)
    cases = (
        ("x.json", '{\n  "a": 1,\n  oops\n}', f"{path}/x.json: line 3: 1 NotJson"),
        ("x.json", json.dumps([body("cluster", "fine"), {"name": "x"}]), f"{path}/x.json: resource 2: 4 BadResource: the field @type"),
        ("x.json", json.dumps({"resources": [{"@type": URLS["endpoint"], "cluster_name": 7}]}), f"{path}/x.json: resource 1: 4 BadResource: the field cluster_name is no text"),
        ("x.json", json.dumps({"@type": URLS["cluster"], "name": ""}), f"{path}/x.json: resource 1: 5 BadName"),
        ("x.jsonl", json.dumps(body("cluster", "fine")) + "\n\n{\n", f"{path}/x.jsonl: line 3: 1 NotJson"),
        ("x.jsonl", json.dumps(body("cluster", "two")) + "\n", f"{path}/x.jsonl: line 1: cluster two stands in d.json already"),
        ("x.json", json.dumps([body("cluster", "fine"), body("cluster", "fine")]), f"{path}/x.json: resource 2: cluster fine stands in x.json already"),
    )
    for name, text, wanted in cases:
        write(path, name, text=text)
        is_told = wait(lambda: told.count(wanted) > 0)
        tell(f"a bad file is told: {wanted[len(path) + 1:]}", is_told and told.count(wanted) == 1, told.lines[-3:])
        state = json.loads(server.get("/status"))["source"]
        tell("in the status, too, and nothing of the folder is taken", state.startswith(wanted) and names(server) == held, state)
        os.unlink(os.path.join(path, name))
        tell("and it is told once it is good again", wait(lambda: told.lines[-1].startswith(f"{path}: good again")), told.lines[-1:])
    numbers = server.get("/metrics")
    tell("faults are counted", f"xds_source_faults_total {len(cases)}\n" in numbers and "xds_source_failing 0\n" in numbers, numbers[-300:])
    write(path, "x.json", text="\n")
    os.chmod(path, 0o755)
    wait(lambda: told.count("x.json: line") > 2)
    write(path, "x.json", body("cluster", "mended"))
    tell("a file that is mended is taken", wait(lambda: ("cluster", "mended") in names(server)), names(server))
    away = path + "-away"
    os.rename(path, away)
    tell("a folder that is gone is told, and what is held stays", wait(lambda: told.count(f"{path}: 19 Device: no such folder") == 1) and ("cluster", "mended") in names(server), told.lines[-2:])
    os.rename(away, path)
    tell("and that it is there again", wait(lambda: told.lines[-1].startswith(f"{path}: good again")), told.lines[-1:])


def together():
    """What changes together is told to streams together, and large files in parts are waited for."""
    path = folder("many")
    write(path, "all.jsonl", *[body("cluster", f"c{k}") for k in range(500)])
    server = Server("--from", path, replicas=1)
    tell("five hundred of one file are there from the start", len(names(server)) == 500, len(names(server)))
    full = os.path.join(path, "all.jsonl")
    with open(full, "w", encoding="utf-8") as file:
        for k in range(500):
            file.write(json.dumps(body("cluster", f"c{k}", alt_stat_name=str(k))) + "\n")
            if k % 100 == 99:
                file.flush()
                time.sleep(0.4)
                if len(names(server)) != 500:
                    break
    tell("a file that is still written is waited for", len(names(server)) == 500, len(names(server)))
    tell("and is taken then", wait(lambda: len(names(server)) == 500 and all(it for it in names(server).values())), len(names(server)))
    server.stop()


def starts():
    missing = os.path.join(HERE, "missing")
    run = subprocess.run([operate.PROGRAM, "serve", "--from", missing, *ports()], input="", capture_output=True, text=True, timeout=300)
    tell("a folder that isn't there ends the start", (run.returncode, run.stderr) == (1, f"{missing}: 19 Device: no such folder\n"), run.stderr)
    path = folder("bad")
    write(path, "a.json", text="[")
    run = subprocess.run([operate.PROGRAM, "serve", "--from", path, *ports()], input="", capture_output=True, text=True, timeout=300)
    tell("and so does a bad file", (run.returncode, run.stderr) == (1, f"{path}/a.json: line 1: 1 NotJson\n"), run.stderr)
    with open(os.path.join(path, "a.json"), "w", encoding="utf-8") as file:
        file.truncate(64 * 1024 * 1024 + 1)
    run = subprocess.run([operate.PROGRAM, "serve", "--from", path, *ports()], input="", capture_output=True, text=True, timeout=300)
    tell("and files of more than 64 MiB", run.returncode == 1 and run.stderr.startswith(f"{path}/a.json: 6 TooLong"), run.stderr)


def ports():
    first = free_ports(3, int(os.environ.get("FIRST_PORT", "21000")))
    return ("--replicas", "1", "--port", str(first), "--rest-port", str(first + 1))


def halt(server):
    """Stops a server over a store, which closes it."""
    server.post("/stop")
    server.run.wait(timeout=300)


def stored():
    path, store = folder("stored"), os.path.join(HERE, "mesh.db")
    write(path, "a.json", body("cluster", "one"), body("cluster", "two"))
    server = Server("--from", path, "--store", store, replicas=1)
    server.post("/changes", "put 1 " + json.dumps(body("cluster", "by-port")) + "\n")
    halt(server)
    write(path, "a.json", body("cluster", "two"), body("cluster", "three"))
    server = Server("--from", path, "--store", store, replicas=1)
    tell("over a store exactly the folder's resources are there at the start", set(names(server)) == {("cluster", "two"), ("cluster", "three")}, names(server))
    halt(server)
    run = subprocess.run([operate.PROGRAM, "writes", "--store", store], capture_output=True, text=True, timeout=300)
    live = [line for line in run.stdout.splitlines() if '"body"' in line]
    tell("and in the store", len(live) == 2 and len(run.stdout.splitlines()) == 4, run.stdout)


def lint():
    path = folder("lint")
    hcm = {"@type": "x", "rds": {"route_config_name": "web"}, "routeConfig": {"virtual_hosts": [{"routes": [{"route": {"cluster": "inline"}}]}]}}
    write(path, "a.json", body("listener", "front", filter_chains=[{"filters": [{"typed_config": hcm}]}]), body("cluster", "kept", type="EDS", eds_cluster_config={"service_name": "kept-eu"}))
    server = Server("--from", path, "--lint", replicas=2)
    told = Told(server)
    first = ("listener front refers to route web, which isn't held", "listener front refers to cluster inline, which isn't held", "cluster kept refers to endpoint kept-eu, which isn't held")
    tell("references that lead nowhere are told", wait(lambda: all(told.count(it) == 1 for it in first)), told.lines)
    routes = [{"route": {"cluster": "kept"}}, {"route": {"weightedClusters": {"clusters": [{"name": "w1"}, {"name": "kept"}]}, "requestMirrorPolicies": [{"cluster": "mirror"}]}}]
    write(path, "b.json", body("route", "web", virtualHosts=[{"name": "x", "routes": routes}]), body("endpoint", "kept-eu"), body("cluster", "inline"))
    second = ("route web refers to cluster w1, which isn't held", "route web refers to cluster mirror, which isn't held")
    tell("each by either spelling", wait(lambda: all(told.count(it) == 1 for it in second)), told.lines)
    os.unlink(os.path.join(path, "b.json"))
    tell("and again where a change makes it so again", wait(lambda: told.count(first[0]) == 2), told.lines)
    time.sleep(3)
    counts = [told.count(it) for it in first + second]
    tell("once each", counts == [2, 2, 2, 1, 1], counts)
    status, text = server.answer("/changes?dry-run", ("put 1 " + json.dumps(body("cluster", "new", type=3, edsClusterConfig={"serviceName": "new-eu"})) + "\n").encode())
    tell("a dry run tells those that it would make", (status, text) == (200, "line 1: would be made\ncluster new refers to endpoint new-eu, which isn't held\n"), (status, text))
    both = "put 1 " + json.dumps(body("cluster", "new", type="EDS")) + "\nput 1 " + json.dumps(body("endpoint", "new")) + "\n"
    status, text = server.answer("/changes?dry-run", both.encode())
    tell("and none that it wouldn't", (status, text) == (200, "line 1: would be made\nline 2: would be made\n"), (status, text))
    server.post("/changes", both)
    status, text = server.answer("/changes?dry-run", b"delete 1 endpoint new\n")
    tell("a deletion, too", (status, text) == (200, "line 1: would be made\ncluster new refers to endpoint new, which isn't held\n"), (status, text))
    server.stop()


def example():
    server = Server("--from", os.path.join(TOP, "examples", "mesh"), "--lint", replicas=2)
    told = Told(server)
    found = len(listed(server))
    time.sleep(4)
    tell("the mesh of examples/ lints clean", found > 20 and not [line for line in told.lines if "refers" in line], (found, told.lines))
    server.stop()


if __name__ == "__main__":
    if not os.path.exists(operate.PROGRAM):
        sys.exit(2)
    try:
        for part in (starts, changes, together, stored, lint, example):
            if part.__name__ in sys.argv[2:] or not sys.argv[2:]:
                part()
    finally:
        shutil.rmtree(HERE, ignore_errors=True)
    end()
