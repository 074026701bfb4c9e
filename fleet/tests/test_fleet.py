"""Three servers with two replicas each over etcd of three members, and 60 clients that move between them, through all that may happen."""
import concurrent.futures
import os
import random
import shutil
import signal
import tempfile
import threading
import time
import unittest

from parts import Delta, Etcd, Known, PATIENCE, Places, Rest, Server, Sotw, asked, checked, compact, put, wait_until
from restart_server import Write, body_of

SEED = int(os.environ.get("FLEET_SEED", "1"))
KINDS = ("cluster", "endpoint", "listener", "route", "secret")
NAMES = {kind: [f"{kind}{i}" for i in range(12)] for kind in KINDS}


def difference(one, other):
    return {it: (one.get(it), other.get(it)) for it in sorted({*one, *other}) if one.get(it) != other.get(it)}


class Changes(threading.Thread):
    """Makes changes at servers, one after another, until it is told to stop. What is answered with a stamp counts."""

    def __init__(self, known, servers, seed, by_fleet=False, pause=0.01):
        super().__init__(daemon=True)
        self.known, self.servers, self.pick, self.by_fleet, self.pause, self.is_over, self.made = known, servers, random.Random(seed), by_fleet, pause, False, 0
        self.reached = set()
        self.start()

    def run(self):
        while not self.is_over:
            server = self.pick.choice(self.servers)
            try:
                self.one(server)
            except (OSError, AssertionError, ValueError):
                time.sleep(0.1)
            time.sleep(self.pause)

    def one(self, server):
        kind = self.pick.choice(KINDS)
        name, place = self.pick.choice(NAMES[kind]), self.pick.randint(1, server.replicas)
        if self.pick.random() < 0.2:
            body, groups, line = None, (), f"delete {place} {kind} {name}\n"
        else:
            fields = {"x": self.known.next(), "pad": "p" * self.pick.randint(0, 300)}
            groups = ("g1",) if self.pick.random() < 0.2 else ()
            body, line = body_of(kind, name, **fields), put(kind, name, place, groups, **fields)
        with self.known.lock:
            self.known.sends(kind, name, body, groups)
        told = server.change([line], server.listen if self.by_fleet else None)
        stamp = told[0].partition(": ")[2] if told else ""
        if "NotFound" in stamp or "not stored" in stamp:
            return
        counter, _, writer = stamp.partition("-")
        with self.known.lock:
            self.known.answers(kind, name, Write((int(counter), int(writer)), body, tuple(groups)))
            self.made += 1
        self.reached.add(server)

    def stop(self):
        self.is_over = True
        self.join(PATIENCE)
        return self.made


class Moves(threading.Thread):
    """Has clients move to other replicas, one after another."""

    def __init__(self, clients, seed):
        super().__init__(daemon=True)
        self.clients, self.pick, self.is_over = clients, random.Random(seed), False
        self.start()

    def run(self):
        while not self.is_over:
            self.pick.choice(self.clients).move()
            time.sleep(0.2)


def clients_of(known, places):
    """60 clients: of each type and variant some of all of it and some of names, some of them in a group."""
    clients, seed = [], SEED * 1000
    for kind in KINDS:
        for variant in (Delta, Sotw, Rest):
            for of_all, cluster in ((True, ""), (True, "g1"), (False, ""), (False, "g1")):
                names = None if of_all and kind in ("cluster", "listener") else set(NAMES[kind][:6] if of_all else NAMES[kind][3:9])
                seed += 1
                clients.append(variant(known, places, kind, names, cluster, seed))
    return clients


class TestFleet(unittest.TestCase):
    @classmethod
    def setUpClass(cls):
        cls.folder = tempfile.mkdtemp(prefix="fleet-")
        cls.etcd = Etcd()
        cls.servers = []
        cls.addClassCleanup(cls.tidy)
        for at in range(3):
            cls.servers.append(Server(cls.etcd, f"{cls.folder}/server-{at}"))
        for it in cls.servers:
            it.wait_ready()
        cls.known = Known()
        cls.known.begin({})
        cls.clients = clients_of(cls.known, Places(cls.servers))
        for it in cls.clients:
            it.start()
        cls.moves = Moves(cls.clients, SEED)
        cls.changes = None

    @classmethod
    def tidy(cls):
        for it in getattr(cls, "clients", []):
            it.is_over = True
        if getattr(cls, "moves", None):
            cls.moves.is_over = True
        for it in cls.servers:
            it.kill()
        cls.etcd.end()
        shutil.rmtree(cls.folder, ignore_errors=True)

    def tearDown(self):
        if self.changes:
            self.changes.stop()

    def go(self, seconds, servers=None, by_fleet=False):
        """Makes changes for a while, and until each server made one. Answers how many were answered."""
        self.changes = Changes(self.known, servers or self.servers, random.random(), by_fleet)
        time.sleep(seconds)
        # (on a machine with much else to do there may be few)
        wait_until(lambda: self.changes.reached == set(self.changes.servers), what="a change at each server")
        made = self.changes.stop()
        self.changes = None
        return made

    def settles(self, servers=None):
        """All replicas come to hold equal writes, of which none that was answered is missing, etcd has them, and every client shows
        what it is to."""
        servers = servers or self.servers
        held = []

        def equal():
            held[:] = [it.writes(place) for it in servers for place in range(1, it.replicas + 1)]
            return all(it == held[0] for it in held) and self.has_all(held[0]) == []

        wait_until(equal, what=lambda: f"equal writes: {[len(it) for it in held]}, missing {self.has_all(held[0])[:3]},")
        world = held[0]
        standing = {key.removeprefix("/xds/"): value for key, value in self.etcd.standing(at=self.alive()).items()}
        standing.pop("next-number")
        self.assertEqual({f"{kind}/{name}" for kind, name in world}, set(standing))
        late = []

        def shown():
            late[:] = [it for it in self.clients if not it.shows_all(world)]
            return not late

        wait_until(shown, what=lambda: f"what {len(late)} clients show: {[(it.who, difference(it.shows() or {}, it.wanted(world))) for it in late[:2]]}")
        self.assertEqual(self.known.faults, [])
        return world

    def has_all(self, world):
        """What was answered and isn't there, nor anything greater."""
        with self.known.lock:
            answered = dict(self.known.answered)
        return [(key, it) for key, it in answered.items() if key not in world or world[key].stamp < it.stamp]

    def alive(self):
        return next(at for at in range(3) if self.etcd.is_up((at,)))

    # rule: greatest-write, rule: tombstones
    def test_1_changes_at_all_servers(self):
        made = self.go(6)
        world = self.settles()
        print(f"{made} changes, {len(world)} names", end=" ", flush=True)
        for it in self.servers:
            self.assertEqual(asked(it.listen, "GET", "/healthz")[0], 200)
            self.assertGreater(it.number("fleet_posted_writes_total"), 0)
            self.assertGreater(it.number("fleet_put_writes_total"), 0)

    def test_2_a_member_is_killed_and_started_again(self):
        self.etcd.kill(0)
        self.go(5)
        self.settles()
        self.etcd.start(0)
        self.etcd.wait_up()
        self.go(2)
        self.settles()

    def test_3_a_member_is_paused(self):
        self.etcd.signal(1, signal.SIGSTOP)
        try:
            self.go(5)
            self.settles()
        finally:
            self.etcd.signal(1, signal.SIGCONT)
        self.go(2)
        self.settles()

    def test_4_etcd_is_away(self):
        """Servers go on, and what changes meanwhile is carried later."""
        for at in (1, 2):
            self.etcd.signal(at, signal.SIGSTOP)
        try:
            self.go(5)
        finally:
            for at in (1, 2):
                self.etcd.signal(at, signal.SIGCONT)
        self.etcd.wait_up()
        self.go(1)
        self.settles()

    # rule: new-numbers
    def test_5_a_server_is_killed_and_starts_with_new_numbers(self):
        """What its fleet answered as stored is there; the server itself comes back with numbers that nobody had."""
        first = self.servers[1].first
        self.go(3, [self.servers[1]], by_fleet=True)
        self.servers[1].kill_server()
        others = [self.servers[0], self.servers[2]]
        self.go(2, others)
        self.servers[1].start()
        self.servers[1].wait_ready()
        self.assertGreater(self.servers[1].first, first)
        self.go(2)
        self.settles()
        firsts = [it.first for it in self.servers]
        self.assertEqual(len(set(firsts)), 3)

    def test_6_the_link_is_cut(self):
        for it in self.servers[2].links:
            it.cut()
        self.go(4)
        for it in self.servers[2].links:
            it.mend()
        self.settles()

    def test_7_a_compaction_of_what_was_not_heard(self):
        before = self.servers[2].number("fleet_compactions_total")
        for it in self.servers[2].links:
            it.cut()
        self.go(3, self.servers[:2])
        self.etcd.compact()
        for it in self.servers[2].links:
            it.mend()
        self.settles()
        self.assertGreater(self.servers[2].number("fleet_compactions_total"), before)

    def test_8_what_is_no_write_is_not_posted(self):
        before = [it.number("fleet_refused_writes_total") for it in self.servers]
        world = self.settles()
        self.etcd.put("/xds/cluster/none", "no JSON")
        self.etcd.put("/xds/cluster/cluster0", compact({"typeUrl": "?"}))
        self.etcd.put("/xds/cluster/bad", compact({"body": {"name": "other"}, "counter": 1, "name": "bad", "writer": 1, "typeUrl":
                                                   "type.googleapis.com/envoy.config.cluster.v3.Cluster"}))
        wait_until(lambda: all(it.number("fleet_refused_writes_total") >= was + 3 for it, was in zip(self.servers, before)), what="refusals")
        for it in self.servers:
            self.assertEqual(it.writes(), world)
            self.assertEqual(asked(it.listen, "GET", "/healthz")[0], 200)
        # (a greater write takes the place of what is none)
        names = ("cluster0", "none", "bad")
        with self.known.lock:
            for name in names:
                self.known.sends("cluster", name, body_of("cluster", name, x=1), ())
        self.servers[0].change([put("cluster", name, 1, x=1) for name in names])
        self.settles()

    def test_9_all_stop_and_start_again(self):
        world = self.settles()
        for it in self.servers:
            it.end()
        firsts = [it.first for it in self.servers]
        for it in self.servers:
            it.start()
        for it in self.servers:
            it.wait_ready()
            self.assertEqual(it.writes(1), world)
            self.assertGreater(it.first, max(firsts))
        self.assertEqual(self.settles(), world)
        self.moves.is_over = True
        for it in self.servers:
            it.end()
        paths = [path for server in self.servers for path in server.traces()]
        with concurrent.futures.ThreadPoolExecutor(4) as checks:
            self.assertEqual([it for it in zip(paths, checks.map(checked, paths)) if it[1] != "ok"], [])


if __name__ == "__main__":
    unittest.main()
