"""Streams by raw stubs, over a control plane that runs."""
import fcntl
import json
import os
import signal
import socket
import subprocess
import sys
import threading
import time
import unittest
import urllib.request

import grpc
from envoy.config.cluster.v3 import cluster_pb2
from google.protobuf import struct_pb2
from parts import (ADS, BRIDGE, CLUSTER, ENDPOINT, HERE, LISTENER, PATIENCE, ROUTE, SECRET, Bridge, Control, Process, Stream, Tap, delta,
                   free_ports, sotw, wait_until)


class Streams(unittest.TestCase):
    def setUp(self):
        self.control = self.has(Control())
        self.tap = self.has(Tap(self.control.port))
        self.bridge = self.has(Bridge(self.tap.port))
        self.channel = grpc.insecure_channel(self.bridge.address)
        self.addCleanup(self.channel.close)

    def has(self, it):
        self.addCleanup(it.end)
        return it

    def put(self, *names, url=CLUSTER, **more):
        for it in names:
            self.control.put(url, **{"clusterName" if url == ENDPOINT else "name": it, **more})
        self.control.settle()

    def stream(self, *words):
        return self.has(Stream(*words))


class Variants(Streams):
    def test_state_of_the_world(self):
        self.put("a", "b")
        stream = self.has(sotw(self.channel))
        stream.ask(type_url=CLUSTER, node={"id": "n", "cluster": "c"}, resource_names=["*"])
        one = stream.take()
        self.assertEqual((one.type_url, one.nonce), (CLUSTER, "1"))
        found = []
        for it in one.resources:
            cluster = cluster_pb2.Cluster()
            self.assertTrue(it.Unpack(cluster))
            found.append(cluster.name)
        self.assertEqual(found, ["a", "b"])
        stream.accept(one, resource_names=["*"])
        self.control.delete(CLUSTER, "a")
        two = stream.take()
        self.assertEqual((len(two.resources), two.nonce, two.version_info), (1, "2", "1.3@c"))
        stream.ask(type_url=CLUSTER, resource_names=["*"], version_info=one.version_info, response_nonce="2",
                   error_detail={"code": 3, "message": "not so"})
        self.put("c")
        self.assertEqual(stream.take().nonce, "3")
        # Of an incomplete type nothing is told until there is something.
        stream.ask(type_url=ENDPOINT, resource_names=["e"])
        self.put("e", url=ENDPOINT)
        self.assertEqual((stream.take().type_url, len(self.tap.of("up", ENDPOINT))), (ENDPOINT, 1))
        ups = self.tap.of("up", CLUSTER)
        self.assertEqual(ups[0], {"typeUrl": CLUSTER, "node": {"id": "n", "cluster": "c"}, "resourceNames": ["*"]})
        self.assertEqual(ups[2], {"typeUrl": CLUSTER, "resourceNames": ["*"], "versionInfo": one.version_info, "responseNonce": "2",
                                  "errorDetail": {"code": 3, "message": "not so"}})

    def test_delta_with_initial_versions(self):
        self.put("a", "b", "c")
        stream = self.has(delta(self.channel))
        stream.ask(type_url=CLUSTER, resource_names_subscribe=["*"])
        one = stream.take()
        held = {it.name: it.version for it in one.resources}
        self.assertEqual(held, {"a": "1-1", "b": "2-1", "c": "3-1"})
        stream.accept(one)
        stream.end()
        self.control.delete(CLUSTER, "c")
        self.put("b")
        again = self.has(delta(self.channel))
        again.ask(type_url=CLUSTER, node={"id": "n"}, resource_names_subscribe=["*"], initial_resource_versions=held)
        two = again.take()
        self.assertEqual([(it.name, it.version) for it in two.resources], [("b", "5-1")])
        self.assertEqual((list(two.removed_resources), two.system_version_info), (["c"], "1.5"))
        again.accept(two, resource_names_unsubscribe=["*"], resource_names_subscribe=["d"])
        self.put("e", "d")
        three = again.take()
        while not three.resources:
            again.accept(three)
            three = again.take()
        self.assertEqual([it.name for it in three.resources], ["d"])
        self.assertIn({"typeUrl": CLUSTER, "node": {"id": "n"}, "resourceNamesSubscribe": ["*"], "initialResourceVersions": held},
                      self.tap.of("up"))

    def test_one_stream_carries_all_types(self):
        self.put("c")
        self.put("e", url=ENDPOINT)
        self.put("l", url=LISTENER)
        self.put("r", url=ROUTE)
        self.put("s", url=SECRET, genericSecret={"secret": {"inlineBytes": "AAEC/w=="}})
        stream, names = self.has(delta(self.channel)), {CLUSTER: "c", ENDPOINT: "e", LISTENER: "l", ROUTE: "r", SECRET: "s"}
        for url, name in names.items():
            stream.ask(type_url=url, resource_names_subscribe=[name])
        while names:
            response = stream.take()
            self.assertEqual(response.resources[0].name, names.pop(response.type_url))
            self.assertEqual(response.resources[0].resource.type_url, response.type_url)
            stream.accept(response)

    def test_services_of_a_single_type(self):
        services = {
            "cluster.v3.ClusterDiscoveryService": ("Clusters", CLUSTER), "endpoint.v3.EndpointDiscoveryService": ("Endpoints", ENDPOINT),
            "listener.v3.ListenerDiscoveryService": ("Listeners", LISTENER), "route.v3.RouteDiscoveryService": ("Routes", ROUTE),
            "secret.v3.SecretDiscoveryService": ("Secrets", SECRET)}
        for service, (word, url) in services.items():
            self.put("x", url=url)
            first = self.stream(self.channel, "Stream" + word, service)
            first.ask(resource_names=["x"])
            self.assertEqual(first.take().type_url, url)
            second = self.stream(self.channel, "Delta" + word, service)
            second.ask(resource_names_subscribe=["x"], type_url=url)
            self.assertEqual(second.take().resources[0].name, "x")
            second.ask(resource_names_subscribe=["x"], type_url="type.googleapis.com/x")
            code, details = second.status()
            self.assertEqual(code, grpc.StatusCode.INVALID_ARGUMENT)
            self.assertIn(url, details)
            fetch = self.channel.unary_unary(f"/envoy.service.{service}/Fetch{word}")
            with self.assertRaises(grpc.RpcError) as caught:
                fetch(b"", timeout=PATIENCE)
            self.assertEqual(caught.exception.code(), grpc.StatusCode.UNIMPLEMENTED)
            self.assertIn("REST", caught.exception.details())

    def test_an_unknown_field_is_refused_and_told(self):
        self.put("a", "b", "c")
        streams = [self.has(delta(self.channel)), self.has(sotw(self.channel))]
        streams[0].ask(type_url=CLUSTER, resource_names_subscribe=["*"], node={"id": "left"})
        streams[1].ask(type_url=CLUSTER, resource_names=["a", "b"], node={"id": "right"})
        for it in streams:
            first = it.take()
            it.accept(first, **({} if it.delta else {"resource_names": ["a", "b"]}))
        wait_until(lambda: len(self.tap.of("up")) == 4)
        self.put("b", notOfEnvoy={"x": 1})
        wait_until(lambda: len(self.tap.of("up")) == 6, what="refusals")
        self.assertEqual(self.bridge.told("refused"),
                         [f'bridge: refused: {CLUSTER}: resource "b", field "notOfEnvoy": unknown field "notOfEnvoy"'])
        wanted = {"typeUrl": CLUSTER, "responseNonce": "2", "errorDetail": {
            "code": 3, "message": 'the gRPC bridge can\'t convert resource "b", field "notOfEnvoy": unknown field "notOfEnvoy"'}}
        self.assertIn(wanted, self.tap.of("up"))
        self.assertIn({**wanted, "resourceNames": ["a", "b"], "versionInfo": "1.3.named"}, self.tap.of("up"))
        # A client knows nothing of that. What it asks for next is heard, though it names the response before.
        right = streams[1]
        right.accept(first, resource_names=["a", "c"])
        response = right.take()
        self.assertEqual((response.nonce, len(response.resources)), ("3", 2))
        self.assertEqual(self.tap.of("up")[-1]["responseNonce"], "2")
        right.accept(response, resource_names=["a", "c"])
        self.put("b")
        self.assertEqual([it.name for it in streams[0].take().resources], ["b"])
        right.accept(response, resource_names=["a", "b"])
        self.assertEqual(len(right.take().resources), 2)


class Ends(Streams):
    def opened(self, make=delta, channel=None):
        """A stream that was told something."""
        self.put("a")
        stream = self.has(make(channel or self.channel))
        stream.ask(type_url=CLUSTER)
        stream.accept(stream.take())
        return stream

    def test_the_server_ends(self):
        stream = self.opened()
        self.control.end()
        code, details = stream.status()
        self.assertEqual(code, grpc.StatusCode.UNAVAILABLE)
        self.assertIn("control plane", details)

    def test_the_server_refuses_what_it_is_sent(self):
        stream = self.opened()
        nested = inner = struct_pb2.Struct()
        for _ in range(130):
            inner = inner.fields["x"].struct_value
            inner.SetInParent()
        stream.ask(type_url=CLUSTER, node={"id": "n", "metadata": nested})
        self.assertEqual(stream.status(), (grpc.StatusCode.UNAVAILABLE, "the control plane closed the stream"))

    def test_the_server_isnt_there(self):
        nowhere = self.has(Bridge(free_ports(1)[0]))
        with grpc.insecure_channel(nowhere.address) as channel:
            for make in (sotw, delta):
                code, details = self.has(make(channel)).status()
                self.assertEqual(code, grpc.StatusCode.UNAVAILABLE)
                self.assertIn("can't be reached", details)

    def test_the_client_has_no_more_requests(self):
        stream = self.opened()
        stream.close()
        self.assertEqual(stream.status()[0], grpc.StatusCode.OK)

    def test_a_client_that_is_killed(self):
        self.put("a")
        words = [sys.executable, os.path.join(HERE, "reader.py"), self.bridge.address, "10"]
        client = self.has(Process(words))
        client.wait_for("ready")
        self.assertEqual(self.connections(), 10)
        other = self.opened()
        self.assertEqual(client.end(signal.SIGKILL), -signal.SIGKILL)
        wait_until(lambda: self.connections() == 1, what="the end of ten streams")
        self.put("b")
        self.assertEqual(other.take().resources[0].name, "b")

    def connections(self):
        """How many streams the bridge has to the tap."""
        port, count = f":{self.tap.port:04X}", 0
        with open(f"/proc/{self.bridge.process.pid}/net/tcp", encoding="utf-8") as file:
            for line in file:
                words = line.split()
                count += words[2].endswith(port) and words[3] == "01"
        return count

    def test_signals(self):
        for how in (signal.SIGTERM, signal.SIGINT):
            bridge = self.has(Bridge(self.tap.port))
            with grpc.insecure_channel(bridge.address) as channel:
                streams = [self.opened(make, channel) for make in (sotw, delta)]
                begun = time.monotonic()
                bridge.process.send_signal(how)
                for it in streams:
                    self.assertEqual(it.status(), (grpc.StatusCode.UNAVAILABLE, "the bridge is stopping"))
                self.assertEqual(bridge.process.wait(PATIENCE), 0)
                self.assertLess(time.monotonic() - begun, 5)

    def test_a_signal_with_a_client_that_doesnt_read(self):
        self.put(*(f"c{i}" for i in range(4)), altStatName="x" * 30_000)
        stream = self.has(delta(self.channel))
        stream.ask(type_url=CLUSTER)
        wait_until(lambda: self.tap.of("down"), what="a response")
        silent = socket.create_connection(("127.0.0.1", int(self.bridge.address.split(":")[1])))
        begun = time.monotonic()
        self.bridge.process.send_signal(signal.SIGTERM)
        self.assertEqual(self.bridge.process.wait(PATIENCE), 0)
        self.assertLess(time.monotonic() - begun, 5)
        silent.close()


class Many(Streams):
    def test_two_hundred_streams(self):
        self.put(*(f"c{i}" for i in range(20)))
        streams = [self.has((sotw if i % 2 else delta)(self.channel)) for i in range(200)]
        for it in streams:
            it.ask(type_url=CLUSTER)
        for it in streams:
            response = it.take()
            self.assertEqual(len(response.resources), 20)
            it.accept(response)
        self.put("c5", altStatName="new")
        for it in streams:
            response = it.take()
            self.assertEqual(len(response.resources), 1 if it.delta else 20)
            it.accept(response)
        self.assertEqual(len({str(it.get("nonce")) for it in self.tap.of("down")}), 2)
        for it in streams:
            it.close()
        for it in streams:
            self.assertEqual(it.status()[0], grpc.StatusCode.OK)

    def test_a_slow_client_beside_others(self):
        # (gRPC takes 64 KiB of a message that nobody asks for; the slow ones are on the connection of the quick one)
        self.put(*(f"c{i}" for i in range(6)), altStatName="x" * 20_000)
        slow = [self.has(sotw(self.channel)) for _ in range(10)]
        for it in slow:
            it.ask(type_url=CLUSTER)
        wait_until(lambda: len(self.tap.of("down")) == 10, what="responses")
        quick = self.has(delta(self.channel))
        quick.ask(type_url=CLUSTER)
        quick.accept(quick.take())
        for i in range(20):
            self.put("late", altStatName=str(i))
            response = quick.take()
            self.assertEqual([it.name for it in response.resources], ["late"])
            quick.accept(response)
        # Once they read, they have first what waited, and then the present state.
        for it in slow:
            response = it.take()
            self.assertEqual(len(response.resources), 6)
            it.accept(response)
            self.assertEqual(len(it.take().resources), 7)


class Ports(Streams):
    def test_garbage_to_the_port(self):
        where = ("127.0.0.1", int(self.bridge.address.split(":")[1]))
        preface = b"PRI * HTTP/2.0\r\n\r\nSM\r\n\r\n"
        held = [socket.create_connection(where, PATIENCE)]
        for it in (b"", b"\x00", b"GET / HTTP/1.1\r\n\r\n", os.urandom(1000), b"\xff" * 100_000, preface, preface + os.urandom(2000),
                   preface + b"\x00\x00\x00\x04\x00\x00\x00\x00\x00" + os.urandom(500), b"\x00\x00\x00\x03\x01{}"):
            with socket.create_connection(where, PATIENCE) as garbage:
                try:
                    garbage.sendall(it)
                    garbage.shutdown(socket.SHUT_WR)
                    garbage.settimeout(PATIENCE)
                    while garbage.recv(1 << 16):
                        pass
                except OSError:
                    pass
        self.put("a")
        stream = self.has(delta(self.channel))
        stream.ask(type_url=CLUSTER)
        self.assertEqual(stream.take().resources[0].name, "a")
        self.assertIsNone(self.bridge.process.poll())
        held[0].close()

    def test_messages_that_are_none(self):
        raw = self.channel.stream_stream(f"/envoy.service.{ADS}/StreamAggregatedResources")
        for it in (b"\x00", b"\xff\xff", b"\x1a\x01\xff", b"\x22\x05ab"):
            with self.assertRaises(grpc.RpcError) as caught:
                list(raw(iter([it]), timeout=PATIENCE))
            self.assertEqual(caught.exception.code(), grpc.StatusCode.INVALID_ARGUMENT)
        # (an entry of a map with two keys, the second of which is none)
        raw = self.channel.stream_stream(f"/envoy.service.{ADS}/DeltaAggregatedResources")
        with self.assertRaises(grpc.RpcError) as caught:
            list(raw(iter([b"\x2a\x05\x0a\x01a\x08\x01"]), timeout=PATIENCE))
        self.assertEqual(caught.exception.code(), grpc.StatusCode.INVALID_ARGUMENT)
        with self.assertRaises(grpc.RpcError) as caught:
            list(self.channel.stream_stream("/envoy.service.discovery.v3.Other/Stream")(iter([b""]), timeout=PATIENCE))
        self.assertEqual(caught.exception.code(), grpc.StatusCode.UNIMPLEMENTED)

    def test_health(self):
        # HealthCheckRequest.service is field 1, HealthCheckResponse.status field 1: 1 is SERVING, 2 NOT_SERVING
        check = self.channel.unary_unary("/grpc.health.v1.Health/Check")
        name = f"envoy.service.{ADS}".encode()
        ads = b"\x0a" + bytes([len(name)]) + name
        self.assertEqual([check(it, timeout=PATIENCE) for it in (b"", ads)], [b"\x08\x01", b"\x08\x01"])
        watch = self.channel.unary_stream("/grpc.health.v1.Health/Watch")(ads, timeout=PATIENCE)
        self.assertEqual(next(watch), b"\x08\x01")
        with self.assertRaises(grpc.RpcError) as caught:
            check(b"\x0a\x01x", timeout=PATIENCE)
        self.assertEqual(caught.exception.code(), grpc.StatusCode.NOT_FOUND)
        # Many who ask share one look at the server, which is good for five seconds.
        looks = len(self.tap.held)
        for _ in range(50):
            check(ads, timeout=PATIENCE)
        self.assertLessEqual(len(self.tap.held), looks + 2)
        self.tap.end()
        wait_until(lambda: check(ads, timeout=PATIENCE) == b"\x08\x02", what="NOT_SERVING")
        self.assertEqual(check(b"", timeout=PATIENCE), b"\x08\x01")
        self.assertEqual(next(watch), b"\x08\x02")
        watch.cancel()

    def test_health_where_the_server_turns_streams_away(self):
        full = self.has(Control(None, "--max-streams", "1"))
        bridge = self.has(Bridge(full.port))
        full.put(CLUSTER, name="a")
        full.settle()
        with grpc.insecure_channel(bridge.address) as channel:
            name = f"envoy.service.{ADS}".encode()
            check = channel.unary_unary("/grpc.health.v1.Health/Check")
            ask = b"\x0a" + bytes([len(name)]) + name
            stream = self.has(delta(channel))
            stream.ask(type_url=CLUSTER)
            stream.accept(stream.take())
            self.assertEqual(check(ask, timeout=PATIENCE), b"\x08\x01")
            wait_until(lambda: check(ask, timeout=PATIENCE) == b"\x08\x02", what="NOT_SERVING")
            stream.end()
            wait_until(lambda: check(ask, timeout=PATIENCE) == b"\x08\x01", what="SERVING")

    def test_reflection(self):
        talk = self.channel.stream_stream("/grpc.reflection.v1alpha.ServerReflection/ServerReflectionInfo")
        ads = f"envoy.service.{ADS}".encode()
        # list_services is field 7, file_containing_symbol 4, file_by_filename 3
        symbol = b"\x22" + bytes([len(ads)]) + ads
        file = b"envoy/service/cluster/v3/cds.proto"
        listed, found, named, none = talk(iter([b"\x3a\x00", symbol, b"\x1a" + bytes([len(file)]) + file, b"\x22\x04nope"]), timeout=PATIENCE)
        for it in (ads, b"envoy.service.cluster.v3.ClusterDiscoveryService", b"grpc.health.v1.Health"):
            self.assertIn(it, listed)
        for it in (b"StreamAggregatedResources", b"DeltaDiscoveryRequest", b"google/protobuf/any.proto"):
            self.assertIn(it, found)
        self.assertIn(b"FetchClusters", named)
        # (what the stream has already isn't sent again)
        self.assertNotIn(b"DeltaDiscoveryRequest\x12", named)
        self.assertIn(b"don't have it", none)

    def test_what_responses_and_requests_say(self):
        self.put("a")
        named = self.has(Bridge(self.tap.port, "--identifier", "me"))
        with grpc.insecure_channel(named.address) as channel:
            for make in (sotw, delta):
                for on, name in ((self.channel, f"xds at 127.0.0.1:{self.tap.port}"), (channel, "me")):
                    stream = self.has(make(on))
                    stream.ask(type_url=CLUSTER)
                    self.assertEqual(stream.take().control_plane.identifier, name)
                    stream.ask()
                    code, details = stream.status()
                    self.assertEqual(code, grpc.StatusCode.INVALID_ARGUMENT)
                    self.assertIn("type_url", details)

    def test_addresses_of_clients(self):
        port = free_ports(1)[0]
        control = self.has(Control(None, "--admin-port", str(port)))
        control.put(CLUSTER, name="a")
        control.settle()
        bridge = self.has(Bridge(control.port, "--client-addresses"))

        def shown():
            with urllib.request.urlopen(f"http://127.0.0.1:{port}/status", timeout=PATIENCE) as reply:
                return {it["peer"] for it in json.load(reply)["replicas"][0]["streams"]}

        def mine():
            """The address of this process' connection to the bridge."""
            at, found = f":{int(bridge.address.rsplit(':', 1)[1]):04X}", set()
            for table in ("tcp", "tcp6"):
                with open(f"/proc/self/net/{table}", encoding="utf-8") as file:
                    for line in file:
                        words = line.split()
                        if words[2].endswith(at) and words[3] == "01":
                            found.add("127.0.0.1:%d" % int(words[1].split(":")[1], 16))
            return found

        with grpc.insecure_channel(bridge.address) as channel:
            for make in (sotw, delta):
                stream = self.has(make(channel))
                stream.ask(type_url=CLUSTER, **{"resource_names_subscribe" if stream.delta else "resource_names": ["*"]})
                stream.take()
            self.assertEqual(len(mine()), 1)
            self.assertEqual(shown(), mine())

    def test_old_connections(self):
        self.put("a")
        bridge = self.has(Bridge(self.tap.port, "--max-connection-age", "1s", "--max-connection-age-grace", "500ms"))
        with grpc.insecure_channel(bridge.address) as channel:
            for _ in range(2):
                stream = self.has(delta(channel))
                stream.ask(type_url=CLUSTER)
                self.assertEqual(stream.take().resources[0].name, "a")
                self.assertEqual(stream.status()[0], grpc.StatusCode.UNAVAILABLE)

    def test_an_error_output_that_nobody_reads(self):
        bridge = subprocess.Popen([BRIDGE, "--listen", "127.0.0.1:0", "--server", f"127.0.0.1:{self.control.port}"], stderr=subprocess.PIPE)
        self.addCleanup(bridge.stderr.close)
        self.addCleanup(bridge.kill)
        address = bridge.stderr.readline().split()[3].decode()
        fcntl.fcntl(bridge.stderr, fcntl.F_SETPIPE_SZ, 4096)
        with grpc.insecure_channel(address) as channel:
            stream = self.has(delta(channel))
            stream.ask(type_url=ENDPOINT, resource_names_subscribe=["e"])
            for i in range(40):
                name = f"b{i}" + "x" * 300
                self.put(name, noSuch=1)
                stream.ask(type_url=CLUSTER, resource_names_subscribe=[name])
            self.put("e", url=ENDPOINT)
            self.assertEqual(stream.take().type_url, ENDPOINT)
        begun = time.monotonic()
        bridge.send_signal(signal.SIGTERM)
        self.assertEqual(bridge.wait(PATIENCE), 0)
        self.assertLess(time.monotonic() - begun, 8)

    def test_words(self):
        def run(*words):
            ran = subprocess.run([BRIDGE, *words], capture_output=True, text=True, timeout=PATIENCE, check=False)
            return ran.returncode, ran.stdout, ran.stderr

        status, text, errors = run("--help")
        self.assertEqual((status, errors), (0, ""))
        for it in ("listen", "server", "descriptors", "cache-bytes", "tls-cert", "tls-key", "client-ca", "skip-bad", "metrics", "check", "identity",
                   "identifier", "max-connection-age", "max-connection-age-grace"):
            self.assertIn("-" + it, text)
        for words, part in ((["--listn", "x"], "listn"), (["x"], "x"), (["--listen", "0.0.0.0:1"], "loopback"),
                            (["--cache-bytes", "many"], "many"), (["--client-ca", "x"], "--tls-cert")):
            status, text, errors = run(*words)
            self.assertEqual((status, text), (2, ""))
            self.assertIn(part, errors)
        for words in (["--descriptors", "/nowhere"], ["--descriptors", BRIDGE], ["--listen", self.bridge.address]):
            status, _, errors = run(*words)
            self.assertEqual((status, errors.count("\n")), (1, 1), errors)
        self.assertEqual(len(self.bridge.lines), 1)
        self.assertIn(f"over the control plane at 127.0.0.1:{self.tap.port}", self.bridge.lines[0])


if __name__ == "__main__":
    unittest.main()
