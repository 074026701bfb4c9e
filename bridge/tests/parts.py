"""What the tests of the bridge stand on: a control plane, the bridge, a tap between them, clients and backends."""
import concurrent.futures
import json
import os
import queue
import signal
import socket
import subprocess
import sys
import tempfile
import threading
import time
import urllib.request

import grpc
from envoy.service.discovery.v3 import discovery_pb2

HERE = os.path.dirname(os.path.realpath(__file__))
TOP = os.path.dirname(os.path.dirname(HERE))
OUT = os.path.join(TOP, "bridge", "out")
BRIDGE = os.path.join(OUT, "bridge")
XDS = os.environ.get("XDS") or os.path.join(TOP, "xds")
# How long a step of a test may take, in seconds.
PATIENCE = 30

PREFIX = "type.googleapis.com/envoy."
CLUSTER = PREFIX + "config.cluster.v3.Cluster"
ENDPOINT = PREFIX + "config.endpoint.v3.ClusterLoadAssignment"
LISTENER = PREFIX + "config.listener.v3.Listener"
ROUTE = PREFIX + "config.route.v3.RouteConfiguration"
SECRET = PREFIX + "extensions.transport_sockets.tls.v3.Secret"
MANAGER = PREFIX + "extensions.filters.network.http_connection_manager.v3.HttpConnectionManager"
ROUTER = PREFIX + "extensions.filters.http.router.v3.Router"
WORDS = {CLUSTER: "cluster", ENDPOINT: "endpoint", LISTENER: "listener", ROUTE: "route", SECRET: "secret"}
ADS = "discovery.v3.AggregatedDiscoveryService"


def free_ports(count):
    """Ports that are free: all are held until all are found."""
    held = [socket.socket() for _ in range(count)]
    try:
        for it in held:
            it.bind(("127.0.0.1", 0))
        return [it.getsockname()[1] for it in held]
    finally:
        for it in held:
            it.close()


def wait_until(holds, seconds=PATIENCE, what="it"):
    end = time.monotonic() + seconds
    while not holds():
        if time.monotonic() > end:
            what = what() if callable(what) else what
            raise AssertionError(f"{what} didn't come about in {seconds} seconds")
        time.sleep(0.02)


class Process:
    """A process whose error output is kept by lines."""

    def __init__(self, words):
        pipe = subprocess.PIPE
        self.process = subprocess.Popen(words, stdin=pipe, stdout=pipe, stderr=pipe, text=True, bufsize=1)
        self.lines = []
        self.reader = threading.Thread(target=self._read, daemon=True)
        self.reader.start()

    def _read(self):
        for line in self.process.stderr:
            self.lines.append(line.rstrip("\n"))

    def told(self, part):
        return [it for it in list(self.lines) if part in it]

    def wait_for(self, part, seconds=PATIENCE):
        def holds():
            if self.process.poll() is not None and not self.told(part):
                raise AssertionError(f"ended with {self.process.returncode}: {self.lines}")
            return self.told(part)

        wait_until(holds, seconds, f"a line with {part!r}")
        return self.told(part)[0]

    def end(self, how=signal.SIGKILL):
        if self.process.poll() is None:
            self.process.send_signal(how)
        status = self.process.wait(PATIENCE)
        self.reader.join(PATIENCE)
        for it in (self.process.stdin, self.process.stdout, self.process.stderr):
            it.close()
        return status


class Control(Process):
    """`xds serve` with one replica."""

    def __init__(self, port=None, *words):
        self.port, self.rest = free_ports(2)
        self.port = port or self.port
        self.writes = {}
        super().__init__([XDS, "serve", "--replicas", "1", "--port", str(self.port), "--rest-port", str(self.rest), *words])
        # (the first run of ./xds may prove and build)
        self.wait_for("streams on", 7200 if XDS == os.path.join(TOP, "xds") else PATIENCE)

    def put(self, url, **resource):
        self.process.stdin.write(f"put 1 {json.dumps({'@type': url, **resource})}\n")
        self.writes[url] = self.writes.get(url, 0) + 1

    def delete(self, url, name):
        self.process.stdin.write(f"delete 1 {WORDS[url]} {name}\n")
        self.writes[url] = self.writes.get(url, 0) + 1

    def settle(self):
        """Waits until what was put and deleted is there, which the count in versions says."""
        for url, count in self.writes.items():
            body = json.dumps({"resourceNames": ["x"]}).encode()
            request = urllib.request.Request(f"http://127.0.0.1:{self.rest}/v3/discovery:{WORDS[url]}s", body)

            def holds(request=request, count=count):
                with urllib.request.urlopen(request, timeout=PATIENCE) as reply:
                    return int(json.load(reply)["versionInfo"].split(".")[1]) == count

            wait_until(holds, what=f"{count} writes")


class Bridge(Process):
    def __init__(self, server, *words):
        super().__init__([BRIDGE, "--listen", "127.0.0.1:0", "--server", f"127.0.0.1:{server}", *words])
        self.address = self.wait_for("listening on").split()[3]


class Tap:
    """Stands before a control plane, and keeps the frames of all streams: (way, kind, message)."""

    def __init__(self, port):
        self.to = port
        self.listener = socket.create_server(("127.0.0.1", 0))
        self.port = self.listener.getsockname()[1]
        self.frames = []
        self.held = []
        threading.Thread(target=self._accept, daemon=True).start()

    def _accept(self):
        while True:
            try:
                here, _ = self.listener.accept()
            except OSError:
                return
            try:
                there = socket.create_connection(("127.0.0.1", self.to), PATIENCE)
                there.settimeout(None)
            except OSError:
                here.close()
                continue
            self.held += [here, there]
            for way, source, sink in (("up", here, there), ("down", there, here)):
                threading.Thread(target=self._carry, args=(way, source, sink), daemon=True).start()

    def _carry(self, way, source, sink):
        file = source.makefile("rb")
        try:
            while True:
                head = file.read(5)
                if len(head) < 5:
                    break
                text = file.read(int.from_bytes(head[:4], "big") - 1)
                self.frames.append((way, head[4], json.loads(text)))
                sink.sendall(head + text)
        except (OSError, ValueError):
            pass
        try:
            sink.shutdown(socket.SHUT_WR)
        except OSError:
            pass

    def of(self, way, url=None):
        return [it for its_way, _, it in list(self.frames) if its_way == way and url in (None, it.get("typeUrl"))]

    def end(self):
        for it in (self.listener, *self.held):
            try:
                # (which wakes the thread that waits on it)
                it.shutdown(socket.SHUT_RDWR)
            except OSError:
                pass
            it.close()


class Stream:
    """A stream of gRPC by raw stubs, one of ADS or of a service of a single type."""

    def __init__(self, channel, method, service=ADS):
        self.delta = method.startswith("Delta")
        self.request = discovery_pb2.DeltaDiscoveryRequest if self.delta else discovery_pb2.DiscoveryRequest
        response = discovery_pb2.DeltaDiscoveryResponse if self.delta else discovery_pb2.DiscoveryResponse
        call = channel.stream_stream(
            f"/envoy.service.{service}/{method}", self.request.SerializeToString, response.FromString
        )
        self.requests = queue.Queue()
        self.call = call(iter(self.requests.get, None), timeout=4 * PATIENCE)

    def ask(self, **fields):
        self.requests.put(self.request(**fields))

    def take(self):
        return next(self.call)

    def accept(self, response, **fields):
        if not self.delta:
            fields = {"version_info": response.version_info, **fields}
        self.ask(type_url=response.type_url, response_nonce=response.nonce, **fields)

    def close(self):
        """Says that nothing more is asked for."""
        self.requests.put(None)

    def end(self):
        self.call.cancel()
        self.close()

    def status(self):
        """The status by which the stream ends, once all that comes before it was taken."""
        try:
            for _ in self.call:
                pass
        except grpc.RpcError as error:
            return error.code(), error.details()
        return self.call.code(), self.call.details()


def sotw(channel):
    return Stream(channel, "StreamAggregatedResources")


def delta(channel):
    return Stream(channel, "DeltaAggregatedResources")


class Backend:
    """A gRPC server on loopback that says its name."""

    def __init__(self, name):
        self.server = grpc.server(concurrent.futures.ThreadPoolExecutor(2))
        say = grpc.unary_unary_rpc_method_handler(lambda _, __: name.encode())
        self.server.add_generic_rpc_handlers((grpc.method_handlers_generic_handler("test.Names", {"Say": say}),))
        self.port = self.server.add_insecure_port("127.0.0.1:0")
        self.server.start()

    def end(self):
        self.server.stop(0)


class Resolver(Process):
    """A process with gRPC's own xDS client, which calls `xds:///TARGET` when it is told to."""

    def __init__(self, bridge, target, node="resolver", cluster=""):
        self.folder = tempfile.TemporaryDirectory()
        bootstrap = os.path.join(self.folder.name, "bootstrap.json")
        server = {"server_uri": bridge, "channel_creds": [{"type": "insecure"}], "server_features": ["xds_v3"]}
        with open(bootstrap, "w", encoding="utf-8") as file:
            json.dump({"xds_servers": [server], "node": {"id": node, "cluster": cluster}}, file)
        words = ["env", f"GRPC_XDS_BOOTSTRAP={bootstrap}", sys.executable, os.path.join(HERE, "resolver.py"), target]
        super().__init__(words)

    def call(self, seconds=10):
        """Makes one call that waits for a backend. Answers the backend's name, or the name of a status."""
        self.process.stdin.write(f"{seconds}\n")
        return self.process.stdout.readline().strip()

    def wait_for_reply(self, wanted, seconds=PATIENCE):
        seen = []

        def holds():
            seen.append(self.call(3))
            return seen[-1] == wanted

        wait_until(holds, seconds, lambda: f"the reply {wanted}, after {seen[-3:]},")

    def end(self, how=signal.SIGKILL):
        status = super().end(how)
        self.folder.cleanup()
        return status


def put_service(control, target, route="route", cluster="cluster", endpoints="endpoints"):
    """Puts what leads a client of gRPC from a target to a list of endpoints."""
    ads = {"ads": {}, "resourceApiVersion": "V3"}
    manager = {
        "@type": MANAGER,
        "rds": {"routeConfigName": route, "configSource": ads},
        "httpFilters": [{"name": "router", "typedConfig": {"@type": ROUTER}}],
    }
    control.put(LISTENER, name=target, apiListener={"apiListener": manager})
    to = {"match": {"prefix": ""}, "route": {"cluster": cluster}}
    control.put(ROUTE, name=route, virtualHosts=[{"name": "all", "domains": ["*"], "routes": [to]}])
    put_cluster(control, cluster, endpoints)


def put_cluster(control, name, endpoints, **more):
    ads = {"ads": {}, "resourceApiVersion": "V3"}
    control.put(CLUSTER, **{"name": name, "type": "EDS", "lbPolicy": "ROUND_ROBIN", "connectTimeout": "1s",
                            "edsClusterConfig": {"edsConfig": ads, "serviceName": endpoints}, **more})


def put_endpoints(control, name, *ports):
    hosts = [{"healthStatus": "HEALTHY", "loadBalancingWeight": 1,
              "endpoint": {"address": {"socketAddress": {"address": "127.0.0.1", "portValue": it}}}} for it in ports]
    control.put(ENDPOINT, clusterName=name, endpoints=[{
        "locality": {"region": "r", "zone": "z", "subZone": "s"}, "loadBalancingWeight": 1, "lbEndpoints": hosts}])
