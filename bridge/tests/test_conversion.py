"""What the bridge makes of JSON, against what Python's protobuf makes of the same JSON."""
import importlib
import json
import unittest

import grpc
from google.protobuf import any_pb2, empty_pb2, json_format  # noqa: F401 (Empty, for json_format)
from parts import CLUSTER, ENDPOINT, LISTENER, MANAGER, PREFIX, ROUTE, ROUTER, SECRET, Bridge, Control, delta

for it in ("config.cluster.v3.cluster", "config.endpoint.v3.endpoint", "config.listener.v3.listener", "config.route.v3.route",
           "extensions.transport_sockets.tls.v3.tls", "extensions.upstreams.http.v3.http_protocol_options",
           "extensions.filters.network.http_connection_manager.v3.http_connection_manager", "extensions.filters.http.router.v3.router",
           "extensions.filters.network.tcp_proxy.v3.tcp_proxy", "extensions.filters.listener.tls_inspector.v3.tls_inspector",
           "extensions.access_loggers.file.v3.file", "extensions.access_loggers.stream.v3.stream", "extensions.filters.http.cors.v3.cors",
           "extensions.filters.http.fault.v3.fault", "extensions.filters.http.rbac.v3.rbac", "config.trace.v3.zipkin"):
    importlib.import_module(f"envoy.{it}_pb2")

OPTIONS = PREFIX + "extensions.upstreams.http.v3.HttpProtocolOptions"
TLS = PREFIX + "extensions.transport_sockets.tls.v3.UpstreamTlsContext"
FILTERS = PREFIX + "extensions.filters."
LOG = {"name": "log", "typedConfig": {"@type": PREFIX + "extensions.access_loggers.file.v3.FileAccessLog", "path": "/dev/stdout",
                                      "logFormat": {"jsonFormat": {"status": "%RESPONSE_CODE%"}}}}
STRUCT = {"a": {"b": [1, True, None, "x", {}], "c": -9007199254740991}, "": "", "ü\u2028\"": "\\\n\u0000"}

GOOD = [
    (CLUSTER, {}),
    (CLUSTER, {"type": "LOGICAL_DNS", "connectTimeout": "0.500s", "lbPolicy": "LEAST_REQUEST"}),
    (CLUSTER, {"type": 3, "connect_timeout": "3.000000001s", "lb_policy": 7, "dnsLookupFamily": 99}),
    (CLUSTER, {"connectTimeout": None, "type": None, "metadata": None, "healthChecks": []}),
    (CLUSTER, {"metadata": {"filterMetadata": {"envoy.lb": STRUCT}}}),
    (CLUSTER, {"perConnectionBufferLimitBytes": 4294967295, "ringHashLbConfig": {"minimumRingSize": "18446744073709551615"}}),
    (CLUSTER, {"perConnectionBufferLimitBytes": "7", "ringHashLbConfig": {"minimumRingSize": 18446744073709551615, "hashFunction": 1}}),
    (CLUSTER, {"circuitBreakers": {"thresholds": [{"priority": "HIGH", "maxConnections": 0, "trackRemaining": True}, {}]}}),
    (CLUSTER, {"commonLbConfig": {"healthyPanicThreshold": {"value": 50}, "localityWeightedLbConfig": {}}}),
    (CLUSTER, {"typedExtensionProtocolOptions": {"envoy.http": {"@type": OPTIONS, "explicitHttpConfig": {"http2ProtocolOptions": {
        "connectionKeepalive": {"interval": "-1.5s", "timeout": "315576000000s"}}}}}}),
    (CLUSTER, {"typedExtensionProtocolOptions": {"e": {"@type": "type.googleapis.com/google.protobuf.Empty"}}}),
    (CLUSTER, {"transportSocket": {"name": "tls", "typedConfig": {"@type": TLS, "sni": "ä", "commonTlsContext": {
        "alpnProtocols": ["h2", ""], "validationContext": {"trustedCa": {"filename": "/x"}}}}}}),
    (ENDPOINT, {"endpoints": [{"locality": {"region": "r", "zone": "z", "subZone": "s"}, "loadBalancingWeight": 3, "priority": 1,
                               "lbEndpoints": [{"healthStatus": "DRAINING", "loadBalancingWeight": 1, "endpoint": {
                                   "address": {"socketAddress": {"address": "::1", "portValue": 65535, "protocol": "UDP"}}}}]}]}),
    (ENDPOINT, {"policy": {"dropOverloads": [{"category": "c", "dropPercentage": {"numerator": 5, "denominator": "MILLION"}}]},
                "namedEndpoints": {"x": {"hostname": "h"}, "": {}}}),
    (LISTENER, {"apiListener": {"apiListener": {"@type": MANAGER, "rds": {"routeConfigName": "r", "configSource": {"ads": {}}},
                                                "httpFilters": [{"name": "f", "typedConfig": {"@type": ROUTER, "dynamicStats": False}}]}}}),
    (LISTENER, {"filterChains": [{"filterChainMatch": {"prefixRanges": [{"addressPrefix": "10.0.0.0", "prefixLen": 8}]}, "filters": [
        {"name": "h", "typedConfig": {"@type": MANAGER, "statPrefix": "s", "routeConfig": {"name": "inner"}}}]}]}),
    (LISTENER, {"metadata": {"typedFilterMetadata": {
        "d": {"@type": "type.googleapis.com/google.protobuf.Duration", "value": "1s"},
        "s": {"@type": "type.googleapis.com/google.protobuf.Struct", "value": STRUCT},
        "a": {"@type": "type.googleapis.com/google.protobuf.Any", "value": {"@type": ROUTER}}, "e": {}}}}),
    (LISTENER, {"address": {"socketAddress": {"address": "0.0.0.0", "portValue": 5432}}, "accessLog": [LOG], "listenerFilters": [
        {"name": "tls", "typedConfig": {"@type": FILTERS + "listener.tls_inspector.v3.TlsInspector", "enableJa3Fingerprinting": True}}],
        "filterChains": [{"filters": [{"name": "tcp", "typedConfig": {
            "@type": FILTERS + "network.tcp_proxy.v3.TcpProxy", "statPrefix": "db", "weightedClusters": {"clusters": [
                {"name": "a", "weight": 1}]}, "idleTimeout": "3600s", "accessLog": [LOG], "maxConnectAttempts": 3}}]}]}),
    (LISTENER, {"filterChains": [{"filters": [{"name": "h", "typedConfig": {
        "@type": MANAGER, "statPrefix": "s", "rds": {"routeConfigName": "r", "configSource": {"ads": {}}},
        "accessLog": [{"name": "out", "filter": {"statusCodeFilter": {"comparison": {"op": "GE", "value": {"defaultValue": 500,
                                                                                                          "runtimeKey": "k"}}}},
                       "typedConfig": {"@type": PREFIX + "extensions.access_loggers.stream.v3.StdoutAccessLog"}}],
        "tracing": {"randomSampling": {"value": 1}, "provider": {"name": "zipkin", "typedConfig": {
            "@type": PREFIX + "config.trace.v3.ZipkinConfig", "collectorCluster": "z", "collectorEndpoint": "/v2", "sharedSpanContext": False}}},
        "httpFilters": [
            {"name": "cors", "typedConfig": {"@type": FILTERS + "http.cors.v3.Cors"}},
            {"name": "fault", "typedConfig": {"@type": FILTERS + "http.fault.v3.HTTPFault", "maxActiveFaults": 7,
                                              "abort": {"httpStatus": 503, "percentage": {"numerator": 5}}}},
            {"name": "rbac", "typedConfig": {"@type": FILTERS + "http.rbac.v3.RBAC", "rules": {"action": "DENY", "policies": {"p": {
                "permissions": [{"urlPath": {"path": {"prefix": "/admin"}}}], "principals": [{"any": True}]}}}}},
            {"name": "router", "typedConfig": {"@type": ROUTER}}]}}]}]}),
    (CLUSTER, {"preconnectPolicy": {"predictivePreconnectRatio": 2}, "lrsServer": {"self": {}}, "upstreamBindConfig": {
        "sourceAddress": {"address": "127.0.0.1", "portValue": 0}}}),
    (ROUTE, {"virtualHosts": [{"name": "v", "domains": ["*", "a.b"], "routes": [
        {"match": {"prefix": ""}, "route": {"cluster": "c", "timeout": "0s"}},
        {"match": {"safeRegex": {"regex": ".*"}, "caseSensitive": False, "headers": [
            {"name": "h", "rangeMatch": {"start": "-9223372036854775808", "end": 9223372036854775807}}]},
         "route": {"weightedClusters": {"clusters": [{"name": "a", "weight": 1}, {"name": "b", "weight": 0}]}}},
        {"match": {"path": "/"}, "directResponse": {"status": 404, "body": {"inlineBytes": "aGFsbG8="}}}]}]}),
    (SECRET, {"tlsCertificate": {"certificateChain": {"inlineString": "-----\n"}, "privateKey": {"inlineBytes": "AAEC/v8="}}}),
    (SECRET, {"genericSecret": {"secret": {"inlineBytes": "_-8"}}}),
    (SECRET, {"validationContext": {"matchTypedSubjectAltNames": [{"sanType": "URI", "matcher": {"prefix": "spiffe://"}}]}}),
]

BAD = [
    (CLUSTER, {"lbPolicy": "NO_SUCH"}, "NO_SUCH"),
    (CLUSTER, {"connectTimeout": "1"}, "google.protobuf.Duration"),
    (CLUSTER, {"connectTimeout": 1}, "1"),
    (CLUSTER, {"connectTimeout": "1s", "connect_timeout": "1s"}, "connect_timeout"),
    (CLUSTER, {"type": "EDS", "clusterType": {}}, "cluster_discovery_type"),
    (CLUSTER, {"perConnectionBufferLimitBytes": 4294967296}, "4294967296"),
    (CLUSTER, {"perConnectionBufferLimitBytes": -1}, "-1"),
    (CLUSTER, {"altStatName": 1}, "1"),
    (CLUSTER, {"healthChecks": {}}, "{"),
    (CLUSTER, {"healthChecks": [None]}, "null"),
    (CLUSTER, {"edsClusterConfig": {"edsConfig": {"ads": {"x": 1}}}}, '"x"'),
    (CLUSTER, {"transportSocket": {"typedConfig": {"@type": TLS, "noSuch": 1}}}, '"noSuch"'),
    (CLUSTER, {"transportSocket": {"typedConfig": {"@type": "type.googleapis.com/no.Such"}}}, "no.Such"),
    (CLUSTER, {"transportSocket": {"typedConfig": {"sni": "x"}}}, "@type"),
    (SECRET, {"genericSecret": {"secret": {"inlineBytes": "%"}}}, "%"),
]


class Conversion(unittest.TestCase):
    def setUp(self):
        self.control = Control()
        self.addCleanup(self.control.end)
        self.bridge = Bridge(self.control.port)
        self.addCleanup(self.bridge.end)
        channel = grpc.insecure_channel(self.bridge.address)
        self.addCleanup(channel.close)
        self.stream = delta(channel)
        self.addCleanup(self.stream.end)

    def named(self, url, name, body):
        return {"clusterName" if url == ENDPOINT else "name": name, **body}

    def test_what_can_be_converted(self):
        wanted = {}
        for i, (url, body) in enumerate(GOOD):
            self.control.put(url, **self.named(url, f"g{i}", body))
            it = any_pb2.Any()
            json_format.ParseDict({"@type": url, **self.named(url, f"g{i}", json.loads(json.dumps(body)))}, it)
            wanted[f"g{i}"] = it
        self.control.settle()
        for url in sorted({it for it, _ in GOOD}):
            self.stream.ask(type_url=url, resource_names_subscribe=[f"g{i}" for i, (its, _) in enumerate(GOOD) if its == url])
        while wanted:
            response = self.stream.take()
            for it in response.resources:
                # (the value's fields and maps may stand in another order)
                theirs, ours = wanted.pop(it.name), it.resource
                kind = json_format.MessageToDict
                self.assertEqual((it.name, kind(ours)), (it.name, kind(theirs)))
                self.assertEqual(len(ours.value), len(theirs.value))
            self.stream.accept(response)
        self.assertFalse(self.bridge.told("refused"))

    def test_what_cant(self):
        for i, (url, body, part) in enumerate(BAD):
            name = f"b{i}"
            with self.subTest(body=body):
                self.control.put(url, **self.named(url, name, body))
                self.control.settle()
                self.stream.ask(type_url=url, resource_names_subscribe=[name])
                line = self.bridge.wait_for(f'resource "{name}"')
                self.assertIn(part, line)
                self.stream.ask(type_url=url, resource_names_unsubscribe=[name])
        self.assertEqual(len(self.bridge.told("refused")), len(BAD))


if __name__ == "__main__":
    unittest.main()
