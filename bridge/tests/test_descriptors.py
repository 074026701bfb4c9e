"""The small descriptor set against Envoy's own descriptors, and full sets in its place."""
import os
import tempfile
import unittest

import envoy_set
from google.protobuf import descriptor_pb2
from parts import CLUSTER, LISTENER, OUT, Bridge, Control, delta, sotw

# What gRPC's library doesn't have: these are written by hand.
NOT_COMPARED = tuple("envoy.extensions." + it for it in (
    "upstreams.http.v3.", "filters.network.tcp_proxy.v3.", "filters.listener.tls_inspector.v3.", "filters.listener.http_inspector.v3.",
    "access_loggers.file.v3.", "access_loggers.stream.v3.", "filters.http.cors.v3."))


def index(files):
    """What each message and enum has, by full names."""
    found = {}

    def add_enum(prefix, enum):
        found[prefix + enum.name] = {it.name: it.number for it in enum.value}

    def add(prefix, message):
        name = prefix + message.name
        found[name] = {
            it.name: (it.number, it.label, it.type, it.type_name, it.proto3_optional,
                      it.HasField("oneof_index") and message.oneof_decl[it.oneof_index].name) for it in message.field}
        for it in message.nested_type:
            add(name + ".", it)
        for it in message.enum_type:
            add_enum(name + ".", it)

    for file in files:
        for it in file.message_type:
            add(file.package + ".", it)
        for it in file.enum_type:
            add_enum(file.package + ".", it)
    return found


class Descriptors(unittest.TestCase):
    @classmethod
    def setUpClass(cls):
        cls.envoy = envoy_set.files()
        if "envoy/config/cluster/v3/cluster.proto" not in cls.envoy:
            raise unittest.SkipTest("gRPC's library has no descriptors of Envoy in it")

    def test_numbers_and_types_are_envoys(self):
        with open(os.path.join(OUT, "go", "envoy.binpb"), "rb") as file:
            ours = index(descriptor_pb2.FileDescriptorSet.FromString(file.read()).file)
        theirs, compared = index(self.envoy.values()), 0
        for name, fields in ours.items():
            if name.startswith(NOT_COMPARED):
                continue
            for field, what in fields.items():
                self.assertEqual(what, theirs[name].get(field), f"{name}.{field}")
                compared += 1
        self.assertGreater(compared, 1500)

    def bridge(self, files):
        file = tempfile.NamedTemporaryFile()
        self.addCleanup(file.close)
        file.write(envoy_set.closed(files).SerializeToString())
        file.flush()
        bridge = Bridge(self.control.port, "--descriptors", file.name)
        self.addCleanup(bridge.end)
        return bridge

    def test_a_full_set(self):
        import grpc
        self.control = Control()
        self.addCleanup(self.control.end)
        for files in (self.envoy, {name: it for name, it in self.envoy.items() if "/service/" not in name}):
            bridge = self.bridge(files)
            with grpc.insecure_channel(bridge.address) as channel:
                # Types that the small set lacks.
                for url, name in ((CLUSTER, "a"), (LISTENER, "l")):
                    memory = {"@type": "type.googleapis.com/envoy.admin.v3.Memory", "allocated": "7"}
                    self.control.put(url, name=name, metadata={"typedFilterMetadata": {"m": memory}})
                self.control.settle()
                for stream in (sotw(channel), delta(channel)):
                    self.addCleanup(stream.end)
                    for url in (CLUSTER, LISTENER):
                        stream.ask(type_url=url, node={"id": "n"})
                        response = stream.take()
                        self.assertEqual((response.type_url, len(response.resources)), (url, 1))
                        stream.accept(response)
                self.assertFalse(bridge.told("refused"))
                self.control.put(CLUSTER, name="a", noSuchField=1)
                self.assertIn('unknown field "noSuchField"', bridge.wait_for("refused"))
        # The small set refuses both.
        small = Bridge(self.control.port)
        self.addCleanup(small.end)
        self.control.put(CLUSTER, name="a", metadata={"typedFilterMetadata": {"m": memory}})
        self.control.settle()
        with grpc.insecure_channel(small.address) as channel:
            stream = delta(channel)
            self.addCleanup(stream.end)
            stream.ask(type_url=CLUSTER)
            stream.ask(type_url=LISTENER)
            for url, name in ((CLUSTER, "a"), (LISTENER, "l")):
                self.assertIn(f'"{name}", field "metadata.typedFilterMetadata', small.wait_for(url))


if __name__ == "__main__":
    unittest.main()
