"""examples/envoy-ads.yaml: that it is a bootstrap, and that what stands in its head passes through the bridge."""
import glob
import json
import os
import shutil
import signal
import socket
import tempfile
import unittest

import envoy_set
import grpc
import yaml
from google.protobuf import descriptor_pb2, descriptor_pool, json_format, message_factory
from parts import (BRIDGE, CLUSTER, ENDPOINT, LISTENER, OUT, PATIENCE, ROUTE, TOP, XDS, Bridge, Control, Process, delta, free_ports)

EXAMPLE = os.path.join(TOP, "examples", "envoy-ads.yaml")
OPTIONS = "envoy/extensions/upstreams/http/v3/http_protocol_options.proto"


class Example(unittest.TestCase):
    def test_it_is_a_bootstrap(self):
        found = envoy_set.files()
        if "envoy/config/bootstrap/v3/bootstrap.proto" not in found:
            self.skipTest("gRPC's library has no descriptors of Envoy in it")
        # (the one file that it lacks is the small set's)
        with open(os.path.join(OUT, "go", "envoy.binpb"), "rb") as file:
            for it in descriptor_pb2.FileDescriptorSet.FromString(file.read()).file:
                if it.name == OPTIONS:
                    found[it.name] = it
        files, pool = {it.name: it for it in envoy_set.closed(found).file}, descriptor_pool.DescriptorPool()

        def add(name):
            if name in files:
                it = files.pop(name)
                for of in it.dependency:
                    add(of)
                pool.Add(it)

        for name in list(files):
            add(name)
        kind = message_factory.MessageFactory(pool).GetPrototype(pool.FindMessageTypeByName("envoy.config.bootstrap.v3.Bootstrap"))
        with open(EXAMPLE, encoding="utf-8") as file:
            made = json_format.ParseDict(yaml.safe_load(file), kind(), descriptor_pool=pool)
        self.assertTrue(made.dynamic_resources.HasField("ads_config"))

    def test_the_mesh_by_one_command(self):
        def pair():
            """A port that is free together with the next."""
            while True:
                port = free_ports(1)[0]
                try:
                    with socket.create_server(("127.0.0.1", port + 1)):
                        return port
                except OSError:
                    pass

        def is_open(port):
            with socket.socket() as it:
                return it.connect_ex(("127.0.0.1", port)) == 0

        for how in (signal.SIGTERM, signal.SIGINT, None):
            port, rest, at = pair(), pair(), free_ports(1)[0]
            # (the last time as it stands in a package)
            top = self.package() if how is None else TOP
            words = ["env", f"PORT={port}", f"REST={rest}", f"GRPC=127.0.0.1:{at}", f"XDS={'' if how is None else XDS}"]
            mesh = Process([*words, os.path.join(top, "examples", "mesh.sh"), "--identifier", "mesh"])
            self.addCleanup(mesh.end)
            mesh.wait_for("replica 2: streams on")
            mesh.wait_for("listening on")
            with grpc.insecure_channel(f"127.0.0.1:{at}") as channel:
                stream = delta(channel)
                self.addCleanup(stream.end)
                stream.ask(type_url=CLUSTER)
                response, names = stream.take(), set()
                while True:
                    names |= {it.name for it in response.resources}
                    stream.accept(response)
                    if names == {"checkout", "payments"}:
                        break
                    response = stream.take()
                self.assertEqual(response.control_plane.identifier, "mesh")
            if how is None:
                # (one of them ends)
                server = [it for it in self.children(mesh.process.pid) if "serve" in it[1]]
                os.kill(server[0][0], signal.SIGKILL)
                self.assertEqual(mesh.process.wait(PATIENCE), 1)
            else:
                mesh.process.send_signal(how)
                self.assertEqual(mesh.process.wait(PATIENCE), 0)
            self.assertFalse([it for it in (port, port + 1, rest, at) if is_open(it)])

    def package(self):
        """A folder that has what starts the mesh where a package has it."""
        folder = tempfile.TemporaryDirectory()
        self.addCleanup(folder.cleanup)
        for it in ("examples", "bin"):
            os.mkdir(os.path.join(folder.name, it))
        for it in ("mesh.sh", "mesh.serve"):
            shutil.copy(os.path.join(TOP, "examples", it), os.path.join(folder.name, "examples"))
        shutil.copy(BRIDGE, os.path.join(folder.name, "bin"))
        with open(os.path.join(folder.name, "xds"), "w", encoding="utf-8") as file:
            file.write(f'#!/bin/sh\nexec {XDS} "$@"\n')
        os.chmod(file.name, 0o755)
        return folder.name

    def children(self, parent):
        """The processes that a process started, with their words."""
        found = []
        for it in glob.glob("/proc/[0-9]*/stat"):
            try:
                with open(it, encoding="utf-8") as file:
                    if int(file.read().rsplit(")", 1)[1].split()[1]) != parent:
                        continue
                with open(os.path.join(os.path.dirname(it), "cmdline"), encoding="utf-8") as file:
                    found.append((int(it.split("/")[2]), file.read().split("\0")))
            except OSError:
                continue
        return found

    def test_its_resources_pass(self):
        lines = []
        with open(EXAMPLE, encoding="utf-8") as file:
            for it in file:
                if it.startswith("#     put 1 "):
                    lines.append(it[len("#     put 1 "):].rstrip("\n"))
                elif it.startswith("#       ") and lines:
                    lines[-1] += it[1:].strip()
        control = Control()
        self.addCleanup(control.end)
        bridge = Bridge(control.port)
        self.addCleanup(bridge.end)
        for it in lines:
            resource = json.loads(it)
            control.put(resource.pop("@type"), **resource)
        control.settle()
        with grpc.insecure_channel(bridge.address) as channel:
            stream = delta(channel)
            self.addCleanup(stream.end)
            asked = {CLUSTER: [], LISTENER: [], ENDPOINT: ["payments"], ROUTE: ["shop"]}
            for url, names in asked.items():
                stream.ask(type_url=url, resource_names_subscribe=names, node={"id": "envoy-1", "cluster": "edge"})
            told = {}
            while len(told) < len(asked):
                response = stream.take()
                told[response.type_url] = [it.name for it in response.resources]
                stream.accept(response)
        self.assertEqual(told, {CLUSTER: ["payments"], LISTENER: ["front"], ENDPOINT: ["payments"], ROUTE: ["shop"]})
        self.assertFalse(bridge.told("refused"))


if __name__ == "__main__":
    unittest.main()
