"""TLS and mutual TLS, with certificates that openssl makes."""
import os
import shutil
import signal
import subprocess
import tempfile
import unittest

import grpc
from parts import BRIDGE, CLUSTER, PATIENCE, Bridge, Control, delta, sotw, wait_until

MAKE = """
set -e
ca() { openssl req -x509 -newkey ec -pkeyopt ec_paramgen_curve:P-256 -nodes -days 2 -subj "/CN=$1" -keyout $1.key -out $1.pem; }
signed() {
    openssl req -newkey ec -pkeyopt ec_paramgen_curve:P-256 -nodes -subj "/CN=$2" -keyout $2.key -out $2.csr
    printf "subjectAltName=${3:-IP:127.0.0.1}" > $2.ext
    openssl x509 -req -in $2.csr -CA $1.pem -CAkey $1.key -CAcreateserial -days 2 -extfile $2.ext -out $2.pem
}
ca own; ca foreign; signed own server; signed own client; signed foreign stranger; signed foreign another
signed own edge DNS:web,URI:spiffe://x/edge
"""


class Tls(unittest.TestCase):
    @classmethod
    def setUpClass(cls):
        cls.folder = tempfile.TemporaryDirectory()
        cls.addClassCleanup(cls.folder.cleanup)
        subprocess.run(["sh", "-c", MAKE], cwd=cls.folder.name, check=True, capture_output=True, timeout=PATIENCE)
        cls.control = Control()
        cls.addClassCleanup(cls.control.end)
        cls.control.put(CLUSTER, name="a")
        cls.control.settle()

    def path(self, name):
        return os.path.join(self.folder.name, name)

    def read(self, name):
        with open(self.path(name), "rb") as file:
            return file.read()

    def bridge(self, *words):
        made = Bridge(self.control.port, "--tls-cert", self.path("server.pem"), "--tls-key", self.path("server.key"), *words)
        self.addCleanup(made.end)
        return made

    def outcome(self, channel, make=delta, **fields):
        """What becomes of a stream on a channel: the names that it is told, or its status."""
        stream = make(channel)
        try:
            stream.ask(type_url=CLUSTER, **fields)
            if make is sotw:
                return len(stream.take().resources)
            return [it.name for it in stream.take().resources]
        except grpc.RpcError as error:
            return error.code()
        finally:
            stream.end()
            channel.close()

    def secure(self, bridge, root, who=None):
        key, chain = (self.read(f"{who}.key"), self.read(f"{who}.pem")) if who else (None, None)
        return grpc.secure_channel(bridge.address, grpc.ssl_channel_credentials(self.read(f"{root}.pem"), key, chain))

    def test_mutual_tls(self):
        bridge = self.bridge("--client-ca", self.path("own.pem"))
        self.assertIn("mutual TLS", bridge.lines[0])
        self.assertEqual(self.outcome(self.secure(bridge, "own", "client")), ["a"])
        for channel in (self.secure(bridge, "own", "stranger"), self.secure(bridge, "own"), self.secure(bridge, "foreign", "client"),
                        grpc.insecure_channel(bridge.address)):
            self.assertEqual(self.outcome(channel), grpc.StatusCode.UNAVAILABLE)
        self.assertEqual(self.outcome(self.secure(bridge, "own", "client")), ["a"])
        # Refused handshakes are told: a foreign certificate, none, an unknown authority, no TLS.
        wait_until(lambda: len(bridge.told("TLS handshake refused: 127.0.0.1:")) >= 3, what="lines")
        self.assertTrue(bridge.told("certificate"))

    def test_certificates_are_read_again(self):
        for name, of in (("live.pem", "server.pem"), ("live.key", "server.key"), ("live-ca.pem", "own.pem")):
            shutil.copy(self.path(of), self.path(name))
        bridge = Bridge(self.control.port, "--tls-cert", self.path("live.pem"), "--tls-key", self.path("live.key"),
                        "--client-ca", self.path("live-ca.pem"))
        self.addCleanup(bridge.end)
        self.assertEqual(self.outcome(self.secure(bridge, "own", "client")), ["a"])
        held = delta(self.secure(bridge, "own", "client"))
        self.addCleanup(held.end)
        held.ask(type_url=CLUSTER)
        held.accept(held.take())
        # Bad ones are told, and the old ones stay.
        shutil.copy(self.path("another.pem"), self.path("live.pem"))
        self.assertIn("private key", bridge.wait_for("the certificates in use stay"))
        self.assertEqual(self.outcome(self.secure(bridge, "own", "client")), ["a"])
        # Those of another authority take effect by themselves.
        shutil.copy(self.path("another.key"), self.path("live.key"))
        shutil.copy(self.path("foreign.pem"), self.path("live-ca.pem"))
        bridge.wait_for("certificates are read again")
        wait_until(lambda: self.outcome(self.secure(bridge, "foreign", "stranger")) == ["a"], what="the new ones")
        self.assertEqual(self.outcome(self.secure(bridge, "own", "client")), grpc.StatusCode.UNAVAILABLE)
        # A signal has them read at once, and ends nothing.
        count = len(bridge.told("read again"))
        bridge.process.send_signal(signal.SIGHUP)
        wait_until(lambda: len(bridge.told("read again")) > count, what="a line")
        self.control.put(CLUSTER, name="late")
        self.assertEqual(held.take().resources[0].name, "late")
        self.control.delete(CLUSTER, "late")
        self.control.settle()

    def test_a_signal_without_certificates(self):
        bridge = Bridge(self.control.port)
        self.addCleanup(bridge.end)
        bridge.process.send_signal(signal.SIGHUP)
        self.assertEqual(self.outcome(grpc.insecure_channel(bridge.address)), ["a"])

    def test_identity(self):
        denied = grpc.StatusCode.PERMISSION_DENIED
        good = {"san": ["web", "spiffe://x/edge"], "cn": ["edge"], "none": ["edge", "web", "other", ""]}
        for how, clusters in good.items():
            bridge = self.bridge("--client-ca", self.path("own.pem"), "--identity", how)
            for cluster in ("web", "spiffe://x/edge", "edge", "other", ""):
                if how == "none" and cluster not in clusters:
                    continue
                for make, told in ((delta, ["a"]), (sotw, 1)):
                    self.assertEqual(self.outcome(self.secure(bridge, "own", "edge"), make, node={"id": "n", "cluster": cluster}),
                                     told if cluster in clusters else denied, (how, cluster))
            self.assertEqual(self.outcome(self.secure(bridge, "own", "edge")), ["a"] if how == "none" else denied)
        # A later request may not say another, and the sentence says what is wrong.
        bridge = self.bridge("--client-ca", self.path("own.pem"), "--identity", "san")
        stream = delta(self.secure(bridge, "own", "edge"))
        self.addCleanup(stream.end)
        stream.ask(type_url=CLUSTER, node={"id": "n", "cluster": "web"})
        stream.accept(stream.take())
        stream.ask(type_url=CLUSTER, node={"id": "n", "cluster": "edge"}, resource_names_subscribe=["a"])
        self.assertEqual(stream.status(), (denied, "the node says that it is of the cluster \"edge\", which isn't among the names of "
                                                   "the client's certificate"))
        self.assertIn('allows "web spiffe://x/edge"', bridge.wait_for("cluster refused"))
        ran = subprocess.run([BRIDGE, "--identity", "san"], capture_output=True, text=True, timeout=PATIENCE, check=False)
        self.assertEqual((ran.returncode, "--client-ca" in ran.stderr), (2, True))

    def test_tls(self):
        bridge = self.bridge()
        self.assertIn("TLS, for any client", bridge.lines[0])
        self.assertEqual(self.outcome(self.secure(bridge, "own")), ["a"])
        self.assertEqual(self.outcome(self.secure(bridge, "foreign")), grpc.StatusCode.UNAVAILABLE)
        self.assertEqual(self.outcome(grpc.insecure_channel(bridge.address)), grpc.StatusCode.UNAVAILABLE)


if __name__ == "__main__":
    unittest.main()
