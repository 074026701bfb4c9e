"""Resources that can't be converted: what is told of them, what is served without them, and what is asked before."""
import json
import subprocess
import urllib.error
import urllib.request
import unittest

import grpc
from parts import BRIDGE, CLUSTER, PATIENCE, Bridge, Control, delta, free_ports, sotw, wait_until


def ask(url, body=None):
    """The status and the text that an address answers."""
    try:
        with urllib.request.urlopen(urllib.request.Request(url, body), timeout=PATIENCE) as reply:
            return reply.status, reply.read().decode()
    except urllib.error.HTTPError as error:
        return error.code, error.read().decode()


class Bad(unittest.TestCase):
    def setUp(self):
        self.control = self.has(Control())

    def has(self, it):
        self.addCleanup(it.end)
        return it

    def opened(self, *words):
        bridge = self.has(Bridge(self.control.port, *words))
        channel = grpc.insecure_channel(bridge.address)
        self.addCleanup(channel.close)
        return bridge, channel

    def test_what_is_frozen(self):
        port = free_ports(1)[0]
        bridge, channel = self.opened("--metrics", f"127.0.0.1:{port}")
        self.control.put(CLUSTER, name="a")
        self.control.settle()
        streams = [self.has((sotw if i else delta)(channel)) for i in range(3)]
        for it in streams:
            it.ask(type_url=CLUSTER, node={"id": "n"})
            it.accept(it.take())
        self.control.put(CLUSTER, name="b", healthChecks=[{"noSuch": 1}])
        line = bridge.wait_for("3 clients wait")
        self.assertRegex(line, CLUSTER + r' is frozen since 20..-..-..T..:..:..Z, 3 clients wait: '
                         r'resource "b", field "healthChecks\[0\].noSuch": unknown field "noSuch"')
        self.assertEqual(len(bridge.told("refused")), 1)

        def numbers():
            status, text = ask(f"http://127.0.0.1:{port}/metrics")
            self.assertEqual(status, 200)
            return text

        self.assertIn(f'bridge_frozen_clients{{type="{CLUSTER}"}} 3\n', numbers())
        self.assertRegex(numbers(), r'bridge_frozen_since_seconds\{type="[^"]*",cause="resource \\"b\\", field [^}]*\} 1[0-9]+\n')
        self.assertIn('bridge_streams{variant="sotw"} 2\n', numbers())
        # One that leaves waits no more; the others thaw by the repair.
        streams[2].end()
        wait_until(lambda: f'bridge_frozen_clients{{type="{CLUSTER}"}} 2\n' in numbers(), what="one fewer")
        self.control.put(CLUSTER, name="b")
        for it in streams[:2]:
            it.accept(it.take())
        bridge.wait_for("isn't frozen any more")
        self.assertNotIn("bridge_frozen_clients{", numbers())
        self.assertEqual(ask(f"http://127.0.0.1:{port}/")[0], 404)
        self.assertEqual(ask(f"http://127.0.0.1:{port}/metrics", b"x")[0], 405)

    def test_what_is_left_out(self):
        bridge, channel = self.opened("--skip-bad")
        self.control.put(CLUSTER, name="a")
        self.control.put(CLUSTER, name="b", noSuch=1)
        self.control.settle()
        streams = [self.has((sotw if i % 2 else delta)(channel)) for i in range(4)]
        for it in streams:
            it.ask(type_url=CLUSTER)
            response = it.take()
            self.assertEqual(len(response.resources), 1)
            it.accept(response)
        self.control.put(CLUSTER, name="c")
        for it in streams:
            response = it.take()
            self.assertEqual(len(response.resources), 1 if it.delta else 2)
            it.accept(response)
        self.assertEqual(bridge.lines[1:], [f'bridge: left out: {CLUSTER}: resource "b", field "noSuch": unknown field "noSuch"'])
        # Another version is told once more, and a repair arrives.
        self.control.put(CLUSTER, name="b", noSuch=2)
        bridge.wait_for("left out")
        wait_until(lambda: len(bridge.told("left out")) == 2, what="a second line")
        self.control.put(CLUSTER, name="b")
        for it in streams:
            while True:
                response = it.take()
                it.accept(response)
                if len(response.resources) == (1 if it.delta else 3):
                    break

    def test_checks(self):
        port = free_ports(1)[0]
        self.opened("--check", f"127.0.0.1:{port}")
        at = f"http://127.0.0.1:{port}/"
        self.assertEqual(ask(at, json.dumps({"@type": CLUSTER, "name": "a"}).encode()), (200, '{"resource":"a"}\n'))
        status, text = ask(at, json.dumps({"@type": CLUSTER, "name": "a", "healthChecks": [{}, {"timeout": 1}]}).encode())
        self.assertEqual((status, json.loads(text)), (422, {
            "resource": "a", "field": "healthChecks[1].timeout", "cause": "unexpected token 1"}))
        status, text = ask(at, b"{")
        self.assertEqual((status, json.loads(text)["cause"]), (422, "it is no JSON"))
        self.assertEqual(ask(at)[0], 405)
        for word in ("--check", "--metrics"):
            ran = subprocess.run([BRIDGE, word, "0.0.0.0:1"], capture_output=True, text=True, timeout=PATIENCE, check=False)
            self.assertEqual(ran.returncode, 2)
            self.assertIn("loopback", ran.stderr)


if __name__ == "__main__":
    unittest.main()
