"""Responses that are longer than a message may be, warnings before that, and bounds on streams."""
import threading
import unittest

import grpc
from parts import CLUSTER, ENDPOINT, Bridge, Control, Tap, delta, free_ports, sotw, wait_until
from test_bad import ask

LONG = 9_000


def follow(stream):
    """Accepts what a stream is told, until it ends."""
    try:
        while True:
            stream.accept(stream.take())
    except grpc.RpcError:
        pass


def clusters(stream):
    """The next response of clusters. Those of other types are accepted."""
    response = stream.take()
    while response.type_url != CLUSTER:
        stream.accept(response)
        response = stream.take()
    return response


class Limits(unittest.TestCase):
    def setUp(self):
        self.control = self.has(Control())
        self.tap = self.has(Tap(self.control.port))

    def has(self, it):
        self.addCleanup(it.end)
        return it

    def opened(self, *words):
        bridge = self.has(Bridge(self.tap.port, *words))
        channel = grpc.insecure_channel(bridge.address)
        self.addCleanup(channel.close)
        return bridge, channel

    def put(self, *names):
        for it in names:
            self.control.put(CLUSTER, name=it, altStatName="x" * LONG)
        self.control.settle()

    def answers(self):
        """The nonces of the server's that were answered, and whether by a rejection."""
        return [(it["responseNonce"], "errorDetail" in it) for it in self.tap.of("up", CLUSTER) if "responseNonce" in it]

    def test_a_long_delta_goes_in_parts(self):
        names = [f"c{i}" for i in range(9)]
        self.put(*names)
        bridge, channel = self.opened("--max-message", "42000")
        stream = self.has(delta(channel))
        stream.ask(type_url=CLUSTER)
        parts = [stream.take() for _ in range(3)]
        self.assertEqual([it.nonce for it in parts], ["1#1of3", "1#2of3", "1"])
        self.assertEqual([it.name for part in parts for it in part.resources], names)
        self.assertTrue(all(it.system_version_info == parts[0].system_version_info for it in parts))
        for it in parts[:2]:
            stream.accept(it)
        stream.ask(type_url=ENDPOINT, resource_names_subscribe=["e"])
        wait_until(lambda: self.tap.of("up", ENDPOINT), what="a request")
        self.assertEqual(self.answers(), [])
        stream.accept(parts[2])
        wait_until(lambda: self.answers() == [("1", False)], what="an answer")
        # One part is rejected: so is the response, and the server tells on once there is something new.
        # (the first of them isn't answered before the others are there, so these are told in one response)
        self.put(names[0])
        first = clusters(stream)
        self.assertEqual([it.name for it in first.resources], names[:1])
        self.put(*names[1:])
        stream.accept(first)
        parts = [clusters(stream) for _ in range(2)]
        rejected = parts[1].nonce
        self.assertEqual(parts[0].nonce, f"{rejected}#1of2")
        self.assertEqual([it.name for part in parts for it in part.resources], names[1:])
        stream.ask(type_url=CLUSTER, response_nonce=parts[0].nonce, error_detail={"code": 3, "message": "not so"})
        stream.accept(parts[1])
        wait_until(lambda: (rejected, True) in self.answers(), what="a rejection")
        self.assertEqual(self.tap.of("up", CLUSTER)[-1]["errorDetail"], {"code": 3, "message": "not so"})
        self.control.put(ENDPOINT, clusterName="e")
        while stream.take().type_url != ENDPOINT:
            pass
        self.assertFalse(bridge.told("refused"))

    def test_a_long_state_of_the_world(self):
        port = free_ports(1)[0]
        bridge, channel = self.opened("--max-message", "42000", "--metrics", f"127.0.0.1:{port}")
        stream = self.has(sotw(channel))
        stream.ask(type_url=CLUSTER)
        threading.Thread(target=follow, args=(stream,), daemon=True).start()
        self.put("c0", "c1", "c2")
        self.assertIn("more than half of the 42000 of --max-message", bridge.wait_for("long responses"))
        self.put("c3", "c4")
        line = bridge.wait_for("is frozen since")
        for it in ("can't be split", "--max-message allows 42000", "16777215", "1 client waits"):
            self.assertIn(it, line)
        self.assertEqual(len(bridge.told("long responses")), 1)
        text = ask(f"http://127.0.0.1:{port}/metrics")[1]
        self.assertRegex(text, r'bridge_response_bytes\{type="[^"]*Cluster",variant="sotw"\} 45\d{3}\n')
        # Other types go on, and so does this one with a longer message.
        self.control.put(ENDPOINT, clusterName="e")
        stream.ask(type_url=ENDPOINT, resource_names=["e"])
        wait_until(lambda: [it for it in self.tap.of("up", ENDPOINT) if "responseNonce" in it], what="an answer")
        longer = self.has(Bridge(self.tap.port))
        with grpc.insecure_channel(longer.address) as wide:
            stream = self.has(sotw(wide))
            stream.ask(type_url=CLUSTER)
            self.assertEqual(len(stream.take().resources), 5)

    def test_no_more_streams_than_allowed(self):
        self.control.put(CLUSTER, name="a")
        self.control.settle()
        _, channel = self.opened("--max-streams", "2")
        streams = [self.has(delta(channel)) for _ in range(2)]
        for it in streams:
            it.ask(type_url=CLUSTER)
            it.accept(it.take())
        third = self.has(delta(channel))
        third.ask(type_url=CLUSTER)
        code, details = third.status()
        self.assertEqual(code, grpc.StatusCode.RESOURCE_EXHAUSTED)
        self.assertIn("--max-streams", details)
        streams[0].end()

        def fits():
            it = self.has(delta(channel))
            it.ask(type_url=CLUSTER)
            try:
                return it.take().resources[0].name == "a"
            except grpc.RpcError:
                return False

        wait_until(fits, what="room")


if __name__ == "__main__":
    unittest.main()
