"""gRPC's own xDS client follows the control plane through the bridge."""
import unittest

from parts import (CLUSTER, LISTENER, Backend, Bridge, Control, Resolver, Tap, put_cluster, put_endpoints, put_service,
                   wait_until)


class Follows(unittest.TestCase):
    def setUp(self):
        self.ends = []
        self.control = self.has(Control())
        self.tap = self.has(Tap(self.control.port))
        self.bridge = self.has(Bridge(self.tap.port))
        self.one, self.two = self.has(Backend("one")), self.has(Backend("two"))

    def has(self, it):
        self.addCleanup(it.end)
        return it

    def resolver(self):
        return self.has(Resolver(self.bridge.address, "shop", node="n-1", cluster="edge"))

    def test_puts_and_deletions(self):
        put_service(self.control, "shop")
        put_endpoints(self.control, "endpoints", self.one.port)
        client = self.resolver()
        client.wait_for_reply("one")
        first = self.tap.of("up")[0]
        self.assertEqual((first["node"]["id"], first["node"]["cluster"]), ("n-1", "edge"))
        self.assertIn("gRPC", first["node"]["userAgentName"])
        put_endpoints(self.control, "endpoints", self.two.port)
        client.wait_for_reply("two")
        # (a listener that is gone leaves the client with nowhere to go)
        self.control.delete(LISTENER, "shop")
        client.wait_for_reply("UNAVAILABLE")
        # (by another route: gRPC 1.51 doesn't look again at one that stayed the same, and waits for good)
        put_service(self.control, "shop", route="another", endpoints="others")
        put_endpoints(self.control, "others", self.one.port)
        client.wait_for_reply("one")
        self.assertFalse(self.bridge.told("refused"))

    # rule: accept-reject
    def test_a_rejected_resource_and_its_repair(self):
        put_service(self.control, "shop")
        put_endpoints(self.control, "endpoints", self.one.port)
        put_endpoints(self.control, "others", self.two.port)
        client = self.resolver()
        client.wait_for_reply("one")
        # gRPC knows of no such policy.
        put_cluster(self.control, "cluster", "others", lbPolicy="MAGLEV")
        self.wait_for_error()
        refused = [it for it in self.tap.of("up") if "errorDetail" in it][-1]
        offered = [it for it in self.tap.of("down", refused["typeUrl"])][-1]
        self.assertEqual(refused["responseNonce"], offered["nonce"])
        self.assertNotEqual(refused["versionInfo"], offered["versionInfo"])
        self.assertEqual((refused["errorDetail"]["code"], refused["resourceNames"]), (3, ["cluster"]))
        self.assertIn("cluster", refused["errorDetail"]["message"])
        self.assertEqual(client.call(), "one")
        put_cluster(self.control, "cluster", "others")
        client.wait_for_reply("two")
        self.assertFalse(self.bridge.told("refused"))

    def wait_for_error(self):
        wait_until(lambda: [it for it in self.tap.of("up") if "errorDetail" in it], what="a refusal")

    # rule: whole-or-nothing
    def test_a_resource_that_the_bridge_refuses_and_its_repair(self):
        put_service(self.control, "shop")
        put_endpoints(self.control, "endpoints", self.one.port)
        put_endpoints(self.control, "others", self.two.port)
        client = self.resolver()
        client.wait_for_reply("one")
        put_cluster(self.control, "cluster", "others", noSuchField=1)
        self.wait_for_error()
        line = self.bridge.wait_for("refused")
        for part in ("Cluster", '"cluster"', '"noSuchField"'):
            self.assertIn(part, line)
        self.assertEqual(client.call(), "one")
        put_cluster(self.control, "cluster", "others")
        client.wait_for_reply("two")
        # What the client asks for next is heard, too, though it never saw the refused response.
        put_cluster(self.control, "cluster", "others", noSuchField=2)
        self.bridge.wait_for("noSuchField")
        put_service(self.control, "shop", cluster="another", endpoints="endpoints")
        wait_until(lambda: "another" in str(self.tap.of("up", CLUSTER)[-1]), what="a request")
        # (gRPC still wants the other cluster, too, so that nothing comes until that one can be told)
        self.control.delete(CLUSTER, "cluster")
        client.wait_for_reply("one")

    def test_a_server_that_starts_again(self):
        put_service(self.control, "shop")
        put_endpoints(self.control, "endpoints", self.one.port)
        client = self.resolver()
        client.wait_for_reply("one")
        port = self.control.port
        self.control.end()
        # (the client goes on with what it holds)
        self.assertEqual(client.call(), "one")
        again = self.has(Control(port))
        put_service(again, "shop", endpoints="others")
        put_endpoints(again, "others", self.two.port)
        client.wait_for_reply("two", 60)


if __name__ == "__main__":
    unittest.main()
