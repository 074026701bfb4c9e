"""Clients that send no more behind what they ask: each is told what it is due, and then its stream ends well."""
import threading
import unittest
import urllib.request

import grpc
from parts import CLUSTER, ENDPOINT, LISTENER, ROUTE, SECRET, Bridge, Control, Stream, delta, free_ports, sotw, wait_until

TRIES = 200


class HalfClosed(unittest.TestCase):
    def has(self, it):
        self.addCleanup(it.end)
        return it

    def started(self, *words):
        """A control plane that holds a cluster `a`, the port of its operator, and a channel to a bridge before it."""
        port = free_ports(1)[0]
        control = self.has(Control(None, "--admin-port", str(port), *words))
        control.put(CLUSTER, name="a")
        control.settle()
        bridge = self.has(Bridge(control.port))
        channel = grpc.insecure_channel(bridge.address)
        self.addCleanup(channel.close)
        return control, port, channel

    def asked(self, channel, make, *urls):
        """What a client is told that asks for these types and no more, and the status that its stream ends by."""
        stream = make(channel)
        for url in urls:
            names = ["*"] if url in (CLUSTER, LISTENER) else ["a"]
            stream.ask(type_url=url, **{"resource_names_subscribe" if stream.delta else "resource_names": names})
        stream.close()
        told = []
        try:
            for response in stream.call:
                told.append((response.type_url, response.nonce, len(response.resources)))
        except grpc.RpcError as error:
            return told, error.code()
        return told, stream.call.code()

    def check_each(self, channel):
        for make in (delta, sotw):
            found = [self.asked(channel, make, CLUSTER) for _ in range(TRIES)]
            lost = [it for it in found if it != ([(CLUSTER, "1", 1)], grpc.StatusCode.OK)]
            self.assertEqual((len(lost), lost[:3]), (0, []), make.__name__)

    def test_each_is_answered(self):
        self.check_each(self.started()[2])

    def test_each_is_answered_with_one_place(self):
        self.check_each(self.started("--max-streams", "1")[2])

    def test_all_types(self):
        control, _, channel = self.started()
        urls = (CLUSTER, ENDPOINT, LISTENER, ROUTE, SECRET)
        for url in urls[1:]:
            control.put(url, **{"clusterName" if url == ENDPOINT else "name": "a"})
        control.settle()
        for make in (delta, sotw):
            for _ in range(20):
                told, code = self.asked(channel, make, *urls)
                self.assertEqual((code, {it[0] for it in told}), (grpc.StatusCode.OK, set(urls)))
                self.assertEqual([it[1] for it in told], ["1", "2", "3", "4", "5"])

    def test_one_that_is_due_nothing(self):
        _, _, channel = self.started()
        for make in (delta, sotw):
            self.assertEqual(self.asked(channel, make), ([], grpc.StatusCode.OK))
        # An answer is behind the response that it accepts: nothing more is due.
        for make in (delta, sotw):
            stream = self.has(make(channel))
            stream.ask(type_url=CLUSTER, **{"resource_names_subscribe" if stream.delta else "resource_names": ["*"]})
            first = stream.take()
            stream.accept(first, **({} if stream.delta else {"resource_names": ["*"]}))
            stream.close()
            self.assertEqual(stream.status()[0], grpc.StatusCode.OK)

    def test_a_long_response(self):
        control, _, channel = self.started()
        for at in range(6):
            control.put(CLUSTER, name=f"big{at}", altStatName="x" * 900_000)
        control.settle()
        # (in two parts, since it is longer than a message may be)
        told, code = self.asked(channel, delta, CLUSTER)
        self.assertEqual((code, sum(it[2] for it in told), [it[1] for it in told]), (grpc.StatusCode.OK, 7, ["1#1of2", "1"]))

    def test_a_stop_in_the_middle(self):
        control, port, channel = self.started()
        found, stops = [], threading.Event()

        def tries(make):
            while not stops.is_set() or len(found) < 20:
                told, code = self.asked(channel, make, CLUSTER)
                # (whether it ended before the server was told to stop)
                found.append((not stops.is_set(), told, code))
                if code != grpc.StatusCode.OK:
                    return

        clients = [threading.Thread(target=tries, args=(make,)) for make in (delta, sotw) * 4]
        for it in clients:
            it.start()
        wait_until(lambda: len(found) > 100, what="a hundred streams")
        stops.set()
        with urllib.request.urlopen(f"http://127.0.0.1:{port}/stop", data=b"", timeout=20) as reply:
            self.assertEqual(reply.status, 200)
        for it in clients:
            it.join(60)
            self.assertFalse(it.is_alive())
        self.assertEqual(control.process.wait(20), 0)
        whole = [(CLUSTER, "1", 1)]
        self.assertEqual([it for it in found if it[0] and it[1:] != (whole, grpc.StatusCode.OK)], [])
        # (once the server ends it begins no response: who asks then is told nothing, or all)
        self.assertEqual([it for it in found if it[1] not in ([], whole)], [])


if __name__ == "__main__":
    unittest.main()
