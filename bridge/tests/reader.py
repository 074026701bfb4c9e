"""A client with N streams that takes what it is told, and says on its error output once each was told something."""
import sys
import threading

import grpc
from parts import CLUSTER, delta


def follow(stream, told):
    while True:
        stream.accept(stream.take())
        told.set()


channel = grpc.insecure_channel(sys.argv[1])
all_told = []
for _ in range(int(sys.argv[2])):
    it, told = delta(channel), threading.Event()
    it.ask(type_url=CLUSTER)
    threading.Thread(target=follow, args=(it, told), daemon=True).start()
    all_told.append(told)
for told in all_told:
    told.wait()
print("ready", file=sys.stderr, flush=True)
sys.stdin.read()
