"""A client of gRPC's own xDS resolver: for each line of its input, the seconds that a call may take, it makes one call
to the target and prints the reply or the name of the status. GRPC_XDS_BOOTSTRAP is in its environment."""
import sys

import grpc

with grpc.insecure_channel(f"xds:///{sys.argv[1]}") as channel:
    # (so that the channel's events are looked at between calls, too)
    channel.subscribe(lambda _: None, try_to_connect=True)
    say = channel.unary_unary("/test.Names/Say")
    for line in sys.stdin:
        try:
            print(say(b"", timeout=float(line)).decode(), flush=True)
        except grpc.RpcError as error:
            print(error.code().name, flush=True)
            print(error.details(), file=sys.stderr, flush=True)
