"""What a script of the gate tells: a line for each thing that it looks at, and how all of it ends; and ports that are free."""
import socket
import sys

FAILED = []


def tell(what, is_good, found=""):
    """Prints that a thing is as it is to be, or what was found in its place."""
    print(f"{'good' if is_good else 'BAD '} {what}{'' if is_good else f': {found!r}'}", flush=True)
    if not is_good:
        FAILED.append(what)


def end(told="all is as it is to be"):
    """Ends the script, by status 1 where a thing wasn't as it is to be."""
    print(f"{len(FAILED)} not as it is to be" if FAILED else told)
    sys.exit(1 if FAILED else 0)


def free_ports(count, least, step=100):
    """The first of so many free ports in a row, below those that the system gives to clients."""
    for first in range(least, 32000, step):
        try:
            for port in range(first, first + count):
                with socket.socket() as it:
                    it.setsockopt(socket.SOL_SOCKET, socket.SO_REUSEADDR, 1)
                    it.bind(("127.0.0.1", port))
            return first
        except OSError:
            continue
    sys.exit(f"there are no {count} free ports in a row from {least} to 32000")
