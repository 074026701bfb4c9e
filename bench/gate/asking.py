#!/usr/bin/env python3
"""What `xds get`, `xds put`, `xds delete` and `xds status` ask of an operator's port, and print of what it answers, over the program.

    python3 bench/gate/asking.py crates/xds/out/xds

Puts, gets and deletes at servers with a token and without, names with all that a query escapes among them; lines that are refused, changes
that are looked at alone, or made together; long inputs; and ports at which nobody answers, or something else does. Prints a line for each,
and the status is 1 where one isn't as it is to be, and 2 where it can't be tried, since the program isn't there.
"""
import os
import socket
import subprocess
import sys
import tempfile
import threading

import operate
from operate import Server, comes
from resources import body, put, putin
from telling import end, free_ports, tell

ODD = 'a&b=c?#%/"\\é+'


def xds(*words, text=""):
    """The status, the output and the error output of a run of the program over an input."""
    ran = subprocess.run([operate.PROGRAM, *map(str, words)], input=text.encode(), capture_output=True, timeout=120, check=False)
    return ran.returncode, ran.stdout.decode(), ran.stderr.decode()


def gets():
    server = Server(replicas=2)
    at = ("--addr", f"127.0.0.1:{server.admin_port}")
    found = xds("get", *at)
    tell("get of an empty server finds nothing", found == (1, "", "9 NotFound\n"), found)
    lines = put("cluster", "one") + put("cluster", "two words") + putin("route", "three", "g1,g2") + put("endpoint", ODD)
    found = xds("put", *at, text=lines)
    tell("put prints a stamp a line", found == (0, "line 1: 1-1\nline 2: 2-1\nline 3: 1-1\nline 4: 1-1\n", ""), found)
    comes(lambda: len(server.get("/resources").splitlines()) == 8)
    found = xds("get", *at)
    tell("get prints all that replicas hold", found == (0, server.get("/resources"), ""), found)
    found = xds("get", *at, "--replica", "2")
    tell("of one replica", found == (0, server.get("/resources?replica=2"), ""), found)
    found = xds("get", *at, "--replica", "1", "--type", "cluster")
    tell("of a type", found == (0, server.get("/resources?replica=1&type=cluster"), "") and found[1].count("\n") == 2, found)
    for name in ("one", "two words", ODD):
        found = xds("get", *at, "--replica", "1", name)
        tell(f"of the name {name!r}", found[0] == 0 and found[1].count("\n") == 1 and found[2] == "", found)
    found = xds("get", *at, "--replica", "1", "one", "none", ODD)
    tell("of some names, as far as they are there", found[0] == 0 and found[1].count("\n") == 2, found)
    found = xds("get", *at, "none", "nothing")
    tell("names that aren't there are status 1", found == (1, "", "the server answers 404: 9 NotFound\n"), found)
    found = xds("get", *at, "--replica", "3")
    tell("and so is a replica that isn't", found == (1, "", "the server answers 404: no such replica\n"), found)
    found = xds("get", *at, *("x" * 1000 for _ in range(90)))
    tell("names that are too long for one request are told so", found[0] == 1 and found[2] == "the server answers 431: the names are too long for one request\n" or found[2] == "the server answers 414: the names are too long for one request\n", found)
    other = Server(replicas=1)
    saved = xds("get", *at, "--replica", "1")[1]
    found = xds("put", "--addr", f"127.0.0.1:{other.admin_port}", text=saved)
    tell("what one server holds is put at another", found[0] == 0 and other.get("/resources") == saved, found)
    other.stop()
    server.stop()


def puts():
    server = Server()
    at = ("--addr", f"127.0.0.1:{server.admin_port}")
    mixed = put("cluster", "a") + "put 1 {}\ndelete 1 cluster none\n# a word\n"
    wanted = "line 1: 1-1\nline 2: 21 BadScript: 4 BadResource\nline 3: 9 NotFound\n"
    found = xds("put", *at, text=mixed)
    tell("put with refused lines is status 1, and prints all", found == (1, wanted, ""), found)
    found = xds("put", *at, "--dry-run", text=put("cluster", "b") + "delete 1 cluster b\n")
    tell("put --dry-run says what would be", found == (0, "line 1: would be made\nline 2: would be made\n", ""), found)
    tell("and makes nothing", "name\":\"b" not in server.get("/resources"))
    found = xds("put", *at, "--all-or-nothing", text=put("cluster", "b") + "delete 1 cluster none\n")
    tell("put --all-or-nothing makes none where one is refused", found == (1, "line 1: not made\nline 2: 9 NotFound\n", ""), found)
    found = xds("put", *at, "--all-or-nothing", text=put("cluster", "b") + put("cluster", "c"))
    tell("and all where none is", found[0] == 0 and found[1].count("\n") == 2, found)
    found = xds("put", *at, "--dry-run", "--all-or-nothing", text=put("cluster", "d"))
    tell("both together look alone", found == (0, "line 1: would be made\n", ""), found)
    found = xds("put", *at, text="")
    tell("put of nothing is well", found == (0, "no changes\n", ""), found)
    found = xds("put", *at, text="# " + "x" * 4_194_302)
    tell("an input as long as a body may be is put", found == (0, "no changes\n", ""), found)
    found = xds("put", *at, text="# " + "x" * 4_194_303)
    tell("a longer one is refused", found == (1, "", "6 TooLong\n"), found)
    found = xds("delete", *at, "--type", "cluster", "a", "b")
    tell("delete deletes", found[0] == 0 and found[1].count("\n") == 2 and xds("get", *at, "a")[0] == 1, found)
    found = xds("delete", *at, "--type", "cluster", "c", "none")
    tell("delete deletes nothing where one isn't there", found == (1, "line 1: not made\nline 2: 9 NotFound\n", "") and xds("get", *at, "c")[0] == 0, found)
    found = xds("delete", *at, "--type", "cluster", "--dry-run", "c")
    tell("delete --dry-run looks alone", found == (0, "line 1: would be made\n", "") and xds("get", *at, "c")[0] == 0, found)
    for name in ("a b", "c\ndelete 1 cluster c", "c\r", ""):
        found = xds("delete", *at, "--type", "cluster", "c", name)
        tell(f"delete of the name {name!r} isn't said", found[:2] == (1, "") and found[2].startswith("5 BadName: ") and xds("get", *at, "c")[0] == 0, found)
    found = xds("delete", *at, "--type", "cluster", "--replica", "7", "c")
    tell("delete at a replica that isn't there is refused", found == (1, "line 1: 21 BadScript: no such replica\n", ""), found)
    server.stop()


def tokens():
    with tempfile.TemporaryDirectory() as folder:
        file = os.path.join(folder, "token")
        with open(file, "w", encoding="utf-8") as it:
            it.write("s3cret\n")
        server = Told("--admin-token", file)
        at = ("--addr", f"127.0.0.1:{server.admin_port}")
        for words in (("get", *at), ("put", *at), ("delete", *at, "--type", "cluster", "a"), ("status", *at)):
            found = xds(*words)
            tell(f"{words[0]} without the token is refused", found == (1, "", "the server answers 401: --admin-token FILE says the token\n"), found)
        found = xds("put", *at, "--admin-token", file, text=put("cluster", "a"))
        tell("put with it is not", found == (0, "line 1: 1-1\n", ""), found)
        found = xds("get", *at, "--admin-token", file, "a")
        tell("nor get", found[0] == 0, found)
        found = xds("delete", *at, "--admin-token", file, "--type", "cluster", "a")
        tell("nor delete", found == (0, "line 1: 2-1\n", ""), found)
        found = xds("status", *at, "--admin-token", file)
        tell("nor status", found == (0, "no stream is open\n", ""), found)
        found = xds("get", *at, "--admin-token", file + ".none")
        tell("a file of a token that isn't there is told", found == (1, "", f"{file}.none: 19 Device: no such file\n"), found)
        server.post("/stop")
        server.run.wait(30)


class Told(Server):
    """A server whose port asks for a token."""

    def ask(self, path, data=None):
        status, text = self.answer(path, data, authorization="Bearer s3cret")
        if status != 200:
            raise OSError(f"{status}")
        return text

    def post(self, path, text=""):
        return self.ask(path, text.encode())


def away():
    port = free_ports(1, int(os.environ.get("FIRST_PORT", "21000")))
    for words in (("get",), ("put",), ("delete", "--type", "cluster", "a"), ("status",)):
        found = xds(words[0], "--addr", f"127.0.0.1:{port}", *words[1:])
        tell(f"{words[0]} where nobody answers is 19 Device", found == (1, "", f"127.0.0.1:{port}: 19 Device: nobody answers there\n"), found)
    for what, answer, wanted in (
        ("half an answer", b"HTTP/1.1 200 OK\r\ncontent-length: 9\r\n\r\nput 1", "the answer breaks off, or is none"),
        ("too much of one", b"HTTP/1.1 200 OK\r\ncontent-length: 1\r\n\r\nput 1", "the answer breaks off, or is none"),
        ("no HTTP", b"SSH-2.0\r\n\r\n", "the answer breaks off, or is none"),
        ("nothing", b"", "the answer breaks off, or is none"),
    ):
        with socket.create_server(("127.0.0.1", 0)) as listener:
            threading.Thread(target=answer_once, args=(listener, answer), daemon=True).start()
            at = f"127.0.0.1:{listener.getsockname()[1]}"
            found = xds("get", "--addr", at)
            tell(f"{what} is 19 Device", found == (1, "", f"{at}: 19 Device: {wanted}\n"), found)
    with socket.create_server(("127.0.0.1", 0)) as listener:
        threading.Thread(target=answer_once, args=(listener, b"HTTP/1.1 404 No\r\nContent-Length: 0\r\n\r\n"), daemon=True).start()
        found = xds("get", "--addr", f"127.0.0.1:{listener.getsockname()[1]}")
        tell("a port of another kind is told so", found == (1, "", "the server answers 404: no operator's port of this version is there\n"), found)


def answer_once(listener, answer):
    with listener.accept()[0] as it:
        while b"\r\n\r\n" not in it.recv(65536):
            pass
        it.sendall(answer)


def main():
    if not os.path.isfile(operate.PROGRAM):
        print(f"there is no {operate.PROGRAM}")
        sys.exit(2)
    gets()
    puts()
    tokens()
    away()
    end()


if __name__ == "__main__":
    main()
