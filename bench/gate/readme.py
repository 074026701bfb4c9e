#!/usr/bin/env python3
"""Runs the commands that README.md shows with their output, and compares.

    bench/gate/readme.py [--program FILE] [README]

Every line of a block ```console that begins with `$ ` is a command, and the lines behind it are what it prints. They are run in
order, in the repository. One that serves goes on while the others run, and is stopped at the end; what it tells on its error
output is compared, too. Where ports 18000, 18001, 18100 and 18101 aren't free, others stand for them in the commands and in what
they print. The program is compiled first without a proof where that isn't done, which takes minutes; or FILE stands for it.

The status is 1 where something differs, and 2 where the commands can't be run here; what is to be installed is told then.
Python 3, standard library alone."""
import argparse
import os
import re
import shlex
import shutil
import signal
import socket
import subprocess
import sys
import tempfile
import time

TOP = os.path.dirname(os.path.dirname(os.path.dirname(os.path.abspath(__file__))))
# How README.md names the program.
NAMED = "./xds --unproved"
# What ./xds says of itself; the README doesn't show it.
SAID = re.compile(r"^xds: .*\n", re.M)
# The ports of README.md: of streams, and of polls.
PORTS = (18000, 18001, 18100, 18101)
WAIT = 900
NOT_RUN = 2


def not_run(why):
    print(f"readme.py: not run: {why}")
    sys.exit(NOT_RUN)


def commands(text):
    """The commands of all blocks, each with the output that is shown."""
    found = []
    for block in re.findall(r"^```console\n(.*?)^```$", text, re.M | re.S):
        for line in block.splitlines(keepends=True):
            if line.startswith("$ "):
                found.append([line[2:].strip(), ""])
            elif found:
                found[-1][1] += line
    return found


def is_free(port):
    with socket.socket() as it:
        it.setsockopt(socket.SOL_SOCKET, socket.SO_REUSEADDR, 1)
        try:
            it.bind(("127.0.0.1", port))
        except OSError:
            return False
    return True


def free_pair(but=()):
    """A port that is free, with the next one."""
    while True:
        with socket.socket() as it:
            it.bind(("127.0.0.1", 0))
            port = it.getsockname()[1]
        if port < 65535 and is_free(port) and is_free(port + 1) and not {port, port + 1} & set(but):
            return port, port + 1


def over_ports(wanted, ports):
    """The same commands and outputs with other ports."""
    put = dict(zip(map(str, PORTS), map(str, ports)))

    def moved(text):
        return re.sub(rf"\b({'|'.join(put)})\b", lambda it: put[it[0]], text)

    serving = f" serve --port {ports[0]} --rest-port {ports[2]}"
    return [[moved(command).replace(" serve", serving), moved(shown)] for command, shown in wanted]


def for_free_ports(wanted):
    if all(is_free(it) for it in PORTS):
        return wanted
    streams = free_pair()
    return over_ports(wanted, (*streams, *free_pair(streams)))


def output_of(file):
    file.flush()
    with open(file.name, encoding="utf-8", errors="replace") as it:
        return SAID.sub("", it.read())


def serve(command, shown):
    """Starts a command that serves, and waits until it has said what is shown."""
    said = tempfile.NamedTemporaryFile()
    server = subprocess.Popen(["bash", "-c", "exec " + command], cwd=TOP, stdout=said, stderr=said, start_new_session=True)
    ends = time.monotonic() + WAIT
    while time.monotonic() < ends and server.poll() is None and output_of(said) != shown:
        time.sleep(0.1)
    return server, output_of(said)


def run(command):
    with tempfile.NamedTemporaryFile() as said:
        subprocess.run(["bash", "-c", command], cwd=TOP, stdin=subprocess.DEVNULL, stdout=said, stderr=said, timeout=WAIT, check=False)
        return output_of(said)


def stop_on_missing(wanted):
    """Stops where a program that the commands name isn't installed; each is of the package of Debian that has its name."""
    for word in ["bash", *(command.split()[0] for command, _ in wanted)]:
        if not word.startswith(("./", "/")) and not shutil.which(word):
            not_run(f"there is no `{word}` on the path: install Debian's package {word}")


def make():
    """Has the program compiled, where that isn't done."""
    made = subprocess.run([*NAMED.split(), "--help"], cwd=TOP, stdin=subprocess.DEVNULL, stdout=subprocess.DEVNULL, check=False)
    if made.returncode:
        not_run(f"`{NAMED} --help` ended with status {made.returncode}, as told above")


def main():
    words = argparse.ArgumentParser(description="Runs the commands of README.md, and compares what they print.")
    words.add_argument("--program", help="a built program, which stands for ./xds --unproved")
    words.add_argument("readme", nargs="?", default=f"{TOP}/README.md")
    given = words.parse_args()
    with open(given.readme, encoding="utf-8") as file:
        wanted = commands(file.read())
    stop_on_missing(wanted)
    if given.program and not os.path.isfile(given.program):
        not_run(f"there is no program {given.program}")
    if given.program:
        program = shlex.quote(os.path.abspath(given.program))
        os.makedirs(f"{TOP}/crates/xds/out", exist_ok=True)
        wanted = [[command.replace(NAMED, program), shown] for command, shown in wanted]
    else:
        make()
    servers, differ = [], 0
    try:
        for command, shown in for_free_ports(wanted):
            if " serve" in command:
                server, said = serve(command, shown)
                servers.append(server)
            else:
                said = run(command)
            if said.rstrip("\n") != shown.rstrip("\n"):
                differ += 1
                print(f"differs: {command}\n--- shown\n{shown}--- printed\n{said}")
    finally:
        for server in servers:
            if server.poll() is None:
                os.killpg(server.pid, signal.SIGTERM)
            server.wait()
    print(f"{len(wanted)} commands of the README, {differ} of them print something else")
    return 1 if differ or not wanted else 0


if __name__ == "__main__":
    sys.exit(main())
