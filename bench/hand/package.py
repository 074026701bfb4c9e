#!/usr/bin/env python3
"""Tries a package that `./xds --pack` made, on a file system that holds nothing else.

    bench/hand/package.py FILE.tar.gz

It unpacks the package into an empty folder, and compares its files with its SUMS. The folder is the root then (`chroot`, by
`unshare -r` where root isn't at hand), and the commands of the package's README.md that run the program are run there, and what
they print is compared with what the README shows. Ports that are free stand for those of the README. At last the package's script
`xds` is started from elsewhere. It prints a line that says how it went, and the status is 1 where something is otherwise than
wanted, and 2 where this can't be tried here; what is to be installed is told then. Python 3, standard library alone."""
import hashlib
import os
import re
import shlex
import shutil
import subprocess
import sys
import tarfile
import tempfile
import time

sys.dont_write_bytecode = True

sys.path.insert(0, os.path.abspath(f"{__file__}/../../gate"))
from readme import NAMED, SAID, commands, free_pair, over_ports

WAIT = 60
NOT_TRIED = 2
# A program that isn't proved has checks of memory within, which look for /proc: it has none there.
ENVIRONMENT = {"ASAN_OPTIONS": "detect_leaks=0"}
OF_CHECKS = re.compile(r"^==\d+==WARNING: reading executable name failed.*\n", re.M)


def stop(why):
    print(f"package.py: {why}")
    sys.exit(NOT_TRIED)


def in_root(root):
    """The words that start a command with a folder as its root."""
    path = f"{os.environ.get('PATH', '')}:/usr/sbin:/sbin"
    chroot, unshare = shutil.which("chroot", path=path), shutil.which("unshare", path=path)
    if not chroot:
        stop("there is no `chroot`: install Debian's package coreutils")
    if os.geteuid() == 0:
        return [chroot, root]
    if not unshare:
        stop("there is no `unshare`, which is needed where you aren't root: install Debian's package util-linux")
    if subprocess.run([unshare, "-r", "true"], stderr=subprocess.DEVNULL, check=False).returncode:
        stop("this user may not make a user namespace (`unshare -r true` fails): run this as root")
    return [unshare, "-r", chroot, root]


def unpack(file, room):
    """Unpacks the package, and answers the folder that it has."""
    try:
        with tarfile.open(file) as tar:
            names = tar.getnames()
            unsafe = [it for it in names if it.startswith("/") or ".." in it.split("/")]
            if unsafe or len({it.split("/")[0] for it in names}) != 1:
                stop(f"{file} is no package: its files don't stand in one folder")
            tar.extractall(room, **({"filter": "data"} if hasattr(tarfile, "data_filter") else {}))
    except (OSError, tarfile.TarError) as error:
        stop(f"{file} can't be unpacked: {error}")
    return f"{room}/{names[0].split('/')[0]}", names


def of_sums(top):
    """What SUMS says of each file."""
    with open(f"{top}/SUMS", encoding="utf-8") as file:
        lines = [line.rstrip("\n").split("  ") for line in file if not line.startswith("#")]
    return {name: found for found, name in lines}


def of_files(top):
    found = {}
    for folder, _, files in os.walk(top):
        for name in files:
            with open(f"{folder}/{name}", "rb") as file:
                found[os.path.relpath(f"{folder}/{name}", top)] = hashlib.sha256(file.read()).hexdigest()
    found.pop("SUMS", None)
    return found


class Redirected:
    """A command of the README as words, with the files that its output and input are."""

    def __init__(self, command, top, room):
        words = shlex.split(command[len(NAMED) :])
        self.given, self.taken, self.words = os.devnull, None, []
        while words:
            word = words.pop(0)
            if word in ("<", ">"):
                name = words.pop(0)
                # What an earlier command wrote is in the room.
                written = f"{room}/{name.replace('/', '-')}"
                if word == ">":
                    self.taken = written
                else:
                    self.given = written if os.path.isfile(written) else f"{top}/{name}"
            else:
                self.words.append(word)

    def start(self, program, said):
        with open(self.given, "rb") as given, open(self.taken or said, "wb" if self.taken else "ab") as taken, open(said, "ab") as errors:
            return subprocess.Popen([*program, *self.words], stdin=given, stdout=taken, stderr=errors, env=ENVIRONMENT, cwd="/")


def text_of(file):
    with open(file, encoding="utf-8", errors="replace") as it:
        return OF_CHECKS.sub("", SAID.sub("", it.read()))


def try_commands(top, room, program):
    """Runs the README's commands of the program, and answers how many there are, and those that print something else."""
    with open(f"{top}/README.md", encoding="utf-8") as file:
        wanted = [it for it in commands(file.read()) if it[0].startswith(NAMED)]
    streams = free_pair()
    servers, differ = [], []
    try:
        for number, (command, shown) in enumerate(over_ports(wanted, (*streams, *free_pair(streams)))):
            said = f"{room}/said{number}"
            started = Redirected(command, top, room).start(program, said)
            if " serve" in command:
                servers.append(started)
                ends = time.monotonic() + WAIT
                while time.monotonic() < ends and started.poll() is None and text_of(said) != shown:
                    time.sleep(0.05)
            else:
                started.wait(WAIT)
            if text_of(said).rstrip("\n") != shown.rstrip("\n"):
                differ.append(f"differs: {command}\n--- shown\n{shown}--- printed\n{text_of(said)}")
    finally:
        for server in servers:
            server.terminate()
            server.wait()
    return len(wanted), differ


def main(words):
    if len(words) != 1 or words[0].startswith("-"):
        sys.exit(__doc__)
    file = words[0]
    with tempfile.TemporaryDirectory(prefix="package-") as room:
        os.mkdir(f"{room}/unpacked")
        os.mkdir(f"{room}/said")
        top, names = unpack(file, f"{room}/unpacked")
        faults = []
        if names != sorted(names):
            faults.append("its names aren't sorted")
        before = of_files(top)
        if of_sums(top) != before:
            faults.append("SUMS says something else of its files")
        name = os.listdir(f"{top}/bin")[0]
        count, differ = try_commands(top, f"{room}/said", [*in_root(top), f"/bin/{name}"])
        faults += differ
        if of_files(top) != before:
            faults.append("a command changed the package's files")
        helped = subprocess.run([f"{top}/xds", "--help"], stdin=subprocess.DEVNULL, capture_output=True, text=True, cwd="/", check=False)
        if helped.returncode or "serve" not in helped.stdout:
            faults.append(f"the script xds doesn't start the program: {helped.stderr[-500:]}")
        proved = "proved" if os.path.isfile(f"{top}/PROVED") else "NOT proved"
        for fault in faults:
            print(fault)
        tried = f"{count} commands of its README run in a root that holds them alone"
        print(f"{file}: {len(names)} files; the program is {proved}; {tried}; {len(faults)} faults")
    return 1 if faults or not count else 0


if __name__ == "__main__":
    sys.exit(main(sys.argv[1:]))
