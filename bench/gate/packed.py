#!/usr/bin/env python3
"""A package of the program with the bridge: its script that starts both, and the image that examples/Containerfile says.

    python3 bench/gate/packed.py PROGRAM

Packs the program as `./xds --pack` does, with the bridge where bridge/build has built it, and else with a stand-in that only listens. The
package is unpacked, its sums are compared, and its script `xds-and-bridge` is started and stopped by signals, and by an end of either. The
steps of examples/Containerfile are done by hand in a folder, which is the root of the server and the bridge then (by `chroot`, where this is
run by root); where there is a `buildah` it builds the image, too, and its files are compared with these. Prints a line for each thing that
is looked at, and the status is 1 where one isn't as it is to be, and 2 where it can't be tried, since the program or the toolchain isn't there.
"""
import atexit
import json
import os
import re
import shutil
import signal
import socket
import subprocess
import sys
import tarfile
import tempfile
import time
import urllib.request

import signals
from telling import end, free_ports, tell

TOP = signals.TOP
FIRST = int(os.environ.get("FIRST_PORT", "21000"))
STAND_IN = """\
#!/usr/bin/env python3
import signal, socket, sys
host, port = sys.argv[sys.argv.index("--listen") + 1].split(":")
it = socket.create_server((host, int(port)))
signal.signal(signal.SIGTERM, lambda *_: sys.exit(0))
while True:
    it.accept()[0].close()
"""
# A program that isn't proved has checks of memory within, which look for /proc.
ENVIRONMENT = {**os.environ, "ASAN_OPTIONS": "detect_leaks=0"}


def packed(folder, program):
    """A package of the program, unpacked, and whether its bridge is the real one."""
    script = signals.script()
    script.BUILT = program
    is_real = os.path.isfile(script.BRIDGE)
    if not is_real:
        script.BRIDGE, script.BRIDGE_SUMS = f"{folder}/bridge", f"{folder}/sums"
        for file, text in ((script.BRIDGE, STAND_IN), (script.BRIDGE_SUMS, script.bridge_sums())):
            with open(file, "w", encoding="utf-8") as it:
                it.write(text)
    script.pack(shutil.which("rt"), f"{folder}/lettuceage.tar.gz", True)
    with tarfile.open(f"{folder}/lettuceage.tar.gz") as tar:
        tar.extractall(folder)
    return f"{folder}/lettuceage", is_real


def answers(port, path="/v3/discovery:clusters", body=b"{}"):
    try:
        with urllib.request.urlopen(f"http://127.0.0.1:{port}{path}", body, 5) as reply:
            return reply.read().decode()
    except OSError:
        return None


def listens(port):
    try:
        socket.create_connection(("127.0.0.1", port), 5).close()
        return True
    except OSError:
        return False


def comes(holds):
    until = time.monotonic() + 60
    while not holds():
        if time.monotonic() > until:
            return False
        time.sleep(0.05)
    return True


class Both:
    """The server and the bridge of a package, started by its script."""

    def __init__(self, top):
        self.port = free_ports(4, FIRST)
        words = ["--replicas", "1", "--port", str(self.port), "--rest-port", str(self.port + 1), "--admin-port", str(self.port + 2)]
        behind = ["--listen", f"127.0.0.1:{self.port + 3}", "--server", f"127.0.0.1:{self.port}"]
        self.run = subprocess.Popen([f"{top}/xds-and-bridge", *words, "--", *behind], stdin=subprocess.PIPE, stderr=subprocess.PIPE, env=ENVIRONMENT, start_new_session=True)
        atexit.register(self.kill)
        with open(f"{TOP}/examples/mesh.serve", "rb") as it:
            self.run.stdin.write(it.read())
        self.run.stdin.close()

    def kill(self):
        try:
            os.killpg(self.run.pid, signal.SIGKILL)
        except OSError:
            pass

    def is_up(self):
        found = answers(self.port + 1)
        return listens(self.port + 3) and found is not None and "checkout" in found

    def is_down(self):
        return not listens(self.port) and not listens(self.port + 3)

    def child(self, word):
        """The process of the session whose program's name ends so."""
        for pid in filter(str.isdigit, os.listdir("/proc")):
            try:
                with open(f"/proc/{pid}/cmdline", "rb") as it:
                    line = it.read().split(b"\0")
                if os.getsid(int(pid)) == self.run.pid and any(it.decode().endswith(word) for it in line[:6]) and b"xds-and-bridge" not in b"".join(line):
                    return int(pid)
            except OSError:
                pass
        return None


def starts(top):
    both = Both(top)
    tell("the script starts the server over its input, and the bridge", comes(both.is_up))
    both.run.send_signal(signal.SIGTERM)
    status = both.run.wait(30)
    tell("SIGTERM ends both, by status 0", status == 0 and both.is_down(), (status, both.run.stderr.read()))
    both = Both(top)
    comes(both.is_up)
    os.kill(both.child("bin/bridge"), signal.SIGKILL)
    status = both.run.wait(30)
    errors = both.run.stderr.read().decode()
    tell("an end of the bridge ends the server, by status 1", status == 1 and both.is_down() and "has ended" in errors, (status, errors))
    both = Both(top)
    comes(both.is_up)
    answers(both.port + 2, "/stop", b"")
    status = both.run.wait(30)
    tell("and an end of the server the bridge", status == 1 and both.is_down(), status)


def steps():
    """The steps of examples/Containerfile: each its word and the rest of its line."""
    found, held = [], ""
    with open(f"{TOP}/examples/Containerfile", encoding="utf-8") as file:
        for line in file:
            line = line.strip()
            if line and not line.startswith("#"):
                held += line.removesuffix("\\")
                if not line.endswith("\\"):
                    found.append(tuple(held.split(None, 1)))
                    held = ""
    return found


def by_hand(folder):
    """The root that the steps make, of the package in a folder, and what is started in it. A step that isn't known here stops this."""
    stages, root, said = {}, None, {}
    for word, rest in steps():
        if word == "FROM":
            base, _, name = rest.partition(" AS ")
            if base != "scratch":
                raise ValueError(f"the image is made of {base}")
            root = tempfile.mkdtemp(dir=folder)
            stages[name] = root
        elif word == "ADD":
            source, target = rest.split()
            with tarfile.open(f"{folder}/{source}") as tar:
                tar.extractall(root + target)
        elif word == "COPY":
            stage, source, target = rest.split()
            shutil.copytree(stages[stage.removeprefix("--from=")] + source, root + target, dirs_exist_ok=True, symlinks=True)
        elif word in ("ENTRYPOINT", "CMD"):
            said[word] = json.loads(rest)
        elif word in ("USER", "WORKDIR"):
            said[word] = rest
        else:
            raise ValueError(f"{word} isn't known here")
    return root, said


def files_of(root):
    return {os.path.relpath(f"{folder}/{name}", root): os.path.getsize(f"{folder}/{name}") for folder, _, names in os.walk(root) for name in names}


def image(folder, is_real):
    root, said = by_hand(folder)
    wanted = {"ENTRYPOINT": ["/bin/xds"], "USER": "65534:65534", "WORKDIR": "/"}
    tell("the image starts the server, as nobody", {**said, "CMD": 0} == {**wanted, "CMD": 0} and said["CMD"][0] == "serve", said)
    if os.geteuid() == 0 and shutil.which("chroot"):
        port = free_ports(4, FIRST)
        for at in (root, f"{root}/bin"):
            os.chmod(at, 0o755)
        ends = {"18000": port, "18100": port + 1, "18200": port + 2}
        user = ["chroot", f"--userspec={said['USER']}", root]
        server = subprocess.Popen([*user, *said["ENTRYPOINT"], *(str(ends.get(it, it)) for it in said["CMD"])], stdin=subprocess.DEVNULL, stderr=subprocess.PIPE, env=ENVIRONMENT)
        atexit.register(server.kill)
        if not comes(lambda: answers(port + 1) is not None or server.poll() is not None) or server.poll() is not None:
            tell("the server runs in its root", False, server.stderr.read() if server.poll() is not None else "")
            return
        with open(f"{TOP}/examples/mesh.serve", "rb") as it:
            lines = re.sub(rb"^(\w+) 2 ", rb"\1 1 ", it.read(), flags=re.M)
        ran = subprocess.run([*user, "/bin/xds", "put", "--addr", f"127.0.0.1:{port + 2}"], input=lines, capture_output=True, env=ENVIRONMENT, check=False)
        tell("which has what `xds put` in its root put", ran.returncode == 0 and "checkout" in (answers(port + 1) or ""), ran)
        if is_real:
            bridge = subprocess.Popen([*user, "/bin/bridge", "--listen", f"127.0.0.1:{port + 3}", "--server", f"127.0.0.1:{port}"], stderr=subprocess.DEVNULL)
            atexit.register(bridge.kill)
            tell("and the bridge runs in it", comes(lambda: listens(port + 3)))
            bridge.terminate()
            bridge.wait(30)
        server.kill()
        server.wait(30)
    if shutil.which("buildah") and os.geteuid() == 0:
        built(folder, root)


def built(folder, root):
    """Compares the image that buildah builds with what was made by hand."""
    words = ["buildah", "--storage-driver", "vfs", "--root", f"{folder}/store", "--runroot", f"{folder}/running"]
    ran = subprocess.run([*words, "bud", "--isolation", "chroot", "-f", f"{TOP}/examples/Containerfile", "-t", "lettuceage", folder], capture_output=True, text=True, check=False)
    if ran.returncode:
        tell("buildah builds the image", False, ran.stderr[-500:])
        return
    name = subprocess.run([*words, "from", "lettuceage"], capture_output=True, text=True, check=True).stdout.strip()
    place = subprocess.run([*words, "mount", name], capture_output=True, text=True, check=True).stdout.strip()
    tell("buildah builds the same files", files_of(place) == files_of(root))
    subprocess.run([*words, "umount", name], capture_output=True, check=False)


def main():
    program = os.path.abspath(sys.argv[1] if len(sys.argv) > 1 else "crates/xds/out/xds")
    if not os.path.isfile(program) or not shutil.which("rt"):
        print(f"there is no {program}, or no `rt` on the path")
        sys.exit(2)
    with tempfile.TemporaryDirectory(prefix="packed-") as folder:
        os.chmod(folder, 0o755)
        top, is_real = packed(folder, program)
        sums = subprocess.run(["sha256sum", "-c", "--quiet", "SUMS"], cwd=top, capture_output=True, text=True, check=False)
        tell("the package's sums are those of its files", sums.returncode == 0, sums.stdout)
        tell("the bridge is packed, with its page", os.access(f"{top}/bin/bridge", os.X_OK) and os.path.isfile(f"{top}/bridge/README.md"))
        starts(top)
        image(folder, is_real)
    end()


if __name__ == "__main__":
    main()
