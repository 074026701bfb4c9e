#!/usr/bin/env python3
"""Runs a command, prints what it says, and keeps after how many minutes each crate was proved.

    python3 bench/gate/timed.py FILE COMMAND ..

Each line that says that a crate or its tests are proved goes to FILE behind those minutes, and last how long all of it took, by the
clock and of processors. The status is the command's.
"""
import os
import re
import subprocess
import sys
import time

PROVED = re.compile(r"rt: \w+(: its tests are)? (proved|NOT PROVED|is kept)\b")


def main():
    file, *command = sys.argv[1:]
    begun = time.monotonic()
    ran = subprocess.Popen(command, stdout=subprocess.PIPE, stderr=subprocess.STDOUT, text=True, errors="replace")
    with open(file, "w", encoding="utf-8") as kept:
        for line in ran.stdout:
            print(line, end="", flush=True)
            if PROVED.match(line):
                print(f"{(time.monotonic() - begun) / 60:6.1f} {line}", end="", file=kept, flush=True)
        status = ran.wait()
        took = os.times()
        told = f"{(time.monotonic() - begun) / 60:6.1f} minutes by the clock, {(took.children_user + took.children_system) / 60:.0f} of processors, on {os.cpu_count()}"
        print(told, file=kept)
    sys.exit(status if status >= 0 else 128 - status)


if __name__ == "__main__":
    main()
