#!/usr/bin/env python3
"""Runs a built program once for each of its allocations, and makes that allocation fail.

    python3 bench/hand/fail_alloc.py [--most N] PROGRAM INPUT [WORD ..]

A run passes where it answers as the run without a failure does, or ends with status 1, nothing on its output, and a
refusal on its error output. It needs a C compiler, `cc`, for a shim of a few lines under the allocator.
"""
import argparse
import os
import re
import subprocess
import sys
import tempfile

SHIM = r"""
#define _GNU_SOURCE
#include <dlfcn.h>
#include <errno.h>
#include <stdio.h>
#include <stdlib.h>
#include <unistd.h>

static long calls, at = -1;

static int fails(void) {
    if (at < 0) {
        const char *given = getenv("FAIL_AT");
        at = given ? atol(given) : 0;
    }
    calls++;
    return calls == at;
}

void *malloc(size_t n) {
    static void *(*real)(size_t);
    if (!real) real = dlsym(RTLD_NEXT, "malloc");
    if (fails()) { errno = ENOMEM; return NULL; }
    return real(n);
}

void *realloc(void *p, size_t n) {
    static void *(*real)(void *, size_t);
    if (!real) real = dlsym(RTLD_NEXT, "realloc");
    if (fails()) { errno = ENOMEM; return NULL; }
    return real(p, n);
}

void *aligned_alloc(size_t a, size_t n) {
    static void *(*real)(size_t, size_t);
    if (!real) real = dlsym(RTLD_NEXT, "aligned_alloc");
    if (fails()) { errno = ENOMEM; return NULL; }
    return real(a, n);
}

int posix_memalign(void **p, size_t a, size_t n) {
    static int (*real)(void **, size_t, size_t);
    if (!real) real = dlsym(RTLD_NEXT, "posix_memalign");
    if (fails()) return ENOMEM;
    return real(p, a, n);
}

__attribute__((destructor)) static void tell(void) {
    const char *file = getenv("COUNT_TO");
    if (!file) return;
    long count = calls;
    FILE *out = fopen(file, "w");
    if (out) { fprintf(out, "%ld", count); fclose(out); }
}

/* (a program that may have threads ends so) */
void _exit(int status) {
    static void (*real)(int);
    tell();
    real = dlsym(RTLD_NEXT, "_exit");
    for (;;) real(status);
}
"""

REFUSAL = re.compile(rb"(line [0-9]+: )?8 OutOfMemory\n")


def main():
    parser = argparse.ArgumentParser()
    parser.add_argument("--most", type=int, default=3000, help="how many allocations to try, the first ones")
    parser.add_argument("program")
    parser.add_argument("input")
    parser.add_argument("words", nargs="*")
    given = parser.parse_args()
    with open(given.input, "rb") as file:
        data = file.read()
    with tempfile.TemporaryDirectory() as folder:
        source, shim, count = (os.path.join(folder, name) for name in ("shim.c", "shim.so", "count"))
        with open(source, "w") as file:
            file.write(SHIM)
        subprocess.run(["cc", "-O1", "-shared", "-fPIC", "-o", shim, source, "-ldl"], check=True)

        def run(at):
            env = dict(os.environ, LD_PRELOAD=shim, FAIL_AT=str(at))
            if at == 0:
                env["COUNT_TO"] = count
            return subprocess.run([given.program, *given.words], input=data, capture_output=True, env=env, timeout=60)

        whole = run(0)
        with open(count) as file:
            calls = int(file.read())
        same = refused = 0
        bad = []
        for at in range(1, min(calls, given.most) + 1):
            one = run(at)
            if (one.returncode, one.stdout, one.stderr) == (whole.returncode, whole.stdout, whole.stderr):
                same += 1
            elif one.returncode == 1 and not one.stdout and REFUSAL.fullmatch(one.stderr):
                refused += 1
            else:
                bad.append((at, one.returncode, one.stdout[:80], one.stderr[:80]))
    print(f"{calls} allocations; tried {same + refused + len(bad)}: {same} answered, {refused} refused, {len(bad)} neither")
    for row in bad[:20]:
        print(*row)
    return 1 if bad or calls == 0 else 0


if __name__ == "__main__":
    sys.exit(main())
