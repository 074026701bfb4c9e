"""Runs all tests, those in Go and those over a real etcd, or those whose names have a word of the command line in them."""
import os
import re
import signal
import subprocess
import sys
import threading
import unittest

HERE = os.path.dirname(os.path.realpath(__file__))
OUT = os.path.join(os.path.dirname(HERE), "out")
# How long one test may take, and all of them, in seconds.
ONE, ALL = 240, 900


class Result(unittest.TextTestResult):
    """Ends a test that takes too long."""

    def startTest(self, test):
        def late(*_):
            raise AssertionError(f"it takes more than {ONE} seconds")

        signal.signal(signal.SIGALRM, late)
        # (the first test may build the program)
        signal.alarm(7200 if self.testsRun == 0 and not os.environ.get("XDS") else ONE)
        super().startTest(test)

    def stopTest(self, test):
        signal.alarm(0)
        super().stopTest(test)

    def addFailure(self, test, err):
        super().addFailure(test, err)
        print(f"  {str(err[1])[:2000]}", flush=True)


def in_go():
    """Runs what there is in Go. Answers how many passed and failed."""
    words = {"CGO_ENABLED": "0", "GO111MODULE": "off", "GOPATH": f"{OUT}/gopath:/usr/share/gocode", "GOFLAGS": "-p=2",
             "GOCACHE": f"{OUT}/cache"}
    how = {"cwd": os.path.join(OUT, "go"), "env": {**os.environ, **words}, "stdout": subprocess.PIPE, "text": True, "timeout": ALL,
           "stderr": subprocess.STDOUT, "check": False}
    passed = failed = 0
    for command in (["gofmt", "-l", "."], ["go", "vet", "."]):
        ran = subprocess.run(command, **how)
        good = ran.returncode == 0 and not ran.stdout
        print(f"{' '.join(command)}: {'ok' if good else ran.stdout}", flush=True)
        passed, failed = passed + good, failed + (not good)
    ran = subprocess.run(["go", "test", "-count=1", "-v", f"-timeout={ONE}s", "."], **how)
    found = re.findall(r"^--- (PASS|FAIL|SKIP): ", ran.stdout, re.MULTILINE)
    print("\n".join(it for it in ran.stdout.splitlines() if not it.startswith("=== RUN")), flush=True)
    # (a run that broke off has a failure, whatever it printed)
    broken = ran.returncode != 0 and "FAIL" not in found
    return passed + found.count("PASS"), failed + found.count("FAIL") + broken


def in_python(words):
    suite = unittest.defaultTestLoader.discover(HERE)

    def each(of):
        for it in of:
            yield from each(it) if isinstance(it, unittest.TestSuite) else [it]

    chosen = unittest.TestSuite(it for it in each(suite) if not words or any(word in it.id() for word in words))
    ran = unittest.TextTestRunner(stream=sys.stdout, verbosity=2, resultclass=Result).run(chosen)
    failed = len({str(it) for it, _ in ran.failures + ran.errors})
    return ran.testsRun - failed - len(ran.skipped), failed


def late():
    print(f"all tests take more than {ALL} seconds\nfleet: 0 passed, 1 failed", flush=True)
    os._exit(1)


def main(words):
    if os.environ.get("XDS"):
        timer = threading.Timer(ALL, late)
        timer.daemon = True
        timer.start()
    passed, failed = (0, 0) if words else in_go()
    more = in_python(words)
    print(f"fleet: {passed + more[0]} passed, {failed + more[1]} failed", flush=True)
    return 1 if failed + more[1] else 0


if __name__ == "__main__":
    sys.exit(main(sys.argv[1:]))
