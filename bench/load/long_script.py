#!/usr/bin/env python3
"""Times `xds play`, or `xds answer`, on long inputs.

    python3 bench/load/long_script.py play PROGRAM [EVENTS ..]
    python3 bench/load/long_script.py answer PROGRAM [WRITES ..]
    python3 bench/load/long_script.py settle PROGRAM [CLUSTERS ..]

For each number, by default 10,000 and 100,000 events, or 1,000, 10,000 and 100,000 writes, it makes an input of that length, runs
the program over it, and prints seconds, the greatest memory in megabytes, and microseconds for each line. A script puts clusters
of a hundred names at two replicas in turn, exchanges what they hold now and then, and settles a client of each variant.

With `settle` it plays scripts of a replica with so many clusters, by default 100, 1,000 and 10,000, and of a client of either variant
that wants them all and is settled; then a cluster is put again and the client settled, 200 times over. It prints microseconds for
each time: what such a script takes more than one without these, the middle of five.
"""
import resource
import statistics
import subprocess
import sys
import tempfile
import time

CLUSTER = "type.googleapis.com/envoy.config.cluster.v3.Cluster"
NAMES = 100
# How often a settled client is settled again.
SETTLED = 200


def script(count):
    lines = ["replica 1", "replica 2", "client 1 delta", "client 2 sotw", "change 1 cluster +*", "names 2 cluster *", "connect 1 1", "connect 2 2"]
    while len(lines) < count:
        at = len(lines)
        lines.append('put %d {"@type":"%s","name":"c%d","connectTimeout":"%ds"}' % (1 + at % 2, CLUSTER, at % NAMES, at))
        if at % 50 == 0:
            lines += ["poll 1", "down 1", "up 1", "poll 2", "down 2", "up 2"]
        if at % 1000 == 0:
            lines += ["snapshot 1", "snapshot 2", "merge 2 %d" % (2 * (at // 1000) - 1), "merge 1 %d" % (2 * (at // 1000))]
    lines += ["settle 1 cluster", "settle 2 cluster", "view 1 cluster", "view 2 cluster"]
    return lines


def writes(count):
    lines = ['{"body":{"@type":"%s","name":"c%d"},"counter":%d,"name":"c%d","typeUrl":"%s","writer":1}' % (CLUSTER, at, at + 1, at, CLUSTER) for at in range(count)]
    return lines + ['{"node":{"id":"n"},"resourceNames":["*"],"typeUrl":"%s"}' % CLUSTER]


def put(number, seconds):
    return 'put 1 {"@type":"%s","name":"c%05d","connectTimeout":"%ds"}' % (CLUSTER, number, seconds)


def settling(clusters, variant, times):
    """A script in which a client of so many clusters is settled again so many times, each time after a put."""
    lines = ["replica 1", "client 1 " + variant, "change 1 cluster +*" if variant == "delta" else "names 1 cluster *"]
    lines += [put(number, 1) for number in range(clusters)] + ["connect 1 1", "settle 1 cluster"]
    for at in range(times):
        lines += [put(at % clusters, 2 + at), "settle 1 cluster"]
    return lines


def settled(program, clusters, variant):
    """Microseconds for each time that the client is settled again."""
    whole, bare = settling(clusters, variant, SETTLED), settling(clusters, variant, 0)
    more = [measured(program, "play", whole)[0] - measured(program, "play", bare)[0] for _ in range(5)]
    return statistics.median(more) * 1e6 / SETTLED


def measured(program, verb, lines):
    with tempfile.TemporaryFile() as given:
        given.write("".join(line + "\n" for line in lines).encode())
        given.seek(0)
        start = time.monotonic()
        run = subprocess.run(["/usr/bin/env", program, verb], stdin=given, stdout=subprocess.DEVNULL, stderr=subprocess.PIPE)
        seconds, after = time.monotonic() - start, resource.getrusage(resource.RUSAGE_CHILDREN)
    if run.returncode:
        sys.exit("status %d: %s" % (run.returncode, run.stderr.decode()))
    return seconds, after.ru_maxrss / 1024


def main():
    if len(sys.argv) < 3 or sys.argv[1] not in ("play", "answer", "settle"):
        sys.exit(__doc__)
    verb, program = sys.argv[1:3]
    if verb == "settle":
        for clusters in [int(word) for word in sys.argv[3:]] or [100, 1000, 10000]:
            print("%d clusters: %.0f us delta, %.0f us sotw" % (clusters, *(settled(program, clusters, it) for it in ("delta", "sotw"))))
        return
    counts = [int(word) for word in sys.argv[3:]] or ([10000, 100000] if verb == "play" else [1000, 10000, 100000])
    for count in counts:
        lines = script(count) if verb == "play" else writes(count)
        seconds, megabytes = measured(program, verb, lines)
        size = sum(len(line) + 1 for line in lines) / 1e6
        print("%d lines, %.1f MB: %.2f s, %.0f MB at most, %.1f us a line" % (len(lines), size, seconds, megabytes, seconds * 1e6 / len(lines)))


if __name__ == "__main__":
    main()
