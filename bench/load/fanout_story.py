"""What bench/load/fanout.py puts, and what each client is told of it: clusters for all, or endpoints for those that name them."""
import array
import functools
import random

from fanout_server import URL

ENDPOINTS = "type.googleapis.com/envoy.config.endpoint.v3.ClusterLoadAssignment"


class Story:
    """Clusters, which each stream asks for by the star, and which change put which.

    A change's number is that of its version. A resource is its place in the order of names."""

    url, letter = URL, "c"
    # The compact text without its filler, for its type and its name.
    bare = '{"@type":"%s","altStatName":"","connectTimeout":"1s","name":"%s"}'
    # Whether a response of the state of the world has all of them, and what stands behind its version.
    is_whole, mark = True, b""

    def __init__(self, count, size):
        self.count, self.size = count, size
        self.changes = list(range(count))
        # Of which a put concerns a stream.
        self.putable = range(count)

    def put(self, resource):
        self.changes.append(resource)

    def version(self):
        return len(self.changes)

    def name(self, resource):
        return f"{self.letter}{resource:05d}"

    def asked(self, _stream):
        """The names that a stream asks for, as a JSON list."""
        return b'["*"]'

    def due(self, streams, _since, version):
        """By stream of these, the last change after one and up to another that concerns it."""
        return dict.fromkeys(streams, version)

    @functools.lru_cache(maxsize=1 << 15)
    def body(self, resource, change):
        """The compact text of a resource as a change put it, which tells the change, and is as long as all others."""
        bare = self.bare % (self.url, self.name(resource))
        return bare.replace(':""', ':"%0*d"' % (max(self.size - len(bare), 8), change)).encode()

    @functools.cached_property
    def length(self):
        return len(self.body(0, 1))

    def lines(self, changes):
        return b"".join(b"put 1 %s\n" % self.body(self.changes[it - 1], it) for it in changes)

    def whole_end(self, version):
        return b'],"typeUrl":"%s","versionInfo":"1.%d%s"}' % (self.url.encode(), version, self.mark)

    def whole_length(self, version):
        """The bytes of a state of the world behind its nonce."""
        return len(b',"resources":[') + self.count * (self.length + 1) - 1 + len(self.whole_end(version))

    def place(self, resource):
        """Where a resource stands in a state of the world, behind the nonce."""
        return len(b',"resources":[') + resource * (self.length + 1)

    @functools.lru_cache(maxsize=64)
    def whole(self, version):
        latest = self.latest(0, version)
        return self.listed(sorted(latest.items()), version)

    def listed(self, stated, version):
        """A state of the world behind its nonce, with resources as changes put them."""
        return b',"resources":[' + b",".join(self.body(*it) for it in stated) + self.whole_end(version)

    @functools.lru_cache(maxsize=64)
    def latest(self, since, version):
        """The last change of each resource that changed after one change and up to another."""
        return {self.changes[it - 1]: it for it in range(since + 1, version + 1)}

    @functools.lru_cache(maxsize=64)
    def delta(self, since, version):
        """A delta behind its nonce, to a client that has all until one change, of what changed up to another."""
        return self.changed(sorted(self.latest(since, version).items()), version)

    def changed(self, stated, version):
        """A delta behind its nonce, with resources as changes put them."""
        each = (
            b'{"name":"%s","resource":%s,"version":"%d-1"}' % (self.name(it).encode(), self.body(it, change), change)
            for it, change in stated
        )
        end = b'],"systemVersionInfo":"1.%d","typeUrl":"%s"}' % (version, self.url.encode())
        return b',"resources":[' + b",".join(each) + end

    def response(self, is_delta, _stream, since, version):
        """What a response to a stream that has all until one change says behind its nonce, of another version; none
        where it is to have none."""
        return self.delta(since, version) if is_delta else self.whole(version)


@functools.lru_cache(maxsize=1)
def spread(streams, names, count):
    """The resources that each stream names, in order, and the streams that name each resource."""
    named, naming = [], [array.array("I") for _ in range(count)]
    for stream in range(streams):
        named.append(array.array("I", sorted(random.Random(stream).sample(range(count), names))))
        for resource in named[-1]:
            naming[resource].append(stream)
    return named, naming


class Named(Story):
    """Endpoints, of which each stream names as many, at random, the same for each server.

    Endpoints aren't complete: in either variant a response has those that the client names and has otherwise."""

    url, letter = ENDPOINTS, "e"
    bare = '{"@type":"%s","clusterName":"%s","endpoints":[{"locality":{"zone":""}}]}'
    is_whole, mark = False, b".named"

    def __init__(self, count, size, streams, names):
        super().__init__(count, size)
        self.named, self.naming = spread(streams, names, count)
        self.putable = [it for it in range(count) if self.naming[it]]

    def asked(self, stream):
        return b"[%s]" % b",".join(b'"%s"' % self.name(it).encode() for it in self.named[stream])

    def due(self, streams, since, version):
        found = {}
        for change in range(since + 1, version + 1):
            found.update((it, change) for it in self.naming[self.changes[change - 1]] if it in streams)
        return found

    def response(self, is_delta, stream, since, version):
        latest = self.latest(since, version)
        stated = [(it, latest[it]) for it in self.named[stream] if it in latest]
        if not stated:
            return None
        return self.changed(stated, version) if is_delta else self.listed(stated, version)
