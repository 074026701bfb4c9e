"""Envoy's own descriptors, as gRPC's library for Python has them in it, in their serialized form."""
import glob
import os
import re

import grpc
from google.protobuf import descriptor_pb2
from google.protobuf.message import DecodeError

# The wire types of FileDescriptorProto's fields.
FIELDS = {1: 2, 2: 2, 3: 2, 4: 2, 5: 2, 6: 2, 7: 2, 8: 2, 9: 2, 10: 0, 11: 0, 12: 2}


def varint(data, at):
    value = shift = 0
    while True:
        value |= (data[at] & 127) << shift
        at, shift = at + 1, shift + 7
        if data[at - 1] < 128:
            return value, at


def end_of(data, at):
    """Where the FileDescriptorProto ends that begins at a place: its last field is `syntax`."""
    first = True
    while True:
        tag, behind = varint(data, at)
        if FIELDS.get(tag >> 3) != tag & 7 or (tag >> 3 == 1 and not first):
            return at
        value, at = varint(data, behind)
        at += value if tag & 7 == 2 else 0
        first = False
        if tag >> 3 == 12:
            return at


def files():
    """FileDescriptorProtos by their names; none where the library has none."""
    found = {}
    for library in glob.glob(os.path.join(os.path.dirname(grpc.__file__), "_cython", "*.so")):
        with open(library, "rb") as file:
            data = file.read()
        for match in re.finditer(rb"\x0a(.)((?:envoy|xds|google|udpa|validate|opencensus)/[a-z0-9_/]+\.proto)", data, re.DOTALL):
            if match.group(1)[0] != len(match.group(2)):
                continue
            try:
                it = descriptor_pb2.FileDescriptorProto.FromString(data[match.start():end_of(data, match.start())])
            except (DecodeError, IndexError):
                continue
            if len(it.SerializeToString()) > len(found.get(it.name, it).SerializeToString()) or it.name not in found:
                found[it.name] = it
    return found


def closed(found):
    """A FileDescriptorSet of those of the files whose imports are all there."""
    while True:
        whole = {name: it for name, it in found.items() if all(of in found for of in it.dependency)}
        if len(whole) == len(found):
            return descriptor_pb2.FileDescriptorSet(file=whole.values())
        found = whole
