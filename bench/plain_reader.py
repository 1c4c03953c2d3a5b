"""Reads a table plainly, decoding each cell, and prints how many rows it has. Kinds: I, S, F, T and K, little-endian."""
import struct
import sys

PARTS = {0: None, 1: "<B", 2: "<H", 3: "<I"}
WORDS = {"I": "<i", "S": "<h", "F": "<f"}


def triplet(data, at):
    kinds = data[at]
    at += 1
    parts = []
    for shift in (6, 4, 2):
        form = PARTS[kinds >> shift & 3]
        if form is None:
            parts.append(None)
        else:
            parts.append(struct.unpack_from(form, data, at)[0])
            at += struct.calcsize(form)
    return tuple(parts), at


def cell(data, at, kind, count):
    if kind == "K":
        return triplet(data, at)
    if kind == "T":
        if count == "*":
            size = struct.unpack_from("<I", data, at)[0]
            at += 4
        else:
            size = int(count)
        return data[at : at + size].decode("latin-1"), at + size
    form = WORDS[kind]
    return struct.unpack_from(form, data, at)[0], at + struct.calcsize(form)


data = open(sys.argv[1], "rb").read()
at = 4 + struct.unpack_from("<I", data, 0)[0]
fields = data[4:at].decode("latin-1").split(";")[3]
columns = [tuple(f.partition("=")[2].split(",")[:2]) for f in fields.split(":") if f]
rows = 0
while at < len(data):
    row = []
    for kind, count in columns:
        value, at = cell(data, at, kind, count)
        row.append(value)
    rows += 1
print(f"accepted rows {rows} columns {len(columns)}")
