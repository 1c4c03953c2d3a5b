"""Writes an untiled coverage with coordinates into a folder: the grid of N by N cells by make_coverage.py, node (x, y) at 10 + x, 20 + y, and an entity
node in the middle of each cell."""
import os
import struct
import subprocess
import sys

folder, n = sys.argv[1], int(sys.argv[2])
here = os.path.dirname(os.path.abspath(__file__))
subprocess.run([sys.executable, f"{here}/make_coverage.py", folder, str(n)], check=True)


def column(name, kind="I", count="1"):
    return f"{name}={kind},{count},N,{name},-,-,-,:"


def read(name, width):
    with open(f"{folder}/{name}", "rb") as it:
        data = it.read()
    start = 4 + struct.unpack_from("<I", data)[0]
    return data[4 : start - 1].decode(), list(struct.iter_unpack(width, data[start:]))


def write(name, text, rows, index=None):
    text, spans = text.encode(), []
    with open(f"{folder}/{name}", "wb") as out:
        out.write(struct.pack("<I", len(text)) + text)
        for row in rows:
            spans.append(struct.pack("<II", out.tell(), len(row)))
            out.write(row)
    if index:
        with open(f"{folder}/{index}", "wb") as out:
            out.write(struct.pack("<II", len(spans), len(text)) + b"".join(spans))


def at(node):
    return 10.0 + (node - 1) % (n + 1), 20.0 + (node - 1) // (n + 1)


# The coordinates stand behind the columns that are there: of an edge the places of its two nodes, which have a count before them.
text, edges = read("edg", "<7ih")
write("edg", text + column("coordinates", "C", "*") + ";", (struct.pack("<7ihI4f", *row, 2, *at(row[1]), *at(row[2])) for row in edges), "edx")
text, nodes = read("cnd", "<2i")
write("cnd", text + column("coordinate", "C") + ";", (struct.pack("<2i2f", *row, *at(row[0])) for row in nodes))
cells = ((k, 1 + k, 10.5 + (k - 1) % n, 20.5 + (k - 1) // n) for k in range(1, n * n + 1))
write("end", "L;Entity nodes;-;" + column("id") + column("containing_face") + column("coordinate", "C") + ";", (struct.pack("<2i2f", *row) for row in cells))
