"""Writes an untiled coverage, the grid of N by N cells, into a folder: its edges by make_grid.py, and from their rows the faces, rings and nodes."""
import os
import struct
import subprocess
import sys

folder, n = sys.argv[1], int(sys.argv[2])
os.makedirs(folder, exist_ok=True)
here = os.path.dirname(os.path.abspath(__file__))
subprocess.run([sys.executable, f"{here}/make_grid.py", f"{folder}/edg", str(n)], check=True)
with open(f"{folder}/edg", "rb") as it:
    data = it.read()
edges = list(struct.iter_unpack("<7ih", data[4 + struct.unpack_from("<I", data)[0] :]))


def table(name, title, columns, rows):
    text = f"L;{title};-;{columns};".encode()
    with open(f"{folder}/{name}", "wb") as out:
        out.write(struct.pack("<I", len(text)) + text)
        for row in rows:
            out.write(struct.pack(f"<{len(row)}i", *row))


# In a grid each face has one cycle, whose least dart is of its least edge; and a node's least edge is the first that names it.
first_of_face, first_of_node = {}, {}
for k, start, end, right, left, *_ in edges:
    for face in (right, left):
        first_of_face.setdefault(face, k)
    for node in (start, end):
        first_of_node.setdefault(node, k)
faces, nodes = range(1, n * n + 2), range(1, (n + 1) ** 2 + 1)
table("fac", "Faces", "id=I,1,P,Id,-,-,-,:ring_ptr=I,1,N,Ring,-,-,-,:", ((f, f) for f in faces))
table("rng", "Rings", "id=I,1,P,Id,-,-,-,:face_id=I,1,N,Face,-,-,-,:start_edge=I,1,N,Edge,-,-,-,:", ((f, f, first_of_face[f]) for f in faces))
table("cnd", "Nodes", "id=I,1,P,Id,-,-,-,:first_edge=I,1,N,Edge,-,-,-,:", ((k, first_of_node[k]) for k in nodes))
