"""Cuts the grid of N by N cells, an untiled coverage made by make_coverage.py, into tiles of SIZE by SIZE cells: writes LIB/tileref and LIB/COV."""
import os
import struct
import sys

source, lib, cov, n, size = sys.argv[1], sys.argv[2], sys.argv[3], int(sys.argv[4]), int(sys.argv[5])
side = -(-n // size)


def read(name, width):
    with open(f"{source}/{name}", "rb") as it:
        data = it.read()
    return list(struct.iter_unpack(width, data[4 + struct.unpack_from("<I", data)[0] :]))


edges = [None] + read("edg", "<7ih")
rings = read("rng", "<3i")


# A dart is its edge's number, minus it for the dart that runs back; its face, head node and wing stand in the edge's row.
def face(d):
    return edges[abs(d)][3 if d > 0 else 4]


def head(d):
    return edges[abs(d)][2 if d > 0 else 1]


def wing(d):
    return edges[abs(d)][5 if d > 0 else 6]


def next_of(d):
    w = wing(d)
    return w if head(-w) == head(d) and face(w) == face(d) else -w


def tile_of(f):
    x, y = (f - 2) % n, (f - 2) // n
    return 0 if f == 1 else 1 + (y // size) * side + x // size


def home(d):
    return tile_of(face(d)) or tile_of(face(-d))


edges_in, faces_in, nodes_in, rings_in = {}, {}, {}, {}
for k in range(1, len(edges)):
    for t in sorted({tile_of(face(k)), tile_of(face(-k))} - {0}):
        here = edges_in.setdefault(t, {})
        here[k] = len(here) + 1
        for node in (edges[k][1], edges[k][2]):
            nodes_in.setdefault(t, set()).add(node)
        for f in (face(k), face(-k)):
            if tile_of(f) == t:
                faces_in.setdefault(t, set()).add(f)
for t in edges_in:
    nodes_in[t] = {node: i for i, node in enumerate(sorted(nodes_in[t]), 1)}
    faces_in[t] = {f: i for i, f in enumerate(sorted(faces_in[t]), 2)}
for _, f, edge in rings:
    if f != 1:
        rings_in.setdefault(tile_of(f), []).append((f, edge))


def next_in(t, d):
    x = next_of(d)
    while abs(x) not in edges_in[t]:
        x = next_of(-x)
    return x


def triplet(*parts):
    kind, out = 0, b""
    for i, part in enumerate(parts):
        width = 0 if part is None else 1 if part < 256 else 2 if part < 65536 else 3
        kind |= width << (6 - 2 * i)
        out += b"" if part is None else part.to_bytes([0, 1, 2, 4][width], "little")
    return bytes([kind]) + out


def cells(t, d):
    """The node, the face and the wing of a dart in a tile."""
    after = next_of(d)
    there = home(after)
    leaves = tile_of(face(d)) != t and there != t
    node, edge = nodes_in[t][head(d)], edges_in[t][abs(next_in(t, d))]
    out = (triplet(node, there, nodes_in[there][head(d)]), triplet(edge, there, edges_in[there][abs(after)])) if leaves else (triplet(node), triplet(edge))
    u = tile_of(face(d))
    own = triplet(1) if u == 0 else triplet(faces_in[t][face(d)]) if u == t else triplet(1, u, faces_in[u][face(d)])
    return out[0], own, out[1]


def table(path, title, columns, rows, index=None):
    text = f"L;{title};-;{columns};".encode()
    at, spans = 4 + len(text), []
    with open(path, "wb") as out:
        out.write(struct.pack("<I", len(text)) + text)
        for row in rows:
            out.write(row)
            spans.append((at, len(row)))
            at += len(row)
    if index:
        with open(index, "wb") as out:
            out.write(struct.pack("<II", len(spans), len(text)))
            out.write(b"".join(struct.pack("<II", *span) for span in spans))


def column(name, kind="I"):
    return f"{name}={kind},1,N,{name},-,-,-,:"


def rows_of_edges(t):
    for k, i in edges_in[t].items():
        plus, minus = cells(t, k), cells(t, -k)
        yield struct.pack("<i", i) + minus[0] + plus[0] + plus[1] + minus[1] + plus[2] + minus[2] + struct.pack("<h", edges[k][7])


def outer_rings(t):
    """The least edge of each cycle of the darts whose face isn't of the tile, by the least dart."""
    seen, out = set(), []
    for k in edges_in[t]:
        for d in (k, -k):
            if tile_of(face(d)) == t or d in seen:
                continue
            out.append(edges_in[t][k])
            while d not in seen:
                seen.add(d)
                d = next_in(t, d)
    return out


EDGES = "".join([column("id")] + [column(c, "K") for c in ("start_node", "end_node", "right_face", "left_face", "right_edge", "left_edge")] + [column("tile_line", "S")])
for t in edges_in:
    path = f"{lib}/{cov}/t{t}"
    os.makedirs(path, exist_ok=True)
    table(f"{path}/edg", "Edges", EDGES, rows_of_edges(t), f"{path}/edx")
    own = [(1, edge) for edge in outer_rings(t)] + sorted((faces_in[t][f], edges_in[t][edge]) for f, edge in rings_in[t])
    first = {}
    for i, (f, _) in enumerate(own, 1):
        first.setdefault(f, i)
    table(f"{path}/fac", "Faces", column("id") + column("ring_ptr"), (struct.pack("<2i", f, first.get(f, 0)) for f in range(1, len(faces_in[t]) + 2)))
    table(f"{path}/rng", "Rings", column("id") + column("face_id") + column("start_edge"), (struct.pack("<3i", i, f, edge) for i, (f, edge) in enumerate(own, 1)))
    least = {}
    for k, i in edges_in[t].items():
        for node in (edges[k][1], edges[k][2]):
            least.setdefault(nodes_in[t][node], i)
    table(f"{path}/cnd", "Nodes", column("id") + column("first_edge"), (struct.pack("<2i", i, least[i]) for i in range(1, len(nodes_in[t]) + 1)))
os.makedirs(f"{lib}/tileref", exist_ok=True)
table(f"{lib}/tileref/tileref.aft", "Tiles", column("id") + "tile_name=T,8,N,Name,-,-,-,:", (struct.pack("<i", t) + f"t{t}".ljust(8).encode() for t in range(1, side * side + 1)))
