"""Writes the small world of docs/world.svg as a library into a folder, in order L or M: make_world.py FOLDER L|M. Two fields beside a line between tiles, an island of
two shores in the west, a pier that ends in the east, and two wells (entity nodes): one on the island, one in the east. Barriers, lands and wells are its feature
classes, of lines, areas and points."""
import math
import os
import struct
import sys

folder, order = sys.argv[1], sys.argv[2]
sign = {"L": "<", "M": ">"}[order]
NODES = [(0, 0), (4, 0), (8, 0), (8, 4), (4, 4), (0, 4), (1, 2), (3, 2), (6, 2)]
# Start, end, right face, left face, whether it is a line between tiles, and the points between its ends.
EDGES = [
    (1, 2, 1, 2, 0, []),
    (2, 3, 1, 3, 0, []),
    (3, 4, 1, 3, 0, []),
    (4, 5, 1, 3, 0, []),
    (5, 6, 1, 2, 0, []),
    (6, 1, 1, 2, 0, []),
    (2, 5, 3, 2, 1, []),
    (7, 8, 4, 2, 0, [(2, 3)]),
    (8, 7, 4, 2, 0, [(2, 1)]),
    (4, 9, 3, 3, 0, []),
]
# The face of each ring and the edge that it starts with.
RINGS = [(1, 1), (2, 1), (2, 8), (3, 2), (4, 8)]
WELLS = [(4, (2, 2)), (3, (7, 1))]
PLAN = [(2, 1), (3, 2), (4, 1)]
TILES = ["west", "east"]
# The feature of each edge, face and well that has one: the codes of barriers and of lands, and the depths of wells.
BARRIER_OF, LAND_OF = {7: 1, 10: 2}, {2: 1, 3: 2, 4: 3}
BARRIERS, LANDS, DEPTHS = ["AL070", "BB190"], ["EA010", "EA010", "BA030"], [12, 30]
# Class, feature table, its key, primitive table, its key.
CLASSES = [
    ("barrierl", "barrierl.lft", "id", "edg", "barrierl.lft_id"),
    ("landa", "landa.aft", "id", "fac", "landa.aft_id"),
    ("wellp", "wellp.pft", "id", "end", "wellp.pft_id"),
]


def points(k):
    start, end, _, _, _, between = EDGES[k - 1]
    return [NODES[start - 1], *between, NODES[end - 1]]


def angle(dart):
    """The direction in which a dart leaves its tail."""
    k, plus = dart
    (ax, ay), (bx, by) = (points(k) if plus else points(k)[::-1])[:2]
    return math.atan2(by - ay, bx - ax)


def leaving(node):
    darts = [(k, plus) for k in range(1, len(EDGES) + 1) for plus in (True, False)]
    return sorted((it for it in darts if EDGES[it[0] - 1][0 if it[1] else 1] == node), key=angle)


def wing(k, plus):
    """The edge that goes on with the face to the right: the first one counterclockwise from where the dart came."""
    about = leaving(EDGES[k - 1][1 if plus else 0])
    return about[(about.index((k, not plus)) + 1) % len(about)][0]


def put(name, description, columns, rows, index=None, themes={}):
    """A table, with its variable-length index where its name is given; `themes` names the thematic indexes of columns."""
    text = f"{order};{description};-;"
    for it in columns:
        column = it.split("=")[0]
        text += f"{it},{'P' if column == 'id' else 'N'},{column},-,{themes.get(column, '-')},-,:"
    text += ";"
    os.makedirs(os.path.dirname(f"{folder}/{name}"), exist_ok=True)
    spans, data = [], struct.pack(f"{sign}I", len(text)) + text.encode()
    for row in rows:
        spans.append(struct.pack(f"{sign}II", len(data), len(row)))
        data += row
    with open(f"{folder}/{name}", "wb") as out:
        out.write(data)
    if index:
        with open(f"{folder}/{index}", "wb") as out:
            out.write(struct.pack(f"{sign}II", len(spans), len(text)) + b"".join(spans))


def pack(form, *values):
    return struct.pack(sign + form, *values)


def put_index(name, table, column, values):
    """A thematic index of texts, as a list of rows for each value: sixty bytes, a directory, and the rows of the values that have several."""
    found = {value: [k for k, it in enumerate(values, 1) if it == value] for value in sorted({*values})}
    at = 60 + len(found) * (len(values[0]) + 8)
    directory, lists = b"", b""
    for value, rows in found.items():
        many = rows if len(rows) > 1 else []
        directory += value.encode() + pack("2I", at + len(lists) if many else rows[0], len(many))
        lists += b"".join(pack("H", it) for it in many)
    head = pack("3I2sI", at, len(found), len(values), b"TT", len(values[0])) + b"S" + table.ljust(12).encode() + column.ljust(25).encode() + b"S" + bytes(3)
    os.makedirs(os.path.dirname(f"{folder}/{name}"), exist_ok=True)
    with open(f"{folder}/{name}", "wb") as out:
        out.write(head + directory + lists)


edges = [
    pack("7ihiI", k, start, end, right, left, wing(k, True), wing(k, False), line, BARRIER_OF.get(k, 0), len(points(k))) + b"".join(pack("2f", *it) for it in points(k))
    for k, (start, end, right, left, line, _) in enumerate(EDGES, 1)
]
names = ["id", "start_node", "end_node", "right_face", "left_face", "right_edge", "left_edge"]
put("land/edg", "Shores and fences", [f"{it}=I,1" for it in names] + ["tile_line=S,1", "barrierl.lft_id=I,1", "coordinates=C,*"], edges, "land/edx")
first = {f: k for k, (f, _) in reversed([*enumerate(RINGS, 1)])}
put("land/fac", "Fields", ["id=I,1", "ring_ptr=I,1", "landa.aft_id=I,1"], [pack("3i", f, first[f], LAND_OF.get(f, 0)) for f in sorted(first)])
put("land/rng", "Rings", ["id=I,1", "face_id=I,1", "start_edge=I,1"], [pack("3i", k, *it) for k, it in enumerate(RINGS, 1)])
put("land/cnd", "Corners", ["id=I,1", "first_edge=I,1", "coordinate=C,1"], [pack("2i2f", k, leaving(k)[0][0], *it) for k, it in enumerate(NODES, 1)])
put("land/end", "Wells", ["id=I,1", "containing_face=I,1", "wellp.pft_id=I,1", "coordinate=C,1"], [pack("3i2f", k, f, k, *at) for k, (f, at) in enumerate(WELLS, 1)])
put("land/plan", "Plan", ["id=I,1", "tile_id=I,1"], [pack("2i", *it) for it in PLAN])
put("tileref/tileref.aft", "Tiles", ["id=I,1", "tile_name=T,4"], [pack("i4s", k, it.encode()) for k, it in enumerate(TILES, 1)])
classes = [
    "".join(it.ljust(width) for it, width in zip(row, (8, 12, 4, 4, 16))).encode() for row in CLASSES
]
put("land/fcs", "Classes", ["feature_class=T,8", "table1=T,12", "table1_key=T,4", "table2=T,4", "table2_key=T,16"], classes)
put("land/barrierl.lft", "Barriers", ["id=I,1", "f_code=T,5"], [pack("i5s", k, it.encode()) for k, it in enumerate(BARRIERS, 1)], themes={"f_code": "barrierl.lti"})
put_index("land/barrierl.lti", "barrierl.lft", "f_code", BARRIERS)
put("land/landa.aft", "Lands", ["id=I,1", "f_code=T,5"], [pack("i5s", k, it.encode()) for k, it in enumerate(LANDS, 1)], themes={"f_code": "landa.ati"})
put_index("land/landa.ati", "landa.aft", "f_code", LANDS)
put("land/wellp.pft", "Wells", ["id=I,1", "depth=S,1"], [pack("ih", k, it) for k, it in enumerate(DEPTHS, 1)])
