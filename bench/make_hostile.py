"""Writes small files that are dear to read: make_hostile.py KIND DIR N. Each kind writes a table or a library of about N things into DIR, and prints the words of the
command that reads it. What each does is said at its function."""
import itertools
import os
import struct
import sys

EDGE = ["id", "start_node", "end_node", "right_face", "left_face", "right_edge", "left_edge"]


def ints(*values):
    return struct.pack("<%di" % len(values), *values)


def column(name, kind="I", count="1", theme="-"):
    return ("%s=%s,%s,N,x,-,%s,-,:" % (name, kind, count, theme)).encode()


def table(path, columns, rows):
    """A table of these columns, whose rows have one length."""
    os.makedirs(os.path.dirname(path), exist_ok=True)
    text = b"L;t;-;" + b"".join(columns) + b";"
    with open(path, "wb") as out:
        out.write(struct.pack("<I", len(text)) + text)
        for row in rows:
            out.write(row)


def texts(path, columns, rows):
    """A table whose rows end in a text of their own length, and its variable-length index."""
    rows = [front + struct.pack("<I", len(text)) + text for front, text in rows]
    table(path, columns, rows)
    at = os.path.getsize(path) - sum(map(len, rows))
    with open(path[:-1] + "x", "wb") as out:
        out.write(struct.pack("<II", len(rows), 0))
        for row in rows:
            out.write(struct.pack("<II", at, len(row)))
            at += len(row)


def theme(path, rows, form, kind, count, values, extents, data, wide=True):
    """A thematic index. Extents are of an offset behind the directory and a count."""
    width = len(values[0]) if values else 0
    end = 60 + len(values) * (width + 8)
    size = b"I" if wide else b"S"
    head = struct.pack("<III", 60, len(values), rows) + form + kind + struct.pack("<I", count) + size + b" " * 37 + b"-" + b"   "
    with open(path, "wb") as out:
        out.write(head)
        for value, (offset, listed) in zip(values, extents):
            out.write(value + struct.pack("<II", (end + offset) & 0xFFFFFFFF, listed))
        out.write(data)


SCHEMA = [column("id")] + [column(name, "T", count) for name, count in
                           [("feature_class", 1), ("table1", 5), ("table1_key", 2), ("table2", 3), ("table2_key", 2)]]


def schema_row(k, table1=b"a.aft", key1=b"id", table2=b"edg", key2=b"id"):
    return ints(k) + b"c" + table1 + key1 + table2 + key2


def chain(at, n):
    """An untiled coverage: a closed chain of n edges, and two faces."""
    after = lambda i: i % n + 1
    before = lambda i: (i - 2) % n + 1
    table(at + "edg", list(map(column, EDGE)), (ints(i, i, after(i), 2, 1, after(i), before(i)) for i in range(1, n + 1)))
    table(at + "fac", [column("id"), column("ring_ptr")], [ints(1, 1), ints(2, 2)])
    table(at + "rng", [column("id"), column("face_id"), column("start_edge")], [ints(1, 1, 1), ints(2, 2, 1)])
    table(at + "cnd", [column("id"), column("first_edge")], (ints(i, min(i, before(i))) for i in range(1, n + 1)))


def tiles(folder, n):
    """A table of n tiles."""
    columns = [column("id"), column("tile_name", "T", 6)]
    table(folder + "/tileref/tileref.aft", columns, (ints(k) + (b"t%d" % k).ljust(6) for k in range(1, n + 1)))


def overlap(folder, n):
    """A thematic index of n entries, all over one list of n numbers."""
    table(folder + "/t", [column("v", "T", 2, "t.ti")], [b"aa"])
    values = [struct.pack("<H", i & 65535) for i in range(n)]
    theme(folder + "/t.ti", 1 << 30, b"T", b"T", 2, values, [(0, n)] * n, b"\1\0" * n, wide=False)
    return "rows %s/t v aa" % folder


def bitmaps(folder, n):
    """A feature table of n rows, and an index of n/4 entries over one bitmap of no row."""
    at = folder + "/cov/"
    chain(at, 3)
    table(at + "fcs", SCHEMA, [schema_row(1)])
    table(at + "a.aft", [column("id", theme="a.ti")], (ints(i) for i in range(1, n + 1)))
    size = (n + 7) // 8
    theme(at + "a.ti", n, b"B", b"I", 1, [ints(i) for i in range(n // 4)], [(0, size)] * (n // 4), b"\0" * size)
    return "check %s cov" % folder


def joins(folder, n):
    """n rows of the schema table that join one feature to a coverage of n edges."""
    at = folder + "/cov/"
    chain(at, n)
    table(at + "fcs", SCHEMA, (schema_row(k) for k in range(1, n + 1)))
    table(at + "a.aft", [column("id")], [ints(1)])
    return "select %s cov c id 0" % folder


def features(folder, n):
    """n rows of the schema table, n features with one value, and keys that join nothing."""
    at = folder + "/cov/"
    chain(at, 3)
    table(at + "fcs", SCHEMA, (schema_row(k, key1=b"v ") for k in range(1, n + 1)))
    table(at + "a.aft", [column("id"), column("v")], (ints(i, 0) for i in range(1, n + 1)))
    return "select %s cov c v 0" % folder


def fcstiles(folder, n):
    """n rows of the schema table on entity nodes, which none of n/4 tiles has; all tiles but the first are empty."""
    at = folder + "/cov/"
    chain(at + "t1/", 3)
    tiles(folder, n // 4)
    table(at + "fcs", SCHEMA, (schema_row(k, table2=b"end") for k in range(1, n + 1)))
    table(at + "a.aft", [column("id")], [ints(1)])
    return "select %s cov c id 1" % folder


def slashes(folder, n):
    """A table of one tile, whose path is n slashes and a name."""
    table(folder + "/tileref/tileref.aft", [column("id"), column("tile_name", "T", n)], [ints(1) + b"t".rjust(n, b"/")])
    return "check %s cov" % folder


def columns(folder, n):
    """A feature table of n rows and 256 columns, all but one of which name one index."""
    at = folder + "/cov/"
    chain(at, 3)
    table(at + "fcs", SCHEMA, [schema_row(1)])
    table(at + "a.aft", [column("id")] + [column("c%d" % c, "T", 1, "i") for c in range(255)], (ints(k) + b"a" * 255 for k in range(1, n + 1)))
    theme(at + "i", n, b"T", b"T", 1, [b"a"], [(0, n)], b"".join(ints(k) for k in range(1, n + 1)))
    return "check %s cov" % folder


def folded(a, b):
    product = a * b
    return (product & ((1 << 64) - 1)) ^ (product >> 64)


def is_path(text):
    return all(33 <= b <= 126 and b not in b"/\\" and not 65 <= b <= 90 for b in text)


def collide(folder, n):
    """n empty tiles, at most 65,535, whose paths of 32 bytes have one hash: the third eight bytes are the state of the hash behind the first two, so that the next
    product is 0 whatever the last eight are."""
    start = (0x243F6A8885A308D3 + 32) & ((1 << 64) - 1)
    for k in itertools.count():
        front = b"%016d" % k
        a, b = struct.unpack("<QQ", front)
        state = struct.pack("<Q", folded(a ^ start, b ^ 0x9E3779B97F4A7C15))
        if is_path(state):
            break
    table(folder + "/tileref/tileref.aft", [column("id"), column("tile_name", "T", 32)], (ints(k) + front + state + b"%08d" % k for k in range(1, n + 1)))
    return "check %s cov" % folder


def values(folder, n):
    """A thematic index of n numbers in no order, one row each."""
    at = folder + "/cov/"
    chain(at, 3)
    table(at + "fcs", SCHEMA, [schema_row(1)])
    numbers = [(k * 0x9E3779B1 & 0xFFFFFFFF) - (1 << 31) for k in range(1, n + 1)]
    table(at + "a.aft", [column("id"), column("v", theme="v.ti")], (ints(k + 1, v) for k, v in enumerate(numbers)))
    end = 60 + 12 * n
    theme(at + "v.ti", n, b"T", b"I", 1, list(map(ints, numbers)), [(k + 1 - end + (1 << 32), 0) for k in range(n)], b"")
    return "check %s cov" % folder


def wheel(folder, n, count=0, hub=0, bare=0):
    """A wheel of n spokes, sector k of it in tile k, or k mod `count` + 1. The row of the hub has `hub` bytes of text, that of an edge `bare` columns of no bytes."""
    at = folder + "/cov/"
    after = lambda i: i % n + 1
    before = lambda i: (i - 2) % n + 1
    home = lambda k: (k % count if count else k - 1) + 1
    spokes = [ints(i, 1, i + 1, before(i) + 1, i + 1, n + before(i), after(i)) for i in range(1, n + 1)]
    rim = [ints(n + i, i + 1, after(i) + 1, 1, i + 1, n + after(i), i) for i in range(1, n + 1)]
    table(at + "edg", list(map(column, EDGE)) + [column("x%d" % c, "X") for c in range(bare)], spokes + rim)
    table(at + "fac", [column("id"), column("ring_ptr")], (ints(f, f) for f in range(1, n + 2)))
    table(at + "rng", list(map(column, ["id", "face_id", "start_edge"])), [ints(1, 1, n + 1)] + [ints(f, f, f - 1) for f in range(2, n + 2)])
    nodes = [(ints(1, 1), b"h" * hub)] + [(ints(k, k - 1), b"") for k in range(2, n + 2)]
    texts(at + "cnd", [column("id"), column("first_edge"), column("w", "T", "*")], nodes)
    table(at + "plan", [column("id"), column("tile_id")], [ints(f, home(f - 1)) for f in range(2, n + 2)])
    tiles(folder, count or n)
    return "tile %s cov %s.out" % (folder, folder)


def hub(folder, n):
    """Two tiles that share a node of n spokes, whose row has 64 n bytes."""
    return wheel(folder, n, count=2, hub=64 * n)


def copies(folder, n):
    """Two tiles that share n spokes, and edges of 240 columns of no bytes."""
    return wheel(folder, n, count=2, bare=240)


KINDS = {kind.__name__: kind for kind in [overlap, bitmaps, joins, features, fcstiles, slashes, columns, collide, values, wheel, hub, copies]}

if __name__ == "__main__":
    os.makedirs(sys.argv[2], exist_ok=True)
    print(KINDS[sys.argv[1]](sys.argv[2], int(sys.argv[3])))
