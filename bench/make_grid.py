"""Writes the edge table of a grid of N by N cells: nodes (x, y), first the edges to the east and then those to the north, row by row."""
import struct
import sys

path, n = sys.argv[1], int(sys.argv[2])
text = (
    b"L;Edges;-;id=I,1,P,Id,-,-,-,:start_node=I,1,N,Start,-,-,-,:end_node=I,1,N,End,-,-,-,:"
    b"right_face=I,1,N,Right,-,-,-,:left_face=I,1,N,Left,-,-,-,:right_edge=I,1,N,Right,-,-,-,:"
    b"left_edge=I,1,N,Left,-,-,-,:tile_line=S,1,N,Line,-,-,-,:;"
)


def node(x, y):
    return y * (n + 1) + x + 1


def east(x, y):
    return y * n + x + 1 if 0 <= x < n and 0 <= y <= n else 0


def north(x, y):
    return n * (n + 1) + x * n + y + 1 if 0 <= x <= n and 0 <= y < n else 0


def face(x, y):
    return 2 + y * n + x if 0 <= x < n and 0 <= y < n else 1


def tile(f):
    x, y = (f - 2) % n, (f - 2) // n
    return 1 + (y // 2) * (n // 2) + x // 2


# the edge that leaves a node in each direction: east, north, west, south
def leaving(x, y, way):
    return [east(x, y), north(x, y), east(x - 1, y), north(x, y - 1)][way]


def following(x, y, way):
    """At the head (x, y), having come along `way`: right, straight on, left."""
    for turn in (way - 1, way, way + 1):
        edge = leaving(x, y, turn % 4)
        if edge:
            return edge
    raise AssertionError


def rows():
    for y in range(n + 1):
        for x in range(n):
            yield (node(x, y), node(x + 1, y), face(x, y - 1), face(x, y), following(x + 1, y, 0), following(x, y, 2))
    for x in range(n + 1):
        for y in range(n):
            yield (node(x, y), node(x, y + 1), face(x, y), face(x - 1, y), following(x, y + 1, 1), following(x, y, 3))


with open(path, "wb") as out:
    out.write(struct.pack("<I", len(text)) + text)
    for k, (start, end, right, left, right_edge, left_edge) in enumerate(rows(), 1):
        line = int(right == 1 or left == 1 or tile(right) != tile(left))
        out.write(struct.pack("<7ih", k, start, end, right, left, right_edge, left_edge, line))
