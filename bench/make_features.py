"""Gives the grid that make_coverage.py has written roads: make_features.py LIB COV N. Each edge gets the number of its road, in a column of its own; N roads with
codes of 100 kinds stand in `road.lft`, whose codes name the thematic index `road.lti`, and `fcs` joins them to the edges."""
import struct
import sys

folder, n = f"{sys.argv[1]}/{sys.argv[2]}", int(sys.argv[3])
PRIME = 7919


def table(name, text, rows):
    with open(f"{folder}/{name}", "wb") as out:
        out.write(struct.pack("<I", len(text)) + text.encode())
        out.writelines(rows)


with open(f"{folder}/edg", "rb") as edges:
    text = edges.read(struct.unpack("<I", edges.read(4))[0]).decode()
    rows = [*iter(lambda: edges.read(30), b"")]
assert text.endswith(":;")
table("edg", text[:-1] + "road_id=I,1,N,Road,-,-,-,:;", (row + struct.pack("<i", 1 + k * PRIME % n) for k, row in enumerate(rows)))
table("road.lft", "L;Roads;-;id=I,1,P,Id,-,-,-,:f_code=T,5,N,Code,-,road.lti,-,:;", (struct.pack("<i5s", k + 1, f"AP{k * PRIME % 100:03}".encode()) for k in range(n)))
widths = (4, 8, 2, 3, 7)
row = "".join(it.ljust(width) for it, width in zip(("road", "road.lft", "id", "edg", "road_id"), widths)).encode()
names = ("feature_class", "table1", "table1_key", "table2", "table2_key")
table("fcs", "L;Classes;-;" + "".join(f"{name}=T,{width},N,Item,-,-,-,:" for name, width in zip(names, widths)) + ";", [row])
