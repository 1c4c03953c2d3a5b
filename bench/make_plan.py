"""Writes what `vpf tile` reads beside the grid of N by N cells, the coverage COV of the library LIB: its table of tiles, LIB/tileref/tileref.aft, and its
plan, LIB/COV/plan, in tiles of SIZE by SIZE cells, row by row."""
import os
import struct
import sys

lib, cov, n, size = sys.argv[1], sys.argv[2], int(sys.argv[3]), int(sys.argv[4])
side = -(-n // size)


def table(path, text, rows):
    with open(path, "wb") as out:
        out.write(struct.pack("<I", len(text)) + text + b"".join(rows))


def tile(face):
    x, y = (face - 2) % n, (face - 2) // n
    return 1 + (y // size) * side + x // size


os.makedirs(f"{lib}/tileref", exist_ok=True)
os.makedirs(f"{lib}/{cov}", exist_ok=True)
names = (struct.pack("<i", t) + f"t{t}".ljust(8).encode() for t in range(1, side * side + 1))
table(f"{lib}/tileref/tileref.aft", b"L;Tiles;-;id=I,1,P,Id,-,-,-,:tile_name=T,8,N,Name,-,-,-,:;", names)
faces = (struct.pack("<2i", face, tile(face)) for face in range(2, n * n + 2))
table(f"{lib}/{cov}/plan", b"L;Plan;-;id=I,1,P,Face,-,-,-,:tile_id=I,1,N,Tile,-,-,-,:;", faces)
