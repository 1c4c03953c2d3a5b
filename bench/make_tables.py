"""Writes two tables of about this many bytes: rows of one width (I, S, T,8 and F), and rows that vary (I, K and text of any count)."""
import struct
import sys

fixed, varying, size = sys.argv[1], sys.argv[2], int(sys.argv[3])


def head(text):
    return struct.pack("<I", len(text)) + text


row = struct.Struct("<ih8sf")
with open(fixed, "wb") as out:
    out.write(head(b"L;Fixed;-;id=I,1,P,Id,-,-,-,:s=S,1,N,S,-,-,-,:t=T,8,N,T,-,-,-,:f=F,1,N,F,-,-,-,:;"))
    for k in range(size // row.size):
        out.write(row.pack(k + 1, k % 30000, b"%08d" % (k % 100000000), k / 7))
with open(varying, "wb") as out:
    out.write(head(b"L;Varying;-;id=I,1,P,Id,-,-,-,:k=K,1,N,K,-,-,-,:t=T,*,N,T,-,-,-,:;"))
    written = 0
    k = 0
    while written < size:
        text = b"road number %d of the county, %s" % (k, b"x" * (k % 23))
        cell = struct.pack("<BIHB", 0xE4 & 0xFC, k % 2147483647, k % 60000, k % 250)
        piece = struct.pack("<i", k + 1) + cell + struct.pack("<I", len(text)) + text
        out.write(piece)
        written += len(piece)
        k += 1
