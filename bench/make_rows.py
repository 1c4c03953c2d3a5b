"""Writes a table of so many rows of one width, with a column of 10,000 values and one of 100; the same rows as text; and a table of
rows that vary, with a triplet id and the column of 100 values."""
import struct
import sys

table, text, varying, rows = sys.argv[1], sys.argv[2], sys.argv[3], int(sys.argv[4])


def head(text):
    return struct.pack("<I", len(text)) + text


row = struct.Struct("<iih")
with open(table, "wb") as out, open(text, "w") as lines, open(varying, "wb") as ids:
    out.write(head(b"L;Rows;-;id=I,1,P,Id,-,-,-,:v=I,1,N,V,-,v.lti,-,:g=S,1,N,G,-,g.lti,-,:;"))
    ids.write(head(b"L;Varying;-;k=K,1,N,K,-,-,-,:g=S,1,N,G,-,w.lti,-,:;"))
    for k in range(1, rows + 1):
        v, g = k * 7919 % 10000, k % 100
        out.write(row.pack(k, v, g))
        lines.write(f"{k} {v} {g}\n")
        ids.write(struct.pack("<BBh", 0x40, k % 256, g) if k % 3 else struct.pack("<Bh", 0, g))
