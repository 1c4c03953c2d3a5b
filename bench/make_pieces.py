"""Writes tables of 67,108,864 bytes, rows of one width (I, S, T,8 and F) and rows that vary (I, K and text of any count), and small ones into a folder: a row,
a header text of 65,536 bytes, and cells whose count is 4,294,967,295."""
import struct
import sys

folder, SIZE = sys.argv[1], 67_108_864


def head(text):
    return struct.pack("<I", len(text)) + text


def put(name, *parts):
    with open(f"{folder}/{name}", "wb") as out:
        out.writelines(parts)


def fixed():
    row = struct.Struct("<ih8sf")
    # So long a description that whole rows end with the file.
    text = b"L;Fixed%s;-;id=I,1,P,Id,-,-,-,:s=S,1,N,S,-,-,-,:t=T,8,N,T,-,-,-,:f=F,1,N,F,-,-,-,:;"
    first = head(text % b"")
    first = head(text % (b"." * ((SIZE - len(first)) % row.size)))
    yield first
    for k in range((SIZE - len(first)) // row.size):
        yield row.pack(k + 1, k % 30000, b"%08d" % (k % 100000000), k / 7)


def varying():
    first = head(b"L;Varying;-;id=I,1,P,Id,-,-,-,:k=K,1,N,K,-,-,-,:t=T,*,N,T,-,-,-,:;")
    yield first
    left, k = SIZE - len(first), 0
    while left:
        text = b"road number %d of the county, %s" % (k, b"x" * (k % 23))
        if left < 1000:
            # The last row ends with the file.
            text = b"y" * (left - 16)
        cell = struct.pack("<BIHB", 0xE4, k % 2147483647, k % 60000, k % 250)
        row = struct.pack("<i", k + 1) + cell + struct.pack("<I", len(text)) + text
        yield row
        left -= len(row)
        k += 1


def column(kind):
    return head(b"L;T;-;a=%s,*,N,d,-,-,-,:;" % kind)


put("fixed.tab", *fixed())
put("varying.tab", *varying())
put("small.tab", head(b"L;T;-;id=I,1,P,i,-,-,-,:;"), b"\1\0\0\0")
ends = b"L;", b";-;id=I,1,P,i,-,-,-,:;"
put("header.tab", head(b"d".join(ends).replace(b"d", b"d" * (65_536 - sum(map(len, ends))), 1)), b"\1\0\0\0")
for name, kind in (("text", b"T"), ("pairs", b"C"), ("triples", b"Y")):
    put(f"{name}.tab", column(kind), b"\xff\xff\xff\xff", b"abc")
