"""Writes a table of one column of numbers, with a file of this many bytes."""
import struct
import sys

path, size = sys.argv[1], int(sys.argv[2])
text = b"L;Numbers;-;id=I,1,P,Number,-,-,-,:;"
head = struct.pack("<I", len(text)) + text
rows = (size - len(head)) // 4
with open(path, "wb") as out:
    out.write(head)
    out.write(struct.pack("<%di" % rows, *((k * 2654435761) % 2147483647 for k in range(rows))))
