"""Inputs of mount9 for the scripts of this folder: a header of files, and FUSE request frames."""
import struct

INIT, LOOKUP, GETATTR, OPEN, READ, OPENDIR, READDIR = 26, 1, 3, 14, 15, 27, 28
FIRST_LINES = """mount9 1
moment 1700000000 5
born 1600000000 0
limits 1048576 65536 65000
permit yes
present /mnt
top 0755 0 0
"""


def header(lines):
    """A header with these lines, each a record."""
    return (FIRST_LINES + "".join(line + "\n" for line in lines) + "end\n").encode()


def frame(opcode, unique, node, body):
    """A FUSE request frame."""
    return struct.pack("<IIQQIIII", 40 + len(body), opcode, unique, node, 0, 0, 0, 0) + body


def first_frame():
    """INIT."""
    return frame(INIT, 1, 0, struct.pack("<IIII", 7, 31, 131072, 0) + bytes(48))


def open_body(flags=0):
    """The body of OPEN and of OPENDIR."""
    return struct.pack("<II", flags, 0)


def read_body(handle, offset, size):
    """The body of READ and of READDIR."""
    return struct.pack("<QQIIQII", handle, offset, size, 0, 0, 0, 0)
