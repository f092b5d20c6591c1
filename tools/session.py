#!/usr/bin/env python3
"""Turns a session in words into the input of mount9, and a report's replies into words.

    session.py input SESSION > INPUT          the header and the frames of the session
    session.py replies SESSION REPORT         each request of the session with its reply
    session.py run PROGRAM SESSION [WORD ..]  runs the program on the session, and prints both

SESSION is a text: a header as docs/FORMATS.md describes it, up to its line `end`, and then a
request on each line. Blank lines and lines that begin with `#` are passed over. Numbers are
decimal; a name stands as it is, or as `\\xHH` for a byte.

    INIT [MINOR]                    FLUSH HANDLE
    LOOKUP NODE NAME                RELEASE HANDLE
    GETATTR NODE [HANDLE]           FORGET NODE COUNT
    OPEN NODE FLAGS                 BATCH_FORGET NODE COUNT [NODE COUNT ..]
    READ HANDLE OFFSET SIZE         UNLINK NODE NAME
    OPENDIR NODE [FLAGS]            READDIR HANDLE OFFSET SIZE
    RELEASEDIR HANDLE               RMDIR NODE NAME
    RENAME NODE NEWDIR OLD NEW      RENAME2 NODE NEWDIR FLAGS OLD NEW
    SYMLINK NODE NAME TARGET        MKNOD NODE MODE RDEV NAME
    READLINK NODE                   STATFS NODE
    FSYNC HANDLE [FLAGS]            FSYNCDIR HANDLE [FLAGS]
    INTERRUPT UNIQUE                DESTROY
    MKDIR NODE MODE NAME            LINK NODE OLDNODE NAME
    CREATE NODE FLAGS MODE NAME
    SETATTR NODE [handle=HANDLE] [mode=MODE] [uid=UID] [gid=GID] [size=SIZE] [atime=TIME]
            [mtime=TIME] [ctime=TIME] [valid=BITS]  (TIME: seconds[.nanoseconds], or now; further bits)
    WRITE HANDLE OFFSET HEX
    FRAME OPCODE NODE HEX           BYTES HEX  (bytes that need be no frame)

FRAME is any request: the body in hex, or - for none. The unique numbers are 1, 2 and so on.
It needs Python 3.8 or later, and nothing else.
"""
import re
import struct
import subprocess
import sys

OPCODES = {"LOOKUP": 1, "FORGET": 2, "GETATTR": 3, "SETATTR": 4, "OPEN": 14, "READ": 15,
           "WRITE": 16, "RELEASE": 18,
           "FLUSH": 25, "INIT": 26, "BATCH_FORGET": 42, "UNLINK": 10, "OPENDIR": 27, "READDIR": 28,
           "RELEASEDIR": 29, "READLINK": 5, "SYMLINK": 6, "MKNOD": 8, "MKDIR": 9, "RMDIR": 11, "RENAME": 12,
           "LINK": 13, "CREATE": 35, "STATFS": 17, "FSYNC": 20, "FSYNCDIR": 30, "INTERRUPT": 36, "DESTROY": 38, "RENAME2": 45}
SILENT = {2, 36, 42}
ERRORS = {1: "EPERM", 2: "ENOENT", 5: "EIO", 9: "EBADF", 13: "EACCES", 17: "EEXIST", 20: "ENOTDIR",
          21: "EISDIR", 22: "EINVAL", 23: "ENFILE", 27: "EFBIG", 28: "ENOSPC", 31: "EMLINK",
          36: "ENAMETOOLONG", 38: "ENOSYS", 39: "ENOTEMPTY", 40: "ELOOP", 71: "EPROTO",
          95: "EOPNOTSUPP", 116: "ESTALE"}
ATTRIBUTES = ("ino size blocks atime mtime ctime atimensec mtimensec ctimensec mode nlink uid gid"
              " rdev blksize flags").split()


def name_bytes(word):
    """The bytes of a name, in which \\xHH is a byte."""
    parts = re.split(r"\\x([0-9a-fA-F]{2})", word)
    out = b""
    for i, part in enumerate(parts):
        out += bytes([int(part, 16)]) if i % 2 else part.encode()
    return out


def names_bytes(words):
    """Names, each with its zero byte."""
    return b"".join(name_bytes(word) + b"\0" for word in words)


# Keys of SETATTR: the bit of `valid`, and for a time that of `now`.
SETTINGS = {"mode": 0x1, "uid": 0x2, "gid": 0x4, "size": 0x8, "atime": 0x10, "mtime": 0x20,
            "handle": 0x40, "ctime": 0x400}
NOW = {"atime": 0x80, "mtime": 0x100}


def setattr_body(words):
    """The body of SETATTR, by words KEY=VALUE."""
    valid, values, parts = 0, dict.fromkeys(SETTINGS, 0), dict.fromkeys(("atime", "mtime", "ctime"), 0)
    for word in words:
        key, value = word.split("=")
        if key == "valid":
            valid |= int(value)
            continue
        valid |= SETTINGS[key]
        if value == "now":
            valid |= NOW[key]
        elif key in parts:
            seconds, _, nanoseconds = value.partition(".")
            values[key], parts[key] = int(seconds), int(nanoseconds or 0)
        else:
            values[key] = int(value)
    return struct.pack("<IIQQQQQQIIIIIIII", valid, 0, values["handle"], values["size"], 0,
                       values["atime"], values["mtime"], values["ctime"], parts["atime"],
                       parts["mtime"], parts["ctime"], values["mode"], 0, values["uid"],
                       values["gid"], 0)


def body_of(request, words):
    """The node and the body of a request."""
    numbers = [int(word) for word in words if re.fullmatch(r"[0-9]+", word)]
    if request == "INIT":
        return 0, struct.pack("<IIII", 7, numbers[0] if numbers else 31, 131072, 0) + bytes(48)
    if request in ("LOOKUP", "UNLINK", "RMDIR"):
        return int(words[0]), name_bytes(words[1] if len(words) > 1 else "") + b"\0"
    if request == "GETATTR":
        given = len(numbers) > 1
        return numbers[0], struct.pack("<IIQ", int(given), 0, numbers[1] if given else 0)
    if request in ("OPEN", "OPENDIR"):
        return numbers[0], struct.pack("<II", numbers[1] if len(numbers) > 1 else 0, 0)
    if request == "RENAME":
        return int(words[0]), struct.pack("<Q", int(words[1])) + names_bytes(words[2:4])
    if request == "RENAME2":
        newdir, flags = int(words[1]), int(words[2])
        return int(words[0]), struct.pack("<QII", newdir, flags, 0) + names_bytes(words[3:5])
    if request == "SYMLINK":
        return int(words[0]), names_bytes(words[1:3])
    if request == "MKNOD":
        mode, rdev = int(words[1]), int(words[2])
        return int(words[0]), struct.pack("<IIII", mode, rdev, 0, 0) + names_bytes(words[3:4])
    if request == "MKDIR":
        return int(words[0]), struct.pack("<II", int(words[1]), 0) + names_bytes(words[2:3])
    if request == "LINK":
        return int(words[0]), struct.pack("<Q", int(words[1])) + names_bytes(words[2:3])
    if request == "CREATE":
        flags, mode = int(words[1]), int(words[2])
        return int(words[0]), struct.pack("<IIII", flags, mode, 0, 0) + names_bytes(words[3:4])
    if request == "SETATTR":
        return int(words[0]), setattr_body(words[1:])
    if request == "WRITE":
        data = bytes.fromhex(words[2]) if len(words) > 2 else b""
        return 0, struct.pack("<QQIIQII", numbers[0], int(words[1]), len(data), 0, 0, 0, 0) + data
    if request in ("READLINK", "STATFS"):
        return numbers[0], b""
    if request in ("FSYNC", "FSYNCDIR"):
        return 0, struct.pack("<QII", numbers[0], numbers[1] if len(numbers) > 1 else 0, 0)
    if request == "INTERRUPT":
        return 0, struct.pack("<Q", numbers[0])
    if request == "DESTROY":
        return 0, b""
    if request in ("READ", "READDIR"):
        handle, offset, size = numbers
        return 0, struct.pack("<QQIIQII", handle, offset, size, 0, 0, 0, 0)
    if request in ("FLUSH", "RELEASE", "RELEASEDIR"):
        return 0, struct.pack("<Q", numbers[0]) + bytes(16)
    if request == "FORGET":
        return numbers[0], struct.pack("<Q", numbers[1])
    if request == "BATCH_FORGET":
        pairs = b"".join(struct.pack("<Q", number) for number in numbers)
        return 0, struct.pack("<II", len(numbers) // 2, 0) + pairs
    raise ValueError("no such request: " + request)


def frame_of(unique, line):
    """The opcode and the bytes of a request, which is a line of words."""
    request, *words = line.split(" ")
    if request == "BYTES":
        return None, bytes.fromhex(words[0])
    if request == "FRAME":
        opcode, node = int(words[0]), int(words[1])
        body = b"" if words[2] == "-" else bytes.fromhex(words[2])
    else:
        opcode = OPCODES.get(request)
        if opcode is None:
            raise ValueError("no such request: " + request)
        node, body = body_of(request, words)
    head = struct.pack("<IIQQIIII", 40 + len(body), opcode, unique, node, 0, 0, 0, 0)
    return opcode, head + body


def parse(text):
    """The header and the requests: a line, an opcode and a frame each."""
    lines = text.split("\n")
    end = lines.index("end") if "end" in lines else len(lines) - 2
    header = "".join(line + "\n" for line in lines[:end + 1])
    requests = []
    for line in lines[end + 1:]:
        if line.strip() and not line.startswith("#"):
            try:
                opcode, frame = frame_of(len(requests) + 1, line)
            except (ValueError, IndexError) as error:
                raise SystemExit("session: %s: %s" % (line, error))
            requests.append((line, opcode, frame))
    return header, requests


def input_of(session):
    header, requests = parse(session)
    return header.encode() + b"".join(frame for _, _, frame in requests)


def attributes(body):
    values = struct.unpack("<QQQQQQIIIIIIIIII", body[:88])
    shown = dict(zip(ATTRIBUTES, values))
    return "ino=%(ino)d size=%(size)d mode=0%(mode)o nlink=%(nlink)d uid=%(uid)d gid=%(gid)d" % shown


def entries(body):
    """The entries of a listing: inode number, cookie, type and name each."""
    out, at = [], 0
    while at < len(body):
        ino, cookie, size, kind = struct.unpack("<QQII", body[at:at + 24])
        name = repr(body[at + 24:at + 24 + size])[1:]
        out.append("ino=%d cookie=%d type=%d %s" % (ino, cookie, kind, name))
        at += (24 + size + 7) // 8 * 8
    return ", ".join(out)


def reply_in_words(opcode, error, body):
    if error:
        return "error " + ERRORS.get(error, str(error))
    if opcode == 26:
        return "granted minor=%d max_readahead=%d" % struct.unpack("<II", body[4:12])
    if opcode in (1, 9, 13):
        return "node=%d %s" % (struct.unpack("<Q", body[:8])[0], attributes(body[40:]))
    if opcode == 35:
        node, handle = struct.unpack("<Q", body[:8]) + struct.unpack("<Q", body[128:136])
        return "node=%d handle=%d %s" % (node, handle, attributes(body[40:]))
    if opcode in (3, 4):
        return attributes(body[16:])
    if opcode in (14, 27):
        return "handle=%d" % struct.unpack("<Q", body[:8])
    if opcode == 16:
        return "%d bytes written" % struct.unpack("<I", body[:4])
    if opcode == 17:
        return "blocks=%d/%d/%d files=%d/%d bsize=%d namelen=%d" % struct.unpack("<QQQQQII", body[:48])
    if opcode in (5, 15):
        return "%d bytes %s" % (len(body), repr(body[:64])[1:] + (" .." if len(body) > 64 else ""))
    if opcode == 28:
        return entries(body) or "no entry"
    return body.hex() if body else "done"


def replies_in(report):
    """The reply bytes of a report, by their unique numbers."""
    lines = report.split("\n")
    if not lines or lines[0] != "replies":
        return {}
    count = next((i for i, line in enumerate(lines[1:]) if " " in line), len(lines) - 1)
    data = bytes.fromhex("".join(lines[1:1 + count]))
    replies, at = {}, 0
    while at < len(data):
        length, error, unique = struct.unpack("<IIQ", data[at:at + 16])
        replies[unique] = ((-error) % 2 ** 32, data[at + 16:at + length])
        at += length
    return replies


def replies_of(session, report):
    out = []
    replies = replies_in(report)
    for unique, (line, opcode, _) in enumerate(parse(session)[1], 1):
        if unique in replies:
            told = reply_in_words(opcode, *replies[unique])
        else:
            told = "no reply" if opcode in SILENT else "not answered"
        out.append("%s: %s\n" % (line, told))
    return "".join(out)


def rest_of(report):
    """What a report tells behind its replies."""
    lines = report.split("\n")
    at = 0
    if lines[0] == "replies":
        at = next((i for i, line in enumerate(lines) if " " in line), len(lines) - 1)
    return "\n".join(lines[at:])


def main(words):
    try:
        command, *rest = words
        if command == "input":
            sys.stdout.buffer.write(input_of(open(rest[0]).read()))
        elif command == "replies":
            sys.stdout.write(replies_of(open(rest[0]).read(), open(rest[1]).read()))
        elif command == "run":
            session = open(rest[1]).read()
            share = rest[2:] or ["serve", "target=/mnt", "root=/"]
            ran = subprocess.run([rest[0]] + share, input=input_of(session), stdout=subprocess.PIPE)
            report = ran.stdout.decode()
            sys.stdout.write(replies_of(session, report) + rest_of(report))
            return ran.returncode
        else:
            raise ValueError
    except (ValueError, IndexError):
        sys.stderr.write(__doc__)
        return 2
    return 0


if __name__ == "__main__":
    sys.exit(main(sys.argv[1:]))
