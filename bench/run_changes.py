#!/usr/bin/env python3
"""Times requests that change the tree: run_changes.py PROGRAM [OTHER]. Prints a table.

WRITE of 64 KiB to the beginning of a file, at two sizes of 9P messages; CREATE of 2,000 names and then UNLINK of each;
RENAME of one of 2,000 names to and fro. OTHER is a program with the same words, timed beside it in the same run. The
time is the processor's, the least of the repeats, less that of a run without those requests.
"""
import resource
import struct
import subprocess
import sys

import inputs

REPEAT = 5
WRITES, WRITTEN = 2000, 65536
NAMES = 2000
RENAMES = 4000
CREATE, UNLINK, RENAME, RELEASE, WRITE, FORGET = 35, 10, 12, 18, 16, 2


def writes(count):
    """INIT, LOOKUP and OPEN of the file `f`, and so many WRITEs of 64 KiB."""
    data = bytes(i % 256 for i in range(WRITTEN))
    body = struct.pack("<QQIIQII", 3, 0, WRITTEN, 0, 0, 0, 0) + data
    frames = [inputs.first_frame(), inputs.frame(inputs.LOOKUP, 2, 1, b"f\0"),
              inputs.frame(inputs.OPEN, 3, 2, inputs.open_body(1))]
    return frames + [inputs.frame(WRITE, 4 + i, 0, body) for i in range(count)]


def creations(count):
    """INIT, so many times a CREATE and the RELEASE and FORGET of what it gave, and as many UNLINKs."""
    frames = [inputs.first_frame()]
    for i in range(count):
        name = b"n%05d\0" % i
        frames.append(inputs.frame(CREATE, 4 * i + 2, 1, struct.pack("<IIII", 2, 0o644, 0, 0) + name))
        frames.append(inputs.frame(RELEASE, 4 * i + 3, 0, struct.pack("<Q", 3 + 2 * i) + bytes(16)))
        frames.append(inputs.frame(FORGET, 4 * i + 4, 2 + 2 * i, struct.pack("<Q", 1)))
    frames += [inputs.frame(UNLINK, 4 * count + i + 2, 1, b"n%05d\0" % i) for i in range(count)]
    return frames


def renames(count):
    """INIT, and so many RENAMEs of one name to another and back."""
    names = (b"n01000\0m\0", b"m\0n01000\0")
    return [inputs.first_frame()] + [
        inputs.frame(RENAME, i + 2, 1, struct.pack("<Q", 1) + names[i % 2]) for i in range(count)]


def processor_seconds():
    usage = resource.getrusage(resource.RUSAGE_CHILDREN)
    return usage.ru_utime + usage.ru_stime


def seconds(program, msize, header, frames):
    """The least processor time of a run, which must handle all frames."""
    words = [program, "serve", "target=/mnt", "root=/", f"msize={msize}", "turns=8192"]
    text, best = header + b"".join(frames), None
    for _ in range(REPEAT):
        before = processor_seconds()
        done = subprocess.run(words, input=text, stdout=subprocess.PIPE, check=True)
        took = processor_seconds() - before
        assert b"served flags=6 handled=%d\n" % len(frames) in done.stdout, "not all frames were handled"
        best = took if best is None else min(best, took)
    return best


def rows():
    file = inputs.header(["file 0644 0 0 - /f"])
    names = inputs.header("file 0644 0 0 - /n%05d" % i for i in range(NAMES))
    yield "WRITE of 64 KiB, msize 4352", 4352, file, writes, WRITES
    yield "WRITE of 64 KiB, msize 65560", 65560, file, writes, WRITES
    yield "CREATE and UNLINK of 2,000 names, each", 65560, inputs.header([]), creations, NAMES
    yield "RENAME among 2,000 names", 65560, names, renames, RENAMES


def main():
    programs = sys.argv[1:]
    print("| requests | " + " | ".join("microseconds" for _ in programs) + " |")
    print("|---|" + "---:|" * len(programs))
    for name, msize, header, make, count in rows():
        times = []
        for program in programs:
            few, many = (seconds(program, msize, header, make(n)) for n in (0, count))
            times.append("%.1f" % ((many - few) / count * 1e6))
        print("| %s | %s |" % (name, " | ".join(times)))


if __name__ == "__main__":
    main()
