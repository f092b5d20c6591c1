#!/usr/bin/env python3
"""Times READDIR in mount9 on directories of 1,000 and of 10,000 entries: run_listings.py PROGRAM

The directory is listed to its end 20 times, by READDIRs of 131072 bytes, with 9P messages of at most 4352 and of at
most 65560 bytes. Printed is the processor's time for one entry, beyond that of a run without READDIRs: the least of
three runs each. It needs Python 3.8 or later, and nothing else.
"""
import os
import subprocess
import sys

import inputs

TIMES = 20
MOST = 131072


def input_of(entries, times):
    """A header of so many files, and the frames that list them so often."""
    header = inputs.header("file 0644 0 0 - /f%06d" % n for n in range(entries))
    frames = [inputs.first_frame(), inputs.frame(inputs.OPENDIR, 2, 1, inputs.open_body())]
    in_one = MOST // 32
    for _ in range(times):
        for at in range(0, entries + 1, in_one):
            body = inputs.read_body(2, at, MOST)
            frames.append(inputs.frame(inputs.READDIR, len(frames) + 1, 0, body))
    return header + b"".join(frames)


def seconds(program, msize, text):
    """The least processor time of three runs."""
    best = None
    for _ in range(3):
        words = [program, "serve", "target=/mnt", "root=/", "msize=%d" % msize]
        child = subprocess.Popen(words, stdin=subprocess.PIPE, stdout=subprocess.DEVNULL)
        child.stdin.write(text)
        child.stdin.close()
        _, status, used = os.wait4(child.pid, 0)
        if status != 0:
            sys.exit("the program ended with %d" % os.waitstatus_to_exitcode(status))
        time = used.ru_utime + used.ru_stime
        best = time if best is None else min(best, time)
    return best


def main(program):
    print("| entries | msize | nanoseconds an entry |\n|---:|---:|---:|")
    for entries in (1000, 10000):
        for msize in (4352, 65560):
            alone = seconds(program, msize, input_of(entries, 0))
            listed = seconds(program, msize, input_of(entries, TIMES))
            each = (listed - alone) / (entries * TIMES) * 1e9
            print("| %d | %d | %.0f |" % (entries, msize, each))


if __name__ == "__main__":
    if len(sys.argv) != 2:
        sys.stderr.write(__doc__)
        sys.exit(2)
    main(sys.argv[1])
