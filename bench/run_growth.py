#!/usr/bin/env python3
"""Times the built program on growing trees and growing runs, and prints a table.

usage: run_growth.py PROGRAM [--files N ..] [--requests N ..] [--repeat N]

PROGRAM is what `rt run` leaves in crates/mount9/out/mount9. Each input is a header of so many files of 100
bytes, an INIT, and so many requests: a LOOKUP of a name, then a GETATTR of the node that it gave, in turn over
1,000 names that lie evenly in the directory. So half of the requests look a name up, and from the second
round on the node is known. The time is the processor's, the least of the repeats; the peak is the greatest
resident size.
"""
import argparse
import os
import subprocess
import sys
import tempfile

import inputs

NAMES = 1000
SIZE = 100


def header(files):
    content = bytes(range(SIZE)).hex()
    return inputs.header(f"file 0644 1000 1000 {content} /f{i:05}" for i in range(files))


def requests(files, count):
    """The frames, and how many 9P messages they take: 2 for a new node, 3 for a known one, 1 for attributes."""
    names = min(NAMES, files)
    frames = [inputs.first_frame()]
    messages = 1
    for i in range(count):
        turn = i // 2
        which = turn % names
        if i % 2 == 0:
            name = f"f{which * files // names:05}".encode()
            frames.append(inputs.frame(inputs.LOOKUP, i + 2, 1, name + b"\0"))
            messages += 2 if turn < names else 3
        else:
            frames.append(inputs.frame(inputs.GETATTR, i + 2, which + 2, bytes(16)))
            messages += 1
    return b"".join(frames), messages


def measure(program, path):
    """Seconds of the processor, peak KiB, status and the output's last line, of one run."""
    with open(path, "rb") as source, tempfile.TemporaryFile() as sink:
        child = subprocess.Popen([program, "serve", "target=/mnt", "root=/"], stdin=source, stdout=sink)
        _, status, usage = os.wait4(child.pid, 0)
        seconds = usage.ru_utime + usage.ru_stime
        child.returncode = os.waitstatus_to_exitcode(status)
        sink.seek(0)
        last = sink.read().rstrip(b"\n").rsplit(b"\n", 1)[-1].decode()
    return seconds, usage.ru_maxrss, child.returncode, last


def row(program, files, count, repeat):
    frames, messages = requests(files, count)
    text = header(files) + frames
    with tempfile.NamedTemporaryFile() as file:
        file.write(text)
        file.flush()
        runs = [measure(program, file.name) for _ in range(repeat)]
    for _, _, status, last in runs:
        if status != 0 or last != f"nine {messages}":
            sys.exit(f"{files} files, {count} requests: status {status}, {last!r}; expected 0, 'nine {messages}'")
    return len(text), min(run[0] for run in runs), max(run[1] for run in runs)


def main():
    parser = argparse.ArgumentParser(description=__doc__, formatter_class=argparse.RawDescriptionHelpFormatter)
    parser.add_argument("program")
    parser.add_argument("--files", type=int, nargs="+", default=[1000, 8000])
    parser.add_argument("--requests", type=int, nargs="+", default=[0, 1000, 2000, 4000])
    parser.add_argument("--repeat", type=int, default=5)
    options = parser.parse_args()
    program = os.path.abspath(options.program)
    print("| files | requests | input KiB | processor seconds | peak MiB | microseconds a request |")
    print("|---:|---:|---:|---:|---:|---:|")
    for files in options.files:
        base = None
        for count in options.requests:
            size, seconds, peak = row(program, files, count, options.repeat)
            if count == 0:
                base = seconds
            each = f"{(seconds - base) / count * 1e6:.0f}" if count and base is not None else ""
            print(f"| {files} | {count} | {size // 1024} | {seconds:.3f} | {peak / 1024:.1f} | {each} |", flush=True)


if __name__ == "__main__":
    main()
