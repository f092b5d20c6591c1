#!/usr/bin/env python3
"""Times READs of 128 KiB at two sizes of 9P messages: run_reads.py PROGRAM. Prints a table."""
import resource
import subprocess
import sys

import inputs

READS = 4000
SIZE = 131072

def reading(unique):
    """READ of the first 128 KiB by handle 3."""
    return inputs.frame(inputs.READ, unique, 0, inputs.read_body(3, 0, SIZE))


def session(reads):
    """INIT, LOOKUP, OPEN and so many READs."""
    frames = [inputs.first_frame(), inputs.frame(inputs.LOOKUP, 2, 1, b"f\0"),
              inputs.frame(inputs.OPEN, 3, 2, inputs.open_body())]
    return b"".join(frames + [reading(4 + i) for i in range(reads)])


def processor_seconds():
    usage = resource.getrusage(resource.RUSAGE_CHILDREN)
    return usage.ru_utime + usage.ru_stime


def run(program, msize, reads, text):
    """The processor's seconds of one run, which must handle all frames."""
    words = [program, "serve", "target=/mnt", "root=/", f"msize={msize}", "turns=8192"]
    before = processor_seconds()
    done = subprocess.run(words, input=text + session(reads), stdout=subprocess.PIPE, check=True)
    took = processor_seconds() - before
    served = b"served flags=6 handled=%d\n" % (3 + reads)
    assert served in done.stdout[-2 * SIZE - 4096:], "not all frames were handled"
    return took


def main():
    program = sys.argv[1]
    text = inputs.header(["file 0644 0 0 %s /f" % ("5a" * SIZE)])
    print("| msize | reads | processor seconds | microseconds a read |")
    print("|---:|---:|---:|---:|")
    for msize in (4352, 65560):
        few = run(program, msize, 0, text)
        many = run(program, msize, READS, text)
        print(f"| {msize} | {READS} | {many:.2f} | {(many - few) / READS * 1e6:.0f} |")


if __name__ == "__main__":
    main()
