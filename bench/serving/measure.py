#!/usr/bin/env python3
"""Nanoseconds a message of a server: the least processor time of five runs, less that of making the tree.

    measure.py OUT/servebench
"""
import os, subprocess, sys

COUNT = {"getattr": 1000000, "walk": 1000000, "read": 20000, "write": 20000, "readdir": 2000}


def cpu(name, count):
    c = subprocess.Popen([sys.argv[1]], stdin=subprocess.PIPE, stdout=subprocess.PIPE)
    c.stdin.write((name + "\n").encode())
    c.stdin.close()
    told = c.stdout.read().decode()
    _, status, u = os.wait4(c.pid, 0)
    assert os.waitstatus_to_exitcode(status) == 0
    assert told == f"{name} {count}\n", told
    return u.ru_utime + u.ru_stime


made = min(cpu("none", 0) for _ in range(5))
for name, count in COUNT.items():
    best = min(cpu(name, count) for _ in range(5)) - made
    print(f"{name}: {best / count * 1e9:.0f} ns")
