#!/usr/bin/env python3
"""Processor time of decoding one frame: old and new build of wirebench, in turns, the least of five runs each.

    bench.py OLD/out/wirebench NEW/out/wirebench
"""
import os, subprocess, sys
COUNT = {"clunk": 3000000, "getattr": 3000000, "walk": 3000000, "write": 50000}
def cpu(program, name):
    c = subprocess.Popen([program], stdin=subprocess.PIPE, stdout=subprocess.DEVNULL)
    c.stdin.write((name + "\n").encode()); c.stdin.close()
    _, status, u = os.wait4(c.pid, 0)
    assert os.waitstatus_to_exitcode(status) == 0
    return u.ru_utime + u.ru_stime
for name, count in COUNT.items():
    best = [min(cpu(p, name) for _ in range(5)) / count * 1e9 for p in sys.argv[1:3]]
    print(f"{name}: {best[0]:.0f} ns, {best[1]:.0f} ns, old/new {best[0]/best[1]:.2f}")
