#!/usr/bin/env python3
"""Runs mount9 on the rows of tests/rows: check_rows.py PROGRAM [ROW ..]

A row is a text: a line `$ WORD ..`, a session as session.py takes it, a line `=> STATUS`, and
what session.py prints of the run. In a row `@N` stands for N bytes in hex, 00 01 .. ff 00 ..
The exit status is 1 where a row differs. It needs Python 3.8 or later, and nothing else.
"""
import difflib
import pathlib
import re
import subprocess
import sys

import session


def pattern(match):
    count = int(match.group(1))
    return bytes(i % 256 for i in range(count)).hex()


def check(program, path):
    """Whether the program does what the row says; how it differs is printed."""
    text = re.sub(r"@([0-9]+)", pattern, path.read_text())
    head, _, rest = text.partition("\n")
    given, _, expected = rest.partition("=> ")
    status, _, want = expected.partition("\n")
    ran = subprocess.run([program] + head.split(" ")[1:], input=session.input_of(given),
                         stdout=subprocess.PIPE)
    report = ran.stdout.decode()
    told = session.replies_of(given, report) + session.rest_of(report)
    if ran.returncode == int(status) and told == want:
        return True
    print("%s: status %d, expected %s" % (path.stem, ran.returncode, status))
    for line in difflib.unified_diff(want.split("\n"), told.split("\n"), "row", "run", "", "", 1, ""):
        print(line[:160])
    return False


def main(words):
    rows = pathlib.Path(__file__).resolve().parent.parent / "tests" / "rows"
    paths = sorted(rows.glob("*.row"))
    if len(words) > 1:
        paths = [path for path in paths if path.stem in words[1:]]
    failed = sum(not check(words[0], path) for path in paths)
    print("%d rows passed, %d failed" % (len(paths) - failed, failed))
    return 1 if failed or not paths else 0


if __name__ == "__main__":
    if len(sys.argv) < 2:
        sys.stderr.write(__doc__)
        sys.exit(2)
    sys.exit(main(sys.argv[1:]))
