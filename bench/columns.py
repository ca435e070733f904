#!/usr/bin/env python3
"""Lays out columns of words, flat and nested, of growing size, and prints nodes per second, peak memory
and the growth from size to size.

usage: bench/columns.py [PROGRAM]     PROGRAM is the proved one, which ./prove builds, if left out
"""
import subprocess
import sys
import tempfile
import time

import large_pages  # noqa: F401, for what it sets
from program import program_at

HEADING = "%page 1\n%grammar stack\n%schedule auto\n%document\n"
SIZES = [10_000, 100_000, 1_000_000]


def word(i):
    return f"Word {{ iw = {10 + i % 40} ih = {8 + i % 9} }}"


def flat(words):
    """One column of so many words."""
    body = "\n".join(word(i) for i in range(words))
    return f"{HEADING}Sheet {{ body = Column {{ kids = [\n{body}\n] }} }}\n"


def nested(nodes):
    """A column of columns of eight words each, with so many nodes below it."""
    group = "Column {{ kids = [ {} ] }}"
    body = "\n".join(group.format(" ".join(word(8 * j + i) for i in range(8))) for j in range(nodes // 9))
    return f"{HEADING}Sheet {{ body = Column {{ kids = [\n{body}\n] }} }}\n"


# Runs the program from a small process: a child's peak memory counts that of the process that it was forked from.
MEASURE = """
import os, subprocess, sys, time
start = time.monotonic()
child = subprocess.Popen([sys.argv[1], "run"])
_, status, usage = os.wait4(child.pid, 0)
print(os.waitstatus_to_exitcode(status), time.monotonic() - start, usage.ru_maxrss * 1024, file=sys.stderr)
"""


def run(program, page):
    """Seconds and peak memory in bytes of one run, and the lines that it wrote."""
    with tempfile.TemporaryFile() as source, tempfile.TemporaryFile() as sink:
        source.write(page)
        source.seek(0)
        command = [sys.executable, "-c", MEASURE, program]
        told = subprocess.run(command, stdin=source, stdout=sink, stderr=subprocess.PIPE, check=True).stderr
        status, seconds, peak = told.split()
        if int(status) != 0:
            sys.exit(f"the program ended with {int(status)}")
        sink.seek(0)
        lines = sum(block.count(b"\n") for block in iter(lambda: sink.read(1 << 20), b""))
    return float(seconds), int(peak), lines


def main():
    program = program_at(1)
    print(f"{'document':8} {'nodes':>9} {'seconds':>9} {'nodes/s':>12} {'peak MiB':>9} {'bytes/byte':>10} {'growth':>7}")
    for name, make in (("flat", flat), ("nested", nested)):
        before = None
        for size in SIZES:
            page = make(size).encode()
            seconds, peak, nodes = min(run(program, page) for _ in range(3))
            growth = "" if before is None else f"{seconds / before[0] / (nodes / before[1]):7.2f}"
            print(f"{name:8} {nodes:9} {seconds:9.3f} {nodes / seconds:12.0f} {peak / 2**20:9.1f} {peak / len(page):10.2f} {growth:>7}")
            before = (seconds, nodes)


if __name__ == "__main__":
    main()
