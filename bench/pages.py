#!/usr/bin/env python3
"""Lays out samples of 20,000 and 200,000 pieces of the six shipped grammars. Prints for each the milliseconds of
processor time of the whole run, of `check` on the same page (reading and checking the grammar and finding the
schedule), of reading the document, and of the rest (making the plan, solving and printing the boxes), the peak memory
in MB, and the growth of the time from the smaller sample to the larger. Then prints for the larger samples the
milliseconds that pass by 1, 2 and 4 workers, and their milliseconds of processor time.

The time of reading a document is that of a run on the same page without its last input, which is refused as soon as
all of it was read, less that of `check`.

usage: bench/pages.py [PROGRAM]     PROGRAM is the proved one, which ./prove builds, if left out
"""
import subprocess
import sys

import large_pages  # noqa: F401, for what it sets
from plain_layout import GRAMMARS, sample
from program import program_at

SIZES = [20_000, 200_000]
WORKERS = [1, 2, 4]
RUNS = 5

# Runs the program from a small process: a child's peak memory counts that of the process that it was forked from.
MEASURE = """
import os, subprocess, sys, time
begin = time.perf_counter()
child = subprocess.Popen(sys.argv[1:], stdin=subprocess.PIPE, stdout=subprocess.PIPE)
child.stdin.write(sys.stdin.buffer.read())
child.stdin.close()
size = len(child.stdout.read())
_, status, usage = os.wait4(child.pid, 0)
passed = time.perf_counter() - begin
print(os.waitstatus_to_exitcode(status), usage.ru_utime + usage.ru_stime, passed, usage.ru_maxrss * 1024, size)
"""


class Run:
    """Seconds of processor time, seconds that passed, peak memory and bytes written of one run."""

    def __init__(self, words, page, statuses):
        command = [sys.executable, "-c", MEASURE, *words]
        told = subprocess.run(command, input=page.encode(), stdout=subprocess.PIPE, check=True).stdout.split()
        if int(told[0]) not in statuses:
            sys.exit(f"{' '.join(words)} ended with status {told[0]}")
        self.seconds, self.passed, self.peak = float(told[1]), float(told[2]), int(told[3])


def least(of, words, page="", statuses=(0, 8)):
    return min((Run(words, page, statuses) for _ in range(RUNS)), key=of)


def by_processor(run):
    return run.seconds


def without_last_input(page):
    """The page without the last input of its document."""
    begin = page.rindex(" ih = ")
    return page[:begin] + page[page.index(" }", begin) :]


def parts(program, grammar):
    before = None
    for size in SIZES:
        page = sample(grammar, size)
        whole = least(by_processor, [program, "run"], page)
        check = least(by_processor, [program, "check"], page).seconds
        read = least(by_processor, [program, "run"], without_last_input(page), (7,)).seconds - check
        rest = whole.seconds - check - read
        growth = f"x{whole.seconds / before:.1f}" if before else ""
        before = whole.seconds
        times = " ".join(f"{it * 1e3:8.1f}" for it in (whole.seconds, check, read, rest))
        print(f"{grammar:8} {size:7} {times} {whole.peak / 1e6:8.1f} {growth:>7}", flush=True)


def by_workers(program, grammar):
    """Milliseconds that pass and of processor time, the least of runs that take turns."""
    runs = {workers: [] for workers in WORKERS}
    for _ in range(RUNS):
        for workers, done in runs.items():
            words = [program, "sample", str(SIZES[-1]), "--grammar", grammar, "--workers", str(workers)]
            done.append(Run(words, "", (0, 8)))
    passed = [min(run.passed for run in done) for done in runs.values()]
    seconds = [min(run.seconds for run in done) for done in runs.values()]
    times = " ".join(f"{it * 1e3:8.1f}" for it in passed + seconds)
    print(f"{grammar:8} {SIZES[-1]:7} {times}", flush=True)


def main():
    program = program_at(1)
    print(f"{'grammar':8} {'pieces':>7} {'whole':>8} {'check':>8} {'read':>8} {'rest':>8} {'peak MB':>8} {'growth':>7}")
    for grammar in GRAMMARS:
        parts(program, grammar)
    heads = [f"{it} {kind}" for kind in ("passed", "cpu") for it in WORKERS]
    print(f"\n{'grammar':8} {'pieces':>7} " + " ".join(f"{it:>8}" for it in heads))
    for grammar in GRAMMARS:
        by_workers(program, grammar)


if __name__ == "__main__":
    main()
