#!/usr/bin/env python3
"""Tells how many milliseconds pass while pages of 200,000 pieces of four shipped grammars are solved by 1, 2 and 4
workers, from the first words of the cells to the last, and how many times as fast that is as by one worker. Tells
beside it how many times as long as one run alone four such runs take that are made at once: on free processors it is
hardly more than 1, and where it is more, four workers can't be four times as fast. The least of several runs counts,
which are made in turns.

usage: bench/solve_times.py [RUNS [PROGRAM]]     15 runs, and the proved program, which ./prove builds, if left out
"""
import subprocess
import sys
import tempfile
import time

from parts import GRAMMARS, PARTS
from plain_layout import sample
from program import program_at
from stops import Stopped, addresses, timed_calls

PIECES = 200_000
WORKERS = [1, 2, 4]
AT_ONCE = 4
FUNCTIONS = {"words": r"^ftl_plan::plans::words::first_words", "show": PARTS["show"]}


def solving(program, page, workers, functions):
    """Milliseconds that pass from the first words to the last."""
    words = ["run", "--workers", str(workers)]
    calls = timed_calls(program, words, page, functions, clock=Stopped.passed)
    first = next(ended for name, _, ended in calls if name == "words")
    return next(began for name, began, _ in calls if name == "show") - first


def runs_at_once(program, page, count):
    """Seconds that pass until so many runs by one worker have ended, which begin together."""
    began = time.perf_counter()
    runs = []
    for _ in range(count):
        with open(page) as source:
            runs.append(subprocess.Popen([program, "run"], stdin=source, stdout=subprocess.DEVNULL))
    for run in runs:
        run.wait()
    return time.perf_counter() - began


def main():
    turns = int(sys.argv[1]) if len(sys.argv) > 1 else 15
    program = program_at(2)
    functions = addresses(program, FUNCTIONS)
    heads = [f"{workers} workers" for workers in WORKERS] + [f"ratio of {workers}" for workers in WORKERS[1:]]
    print(f"{'grammar':8} " + " ".join(f"{head:>10}" for head in heads) + f" {f'{AT_ONCE} at once':>10}")
    for grammar in GRAMMARS:
        with tempfile.NamedTemporaryFile("w") as page:
            page.write(sample(grammar, PIECES))
            page.flush()
            times = {workers: [] for workers in WORKERS}
            together = {1: [], AT_ONCE: []}
            for _ in range(turns):
                for workers, told in times.items():
                    told.append(solving(program, page.name, workers, functions))
                for count, told in together.items():
                    told.append(runs_at_once(program, page.name, count))
        least = [min(told) for told in times.values()]
        ratios = [least[0] / time for time in least[1:]]
        beside = min(together[AT_ONCE]) / min(together[1])
        shown = [f"{time:10.1f}" for time in least] + [f"{ratio:10.2f}" for ratio in ratios]
        print(f"{grammar:8} " + " ".join(shown) + f" {beside:10.2f}", flush=True)


if __name__ == "__main__":
    main()
