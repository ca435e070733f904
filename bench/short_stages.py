#!/usr/bin/env python3
"""Tells how long pages take that have many short stages: 400 stages, each of which visits every node of a tree of so
many nodes once, by 1, 2, 4, 8 and 64 workers. A stage that several workers solve begins and ends with threads, so what
is told is how long a stage takes, and how many times as long as by one worker. The least of several runs counts, which
are made in turns; a page with as many nodes and two stages, by one worker, is taken off for reading and printing.

usage: bench/short_stages.py [RUNS [PROGRAM]]     7 runs, and the proved program, which ./prove builds, if left out
"""
import subprocess
import sys
import tempfile
import time

import large_pages  # noqa: F401, for what it sets
from program import program_at

STAGES = 400
ATTRIBUTES = 50
NODES = [1_000, 10_000]
WORKERS = [1, 2, 4, 8, 64]


def interface(letter, names):
    """An interface whose attributes follow from each other, and its one class."""
    rules = [f"self.{names[0]} := self.start;"]
    rules += [f"self.{name} := self.{before} + 1;" for before, name in zip(names, names[1:])]
    return [
        f"interface I{letter} {{ syn {', '.join(names)}; show {names[-1]}; }}",
        f"class {letter} : I{letter} {{ input start; {' '.join(rules)} }}",
    ]


def page_of(stages, nodes):
    """A page of so many stages, each of which goes over all nodes and computes one attribute of those of one class."""
    each = min(stages, ATTRIBUTES)
    letters = [f"C{number}" for number in range(stages // each)]
    lists = {letter: [f"{letter.lower()}_{number}" for number in range(each)] for letter in letters}
    lines = ["%page 1", "%grammar", "root Root;", "interface Root { }", "class Top : Root { kids : [Group]; }"]
    children = " ".join(f"{letter.lower()} : I{letter};" for letter in letters)
    lines += ["interface Group { }", f"class Each : Group {{ {children} }}"]
    lines += [line for letter, names in lists.items() for line in interface(letter, names)]
    passes = [f"bottomup {{ I{letter}.{name} }}" for letter, names in lists.items() for name in names]
    fields = " ".join(f"{letter.lower()} = {letter} {{ start = 1 }}" for letter in letters)
    groups = f"Each {{ {fields} }} " * (nodes // (len(letters) + 1))
    return "\n".join(lines + ["%schedule", " ; ".join(passes), "%document", f"Top {{ kids = [ {groups}] }}", ""])


def milliseconds(program, page, workers):
    """How long a run takes."""
    began = time.perf_counter()
    with open(page) as source:
        words = [program, "run", "--workers", str(workers)]
        subprocess.run(words, stdin=source, stdout=subprocess.DEVNULL, check=True)
    return 1000 * (time.perf_counter() - began)


def least_times(program, page, turns):
    """The least time of a page by so many workers each."""
    times = {workers: [] for workers in WORKERS}
    for _ in range(turns):
        for workers, told in times.items():
            told.append(milliseconds(program, page, workers))
    return {workers: min(told) for workers, told in times.items()}


def main():
    turns = int(sys.argv[1]) if len(sys.argv) > 1 else 7
    program = program_at(2)
    print(f"{'nodes':>7} {'workers':>7} {'ms a stage':>10} {'times alone':>11}")
    for nodes in NODES:
        told = []
        for stages in (STAGES, 2):
            with tempfile.NamedTemporaryFile("w") as page:
                page.write(page_of(stages, nodes))
                page.flush()
                told.append(least_times(program, page.name, turns))
        many, one = told
        each = {workers: (many[workers] - one[1]) / (STAGES - 2) for workers in WORKERS}
        for workers, cost in each.items():
            print(f"{nodes:7} {workers:7} {cost:10.3f} {cost / each[1]:11.2f}", flush=True)


if __name__ == "__main__":
    main()
