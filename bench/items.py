#!/usr/bin/env python3
"""Runs a stage of a million items, each of one step that reads nothing: the nodes of a page at grain 1. Prints
milliseconds of processor time alone, where all nodes are one item, and by 2 and 4 workers on ranges of the cells, that
take turns on one processor, and that run on all; and the nanoseconds that an item takes beside its step. Beside that
stands finding the phases of the items. Of several runs the quickest counts.

usage: bench/items.py [PROGRAM]     PROGRAM is the proved one, which ./prove builds, if left out
"""
import os
import tempfile

from cell_steps import FUNCTIONS, quickest
from program import program_at
from stops import addresses

ITEMS = 1_000_000
GRAMMAR = """%page 1
%grammar
root Page; interface Page { syn h; show h; } interface Dot { syn x; show x; }
class All : Page { dots : [Dot]; self.h := last dots.x or 0; }
class One : Dot { self.x := 1; }
%schedule auto
%document
"""


def main():
    program = program_at(1)
    functions = addresses(program, FUNCTIONS)
    with tempfile.NamedTemporaryFile("w") as page:
        page.write(GRAMMAR + "All { dots = [ " + "One {} " * (ITEMS - 1) + "] }\n")
        page.flush()
        words = ["--grain", "1"]
        alone = sum(time for _, time in quickest(program, page.name, 1, functions, more=words)[0])
        print(f"{'workers':>12} {'ms':>8} {'ns beside a step':>17} {'phases':>18}")
        print(f"{'alone':>12} {alone:8.1f}")
        for workers in (2, 4):
            for told, processors in (("in turns", {min(os.sched_getaffinity(0))}), ("at once", None)):
                stages, beside = quickest(program, page.name, workers, functions, processors, words)
                spent = sum(time for _, time in stages)
                print(f"{workers:3} {told:>8} {spent:8.1f} {(spent - alone) * 1e6 / ITEMS:17.0f} {beside:18.1f}", flush=True)


if __name__ == "__main__":
    main()
