#!/usr/bin/env python3
"""Compares the steps of stages by several workers with the same steps by one worker, on a page of 200,000 pieces of four
shipped grammars. Prints the milliseconds of processor time of all stages that have several items: alone, by workers that
take turns on one processor, which is what the steps themselves and the items cost, and by workers on all processors,
where they also wait for what others write; and the ratios of these. The time of workers is that of all together, with
the start and end of their threads. What is done beside them is told beside it: opening and closing shared cells and
dealing the items; with lots the items of the first and the last phase too, and the way of the words back from the
lots. So of a stage by lots the time of workers is only what they do of it. A stage of one item is computed on plain
words by either. Of several runs the quickest counts, stage by stage.

usage: bench/cell_steps.py [WORKERS [PROGRAM]]     2 workers, and the proved program, which ./prove builds, if left out
"""
import os
import sys
import tempfile

from parts import GRAMMARS, PARTS
from plain_layout import sample
from program import program_at
from stops import addresses, timed_calls

PIECES = 200_000
RUNS = 7
FUNCTIONS = {
    "words": r"^ftl_plan::plans::words::first_words",
    "alone": r"^ftl_steal::alone::run_alone",
    "workers": r"^std::thread::fork::chunks_from",
    "show": PARTS["show"],
}


def stages_of(program, page, workers, functions, processors=None, more=()):
    """For each stage how it was run and how long, and the time beside them from the first words to the last."""
    calls = timed_calls(program, ["run", "--workers", str(workers), *more], page, functions, processors)
    stages = [(name, ended - began) for name, began, ended in calls if name in ("alone", "workers")]
    first = next(ended for name, _, ended in calls if name == "words")
    last = next(began for name, began, _ in calls if name == "show")
    return stages, last - first - sum(time for _, time in stages)


def quickest(program, page, workers, functions, processors=None, more=()):
    """The same of several runs, with the least times."""
    runs = [stages_of(program, page, workers, functions, processors, more) for _ in range(RUNS)]
    stages = [min(calls, key=lambda one: one[1]) for calls in zip(*(run[0] for run in runs))]
    return stages, min(run[1] for run in runs)


def main():
    workers = int(sys.argv[1]) if len(sys.argv) > 1 else 2
    program = program_at(2)
    functions = addresses(program, FUNCTIONS)
    one = {min(os.sched_getaffinity(0))}
    heads = ["alone", "in turns", "ratio", "at once", "ratio", "beside"]
    print(f"{'grammar':8} " + " ".join(f"{head:>8}" for head in heads) + f"   milliseconds, {workers} workers")
    for grammar in GRAMMARS:
        with tempfile.NamedTemporaryFile("w") as page:
            page.write(sample(grammar, PIECES))
            page.flush()
            alone, _ = quickest(program, page.name, 1, functions)
            turns, beside = quickest(program, page.name, workers, functions, one)
            free, _ = quickest(program, page.name, workers, functions)
        several = [place for place, stage in enumerate(turns) if stage[0] != "alone"]
        spent = [sum(stages[place][1] for place in several) for stages in (alone, turns, free)]
        ratios = spent[1] / spent[0], spent[2] / spent[0]
        print(
            f"{grammar:8} {spent[0]:8.1f} {spent[1]:8.1f} {ratios[0]:8.2f} {spent[2]:8.1f} {ratios[1]:8.2f} "
            f"{beside:8.1f}",
            flush=True,
        )


if __name__ == "__main__":
    main()
