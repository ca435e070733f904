#!/usr/bin/env python3
"""Tells the processor time of the parts of a run by one worker, on pages of 20,000 and 200,000 pieces of four shipped
grammars: reading the document (its tokens and its tree), making the plan, solving, the stages of solving alone, without
the memory that the words of all cells take, and showing the boxes. Prints milliseconds up to the end of the last part
and of each part, the ratios of solving to reading and of the plan to solving, and the growth of the stages from the
smaller page to the larger. Of several runs the least time of each part counts. bench/parts.py counts the instructions
of the same parts, which no other work on the machine moves.

usage: bench/part_times.py [PROGRAM]     PROGRAM is the proved one, which ./prove builds, if left out
"""
import collections
import tempfile

from parts import GRAMMARS, PARTS, SIZES
from plain_layout import sample
from program import program_at
from stops import addresses, timed_calls

RUNS = 9
TIMED = {**PARTS, "stages": r"^ftl_steal::alone::run_alone"}
SHOWN = ["whole", "read", "plan", "solve", "stages", "show"]


def times_of(program, page, functions):
    """Milliseconds of each part, and of all up to the end of the last."""
    calls = timed_calls(program, ["run"], page, functions)
    times = collections.Counter(whole=calls[-1][2])
    for part, began, ended in calls:
        times[part] += ended - began
    return times


def main():
    program = program_at(1)
    functions = addresses(program, TIMED)
    heads = " ".join(f"{it:>8}" for it in SHOWN)
    print(f"{'grammar':8} {'pieces':>7} {heads} {'solve/read':>10} {'plan/solve':>10} {'growth':>7}")
    for grammar in GRAMMARS:
        before = 0
        for size in SIZES:
            with tempfile.NamedTemporaryFile("w") as page:
                page.write(sample(grammar, size))
                page.flush()
                runs = [times_of(program, page.name, functions) for _ in range(RUNS)]
            times = {part: min(run[part] for run in runs) for part in SHOWN}
            shown = " ".join(f"{times[part]:8.2f}" for part in SHOWN)
            growth = f"x{times['stages'] / before:.1f}" if before else ""
            before = times["stages"]
            ratios = f"{times['solve'] / times['read']:10.2f} {times['plan'] / times['solve']:10.2f}"
            print(f"{grammar:8} {size:7} {shown} {ratios} {growth:>7}", flush=True)


if __name__ == "__main__":
    main()
