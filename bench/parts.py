#!/usr/bin/env python3
"""Counts instructions of the parts of a run by one worker, under valgrind's callgrind, on pages of 20,000 pieces of the
six shipped grammars: splitting the page, reading the document's tree, making the plan, its first words, solving, and
showing the boxes. Prints millions of instructions, and beside them those of another program where one is named. With the
word growth it counts pages of 200,000 pieces too, and prints the ratios of solving to reading and of the plan to solving
and the growth of solving. Instructions are the same from run to run, whatever else the machine does.

usage: bench/parts.py [PROGRAM [BEFORE]]     PROGRAM is the proved one, which ./prove builds, if left out
       bench/parts.py growth [PROGRAM]
"""
import os
import re
import subprocess
import sys
import tempfile

from plain_layout import sample
from program import program_at

GRAMMARS = ["flow", "table", "stack", "float", "block", "inline"]
SIZES = [20_000, 200_000]
PARTS = {
    "page": r"ftl_page::sections::split::split_page$",
    "read": r"ftl_answer::reading::sections::growing::tree_of$",
    "plan": r"ftl_plan::plans::plan::Plan::new$",
    "words": r"ftl_plan::plans::words::first_words$",
    "solve": r"ftl_plan::plans::alone::solve_alone$",
    "show": r"ftl_run::calls::shown::table_shown$",
}


def counted(program, page):
    """Instructions of the whole run, and of each part with all that it calls."""
    with tempfile.TemporaryDirectory() as folder:
        told = os.path.join(folder, "told")
        words = ["valgrind", "--tool=callgrind", f"--callgrind-out-file={told}", program, "run"]
        ran = subprocess.run(words, input=page.encode(), stdout=subprocess.DEVNULL, stderr=subprocess.DEVNULL)
        if ran.returncode not in (0, 8):
            sys.exit(f"{' '.join(words)} ended with status {ran.returncode}")
        words = ["callgrind_annotate", "--inclusive=yes", "--threshold=100", told]
        listed = subprocess.run(words, stdout=subprocess.PIPE, stderr=subprocess.DEVNULL, text=True).stdout
    counts = dict.fromkeys(["whole", *PARTS], 0)
    for line in listed.splitlines():
        found = re.match(r" *([\d,]+) \([ \d.]+%\)  (?:.*?:)?(\S+)(?: \[.*)?$", line)
        if "PROGRAM TOTALS" in line:
            counts["whole"] = int(line.split()[0].replace(",", ""))
        elif found:
            for part, name in PARTS.items():
                if re.search(name, found[2]):
                    counts[part] = max(counts[part], int(found[1].replace(",", "")))
    return counts


def shown(counts):
    """Millions of instructions; nothing where a part is no function of its own in the program."""
    return " ".join(f"{count / 1e6:8.1f}" if count else " " * 8 for count in counts.values())


def tell_growth(program):
    heads = " ".join(f"{it:>8}" for it in ["whole", *PARTS])
    print(f"{'grammar':8} {'pieces':>7} {heads} {'solve/read':>10} {'plan/solve':>10} {'growth':>7}")
    for grammar in GRAMMARS:
        before = 0
        for size in SIZES:
            counts = counted(program, sample(grammar, size))
            if not counts["read"] or not counts["solve"]:
                sys.exit("no count of reading or of solving")
            growth = f"x{counts['solve'] / before:.1f}" if before else ""
            before = counts["solve"]
            ratios = f"{counts['solve'] / counts['read']:10.2f} {counts['plan'] / counts['solve']:10.2f}"
            print(f"{grammar:8} {size:7} {shown(counts)} {ratios} {growth:>7}", flush=True)


def tell_parts(programs):
    heads = " ".join(f"{it:>8}" for it in ["whole", *PARTS])
    print(f"{'grammar':8} {'':6} {heads}")
    for grammar in GRAMMARS:
        page = sample(grammar, SIZES[0])
        for program, name in zip(programs, ["", "before"]):
            print(f"{grammar:8} {name:6} {shown(counted(program, page))}", flush=True)


def main():
    if sys.argv[1:2] == ["growth"]:
        return tell_growth(program_at(2))
    return tell_parts([program_at(1), *sys.argv[2:3]])


if __name__ == "__main__":
    main()
