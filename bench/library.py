#!/usr/bin/env python3
"""Times the static library for C on samples of the shipped grammars, beside runs of the program.

usage: bench/library.py [PROGRAM]     wants crates/maugzeris_c/out/libmaugzeris_c.a, which `rt lib` in that folder builds.
                                      PROGRAM is the proved one, which ./prove builds, if left out

For samples of 20,000 and 200,000 pieces of each grammar it prints the processor milliseconds of a whole run of the program,
and of the library's calls that read the document, lay the page out and give the boxes; and then for a thousand changes each
of one input (fewer where one moves most of what stands behind it), all of them at the front, in the middle or at the end of
the page, the mean microseconds of one change laid out anew, how many instances it touches, and how many kids the folds among
these go over; and whether that is within one microsecond for the calls, 0.6 for each touched instance and 0.2 for each of
these kids. Each change is one call that sets the input and one that lays out anew, and gives the input one more than it has.
"""
import os
import subprocess
import sys
import tempfile

from examples import HEAP, LIBRARY, TOP, run
from parts import SIZES
from plain_layout import GRAMMARS, sample, shipped, solved
from program import program_at
from relayout import first_inputs
from timing import processor_seconds

CHANGES = 1000
# Where a change moves most of what stands behind it.
FEWER = {"float": 10, "table": 100, "inline": 100}
RUNS = 3
PLACES = ["front", "middle", "end"]
# What a change may take: so many microseconds for its two calls, for each touched instance, and for each kid of a touched
# fold.
CALLS, A_TOUCHED, A_KID = 1.0, 0.6, 0.2


def compiled(folder):
    path = os.path.join(folder, "library_times")
    source = os.path.join(TOP, "bench/library_times.c")
    run("cc", "-std=c11", "-D_POSIX_C_SOURCE=200809L", "-Wall", "-Wextra", "-Werror", "-O2", source, LIBRARY, HEAP, "-o", path)
    return path


def changes_of(page, count):
    """Changes of one input each: so many from the first input on, as many in the middle, and the last ones."""
    found = [it for it in first_inputs(page) if it[1] in ("iw", "ih")]
    starts = [0, (len(found) - count) // 2, len(found) - count]
    return "".join(f"{node} {name} {value + 1}\n" for at in starts for node, name, value in found[at : at + count])


def fold_kids(page):
    """For each instance, by its number, how many kids its rule goes over: none where it is no fold."""
    grammar, nodes, _ = solved(page)
    found = []
    for node in nodes:
        of = grammar.classes[node.name]
        for name in [*grammar.interfaces[of["of"]]["attributes"], *of["input"], *of["local"]]:
            rule = of["rules"].get(("self", name), ["none"])
            found.append(len(node.children[rule[1]]) if rule[0] == "fold" else 0)
    return found


def timed(library, folder, grammar, page):
    """What the C program tells, the least of some runs, by the word in front of it."""
    texts = {"grammar": shipped(grammar), "document": page[page.index("%document\n") + 10 :]}
    texts["kids"] = "".join(f"{it}\n" for it in fold_kids(page))
    for name, text in texts.items():
        with open(os.path.join(folder, name), "w", encoding="utf-8") as file:
            file.write(text)
    found, changes = {}, changes_of(page, FEWER.get(grammar, CHANGES))
    for _ in range(RUNS):
        words = run(library, *(os.path.join(folder, name) for name in texts), input=changes).split()
        for name, number in zip(words[::2], words[1::2]):
            found[name] = min(found.get(name, float(number)), float(number))
    return found


def main():
    if not os.path.exists(LIBRARY):
        sys.exit(f"{LIBRARY} is not built: run rt lib in crates/maugzeris_c first")
    program = program_at(1)
    heads = [f"{'program':>9}", f"{'read':>9}", f"{'lay out':>9}", f"{'boxes':>9}"]
    heads += [f"{place:>9} {'touched':>8} {'kids':>8}" for place in PLACES]
    print(f"{'page':14} " + " ".join(heads))
    late = 0
    with tempfile.TemporaryDirectory() as folder:
        library = compiled(folder)
        for grammar in GRAMMARS:
            for size in SIZES:
                page = sample(grammar, size)
                whole = processor_seconds([program, "run", "--workers", "1"], page, (0, 8), RUNS) * 1000
                found = timed(library, folder, grammar, page)
                cells = [f"{it:9.1f}" for it in (whole, *(found[name] for name in ("read", "laid_out", "boxes")))]
                for place in PLACES:
                    touched, kids = found[f"{place}_touched"], found[f"{place}_kids"]
                    is_late = found[place] > CALLS + A_TOUCHED * touched + A_KID * kids
                    late += is_late
                    cells.append(f"{found[place]:8.2f}{'!' if is_late else ' '} {touched:8.1f} {kids:8.1f}")
                print(f"{grammar + ' ' + str(size):14} " + " ".join(cells), flush=True)
    print(f"later than allowed: {late}")


if __name__ == "__main__":
    main()
