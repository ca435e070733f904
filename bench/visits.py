#!/usr/bin/env python3
"""Compiles rules of growing size: of grammars of more and more rules that each have 256 reads and 64 brackets in one
another, and of one rule that is a sum of more and more numbers. Prints the milliseconds of processor time that `run`
takes for a document of one node beyond `check` (compiling the rules, and running each once), nanoseconds for each read
or number, and the growth of these from size to size.

usage: bench/visits.py [PROGRAM]     PROGRAM is the proved one, which ./prove builds, if left out
"""
from program import program_at
from timing import processor_seconds

RUNS = 5


def wide(rules):
    """Rules of 256 reads, of which the last stands in 64 brackets."""
    names = [f"a{k}" for k in range(64)]
    body = "self.i+" * 255 + "(" * 64 + "self.i" + ")" * 64
    text = [f"root R; interface R {{ input i; syn {','.join(names[:63])}; }}"]
    for n in range(rules // 63):
        text.append(f"class C{n} : R {{ " + "\n".join(f"self.{name} := {body};" for name in names[:63]) + "}")
    return "\n".join(text)


def sums(numbers):
    """One rule that is a sum of numbers."""
    return f"root R; interface R {{ syn a; }} class C : R {{ self.a := {'+'.join(['1'] * numbers)}; }}"


def run_seconds(program, page):
    """The seconds that `run` takes beyond `check`."""
    check = processor_seconds([program, "check"], page, (0,), RUNS)
    return processor_seconds([program, "run"], page, (0, 8), RUNS) - check


def main():
    program = program_at(1)
    print(f"{'rules':24} {'size':>10} {'ms':>9} {'ns':>8} {'growth':>7}")
    grammars = [("256 reads, 64 brackets", wide, "C0 { i = 1 }", (63, 630, 6300), 256),
                ("a sum of numbers", sums, "C { }", (10_000, 100_000, 1_000_000, 10_000_000), 1)]
    for name, make, document, sizes, reads in grammars:
        before = None
        for size in sizes:
            page = f"%page 1\n%grammar\n{make(size)}\n%schedule auto\n%document\n{document}\n"
            time = run_seconds(program, page)
            each = time / (size * reads)
            growth = f"{each / before:7.2f}" if before else ""
            print(f"{name:24} {size:10} {time * 1e3:9.2f} {each * 1e9:8.2f} {growth:>7}")
            before = each


if __name__ == "__main__":
    main()
