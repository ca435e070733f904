#!/usr/bin/env python3
"""Checks pages with grammar texts of growing size, of nothing but classes, which are too many, and of one rule of many
terms, whose attribute nothing declares. Prints nanoseconds of processor time per byte of a run that ends with the scan
of tokens, at a last byte that begins none, and of what a whole run takes beyond it (reading the grammar and finding its
fault), peak memory, and the growth of the time from size to size.

usage: bench/grammars.py [PROGRAM]     PROGRAM is the proved one, which ./prove builds, if left out
"""
from pages import Run
from program import program_at

SIZES = [1 << 20, 1 << 23, (1 << 26) - 64]


def classes(size):
    """Nothing but classes."""
    one = "class C : I { }\n"
    return "root R;\n" + one * ((size - 8) // len(one))


def terms(size):
    """One rule of many terms."""
    front, back = "root R; class C : I { self.a := ", "1; }\n"
    return front + "1+" * ((size - len(front) - len(back)) // 2) + back


def least(program, text, end):
    """The run of `check` with the least processor time, on a page with this text and this end, which is refused."""
    page = f"%page 1\n%grammar\n{text}{end}"
    return min((Run([program, "check"], page, (5,)) for _ in range(3)), key=lambda run: run.seconds)


def main():
    program = program_at(1)
    print(f"{'text':8} {'bytes':>9} {'scan ns/byte':>13} {'rest ns/byte':>13} {'peak MiB':>9} {'growth':>7}")
    for name, make in (("classes", classes), ("terms", terms)):
        before = None
        for size in SIZES:
            text = make(size)
            scan = least(program, text, "$\n%schedule auto\n").seconds * 1e9 / len(text)
            whole = least(program, text, "%schedule auto\n")
            both = whole.seconds * 1e9 / len(text)
            growth = f"{both / before:7.2f}" if before else ""
            print(f"{name:8} {len(text):9} {scan:13.2f} {both - scan:13.2f} {whole.peak / 2**20:9.1f} {growth:>7}")
            before = both


if __name__ == "__main__":
    main()
