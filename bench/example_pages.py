#!/usr/bin/env python3
"""Runs the pages of `pages/` and holds what is printed against the lines that stand in each page as comments, and the
status against what these lines say. A page with a comment `# command WORD` is given to this command, every other one to
`run`. Then the same of four pages that are too long to stand there.

usage: bench/example_pages.py [PROGRAM]     PROGRAM is the proved one, which ./prove builds, if left out
"""
import glob
import os
import re
import subprocess
import sys

from program import program_at

TOP = os.path.dirname(os.path.dirname(os.path.abspath(__file__)))


STATUSES = {"refused page": 4, "refused grammar": 5, "refused schedule": 6, "refused document": 7,
            "refused edits": 10}


def status_of(told):
    for begin, status in STATUSES.items():
        if told.startswith(begin):
            return status
    return 8 if "=overflow" in told else 0


def example_pages():
    """The pages of the folder, each with its name, the command, and the lines that it is to print."""
    for page in sorted(glob.glob(f"{TOP}/pages/**/*.page", recursive=True)):
        with open(page, "rb") as it:
            text = it.read()
        words = text.decode(errors="replace")
        command = re.search(r"^# command (\w+)$", words, re.M)
        wanted = "".join(re.findall(r"^# ((?:\d+ |refused |touched=|reader |writer |[A-Z]\w* \{ ).*\n)", words, re.M))
        yield os.path.relpath(page, TOP), command.group(1) if command else "run", text, wanted


def page_of(grammar, kids, kid):
    return f"%page 1\n%grammar\n{grammar}\n%schedule auto\n%document\nC {{ kids = [\n{kid * kids}] }}\n".encode()


def long_pages():
    """A page longer than 64 MiB, and documents one past the limits on nodes, instances and reads of a stage."""
    yield "too long", "run", b"%page 1\n" + b"#" * ((1 << 26) - 7), "refused page: too long\n"
    bare = "root R; interface R { } interface K { } class C : R { kids : [K]; } class L : K { }"
    yield "too many nodes", "run", page_of(bare, 1 << 20, "L{}\n"), f"refused document: too many nodes: {(1 << 20) + 1}\n"
    names = [f"a{k}" for k in range(64)]
    rules = " ".join(f"self.{name} := 1; self.b{name} := 2;" for name in names)
    wide = f"root R; interface R {{ }} interface K {{ syn {', '.join(names)}; }} class C : R {{ kids : [K]; }}\n"
    wide += f"class L : K {{ local {', '.join('b' + name for name in names)}; {rules} }}"
    count = (1 << 25) // 128 + 1
    wanted = f"refused document: too many instances: {count * 128}\n"
    yield "too many instances", "run", page_of(wide, count, "L{}\n"), wanted
    sums = " + ".join(["self.i"] * 200)
    reads = "root R; interface R { } interface K { input i; syn s; } class C : R { kids : [K]; }\n"
    reads += f"class L : K {{ self.s := {sums}; }}"
    wanted = "refused document: too many reads in stage 1: 67109000\n"
    yield "too many reads", "run", page_of(reads, 335545, "L{i=1}\n"), wanted


def main():
    program = program_at(1)
    pages = 0
    differ = 0
    for makes in (example_pages, long_pages):
        for name, command, text, wanted in makes():
            run = subprocess.run([program, command], input=text, stdout=subprocess.PIPE)
            told = run.stdout.decode()
            pages += 1
            if told != wanted or run.returncode != status_of(wanted):
                differ += 1
                print(f"{name}: status {run.returncode}, printed is\n{told}and wanted\n{wanted}")
    print(f"{pages} pages, {differ} differ")
    sys.exit(differ > 0)


if __name__ == "__main__":
    main()
