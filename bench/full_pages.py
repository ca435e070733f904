#!/usr/bin/env python3
"""Tells the processor time and the peak memory of runs on pages as large as they may be: 64 MiB of comments, of blanks,
of one name, of one number, of the widest document and of the deepest one, of words, and of a document whose fields stand
in another order than in their class. The least of several runs counts. Beside them stands another program where one is named.

usage: bench/full_pages.py [RUNS [PROGRAM [BEFORE]]]     3 runs, and the proved program, which ./prove builds, if left out
"""
import os
import subprocess
import sys
import tempfile

import large_pages  # noqa: F401, for what it sets
from program import program_at

BYTES = 64 << 20
NODES = 1 << 20
HEAD = """%page 1
%grammar
root Box;
interface Box { syn s; show s; }
class Top : Box { kids : [Box]; self.s := 0; }
class N : Box { input a, b; self.s := self.a + self.b; }
class In : Box { kids : [Box]; self.s := last kids.s or 0; }
%schedule auto
%document
"""


def filled(front, again, back, count=None):
    """A page of 64 MiB at most: the front, the same again and again, and the back."""
    room = BYTES - len(HEAD) - len(front) - len(back)
    most = room // len(again)
    return f"{HEAD}{front}{again * min(most, count or most)}{back}"


def comments():
    return filled("", "# a line that says nothing of any node\n", "Top { kids = [ ] }\n")


def blanks():
    return filled("Top {", " ", "kids = [ ] }\n")


def one_name():
    return filled("Top { kids = [ ", "n", " { } ] }\n")


def one_number():
    return filled("Top { kids = [ N { a = ", "7", " b = 1 } ] }\n")


def widest():
    return filled("Top { kids = [ ", "N { a = 1 b = 2 } ", "] }\n", NODES - 2)


def deepest():
    """Chains as deep as a document may be, beside each other."""
    chain = "In { kids = [ " * 511 + "] } " * 511
    return filled("Top { kids = [ ", chain, "] }\n", NODES // 512)


def long_numbers():
    return filled("Top { kids = [ ", f"N {{ a = {'0' * 40}1 b = -2 }} ", "] }\n", NODES - 2)


def other_order():
    return filled("Top { kids = [ ", "N { b = 2 a = 1 } ", "] }\n", NODES - 2)


PAGES = {
    "comments": comments,
    "blanks": blanks,
    "one name": one_name,
    "one number": one_number,
    "widest document": widest,
    "deepest document": deepest,
    "long numbers": long_numbers,
    "fields in another order": other_order,
}


def cost(program, source):
    """The status, the processor seconds and the megabytes of a run."""
    source.seek(0)
    with subprocess.Popen([program, "run"], stdin=source, stdout=subprocess.DEVNULL) as started:
        _, status, usage = os.wait4(started.pid, 0)
        started.returncode = os.waitstatus_to_exitcode(status)
    return started.returncode, usage.ru_utime + usage.ru_stime, usage.ru_maxrss * 1024 / 1e6


def told(program, source, runs):
    """What the least of so many runs took, as text."""
    each = [cost(program, source) for _ in range(runs)]
    seconds, memory = min(it[1] for it in each), min(it[2] for it in each)
    return f"status {each[0][0]} {seconds:7.3f} s {memory:6.0f} MB"


def main():
    runs = int(sys.argv[1]) if len(sys.argv) > 1 else 3
    programs = [program_at(2), *sys.argv[3:4]]
    for name, page in PAGES.items():
        with tempfile.TemporaryFile() as source:
            source.write(page().encode())
            size = source.tell()
            shown = "   ".join(told(it, source, runs) for it in programs)
        print(f"{name:24}{size / 1e6:6.1f} MB   {shown}", flush=True)


if __name__ == "__main__":
    main()
