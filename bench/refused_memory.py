#!/usr/bin/env python3
"""Refuses each allocation in turn: for N from 1 on, the Nth call by which the program asks for memory gets none, until
a run makes fewer calls. Each such run has to end with status 9 and nothing written, or as the run with ample memory.

usage: bench/refused_memory.py [PROGRAM]     PROGRAM is the proved one, which ./prove builds, if left out

It needs Linux with glibc, and a C compiler as $CC or cc, for what stands between the program and malloc. `rt try
--fail-alloc N` does the same for one N on a checked build, which it makes anew each time.
"""
import os
import subprocess
import sys
import tempfile

from program import program_at


# Counts the calls that come from the program's own code; a byte on the descriptor says that one was refused.
BETWEEN = r"""
#define _GNU_SOURCE
#include <link.h>
#include <stdlib.h>
#include <unistd.h>

extern void *__libc_malloc(size_t);
extern void *__libc_realloc(void *, size_t);

static char *low, *high;
static long refused, told, count;

static int is_program(struct dl_phdr_info *info, size_t size, void *data) {
    for (int k = 0; k < info->dlpi_phnum; k++) {
        char *start = (char *)info->dlpi_addr + info->dlpi_phdr[k].p_vaddr;
        char *end = start + info->dlpi_phdr[k].p_memsz;
        if (info->dlpi_phdr[k].p_type != PT_LOAD) continue;
        if (!low || start < low) low = start;
        if (end > high) high = end;
    }
    return 1; /* the program comes first, and no more is asked for */
}

__attribute__((constructor)) static void begin(void) {
    refused = atol(getenv("REFUSED_CALL"));
    told = atol(getenv("REFUSED_TOLD"));
    dl_iterate_phdr(is_program, NULL);
}

static int is_refused(void *caller) {
    if ((char *)caller < low || (char *)caller >= high) return 0;
    if (__atomic_add_fetch(&count, 1, __ATOMIC_SEQ_CST) != refused) return 0;
    return write((int)told, "x", 1) == 1;
}

void *malloc(size_t size) {
    return is_refused(__builtin_return_address(0)) ? NULL : __libc_malloc(size);
}

void *realloc(void *old, size_t size) {
    return is_refused(__builtin_return_address(0)) ? NULL : __libc_realloc(old, size);
}
"""

TWO_WORDS = b"""%page 1
%grammar stack
%schedule auto
%document
Sheet { body = Column { kids = [ Word { iw = 20 ih = 10 } Word { iw = 30 ih = 15 } ] } }
"""

# Kids that read the kid before, in order.
CHAIN = b"""%page 1
%grammar
root R; interface R { } interface K { inh a, b; show a, b; }
class C : R { kids : [K]; kids.a := first 1 then prev.b; kids.b := first 2 then prev.a + prev.b; } class L : K { }
%schedule
inorder { K.a K.b }
%document
C { kids = [ L { } L { } L { } ] }
"""

EDITED = TWO_WORDS + b"""%edits
2.iw = 50;
2.ih = 11;
"""

# The words of the layout program, and its input.
CASES = [
    (["run"], TWO_WORDS),
    (["run", "--workers", "2", "--grain", "1"], TWO_WORDS),
    (["run"], CHAIN),
    (["demand"], TWO_WORDS),
    (["edit"], EDITED),
    (["edit", "--workers", "2", "--grain", "1"], EDITED),
    (["sample", "2"], b""),
]


def built(folder):
    """The library that stands between a program and malloc."""
    source, library = os.path.join(folder, "between.c"), os.path.join(folder, "between.so")
    with open(source, "w") as out:
        out.write(BETWEEN)
    subprocess.run([os.environ.get("CC", "cc"), "-O1", "-shared", "-fPIC", "-o", library, source], check=True)
    return library


def run(library, command, text, call):
    """Status, output and whether this call came and was refused; call 0 refuses none."""
    read, write = os.pipe()
    words = dict(os.environ, LD_PRELOAD=library, REFUSED_CALL=str(call), REFUSED_TOLD=str(write))
    done = subprocess.run(command, input=text, stdout=subprocess.PIPE, stderr=subprocess.DEVNULL, env=words,
                          pass_fds=[write], timeout=60)
    os.close(write)
    came = os.read(read, 1) == b"x"
    os.close(read)
    return done.returncode, done.stdout, came


def refuse_each(library, command, text):
    """How many calls there are, how many of them are answered by want of memory if refused, and which are wrong."""
    status, output, _came = run(library, command, text, 0)
    call, refusals, wrong = 0, 0, []
    while True:
        call += 1
        ended, told, came = run(library, command, text, call)
        if not came:
            return call - 1, refusals, wrong
        if ended == 9 and not told:
            refusals += 1
        elif (ended, told) != (status, output):
            wrong.append((call, ended, len(told)))


def main():
    program = program_at(1)
    failed = False
    with tempfile.TemporaryDirectory() as folder:
        library = built(folder)
        for words, text in CASES:
            calls, refusals, wrong = refuse_each(library, [program] + words, text)
            rest = calls - refusals - len(wrong)
            print(f"{' '.join(words)}: {calls} calls, {refusals} refused with status 9, {rest} as before")
            for call, ended, length in wrong:
                print(f"  call {call} refused: status {ended}, {length} bytes written")
            failed = failed or bool(wrong) or not calls
    sys.exit(1 if failed else 0)


if __name__ == "__main__":
    main()
